"""Reading a report: the rules P1 to P14, with the network or without it."""
from __future__ import annotations

from fractions import Fraction
from typing import Dict, List, Optional, Tuple, Union

from .causes import check_cause, count_of, printed_number
from .curves import Curve
from .faults import Refused
from .lines import MOST_REPORT_BYTES, PathLike, Text, as_bytes, broken, content_words, read_bytes, shown_name, split_lines
from .merging import slopes_of
from .networks import Network, read_network
from .report_values import STATES, Report

HEADS = ("horizon", "reached", "cause")
COUNTS = {"horizon": 2, "reached": 2, "label": 4, "never": 2, "inflow": 5, "outflow": 5, "queue": 4, "state": 3, "end": 1}

Subject = Tuple[str, str]  # the first word of a curve's lines and its name


class _Order:
    """The curves of a report in their order, one after the other: those of a network, or any that make a whole report."""

    def __init__(self, net: Optional[Network]) -> None:
        self.current: Optional[Subject] = None
        self.seen: Dict[Subject, None] = {}
        self.wanted: Optional[List[Subject]] = None
        if net is not None:
            self.wanted = [("label", node) for node in net.nodes()] + [("never", node) for node in net.idle_nodes()]
            self.wanted += [(kind, link.name) for link in net.used_links() for kind in ("inflow", "outflow", "queue")]

    def takes(self, subject: Subject) -> bool:
        """Whether the subject is the next one; then it is the current one."""
        fits = self._follows(subject) if self.wanted is None else self.wanted[len(self.seen):len(self.seen) + 1] == [subject]
        if fits:
            self.current = subject
            self.seen[subject] = None
        return fits

    def _follows(self, subject: Subject) -> bool:
        """Whether the subject may be next, where the network isn't known."""
        kind, name = subject
        before, last = self.current or ("label", "")
        if subject in self.seen or (kind != "label" and len(self.seen) < 2):
            return False
        if kind in ("outflow", "queue"):
            return last == name and before == {"outflow": "inflow", "queue": "outflow"}[kind]
        return before in {"label": ("label",), "never": ("label", "never"), "inflow": ("label", "never", "queue")}[kind]

    def complete(self) -> bool:
        """Whether the current subject may be the last one."""
        if self.wanted is not None:
            return len(self.seen) == len(self.wanted)
        return self.current is not None and self.current[0] == "queue"

    def links(self) -> List[str]:
        """The names of the links in order."""
        return [name for kind, name in self.wanted or self.seen if kind == "queue"]


class _Reader:
    """What the lines read so far say."""

    def __init__(self, net: Optional[Network], version: int) -> None:
        self.net, self.version = net, version
        self.order = _Order(net)
        self.points: Dict[Subject, List[Tuple[Fraction, Fraction]]] = {}
        self.rates: Dict[Subject, List[Fraction]] = {}
        self.heads: Dict[str, Fraction] = {}
        self.cause = ""
        self.states: Dict[str, str] = {}
        self.links: Optional[Dict[str, int]] = None  # places by name, once all curves were read
        self.last_state = -1
        self.ended = False

    def take(self, words: List[str], following: List[str]) -> None:
        """Takes a line that keeps P3 to P6; refuses by the lowest of P7 to P14."""
        if words[0] == "cause":
            self.take_cause(words)
        elif words[0] in HEADS:
            self.take_head(*words)
        elif words[0] == "state":
            self.take_state(words[1], words[2])
        elif words[0] == "end":
            self.close()
            self.ended = True
        else:
            self.take_curve(words, following)

    def take_head(self, kind: str, word: str) -> None:
        """A `horizon` or `reached` line."""
        number = printed_number(word)
        self.heads[kind] = number
        if number < 0 or number > self.heads["horizon"]:
            raise broken("P10", f"{kind} is {word}: it is at least 0, and reached at most the horizon")

    def take_cause(self, words: List[str]) -> None:
        """The `cause` line."""
        self.cause = " ".join(words[1:])
        check_cause(words[1:])
        if (self.cause == "done") != (self.heads["horizon"] == self.heads["reached"]):
            raise broken("P10", "the cause is `done` exactly where reached is the horizon")

    def take_state(self, name: str, state: str) -> None:
        """A `state` line."""
        links = self.places() if self.links is None else self.links
        if links.get(name, -1) <= self.last_state:
            raise broken("P7", f"{name} is no link, or one before that of the state line before")
        unbounded = self.net is not None and self.net.links[name].capacity is None
        if state not in STATES or (unbounded and state == "full"):
            raise broken("P9", f"{state} is no state of {name}: {', '.join(STATES)} are, and an unbounded link is never full")
        self.close()
        self.links, self.last_state, self.states[name] = links, links[name], state

    def close(self) -> None:
        """Ends the curves at a `state` or `end` line."""
        if self.links is None:
            if not self.order.complete():
                raise broken("P13", "a curve is missing before this line: is the report cut?")
            self.links = self.places()
        if self.ended:
            raise broken("P14", "something stands after `end`")

    def places(self) -> Dict[str, int]:
        """The places of the links by name."""
        return {link: place for place, link in enumerate(self.order.links())}

    def take_curve(self, words: List[str], following: List[str]) -> None:
        """A line of a curve."""
        subject = (words[0], words[1])
        if self.links is not None or (subject[0] == "never" or subject != self.order.current) and not self.order.takes(subject):
            raise broken("P7", f"`{words[0]} {words[1]}` is neither the curve that is being read nor the next one")
        if words[0] != "never":
            self.take_point(subject, words, tuple(following[:2]) != subject)

    def take_point(self, subject: Subject, words: List[str], last: bool) -> None:
        """A point of the current curve."""
        time, value = printed_number(words[2]), printed_number(words[3])
        rate = printed_number(words[4]) if len(words) == 5 and words[4] != "-" else None
        points = self.points.setdefault(subject, [])
        if (time <= points[-1][0]) if points else (time != 0):
            why = f"time {words[2]} isn't above the time before it" if points else f"the first time is {words[2]}, not 0"
            raise broken("P11", why)
        if len(words) == 5 and last != (rate is None):
            raise broken("P12", "the rate is `-` exactly on the last point of a curve")
        points.append((time, value))
        if rate is not None:
            self.rates.setdefault(subject, []).append(rate)

    def report(self) -> Report:
        """The report of the lines."""
        if not self.ended:
            raise broken("P14", "there is no line `end`: is the report cut?")
        kinds: Dict[str, Dict[str, Curve]] = {"label": {}, "inflow": {}, "outflow": {}, "queue": {}}
        for (kind, name), points in self.points.items():
            kinds[kind][name] = Curve._made(points, points[-1][0])
        wrong = {subject: rates for subject, rates in self.rates.items() if rates != slopes_of(self.points[subject])}
        never = [name for kind, name in self.order.seen if kind == "never"]
        return Report(self.heads["horizon"], self.heads["reached"], kinds["label"], kinds["inflow"], kinds["outflow"], kinds["queue"],
                      self.states, self.cause, self.net, self.version, never, wrong)


WINDOWS = "the line has the ending of Windows (CR LF): write the report with LF alone, as by tr -d '\\r' < REPORT > NEW"


def _check_form(words: List[str], line: str, index: int, net: Optional[Network]) -> None:
    """Rules P3 to P6 of a line; `index` counts from 0."""
    if not words or " ".join(words) != line:
        raise broken("P3", WINDOWS if line.endswith("\r") else "the line isn't its words with single spaces between them")
    if index == 0:
        wanted = [["report", str(version)] for version in ((1, 2) if net is None else (net.version,))]
        if words not in wanted:
            raise broken("P4", f"the first line isn't {' or '.join(f'`report {version}`' for _, version in wanted)}")
        return
    allowed = HEADS[index - 1:index] if index <= len(HEADS) else tuple(COUNTS)[2:]
    if words[0] not in allowed:
        raise broken("P5", f"`{words[0][:40]}` begins no line here: {', '.join(allowed)} do")
    count = 1 + count_of(words[1:]) if words[0] == "cause" else COUNTS[words[0]]
    if len(words) != count:
        raise broken("P6", f"the line has {len(words)} words, and {count} are right for it")


def report_of(text: Text, name: str = "report", net: Optional[Network] = None) -> Report:
    """The report of the text or the lines of a file; `name` is the file's name in faults.

    With a network all of P1 to P14 are looked at, as `nfot check` does; without it the form alone, and that nothing is missing.
    """
    number = 0
    try:
        lines, ended = split_lines(as_bytes(text), "P")
        reader = _Reader(net, 2 if lines[:1] == ["report 2"] else 1)
        following = content_words(lines[0]) if lines else []
        for index, line in enumerate(lines or [""]):
            number, words = index + 1, following
            following = content_words(lines[number]) if number < len(lines) else []
            if not lines:
                raise broken("P4", "the report is empty")
            _check_form(words, line if number < len(lines) or ended else line + " ", index, net)
            if words[0] == "never" and reader.version == 1:
                raise broken("P5", "`never` begins no line of a report of version 1")
            if index:
                reader.take(words, following)
        number = 0
        return reader.report()
    except Refused as fault:
        if fault.rule in ("P3", "P6", "P8", "P12") and lines[-1].strip() != "end":
            fault.why += ": is the report cut? Its last line isn't `end`"
        raise fault.placed(name, number) from None


def read_report(path: PathLike, net: Union[Network, PathLike, None] = None) -> Report:
    """The report of a file (`-` is standard input), with its network or the name of its file if that is given."""
    network = net if net is None or isinstance(net, Network) else read_network(net)
    return report_of(read_bytes(path, MOST_REPORT_BYTES), shown_name(path), network)
