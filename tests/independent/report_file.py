"""Reading a report of a given network: the rules P1 to P14 in their order.

FORMATS.md, "How a report is read".
"""
from .exact import OPERATION_NAMES, PART_NAMES, ZERO, read_count, read_printed
from .lines import Broken, read_lines
from .patterns import FULL, State
from .phases import DONE, Flow
from .reports import Report

HEAD_WORDS = ("horizon", "reached", "cause")
TRACES = ("inflow", "outflow")
BODY_WORDS = ("label", "never", *TRACES, "queue", "state", "end")
WORD_COUNTS = {"horizon": 2, "reached": 2, "label": 4, "never": 2, "inflow": 5, "outflow": 5, "queue": 4, "state": 3,
               "end": 1}
CAUSE_COUNTS = {"done": 2, "phases": 3, "patterns": 4, "passed": 8, "nopattern": 3}


def read_report(net, text):
    """The report of a text; raises Broken with the first rule that the text breaks."""
    lines = read_lines(text, "P")
    if not lines:
        raise Broken("P4", 1)
    draft = Draft(net)
    for index, line in enumerate(lines):
        following = lines[index + 1].words if index + 1 < len(lines) else []
        rule = form_rule(net, index, line) or draft.take_line(line.words, following)
        if rule is not None:
            raise Broken(rule, line.number)
    if not draft.ended:
        raise Broken("P14", 0)
    return draft.report()


def form_rule(net, index, line):
    """The lowest of the rules P3 to P6 that a line breaks, or None. `index` counts lines from 0."""
    words = line.words
    if not line.plain or not words:
        return "P3"
    if index == 0:
        return None if words == ["report", str(net.version)] else "P4"
    if index <= len(HEAD_WORDS):
        allowed = [HEAD_WORDS[index - 1]]
    else:
        allowed = [word for word in BODY_WORDS if word != "never" or net.version == 2]
    if words[0] not in allowed:
        return "P5"
    return None if has_its_words(words) else "P6"


def has_its_words(words):
    """Whether a line has as many words as its first word asks for, or as its cause does."""
    if words[0] != "cause":
        return len(words) == WORD_COUNTS[words[0]]
    return len(words) >= 2 and len(words) == CAUSE_COUNTS.get(words[1], len(words))


class Draft:
    """The parser's state: what the lines read so far say.

    `order` has the first word and the subject of each curve, as they have to stand. `reading` is the current one's place.
    """

    def __init__(self, net):
        self.net = net
        self.order = curves_in_order(net)
        self.points = [[] for _ in self.order]
        self.rates = [[] for _ in self.order]
        self.reading = -1
        self.horizon = self.reached = self.cause = None
        self.pattern = [None] * len(net.links)
        self.last_stated = -1
        self.closed = False         # a `state` or `end` line was read
        self.ended = False

    def take_line(self, words, following):
        """Reads a line that keeps P3 to P6; returns the lowest of the rules P7 to P14 that it breaks, or None.

        `following` has the words of the next line.
        """
        first = words[0]
        if first == "report":
            return None
        if first in HEAD_WORDS:
            return self.take_head(first, words)
        if first == "state":
            return self.take_state(words[1], words[2]) or self.close()
        if first == "end":
            rule = self.close()
            self.ended = True
            return rule
        return self.take_curve_line(words, following)

    def take_head(self, first, words):
        """Reads a `horizon`, `reached` or `cause` line: P8 to P10."""
        if first == "cause":
            rule = cause_rule(words)
            self.cause = " ".join(words[1:])
            return rule or (None if (self.cause == DONE) == (self.reached == self.horizon) else "P10")
        number = read_printed(words[1])
        if number is None:
            return "P8"
        if first == "horizon":
            self.horizon = number
        else:
            self.reached = number
        return "P10" if number < ZERO or number > self.horizon else None

    def take_state(self, name, word):
        """Reads what a `state` line says of a link: P7, P9."""
        e = self.net.link_number.get(name)
        if e is None or e <= self.last_stated:
            return "P7"
        if word not in [state.value for state in State]:
            return "P9"
        state = State(word)
        if state == FULL and self.net.links[e].capacity is None:
            return "P9"
        self.last_stated = e
        self.pattern[e] = state
        return None

    def close(self):
        """Closes the curves at a `state` or `end` line. P13: all curves were read. P14: no `end` was."""
        if self.reading != len(self.order) - 1:
            return "P13"
        self.closed = True
        return "P14" if self.ended else None

    def take_curve_line(self, words, following):
        """Reads a line of a curve: P7, and the rules of a point. A `never` line is a whole curve."""
        if self.closed:
            return "P7"
        subject = words[:2]
        if words[0] == "never" or self.reading < 0 or self.order[self.reading] != subject:
            self.reading += 1
            if self.reading == len(self.order) or self.order[self.reading] != subject:
                return "P7"
        if words[0] == "never":
            return None
        return self.take_point(words, is_last=following[:2] != subject)

    def take_point(self, words, is_last):
        """Reads a point of the current curve: P8, P11, P12."""
        time, value = read_printed(words[2]), read_printed(words[3])
        rate_word = words[4] if words[0] in TRACES else None
        rate = None if rate_word in (None, "-") else read_printed(rate_word)
        if time is None or value is None or (rate is None and rate_word not in (None, "-")):
            return "P8"
        points = self.points[self.reading]
        if (time <= points[-1][0]) if points else (time != ZERO):
            return "P11"
        if rate_word is not None and is_last != (rate_word == "-"):
            return "P12"
        points.append((time, value))
        if rate is not None:
            self.rates[self.reading].append(rate)
        return None

    def report(self):
        """The report that the lines say."""
        curves = {"label": [], "never": [], "inflow": [], "outflow": [], "queue": []}
        for (word, _), points, rates in zip(self.order, self.points, self.rates):
            curves[word].append((points, rates) if word in TRACES else points)
        flow = Flow(self.reached, curves["label"], curves["inflow"], curves["outflow"], curves["queue"])
        return Report(self.horizon, flow, self.cause, self.pattern)


def curves_in_order(net):
    """First word and subject of each curve of a report, in order."""
    order = [["label", name] for name in net.nodes] + [["never", name] for name in net.idle_nodes]
    return order + [[word, link.name] for link in net.links for word in (*TRACES, "queue")]


def cause_rule(words):
    """The lower of the rules P8 and P9 that a `cause` line breaks, or None. The line keeps P6."""
    kind, details = words[1], words[2:]
    if kind not in CAUSE_COUNTS:
        return "P9"
    if kind != "passed":
        return None if all(read_count(word) is not None for word in details) else "P8"
    phase, part, place, operation, left, right = details
    if read_count(phase) is None or (place != "-" and read_count(place) is None):
        return "P8"
    if read_printed(left) is None or read_printed(right) is None:
        return "P8"
    return None if part in PART_NAMES and operation in OPERATION_NAMES else "P9"
