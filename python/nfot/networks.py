"""Networks: links, supply, and the network file."""
from __future__ import annotations

from fractions import Fraction
from types import MappingProxyType
from typing import Any, Iterable, List, Mapping, Optional, Tuple, Union

from .curves import Curve
from .drafts import Draft, Link, Piece, fitting
from .faults import OutOfRange, Refused
from .graph import reached_from
from .lines import PathLike, Text, as_bytes, broken, check_name, content_words, read_bytes, shown_name, split_lines
from .near import near
from .numbers import Number, file_number, hint, pairs_of
from .program import write_beside

__all__ = ["Link", "Network", "network_of", "read_network", "write_network"]

COUNTS = {"source": 2, "sink": 2, "link": 6, "inflow": 3, "end": 1}


class Network:
    """A network: source, sink, links by name in order, and the supply as pieces (start, rate).

    It never changes; `with_capacity` and the like return another one. What no network file may hold is refused when it is made, by
    the rule that the file would break. Numbers may be ints, Fractions, Decimals or texts; floats are refused.

    >>> net = Network("s", "t", [Link("a", "s", "t", 1, 1), Link("b", "s", "t", 3, "1/2")], [(0, 3)])
    >>> net.with_capacity("a", 2).links["a"].capacity
    Fraction(2, 1)
    """

    __slots__ = ("_source", "_sink", "_links", "_supply", "_version", "_reached")

    def __init__(self, source: str, sink: str, links: Union[Iterable[Link], Mapping[str, Link]],
                 supply: Iterable[Tuple[Number, Number]] = (), version: int = 2) -> None:
        if version not in (1, 2):
            raise broken("N3", f"there is no version {version} of the network file: 1 or 2")
        draft = Draft(version)
        draft.add_end("source", source)
        draft.add_end("sink", sink)
        if isinstance(links, Mapping):
            for key, link in links.items():
                if key != link.name:
                    raise Refused(f"the key {key} holds the link {link.name}: key and name are the same")
            links = links.values()
        for link in links:
            draft.add_link(link)
        for start, rate in pairs_of(supply, "supply"):
            draft.add_piece(fitting(start, "start"), fitting(rate, "rate"))
        self._take(draft)

    def _take(self, draft: Draft) -> None:
        """Makes the network of a draft."""
        draft.check_whole()
        self._source, self._sink, self._version = draft.ends["source"], draft.ends["sink"], draft.version
        self._links: Mapping[str, Link] = MappingProxyType(dict(draft.links))
        self._supply = tuple(draft.pieces)
        self._reached = frozenset(reached_from(self._source, draft.links.values()))

    @property
    def source(self) -> str:
        """The node at which all start."""
        return self._source

    @property
    def sink(self) -> str:
        """The node to which all go."""
        return self._sink

    @property
    def links(self) -> Mapping[str, Link]:
        """The links by name, in order; read only."""
        return self._links

    @property
    def supply(self) -> Tuple[Piece, ...]:
        """The pieces (start, rate): each rate holds up to the next start."""
        return self._supply

    @property
    def version(self) -> int:
        """The version of the network file, 1 or 2."""
        return self._version

    def __eq__(self, other: object) -> bool:
        return isinstance(other, Network) and self.text() == other.text()

    def __hash__(self) -> int:
        return hash(self.text())

    def __repr__(self) -> str:
        return f"<Network of {len(self.nodes())} nodes and {len(self.used_links())} links from {self.source} to {self.sink}>"

    def __reduce__(self) -> Tuple[Any, ...]:
        return Network, (self.source, self.sink, list(self.links.values()), self.supply, self.version)

    # ---- nodes and links in the order of reports

    def reached(self) -> frozenset[str]:
        """The nodes to which a walk leads from the source."""
        return self._reached

    def used_links(self) -> List[Link]:
        """The links whose tail is reached, in order."""
        return [link for link in self.links.values() if link.tail in self._reached]

    def nodes(self) -> List[str]:
        """The nodes that are reached: source, sink, then by first appearance."""
        ends = [node for link in self.used_links() for node in (link.tail, link.head)]
        return list(dict.fromkeys([self.source, self.sink, *ends]))

    def idle_nodes(self) -> List[str]:
        """The nodes that aren't reached, by first appearance."""
        idle = [link for link in self.links.values() if link.tail not in self._reached]
        return list(dict.fromkeys(node for link in idle for node in (link.tail, link.head) if node not in self._reached))

    # ---- other networks

    def _with(self, links: Iterable[Link], supply: Iterable[Tuple[Number, Number]]) -> "Network":
        return Network(self.source, self.sink, links, supply, self.version)

    def known(self, name: str) -> Link:
        """The link of a name; OutOfRange where there is none."""
        if name not in self.links:
            raise OutOfRange(f"the network has no link {name}{near(name, self.links)}")
        return self.links[name]

    def with_capacity(self, name: str, value: Optional[Number]) -> "Network":
        """The network with another capacity of a link (None: unbounded)."""
        link = self.known(name)
        return self.with_link(Link(name, link.tail, link.head, link.transit, value))

    def with_link(self, link: Link) -> "Network":
        """The network with one more link, or with this one in place of that of its name."""
        return self._with({**self.links, link.name: link}.values(), self.supply)

    def without(self, *names: str) -> "Network":
        """The network without some links."""
        gone = {self.known(name).name for name in names}
        return self._with([link for link in self.links.values() if link.name not in gone], self.supply)

    def with_supply(self, pieces: Iterable[Tuple[Number, Number]]) -> "Network":
        """The network with another supply."""
        return self._with(self.links.values(), pieces)

    # ---- supply and text

    def supplied(self, until: Number) -> Fraction:
        """The amount that leaves the source by a departure."""
        return self.supply_curve(until).points[-1][1]

    def supply_curve(self, until: Number) -> Curve:
        """The amount that has left the source by a departure, from 0 to `until`."""
        return Curve.of_rates(self.supply, until)

    def text(self) -> str:
        """The canonical text of the network file, as `nfot show` writes it."""
        idle = [link for link in self.links.values() if link.tail not in self._reached]
        lines = [f"nfot {self.version}", f"source {self.source}", f"sink {self.sink}"]
        for link in self.used_links() + idle:
            lines.append(f"link {link.name} {link.tail} {link.head} {link.transit} {'inf' if link.capacity is None else link.capacity}")
        lines += [f"inflow {start} {rate}" for start, rate in self.supply]
        return "\n".join([*lines, "end", ""])


def _take_line(draft: Draft, words: List[str]) -> None:
    """Takes a line of a file that has the right number of words: rules N7 to N16."""
    if words[0] in ("source", "sink"):
        draft.add_end(*words)
        return
    if words[0] == "link":
        _, name, tail, head, transit, capacity = words
        for word, what in (name, "link"), (tail, "node"), (head, "node"):
            check_name(word, what)
        unbounded = capacity == "inf" and draft.version == 2
        numbers = [_number(draft, transit), None if unbounded else _number(draft, capacity)]
        draft.before_link(name, tail, head)
        draft.links[name] = Link(name, tail, head, numbers[0] or 0, numbers[1])
        return
    draft.add_piece(_number(draft, words[1]), _number(draft, words[2]))


def _number(draft: Draft, word: str) -> Fraction:
    """The number of a word; Refused by N8."""
    number = file_number(word, draft.version == 2)
    if number is None:
        raise broken("N8", f"{word[:40]} is no number: {hint(word, '5/2' if draft.version == 1 else '5/2 or 2.5')}")
    return number


def network_of(text: Text, name: str = "network") -> Network:
    """The network of the text or the lines of a file; `name` is the file's name in faults."""
    number = 0
    try:
        lines, _ = split_lines(as_bytes(text), "N")
        content = [(number, words) for number, line in enumerate(lines, 1) if (words := content_words(line))]
        if not content or content[0][1] not in (["nfot", "1"], ["nfot", "2"]):
            raise broken("N3", "the first line with words is neither `nfot 1` nor `nfot 2`", content[0][0] if content else 1)
        draft, ended = Draft(int(content[0][1][1])), False
        for number, words in content[1:]:
            _check_form(words, ended)
            ended = ended or words == ["end"]
            if not ended:
                _take_line(draft, words)
        number = 0
        if not ended:
            raise broken("N17", "there is no line `end`: is the file cut?")
        network = Network.__new__(Network)
        network._take(draft)
        return network
    except Refused as fault:
        raise fault.placed(name, number) from None


def _check_form(words: List[str], ended: bool) -> None:
    """Rules N4 to N6 of a line."""
    if ended:
        raise broken("N4", f"a line `{words[0][:40]}` stands after `end`")
    if words[0] not in COUNTS:
        raise broken("N5", f"{words[0][:40]} begins no line of a network file: {', '.join(COUNTS)} do")
    if len(words) != COUNTS[words[0]]:
        raise broken("N6", f"the line has {len(words)} words, and a line `{words[0]}` has {COUNTS[words[0]]}")


def read_network(path: PathLike) -> Network:
    """The network of a file; `-` is standard input."""
    return network_of(read_bytes(path), shown_name(path))


def write_network(net: Network, path: PathLike) -> None:
    """Writes the network file, whole or not at all; `-` is standard output. Refused where the first argument is no network."""
    if not isinstance(net, Network):
        raise Refused(f"write_network(net, path) takes a network first, not {net!r:.60}")
    write_beside(path, net.text())
