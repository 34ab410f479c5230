"""Links, and networks in the making: the rules N7 to N22 of the network file."""
from __future__ import annotations

from dataclasses import dataclass
from fractions import Fraction
from typing import Dict, List, Optional, Tuple

from .faults import Refused
from .graph import cycle_links, least_sums, reached_from, sum_passes
from .lines import broken, check_name
from .numbers import Number, exact, short, within

MOST_NODES, MOST_LINKS, MOST_PIECES = 64, 200, 200

Piece = Tuple[Fraction, Fraction]


def fitting(value: Number, what: str) -> Fraction:
    """The number of a file; Refused where a part of it is too wide."""
    number = exact(value)
    if not within(number):
        raise broken("N8", f"{what} {str(number)[:50]} is too wide: numerator and denominator are at most 2^127 - 1, so round it")
    return number


@dataclass(frozen=True)
class Link:
    """A link from `tail` to `head`: the time to cross it, and the amount that it lets out per unit of time (None: unbounded)."""
    name: str
    tail: str
    head: str
    transit: Fraction
    capacity: Optional[Fraction]

    def __init__(self, name: str, tail: str, head: str, transit: Number, capacity: Optional[Number]) -> None:
        for word, what in (name, "link"), (tail, "node"), (head, "node"):
            check_name(word, what)
        values = {"name": name, "tail": tail, "head": head, "transit": fitting(transit, "transit time"),
                  "capacity": None if capacity is None or capacity == "inf" else fitting(capacity, "capacity")}
        for field, value in values.items():
            object.__setattr__(self, field, value)
        if self.transit < 0:
            raise broken("N13", f"the transit time {short(self.transit)} of {name} is negative: it is 0 or more")
        if self.capacity is not None and self.capacity <= 0:
            raise broken("N14", f"the capacity {short(self.capacity)} of {name} isn't above 0: leave the link out if nothing may pass")


class Draft:
    """A network that is being made, line by line: each call refuses by the lowest of the rules N9 to N16 that it breaks."""

    def __init__(self, version: int) -> None:
        self.version = version
        self.ends: Dict[str, str] = {}
        self.names: Dict[str, None] = {}
        self.links: Dict[str, Link] = {}
        self.pieces: List[Piece] = []

    def add_end(self, kind: str, node: str) -> None:
        """A source or a sink."""
        check_name(node, "node")
        if kind in self.ends:
            raise broken("N9", f"there are two lines {kind}")
        self.ends[kind] = node
        self.add_nodes(node)

    def add_nodes(self, *nodes: str) -> None:
        """Names of nodes."""
        self.names.update(dict.fromkeys(nodes))
        if len(self.names) > MOST_NODES:
            raise broken("N10", f"{nodes[-1]} is node {MOST_NODES + 1}, and {MOST_NODES} are allowed")

    def add_link(self, link: Link) -> None:
        """A link whose name and ends are names; Refused where it is no Link."""
        if not isinstance(link, Link):
            raise Refused(f"a link is made by Link(name, tail, head, transit, capacity), not {link!r:.60}")
        self.before_link(link.name, link.tail, link.head)
        if link.capacity is None and self.version == 1:
            raise broken("N8", f"{link.name} has no capacity: `inf` needs a file of version 2")
        self.links[link.name] = link

    def before_link(self, name: str, tail: str, head: str) -> None:
        """Rules N9 to N11 of the next link."""
        if name in self.links:
            raise broken("N9", f"there are two links {name}: give one of them another name")
        self.add_nodes(tail, head)
        if len(self.links) == MOST_LINKS:
            raise broken("N11", f"{name} is link {MOST_LINKS + 1}, and {MOST_LINKS} are allowed")

    def add_piece(self, start: Fraction, rate: Fraction) -> None:
        """A piece of the supply."""
        if len(self.pieces) == MOST_PIECES:
            raise broken("N12", f"it is inflow {MOST_PIECES + 1}, and {MOST_PIECES} are allowed")
        if start < 0 or rate < 0:
            raise broken("N15", f"the inflow of {short(rate)} from {short(start)} on has a negative number")
        if self.pieces and start <= self.pieces[-1][0]:
            raise broken("N16", f"start {short(start)} isn't above the start before it, {short(self.pieces[-1][0])}: sort them")
        self.pieces.append((start, rate))

    def check_whole(self) -> None:
        """Rules N18 to N22."""
        for kind in ("source", "sink"):
            if kind not in self.ends:
                raise broken("N18", f"there is no line `{kind} NODE`")
        source, sink = self.ends["source"], self.ends["sink"]
        if source == sink:
            raise broken("N19", f"source and sink are both {source}")
        links = list(self.links.values())
        reached = reached_from(source, links)
        strange = [node for node in self.names if node not in reached and (self.version == 1 or node == sink)]
        if strange:
            raise broken("N20", f"no walk along links leads from the source {source} to {' '.join(strange)}")
        cycle = cycle_links([link for link in links if link.transit == 0])
        if cycle:
            raise broken("N21", f"links of transit time 0 form a cycle: {' '.join(cycle)}")
        used = [link for link in links if link.tail in reached]
        sums = least_sums(source, used)
        wide = [link.name for link in used if within(sums[link.tail]) and sum_passes(sums[link.tail], link.transit)]
        if wide:
            raise broken("N22", f"the transit times up to the end of {wide[0]} have too wide a sum: round them")
