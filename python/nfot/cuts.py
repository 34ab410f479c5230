"""Bottlenecks: the links that count in the cut of `nfot quick`, and those of a run that never ends."""
from __future__ import annotations

from dataclasses import dataclass
from fractions import Fraction
from typing import Iterable, Mapping, Sequence

from .faults import Refused
from .networks import Link, Network
from .numbers import exact


@dataclass(frozen=True)
class CutLink:
    """A link of a cut over time: for how long it counts, and how much it lets through in that time."""
    link: Link
    lasts: Fraction
    amount: Fraction


def numbers_of(lines: Iterable[str], word: str, name: str) -> dict[str, Fraction]:
    """The numbers of the lines `WORD NODE NUMBER`, by node; a Fault with the line where one has another form."""
    found = {}
    for at, line in enumerate(lines, 1):
        words = line.split()
        if words[:1] != [word]:
            continue
        if len(words) != 3:
            raise Refused(f"a line `{word}` has a node and a number", file=name, line=at)
        try:
            found[words[1]] = exact(words[2])
        except Refused as fault:
            raise fault.placed(name, at) from None
    return found


def links_of_cut(net: Network, cut: Mapping[str, Fraction]) -> list[CutLink]:
    """The links that count in a cut over time (a time for each node): those whose end comes later than their start and transit time.

    An unbounded link never counts. The amounts add up to the value of the cut."""
    found = []
    for link in net.used_links():
        if link.capacity is not None:
            lasts = cut[link.head] - link.transit - cut[link.tail]
            if lasts > 0:
                found.append(CutLink(link, lasts, lasts * link.capacity))
    return found


@dataclass(frozen=True)
class Bottleneck:
    """The bottleneck in the long run: its links, their capacity together, the last supply rate, and the slope of the sink.

    Where travel times settle the slope is 1, and there are no links."""
    links: Sequence[Link]
    capacity: Fraction
    rate: Fraction
    slope: Fraction


def bottleneck(net: Network, slopes: Mapping[str, Fraction]) -> Bottleneck:
    """The bottleneck that the slopes of the phase without end show: the links from nodes of lesser slope than the sink to the others.

    Raises a Fault with status 1 where the slopes aren't those of this network."""
    slope, rate = slopes.get(net.sink), net.supply[-1][1] if net.supply else Fraction(0)
    if slope is None or set(slopes) != set(net.nodes()):
        raise Refused("the slopes are those of other nodes than the network has", status=1)
    if slope == 1:
        return Bottleneck((), Fraction(0), rate, slope)
    slower = {node for node, growth in slopes.items() if growth < slope}
    links = [link for link in net.used_links() if link.tail in slower and link.head not in slower]
    capacities = [link.capacity for link in links if link.capacity is not None]
    together = sum(capacities, Fraction(0))
    if len(capacities) < len(links) or slope * together != rate:
        raise Refused("the slopes aren't those of this network: its links don't let out what they say", status=1)
    return Bottleneck(links, together, rate, slope)
