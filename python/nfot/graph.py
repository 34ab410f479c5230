"""Walks in a graph of links: the nodes that are reached, least transit sums, cycles, paths."""
from __future__ import annotations

from fractions import Fraction
from math import lcm
from typing import TYPE_CHECKING, Collection, Dict, Iterable, List, Set

from .numbers import BOUND

if TYPE_CHECKING:
    from .drafts import Link


def reached_from(source: str, links: Iterable["Link"]) -> Set[str]:
    """The nodes to which a walk leads from the source."""
    heads: Dict[str, List[str]] = {}
    for link in links:
        heads.setdefault(link.tail, []).append(link.head)
    reached, waiting = {source}, [source]
    while waiting:
        new = [head for head in heads.get(waiting.pop(), ()) if head not in reached]
        reached.update(new)
        waiting += new
    return reached


def least_sums(source: str, links: Collection["Link"]) -> Dict[str, Fraction]:
    """The least transit sum from the source to each node that is reached."""
    least, changed = {source: Fraction(0)}, True
    while changed:
        changed = False
        for link in links:
            if link.tail not in least:
                continue
            total = least[link.tail] + link.transit
            if link.head not in least or total < least[link.head]:
                least[link.head], changed = total, True
    return least


def sum_passes(left: Fraction, right: Fraction) -> bool:
    """Whether the sum of two numbers is one that `nfot` refuses as too wide."""
    below = lcm(left.denominator, right.denominator)
    first = left.numerator * (below // left.denominator)
    second = right.numerator * (below // right.denominator)
    return below > BOUND or max(abs(first), abs(second), abs(first + second)) > BOUND


def cycle_links(links: Collection["Link"]) -> List[str]:
    """The names of links that lie on cycles or between them; none where there is no cycle."""
    left = list(links)
    while True:
        tails, heads = {link.tail for link in left}, {link.head for link in left}
        kept = [link for link in left if link.head in tails and link.tail in heads]
        if len(kept) == len(left):
            return [link.name for link in left]
        left = kept


def path_of(source: str, sink: str, links: Collection["Link"]) -> List[str]:
    """The names of the links of a walk from the source to the sink with as few links as possible; none where there is no walk."""
    before: Dict[str, "Link"] = {}
    front = [source]
    while front and sink not in before:
        new = []
        for link in links:
            if link.tail in front and link.head not in before and link.head != source:
                before[link.head] = link
                new.append(link.head)
        front = new
    walk: List[str] = []
    node = sink
    while node in before:
        walk.insert(0, before[node].name)
        node = before[node].tail
    return walk
