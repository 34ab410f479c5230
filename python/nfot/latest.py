"""The latest arrival at the sink over all walks that flow takes, to tell the greatest loss of one vehicle."""
from __future__ import annotations

from fractions import Fraction
from typing import Dict, Iterator, List, Mapping, Optional, Sequence, Tuple

from .loading import FedLink
from .merging import on_line
from .networks import Network

Segment = Tuple[Fraction, Fraction, Fraction, Fraction]  # (from, to, value at from, value just before to): straight between
Values = Optional[Tuple[Fraction, Fraction]]  # of an interval: the value at its begin, and just before its end
ZERO = Fraction(0)


def latest(net: Network, flows: Mapping[str, FedLink], order: Sequence[str]) -> List[Segment]:
    """When a vehicle that is at the source at a time arrives at the latest, if it takes links only while flow enters them.

    The segments cover the times at which flow enters a link out of the source. Of the nodes whose arrivals changed, the last one of
    `order` is looked at first; that of the labels makes few repetitions.
    """
    end = max(flow.leaves(flow.rows[-1]) for flow in flows.values())
    found: Dict[str, List[Segment]] = {net.sink: [(ZERO, end, ZERO, end)] if end else []}
    rank = {node: -place for place, node in enumerate(order)}
    used = [flow.link for flow in flows.values() if flow.rows[-1][1] > 0]
    waiting = {net.sink}
    while waiting:
        node = min(waiting, key=lambda name: rank[name])
        waiting.remove(node)
        for link in used:
            if link.head == node:
                before = found.get(link.tail, [])
                found[link.tail] = later(before, entering(flows[link.name], found[node]))
                if found[link.tail] != before:
                    waiting.add(link.tail)
    return found.get(net.source, [])


def at(segment: Segment, time: Fraction) -> Fraction:
    """The value of a segment's line at a time."""
    begin, end, first, last = segment
    return first if time == begin else last if time == end else on_line((begin, first), (end, last), time)


def entering(flow: FedLink, after: Sequence[Segment]) -> List[Segment]:
    """The latest arrival of a vehicle that enters the link at a time, given that of one that is at its head; while flow enters."""
    found: List[Segment] = []
    place = 0
    for before, now in zip(flow.rows, flow.rows[1:]):
        if now[1] == before[1]:
            continue
        passing = flow.leaves(before), flow.leaves(now), before[0], now[0]
        while place < len(after) and after[place][1] <= passing[0]:
            place += 1
        number = place
        while number < len(after) and after[number][0] < passing[1]:
            segment = after[number]
            low, high = max(segment[0], passing[0]), min(segment[1], passing[1])
            found.append((at(passing, low), at(passing, high), at(segment, low), at(segment, high)))
            number += 1
    return found


def overlay(first: Sequence[Segment], second: Sequence[Segment]) -> Iterator[Tuple[Fraction, Fraction, Values, Values]]:
    """The intervals on which both are straight or not there, as (from, to, values of the one, values of the other)."""
    times = sorted({time for segment in [*first, *second] for time in segment[:2]})
    i = j = 0
    for begin, end in zip(times, times[1:]):
        i += i < len(first) and first[i][1] <= begin
        j += j < len(second) and second[j][1] <= begin
        here, there = (part[place] if place < len(part) and part[place][0] <= begin else None for part, place in ((first, i), (second, j)))
        yield begin, end, here and (at(here, begin), at(here, end)), there and (at(there, begin), at(there, end))


def later(first: Sequence[Segment], second: Sequence[Segment]) -> List[Segment]:
    """The later of two arrivals, where at least one is there."""
    found: List[Segment] = []
    for begin, end, here, there in overlay(first, second):
        if here and there and (here[0] - there[0]) * (here[1] - there[1]) < 0:
            share = (here[0] - there[0]) / (here[0] - there[0] - here[1] + there[1])
            cross, value = begin + (end - begin) * share, here[0] + (here[1] - here[0]) * share
            go_on(found, (begin, cross, max(here[0], there[0]), value))
            go_on(found, (cross, end, value, max(here[1], there[1])))
        elif here or there:
            both = [values for values in (here, there) if values]
            go_on(found, (begin, end, max(first for first, _ in both), max(last for _, last in both)))
    return found


def go_on(found: List[Segment], segment: Segment) -> None:
    """Appends a segment; where it goes on along the line of the last one, both are one."""
    if found and found[-1][1] == segment[0] and found[-1][3] == segment[2]:
        longer = found[-1][0], segment[1], found[-1][2], segment[3]
        if at(longer, segment[0]) == segment[2]:
            found[-1] = longer
            return
    found.append(segment)
