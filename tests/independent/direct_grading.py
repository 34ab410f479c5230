"""Graded flows and the growth of the sink's label by definition.

A graded flow is a static flow from source to sink with a level for each node. Its store is a number for each departure. The store shows how fast
the label of the sink must approach a line whose slope is the sink's level.
"""
from __future__ import annotations

from fractions import Fraction
from typing import NamedTuple, Optional

from .direct import DirectFlow, plain, supply
from .direct_excess import corners
from .direct_growth import last_rate, least_capacity
from .network import Link, Network

NOTHING, UNIT = Fraction(0), Fraction(1)


class Grading(NamedTuple):
    """A flow for each link, in amounts a unit of time, and a level for each node (`IsGraded`)."""
    flows: list[Fraction]
    levels: list[Fraction]


def growth(net: Network) -> Fraction:
    """The last supply rate over the least capacity of a static cut, or 1 if that is more or if there is no static cut (`IsGrowth`)."""
    least = least_capacity(net)
    return UNIT if least is None else max(UNIT, last_rate(net) / least)


def fits(capacity: Optional[Fraction], flow: Fraction, tail_level: Fraction, head_level: Fraction) -> bool:
    """Whether a flow fits the levels at the ends of its link (`Fits`). Without a capacity the link leads to no higher level."""
    if flow < 0 or (flow > 0 and tail_level > head_level):
        return False
    if capacity is None:
        return head_level <= tail_level
    return flow <= capacity * head_level and (head_level <= tail_level or flow == capacity * head_level)


def is_graded(net: Network, grading: Grading) -> bool:
    """Whether it is a graded flow whose value is the last supply rate (`IsGraded`)."""
    flows, levels = grading
    for v in range(len(net.nodes)):
        value = last_rate(net) if v == net.source else NOTHING
        if v != net.sink and sum(flows[e] for e in net.out_of[v]) - sum(flows[e] for e in net.into[v]) != value:
            return False
    each = all(fits(capacity(link), flow, levels[link.tail], levels[link.head]) for link, flow in zip(net.links, flows))
    return each and levels[net.source] == 1 and min(levels) >= 1


def capacity(link: Link) -> Optional[Fraction]:
    """The capacity of a link, None if it is unbounded."""
    return None if link.capacity is None else plain(link.capacity)


def store(net: Network, grading: Grading, labels: list[Fraction]) -> Fraction:
    """The store of the labels of a departure.

    It is the queues that the departure meets, less the rate times the rise of label over level from source to sink, less, for each link to a
    higher level, its capacity times the rise of the level times the label over the level at its tail.
    """
    ratios = [label / level for label, level in zip(labels, grading.levels)]
    total = -last_rate(net) * (ratios[net.sink] - ratios[net.source])
    for link in net.links:
        rise = grading.levels[link.head] - grading.levels[link.tail]
        slack = labels[link.head] - labels[link.tail] - plain(link.transit)
        total += (capacity(link) or 0) * (max(NOTHING, slack) - max(NOTHING, rise) * ratios[link.tail])
    return total


def least_store(net: Network, grading: Grading) -> Fraction:
    """What no store is below: for each link, less its transit time times the sum of its flow and its capacity (0 if it is unbounded)."""
    return -sum((((capacity(link) or 0) + flow) * plain(link.transit) for link, flow in zip(net.links, grading.flows)), NOTHING)


def least_fall(net: Network, growth_there: Fraction, length: Fraction, rise: Fraction) -> Fraction:
    """By how much the store must fall at least while the label of the sink rises by `rise` in a time of this length.

    Let a be the slope of that label over the growth. At each moment the store falls at a rate of at least u times the integral of 1 - 1/y over y
    from 1 to a, with u the last supply rate. That integral is at least (a - 1)^2 / (2 max(1, a)), which is convex, so a may be an average.
    """
    average = rise / (length * growth_there)
    return last_rate(net) * length * (average - 1) ** 2 / (2 * max(UNIT, average))


def sways(direct: DirectFlow, growth_there: Fraction) -> list[Fraction]:
    """From each corner to the next, how much the label of the sink less the growth times the departure changes, as an absolute value (`sway`)."""
    times = corners(direct)
    apart = [direct.earliest(departure)[direct.net.sink] - growth_there * departure for departure in times]
    return [abs(after - before) for before, after in zip(apart, apart[1:])]


def growth_complaints(direct: DirectFlow, grading: Grading) -> list[list[object]]:
    """Where the label of the sink doesn't grow as it must, from the last start on: a list of what is wrong, and at which departure."""
    levels = [] if grading.levels[direct.net.sink] == growth(direct.net) else [["the level of the sink isn't the growth"]]
    return levels + cut_complaints(direct) + store_complaints(direct, grading)


def cut_complaints(direct: DirectFlow) -> list[list[object]]:
    """Departures by which more is supplied than the least cut lets through by the label of the sink."""
    least, sink = least_capacity(direct.net), direct.net.sink
    if least is None:
        return []
    return [["the least cut lets through less", departure] for departure in corners(direct)
            if supply(direct.pieces, departure) > least * direct.earliest(departure)[sink]]


def store_complaints(direct: DirectFlow, grading: Grading) -> list[list[object]]:
    """Where the store of a graded flow is below `least_store`, or falls by less than `least_fall`. So it never rises."""
    net, times = direct.net, corners(direct)
    grows, bound = growth(net), least_store(net, grading)
    stores = [store(net, grading, direct.earliest(departure)) for departure in times]
    sinks = [direct.earliest(departure)[net.sink] for departure in times]
    found = [["the store is below its bound", departure] for departure, stored in zip(times, stores) if stored < bound]
    for i, length in enumerate(after - before for before, after in zip(times, times[1:])):
        if stores[i] - stores[i + 1] < least_fall(net, grows, length, sinks[i + 1] - sinks[i]):
            found.append(["the store falls too little", times[i]])
    return found
