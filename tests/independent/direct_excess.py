"""The excess and steady equilibria by definition.

The excess of a departure is the sum of the queues that it meets, less what is supplied at the last rate during its travel. Labels are earliest
arrivals over all walks, and queues look back over all past times. No computation is shared with the modules that make runs.
"""
from __future__ import annotations

from fractions import Fraction
from typing import Optional

from .direct import DirectFlow, plain
from .direct_growth import cut_capacity, last_rate, static_cuts
from .network import Network


def last_start(net: Network) -> Fraction:
    """The start of the last supply piece; 0 if there is none (`IsLastSupply`)."""
    return plain(net.pieces[-1][0]) if net.pieces else Fraction(0)


def cuts_are_wide(net: Network) -> bool:
    """Whether each static cut has a capacity of at least the last supply rate (`CutsAreWide`). Each set of nodes is tried."""
    return all(cut_capacity(net, cut) >= last_rate(net) for cut in static_cuts(net))


def corners(direct: DirectFlow) -> list[Fraction]:
    """The departures from the last start on at which the excess may turn, and two between each two; none if the flow ends before that start.

    The excess turns where a label turns, or where the label of a link's tail is a corner of the link's inflow or of its queue.
    """
    first = last_start(direct.net)
    found = set(direct.departures()) | {first}
    for e, link in enumerate(direct.links):
        found |= direct.departures_at(link.tail, [time for time, _ in direct.inflows[e][0] + direct.queues[e]])
    return [departure for departure in sorted(found) if first <= departure <= direct.reached]


def queues_met(direct: DirectFlow, departure: Fraction) -> list[Fraction]:
    """For each link the queue at the arrival of a departure at the tail."""
    labels = direct.earliest(departure)
    return [link.queue(labels[link.tail]) for link in direct.links]


def excess(direct: DirectFlow, departure: Fraction) -> Fraction:
    """The excess of a departure (`excess`)."""
    travel = direct.earliest(departure)[direct.net.sink] - departure
    return sum(queues_met(direct, departure), Fraction(0)) - last_rate(direct.net) * travel


def held(net: Network) -> Fraction:
    """What the links hold if each takes flow at its capacity, or at the last supply rate if it is unbounded, and nobody waits (`held`)."""
    widths = [last_rate(net) if link.capacity is None else plain(link.capacity) for link in net.links]
    return sum((width * plain(link.transit) for width, link in zip(widths, net.links)), Fraction(0))


def is_steady(direct: DirectFlow, first: Fraction, later: list[Fraction]) -> bool:
    """Whether labels grow by the time between departures, from one departure to each later one, and all meet the same queues (`IsSteady`)."""
    labels, queues = direct.earliest(first), queues_met(direct, first)
    return all(direct.earliest(departure) == [label + departure - first for label in labels] and queues_met(direct, departure) == queues
               for departure in later)


def steady_from(direct: DirectFlow) -> Optional[Fraction]:
    """The first departure, from the last start on, from which on the equilibrium is steady; None if there is none before the one reached."""
    times = corners(direct)
    return next((first for i, first in enumerate(times[:-1]) if is_steady(direct, first, times[i + 1:])), None)


def excess_complaints(direct: DirectFlow) -> list[list[object]]:
    """Where the excess isn't as it must be: a list of what is wrong, and at which departure.

    It never rises. If it is equal at two departures, the equilibrium is steady from the first one on. Only if all cuts are wide can an
    equilibrium be steady, and then the excess is at least `held` below 0.
    """
    net, times, found = direct.net, corners(direct), []
    values, wide = [excess(direct, departure) for departure in times], cuts_are_wide(net)
    for i, (now, after) in enumerate(zip(values, values[1:])):
        if after > now:
            found.append(["the excess rises", times[i]])
        if after == now and not is_steady(direct, times[i], times[i + 1:]):
            found.append(["an equal excess isn't steady", times[i]])
        if after == now and not wide:
            found.append(["steady, and a cut is narrow", times[i]])
    if wide:
        found += [["the excess is below its bound", departure] for departure in direct.departures() if excess(direct, departure) < -held(net)]
    return found
