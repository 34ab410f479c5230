"""Growth in the long run by definition: static cuts by brute force, and how labels and travel times grow by a tail.

MODEL.md, "The long run". No computation is shared with the modules that make runs. Each set of nodes is tried, so networks must be small.
"""
from fractions import Fraction
from itertools import product

from .direct import plain, plain_points, value


def last_rate(net):
    """The rate of the last supply piece, or 0 if there is none (`last_rate`)."""
    return plain(net.pieces[-1][1]) if net.pieces else Fraction(0)


def leads_out(cut, link):
    """Whether the link leaves the set: its tail is in the set, and its head is not (`LeadsOut`)."""
    return cut[link.tail] and not cut[link.head]


def is_static_cut(net, cut):
    """The set contains the source and not the sink, and no unbounded link leaves it (`IsStaticCut`)."""
    return cut[net.source] and not cut[net.sink] and not any(leads_out(cut, link) for link in net.links if link.capacity is None)


def cut_capacity(net, cut):
    """The sum of the capacities of the links that leave a static cut (`cut_capacity`)."""
    return sum((plain(link.capacity) for link in net.links if leads_out(cut, link)), Fraction(0))


def static_cuts(net):
    """All static cuts of a network, each as a truth value for each node."""
    for cut in product([False, True], repeat=len(net.nodes)):
        if is_static_cut(net, cut):
            yield cut


def least_capacity(net):
    """The least capacity of a static cut (`IsLeastCapacity`); None where there is no static cut."""
    return min((cut_capacity(net, cut) for cut in static_cuts(net)), default=None)


def slower_than_sink(net, slopes):
    """The nodes whose slope is below that of the sink (`slower_than_sink`)."""
    return [slope < slopes[net.sink] for slope in slopes]


def grows_by_cuts(net, slopes):
    """Whether slopes grow by the cuts (`GrowsByCuts`).

    Each slope is at least 1. The last supply rate is at most the sink's slope times the capacity of any static cut. If the sink's slope is above 1,
    the slower nodes are a static cut, and the rate is that slope times the capacity of this cut.
    """
    rate, sink, slower = last_rate(net), slopes[net.sink], slower_than_sink(net, slopes)
    each = all(slope >= 1 for slope in slopes) and all(rate <= sink * cut_capacity(net, cut) for cut in static_cuts(net))
    return each and (sink <= 1 or is_static_cut(net, slower) and rate == sink * cut_capacity(net, slower))


def grows_by_least_cut(net, slopes):
    """Whether the sink's slope is the rate over the least capacity, or 1 if that is more (`GrowsByLeastCut`)."""
    least, rate, sink = least_capacity(net), last_rate(net), slopes[net.sink]
    if least is None:
        return sink == 1
    return sink == max(Fraction(1), rate / least) and (sink <= 1 or cut_capacity(net, slower_than_sink(net, slopes)) == least)


def travel_time(net, flow, departure):
    """The time from a departure to its arrival at the sink (`travel_time`)."""
    return value(plain_points(flow.labels[net.sink]), departure) - departure


def tail_grows(net, reached, until, flow, slopes):
    """Whether labels and travel times of a flow that is extended by a tail grow from one departure to another as `TailGrows` says."""
    slopes = [plain(slope) for slope in slopes]
    length = until - reached
    labels = all(value(plain_points(label), until) == value(plain_points(label), reached) + length * slope
                 for label, slope in zip(flow.labels, slopes))
    travel = travel_time(net, flow, until) == travel_time(net, flow, reached) + length * (slopes[net.sink] - 1)
    return labels and travel and grows_by_cuts(net, slopes) and grows_by_least_cut(net, slopes)
