"""Earliest arrivals over links whose exit times are known."""
from __future__ import annotations

from bisect import bisect_right
from fractions import Fraction
from heapq import heappop, heappush
from typing import Dict, List, Mapping

from .curves import Curve
from .drafts import Link
from .loading import FedLink
from .networks import Network


def arrivals(net: Network, loaded: Mapping[str, FedLink], departure: Fraction) -> Dict[str, Fraction]:
    """When a driver who leaves at the departure reaches each node at the earliest, the nodes in the order of these times."""
    links_from = links_by_tail(net)
    found: Dict[str, Fraction] = {}
    waiting = [(departure, net.source)]
    while waiting:
        time, node = heappop(waiting)
        if node in found:
            continue
        found[node] = time
        for link in links_from.get(node, []):
            if link.head not in found:
                passage = loaded[link.name]
                heappush(waiting, (passage.leaves(passage.row(time)), link.head))
    return found


def links_by_tail(net: Network) -> Dict[str, List[Link]]:
    """The links that leave each node, of those whose tail is reached."""
    links_from: Dict[str, List[Link]] = {}
    for link in net.used_links():
        links_from.setdefault(link.tail, []).append(link)
    return links_from


def earliest(net: Network, loaded: Mapping[str, FedLink], reached: Fraction) -> Dict[str, Curve]:
    """When a driver reaches each node at the earliest, for departures from 0 to `reached`.

    A node whose label changed passes it on along its links, those with the earliest labels first.
    """
    first, last = arrivals(net, loaded, Fraction(0)), arrivals(net, loaded, reached)
    order, links_from = list(last), links_by_tail(net)
    rank = {node: place for place, node in enumerate(order)}
    labels = {net.source: Curve([(0, 0), (reached, reached)] if reached else [(0, 0)])}
    waiting = [0]
    while waiting:
        node = order[heappop(waiting)]
        for link in links_from.get(node, []):
            if link.head != net.source and improves(labels, loaded[link.name], first[node], last[node]) and rank[link.head] not in waiting:
                heappush(waiting, rank[link.head])
    return labels


def improves(labels: Dict[str, Curve], passage: FedLink, start: Fraction, until: Fraction) -> bool:
    """Lowers the label of the link's head to the exits for those who come by its tail, from `start` to `until`; whether it changed."""
    link = passage.link
    before = labels.get(link.head)
    if before is not None and is_later(labels[link.tail], link.transit, before):
        return False
    arrival = labels[link.tail].then(passage.exits(start, until))
    after = arrival.tidy() if before is None else arrival.least(before).tidy()
    labels[link.head] = after
    return before is None or after.points != before.points


def is_later(tail: Curve, transit: Fraction, head: Curve) -> bool:
    """Whether the transit time alone shows that a link never leads to its head earlier than the head's label.

    False tells nothing. Labels never fall, so from one departure on, the label of the head is no later than tail and transit time up
    to the departure at which it comes to their sum.
    """
    values = [value for _, value in head.points]
    time = tail.start
    while time < tail.until:
        place = bisect_right(values, tail(time) + transit) - 1
        if place < 0 or head.points[place][0] <= time:
            return False
        time = head.points[place][0]
    return tail(time) + transit >= head(time)
