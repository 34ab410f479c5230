"""Flow along given routes: what enters each link, where routes that share a link wait in one queue."""
from __future__ import annotations

from fractions import Fraction
from graphlib import CycleError, TopologicalSorter
from typing import Dict, Iterable, List, Mapping, Optional, Sequence, Tuple

from .curves import Curve
from .faults import BROKEN, OutOfRange, Refused
from .loading import FedLink, Piece, pieces_of_changes
from .merging import Point, merged, tidied
from .near import near
from .networks import Network

Route = Tuple[Sequence[str], Sequence[Piece]]  # links, pieces (start, rate)
ZERO = Fraction(0)


def loaded_routes(net: Network, routes: Mapping[str, Route], horizon: Fraction) -> Dict[str, FedLink]:
    """The links of routes with the flow that enters them, where each route is sent at its rates up to the horizon."""
    for name, (links, _) in routes.items():
        check_route(net, name, links)
    sent = {name: Curve.of_rates(pieces, horizon) for name, (_, pieces) in routes.items()}  # by route: what has entered its current link
    loaded: Dict[str, FedLink] = {}
    for link in in_order([links for links, _ in routes.values()]):
        using = [name for name, (links, _) in routes.items() if link in links]
        loaded[link] = FedLink(net.links[link], rates_of([sent[name] for name in using]))
        for name in using:
            sent[name] = passed(sent[name], loaded[link])
    return loaded


def check_route(net: Network, name: str, links: Sequence[str]) -> None:
    """Refuses what is no walk from source to sink."""
    unknown = [link for link in links if link not in net.links]
    if unknown:
        raise OutOfRange(f"route {name}: the network has no link {unknown[0]}{near(unknown[0], net.links)}")
    why = walk_fault(net, links)
    if why:
        raise Refused(f"route {name} {why}", status=BROKEN, rule="G12")


def walk_fault(net: Network, links: Sequence[str]) -> Optional[str]:
    """Why links are no walk from source to sink; None where they are one."""
    at = net.source
    for link in links:
        if net.links[link].tail != at:
            return f"takes {link} at {at}, and that link begins at {net.links[link].tail}"
        at = net.links[link].head
    return None if at == net.sink else f"ends at {at}, not at the sink {net.sink}"


def in_order(routes: Iterable[Sequence[str]]) -> List[str]:
    """The links of routes, each behind all that stand right before it on a route; Refused where they go round a cycle."""
    before: Dict[str, List[str]] = {}
    for links in routes:
        for number, link in enumerate(links):
            before.setdefault(link, []).extend(links[max(0, number - 1):number])
    try:
        return list(TopologicalSorter(before).static_order())
    except CycleError as fault:
        cycle = " ".join(fault.args[1])
        raise Refused(f"links of routes follow each other round a cycle: {cycle}", status=BROKEN, rule="G17") from None


def rates_of(amounts: Iterable[Curve]) -> List[Piece]:
    """The pieces (start, rate) at which amounts grow together; after the last times of the curves nothing comes."""
    changes: Dict[Fraction, Fraction] = {}
    for curve in amounts:
        for start, stop, _, rate in curve.pieces():
            changes[start] = changes.get(start, ZERO) + rate
            changes[stop] = changes.get(stop, ZERO) - rate
    return pieces_of_changes(changes)


def passed(entered: Curve, loaded: FedLink) -> Curve:
    """The amount of a route that has left a link by a time, given what has entered: first in, first out."""
    exits = loaded.exits(ZERO, entered.until)
    points: List[Point] = [(ZERO, ZERO)]
    for _, amount, leaves in merged(entered.points, exits.points):
        if leaves > points[-1][0]:
            points.append((leaves, amount))
    return Curve(tidied(points))
