"""Reports of flows that somebody else made: of links, of routes, of vehicles."""
from __future__ import annotations

from fractions import Fraction
from typing import Dict, List, Mapping, Sequence, Tuple

from .curves import Curve
from .faults import OutOfRange, Refused
from .given import Net, as_network, as_routes, as_values
from .labels import earliest
from .loading import FedLink, Piece
from .near import near
from .networks import Network
from .numbers import Number, exact, pairs_of, short
from .reports import Report
from .routing import loaded_routes, rates_of

Loads = Mapping[str, Sequence[Tuple[Number, Number]]]  # by link: pieces (start, rate)
Routes = Mapping[str, Tuple[Sequence[str], Sequence[Tuple[Number, Number]]]]  # by name: links, pieces (start, rate)


def pieces_of(pieces: Sequence[Tuple[Number, Number]], what: str) -> List[Piece]:
    """The pieces (start, rate) as Fractions; Refused where one is negative or the starts don't rise. `what` names them in faults."""
    made = [(exact(start), exact(rate)) for start, rate in pairs_of(pieces, what)]
    for number, (start, rate) in enumerate(made):
        if start < 0 or rate < 0:
            raise Refused(f"{what}: the rate {short(rate)} from {short(start)} on has a negative number")
        if number and start <= made[number - 1][0]:
            raise Refused(f"{what}: start {short(start)} isn't above the start before it, {short(made[number - 1][0])}")
    return made


def loaded_links(net: Network, loads: Loads) -> Dict[str, FedLink]:
    """Each link that is reached, with the flow that enters it; a link without pieces carries nothing."""
    used = {link.name: link for link in net.used_links()}
    unknown = [name for name in as_values(loads, "read_loads") if name not in used]
    if unknown:
        raise OutOfRange(f"the network has no link {unknown[0]} whose tail is reached{near(unknown[0], used)}")
    return {name: FedLink(link, pieces_of(loads.get(name, ()), f"link {name}")) for name, link in used.items()}


def report_of_flows(net: Net, loads: Loads, reached: Number) -> Report:
    """The report of a flow that is given by what enters each link, as pieces (start, rate) in amounts per unit of time.

    Queues and outflows follow from the law of the point queue, and labels are the earliest arrivals for departures from 0 to
    `reached`. All curves go on until no rate changes any more. `check` says whether the flow is an equilibrium, `gap` how far it is
    from one. Refused where a number is no number or negative, OutOfRange where a link isn't there.

    >>> import nfot
    >>> two = nfot.Network("s", "t", [nfot.Link("a", "s", "t", 1, 1), nfot.Link("b", "s", "t", 3, 1)], [(0, 3)])
    >>> report = nfot.report_of_flows(two, {"a": [(0, 3), (1, "3/2")], "b": [(1, "3/2")]}, 4)
    >>> print(report.arrival(4), report.queue("a")(4))
    17/2 7/2
    """
    network = as_network(net)
    return report_of_loaded(network, loaded_links(network, loads), exact(reached))


def report_of_routes(net: Net, routes: Routes, horizon: Number) -> Report:
    """The report of a flow that is given by routes, each a pair of links and pieces (start, rate), sent until `horizon`.

    Flow that shares a link waits in one queue, first in, first out. The rest is as in `report_of_flows`. Refused where a route is no
    walk from source to sink, or links of routes follow each other round a cycle.
    """
    network, end = as_network(net), exact(horizon)
    given = {name: (links, pieces_of(pieces, f"route {name}")) for name, (links, pieces) in as_routes(routes).items()}
    loaded = loaded_routes(network, given, end)
    return report_of_loaded(network, {**loaded_links(network, {}), **loaded}, end)


def supply_of(routes: Routes, horizon: Number) -> List[Piece]:
    """The rates of all routes together until the horizon, as the supply of a network: `net.with_supply(supply_of(routes, horizon))`.

    Take it where vehicles don't leave at the rates of the network's own supply.
    """
    end = exact(horizon)
    return rates_of([Curve.of_rates(pieces_of(pieces, f"route {name}"), end) for name, (_, pieces) in as_routes(routes).items()])


def report_of_loaded(net: Network, loaded: Mapping[str, FedLink], reached: Fraction) -> Report:
    """The report of loaded links, for departures from 0 to `reached`."""
    if reached < 0:
        raise Refused(f"the last departure {short(reached)} is below 0")
    labels = earliest(net, loaded, reached)
    until = max([passage.settled for passage in loaded.values()] + [label.points[-1][1] for label in labels.values()])
    inflows = {name: passage.inflow(until) for name, passage in loaded.items()}
    outflows = {name: passage.outflow(until) for name, passage in loaded.items()}
    queues = {name: passage.queue(until) for name, passage in loaded.items()}
    return Report(reached, reached, labels, inflows, outflows, queues, network=net)
