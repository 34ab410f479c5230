"""Thin flows with resetting: at a departure of a run, and the test of one that somebody worked out."""
from __future__ import annotations

from dataclasses import dataclass
from fractions import Fraction
from typing import Dict, Iterator, List, Mapping, Optional, Tuple

from .drafts import Link
from .faults import OutOfRange
from .given import Net, Run, as_network, as_pair
from .near import near
from .networks import Network
from .numbers import Number, Time, exact, short, time_of
from .phases import Course, Phase, Sets

ZERO = Fraction(0)


@dataclass(frozen=True)
class Broken:
    """A condition of a thin flow with resetting that doesn't hold: its name, the node or link, and a sentence with the numbers.

    The names: `negative`, `inactive` (flow on a link that isn't active), `conservation`, `source` (its slope isn't 1), `entered` (no
    active link leads to the node), `least` (the slope isn't the least exit slope of the active links into the node), `used` (a link
    with flow has another exit slope than its head).
    """
    condition: str
    subject: str
    why: str

    def __str__(self) -> str:
        return self.why


def known(course: Course, departure: Time) -> Fraction:
    """The departure; OutOfRange where the report doesn't come to it."""
    moment = time_of(departure)
    if not 0 <= moment <= course.run.reached:
        raise OutOfRange(f"departure {short(moment)} isn't from 0 to {short(course.run.reached)}, those of the report")
    return moment


def thin(net: Net, run: Run, departure: Time) -> Phase:
    """The thin flow with resetting at a departure of an equilibrium: it holds from there to the end of its phase.

    The sets are those at this departure. OutOfRange where the report doesn't go on after it.
    """
    course = Course(*as_pair(net, run))
    moment = known(course, departure)
    if moment == course.run.reached:
        raise OutOfRange(f"the report ends at departure {short(moment)}, so no flow is known from there on: solve to a later horizon")
    return course.phase(moment, min(start for start in course.starts() if start > moment))


def candidate(net: Net, run: Run, departure: Time, flows: Mapping[str, Number], slopes: Mapping[str, Number]) -> Phase:
    """Flows of links and slopes of nodes that somebody worked out for a departure of an equilibrium, to be tested by `broken`.

    The sets and the rate are those of the run at this departure. What isn't named is 0. OutOfRange for a name that isn't there.
    """
    course = Course(*as_pair(net, run))
    moment = known(course, departure)
    sets = course.sets(moment)
    return Phase(sets.rate, sets.active, sets.resetting, moment, moment, _all(list(course.slacks), flows, "link"),
                 _all(list(course.labels), slopes, "node"))


def _all(names: List[str], given: Mapping[str, Number], what: str) -> Dict[str, Fraction]:
    """The number of each name, 0 where none is given."""
    unknown = [name for name in given if name not in names]
    if unknown:
        raise OutOfRange(f"the network has no {what} {unknown[0]} that is reached{near(unknown[0], names)}")
    return {name: exact(given.get(name, 0)) for name in names}


def broken(net: Net, phase: Phase) -> Optional[Broken]:
    """The first condition of a thin flow with resetting that flows and slopes break for their sets and rate; None where all hold.

    The flows go from source to sink at the supply's rate, on active links alone. The slope of the source is 1. The slope of each other
    node is the least exit slope of the active links into it, and that of each of them with flow. Nothing is negative.
    """
    return next(all_broken(as_network(net), phase), None)


def all_broken(net: Network, phase: Phase) -> Iterator[Broken]:
    """All conditions that are broken, in the order in which a reader would look at them; OutOfRange for a phase of another network."""
    if set(phase.slopes) != set(net.nodes()) or set(phase.flows) != {link.name for link in net.used_links()}:
        raise OutOfRange("the phase has other nodes or links than the network")
    yield from _signs(net, phase)
    yield from _balances(net, phase)
    if phase.slopes[net.source] != 1:
        yield Broken("source", net.source, f"the slope of the source {net.source} is {phase.slopes[net.source]}, and it has to be 1")
    for node in net.nodes():
        if node != net.source:
            yield from _exits(net, phase, node)


def _signs(net: Network, phase: Phase) -> Iterator[Broken]:
    """Flows and slopes below 0, and flows of links that aren't active."""
    for name, flow in phase.flows.items():
        if flow < 0:
            yield Broken("negative", name, f"the flow of link {name} is {flow}, and no flow is below 0")
        elif flow and name not in phase.active:
            yield Broken("inactive", name, f"the flow of link {name} is {flow}, and the link isn't active: a quicker route leads to {net.links[name].head}")
    for node, slope in phase.slopes.items():
        if slope < 0:
            yield Broken("negative", node, f"the slope of node {node} is {slope}, and no slope is below 0")


def _balances(net: Network, phase: Phase) -> Iterator[Broken]:
    """Nodes at which another flow leaves than comes."""
    for node in net.nodes():
        come = sum((phase.flows[link.name] for link in net.used_links() if link.head == node), ZERO)
        gone = sum((phase.flows[link.name] for link in net.used_links() if link.tail == node), ZERO)
        if node == net.source and gone - come != phase.rate:
            yield Broken("conservation", node, f"at the source {node} the flow out of it minus the flow into it is {gone - come}, and the supply is {phase.rate}")
        elif node == net.sink and come - gone != phase.rate:
            yield Broken("conservation", node, f"at the sink {node} the flow into it minus the flow out of it is {come - gone}, and the supply is {phase.rate}")
        elif node not in (net.source, net.sink) and come != gone:
            yield Broken("conservation", node, f"at node {node} the flow into it is {come}, and the flow out of it is {gone}")


def exit_slope(link: Link, phase: Phase) -> Tuple[Fraction, str]:
    """How fast the exit from a link grows with the departure (the greek rho), and how that was worked out."""
    flow, tail = phase.flows[link.name], phase.slopes[link.tail]
    if link.capacity is None:
        return tail, f"the slope {tail} of {link.tail}, since its capacity is inf"
    share = flow / link.capacity
    if link.name in phase.resetting:
        return share, f"flow {flow} over capacity {link.capacity}, since the link is resetting"
    return max(tail, share), f"the greater of the slope {tail} of {link.tail} and flow {flow} over capacity {link.capacity}"


def _exits(net: Network, phase: Phase, node: str) -> Iterator[Broken]:
    """What is wrong with the slope of a node."""
    slope = phase.slopes[node]
    links = [link for link in net.used_links() if link.head == node and link.name in phase.active]
    exits = {link.name: exit_slope(link, phase) for link in links}
    if not exits:
        yield Broken("entered", node, f"no active link leads to node {node}")
        return
    least = min(exits, key=lambda name: exits[name][0])
    if exits[least][0] != slope:
        yield Broken("least", node, f"the slope of node {node} is {slope}, and the least exit slope of the active links into it is "
                                    f"{exits[least][0]}, of link {least}: {exits[least][1]}")
    for name, (found, how) in exits.items():
        if phase.flows[name] > 0 and found != slope and found != exits[least][0]:
            yield Broken("used", name, f"link {name} has flow {phase.flows[name]} and the exit slope {found} ({how}), and a link with flow "
                                       f"has the slope of its head {node}, {slope}")
