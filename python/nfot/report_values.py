"""The value of a report: the labels, flows and queues of a run."""
from __future__ import annotations

from fractions import Fraction
from types import MappingProxyType
from typing import Any, Dict, Iterable, Iterator, Mapping, Optional, Sequence, Tuple, Union, Set

from .causes import check_cause
from .curves import Curve
from .faults import OutOfRange, Refused
from .drafts import Link, fitting
from .lines import check_name
from .merging import slopes_of
from .near import near
from .networks import Network
from .numbers import Number, Time, pairs_of, short, time_of, within

Points = Union[Curve, Iterable[Tuple[Number, Number]]]
Rates = Mapping[Tuple[str, str], Sequence[Fraction]]
ZERO = Fraction(0)
STATES = ("tight", "full", "zero")


def curve_of(points: Points, what: str, until: Optional[Fraction] = None, begins: bool = False) -> Curve:
    """A curve of a report, from time 0 on and known at least until `until`; a point given twice counts once.

    With `begins` the point (0, 0) is added where it is missing. Refused where it is no curve of a report; `what` names it.
    """
    try:
        if isinstance(points, Curve) and points.start == 0 and all(within(time) and within(value) for time, value in points.points):
            return Curve._made(points.points, max(points.until, until or ZERO))
        pairs = points.points if isinstance(points, Curve) else points
        made = [(fitting(time, "time"), fitting(value, "value")) for time, value in pairs_of(pairs, "points")]
        kept = [point for at, point in enumerate(made) if at == 0 or point != made[at - 1]]
        if begins and (not kept or kept[0][0] > 0):
            kept.insert(0, (ZERO, ZERO))
        if not kept or kept[0][0] != 0:
            raise Refused("it has no point at time 0")
        end = points.until if isinstance(points, Curve) else kept[-1][0]
        return Curve(kept, max(end, kept[-1][0], until or ZERO))
    except Refused as fault:
        raise Refused(f"{what}: {fault.why}", status=fault.status, rule=fault.rule) from None


class Report:
    """The curves of nodes and links up to the departure `reached`. It never changes.

    A label says when a driver who leaves the source at a departure reaches the node. Inflow and outflow are the amounts that have
    entered and left a link by a time, a queue is the amount that waits at it. `cause` is "done" exactly where the horizon is reached.

    With a network, names that it doesn't have are refused (OutOfRange), a link without curves carries nothing, and each curve is
    known as far as the report is. `never` has the idle nodes. `rates` has printed rates that aren't the slopes of their curve, as
    a file may have them, by ("inflow" or "outflow", link).
    """

    __slots__ = ("network", "version", "horizon", "reached", "cause", "labels", "inflows", "outflows", "queues", "states", "never",
                 "rates")

    network: Optional[Network]
    version: int
    horizon: Fraction
    reached: Fraction
    cause: str
    labels: Mapping[str, Curve]
    inflows: Mapping[str, Curve]
    outflows: Mapping[str, Curve]
    queues: Mapping[str, Curve]
    states: Mapping[str, str]
    never: Tuple[str, ...]
    rates: Rates

    def __init__(self, horizon: Number, reached: Number, labels: Mapping[str, Points], inflows: Mapping[str, Points] = {},
                 outflows: Mapping[str, Points] = {}, queues: Mapping[str, Points] = {}, states: Mapping[str, str] = {},
                 cause: str = "done", network: Optional[Network] = None, version: int = 2, never: Iterable[str] = (),
                 rates: Rates = {}) -> None:
        self._set(network=network, version=network.version if network else version, cause=cause,
                  horizon=fitting(horizon, "horizon"), reached=fitting(reached, "reached"),
                  never=tuple(network.idle_nodes() if network else never), rates=MappingProxyType(dict(rates)))
        if not 0 <= self.reached <= self.horizon or (cause == "done") != (self.reached == self.horizon):
            raise Refused(f"a report that reaches {short(self.reached)} of {short(self.horizon)} has not the cause `{cause}`", rule="P10")
        check_cause(cause.split(" "))
        if network:
            _check_names("the network", set(network.nodes()), {link.name for link in network.used_links()}, labels, inflows, outflows, queues, states)
        else:
            _check_names("the report", set(labels), set(inflows), labels, outflows, queues, states)
        self._take_labels(labels)
        self._take_flows(inflows, outflows, queues)
        self._set(states=MappingProxyType(self._in_order(states)))

    def _set(self, **values: object) -> None:
        for name, value in values.items():
            object.__setattr__(self, name, value)

    def __setattr__(self, name: str, value: object) -> None:
        raise AttributeError("a report never changes")

    def _take_labels(self, labels: Mapping[str, Points]) -> None:
        """The labels in order."""
        order = self.network.nodes() if self.network else list(labels)
        made = {node: curve_of(labels.get(node, ()), f"label of {node}", self.reached) for node in order}
        self._set(labels=MappingProxyType(made))

    def _take_flows(self, *flows: Mapping[str, Points]) -> None:
        """Inflows, outflows and queues in order, each known as far as the report is."""
        links: Mapping[str, Link] = self.network.links if self.network else {}
        order = [link.name for link in self.network.used_links()] if self.network else list(flows[0])
        for kind, given in zip(("inflow", "outflow", "queue"), flows):
            made = {}
            for name in order:
                link = links.get(name)
                until = self.labels[link.head if kind == "outflow" else link.tail](self.reached) if link else None
                made[name] = curve_of(given.get(name, ()), f"{kind} of {name}", until, begins=self.network is not None)
            self._set(**{f"{kind}s": MappingProxyType(made)})

    def _in_order(self, states: Mapping[str, str]) -> Dict[str, str]:
        """The states in the order of the links; Refused where one is none."""
        for name, state in states.items():
            full = self.network and self.network.links[name].capacity is None and state == "full"
            if state not in STATES or full:
                raise Refused(f"{state} is no state of the link {name}", rule="P9")
        return {name: states[name] for name in self.inflows if name in states}

    def __eq__(self, other: object) -> bool:
        return isinstance(other, Report) and self.text() == other.text()

    def __hash__(self) -> int:
        return hash((self.horizon, self.reached, self.cause))

    def __repr__(self) -> str:
        return f"<Report up to {short(self.reached)} of {short(self.horizon)}, cause {self.cause}>"

    def __reduce__(self) -> Tuple[Any, ...]:
        curves = (dict(given) for given in (self.labels, self.inflows, self.outflows, self.queues, self.states))
        return Report, (self.horizon, self.reached, *curves, self.cause, self.network, self.version, self.never, dict(self.rates))

    # ---- curves by name

    def label(self, node: str) -> Curve:
        """When a driver who leaves at a departure reaches the node."""
        return _of(self.labels, node, "node")

    def inflow(self, link: str) -> Curve:
        """The amount that has entered the link by a time."""
        return _of(self.inflows, link, "link")

    def outflow(self, link: str) -> Curve:
        """The amount that has left the link by a time."""
        return _of(self.outflows, link, "link")

    def queue(self, link: str) -> Curve:
        """The amount that waits at the link at a time."""
        return _of(self.queues, link, "link")

    def waits(self, link: str) -> Curve:
        """How long a driver who comes to the link at a time waits there: the queue over the capacity."""
        if self.network is None:
            raise Refused("waiting times need the capacity: read the report with its network")
        capacity = self.network.links[link].capacity if link in self.network.links else None
        return self.queue(link) * (1 / capacity if capacity else 0)

    def arrival(self, time: Time, node: Optional[str] = None) -> Fraction:
        """When a driver who leaves at this departure reaches the node, or the sink; OutOfRange after the departure reached."""
        if time_of(time) > self.reached:
            raise OutOfRange(f"departure {short(time_of(time))} is after {short(self.reached)}, the last one of the report")
        sink = self.network.sink if self.network else list(self.labels)[1]
        return self.label(sink if node is None else node)(time)

    def travel_time(self, time: Time, node: Optional[str] = None) -> Fraction:
        """How long a driver who leaves at this departure takes to the node, or to the sink."""
        return self.arrival(time, node) - time_of(time)

    # ---- text

    def text(self) -> str:
        """The text of the report, as `nfot` writes it and `nfot check` reads it."""
        text = [f"report {self.version}", f"horizon {self.horizon}", f"reached {self.reached}", f"cause {self.cause}"]
        for node, label in self.labels.items():
            text += [f"label {node} {time} {value}" for time, value in label.points]
        text += [f"never {node}" for node in self.never]
        for name, queue in self.queues.items():
            text += [*self._flow_lines("inflow", name, self.inflows[name]), *self._flow_lines("outflow", name, self.outflows[name])]
            text += [f"queue {name} {time} {value}" for time, value in queue.points]
        text += [f"state {name} {state}" for name, state in self.states.items()]
        return "\n".join([*text, "end", ""])

    def _flow_lines(self, kind: str, name: str, curve: Curve) -> Iterator[str]:
        """The lines of an inflow or outflow: each point with the rate up to the next one."""
        rates = self.rates.get((kind, name)) or slopes_of(curve.points)
        if not all(map(within, rates)):
            raise Refused(f"a rate of the {kind} of {name} is too wide for a report: round times and amounts", rule="P8", status=4)
        for (time, value), rate in zip(curve.points, [*map(str, rates), "-"]):
            yield f"{kind} {name} {time} {value} {rate}"


def _of(curves: Mapping[str, Curve], name: str, what: str) -> Curve:
    """The curve of a name; OutOfRange where there is none."""
    if name not in curves:
        raise OutOfRange(f"the report has no {what} {name}{near(name, curves)}")
    return curves[name]


def _check_names(owner: str, nodes: Set[str], used: Set[str], labels: Mapping[str, Points], *links: Mapping[str, object]) -> None:
    """Refuses names of nodes and links that aren't among the owner's, and those that the format refuses."""
    unknown = [("node", name, nodes) for name in labels if name not in nodes]
    unknown += [("link", name, used) for given in links for name in given if name not in used]
    for what, name, known in unknown:
        raise OutOfRange(f"{owner} has no {what} {name}{' that is reached' if owner == 'the network' else ' with an inflow'}{near(name, known)}")
    for name in [*nodes, *used]:
        check_name(name, "node or link")


def belonging(report: Report, net: Network) -> Report:
    """The report as one of the network: names and order are the network's; OutOfRange for names that it doesn't have."""
    if report.network == net:
        return report
    missing = [node for node in net.nodes() if node not in report.labels]
    if missing:
        raise OutOfRange(f"the report has no label of the node {missing[0]}")
    return Report(report.horizon, report.reached, report.labels, report.inflows, report.outflows, report.queues, report.states,
                  report.cause, net, rates=report.rates)
