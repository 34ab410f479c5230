"""Phases of a run: the departures between two changes, with the thin flow with resetting that holds there."""
from __future__ import annotations

from dataclasses import dataclass
from fractions import Fraction
from typing import Dict, Iterator, List, Mapping, Tuple

from .curves import Curve
from .faults import UNFIT, Refused
from .given import Net, Run, as_pair
from .networks import Network
from .numbers import short
from .reports import Report, belonging, mismatch

ZERO = Fraction(0)


@dataclass(frozen=True)
class Sets:
    """What a thin flow at a departure depends on: the supply's rate, the active links (E') and the resetting ones (E*)."""
    rate: Fraction
    active: Tuple[str, ...]
    resetting: Tuple[str, ...]

    def __str__(self) -> str:
        return f"u={self.rate} E'={{{' '.join(self.active)}}} E*={{{' '.join(self.resetting)}}}"


@dataclass(frozen=True)
class Phase(Sets):
    """A phase, departures from `start` up to `end`, with the flows x' of links and the slopes l' of nodes.

    The sets are those at `start`. A link is active where no route to its head is quicker than that over the link, and resetting
    where its drivers wait. Flows and slopes are per unit of departure time; both have all links and nodes in order.
    """
    start: Fraction
    end: Fraction
    flows: Mapping[str, Fraction]
    slopes: Mapping[str, Fraction]

    def __str__(self) -> str:
        """As `[20, 60) u=4 E'={bridge bay} E*={bridge} x'=(bridge:2 bay:2) l'=(home:1 work:1)`, with the flows of active links."""
        flows = [f"{name}:{flow}" for name, flow in self.flows.items() if flow or name in self.active]
        slopes = [f"{node}:{slope}" for node, slope in self.slopes.items()]
        return f"[{self.start}, {self.end}) {super().__str__()} x'=({' '.join(flows)}) l'=({' '.join(slopes)})"


class Course:
    """The curves by departure that phases are read from: labels, slacks of links, and the flow that has entered each link."""

    def __init__(self, net: Network, run: Report) -> None:
        why = mismatch(net, run)
        if why:
            raise Refused(f"the report is none of the network: {why}", status=UNFIT)
        self.net, self.run = net, belonging(run, net)
        self.labels = {node: run.label(node).cut(run.reached).tidy() for node in net.nodes()}
        for node, label in self.labels.items():
            falls = [start for start, _, _, slope in label.pieces() if slope < 0]
            if falls:
                raise Refused(f"the label of {node} falls from departure {short(falls[0])} on: the report is no equilibrium", status=UNFIT)
        self.slacks: Dict[str, Curve] = {}
        self.entered: Dict[str, Curve] = {}
        for link in net.used_links():
            tail = self.labels[link.tail]
            self.slacks[link.name] = (self.labels[link.head] - tail - link.transit).tidy()
            self.entered[link.name] = tail.then(self.run.inflow(link.name)).tidy()

    def sets(self, departure: Fraction) -> Sets:
        """The rate and the sets at a departure."""
        slack = {name: curve(departure) for name, curve in self.slacks.items()}
        active = tuple(name for name, here in slack.items() if here >= 0)
        return Sets(rate_at(self.net, departure), active, tuple(name for name in active if slack[name] > 0))

    def starts(self) -> List[Fraction]:
        """The departures at which a phase begins, and the last one of the report."""
        changes = {ZERO, self.run.reached}
        for curve in [*self.labels.values(), *self.entered.values()]:
            changes.update(time for time, _ in curve.points)
        rate = ZERO
        for start, following in self.net.supply:
            changes.update([start] if following != rate and start < self.run.reached else [])
            rate = following
        for slack in self.slacks.values():
            changes.update(comes_to_zero(slack))
        return sorted(changes)

    def phase(self, start: Fraction, end: Fraction) -> Phase:
        """The phase from a departure at which nothing changes up to another one."""
        sets = self.sets(start)
        flows = {name: curve.slope(start) for name, curve in self.entered.items()}
        slopes = {node: label.slope(start) for node, label in self.labels.items()}
        return Phase(sets.rate, sets.active, sets.resetting, start, end, flows, slopes)


def rate_at(net: Network, departure: Fraction) -> Fraction:
    """The supply's rate from a departure on."""
    return ([rate for start, rate in net.supply if start <= departure] or [ZERO])[-1]


def comes_to_zero(slack: Curve) -> Iterator[Fraction]:
    """The times at which a curve comes to 0 from another value."""
    for start, end, value, slope in slack.pieces():
        if value and value * (value + slope * (end - start)) <= 0:
            yield start - value / slope


def phases(net: Net, run: Run) -> List[Phase]:
    """The phases of an equilibrium, in order, from departure 0 to the last one of the report.

    A phase begins where the supply's rate, the flow into a link or the slope of a label changes, and where a link that wasn't active
    becomes so or a queue runs empty. No phase has the length 0. Refused with status 1 where the report is none of the network, or no
    equilibrium by its labels. `check` says whether it is one; only then each phase is a thin flow with resetting.
    """
    course = Course(*as_pair(net, run))
    starts = course.starts()
    return [course.phase(start, end) for start, end in zip(starts, starts[1:])]
