"""How far a flow is from an equilibrium, in time: exact, and 0 exactly where it is one."""
from __future__ import annotations

from dataclasses import dataclass
from decimal import Context, Decimal
from fractions import Fraction
from typing import Dict, Iterable, List, Mapping, NamedTuple, Optional, Sequence, Tuple

from .commands import check
from .curves import Curve
from .faults import UNFIT, Fault
from .given import Net, Run, as_pair
from .latest import Segment, latest, overlay
from .loading import FedLink
from .merging import Row, merged
from .networks import Network
from .numbers import decimal, short
from .reports import Report, belonging
from .routing import rates_of

ZERO = Fraction(0)


class Loss(NamedTuple):
    """How much later than at the earliest a vehicle arrives, and when it leaves (or just before; None where nobody loses)."""
    time: Fraction
    departure: Optional[Fraction]


@dataclass(frozen=True)
class Gap:
    """What all vehicles together spend on the way, what they would spend if each arrived at the label (`best`), and the difference.

    All in amount times time. `relative` is gap over best (None where best is 0 and the gap isn't). `worst` is the greatest loss of one
    vehicle, over all walks whose links take flow when they are entered. `reached` is the last departure that counts.
    """
    spent: Fraction
    best: Fraction
    gap: Fraction
    relative: Optional[Fraction]
    worst: Loss
    reached: Fraction

    def __str__(self) -> str:
        relative = "-" if self.relative is None else rounded(self.relative, 4)
        left = "" if self.worst.departure is None else f" (leave {decimal(self.worst.departure)})"
        return (f"spent {rounded(self.spent)}  best {rounded(self.best)}  gap {rounded(self.gap)}  relative {relative}  "
                f"worst {rounded(self.worst.time)}{left}")


def rounded(value: Fraction, digits: int = 2) -> str:
    """The number as a decimal; one that would be rounded to 0 with two digits other than 0, as 3.1E-7."""
    if value and abs(value) * 2 * 10 ** digits < 1:
        context = Context(prec=2)
        return str(context.divide(Decimal(value.numerator), Decimal(value.denominator)))
    return decimal(value, digits)


def gap(net: Net, report: Run) -> Gap:
    """How far the flow of a report is from an equilibrium: 0 exactly where `check` says yes.

    Raises a Fault with status 1 where `check` says no by another rule than C7, or where others than those who left by the departure
    reached are on their way, or not all of these arrive: then times on the way aren't theirs.
    """
    net, report = as_pair(net, report)
    given = belonging(report, net)
    verdict = check(net, given)
    if not verdict and verdict.rule != "C7":
        more = "; flow along routes keeps C6 at nodes: report_of_routes, routes_of_vehicles and supply_of make it" if verdict.rule == "C6" else ""
        raise Fault(f"only a flow that keeps all rules but C7 has a gap: {verdict.why}{more}", status=UNFIT)
    flows = {link.name: FedLink(link, rates_of([given.inflow(link.name)])) for link in net.used_links()}
    check_whole(net, flows, given)
    spent = sum((flow.time_spent() for flow in flows.values()), ZERO)
    stretches = departures(net, given.label(net.sink), given.reached)
    best = time_of_best(stretches)
    order = sorted(net.nodes(), key=lambda node: given.label(node)(given.reached))
    relative = (spent - best) / best if best else ZERO if spent == best else None
    return Gap(spent, best, spent - best, relative, worst(latest(net, flows, order), stretches), given.reached)


def check_whole(net: Network, flows: Mapping[str, FedLink], report: Report) -> None:
    """Raises a Fault unless those who left by the departure reached, and nobody else, enter links and arrive."""
    come: Dict[str, List[Curve]] = {node: [] for node in net.nodes()}
    gone: Dict[str, List[Curve]] = {node: [] for node in net.nodes()}
    for flow in flows.values():
        gone[flow.link.tail].append(flow.inflow(flow.settled))
        come[flow.link.head].append(flow.outflow(flow.settled))
    come[net.source].append(net.supply_curve(report.reached))
    for node in net.nodes():
        into, out = rates_of(come[node]), rates_of(gone[node])
        if node != net.sink and into != out:
            time = min(start for start, _ in set(into) ^ set(out))
            amounts = [sum((curve.points[-1][1] for curve in part[node]), ZERO) for part in (come, gone)]
            where = f"{short(amounts[0])} come to {node} in all and {short(amounts[1])} leave it, at other rates from time {short(time)} on"
            raise Fault(f"{where}: a gap needs the whole way of those who leave by {short(report.reached)}, and nothing of others", status=UNFIT)


def departures(net: Network, label: Curve, reached: Fraction) -> List[Tuple[Row, Row]]:
    """The stretches of departures on which vehicles leave at one rate, with (departure, amount that left, arrival) at both ends."""
    rows = list(merged(net.supply_curve(reached).points, label.cut(reached).points))
    return [(before, after) for before, after in zip(rows, rows[1:]) if after[1] > before[1]]


def time_of_best(stretches: Iterable[Tuple[Row, Row]]) -> Fraction:
    """What all spend together, if each arrives at the label of the sink."""
    return sum(((there - here) * (v - t + w - u) / 2 for (t, here, v), (u, there, w) in stretches), ZERO)


def worst(latest_arrivals: Sequence[Segment], stretches: Iterable[Tuple[Row, Row]]) -> Loss:
    """The greatest loss of one vehicle, and the first departure that has it."""
    found = Loss(ZERO, None)
    for begin, end, arrives, earliest in overlay(latest_arrivals, [(t, u, v, w) for (t, _, v), (u, _, w) in stretches]):
        if arrives and earliest:
            for time, loss in (begin, arrives[0] - earliest[0]), (end, arrives[1] - earliest[1]):
                found = Loss(loss, time) if loss > found.time else found
    return found
