"""What speaks against a report and a network belonging together."""
from __future__ import annotations

from fractions import Fraction
from typing import Iterator, List, Optional, Tuple

from .faults import UNFIT, Refused
from .drafts import Link
from .given import Net, Run, as_form, as_network
from .graph import least_sums
from .lines import MOST_REPORT_BYTES, PathLike, read_bytes, shown_name
from .networks import Network, read_network
from .numbers import short
from .report_file import report_of
from .report_values import Report


def mismatch(net: Net, report: Run) -> Optional[str]:
    """What speaks against the report being one of the network, in words; None where nothing does. (`check` looks at all of it.)"""
    return next(mismatches(as_network(net), as_form(report)), None)


def mismatches(net: Network, report: Report) -> Iterator[str]:
    """All that speaks against the report being one of the network: first the names, and where these are the same, the numbers.

    Where most names differ, a sentence for each direction says how many."""
    yield from _other_names(net, report) or _name_faults(net, report) or _number_faults(net, report)


def _other_names(net: Network, report: Report) -> List[str]:
    """How many names of the network the report doesn't have, and the other way round, where that is more than half of either's names."""
    ours = set(net.nodes()), {link.name for link in net.used_links()}
    theirs = set(report.labels), set(report.inflows)
    found, most = [], False
    for here, there, where in (ours, theirs, "of the network are not in the report"), (theirs, ours, "of the report are not in the network"):
        gone = [len(mine - others) for mine, others in zip(here, there)]
        most = most or 2 * sum(gone) > sum(map(len, here))
        parts = [f"{count} {what}{'s' * (count > 1)}" for count, what in zip(gone, ("node", "link")) if count]
        found += [f"other names: {' and '.join(parts)} {where}"] if parts else []
    return found if most else []


def _name_faults(net: Network, report: Report) -> List[str]:
    """Which lines of a report are missing or too many, by the names of the network."""
    names, found = [link.name for link in net.used_links()], []
    for wanted, curves, what in (net.nodes(), report.labels, "label"), (names, report.inflows, "inflow"):
        found += [f"it has no line `{what} {name}`" for name in wanted if name not in curves]
        found += [f"it has a line `{what} {name}`" for name in curves if name not in wanted]
    for name in names:
        for curves, what in (report.outflows, "outflow"), (report.queues, "queue"):
            found += [f"it has no line `{what} {name}`"] if name not in curves else []
    return found


def _number_faults(net: Network, report: Report) -> Iterator[str]:
    """What is wrong with the numbers of a report that has the names of the network."""
    for node, first in least_sums(net.source, net.used_links()).items():
        if report.label(node)(0) != first:
            yield f"its driver on empty roads reaches {node} at {short(report.label(node)(0))}, and the transit times sum to {short(first)}"
    faults = [_rate_fault(link, report) for link in net.used_links()] + [_supply_fault(net, report)]
    yield from (fault for fault in faults if fault)


def _supply_fault(net: Network, report: Report) -> Optional[str]:
    """Whether another amount leaves the source than is supplied: what is wrong, in words."""
    left = Fraction(0)
    for link in net.used_links():
        if link.tail == net.source:
            left += _last_known(report.inflow(link.name).points, report.reached)
        if link.head == net.source:
            left -= _last_known(report.outflow(link.name).points, report.reached)
    due = net.supplied(report.reached)
    return None if left == due else f"{short(left)} leave the source by {short(report.reached)}, and {short(due)} are supplied"


def _last_known(points: Tuple[Tuple[Fraction, Fraction], ...], time: Fraction) -> Fraction:
    """The value at a time of a curve of a report, which is constant after its last point."""
    before = [point for point in points if point[0] <= time][-1:]
    after = [point for point in points if point[0] > time][:1]
    if not before or not after:
        return before[0][1] if before else Fraction(0)
    (t, v), (u, w) = before[0], after[0]
    return v + (w - v) * (time - t) / (u - t)


def _rate_fault(link: Link, report: Report) -> Optional[str]:
    """Where more leaves a link than its capacity, or less while a queue stands there: what is wrong, in words."""
    outflow, queue = report.outflow(link.name), report.queue(link.name)
    for start, end, value, slope in outflow.pieces():
        if link.capacity is not None and slope > link.capacity:
            return f"{short(slope)} leave {link.name} at {short(start)}, and its capacity is {short(link.capacity)}"
    for start, end, value, slope in queue.pieces():
        a, b = start + link.transit, min(end + link.transit, outflow.until)
        if (value > 0 or slope > 0) and a < b:
            rate = (outflow(b) - outflow(a)) / (b - a)
            if rate != link.capacity:
                capacity = "unbounded" if link.capacity is None else short(link.capacity)
                return f"a queue stands at {link.name} from {short(start)} on, {short(rate)} leave it, and its capacity is {capacity}"
    return None


def read_pair(net: PathLike, report: PathLike) -> Tuple[Network, Report]:
    """A network and its report, by all rules; Refused where they don't belong together."""
    network, name = read_network(net), shown_name(report)
    data = read_bytes(report, MOST_REPORT_BYTES)  # once, since it may be a pipe
    why = mismatch(network, report_of(data, name))
    if why:
        raise Refused(f"{name} is no report of {shown_name(net)}: {why}", status=UNFIT)
    return network, report_of(data, name, network)
