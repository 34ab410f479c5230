"""Resuming: a run that goes on from a report.

LISTS.md, "Going on from a report"; FORMATS.md, "What `resume` writes".
"""
from . import curves
from .checking import check
from .exact import CURVE, ZERO
from .phases import Flow, GrowingCurve, Run, finish


class RestoredRun(Run):
    """A run that goes on where a flow ends (`restore_list`). It has made no phase, and has the pattern of the report."""

    def __init__(self, net, flow, pattern):
        self.net = net
        self.reached = flow.reached
        self.phases = 0
        self.pattern = list(pattern)
        self.labels = [points[-1][1] for points in flow.labels]
        self.label_curves = [GrowingCurve(points, last_slope(points)) for points in flow.labels]
        self.queues = [GrowingCurve(points, last_slope(points)) for points in flow.queues]
        self.inflows = [GrowingCurve(*trace) for trace in flow.inflows]
        self.outflows = [GrowingCurve(*trace) for trace in flow.outflows]
        self.was_open = self.is_open()

    def keep_pattern(self, pattern):
        """Keeps the pattern of a phase. The first phase of an open run leaves the report's pattern as it was (`Steps`)."""
        if self.phases > 0 or not self.was_open:
            self.pattern = pattern

    def is_open(self):
        """Whether the run is open, which means that it was cut within a phase.

        No piece starts at its time then, and each link without a state has a slack other than 0.
        """
        if any(start == self.reached for start, _ in self.net.pieces):
            return False
        return all(state is not None or self.labels[link.head] - self.labels[link.tail] != link.transit
                   for link, state in zip(self.net.links, self.pattern))


def last_slope(points):
    """The slopes of a curve that is restored: the last piece's, and None for the others, which are never read."""
    if len(points) < 2:
        return []
    return [None] * (len(points) - 2) + [curves.slope(points[-2], points[-1], CURVE)]


def cut_flow(net, flow):
    """The flow cut at the departure reached, in short form (`cut_flow`).

    Labels are cut there, inflows and queues at the label of the link's tail, outflows at that of its head.
    """
    labels = [short_cut(points, flow.reached) for points in flow.labels]
    ends = [points[-1][1] for points in labels]
    inflows, outflows, queues = [], [], []
    for e, link in enumerate(net.links):
        inflows.append(cut_trace(flow.inflows[e], ends[link.tail]))
        outflows.append(cut_trace(flow.outflows[e], ends[link.head]))
        queues.append(short_cut(flow.queues[e], ends[link.tail]))
    return Flow(flow.reached, labels, inflows, outflows, queues)


def short_cut(points, until):
    """A curve cut at a time, in short form."""
    return curves.short(curves.cut(points, until, CURVE), CURVE)


def cut_trace(trace, until):
    """A trace cut at a time, in short form, with the slopes that are left as rates."""
    points = short_cut(trace[0], until)
    return points, curves.slopes(points, CURVE)


def resume(net, report, horizon, phases, patterns):
    """The run from a report on to a horizon that is not before the departure reached (`RunsOn`, `IsResumedReport`).

    The flow is checked first: raises Violation.
    """
    check(net, report.flow)
    run = RestoredRun(net, cut_flow(net, report.flow), report.pattern)
    return finish(run, horizon, phases, patterns)
