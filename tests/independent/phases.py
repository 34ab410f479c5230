"""The phase run: phase after phase, by thin flows, from departure 0 to the horizon.

MODEL.md, "Phases"; LISTS.md, "The six lists", "The phase run" and "The curves of the report".
"""
from .exact import ADVANCE, CURVE, EXTEND, Passing, SLACK, ZERO
from .network import start_labels
from .patterns import FULL, base_pattern, sets_of
from .thin_flows import NoPattern, OverBudget, PassesAt, search

DONE = "done"
STATUS_OF_CAUSE = {DONE: 0, "phases": 5, "patterns": 6, "passed": 7, "nopattern": 8}


class Flow:
    """What a report holds (`Flow`): the departure reached, a label curve for each node, and curves for each link.

    The curves of a link are its inflow, its outflow and its queue. Inflows and outflows are traces (`Trace`): pairs of a
    curve's points and its printed rates.
    """

    def __init__(self, reached, labels, inflows, outflows, queues):
        self.reached = reached
        self.labels = labels
        self.inflows = inflows
        self.outflows = outflows
        self.queues = queues


class Solution:
    """The answer of a run: its flow, the number of phases made, the last one's pattern, and the cause as a report has it.
    """

    def __init__(self, flow, phases, pattern, cause):
        self.flow = flow
        self.phases = phases
        self.pattern = pattern
        self.cause = cause


def cause_of(fault, phase):
    """The cause in a report's words, given what kept a phase from being made."""
    if isinstance(fault, OverBudget):
        return f"patterns {phase} {fault.budget}"
    if isinstance(fault, NoPattern):
        return f"nopattern {phase}"
    if isinstance(fault, PassesAt):
        return passed_words(phase, fault.place, fault.passing)
    return passed_words(phase, "-", fault)


def passed_words(phase, place, passing):
    """The words of a cause `passed`."""
    return f"passed {phase} {passing.part} {place} {passing.operation} {passing.left} {passing.right}"


def status_of(cause):
    """The program's status for a run with this cause."""
    return STATUS_OF_CAUSE[cause.split()[0]]


class GrowingCurve:
    """A curve in short form to which points are appended, with the slope of each piece.

    Only the last slope of a label or queue is ever read; of a curve that is restored the others are None.
    """

    def __init__(self, points, slopes):
        self.points = points
        self.slopes = slopes

    def add(self, time, value, slope):
        """Appends a point. It replaces the last one where the slope to it is that of the last piece."""
        if self.slopes and self.slopes[-1] == slope:
            self.points[-1] = (time, value)
        else:
            self.points.append((time, value))
            self.slopes.append(slope)

    def trace(self):
        """The points and the slopes."""
        return list(self.points), list(self.slopes)


def nothing_until(time):
    """The curve that is 0 from time 0 to a label of departure 0."""
    if time == ZERO:
        return GrowingCurve([(ZERO, ZERO)], [])
    return GrowingCurve([(ZERO, ZERO), (time, ZERO)], [ZERO])


def slacks(net, labels):
    """The slack of each link: the head's label minus the tail's and the transit time (`slack`; the list Slack)."""
    answer = []
    for link in net.links:
        arrival = SLACK.sum(labels[link.tail], link.transit)
        answer.append(SLACK.difference(labels[link.head], arrival))
    return answer


def extension_length(net, link_slacks, slopes, time):
    """The greatest length for which a phase may last (`IsExtension`; the list Extend); None where each will do.

    While a phase lasts (`Lasts`), each slack below 0 stays at most 0, and each above 0 at least 0 (`slack_after`). No
    piece starts before its end. Where each length will do the phase is unending (`IsUnending`).
    """
    lengths = []
    for e, link in enumerate(net.links):
        if link_slacks[e] == ZERO:
            continue
        growth = EXTEND.difference(slopes[link.head], slopes[link.tail])
        if (link_slacks[e] > ZERO > growth) or (link_slacks[e] < ZERO < growth):
            lengths.append(EXTEND.quotient(EXTEND.difference(ZERO, link_slacks[e]), growth))
    change = net.next_change(time)
    if change is not None:
        lengths.append(EXTEND.difference(change, time))
    return min(lengths) if lengths else None


class Run:
    """A run that has reached a departure (`Standing`).

    It has the labels of the nodes there, the curves up to there, the number of phases made, and the last one's pattern.
    """

    def __init__(self, net):
        """The start of a run (`IsStart`): departure 0, the least transit sums as labels, no states."""
        self.net = net
        self.labels = start_labels(net)
        self.reached = ZERO
        self.phases = 0
        self.pattern = [None] * len(net.links)
        self.label_curves = [GrowingCurve([(ZERO, label)], []) for label in self.labels]
        self.inflows = [nothing_until(self.labels[link.tail]) for link in net.links]
        self.outflows = [nothing_until(self.labels[link.head]) for link in net.links]
        self.queues = [nothing_until(self.labels[link.tail]) for link in net.links]

    def thin_flow(self, patterns):
        """Slacks, sets and thin flow of the next phase."""
        link_slacks = slacks(self.net, self.labels)
        sets = sets_of(link_slacks)
        rate = self.net.rate_at(self.reached)
        base = base_pattern(self.net, sets, self.pattern)
        return link_slacks, sets, search(self.net, sets, rate, base, patterns)

    def make_phase(self, horizon, patterns):
        """Makes a phase (`Goes`, `IsPhase`). Raises what keeps it from being made (`Fails`); the run is then unchanged."""
        link_slacks, sets, thin = self.thin_flow(patterns)
        extension = extension_length(self.net, link_slacks, thin.slopes, self.reached)
        left = ADVANCE.difference(horizon, self.reached)
        self.advance(left if extension is None else min(left, extension), sets, thin)

    def advance(self, length, sets, thin):
        """Moves the labels by a phase of this length (`moved`; the list Advance), then the curves (the list Curve)."""
        labels = []
        for label, slope in zip(self.labels, thin.slopes):
            growth = ADVANCE.product(length, slope)
            labels.append(ADVANCE.sum(label, growth))
        growths = [self.growth_of(e, length, sets, thin, labels) for e in range(len(self.net.links))]
        self.labels = labels
        self.reached = labels[self.net.source]
        for v, label in enumerate(labels):
            self.label_curves[v].add(self.reached, label, thin.slopes[v])
        for e, growth in enumerate(growths):
            self.add_points(e, growth)
        self.keep_pattern(thin.pattern)
        self.phases += 1

    def keep_pattern(self, pattern):
        """Keeps the pattern of the phase that was made."""
        self.pattern = pattern

    def growth_of(self, e, length, sets, thin, labels):
        """The growth of a link's curves in a phase that ends at these labels (the list Curve)."""
        link = self.net.links[e]
        flow = thin.flows[e] if sets.active[e] else ZERO
        tail_slope, head_slope = thin.slopes[link.tail], thin.slopes[link.head]
        amount = CURVE.sum(self.inflows[e].points[-1][1], CURVE.product(length, flow))
        growth = Growth(amount)
        if tail_slope > ZERO:
            growth.inflow_rate = CURVE.quotient(flow, tail_slope)
        if head_slope > ZERO:
            growth.outflow_rate = CURVE.quotient(flow, head_slope)
        if tail_slope > ZERO:
            slack = CURVE.difference(labels[link.head], CURVE.sum(labels[link.tail], link.transit))
            growth.queue = CURVE.product(link.capacity, slack) if slack > ZERO else ZERO
            full = sets.resetting[e] or thin.pattern[e] == FULL
            growth.queue_slope = CURVE.difference(growth.inflow_rate, link.capacity) if full else ZERO
        return growth

    def add_points(self, e, growth):
        """Appends the points of a phase to a link's curves. None is appended where the label of the node stands still."""
        link = self.net.links[e]
        if growth.inflow_rate is not None:
            self.inflows[e].add(self.labels[link.tail], growth.amount, growth.inflow_rate)
            self.queues[e].add(self.labels[link.tail], growth.queue, growth.queue_slope)
        if growth.outflow_rate is not None:
            self.outflows[e].add(self.labels[link.head], growth.amount, growth.outflow_rate)

    def flow(self):
        """The flow up to the departure reached (`ReportCurves`, `EndsAtLabels`, `IsShortFlow`)."""
        return Flow(self.reached, [list(curve.points) for curve in self.label_curves],
                    [curve.trace() for curve in self.inflows], [curve.trace() for curve in self.outflows],
                    [list(curve.points) for curve in self.queues])


class Growth:
    """The growth of a link's curves in a phase: the amount that has entered by its end, both rates, the queue at its end.

    The rate of the inflow is None where the tail's label stands still, and that of the outflow where the head's does.
    """

    def __init__(self, amount):
        self.amount = amount
        self.inflow_rate = None
        self.outflow_rate = None
        self.queue = None
        self.queue_slope = None


def finish(run, horizon, phases, patterns):
    """Makes phases until the run is at the horizon or stops (`Runs`, `IsPhaseSequence`, `IsRunReport`)."""
    cause = DONE
    while run.reached != horizon and cause == DONE:
        if run.phases == phases:
            cause = f"phases {phases}"
        else:
            cause = try_phase(run, lambda: run.make_phase(horizon, patterns))
    return Solution(run.flow(), run.phases, list(run.pattern), cause)


def try_phase(run, make):
    """Makes the next phase. Returns DONE, or the cause where it can't be made; phases count from 1."""
    try:
        make()
    except (OverBudget, PassesAt, NoPattern, Passing) as fault:
        return cause_of(fault, run.phases + 1)
    return DONE


def solve(net, horizon, phases, patterns):
    """The equilibrium up to the horizon, within the budgets of phases and of patterns in a phase."""
    return finish(Run(net), horizon, phases, patterns)
