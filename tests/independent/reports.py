"""The text of a report. FORMATS.md, "The report"."""
from .lines import joined


class Report:
    """A report: its horizon, flow, cause and last pattern."""

    def __init__(self, horizon, flow, cause, pattern):
        self.horizon = horizon
        self.flow = flow
        self.cause = cause
        self.pattern = pattern


def curve_lines(word, name, points):
    """The lines of a curve, one for each point."""
    return [f"{word} {name} {time} {value}" for time, value in points]


def trace_lines(word, name, trace):
    """The lines of an inflow or outflow: each point with the rate to the next one, the last point with `-`."""
    points, rates = trace
    return [f"{word} {name} {time} {value} {rate}" for (time, value), rate in zip(points, [*rates, "-"])]


def flow_lines(net, flow):
    """The `label` and `never` lines, then link by link the `inflow`, `outflow` and `queue` lines."""
    lines = []
    for name, points in zip(net.nodes, flow.labels):
        lines += curve_lines("label", name, points)
    lines += [f"never {name}" for name in net.idle_nodes]
    for e, link in enumerate(net.links):
        lines += trace_lines("inflow", link.name, flow.inflows[e])
        lines += trace_lines("outflow", link.name, flow.outflows[e])
        lines += curve_lines("queue", link.name, flow.queues[e])
    return lines


def state_lines(net, pattern):
    """The `state` line of each link that has a state."""
    return [f"state {link.name} {state.value}" for link, state in zip(net.links, pattern) if state is not None]


def report_text(net, report):
    """What `solve` and `resume` write."""
    lines = [f"report {net.version}", f"horizon {report.horizon}", f"reached {report.flow.reached}"]
    lines += [f"cause {report.cause}"] + flow_lines(net, report.flow) + state_lines(net, report.pattern)
    return joined(lines + ["end"])
