"""A run without a horizon. LISTS.md, "A run without a horizon"; FORMATS.md, "What `solve --forever` writes"."""
from .exact import ADVANCE, EXTEND
from .lines import joined
from .phases import DONE, Run, Solution, extension_length, try_phase
from .reports import flow_lines, state_lines

STATUS_PHASES_SPENT = 12


class EndlessRun(Run):
    """A run in which each phase is as long as it may last. The tail is the phase that may last for ever: slopes and flows.
    """

    def __init__(self, net):
        super().__init__(net)
        self.tail = None

    def make_longest_phase(self, patterns):
        """Makes a phase to its end (`GoesToEnd`), or keeps the tail and its pattern (`GoesForever`)."""
        link_slacks, sets, thin = self.thin_flow(patterns)
        extension = extension_length(self.net, link_slacks, thin.slopes, self.reached)
        if extension is None:
            self.tail = thin.slopes, thin.flows
            self.pattern = thin.pattern
        else:
            end = EXTEND.sum(self.reached, extension)
            self.advance(ADVANCE.difference(end, self.reached), sets, thin)


def solve_forever(net, phases, patterns):
    """The run until its tail, or until it stops; and the tail, or None where it stopped."""
    run = EndlessRun(net)
    cause = DONE
    while run.tail is None and cause == DONE:
        if run.phases == phases:
            cause = f"phases {phases}"
        else:
            cause = try_phase(run, lambda: run.make_longest_phase(patterns))
    return Solution(run.flow(), run.phases, run.pattern, cause), run.tail


def forever_text(net, solution, tail):
    """What `solve --forever` writes."""
    lines = ["forever 1", f"reached {solution.flow.reached}", f"cause {solution.cause}"]
    lines += flow_lines(net, solution.flow) + state_lines(net, solution.pattern)
    if tail is not None:
        slopes, flows = tail
        lines += [f"slope {name} {slope}" for name, slope in zip(net.nodes, slopes)]
        lines += [f"flow {link.name} {flow}" for link, flow in zip(net.links, flows)]
    return joined(lines + ["end"])
