"""Thin flows with resetting: the definition, and the search for one among the listed patterns.

MODEL.md, "Thin flows with resetting" and "Patterns"; LISTS.md, "The six lists" and "Listed patterns and the search".
"""
from .equations import eliminated, equations
from .exact import ONE, Passing, VERDICT, ZERO as NOTHING
from .patterns import FULL, TIGHT, ZERO, listing


class ThinFlow:
    """A thin flow that a search found: flows of the links, slopes of the nodes, and its pattern."""

    def __init__(self, flows, slopes, pattern):
        self.flows = flows
        self.slopes = slopes
        self.pattern = pattern


class OverBudget(Exception):
    """The listing is longer than the budget, and no pattern within the budget is accepted."""

    def __init__(self, budget):
        super().__init__(budget)
        self.budget = budget


class PassesAt(Exception):
    """No pattern is accepted, and an operation passes: the first place of a pattern where one does, and its first one."""

    def __init__(self, place, passing):
        super().__init__(place, passing)
        self.place = place
        self.passing = passing


class NoPattern(Exception):
    """No pattern is accepted, and no operation passes. Each phase has a thin flow, so no run ends so."""


def search(net, sets, rate, base, budget):
    """The thin flow of the first accepted pattern (`IsSearch`, `IsAccepted`); raises OverBudget, PassesAt or NoPattern.

    Places in the listing count from 1.
    """
    first_passing = None
    for place, pattern in enumerate(listing(net, sets, base), 1):
        if place > budget:
            raise OverBudget(budget)
        try:
            thin = solve_pattern(net, sets, rate, pattern)
            if thin is not None and meets(net, thin):
                return thin
        except Passing as passing:
            first_passing = first_passing or PassesAt(place, passing)
    raise first_passing or NoPattern()


def solve_pattern(net, sets, rate, pattern):
    """The solution of a pattern's equations, or None where there is not exactly one (`IsSolvable`, `pattern_lists`)."""
    system, active = equations(net, sets, rate, pattern)
    values = eliminated(system)
    if values is None:
        return None
    flows = [NOTHING] * len(net.links)
    for e, flow in zip(active, values[len(net.nodes):]):
        flows[e] = flow
    return ThinFlow(flows, values[:len(net.nodes)], pattern)


def meets(net, thin):
    """Whether a solution meets the inequalities of its pattern (`Meets`, `IsSolution`; the list Verdict).

    All products come before any comparison.
    """
    pattern, slopes = thin.pattern, thin.slopes
    most = [VERDICT.product(link.capacity, slopes[link.head])
            if pattern[e] == TIGHT and link.capacity is not None else None for e, link in enumerate(net.links)]
    if min(thin.flows) < NOTHING or min(slopes) < NOTHING:
        return False
    for e, link in enumerate(net.links):
        if most[e] is not None and thin.flows[e] > most[e]:
            return False
        if pattern[e] == FULL and slopes[link.head] < slopes[link.tail]:
            return False
        if pattern[e] == ZERO and slopes[link.head] > slopes[link.tail]:
            return False
    return True


def is_thin_flow(net, sets, rate, flows, slopes):
    """Whether flows and slopes are a thin flow with resetting (`IsThinFlow`), exactly and without a bound.

    The flows are a static flow of value `rate` from source to sink on the active links alone. The slope of the source
    is 1. The slope of each other node is the least exit slope over the active links into it. It equals the exit slope of
    each of these with flow. No flow and no slope is negative.
    """
    if min(flows) < NOTHING or min(slopes) < NOTHING or slopes[net.source] != ONE:
        return False
    if any(flow != NOTHING and not sets.active[e] for e, flow in enumerate(flows)):
        return False
    return is_static_flow(net, rate, flows) and all(
        has_least_exit_slope(net, sets, flows, slopes, w) for w in range(len(net.nodes)) if w != net.source)


def is_static_flow(net, rate, flows):
    """Whether the flow out of a node minus the flow into it is `rate` at the source, -`rate` at the sink, 0 elsewhere."""
    excess = [NOTHING] * len(net.nodes)
    excess[net.source], excess[net.sink] = -rate, rate
    for e, link in enumerate(net.links):
        excess[link.tail] = excess[link.tail] + flows[e]
        excess[link.head] = excess[link.head] - flows[e]
    return all(value == NOTHING for value in excess)


def has_least_exit_slope(net, sets, flows, slopes, w):
    """Whether a node's slope is the least exit slope over the active links into it, and that of each with flow."""
    exit_slopes = {e: exit_slope(net.links[e], sets.resetting[e], flows[e], slopes[net.links[e].tail])
                   for e in net.into[w] if sets.active[e]}
    if not exit_slopes or min(exit_slopes.values()) != slopes[w]:
        return False
    return all(rho == slopes[w] for e, rho in exit_slopes.items() if flows[e] > NOTHING)


def exit_slope(link, resetting, flow, tail_slope):
    """The slope at which the exit of a link moves with the departure (`exit_slope`, ρ).

    It is flow over capacity on a resetting link, the tail's slope on an unbounded one, and the greater of both on another.
    """
    if link.capacity is None:
        return tail_slope
    if resetting:
        return flow / link.capacity
    return max(tail_slope, flow / link.capacity)
