#!/usr/bin/env python3
"""Checks the independent program by the definitions of docs/MODEL.md, on random small networks.

    tests/direct.py [--seed N] [--cases N]

What `independent` computes by lists of operations is compared with `independent/direct*.py`: queues and outflows over all
past times, earliest arrivals over all walks, listed patterns among all patterns, feasible flows and cuts. A case is a
network, made from its own seed alone: seed 105 is the sixth case of a run with seed 100.

Progress goes to standard error, and at last a tally to standard output. Statuses: 0 all agree; 1 some case disagrees; 2 the
words are wrong.
"""
import argparse
import collections
import random
import sys

sys.dont_write_bytecode = True

from independent.checking import Violation, check
from independent.direct import DirectFlow, plain
from independent.direct_excess import excess_complaints, last_start, steady_from
from independent.direct_flows import DirectRoutes, extended, is_listed, is_quickest, whole_listing
from independent.direct_grading import Grading, growth, growth_complaints, is_graded, sways
from independent.direct_growth import least_capacity, tail_grows
from independent.direct_violations import is_explained
from independent.endless import solve_forever
from independent.exact import ONE, Passing, Rational, ZERO
from independent.lines import Broken
from independent.network import canonical_text, start_labels
from independent.network_file import read_network
from independent.patterns import base_pattern, listing, sets_of
from independent.phases import DONE, Flow, slacks, solve
from independent.quickest import PushesSpent, has_unbounded_walk, quickest_flow
from independent.report_file import read_report
from independent.reports import Report, report_text
from independent.resuming import resume
from independent.routes import load_routes
from independent.routes_file import read_routes
from independent.settling import settled, settled_pattern
from independent.small_cases import changed_flow, flow_of_part, reordered, some_network, some_number, some_routes_text, with_last_rate
from independent.thin_flows import NoPattern, OverBudget, is_thin_flow, meets, search, solve_pattern

PHASES, PATTERNS = 10000, 2000


class Disagreement(Exception):
    """The program and the definitions don't say the same."""


def expect(agrees, what, *details):
    """Raises Disagreement unless both sides agree."""
    if not agrees:
        raise Disagreement(" ".join([what, *map(str, details)]))


def text_of(net, horizon, solution):
    """The report of a run."""
    return report_text(net, Report(horizon, solution.flow, solution.cause, solution.pattern))


def expect_equilibrium(net, flow, what):
    """`check` says yes, and the definitions have no complaint."""
    check(net, flow)
    complaints = DirectFlow(net, flow).complaints()
    expect(not complaints, f"{what} is no equilibrium:", complaints[:3])


def meet_run(rng, net, tally):
    """A run's flow is an equilibrium, its report reads back, and its labels don't depend on the order of the links."""
    expect(canonical_text(read_network(canonical_text(net))) == canonical_text(net), "the canonical text doesn't read back")
    horizon = some_number(rng, 0, 40, [1, 2, 3])
    solution = solve(net, horizon, rng.choice([1, 3, PHASES]), PATTERNS)
    tally["run " + solution.cause.split()[0]] += 1
    text = text_of(net, horizon, solution)
    report = read_report(net, text)
    expect(report_text(net, report) == text, "the report doesn't read back")
    expect_equilibrium(net, report.flow, "the run's flow")
    other = reordered(rng, net)
    run = solve(other, solution.flow.reached, PHASES, 20000)
    if run.cause == DONE:
        labels = [run.flow.labels[other.node_number[name]] for name in net.nodes]
        expect(labels == solution.flow.labels, "labels depend on the order of the links")
    for _ in range(12):
        meet_verdict(net, changed_flow(rng, solution.flow), tally)
    for _ in range(4):
        flow = flow_of_part(rng, net, horizon)
        if flow is not None:
            meet_verdict(net, flow, tally)


def meet_verdict(net, flow, tally):
    """What `check` answers of a flow is what the definitions say of it. A label may be wrong between samples alone."""
    direct = DirectFlow(net, flow)
    try:
        check(net, flow)
    except Violation as violation:
        tally["no " + violation.rule] += 1
        expect(is_explained(direct, violation), "a violation isn't explained:", violation.line())
        expect(violation.rule == "C3" or direct.complaints(), "the definitions have no complaint:", violation.line())
    except Passing:
        tally["check passes"] += 1
    else:
        tally["yes"] += 1
        complaints = direct.complaints()
        expect(not complaints, "`check` says yes:", complaints[:3])


def meet_listing(rng, net, tally):
    """The listing is that of all listed patterns, in order."""
    if len(net.links) <= 6:
        sets = sets_of(slacks(net, start_labels(net)))
        base = base_pattern(net, sets, [None] * len(net.links))
        expect(list(listing(net, sets, base)) == whole_listing(net, sets, base), "the listing is another")
        tally["listings"] += 1


def meet_quickest(rng, net, tally):
    """A quickest flow delivers the amount, and a cut shows that none is quicker."""
    amount = some_number(rng, 1, 30, [1, 2, 3])
    if has_unbounded_walk(net):
        return
    try:
        quickest = quickest_flow(net, amount, rng.choice([1, 10000, 10000]))
    except PushesSpent:
        return
    expect(is_quickest(net, amount, quickest), "it is no quickest flow of", amount)
    tally["quickest flows"] += 1


def found_thin_flows(rng, net, rate):
    """Thin flows of departure 0, found in four orders of the links: pairs of flows and slopes, in the network's order."""
    found = []
    for _ in range(4):
        other = reordered(rng, net)
        sets = sets_of(slacks(other, start_labels(other)))
        thin = search(other, sets, rate, base_pattern(other, sets, [None] * len(other.links)), 3000)
        found.append(([thin.flows[other.link_number[link.name]] for link in net.links],
                      [thin.slopes[other.node_number[name]] for name in net.nodes]))
    return found


def meet_settling(rng, net, tally):
    """Means of thin flows are thin, slopes are unique, and settled flows are the one solution of their pattern."""
    rate = some_number(rng, 0, 8, [1, 2])
    try:
        found = found_thin_flows(rng, net, rate)
    except (OverBudget, NoPattern):
        return
    slopes = found[0][1]
    expect(all(other == slopes for _, other in found), "slopes of thin flows differ")
    weights = [ONE] + [some_number(rng, 0, 3, [1]) for _ in found[1:]]
    flows = [sum((flow * weight for flow, weight in zip(on_link, weights)), ZERO) / sum(weights, ZERO)
             for on_link in zip(*(flows for flows, _ in found))]
    sets = sets_of(slacks(net, start_labels(net)))
    expect(is_thin_flow(net, sets, rate, flows, slopes), "a mean of thin flows isn't thin")
    ends = settled(net, sets, flows, slopes)
    pattern = settled_pattern(net, sets, ends, slopes)
    thin = solve_pattern(net, sets, rate, pattern)
    solves = meets(net, thin) and (thin.flows, thin.slopes) == (ends, slopes)
    expect(solves and is_listed(net, sets, pattern), "a pattern isn't settled")
    e = rng.randrange(len(flows))
    more = flows[:e] + [flows[e] + ONE] + flows[e + 1:]
    expect(not is_thin_flow(net, sets, rate, more, slopes), "a flow that isn't conserved is thin")
    tally["settled with cycles" if ends != flows else "settled"] += 1


def meet_forever(rng, net, tally):
    """A run without a horizon goes on by its tail as an equilibrium, with the labels of a run to that horizon."""
    solution, tail = solve_forever(net, 40, PATTERNS)
    check(net, solution.flow)
    tally["endless, " + ("with a tail" if tail else "stopped")] += 1
    if tail is not None:
        until = solution.flow.reached + some_number(rng, 0, 30, [1, 2, 3])
        flow = extended(net, solution.flow, tail, until) if until > solution.flow.reached else solution.flow
        expect_equilibrium(net, flow, "the extended flow")
        reached = plain(solution.flow.reached)
        expect(tail_grows(net, reached, max(reached, plain(until)), flow, tail[0]), "labels don't grow by the cuts of the network")
        tally["endless, growing" if tail[0][net.sink] != ONE else "endless, settling"] += 1
        run = solve(net, until, 60, 4000)
        if run.cause == DONE:
            same = [points[-1] for points in run.flow.labels] == [points[-1] for points in flow.labels]
            expect(same, "labels of the tail differ")


def meet_resuming(rng, net, tally):
    """A report that is resumed gives the bytes of one long run. Other points and states of a report give its labels."""
    early, late = sorted(some_number(rng, 0, 40, [1, 2, 3]) for _ in range(2))
    first = solve(net, early, rng.choice([1, 2, PHASES]), PATTERNS)
    report = read_report(net, text_of(net, early, first))
    resumed, whole = resume(net, report, late, PHASES, PATTERNS), solve(net, late, PHASES, PATTERNS)
    check(net, resumed.flow)
    done = resumed.cause == whole.cause == DONE
    expect(not done or text_of(net, late, resumed) == text_of(net, late, whole), "the resumed run has other bytes")
    tally["resumed" if done else "resumed, stopped"] += 1
    states = [rng.choice([None, state]) for state in report.pattern]
    resumed = resume(net, Report(early, respelled(rng, report.flow), report.cause, states), late, PHASES, PATTERNS)
    check(net, resumed.flow)
    done = resumed.cause == whole.cause == DONE
    expect(not done or resumed.flow.labels == whole.flow.labels, "other states give other labels")


def respelled(rng, flow):
    """The same flow with one more point on a label, and one behind its end."""
    labels = [list(points) for points in flow.labels]
    points = rng.choice(labels)
    if len(points) > 1:
        (start, before), (end, after) = points[-2:]
        points.insert(-1, ((start + end) / Rational(2), (before + after) / Rational(2)))
    points.append((points[-1][0] + Rational(1, 3), Rational(7)))
    return Flow(flow.reached, labels, flow.inflows, flow.outflows, flow.queues)


def meet_routes(rng, net, tally):
    """What routes carry is what the definition says."""
    try:
        routes = read_routes(net, some_routes_text(rng, net))
    except Broken as broken:
        tally["routes " + broken.rule] += 1
        return
    horizon = some_number(rng, 0, 12, [1, 2])
    complaints = DirectRoutes(net, routes, load_routes(net, routes, horizon), horizon).complaints()
    expect(not complaints, "routes aren't as defined:", complaints[:3])
    tally["routes"] += 1


def meet_excess(rng, net, tally):
    """The excess of an equilibrium never rises after the last start, and is equal only where the equilibrium is steady."""
    horizon = exact(last_start(net)) + some_number(rng, 0, 40, [1, 2, 3])
    direct = DirectFlow(net, solve(net, horizon, 60, PATTERNS).flow)
    complaints = excess_complaints(direct)
    expect(not complaints, "the excess isn't as it must be:", complaints[:3])
    tally["excess, " + ("steady" if steady_from(direct) is not None else "not steady")] += 1


def exact(number):
    """A fraction of the standard library as a number of the program."""
    return Rational(number.numerator, number.denominator)


def meet_bottleneck(rng, net, tally):
    """The label of the sink grows by the least cut, also with a last supply rate that is the least capacity, or differs little from it."""
    least = least_capacity(net)
    if least is None:
        meet_growth(rng, net, tally)
    else:
        near = least / rng.choice([3, 10, 50])
        for rate in (least - near, least, least + near):
            meet_growth(rng, with_last_rate(net, exact(rate)), tally)


def meet_growth(rng, net, tally):
    """A run without a horizon has a graded flow as its tail. Long runs keep to it, and no label of the sink changes against its line later."""
    solution, tail = solve_forever(net, 60, PATTERNS)
    if tail is None:
        tally["growth, stopped"] += 1
        return
    grading, grows = Grading([plain(flow) for flow in tail[1]], [plain(slope) for slope in tail[0]]), growth(net)
    expect(is_graded(net, grading), "the tail is no graded flow")
    expect(grows > 1 or set(grading.levels) == {1}, "a slope isn't 1, and all cuts are wide")
    run = solve(net, solution.flow.reached * Rational(4) + some_number(rng, 1, 30, [1, 2, 3]), 100, PATTERNS)
    direct = DirectFlow(net, run.flow)
    complaints = growth_complaints(direct, grading)
    expect(not complaints, "the sink doesn't grow as it must:", complaints[:3])
    if run.cause == DONE:
        meet_last_phase(direct, DirectFlow(net, solution.flow), grows)
        tally["growth, " + ("narrow" if grows > 1 else "wide")] += 1
    else:
        tally["growth, stopped"] += 1


def meet_last_phase(direct, until_tail, grows):
    """A long run changes no more against the line of the sink than the run up to the tail. If it becomes steady, the tail begins then."""
    expect(sum(sways(direct, grows)) == sum(sways(until_tail, grows)), "the label of the sink changes in the tail")
    steady = steady_from(direct)
    expect(steady == (until_tail.reached if grows == 1 else None), "the tail begins at", until_tail.reached, "and it is steady from", steady)


MEETINGS = [meet_run, meet_listing, meet_quickest, meet_settling, meet_forever, meet_resuming, meet_routes, meet_excess, meet_bottleneck]


def meet(seed, tally):
    """Whether all agrees on the network of a seed; a disagreement is printed with the network."""
    rng = random.Random(seed)
    net = some_network(rng)
    try:
        for meeting in MEETINGS:
            meeting(rng, net, tally)
    except (Disagreement, Violation) as fault:
        print(f"direct: seed {seed}: {fault}\n{canonical_text(net).decode()}", flush=True)
        return False
    return True


def main():
    """Runs the cases."""
    parser = argparse.ArgumentParser(prog="tests/direct.py", description=__doc__,
                                     formatter_class=argparse.RawDescriptionHelpFormatter)
    parser.add_argument("--seed", type=int, default=1, metavar="N")
    parser.add_argument("--cases", type=int, default=100, metavar="N")
    options = parser.parse_args()
    tally, wrong = collections.Counter(), 0
    for i in range(options.cases):
        wrong += not meet(options.seed + i, tally)
        if (i + 1) % 20 == 0:
            print(f"direct: {i + 1} of {options.cases} networks, {wrong} disagree", file=sys.stderr, flush=True)
    print("direct: " + ", ".join(f"{count} {what}" for what, count in sorted(tally.items())))
    print(f"direct: {options.cases} networks, {wrong} disagree")
    sys.exit(1 if wrong else 0)


if __name__ == "__main__":
    main()
