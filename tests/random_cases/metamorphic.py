"""Relations of the program with itself: what two runs have to have in common, with no need of another program.

A relation is a generator of (case, expected, found): the second run's case, what its answer has to be by the first run, and what it is.
The networks have small numbers, so that no operation passes; where one does all the same (status 7), nothing is asked, since the
widths of numbers are not kept by units. Runs have the same budgets, and where a budget ends one of them (status 5, 6 or 12), each relation
says whether it holds.
"""
from __future__ import annotations

import random
from dataclasses import replace
from fractions import Fraction

from .networks import PLAIN, Link, Network, joined, scaled, some_network
from .numerals import printed
from .relations import in_other_units, lines_of, other_names, renamed, with_names, without_name
from .reports import CURVES
from .resumptions import checking, continuing, resuming, supplying_more
from .running import Answer
from .runs import PATTERNS, Relation, Runs, some_later
from .side_files import flows_text_lines, loads_lines, routes_lines, thin_flow, with_shuffled_links


def small_factor(rng):
    """A positive rational number with small parts."""
    return Fraction(rng.randint(1, 40), rng.randint(1, 12))


def scaling(rng, runs, network, horizon):
    """Other units of time and amount scale every number of a report.

    The definitions name no unit: multiply transit times and starts by one number, amounts by another, capacities and rates by their
    quotient, and each equation and inequality of queues, labels and thin flows is multiplied by one factor. Patterns have no unit, so the
    list of patterns, its order and the place of the accepted one stay, and with them budgets and causes: it holds for each status but 7.
    """
    time, amount = small_factor(rng), small_factor(rng)
    for words in (["solve", "N", "--horizon", None], ["solve", "N", "--forever"], ["quick", "N", "--amount", None]):
        factor = amount if words[0] == "quick" else time
        budget = [] if words[0] == "quick" else PATTERNS
        first, second = ([word or printed(horizon * scale) for word in words] + budget for scale in (1, factor))
        _, answer = runs.of(first, N=network.text())
        case, found = runs.of(second, N=scaled(network, time, amount).text())
        if 7 not in (answer.status, found.status) and b"passed" not in answer.out + found.out:
            yield case, answer._replace(out=in_other_units(answer.out, time, amount)), found


def scaling_files(rng, runs, network, horizon):
    """Other units of time and amount scale what `load` and `routes` write.

    A link's queue and exits follow from what enters it by the same definitions in all units. Starts are times and rates are rates, as in the
    network file. The files may have wide numbers: where one is too wide in the other units (status 4), or an operation passes, nothing is asked.
    """
    time, amount = small_factor(rng), small_factor(rng)
    for command, lines in (("load", loads_lines), ("routes", routes_lines)):
        text = joined(lines(rng, network, horizon))
        _, answer = runs.of([command, "N", "X", "--horizon", printed(horizon)], N=network.text(), X=text)
        case, found = runs.of([command, "N", "X", "--horizon", printed(horizon * time)], N=scaled(network, time, amount).text(),
                              X=in_other_units(text, time, amount))
        if not {4, 7} & {answer.status, found.status}:
            yield case, answer._replace(out=in_other_units(answer.out, time, amount)), found


def renaming(rng, runs, network, horizon):
    """Other names of nodes and links rename the report.

    Nodes and links are numbered by the order of lines, and nothing but the printed text asks for a name. So it holds for each status.
    """
    nodes, links = other_names(rng, network)
    other = renamed(network, nodes, links)
    number = printed(horizon)
    for words in (["solve", "N", "--horizon", number, *PATTERNS], ["solve", "N", "--forever", *PATTERNS], ["quick", "N", "--amount", number]):
        _, answer = runs.of(words, N=network.text())
        case, found = runs.of(words, N=other.text())
        yield case, answer._replace(out=with_names(answer.out, nodes, links)), found


def settling(rng, runs, network, horizon):
    """The settled flow of a phase's thin flow is that flow, and settled flows stay as they are.

    Labels and inflows of the first phase move evenly, so their rates are the slopes and flows of a thin flow. `settle` moves flow round
    cycles of links that could carry more and less. The flow of a pattern has no such cycle, since its tight links make a forest and all
    other flows are at a bound: so nothing moves. What was settled is the flow of a pattern, so it stays, and its text is the same.
    """
    found = thin_flow(runs.found, network)
    if found is None:
        return
    flows, slopes = found
    case, answer = runs.of(["settle", "N", "F"], N=network.text(), F=joined(flows_text_lines(flows, slopes)))
    if answer.status == 7:
        return
    expected = "".join(sorted(f"flow {name} {printed(flow)}\n" for name, flow in flows.items()))
    yield case, Answer(0, expected.encode(), b""), lines_of(answer, "flow")
    settled = {words[1]: Fraction(words[2]) for words in map(str.split, answer.out.decode().splitlines()) if words[0] == "flow"}
    case, again = runs.of(["settle", "N", "F"], N=network.text(), F=joined(flows_text_lines(settled, slopes)))
    yield case, answer, again


def showing(rng, runs, network, horizon):
    """`show` of what `show` wrote are the same bytes.

    The canonical text stands for the network that it was written from, with the same order of nodes and links. No status but 0 can come.
    """
    _, answer = runs.of(["show", "N"], N=network.text())
    case, found = runs.of(["show", "N"], N=answer.out)
    yield case, answer, found


def ordering(rng, runs, network, horizon):
    """Another order of the links leaves labels and queues.

    Labels and queues are the same in every equilibrium; only which one is found depends on the order. The order also changes the place of
    the accepted pattern, so nothing is asked unless both runs reach the horizon.
    """
    _, answer = runs.solve(network, horizon)
    case, found = runs.solve(with_shuffled_links(rng, network), horizon)
    if (answer.status, found.status) == (0, 0):
        yield case, lines_of(answer, "label", "queue"), lines_of(found, "label", "queue")


def cutting(rng, runs, network, horizon):
    """A piece of supply cut in two of the same rate leaves labels and queues.

    The supply is the same, and so are labels and queues of all its equilibria. A cut ends a phase, so budgets and the split of flow may
    change: nothing is asked unless both runs reach the horizon.
    """
    pieces = []
    for (start, rate), end in zip(network.pieces, [start for start, _ in network.pieces[1:]] + [horizon]):
        pieces += [(start, rate)] + ([((start + end) / 2, rate)] if end > start else [])
    _, answer = runs.solve(network, horizon)
    case, found = runs.solve(replace(network, pieces=pieces), horizon)
    if (answer.status, found.status) == (0, 0):
        yield case, lines_of(answer, "label", "queue"), lines_of(found, "label", "queue")


def halving(rng, runs, network, horizon):
    """Two links beside each other in place of one, which share its capacity, leave the labels.

    Fed in the shares of their capacities, both have the queueing time of the one link, so equilibria of the one network are equilibria of
    the other, and labels are the same in all. The list of patterns is longer: nothing is asked unless both runs reach the horizon.
    """
    bounded = [link for link in network.links if link.capacity is not None]
    if not bounded:
        return
    link = rng.choice(bounded)
    share = Fraction(rng.randint(1, 3), 4)
    twins = [replace(link, capacity=link.capacity * share), replace(link, name="twin", capacity=link.capacity * (1 - share))]
    links = [new for old in network.links for new in (twins if old is link else [old])]
    _, answer = runs.solve(network, horizon)
    case, found = runs.solve(replace(network, links=links), horizon)
    if (answer.status, found.status) == (0, 0):
        yield case, lines_of(answer, "label"), lines_of(found, "label")


def splitting(rng: random.Random, runs: Runs, network: Network, horizon: Fraction) -> Relation:
    """A link in two, one after the other, of which the second is unbounded, leaves the labels.

    Nobody waits before the second one. So both together have the exits of the one link, and equilibria of the one network are equilibria of the
    other. The list of patterns is longer: nothing is asked unless both runs reach the horizon.
    """
    link = rng.choice(network.links)
    part = link.transit * Fraction(rng.randint(0, 3), 3)
    halves = [replace(link, head="mid", transit=part), Link("second", "mid", link.head, link.transit - part, None)]
    links = [new for old in network.links for new in (halves if old is link else [old])]
    _, answer = runs.solve(network, horizon)
    case, found = runs.solve(replace(network, version=2, links=links), horizon)
    if (answer.status, found.status) == (0, 0):
        yield case, lines_of(answer, "label"), without_name(lines_of(found, "label"), "mid")


def ordering_routes(rng: random.Random, runs: Runs, network: Network, horizon: Fraction) -> Relation:
    """Another order of the `route` lines leaves the lines that `routes` writes, but for their order.

    What enters a link is a sum over its routes. In another order an operation may pass (status 7); then nothing is asked.
    """
    lines = routes_lines(rng, network, horizon)
    routes = [line for line in lines if line.startswith("route ")]
    others = [line for line in lines[1:] if not line.startswith("route ")]
    _, answer = runs.of(["routes", "N", "X", "--horizon", printed(horizon)], N=network.text(), X=joined(lines))
    rng.shuffle(routes)
    case, found = runs.of(["routes", "N", "X", "--horizon", printed(horizon)], N=network.text(), X=joined([lines[0], *routes, *others]))
    if answer.status == 0 and found.status != 7:
        yield case, lines_of(answer), lines_of(found)


def later_supply(rng, runs, network, horizon):
    """What is supplied from the horizon on leaves the report.

    Who leaves before the horizon is ahead of what comes later, and a phase that would be longer is cut at the horizon all the same. So all bytes
    are the same, for each status but 7.
    """
    pieces = [piece for piece in network.pieces if piece[0] < horizon]
    _, answer = runs.solve(replace(network, pieces=pieces), horizon)
    case, found = runs.solve(replace(network, pieces=pieces + [(some_later(rng, horizon), Fraction(rng.randint(0, 6)))]), horizon)
    if 7 not in (answer.status, found.status):
        yield case, answer, found


def lasting(rng, runs, network, horizon):
    """`solve --forever` has the curves of `solve` up to the departure that it reached.

    Both make the same phases; without a horizon the last one that ends stops where the tail begins. It is asked where there is a tail
    (status 0) and the other run reaches that departure.
    """
    _, answer = runs.of(["solve", "N", "--forever", *PATTERNS], N=network.text())
    if answer.status == 0:
        reached = Fraction(answer.out.decode().splitlines()[1].split(" ")[1])
        case, found = runs.solve(network, reached)
        if found.status == 0:
            yield case, lines_of(answer, *CURVES, "never"), lines_of(found, *CURVES, "never")


RELATIONS = [scaling, scaling_files, renaming, resuming, resuming, checking, settling, showing, ordering, ordering_routes, cutting, halving,
             splitting, continuing, supplying_more, later_supply, lasting]


def some_relation(rng, programs):
    """One of the relations on a random network: (name, case, expected, found) for each pair of runs that it asks of."""
    network = some_network(rng, programs.expected, PLAIN)
    horizon = Fraction(rng.randint(0, 30), rng.choice([1, 2, 3]))
    relation = rng.choice(RELATIONS)
    for case, expected, found in relation(rng, Runs(programs), network, horizon):
        yield relation.__name__, case, expected, found
