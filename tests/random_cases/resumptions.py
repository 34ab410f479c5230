"""Relations of `resume` and `check` with `solve`, as in `metamorphic`."""
from __future__ import annotations

import random
from dataclasses import replace
from fractions import Fraction

from .flow_changes import foreign_states, of_another_order
from .networks import Network
from .numerals import chance, printed
from .relations import lines_of
from .reports import read_report
from .runs import PATTERNS, YES, Relation, Runs, some_later


def resuming(rng, runs, network, horizon):
    """`resume` at each event, and between events, gives the bytes of one run.

    A run's next phase depends on the flow up to the departure reached and on the last states alone, and a report has both. So the bytes are
    the same where both runs reach the horizon (status 0). Budgets count from the resumed departure, and a search that begins within a
    phase may be longer than the one at its start: where the resumed run stops, nothing is asked.
    """
    _, whole = runs.solve(network, horizon)
    if whole.status != 0:
        return
    stops = [("--phases", str(count)) for count in range(1, 7)]
    parts = [runs.solve(network, horizon, *stop)[1] for stop in stops]
    parts += [runs.solve(network, horizon * Fraction(rng.randint(0, 12), 12))[1] for _ in range(2)]
    for part in parts:
        if part.status in (0, 5):
            case, found = runs.of(["resume", "N", "R", "--horizon", printed(horizon), *PATTERNS], N=network.text(), R=part.out)
            if found.status == 0:
                yield case, whole, found


def checking(rng, runs, network, horizon):
    """`check` says yes of what `solve` and `resume` wrote, whatever stopped them.

    A written report is an equilibrium up to the departure reached, and `check` says yes of each equilibrium. Its own operations may pass
    (status 7) where those of `solve` don't; then nothing is asked.
    """
    _, first = runs.solve(network, horizon, "--phases", str(rng.randint(1, 8)))
    if not first.out:
        return
    later = printed(some_later(rng, horizon))
    _, second = runs.of(["resume", "N", "R", "--horizon", later, *PATTERNS, "--phases", "3"], N=network.text(), R=first.out)
    for answer in (first, second):
        if answer.out:
            case, found = runs.of(["check", "N", "R"], N=network.text(), R=answer.out)
            if found.status != 7:
                yield case, YES, found


def continuing(rng: random.Random, runs: Runs, network: Network, horizon: Fraction) -> Relation:
    """`resume` of any equilibrium has the labels and queues of one run, and `check` says yes of what it writes.

    The report has other states, or the flows of another order of the links. Labels and queues are the same in every equilibrium. The search
    begins elsewhere, so nothing is asked unless both runs reach the horizon.
    """
    _, part = runs.solve(network, horizon * Fraction(rng.randint(0, 12), 12))
    if part.status != 0:
        return
    report = read_report(part.out)
    other = foreign_states(rng, network, report) if chance(rng, 0.5) else of_another_order(rng, network, report, runs.found)
    if other is not None:
        yield from resumed_as_solved(runs, network, other.text(), horizon)


def supplying_more(rng: random.Random, runs: Runs, network: Network, horizon: Fraction) -> Relation:
    """A report that is resumed with another supply from its end on has the labels and queues of one run with that supply.

    What is supplied later changes nothing for those who left before. Nothing is asked unless both runs reach the horizon.
    """
    early = horizon * Fraction(rng.randint(0, 12), 12)
    _, part = runs.solve(network, early)
    if part.status == 0:
        pieces = [piece for piece in network.pieces if piece[0] < early] + [(some_later(rng, early), Fraction(rng.randint(0, 6)))]
        yield from resumed_as_solved(runs, replace(network, pieces=pieces), part.out, horizon)


def resumed_as_solved(runs: Runs, network: Network, report: bytes, horizon: Fraction) -> Relation:
    """A resumed report has the labels and queues of one run, and `check` says yes of it, if both runs reach the horizon."""
    _, whole = runs.solve(network, horizon)
    case, found = runs.of(["resume", "N", "R", "--horizon", printed(horizon), *PATTERNS], N=network.text(), R=report)
    if (whole.status, found.status) == (0, 0):
        yield case, lines_of(whole, "label", "queue"), lines_of(found, "label", "queue")
        case, verdict = runs.of(["check", "N", "R"], N=network.text(), R=found.out)
        if verdict.status != 7:
            yield case, YES, verdict
