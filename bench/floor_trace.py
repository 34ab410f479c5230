"""Counts the operations of a run of the program, on its very operands.

The independent program (tests/independent) makes the run with the operations of the lists, in their order: statuses 7 and the operands in a line
`stopped: passed` depend on them. Here its operations and comparisons are wrapped from outside. What it does beyond the lists is left out:

- Its search tries all listed patterns. Here the pattern of a phase is the base, if that is accepted, or asked of PROGRAM (`--phases`). Its one table
  and verdict are counted: what decides against patterns before it can be done without their tables.
- It looks for times anew by sorting and by halving. A walk along the curves needs one comparison for each time of their points.
- Tests for equality, reading, and least transit sums at departure 0, which have no list, have no operations here.

An operation has a length: `trivial` if an operand makes the result known (0; of a product also 1 or -1, and of a quotient on the right), `whole` if
both are whole numbers of at most 63 bits, else the least of 32, 64 and 128 bits into which all four parts fit with their sign.
"""
from __future__ import annotations

import collections
import os
import random
import sys
from collections.abc import Callable
from typing import Any, Optional

sys.path.append(f"{os.path.dirname(os.path.realpath(__file__))}/../tests")
import instructions
from independent import app, curves, endless, exact, network, patterns, phases, thin_flows

KINDS = ("sum", "difference", "product", "quotient", "comparison")
LENGTHS = ("trivial", "whole", "32", "64", "128")
# How many operations of a kind and length a run keeps as a sample.
KEPT = 400


class NotCounted(Exception):
    """The operations of a run can't be counted."""


class Counts:
    """The operations of a run by kind and length; those of them that differ; a sample of each; the bytes read; what was answered."""

    def __init__(self) -> None:
        self.operations: collections.Counter[tuple[str, str]] = collections.Counter()
        self.different: collections.Counter[tuple[str, str]] = collections.Counter()
        self.samples: dict[tuple[str, str], list[str]] = collections.defaultdict(list)
        self.read = 0
        self.answer: tuple[int, bytes, bytes] = (0, b"", b"")
        # Whether comparisons aren't counted just now, and whether nothing is.
        self.paused = self.stopped = False
        self.seen: set[tuple[Any, ...]] = set()
        self.draws = random.Random(1)

    def add(self, kind: str, left: exact.Rational, right: exact.Rational) -> None:
        """Counts an operation."""
        if self.stopped:
            return
        key = kind, length_of(kind, left, right)
        self.operations[key] += 1
        operands = (kind, left.numerator, left.denominator, right.numerator, right.denominator)
        if operands not in self.seen:
            self.seen.add(operands)
            self.different[key] += 1
        kept, number = self.samples[key], self.operations[key]
        place = len(kept) if number <= KEPT else self.draws.randrange(number)
        if place < KEPT:
            kept[place : place + 1] = [" ".join(map(str, operands[1:]))]


def length_of(kind: str, left: exact.Rational, right: exact.Rational) -> str:
    """Returns the length of an operation."""
    units = {"product": (left, right), "quotient": (right,)}.get(kind, ())
    if left.numerator == 0 or right.numerator == 0 or any(it.denominator == 1 and abs(it.numerator) == 1 for it in units):
        return "trivial"
    size = max(abs(left.numerator), left.denominator, abs(right.numerator), right.denominator).bit_length()
    if left.denominator == right.denominator == 1 and size < 64:
        return "whole"
    return "32" if size < 32 else "64" if size < 64 else "128"


# ---- wrapping the independent program ----


def paused(counts: Counts, call: Callable[..., Any]) -> Callable[..., Any]:
    """Returns the call with its comparisons left out."""

    def does(*given: Any) -> Any:
        before, counts.paused = counts.paused, True
        try:
            return call(*given)
        finally:
            counts.paused = before

    return does


def counted_operation(counts: Counts, kind: str) -> Callable[..., Any]:
    """Returns an operation of `Part` that is counted."""
    call = getattr(exact.Part, kind)

    def does(self: exact.Part, left: exact.Rational, right: exact.Rational) -> exact.Rational:
        counts.add(kind, left, right)
        before, counts.paused = counts.paused, True
        result = call(self, left, right)
        counts.paused = before
        return result

    return does


def counted_comparison(counts: Counts, name: str) -> Callable[..., Any]:
    """Returns a comparison of `Rational` that is counted."""

    def does(left: exact.Rational, right: exact.Rational) -> bool:
        if not counts.paused:
            counts.add("comparison", left, right)
        first, second = left.numerator * right.denominator, right.numerator * left.denominator
        return {"__lt__": first < second, "__le__": first <= second, "__gt__": first > second, "__ge__": first >= second}[name]

    return does


def walked(counts: Counts, call: Callable[..., Any], times_of: Callable[[Any], list[exact.Rational]]) -> Callable[..., Any]:
    """Returns a call of which one comparison is counted for each time of its result."""
    quiet = paused(counts, call)

    def does(*given: Any) -> Any:
        result = quiet(*given)
        times = times_of(result)
        for before, after in zip(times, times[1:]):
            counts.add("comparison", before, after)
        return result

    return does


def counted_verdict(counts: Counts, call: Callable[..., Any]) -> Callable[..., Any]:
    """Returns the test of a solution, with the comparisons that its pattern's inequalities have."""
    quiet = paused(counts, call)

    def does(net: network.Network, thin: thin_flows.ThinFlow) -> bool:
        result: bool = quiet(net, thin)
        for value in [*thin.flows, *thin.slopes]:
            counts.add("comparison", value, exact.ZERO)
        for link, state, flow in zip(net.links, thin.pattern, thin.flows):
            if state == patterns.TIGHT and link.capacity is not None:
                counts.add("comparison", flow, link.capacity * thin.slopes[link.head])
            elif state in (patterns.FULL, patterns.ZERO):
                counts.add("comparison", thin.slopes[link.head], thin.slopes[link.tail])
        return result

    return does


class Hints:
    """Finds the patterns of a run's phases by asking the program."""

    def __init__(self, counts: Counts, words: list[str], program: str, folder: str) -> None:
        self.counts, self.words, self.program, self.folder = counts, words, program, folder
        self.run: Optional[phases.Run] = None
        self.horizon: Optional[exact.Rational] = None

    def beginning(self, call: Callable[..., Any], has_horizon: bool) -> Callable[..., Any]:
        """Returns the call that makes a phase, with the run noted."""

        def does(run: phases.Run, *given: Any) -> Any:
            self.run, self.horizon = run, given[0] if has_horizon else None
            return call(run, *given)

        return does

    def search(self, net: network.Network, sets: Any, rate: Any, base: Any, budget: int) -> thin_flows.ThinFlow:
        """The search of the independent program, by the pattern that the program has found."""
        assert self.run is not None
        pattern = base
        if not self.base_is_accepted(net, sets, rate, base):
            pattern = self.pattern_of(net, self.run.phases + 1, budget)
        thin = thin_flows.solve_pattern(net, sets, rate, pattern)
        if thin is None or not thin_flows.meets(net, thin):
            raise NotCounted("the program's pattern isn't accepted")
        return thin

    def base_is_accepted(self, net: network.Network, sets: Any, rate: Any, base: Any) -> bool:
        """Whether the base of a search is listed and accepted, and so the first one; its operations aren't counted."""
        listed = patterns.Listing(net, sets, base)
        component, entering = listed.start()
        if not all(entering[1:]) or next(listed.completions(0, 0, component, entering), None) is None:
            return False
        self.counts.stopped = True
        try:
            thin = thin_flows.solve_pattern(net, sets, rate, base)
            return thin is not None and thin_flows.meets(net, thin)
        except exact.Passing:
            return False
        finally:
            self.counts.stopped = False

    def pattern_of(self, net: network.Network, phase: int, budget: int) -> list[Any]:
        """Returns the pattern of a phase, by its number."""
        _, out, err = instructions.answered([self.program, *self.asking(net), "--phases", str(phase), "--patterns", str(budget)])
        if b"patterns" in err:
            raise thin_flows.OverBudget(budget)
        if b"passed" in err and f"passed {phase} ".encode() in err and err.split()[5] != b"-":
            raise NotCounted("a search passes")
        states = {words[1]: patterns.State(words[2]) for words in map(str.split, out.decode().splitlines()) if words[0] == "state"}
        return [states.get(link.name) for link in net.links]

    def asking(self, net: network.Network) -> list[str]:
        """Returns the words of the program for the same run."""
        if self.words[0] == "resume":
            return self.words
        name = f"{self.folder}/asked.net"
        with open(name, "wb") as it:
            it.write(network.canonical_text(net))
        return ["solve", name, *(["--forever"] if self.horizon is None else ["--horizon", str(self.horizon)])]


def wrapped(counts: Counts, hints: Hints) -> list[tuple[Any, str, Any]]:
    """Returns what is put into the independent program: where, the name, the call."""
    made = [(exact.Part, kind, counted_operation(counts, kind)) for kind in KINDS[:4]]
    made += [(exact.Rational, name, counted_comparison(counts, name)) for name in ("__lt__", "__le__", "__gt__", "__ge__")]
    made += [(curves, "times", walked(counts, curves.times, list))]
    made += [(curves, "composed", walked(counts, curves.composed, lambda points: [time for time, _ in points]))]
    made += [(curves, name, paused(counts, getattr(curves, name))) for name in ("count_until", "cut")]
    made += [(thin_flows, "meets", counted_verdict(counts, thin_flows.meets)), (phases, "search", hints.search)]
    made += [(phases, "start_labels", paused(counts, phases.start_labels))]
    made += [(phases.Run, "make_phase", hints.beginning(phases.Run.make_phase, True))]
    made += [(endless.EndlessRun, "make_longest_phase", hints.beginning(endless.EndlessRun.make_longest_phase, False))]
    return made + [(app, "read_file", paused(counts, app.read_file))]


def trace(words: list[str], program: str, folder: str) -> Counts:
    """Returns the operations of a run that the program's words ask for."""
    counts = Counts()
    puts = wrapped(counts, Hints(counts, words, program, folder))
    kept = [(where, name, getattr(where, name)) for where, name, _ in puts]
    counts.read = sum(os.path.getsize(word) for word in words if os.path.isfile(word))
    try:
        for where, name, call in puts:
            setattr(where, name, call)
        counts.answer = app.run(words)
    finally:
        for where, name, call in kept:
            setattr(where, name, call)
        counts.seen.clear()
    return counts
