"""Runs of the program under test, for relations of the program with itself."""
from __future__ import annotations

from fractions import Fraction
from typing import Iterator, Tuple

from .case import Case
from .numerals import printed
from .running import Answer

Relation = Iterator[Tuple[Case, Answer, Answer]]  # a case, what its answer has to be, and what it is
PATTERNS = ["--patterns", "5000"]
YES = Answer(0, b"yes\n", b"")


class Runs:
    """The program on networks."""

    def __init__(self, programs):
        self.found = programs.found

    def of(self, words, **files):
        """The case of these words and files, and its answer."""
        case = Case(words, files)
        return case, self.found(case.words, case.files)

    def solve(self, network, horizon, *more):
        """The run of a network up to a horizon."""
        return self.of(["solve", "N", "--horizon", printed(horizon), *PATTERNS, *more], N=network.text())


def some_later(rng, time):
    """A time at or behind another one."""
    return time + Fraction(rng.randint(0, 12), rng.choice([1, 2, 3]))
