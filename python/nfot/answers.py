"""The answers of the commands as values, and how their texts are read."""
from __future__ import annotations

from dataclasses import dataclass, field
from fractions import Fraction
from typing import Dict, List, Mapping, Optional, Tuple, Union

from .curves import Curve
from .faults import Fault, Stopped
from .report_values import Report

Point = Tuple[Fraction, Fraction]


@dataclass(frozen=True)
class Verdict:
    """The answer of `check`: true where the flow is an equilibrium. Else the rule that is broken first, the node or link that breaks
    it, a time, the report's value (`left`), what it should be (`right`), and `why`, a sentence."""
    holds: bool
    rule: Optional[str] = None
    subject: Optional[str] = None
    time: Optional[Fraction] = None
    left: Optional[Fraction] = None
    right: Optional[Fraction] = None
    why: str = "the flow is an equilibrium"

    def __bool__(self) -> bool:
        return self.holds

    def __str__(self) -> str:
        """The line of `nfot check`."""
        return "yes" if self.holds else f"no {self.rule} {self.subject} {self.time} {self.left} {self.right}"


@dataclass(frozen=True)
class Loaded:
    """The answer of `load`, by link: queues, outflows (amounts that have left by a time) and exits (when what enters leaves)."""
    queues: Mapping[str, Curve]
    outflows: Mapping[str, Curve]
    exits: Mapping[str, Curve]


@dataclass(frozen=True)
class Carried:
    """The answer of `routes`: queues, outflows and exits by link; by route `arrivals` (the amount that has arrived by a time) and
    `travels` (when a departure arrives)."""
    queues: Mapping[str, Curve]
    outflows: Mapping[str, Curve]
    exits: Mapping[str, Curve]
    arrivals: Mapping[str, Curve]
    travels: Mapping[str, Curve]


@dataclass(frozen=True)
class Quickest:
    """The answer of `quick`: the least time, the walks (rate, links) that take it, the cut (node times) and its value. `equilibrium`
    is the arrival of the last driver in the equilibrium, None where the supply never comes to the amount, or the fault of its run."""
    time: Fraction
    walks: Tuple[Tuple[Fraction, Tuple[str, ...]], ...]
    cut: Mapping[str, Fraction]
    value: Fraction
    equilibrium: Union[Fraction, None, Stopped]


@dataclass(frozen=True)
class Forever:
    """The answer of `forever`: the report up to the beginning of the last phase, and its label slopes and flows, which hold for ever."""
    report: Report
    slopes: Mapping[str, Fraction]
    flows: Mapping[str, Fraction]

    @property
    def reached(self) -> Fraction:
        """The departure at which the last phase begins."""
        return self.report.reached


@dataclass(frozen=True)
class Settled:
    """The answer of `settle`: the states of links that have one, and the flows of all."""
    states: Mapping[str, str]
    flows: Mapping[str, Fraction]


@dataclass(frozen=True)
class Generated:
    """The answer of `gen`: a ladder's size, its run, and the arrival at the sink of the last departure reached."""
    number: int
    rungs: int
    nodes: int
    links: int
    phases: int
    reached: Fraction
    cause: str
    arrival: Fraction


@dataclass
class Lines:
    """Lines of an answer by their first word: curves by name, numbers by name, words by name, and the others whole."""
    curves: Dict[str, Dict[str, List[Point]]] = field(default_factory=dict)
    numbers: Dict[str, Dict[str, Fraction]] = field(default_factory=dict)
    words: Dict[str, List[List[str]]] = field(default_factory=dict)

    def curves_of(self, kind: str) -> Dict[str, Curve]:
        """The curves of a first word, by name."""
        return {name: Curve(points) for name, points in self.curves.get(kind, {}).items()}

    def only(self, kind: str) -> List[str]:
        """The words behind a first word that one line has; a Fault where there is no such line."""
        if kind not in self.words:
            raise Fault(f"nfot answered without a line `{kind}`: its output is cut", status=1)
        return self.words[kind][0]


CURVES = ("queue", "outflow", "exit", "arrival", "travel")


def lines_of(text: str, ended: bool = True) -> Lines:
    """The lines of an answer; a Fault where the line `end` is missing."""
    found = Lines()
    rows = [line.split() for line in text.splitlines()]
    if ended and rows[-1:] != [["end"]]:
        raise Fault("nfot answered without a line `end`: its output is cut", status=1)
    for first, *words in rows:
        if first in CURVES and len(words) == 3:
            found.curves.setdefault(first, {}).setdefault(words[0], []).append((Fraction(words[1]), Fraction(words[2])))
        elif first in ("slope", "flow", "cut"):
            found.numbers.setdefault(first, {})[words[0]] = Fraction(words[1])
        else:
            found.words.setdefault(first, []).append(words)
    return found
