"""What the tests share: examples, random networks, programs that fail on purpose, and the independent program's readers."""
from __future__ import annotations

import contextlib
import os
import pathlib
import random
import sys
import tempfile
import unittest
from fractions import Fraction
from typing import Any, Callable, Iterator, List, Tuple
from unittest import mock

import nfot

ROOT = pathlib.Path(__file__).resolve().parents[2]
EXAMPLES = ROOT / "examples"
SLOW = ROOT / "tests/independent/nfot"
TRANSITS = ["0", "1", "1", "2", "3", "1/2", "5/3"]
CAPACITIES = ["1", "2", "3", "1/2", "3/2", "4", "inf"]

SHOWS = '#!/bin/sh\n[ "$1" != show ] || exec /bin/cat "$2"\n'  # a program that the package takes for nfot

Pairs = List[Tuple[Fraction, Fraction]]


def pairs(*given: Tuple[object, object]) -> Pairs:
    """Points or pieces as Fractions."""
    return [(Fraction(str(time)), Fraction(str(value))) for time, value in given]


def example(name: str) -> nfot.Network:
    """A network of the folder examples."""
    return nfot.read_network(EXAMPLES / f"{name}.net")


def random_network(rng: random.Random) -> nfot.Network:
    """A network of two to six nodes and two to nine links."""
    while True:
        nodes = ["s", "t", "u", "v", "w", "x"][:rng.randint(2, 6)]
        links = [nfot.Link(f"e{number}", rng.choice(nodes), rng.choice(nodes), rng.choice(TRANSITS), rng.choice(CAPACITIES))
                 for number in range(rng.randint(2, 9))]
        starts = sorted(rng.sample(range(0, 24), rng.randint(1, 3)))
        supply = [(Fraction(start, 2), Fraction(rng.randint(0, 8), rng.choice([1, 2]))) for start in starts]
        try:
            return nfot.Network("s", "t", links, supply)
        except nfot.Refused:
            continue


def random_curve(rng: random.Random, rising: bool = False) -> nfot.Curve:
    """A curve of one to seven points."""
    times = sorted(rng.sample(range(0, 40), rng.randint(1, 7)))
    values = [rng.randint(0, 20) for _ in times]
    if rising:
        values.sort()
    points = [(Fraction(time, 2), Fraction(value, 3)) for time, value in zip(times, values)]
    return nfot.Curve(points, points[-1][0] + rng.randint(0, 2))


def independent(name: str) -> Any:
    """A module of the independent program."""
    with mock.patch.object(sys, "path", [str(ROOT / "tests"), *sys.path]):
        return __import__(f"independent.{name}", fromlist=[name])


def first_broken(reader: Callable[..., object], *given: object) -> Tuple[str, int]:
    """The rule and the line by which a reader of the independent program refuses; ("", 0) where it doesn't."""
    try:
        reader(*given)
    except independent("lines").Broken as broken:
        return broken.rule, broken.line
    return "", 0


def refusal(reader: Callable[..., object], *given: object) -> Tuple[str, int]:
    """The rule and the line by which a reader of the package refuses; ("", 0) where it doesn't."""
    try:
        reader(*given)
    except nfot.Refused as fault:
        return fault.rule or "?", fault.line or 0
    return "", 0


class Case(unittest.TestCase):
    """A test with a folder of its own, and asserts for faults."""

    def folder(self) -> pathlib.Path:
        """A new folder, gone in the end."""
        folder = tempfile.TemporaryDirectory()
        self.addCleanup(folder.cleanup)
        return pathlib.Path(folder.name)

    def faulted(self, kind: type, wanted: str, call: Callable[..., object], *given: Any, **named: Any) -> nfot.Fault:
        """The fault that a call raises: of this kind, with this text, and one sentence on one line."""
        with self.assertRaisesRegex(kind, wanted) as caught:
            call(*given, **named)
        fault = caught.exception
        assert isinstance(fault, nfot.Fault)
        self.assertNotIn("\n", str(fault))
        self.assertGreater(fault.status, 0)
        return fault

    @contextlib.contextmanager
    def program_of(self, script: str) -> Iterator[str]:
        """Runs with a shell script in place of the program, which shows networks as the program does."""
        place = self.folder() / "nfot"
        place.write_text(f"{SHOWS}{script}\n")
        place.chmod(0o755)
        with mock.patch.dict(os.environ, {"NFOT": str(place)}):
            yield str(place)
