"""Ladders: the networks for which numbers stand. FORMATS.md, "Ladders"."""
from .exact import Rational, ZERO
from .network import Link, Network

MODULUS = 65537


class Generator:
    """The linear congruential generator of the ladders."""

    def __init__(self, number):
        self.value = number % MODULUS

    def draw(self, below):
        """The next value, modulo a number, plus 1."""
        self.value = (75 * self.value + 74) % MODULUS
        return Rational(1 + self.value % below)


def ladder_ends(rungs):
    """Name, tail and head of each link in order: to the rails, along them, the rungs, and to the sink."""
    ends = [("su", "s", "u1"), ("sl", "s", "l1")]
    for i in range(1, rungs):
        ends += [(f"u{i}", f"u{i}", f"u{i + 1}"), (f"l{i}", f"l{i}", f"l{i + 1}")]
    ends += [(f"r{i}", f"u{i}", f"l{i}") for i in range(1, rungs + 1)]
    return ends + [("ut", f"u{rungs}", "t"), ("lt", f"l{rungs}", "t")]


def ladder(number, rungs):
    """The ladder of a number with so many rungs (`Ladder`)."""
    generator = Generator(number)
    nodes = ["s", "t"] + [f"{rail}{i}" for i in range(1, rungs + 1) for rail in "ul"]
    links = []
    for name, tail, head in ladder_ends(rungs):
        transit = generator.draw(5)
        capacity = generator.draw(4)
        links.append(Link(name, nodes.index(tail), nodes.index(head), transit, capacity))
    pieces = [(ZERO, generator.draw(6)), (Rational(10), generator.draw(6)), (Rational(20), ZERO)]
    return Network(1, nodes, links, pieces)
