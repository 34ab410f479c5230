"""Reports on which an operation of `check` passes that hardly ever passes first: sums with the supply in C6 and C7, and a value in C8.

Two rates over large primes p and q stand for amounts whose sum is too wide; all other sums of the report have one of the two alone.
"""
from fractions import Fraction

from .flow_changes import loaded, solved
from .networks import Link, Network
from .numerals import PRIMES
from .piecewise import cumulative

NOTHING = [(Fraction(0), Fraction(0))]


def link(name, tail, head, transit=1):
    """A link of capacity 1."""
    return Link(name, tail, head, Fraction(transit), Fraction(1))


def between(rate, start, end):
    """The amount that a rate brings from a start to an end."""
    return cumulative([(Fraction(start), rate)], Fraction(end))


def prime_rates(rng):
    """Two rates over primes whose product is far beyond the largest number."""
    return Fraction(1, rng.choice(PRIMES[3:6])), Fraction(1, rng.choice(PRIMES[:2]))


def sink_to_source(rng, answer_of):
    """The sink sends into the source what never reached it: at the source this is added to the supply."""
    foreign, supply = prime_rates(rng)
    end = rng.randint(2, 9)
    network = Network(1, [link("a", "s", "t"), link("b", "t", "s")], [(Fraction(0), supply)])
    inflows = {"a": NOTHING, "b": between(foreign, 0, end + 1)}
    return network, loaded(network, solved(answer_of, network, end), inflows)


def far_round(rng, answer_of):
    """What the sink sends on goes round far from it and never comes back: at the sink it is compared with what came and was supplied."""
    foreign, supply = prime_rates(rng)
    end, far = rng.randint(2, 9), rng.randint(12, 60)
    links = [link("a", "s", "t"), link("b", "t", "w"), link("c", "w", "x", far), link("d", "x", "w", far)]
    network = Network(1, links, [(Fraction(0), supply)])
    inflows = {"a": between(supply, 0, end), "b": between(foreign, 1, 1 + end), "c": between(foreign, 2, 2 + end),
               "d": between(foreign, 2 + far, 2 + far + end)}
    return network, loaded(network, solved(answer_of, network, end), inflows)


def told_again(rng, answer_of):
    """A queue builds until one time and is empty at another, from which on the same rate is told again up to a time over a large prime."""
    parts = rng.choice([2 ** 31 - 1, 2 ** 35 - 31, 2 ** 37 - 25])
    full = Fraction(rng.randint(parts // 3, parts), parts)
    empty = Fraction(int(2 * full) + rng.randint(1, 3))
    again = empty + Fraction(1, rng.choice(PRIMES[:3]))
    end = empty + rng.randint(1, 5)
    rate, last = (empty - 2 * full) / (empty - full), Fraction(rng.randint(0, 3), 3)
    network = Network(1, [link("a", "s", "t")], [(Fraction(0), Fraction(2)), (full, rate), (empty, rate), (again, last)])
    inflow = [(Fraction(0), Fraction(0)), (full, 2 * full), (empty, empty), (again, empty + rate * (again - empty))]
    inflow.append((end, inflow[-1][1] + last * (end - again)))
    report = solved(answer_of, network, 0).copy()
    report.horizon = report.reached = end
    report.curves = {("label", "s"): [(Fraction(0), Fraction(0)), (end, end)],
                     ("label", "t"): [(Fraction(0), Fraction(1)), (full, 1 + 2 * full), (empty, 1 + empty), (end, 1 + end)],
                     ("inflow", "a"): inflow,
                     ("outflow", "a"): [(Fraction(0), Fraction(0))] + [(1 + time, amount) for time, amount in NOTHING + inflow[2:]],
                     ("queue", "a"): [(Fraction(0), Fraction(0)), (full, full), (empty, Fraction(0)), (end, Fraction(0))]}
    return network, report


def crafted_files(rng, answer_of):
    """A network and such a report for it."""
    network, report = rng.choice([sink_to_source, far_round, told_again])(rng, answer_of)
    return {"N": network.text(), "R": report.text()}
