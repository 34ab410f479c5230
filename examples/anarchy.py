#!/usr/bin/env python3
"""anarchy.py [--nested] N ..: what selfish choice costs in a family of networks, as the rows of a LaTeX table with exact fractions.

A word may be a range: 1..8 is each N from 1 to 8.

Without --nested: N + 1 parallel roads of 0 to N minutes. Each lets 1 a minute through, and N + 1 a minute leave for N minutes.
With --nested (N at least 2): a street of short links that let N - 1, N - 2, .. and M a minute through. From the tail of the link that lets
k - 1 through, a road of N - N M/k minutes and capacity 1 leads to the end. N a minute leave for M minutes, and M is the least number for
which 1/(M + 1) + .. + 1/N is at most 1. Statuses: 0 printed; 2 wrong arguments."""
import sys
from fractions import Fraction

import nfot


def roads(n):
    """The network of N: parallel roads, and as much supply as all of them let through."""
    links = [nfot.Link(f"road{minutes}", "home", "work", minutes, 1) for minutes in range(n + 1)]
    return nfot.Network("home", "work", links, [(0, n + 1), (n, 0)])


def street(n):
    """The nested network of N, whose roads begin at ever later points of the street."""
    least = next(m for m in range(1, n) if sum(Fraction(1, k) for k in range(m + 1, n + 1)) <= 1)
    nodes = {n: "home", least: "work"}
    links = []
    for k in range(n, least, -1):
        tail, head = nodes.get(k, f"v{k}"), nodes.get(k - 1, f"v{k - 1}")
        links += [nfot.Link(f"street{k - 1}", tail, head, 0, k - 1), nfot.Link(f"road{k}", tail, "work", n - Fraction(n * least, k), 1)]
    return nfot.Network("home", "work", links, [(0, n), (least, 0)])


def fraction(number):
    """A number in LaTeX."""
    return str(number) if number.denominator == 1 else rf"\frac{{{number.numerator}}}{{{number.denominator}}}"


def sizes_of(words):
    """The whole numbers of words as 3 or 1..8, a range; a ValueError for any other word."""
    for word in words:
        first, dots, last = word.partition("..")
        yield from range(int(first), int(last if dots else first) + 1)


def main(words):
    family, least = (street, 2) if words[:1] == ["--nested"] else (roads, 1)
    try:
        sizes = list(sizes_of(words[1:] if family is street else words))
    except ValueError:
        sizes = []
    if not sizes or min(sizes) < least:
        print("usage: anarchy.py N .., whole numbers above 0 or ranges as 1..8, or anarchy.py --nested N .., above 1", file=sys.stderr)
        return 2
    print(r"\begin{tabular}{cccc} $n$ & least time & equilibrium & price of anarchy \\ \hline")
    for n in sizes:
        net = family(n)
        answer = nfot.quick(net, net.supplied(n))
        times = [answer.time, answer.equilibrium, answer.equilibrium / answer.time]
        print(f"${n}$ & " + " & ".join(f"${fraction(time)}$" for time in times) + r" \\")
    print(r"\end{tabular}")
    return 0


if __name__ == "__main__":
    sys.exit(main(sys.argv[1:]))
