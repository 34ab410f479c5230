#!/usr/bin/env python3
"""bottleneck.py PROGRAM [--seed N] [--cases N]: compares what `nfot-py bottleneck` reads off `solve --forever` with cuts found by brute force.

Case i is a random network of the seed N + i, of 2 to 30 nodes. PROGRAM solves it without a horizon, and the tool gets the output.
If the slope of the sink is above 1, the sum of the printed capacities times that slope must be the last supply rate, and the printed growth
60 (slope - 1). In networks of at most 9 nodes each cut is tried: the sum must be the least capacity of a cut. If the slope is 1, the tool
must say that travel times settle, and no cut that is tried may have less capacity than the last supply rate.
Statuses: 0 nothing differs; 1 something differs, and each such case is named; 2 wrong arguments."""
import argparse
import collections
import itertools
import os
import pathlib
import random
import subprocess
import sys
import tempfile
from fractions import Fraction

MOST_TRIED = 9  # nodes of a network each of whose cuts is tried
PACKAGE = pathlib.Path(__file__).resolve().parent.parent / "python"
Link = collections.namedtuple("Link", "name tail head transit capacity")  # capacity None: unbounded


def fraction(chance, top):
    """A random fraction above 0, mostly a whole number."""
    return Fraction(chance.randint(1, top), chance.choice([1, 1, 1, 2, 3]))


def random_links(chance, nodes):
    """Links that lead from node 0 to each other node, and some more. Links of transit time 0 only lead upwards, so that they close no circle."""
    ends = [(chance.randrange(head), head) for head in range(1, nodes)]
    ends += [chance.sample(range(nodes), 2) for _ in range(chance.randint(0, 2 * nodes))]
    links = []
    for number, (tail, head) in enumerate(ends):
        transit = Fraction(chance.randint(0 if tail < head else 1, 5))
        capacity = None if chance.random() < 1 / 8 else fraction(chance, 6)
        links.append(Link(f"e{number}", tail, head, transit, capacity))
    return links


def random_network(chance):
    """The number of nodes, the links, and the supply as (start, rate); node 0 is the source, the last one the sink."""
    nodes = chance.randint(10, 30) if chance.random() < 1 / 4 else chance.randint(2, MOST_TRIED)
    starts = sorted(chance.sample(range(8), chance.randint(1, 3)))
    return nodes, random_links(chance, nodes), [(start, Fraction(chance.randint(0, 24), chance.choice([1, 1, 2]))) for start in starts]


def text(nodes, links, supply):
    """The network file."""
    lines = ["nfot 2", "source n0", f"sink n{nodes - 1}"]
    lines += [f"link {e.name} n{e.tail} n{e.head} {e.transit} {'inf' if e.capacity is None else e.capacity}" for e in links]
    return "\n".join(lines + [f"inflow {start} {rate}" for start, rate in supply] + ["end", ""])


def capacities(nodes, links):
    """The capacity of each cut: a set with node 0 and without the last node that no unbounded link leaves."""
    for inner in itertools.product([False, True], repeat=nodes - 2):
        inside = (True, *inner, False)
        leaving = [link.capacity for link in links if inside[link.tail] and not inside[link.head]]
        if None not in leaving:
            yield sum(leaving)


def fault(printed, slope, rate, tried):
    """What is wrong with the printed lines, beside the capacities of the cuts that were tried (None: none were); None: nothing is."""
    if slope == 1:
        if printed != ["travel times settle: the slope of the sink is 1"]:
            return f"the slope is 1, and the tool prints {printed}"
        return f"the slope is 1, and a cut has only {min(tried)} of {rate}" if tried and min(tried) < rate else None
    total = sum(Fraction(line.split(": capacity ")[1]) for line in printed[:-2])
    if printed[-2:] != [f"together {total}, supplied {rate}", f"travel times grow by {60 * (slope - 1)} minutes an hour"]:
        return f"the slope is {slope}, and the tool prints {printed}"
    if total * slope != rate:
        return f"{total} times {slope} isn't {rate}"
    return f"the sum is {total}, the cuts have {sorted(set(tried))}" if tried is not None and total != min(tried, default=None) else None


def outcome(program, seed, folder):
    """How the case of this seed ends, and what is wrong, if anything."""
    nodes, links, supply = random_network(random.Random(seed))
    net, forever = folder / "net", folder / "forever"
    net.write_text(text(nodes, links, supply))
    with open(forever, "w") as out:
        status = subprocess.run([program, "solve", net, "--forever"], stdout=out, stderr=subprocess.DEVNULL).returncode
    if status:
        return f"stop with status {status}", None
    slopes = dict(line.split()[1:] for line in forever.read_text().splitlines() if line.startswith("slope "))
    slope = Fraction(slopes[f"n{nodes - 1}"])
    environment = dict(os.environ, PYTHONPATH=str(PACKAGE))
    tool = subprocess.run([sys.executable, "-m", "nfot", "bottleneck", net, forever], capture_output=True, text=True, env=environment)
    if tool.returncode:
        return "are refused by the tool", tool.stderr.strip()
    tried = list(capacities(nodes, links)) if nodes <= MOST_TRIED else None
    wrong = fault(tool.stdout.splitlines(), slope, supply[-1][1], tried)
    return f"{'settle' if slope == 1 else 'grow'} ({'each' if nodes <= MOST_TRIED else 'no'} cut tried)", wrong


def main():
    parser = argparse.ArgumentParser(usage=__doc__.splitlines()[0])
    parser.add_argument("program", type=pathlib.Path)
    parser.add_argument("--seed", type=int, default=1)
    parser.add_argument("--cases", type=int, default=100)
    asked = parser.parse_args()
    if not asked.program.is_file():
        sys.exit(f"bottleneck: {asked.program} isn't a program")
    tally, differ = collections.Counter(), 0
    with tempfile.TemporaryDirectory() as name:
        for seed in range(asked.seed, asked.seed + asked.cases):
            word, wrong = outcome(asked.program.resolve(), seed, pathlib.Path(name))
            tally[word] += 1
            if wrong:
                differ += 1
                print(f"bottleneck: seed {seed}: {wrong}")
    print(f"bottleneck: {asked.cases} networks, {', '.join(f'{count} {word}' for word, count in sorted(tally.items()))}; {differ} differ")
    sys.exit(1 if differ else 0)


if __name__ == "__main__":
    main()
