#!/usr/bin/env python3
"""Measures the peak memory of a program's greatest runs, beside that of other programs on the same files.

    python3 bench/memory.py PROGRAM [OTHER].. [--only WORD] [--runs 5]

The peak is the maximum resident set, by `/usr/bin/time`: the least of some runs, since the pages of the program's file that count differ from run
to run by some 100 kB. Networks are those of bench/city.py, made by its own generator:

    solve   the city at the greatest demand to departure 120; a grid of 36 nodes and a ladder of 92 links, each with 200 pieces of supply
    check   the reports of these runs, and the same flows with each piece of each curve cut into 8, 16 or 64
    load    200 drawn pieces on each link of a layered network of 200 links

A line of the table: the run, its status, megabytes of input and output, peak kilobytes of PROGRAM and of each OTHER with PROGRAM's quotient, and
whether all wrote the same bytes with the same status. PROGRAM writes the reports.

Statuses: 0 the table was printed; 1 a program or `/usr/bin/time` isn't there; 2 wrong arguments.
"""
from __future__ import annotations

import argparse
import os
import subprocess
import sys
import tempfile
from collections.abc import Iterator
from fractions import Fraction
from typing import NamedTuple

sys.dont_write_bytecode = True
import city
import instructions

TIME = "/usr/bin/time"
CURVES = ("label", "inflow", "outflow", "queue")
# The departure up to which runs with 200 pieces of supply go.
LONG = 1200


class Run(NamedTuple):
    """A run to be measured: its name in the table, the words of the program, and the bytes of its files."""

    name: str
    words: list[str]
    size: int


class Peak(NamedTuple):
    """What a run took and wrote: kilobytes at its peak, status, both outputs."""

    kilobytes: int
    status: int
    out: bytes
    err: bytes


def many_pieces(network: city.Network, most: int) -> city.Network:
    """Returns a network with 200 pieces of supply up to a rate, in place of its own."""
    draws, start, pieces = city.Draws(most), 0, []
    for _ in range(200):
        pieces.append((start, draws.within(0, most)))
        start += draws.within(1, 10)
    return network._replace(name=f"{network.name}_long", pieces=pieces, horizon=LONG)


def denser(report: str, parts: int) -> str:
    """Returns the report of the same flow with so many pieces for each piece of its curves."""
    lines: list[str] = []
    before: list[str] = []
    for line in report.splitlines():
        words = line.split()
        if words[0] in CURVES and words[:2] == before[:2]:
            start, end = ([Fraction(word) for word in it[2:4]] for it in (before, words))
            for part in range(1, parts):
                point = [str(low + (high - low) * part / parts) for low, high in zip(start, end)]
                lines.append(" ".join([*words[:2], *point, *before[4:]]))
        lines.append(line)
        before = words
    return "\n".join([*lines, ""])


def solved_networks() -> Iterator[tuple[city.Network, list[int]]]:
    """Yields the networks that are solved, and into how many parts the pieces of their reports are cut for `check`."""
    yield city.city_network("1-20", 100_000, "hundred", 120), [1, 8]
    yield many_pieces(city.grid("grid", 6, 0, (1, 9), (3, 12), (2, 10)), 14), [1, 16]
    yield many_pieces(city.ladder(5, 30, LONG), 9), [1, 16, 64]


def solved_runs(shelf: city.Shelf) -> Iterator[Run]:
    """Yields the runs of `solve` and `check`."""
    for network, cuts in solved_networks():
        net = shelf.put(f"{network.name}.net", city.text_of(network))
        yield Run(f"solve {network.name}", ["solve", net, "--horizon", str(network.horizon)], os.path.getsize(net))
        _, text = shelf.report(network, net, network.horizon)
        for parts in cuts:
            cut = denser(text, parts)
            report = shelf.put(f"{network.name}.{parts}.report", cut)
            points = sum(line.startswith(CURVES) for line in cut.splitlines())
            yield Run(f"check {network.name}, {points} points", ["check", net, report], os.path.getsize(report))


def load_runs(shelf: city.Shelf) -> Iterator[Run]:
    """Yields the run of `load`."""
    network = instructions.layered_network(20, 3, 0)
    net = shelf.put(f"{network.name}.net", city.text_of(network))
    loads = shelf.put(f"{network.name}.many", city.many_loads_text(network, 200))
    yield Run(f"load {network.name}", ["load", net, loads, "--horizon", "2000"], os.path.getsize(loads))


def peak_of(words: list[str], runs: int) -> Peak:
    """Runs a program and returns its least peak memory, its status and what it wrote."""
    return min((one_peak(words) for _ in range(runs)), key=lambda it: it.kilobytes)


def one_peak(words: list[str]) -> Peak:
    """Runs a program once and returns its peak memory, its status and what it wrote."""
    with tempfile.NamedTemporaryFile("r") as told:
        ran = subprocess.run([TIME, "-q", "-f", "%M", "-o", told.name, *words], stdin=subprocess.DEVNULL, capture_output=True, check=False)
        return Peak(int(told.read()), ran.returncode, ran.stdout, ran.stderr)


def line_of(run: Run, programs: list[str], runs: int) -> str:
    """Makes a run by each program, and returns the line of the table."""
    own, *others = [peak_of([program, *run.words], runs) for program in programs]
    megabytes = [f"{size / 1e6:.1f}" for size in (run.size, len(own.out))]
    cells = [run.name, str(own.status), *megabytes, str(own.kilobytes)]
    for other in others:
        cells += [str(other.kilobytes), f"{own.kilobytes / other.kilobytes:.2f}"]
    if others:
        cells.append("yes" if all(own[1:] == other[1:] for other in others) else "no")
    return "| " + " | ".join(cells) + " |"


def table(programs: list[str], asked: argparse.Namespace) -> None:
    """Makes the runs, and prints the table."""
    heads = ["run", "status", "MB in", "MB out", "kB"] + [f"{os.path.basename(it)}, kB | quotient" for it in programs[1:]]
    heads += ["same bytes"] if len(programs) > 1 else []
    line = " | ".join(heads)
    print(f"| {line} |\n|" + "---|" * (line.count("|") + 1), flush=True)
    with tempfile.TemporaryDirectory() as folder:
        shelf = city.Shelf(folder, programs[:1], [100_000])
        for runs in (solved_runs, load_runs):
            for run in runs(shelf):
                if asked.only in run.name:
                    print(line_of(run, programs, asked.runs), flush=True)


def main() -> int:
    """Reads the command line, and prints the table."""
    how = argparse.ArgumentParser(description=__doc__, formatter_class=argparse.RawDescriptionHelpFormatter)
    how.add_argument("programs", metavar="PROGRAM", nargs="+")
    how.add_argument("--only", default="", help="the runs whose names have this word")
    how.add_argument("--runs", type=int, default=5, help="of how many runs of each program the least peak is taken")
    asked = how.parse_args()
    try:
        instructions.file_of(TIME)
        table([instructions.file_of(it) for it in asked.programs], asked)
    except (instructions.Failed, OSError) as fault:
        print(f"memory: {fault}", file=sys.stderr)
        return 1
    return 0


if __name__ == "__main__":
    sys.exit(main())
