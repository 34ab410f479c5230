#!/usr/bin/env python3
"""Counts the floor of runs: the instructions of the operations that docs/LISTS.md asks for, each done once and well, and of reading and printing.

    python3 bench/floor.py --groups [--only WORD] [--seconds N] [--each] PROGRAM [PEER]
    python3 bench/floor.py --measure [--only WORD] [--seconds N] PROGRAM

`--groups` makes the runs of bench/instructions.py and prints two tables: the operations of each part by kind and length, and their floor with the
instructions of PROGRAM and PEER over it. bench/floor_trace.py says how operations are counted. A run whose operations can't be counted within the
seconds, or whose bytes aren't PROGRAM's, is left out and named. The second table says how many runs of how many were counted.

`--measure` prints the table of costs, bench/floor.costs.txt: instructions of bench/floor.c for an operation of each kind and length, by callgrind, on
a sample of the operands of the runs themselves; and for a byte that is read or printed.

Statuses: 0 the tables were printed; 1 a program, gcc or valgrind isn't there, or failed; 2 wrong arguments.
"""
from __future__ import annotations

import argparse
import collections
import contextlib
import os
import signal
import subprocess
import sys
import tempfile
from collections.abc import Iterator
from typing import NamedTuple, Optional

sys.dont_write_bytecode = True
import city
import floor_trace
import instructions
from floor_trace import KINDS, LENGTHS, Counts

HERE = os.path.dirname(os.path.realpath(__file__))
COSTS = f"{HERE}/floor.costs.txt"
TEXTS = ("read", "print")
# How many operations of a kind and length, and how many bytes of text, their costs are measured on.
SAMPLED, SAMPLED_BYTES = 4000, 200_000
# The parts of bench/instructions.py whose runs are made.
RUNS = (instructions.solve_runs, instructions.report_runs, instructions.other_runs, instructions.forever_runs, instructions.later_runs,
        instructions.route_runs)


class Traced(NamedTuple):
    """A run with its operations; the fields of `instructions.Count` as well."""

    work: str
    status: int
    counts: Counts
    ours: int
    theirs: Optional[int]


class Made(NamedTuple):
    """A run that was made, and its status, whether or not its operations were counted."""

    work: str
    status: int


# ---- runs ----


def runs_of(asked: argparse.Namespace, folder: str) -> Iterator[instructions.Run]:
    """Yields the runs of bench/instructions.py, those of the ladders beside `--skip` left out: they are the others once more."""
    shelf = city.Shelf(folder, [asked.program], [100_000])
    for runs in RUNS:
        for run in runs(shelf):
            if asked.only in run.work and "--skip" not in (run.peer_words or []):
                yield run


@contextlib.contextmanager
def limited(seconds: float) -> Iterator[None]:
    """Raises NotCounted after so many seconds; 0 is no limit."""

    def ended(number: int, frame: object) -> None:
        raise floor_trace.NotCounted(f"it takes more than {seconds:g} seconds")

    signal.signal(signal.SIGALRM, ended)
    signal.setitimer(signal.ITIMER_REAL, seconds)
    try:
        yield
    finally:
        signal.setitimer(signal.ITIMER_REAL, 0)


def counts_of(run: instructions.Run, asked: argparse.Namespace, folder: str) -> Optional[Counts]:
    """Returns the operations of a run; none, with a line on standard error, where they can't be counted."""
    try:
        with limited(asked.seconds):
            counts = floor_trace.trace(run.words, asked.program, folder)
        if counts.answer == instructions.answered([asked.program, *run.words]):
            return counts
        fault = "other bytes"
    except floor_trace.NotCounted as it:
        fault = str(it)
    print(f"floor: left out: {' '.join(map(os.path.basename, run.words))}: {fault}", file=sys.stderr, flush=True)
    return None


def traced_of(run: instructions.Run, asked: argparse.Namespace, folder: str) -> Optional[Traced]:
    """Returns a run with its operations and its instructions."""
    counts = counts_of(run, asked, folder)
    if counts is None:
        return None
    theirs = None
    if asked.peer and run.peer_words is not None:
        theirs = instructions.instructions([asked.peer, *run.words, *run.peer_words])
    return Traced(run.work, counts.answer[0], counts, instructions.instructions([asked.program, *run.words]), theirs)


# ---- costs ----


def compiled(folder: str) -> str:
    """Compiles bench/floor.c, and returns the program."""
    made = f"{folder}/floor"
    subprocess.run(["gcc", "-O2", "-o", made, f"{HERE}/floor.c"], check=True)
    return made


def costs_of(program: str, works: list[tuple[str, str]], folder: str) -> list[int]:
    """Returns how many instructions kinds take on texts, each on its own."""
    words, out = [], f"{folder}/counts"
    for number, (kind, text) in enumerate(works):
        name = f"{folder}/operands{number}"
        with open(name, "w", encoding="utf-8") as it:
            it.write(text)
        words += [kind, name]
    told = ["valgrind", "--tool=callgrind", f"--callgrind-out-file={out}", "--toggle-collect=measured_*"]
    subprocess.run([*told, program, *words], capture_output=True, check=True)
    found = []
    for number in range(len(works)):
        with open(f"{out}.{number + 1}", encoding="utf-8") as dump:
            found.append(int(next(line.split()[1] for line in dump if line.startswith("totals:"))))
    return found


def print_costs(samples: dict[tuple[str, str], list[str]], text: str, folder: str) -> None:
    """Prints the table of costs, from samples of operands and a text."""
    works = []
    for (kind, length), lines in sorted(samples.items()):
        works.append((kind, length, lines[:: 1 + len(lines) // SAMPLED]))
    counts = costs_of(compiled(folder), [(kind, "\n".join(lines) + "\n") for kind, _, lines in works] + [(it, text) for it in TEXTS], folder)
    print("# instructions for an operation, by kind and length, or for a byte; from how many operations or bytes of the bench's runs")
    for (kind, length, lines), count in zip(works, counts):
        print(f"{kind} {length} {count / len(lines):.1f} {len(lines)}")
    for kind, count in zip(TEXTS, counts[len(works):]):
        print(f"{kind} byte {count / len(text):.1f} {len(text)}")


def measure(asked: argparse.Namespace, folder: str) -> None:
    """Makes the runs, and prints the table of costs."""
    samples: dict[tuple[str, str], list[str]] = collections.defaultdict(list)
    texts: list[str] = []
    for run in runs_of(asked, folder):
        counts = counts_of(run, asked, folder)
        if counts is not None:
            texts.append(counts.answer[1].decode()[:SAMPLED_BYTES // 20])
            for key, lines in counts.samples.items():
                samples[key] += lines
    print_costs(samples, "".join(texts)[:SAMPLED_BYTES].rpartition("\n")[0] + "\n", folder)


def read_costs() -> dict[tuple[str, str], float]:
    """Returns the table of costs."""
    with open(COSTS, encoding="utf-8") as it:
        words = [line.split() for line in it if not line.startswith("#")]
    return {(kind, length): float(cost) for kind, length, cost, _ in words}


def floor_of(counts: Counts, costs: dict[tuple[str, str], float], different: bool = False) -> float:
    """Returns the floor of a run: of all operations, or of the different ones alone."""
    operations = counts.different if different else counts.operations
    for key in operations:
        if key not in costs:
            raise instructions.Failed(f"{COSTS} has no cost of {' '.join(key)}: --measure")
    does = sum(number * costs[key] for key, number in operations.items())
    return does + counts.read * costs["read", "byte"] + len(counts.answer[1]) * costs["print", "byte"]


# ---- tables ----


def print_head(heads: list[str]) -> None:
    """Prints the head of a table."""
    print("\n| " + " | ".join(heads) + " |\n|" + "---|" * len(heads), flush=True)


def print_operations(parts: dict[str, list[Traced]]) -> None:
    """Prints the operations of the parts by kind and length, in thousands."""
    print_head(["work; thousands of operations", "kind", *LENGTHS])
    for work, them in parts.items():
        for kind in KINDS:
            numbers = [sum(it.counts.operations[kind, length] for it in them) for length in LENGTHS]
            print(f"| {work} | {kind} | " + " | ".join(f"{it / 1000:.1f}" for it in numbers) + " |")


def quotient(above: float, below: float) -> str:
    """Returns a quotient with one decimal; "-" where nothing is counted, as for a run that stops in its first phase."""
    return f"{above / below:.1f}" if below else "-"


def print_floors(parts: dict[str, list[Traced]], made: dict[str, list[Made]], peer: Optional[str]) -> None:
    """Prints the floors of the parts, and the programs' instructions over them."""
    costs = read_costs()
    print_head(["work", "runs", "operations, thousands", "floor, millions", "of this texts", "different operations alone", "program, millions",
                "over the floor"] + (["peer, millions", "over the floor"] if peer else []))
    for work, them in parts.items():
        floor = sum(floor_of(it.counts, costs) for it in them)
        least = sum(floor_of(it.counts, costs, True) for it in them)
        texts = floor - sum(number * costs[key] for it in them for key, number in it.counts.operations.items())
        ours = sum(it.ours for it in them)
        operations = sum(sum(it.counts.operations.values()) for it in them)
        cells = [work, f"{len(them)} of {len(made.get(work, them))}", f"{operations / 1000:.0f}", *(f"{it / 1e6:.2f}" for it in (floor, texts, least, ours))]
        cells.append(quotient(ours, floor))
        if them[0].theirs is not None:
            theirs = sum(it.theirs for it in them if it.theirs)
            cells += [f"{theirs / 1e6:.2f}", quotient(theirs, floor)]
        print("| " + " | ".join(cells) + " |", flush=True)


def groups(asked: argparse.Namespace, folder: str) -> None:
    """Makes the runs, and prints the tables."""
    costs, found, made = read_costs(), [], []
    for run in runs_of(asked, folder):
        traced = traced_of(run, asked, folder)
        made.append(Made(run.work, traced.status if traced else instructions.answered([asked.program, *run.words])[0]))
        if traced:
            found.append(traced)
            if asked.each:
                floor = floor_of(traced.counts, costs)
                words = " ".join(map(os.path.basename, run.words))
                print(f"{words}: {traced.status}, {floor / 1e6:.2f}, {quotient(traced.ours, floor)}", file=sys.stderr, flush=True)
    if found:
        parts = instructions.parts_of(found)
        print_operations(parts)
        print_floors(parts, instructions.parts_of(made), asked.peer)


def main() -> int:
    """Reads the command line, and prints the tables."""
    how = argparse.ArgumentParser(description=__doc__, formatter_class=argparse.RawDescriptionHelpFormatter)
    what = how.add_mutually_exclusive_group(required=True)
    what.add_argument("--groups", action="store_const", dest="does", const=groups)
    what.add_argument("--measure", action="store_const", dest="does", const=measure)
    how.add_argument("program", metavar="PROGRAM")
    how.add_argument("peer", metavar="PEER", nargs="?")
    how.add_argument("--only", default="", help="the parts whose names have this word")
    how.add_argument("--seconds", type=float, default=0, help="leave out a run whose operations take longer to count (0: no limit)")
    how.add_argument("--each", action="store_true", help="name the status, floor and quotient of each run on standard error")
    asked = how.parse_args()
    try:
        asked.program = instructions.file_of(asked.program)
        asked.peer = asked.peer and instructions.file_of(asked.peer)
        with tempfile.TemporaryDirectory() as folder:
            asked.does(asked, folder)
    except (instructions.Failed, OSError, subprocess.CalledProcessError) as fault:
        print(f"floor: {fault}", file=sys.stderr)
        return 1
    return 0


if __name__ == "__main__":
    sys.exit(main())
