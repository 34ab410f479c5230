#!/usr/bin/env python3
"""Compares a program with the independent one on random cases, byte for byte, and with itself by relations that must hold.

    tests/differ.py PROGRAM [--seed N] [--cases N] [--commands NAME,NAME ..] [--metamorphic] [--first] [--keep FOLDER]

Each case is made from its own seed alone, which the first one has from --seed and each further one is one higher: --seed N --cases 1, with the
same commands, makes the case of seed N again.
A case is run by both programs, in a temporary folder; status, standard output and standard error have to be the same bytes. One case in
twenty is a relation of the program with itself; with --metamorphic all are. A case that differs is kept, as files with the command line and
both answers, in a folder that is named; the first ten are made smaller before. Progress goes to standard error; at last comes a tally of answers.

Statuses: 0 none differs; 1 some differ; 2 the words are wrong, or Python is older than 3.9.
"""
import argparse
import pathlib
import random
import shlex
import sys
import tempfile
import time

if sys.version_info < (3, 9):
    print("differ: Python 3.9 or later is needed", file=sys.stderr)
    sys.exit(2)
sys.path.insert(0, str(pathlib.Path(__file__).resolve().parent))
sys.dont_write_bytecode = True

from random_cases import commands, metamorphic, shrinking
from random_cases.running import Programs, TooSlow
from random_cases.tally import Tally

METAMORPHIC_SHARE = 0.05
SHRUNK = 10


def parsed(words):
    """The words of this script; wrong ones end it with status 2."""
    parser = argparse.ArgumentParser(prog="tests/differ.py", description=__doc__, formatter_class=argparse.RawDescriptionHelpFormatter)
    parser.add_argument("program", metavar="PROGRAM", type=pathlib.Path)
    parser.add_argument("--seed", type=int, default=1, metavar="N")
    parser.add_argument("--cases", type=int, default=300, metavar="N")
    parser.add_argument("--commands", type=lambda names: names.split(","), default=list(commands.MAKERS), metavar="NAME,NAME ..")
    parser.add_argument("--metamorphic", action="store_true", help="relations of the program with itself alone")
    parser.add_argument("--first", action="store_true", help="stop at the first case that differs")
    parser.add_argument("--keep", type=pathlib.Path, metavar="FOLDER", help="where cases that differ are kept (else a new temporary folder)")
    options = parser.parse_args(words)
    unknown = [name for name in options.commands if name not in commands.MAKERS]
    if unknown:
        parser.error(f"no command is called {', '.join(unknown)}; there are {', '.join(commands.MAKERS)}")
    if options.cases < 1:
        parser.error("there is no case to run")
    if not options.program.is_file():
        parser.error(f"{options.program} isn't built")
    return options


class Comparison:
    """One run of this script: the programs, what differed, and the tally."""

    def __init__(self, options):
        self.options, self.programs, self.tally = options, Programs(options.program), Tally()
        self.differing, self.slow, self.kept = 0, 0, options.keep

    def run(self, seed):
        """The case of a seed."""
        rng = random.Random(seed)
        try:
            if self.options.metamorphic or rng.random() < METAMORPHIC_SHARE:
                self.relate(seed, rng)
            else:
                self.compare(seed, rng)
        except TooSlow:
            self.slow += 1

    def compare(self, seed, rng):
        """A random case is run by both programs."""
        name, case = commands.some_case(rng, self.programs.expected, self.options.commands)
        expected, found = self.programs.expected(case.words, case.files), self.programs.found(case.words, case.files)
        self.tally.add(name, expected)
        if found != expected:
            self.shrink(seed, case, expected, found)

    def shrink(self, seed, case, expected, found):
        """A case that differs is made smaller, if it is one of the first ones, and kept."""
        why = f"expected status {expected.status}, found {found.status}"
        if self.differing < SHRUNK:
            case, tried = shrinking.smallest(case, self.still_differs)
            expected, found = self.programs.expected(case.words, case.files), self.programs.found(case.words, case.files)
            why += f"; made smaller in {tried} tries"
        self.note(seed, case, expected, found, why)

    def still_differs(self, case):
        """Whether the programs differ on a smaller case; one that is too slow doesn't count."""
        try:
            return self.programs.differ(case)
        except TooSlow:
            return False

    def relate(self, seed, rng):
        """A relation of the program with itself."""
        for name, case, expected, found in metamorphic.some_relation(rng, self.programs):
            self.tally.add(f"relation {name}", found)
            if expected != found:
                self.note(seed, case, expected, found, f"the relation {name} doesn't hold")

    def note(self, seed, case, expected, found, why):
        """Keeps a case that differs, and says where."""
        self.differing += 1
        self.kept = self.kept or pathlib.Path(tempfile.mkdtemp(prefix="differ-kept-"))
        folder = self.kept / str(seed)
        folder.mkdir(parents=True, exist_ok=True)
        for name, text in case.files.items():
            (folder / name).write_bytes(text)
        (folder / "command").write_bytes(f"nfot {shlex.join(case.words)}\n".encode("utf-8", "surrogateescape"))
        for name, answer in (("expected", expected), ("found", found)):
            (folder / f"{name}.status").write_text(f"{answer.status}\n")
            (folder / f"{name}.out").write_bytes(answer.out)
            (folder / f"{name}.err").write_bytes(answer.err)
        progress(f"seed {seed}: nfot {shlex.join(case.words)}: {why}; kept in {folder}")


def progress(line):
    """A line on standard error."""
    print(f"differ: {line}", file=sys.stderr, flush=True)


def main():
    """Runs the cases, one seed after the other."""
    options = parsed(sys.argv[1:])
    comparison, start, told = Comparison(options), time.monotonic(), time.monotonic()
    for count in range(1, options.cases + 1):
        comparison.run(options.seed + count - 1)
        if options.first and comparison.differing:
            break
        if time.monotonic() - told > 15:
            told = time.monotonic()
            progress(f"{count} of {options.cases} cases, {comparison.differing} differ, {told - start:.0f} seconds")
    for line in comparison.tally.lines():
        print(line)
    late = f", {comparison.slow} left out as too slow" if comparison.slow else ""
    print(f"differ: {count} cases from seed {options.seed}, {comparison.differing} differ{late}, {time.monotonic() - start:.0f} seconds")
    sys.exit(1 if comparison.differing else 0)


if __name__ == "__main__":
    main()
