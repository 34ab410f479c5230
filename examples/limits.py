#!/usr/bin/env python3
"""limits.py: meets each limit on purpose, and prints for each what was asked, the status, the class and the first words of the fault.

Run it as `python3 limits.py` in a copy of the folder examples. It needs Linux and takes some ten seconds: the slow program makes the long
runs, which a time limit and signals end. Statuses: 0 each limit gave a fault; 1 one did not."""
import contextlib
import os
import pathlib
import resource
import sys
import tempfile
from fractions import Fraction

import nfot

SECONDS = 1  # after which a long run is ended
MEMORY = 2 << 20  # bytes of address space: too few to start a program
FINE = nfot.Network("s", "t", [nfot.Link("a", "s", "t", 1, Fraction(1, 10**30)), nfot.Link("b", "s", "t", Fraction(1, 7**30), 1)], [(0, 3)])


def told(asked, call, *given, **named):
    """Prints a line on a call; whether it gave a fault."""
    found = nfot.outcome(call, *given, **named)
    if not isinstance(found, nfot.Fault):
        print(f"{asked}: no fault")
        return False
    print(f"{asked}: {found.status} {type(found).__name__}: {' '.join(str(found).split()[:9])} ..")
    return True


def budgets():
    """Budgets, and numbers that grow too long."""
    yield told("phases", nfot.solve, "twelve.net", 30, phases=3)
    yield told("patterns", nfot.solve, "twelve.net", 30, patterns=1, go_on=False)
    yield told("long numbers", nfot.solve, FINE, 9)
    yield told("walks of the quickest flow", nfot.quick, "bridge.net", 240, augments=1)
    yield told("no last phase", nfot.forever, "bridge.net", phases=1)


def files(folder):
    """Files that can't be read or written, and networks that break a rule."""
    wrong, long = folder / "wrong.net", folder / "long.net"
    wrong.write_text("nfot 2\nsource home\nsink work\nlink bridge home\n")
    long.write_text("# a comment\n" * 100_000)
    yield told("wrong line", nfot.read_network, wrong)
    yield told("long file", nfot.read_network, long)
    yield told("missing file", nfot.read_network, folder / "missing.net")
    yield told("201 links", nfot.Network, "s", "t", [nfot.Link(f"a{n}", "s", "t", n, 1) for n in range(201)], [(0, 1)])
    yield told("full disk", nfot.write_network, FINE, "/dev/full")


@contextlib.contextmanager
def slow(folder, before=":"):
    """The slow program in place of the program. A run of `solve` does a line of shell before."""
    place = folder / "nfot"
    place.write_text(f'#!/bin/sh\nif [ "$1" = solve ]; then\n{before}\nfi\nexec "{sys.executable}" -m nfot.slow "$@"\n')
    place.chmod(0o755)
    kept = os.environ.get("NFOT")
    os.environ["NFOT"] = str(place)
    try:
        yield
    finally:
        os.environ.pop("NFOT") if kept is None else os.environ.update(NFOT=kept)


def long_runs(folder):
    """Runs that something ends."""
    with slow(folder):
        yield told("time", nfot.solve, "siouxfalls.net", 90, timeout=SECONDS)
    for signal in ("TERM", "KILL"):
        with slow(folder, f"(sleep {SECONDS}; kill -s {signal} $$) > /dev/null 2>&1 &"):
            yield told(f"SIG{signal}", nfot.solve, "siouxfalls.net", 90)
    soft, hard = resource.getrlimit(resource.RLIMIT_AS)
    resource.setrlimit(resource.RLIMIT_AS, (MEMORY, hard))
    try:
        yield told("memory", nfot.solve, "bridge.net", 60)
    finally:
        resource.setrlimit(resource.RLIMIT_AS, (soft, hard))


if __name__ == "__main__":
    if len(sys.argv) > 1:
        sys.exit("usage: limits.py")
    with tempfile.TemporaryDirectory() as made:
        there = pathlib.Path(made)
        met = [*budgets(), *files(there), *long_runs(there)]
    sys.exit(0 if all(met) else 1)
