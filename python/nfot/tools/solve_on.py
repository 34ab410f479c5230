"""Solves a network, and goes on where the patterns of a phase are used up (status 6).

There the package looks for a pattern that fits, and `nfot resume` goes on from it. The package is not proved, and need not be: `resume` checks
what it is given, so the report is right whatever the package proposes. A run that ends early prints its report all the same, up to the
departure reached, and ends with the status of nfot (docs/FORMATS.md).

example: nfot-py solve-on siouxfalls.net --horizon 120 > city.report
example: nfot-py solve-on grid.net --horizon 90 --patterns 1000 --out grid.report"""
from __future__ import annotations

import argparse

from ..commands import solve
from ..faults import Stopped
from ..networks import read_network
from ..reports import Report, write_report
from .options import count, minute, seconds


def add_arguments(parser: argparse.ArgumentParser) -> None:
    """The arguments of the tool."""
    parser.add_argument("net", metavar="NET", help="the network file; `-` is standard input")
    parser.add_argument("--horizon", metavar="Q", type=minute, required=True, help="the last departure")
    parser.add_argument("--phases", metavar="N", type=count, help="the most phases of a run (10000)")
    parser.add_argument("--patterns", metavar="N", type=count, help="the most patterns that a phase tries before the package helps (100000)")
    parser.add_argument("--timeout", metavar="SECONDS", type=seconds, help="the most seconds of each run of nfot")
    parser.add_argument("--out", metavar="PATH", help="write the report to this file, whole or not at all")


def write(run: Report, path: str | None) -> None:
    """Writes the report, or prints it."""
    if path is None:
        print(run.text(), end="")
    else:
        write_report(run, path)


def main(arguments: argparse.Namespace) -> int:
    """Prints the report, or writes it."""
    network = read_network(arguments.net)
    try:
        run = solve(network, arguments.horizon, phases=arguments.phases, patterns=arguments.patterns, timeout=arguments.timeout)
    except Stopped as stop:
        if stop.report is not None:
            write(stop.report, arguments.out)
        raise
    write(run, arguments.out)
    return 0
