"""Prints the phases of an equilibrium: departures, supply, active links E' and resetting links E*, flows x' and label slopes l'.

A phase lasts until the supply, a flow or a slope changes, a link becomes active or a queue runs empty. The sets are those at its begin.
With --csv each phase is a row, with a column for each link's flow and each node's slope.

example: nfot-py phases bridge.net bridge.report"""
from __future__ import annotations

import argparse

from ..rows import Cell, Rows
from ..phases import Phase, phases
from .common import read_run, tell_stopped, warn, write_rows
from .options import add_csv, add_pair


def add_arguments(parser: argparse.ArgumentParser) -> None:
    """The arguments of the tool."""
    add_pair(parser)
    add_csv(parser)


def row_of(phase: Phase) -> list[Cell]:
    """The cells of a phase."""
    return [phase.start, phase.end, phase.rate, " ".join(phase.active), " ".join(phase.resetting), *phase.flows.values(), *phase.slopes.values()]


def main(arguments: argparse.Namespace) -> int:
    """Prints the phases, or writes them as CSV."""
    network, run = read_run(arguments.net, arguments.report)
    found = phases(network, run)
    warn("phases", arguments.report, run, ", so a phase may be no thin flow")
    tell_stopped("phases", arguments.report, run)
    if arguments.csv is None:
        print("".join(f"{phase}\n" for phase in found), end="")
        return 0
    columns = ["start", "end", "rate", "active", "resetting", *(f"flow {link.name}" for link in network.used_links()),
               *(f"slope {node}" for node in network.nodes())]
    write_rows(Rows(columns, map(row_of, found)), arguments)
    return 0
