"""Prints how far the flow of a report is from an equilibrium, in time: 0 exactly where `nfot-py check` says yes.

`spent` is what all together spend on the way, `best` what they would spend if each arrived at the label, `gap` the difference, `relative` gap
over best. `worst` is the greatest loss of one vehicle, and when it leaves (or just before). All who left by the departure reached have to
arrive: make the report by `nfot-py judge`, and end the rates with REACHED.

example: nfot-py judge bridge.net tolled.loads 60 > tolled.report && nfot-py gap bridge.net tolled.report"""
from __future__ import annotations

import argparse

from ..gaps import gap
from ..rows import Rows
from .common import read_run, tell_stopped, write_rows
from .options import add_csv, add_pair


def add_arguments(parser: argparse.ArgumentParser) -> None:
    """The arguments of the tool."""
    add_pair(parser)
    add_csv(parser)


def main(arguments: argparse.Namespace) -> int:
    """Prints the gap, or writes it as CSV."""
    network, report = read_run(arguments.net, arguments.report)
    found = gap(network, report)
    tell_stopped("gap", arguments.report, report)
    if arguments.csv is None and not arguments.exact:
        print(found)
        return 0
    columns = ["spent", "best", "gap", "relative", "worst", "leaves"]
    cells = [found.spent, found.best, found.gap, found.relative, found.worst.time, found.worst.departure]
    if arguments.csv is None:
        print("  ".join(f"{column} {cell}" for column, cell in zip(columns, cells) if cell is not None))
    else:
        write_rows(Rows(columns, [cells]), arguments)
    return 0
