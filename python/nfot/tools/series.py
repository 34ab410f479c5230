"""Prints a link over the day, or travel times, in several scenarios side by side.

Each scenario is a pair NET REPORT, called by the name of its report. With --link the columns are its queue (or what --show names: queue, wait,
in and out, the vehicles that enter and leave until the next row); without it they are the travel times by departure. A cell is empty beyond
the last time that a report knows. The last row is at the last time of all.

example: nfot-py series corridor.net corridor.report half.net half.report --link bridge --every 10 --clock 6:00 --csv bridge.csv"""
from __future__ import annotations

import argparse
from pathlib import PurePath

from ..faults import Refused
from ..networks import Network
from ..reports import Report
from ..rows import side_by_side
from .common import check_inputs, read_run, tell_alike, tell_ends, tell_stopped, warn, write_rows
from .options import add_clock, add_csv, positive


def add_arguments(parser: argparse.ArgumentParser) -> None:
    """The arguments of the tool."""
    parser.add_argument("files", metavar="NET REPORT", nargs="+", help="the network and the report of each scenario")
    parser.add_argument("--link", metavar="LINK", action="append", help="the link (several: once for each); without it travel times are shown")
    parser.add_argument("--show", metavar="COLUMNS", help="of a link queue, wait, in, out (several joined by commas); of departures takes, arrive")
    parser.add_argument("--every", metavar="MINUTES", type=positive, default=5, help="the step of time (5)")
    add_clock(parser)
    add_csv(parser)


def runs_of(files: list[str]) -> dict[str, tuple[Network, Report]]:
    """The scenarios by name: that of the report without its ending, else the whole one where two are equal."""
    if len(files) % 2:
        raise Refused(f"{files[-1]} stands alone: each scenario is a pair NETWORK REPORT, as A.net A.report B.net B.report")
    check_inputs(*files)
    pairs = list(zip(files[::2], files[1::2]))
    stems = [PurePath(report).stem for _, report in pairs]
    names = stems if len(set(stems)) == len(stems) else [report for _, report in pairs]
    if len(set(names)) < len(names):
        raise Refused("a report is named twice")
    return {name: read_run(net, report) for name, (net, report) in zip(names, pairs)}


def main(arguments: argparse.Namespace) -> int:
    """Prints the table, or writes it as CSV."""
    show = [word.strip() for word in arguments.show.split(",")] if arguments.show else ["queue" if arguments.link else "takes"]
    clock = None if arguments.clock is None else str(arguments.clock)
    found = runs_of(arguments.files)
    runs = {name: run for name, (_, run) in found.items()}
    rows = side_by_side(runs, arguments.link, show, arguments.every, clock)
    for tell in (tell_alike, tell_ends):
        tell("series", arguments.files[::2], list(found.values()))
    for report, run in zip(arguments.files[1::2], runs.values()):
        warn("series", report, run)
        tell_stopped("series", report, run)
    write_rows(rows, arguments)
    return 0
