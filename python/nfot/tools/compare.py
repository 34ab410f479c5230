"""Compares two cases of a study, as a road open and closed: who gains, who loses, how much, when.

Prints how long each DEPARTURE takes in both (without any: where the demand of NET1 changes), the mean and the longest travel time of a vehicle,
and the time that all spend, in hours. Then how many vehicles lose and gain, when they leave, and by how much. Where one report ends earlier,
both are cut there. Where the demands differ, the vehicles that leave at the same time in both cases are counted.

example: nfot-py compare paradox.net paradox.report paradox-closed.net closed.report
example: nfot-py compare town.net town.report works.net works.report --every 5 --clock 6:00 --csv works.csv"""
from __future__ import annotations

import argparse
from fractions import Fraction

from ..comparing import Comparison, compare
from ..networks import Network
from ..numbers import decimal
from ..reports import Report
from ..rows import Rows, grid
from ..wording import Words
from .common import check_inputs, departures, read_run, tell_alike, tell_ends, tell_minutes, warn, write_rows
from .options import add_clock, add_csv, positive


def add_arguments(parser: argparse.ArgumentParser) -> None:
    """The arguments of the tool."""
    for number in ("1", "2"):
        parser.add_argument(f"net{number}", metavar=f"NET{number}", help=f"the network of case {number}")
        parser.add_argument(f"report{number}", metavar=f"REPORT{number}", help="its report")
    parser.add_argument("departures", metavar="DEPARTURE", nargs="*", help="a departure from the source")
    parser.add_argument("--every", metavar="MINUTES", type=positive, help="all departures from 0 on in steps of so many minutes")
    add_clock(parser)
    add_csv(parser)


def row(words: Words, what: str, before: Fraction, after: Fraction) -> str:
    """A line with both cases and the change."""
    return f"{what:<22}{words.number(before):>12}{words.number(after):>12}{words.change(after - before):>12}"


def table(found: Comparison, times: list[Fraction], words: Words) -> Rows:
    """The departures as rows."""
    columns = ["leave", "first", "second", "change"] if words.begin is None else ["clock", "leave", "first", "second", "change"]
    rows = []
    for time in times:
        takes = found.takes(time)
        rows.append(([] if words.begin is None else [words.time(time)]) + [time, takes.before, takes.after, takes.change])
    return Rows(columns, rows)


def cut_line(arguments: argparse.Namespace, runs: list[Report], until: Fraction) -> list[str]:
    """The line that says which report ends first, where one does."""
    if {run.cause for run in runs} == {"done"} and runs[0].reached == runs[1].reached:
        return []
    name, run = (arguments.report1, runs[0]) if runs[0].reached == until else (arguments.report2, runs[1])
    return [f"both are cut at departure {decimal(until)}, where {name} ends" + (f": {run.cause}" if run.cause != "done" else "")]


def main(arguments: argparse.Namespace) -> int:
    """Prints the comparison; or writes the departures as CSV."""
    check_inputs(arguments.net1, arguments.report1, arguments.net2, arguments.report2)
    pairs: list[tuple[Network, Report]] = [read_run(arguments.net1, arguments.report1), read_run(arguments.net2, arguments.report2)]
    found, words = compare(*pairs[0], *pairs[1]), Words(arguments.exact, arguments.clock)
    shorter = min(pairs, key=lambda pair: pair[1].reached)[1]
    times = departures(arguments.departures, arguments.clock, shorter, "both reports together")
    if arguments.every is not None:
        times = sorted({*times, *grid(arguments.every, found.until)})
    times = times or [start for start, _ in pairs[0][0].supply if start <= found.until]
    tell_minutes("compare", arguments.departures, arguments.clock)
    for tell in (tell_alike, tell_ends):
        tell("compare", (arguments.net1, arguments.net2), pairs)
    for report, (_, run) in zip((arguments.report1, arguments.report2), pairs):
        warn("compare", report, run)
    if arguments.csv is not None:
        write_rows(table(found, times, words), arguments)
        return 0
    print(*cut_line(arguments, [run for _, run in pairs], found.until), f"{'':<22}{'first':>12}{'second':>12}{'change':>12}", sep="\n")
    for time in times:
        print(row(words, f"leave {words.time(time)}", *found.takes(time)))
    if found.mean is not None and found.longest is not None:
        print(row(words, "a vehicle, mean", *found.mean))
        print(row(words, "a vehicle, longest", *found.longest))
    print(row(words, "all together, hours", found.total.before / 60, found.total.after / 60))
    if not found.same_supply:
        vehicles = " and ".join(words.number(amount, 1) for amount in found.vehicles)
        print(f"the supplies differ: {vehicles} vehicles; of those, {words.number(found.common, 1)} leave at the same time in both cases")
    print(words.group("lose", found.lose))
    print(words.group("gain", found.gain))
    return 0
