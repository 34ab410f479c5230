"""What several tools share: reading a network with its report, warnings, and writing rows."""
from __future__ import annotations

import argparse
import os
import sys
from fractions import Fraction
from typing import Optional, Sequence

from ..calling import near_time
from ..commands import check
from ..comparing import alike
from ..demand import minutes_at
from ..faults import Fault, OutOfRange, Refused
from ..lines import shown_name
from ..networks import Network
from ..numbers import decimal, short
from ..reports import Report, read_pair
from ..rows import Rows, count_columns

CHECK_SECONDS = 10  # a report of a city is checked in 0.02 s


def read_run(net: str, report: str) -> tuple[Network, Report]:
    """A network and its report; a Fault where they don't belong together."""
    check_inputs(net, report)
    check_kinds(net, report)
    return read_pair(net, report)


def check_kinds(net: str, report: str) -> None:
    """Refuses a report in the place of a network, and a network in that of a report, as far as files show it."""
    for name, kind, other in ((net, "network", "report"), (report, "report", "network")):
        if os.path.isfile(name) and is_kind(name, other):
            raise Refused(f"{name} is a {other}, and stands in the place of a {kind}: the order is NETWORK REPORT, for each pair")


def is_kind(name: str, kind: str) -> bool:
    """Whether a file begins as a report, or as a network."""
    word = "report" if kind == "report" else "nfot"
    try:
        with open(name, encoding="ascii", errors="replace") as file:
            words: list[str] = next((line.split() for line in file if line.partition("#")[0].strip()), [])
    except OSError:
        return False
    return words[:1] == [word] and len(words) > 1 and words[1] in ("1", "2")


def tell_alike(tool: str, names: Sequence[str], runs: Sequence[tuple[Network, Report]]) -> None:
    """Says on standard error which cases are the same, each beside the first one. `names` are those of their networks."""
    for name, run in zip(names[1:], runs[1:]):
        said = alike(*runs[0], *run)
        if said:
            print(f"nfot-py {tool}: {said} ({names[0]} and {name})", file=sys.stderr)


def tell_ends(tool: str, names: Sequence[str], runs: Sequence[tuple[Network, Report]]) -> None:
    """Says on standard error which cases have another source or sink than the first one. `names` are those of their networks."""
    ends = [(net.source, net.sink) for net, _ in runs]
    for name, other in zip(names[1:], ends[1:]):
        if other != ends[0]:
            print(f"nfot-py {tool}: {names[0]} leads from {' to '.join(ends[0])}, and {name} from {' to '.join(other)}", file=sys.stderr)


def warn(tool: str, report: str, run: Report, so: str = "") -> None:
    """Says on standard error that a report is no equilibrium, where `check` says no, or that it couldn't be checked.

    `report` is the name of its file, and `so` says what follows."""
    if run.network is None:
        raise Refused("the report has no network")
    try:
        verdict = check(run.network, run, timeout=CHECK_SECONDS)
    except Fault as fault:
        print(f"nfot-py {tool}: {shown_name(report)} wasn't checked: {' '.join(str(fault).split())}", file=sys.stderr)
        return
    if not verdict:
        print(f"nfot-py {tool}: {shown_name(report)} is no equilibrium{so}: {verdict.why}", file=sys.stderr)


def tell_stopped(tool: str, report: str, run: Report) -> None:
    """Says on standard error that a report ends before its horizon, where it does. `report` is the name of its file."""
    if run.cause != "done":
        print(f"nfot-py {tool}: {shown_name(report)} ends at departure {near_time(run.reached)}, not at {near_time(run.horizon)}: {run.cause}", file=sys.stderr)


def check_inputs(*paths: Optional[str]) -> None:
    """Refuses a second file that is standard input."""
    if paths.count("-") > 1:
        raise Refused("only one of the files can be standard input")


def tell_minutes(tool: str, words: Sequence[str], clock: Optional[Fraction]) -> None:
    """Says on standard error how words as 7:30 are read where minute 0 has no time of day."""
    read = [f"{word} is minute {short(minutes_at(word, None))}" for word in words if ":" in word and clock is None]
    if read:
        print(f"nfot-py {tool}: {', '.join(read)} of the run; for times of day give --clock, the time of day of minute 0", file=sys.stderr)


def departures(words: list[str], clock: Optional[Fraction], run: Report, name: str) -> list[Fraction]:
    """Departures of the command line, as minutes or times of day; a Fault where the report doesn't come to one."""
    found = [minutes_at(word, clock) for word in words]
    for word, departure in zip(words, found):
        if not 0 <= departure <= run.reached:
            until = decimal(run.reached - run.reached % Fraction(1, 100))
            hint = f" ({word} without --clock is minute {short(departure)}: give --clock, the time of day of minute 0)" if ":" in word and clock is None else ""
            raise OutOfRange(f"{name} has the departures from 0 to {until}, not {short(departure)}{hint}")
    return found


def write_rows(rows: Rows, arguments: argparse.Namespace) -> None:
    """Writes rows as CSV where that is asked for, else prints them in columns."""
    if arguments.csv is not None:
        rows.csv(arguments.csv, arguments.exact, arguments.semicolon, count_columns(rows.columns))
    else:
        print(rows.text(arguments.exact), end="")


def amounts(exact: bool, *values: tuple[Optional[Fraction], int]) -> list[str]:
    """Numbers for a line: rounded to so many digits (6: as they are, where a decimal is exact), or exact."""
    return ["inf" if value is None else short(value) if exact or digits == 6 else decimal(value, digits) for value, digits in values]
