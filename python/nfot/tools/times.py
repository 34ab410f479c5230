"""Prints when departures arrive, which links have queues, and the time that all spend.

DEPARTUREs are minutes, or with --clock times of day. With --every the table has all departures in steps; with --csv it is written for a
spreadsheet, alone. A wait is the amount in the queue divided by the capacity. With --node the arrivals are those at this node, in place of the
destination. With --by the last departure that is there by a time is printed, alone; `end of report` says that the report has no later ones.

example: nfot-py times bridge.net bridge.report 0 30 60
example: nfot-py times bridge.net bridge.report --every 5 --clock 6:00 --csv times.csv"""
from __future__ import annotations

import argparse
from fractions import Fraction
from typing import Optional

from ..comparing import spent
from ..curves import Curve
from ..demand import minutes_at
from ..faults import Refused
from ..numbers import clock, decimal
from ..queues import queues_of
from ..rows import Rows, grid
from ..wording import BEYOND, Words
from .common import departures, read_run, tell_minutes, warn, write_rows
from .options import add_clock, add_csv, add_pair, positive


def add_arguments(parser: argparse.ArgumentParser) -> None:
    """The arguments of the tool."""
    add_pair(parser)
    parser.add_argument("departures", metavar="DEPARTURE", nargs="*", help="a departure from the source")
    parser.add_argument("--every", metavar="MINUTES", type=positive, help="all departures from 0 on in steps of so many minutes")
    parser.add_argument("--node", metavar="NODE", help="arrivals at this node, in place of the destination")
    parser.add_argument("--by", metavar="TIME", help="print the last departure that is there by this time")
    add_clock(parser)
    add_csv(parser)


def last_by(label: Curve, time: Fraction) -> Optional[Fraction]:
    """The last departure whose label is at most a time; None where there is none."""
    found = None
    for (start, value), (end, after) in zip(label.points, [*label.points[1:], label.points[-1]]):
        if value <= time:
            found = end if after <= time else start + (end - start) * (time - value) / (after - value)
    return found


def line_by(arguments: argparse.Namespace, label: Curve, node: str) -> str:
    """The line on the last departure that is at a node by a time."""
    words = Words(arguments.exact, arguments.clock)
    time = minutes_at(arguments.by, arguments.clock)
    last = last_by(label, time)
    if last is None:
        return f"no departure is at {node} by {words.time(time)}"
    beyond = f" ({BEYOND})" if last == label.points[-1][0] and label.points[-1][1] < time else ""
    return f"departures up to {words.time(last)}{beyond} are at {node} by {words.time(time)}"


def rows_of(label: Curve, times: list[Fraction], begin: Fraction | None) -> Rows:
    """A row for each departure."""
    columns = ["leave", "arrive", "takes"] if begin is None else ["clock", "leave", "arrive", "takes"]
    return Rows(columns, ([*([] if begin is None else [clock(time, begin)]), time, label(time), label(time) - time] for time in times))


def main(arguments: argparse.Namespace) -> int:
    """Prints the departures, the queues and the total; or writes the departures as CSV."""
    network, run = read_run(arguments.net, arguments.report)
    times = departures(arguments.departures, arguments.clock, run, arguments.report)
    if arguments.every is not None:
        times = sorted({*times, *grid(arguments.every, run.reached)})
    node = network.sink if arguments.node is None else arguments.node
    rows = rows_of(run.label(node), times, arguments.clock)
    if arguments.by is not None and (times or arguments.csv is not None):
        raise Refused("--by stands alone: it has no departures, no --every and no --csv")
    if arguments.csv is not None and not times:
        raise Refused("--csv has a row for each departure: name some, or take --every")
    tell_minutes("times", [*arguments.departures, *([arguments.by] if arguments.by else [])], arguments.clock)
    warn("times", arguments.report, run)
    if arguments.csv is not None:
        write_rows(rows, arguments)
        return 0
    if arguments.by is not None:
        print(line_by(arguments, run.label(node), node))
        return 0
    words = Words(arguments.exact, arguments.clock)
    for row in rows:
        cells = {name: cell if isinstance(cell, str) else words.number(cell) for name, cell in row.items() if cell is not None}
        print("  ".join(cell if name == "clock" else f"{name} {cell}" for name, cell in cells.items()))
    if run.cause != "done":
        print(f"the report ends at departure {decimal(run.reached)}, not at {decimal(run.horizon)}: {run.cause}")
    for queue in queues_of(run):
        print(words.queue(queue))
    total, vehicles = spent(network, run.label(network.sink), run.reached).total, network.supplied(run.reached)
    mean = f", a vehicle {words.number(total / vehicles)}" if vehicles else ""
    print(f"all together on the way: {words.number(total, 1)}{mean}")
    return 0
