"""Prints the queues of a report, the longest wait first: when, how long, how many vehicles.

A link whose queue is empty in between has a row for each stretch of time with a queue. A queue that is still there at the last time that the
report knows is there until `end of report` (in CSV the cell is empty).
With --names, a file that `nfot-py table --names` wrote, the table has the names of the roads; and where their lengths are known, how many
vehicles the road holds, and from when on the queue is longer than the road (in the model queues take no room).

example: nfot-py queues town.net town.report --clock 6:00 --names names.csv
example: nfot-py queues corridor.net corridor.report --top 5 --csv queues.csv"""
from __future__ import annotations

import argparse
from fractions import Fraction
from typing import Optional

from ..numbers import clock
from ..queues import VEHICLE, Place, Queue, longest_first, queues_of, read_places
from ..reports import Report
from ..rows import Cell, Rows
from ..wording import BEYOND
from .common import read_run, warn, write_rows
from .options import add_clock, add_csv, add_pair, count, positive


def add_arguments(parser: argparse.ArgumentParser) -> None:
    """The arguments of the tool."""
    add_pair(parser)
    parser.add_argument("--top", metavar="N", type=count, help="only the N rows with the longest waits")
    parser.add_argument("--names", metavar="FILE", help="the names, as `nfot-py table --names` wrote them")
    parser.add_argument("--vehicle-m", metavar="METRES", type=positive, default=VEHICLE, help="metres of a lane that a waiting vehicle takes (7)")
    add_clock(parser)
    add_csv(parser)


def exceeded(run: Report, queue: Queue, room: Fraction) -> Optional[Fraction]:
    """The first time of a stretch at which more vehicles wait than the road holds; None where they never do."""
    begin, until = queue.spans[0]
    for start, end, amount, slope in run.queue(queue.link).pieces():
        if start < begin or until is not None and start >= until:
            continue
        if amount > room or amount + slope * (end - start) > room:
            return start if amount > room else start + (room - amount) / slope
    return None


def row_of(run: Report, queue: Queue, begin: Optional[Fraction], places: Optional[dict[str, Place]], beyond: Cell) -> list[Cell]:
    """The cells of a stretch with a queue; `beyond` stands for an end that the report doesn't know."""
    def at(time: Optional[Fraction]) -> Cell:
        return time if time is None or begin is None else clock(time, begin)
    until = at(queue.spans[0][1])
    cells: list[Cell] = [queue.link, at(queue.spans[0][0]), beyond if until is None else until, queue.wait, at(queue.time), queue.vehicles]
    if places is not None:
        place = places.get(queue.link, Place(queue.link, None))
        over = None if place.room is None else exceeded(run, queue, place.room)
        cells += [place.name, place.room, at(over)]
    return cells


def main(arguments: argparse.Namespace) -> int:
    """Prints the table, or writes it as CSV."""
    _, run = read_run(arguments.net, arguments.report)
    places = None if arguments.names is None else read_places(arguments.names, arguments.vehicle_m)
    found = longest_first(queues_of(run, stretches=True))[:arguments.top]
    columns = ["link", "from", "until", "longest wait", "at", "vehicles"] + ([] if places is None else ["road", "holds", "too long from"])
    warn("queues", arguments.report, run)
    if not found and arguments.csv is None:
        print("no link has a queue")
        return 0
    beyond = BEYOND if arguments.csv is None else None
    write_rows(Rows(columns, [row_of(run, queue, arguments.clock, places, beyond) for queue in found]), arguments)
    return 0
