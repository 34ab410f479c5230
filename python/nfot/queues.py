"""Queues of a report: when they stand, how long they are, how long drivers wait, and whether they are longer than the road."""
from __future__ import annotations

from dataclasses import dataclass
from fractions import Fraction
from typing import Optional, Sequence

from .curves import Curve
from .given import with_network
from .reports import Report
from .sheets import read_sheet

VEHICLE = Fraction(7)  # metres of a lane that a waiting vehicle takes


@dataclass(frozen=True)
class Queue:
    """The queue of a link, or one stretch of it. `spans`: from when to when one stands (None: beyond the last time that is known). `wait`: the
    longest wait in minutes, first met at `time`; `vehicles`: the most that wait, also then."""
    link: str
    spans: Sequence[tuple[Fraction, Optional[Fraction]]]
    wait: Fraction
    time: Fraction
    vehicles: Fraction


@dataclass(frozen=True)
class Place:
    """A link in the table that it was made from: its name there, and how many vehicles its road holds (None: not known)."""
    name: str
    room: Optional[Fraction]


def spans(curve: Curve) -> list[tuple[Fraction, Optional[Fraction]]]:
    """The times from when to when a curve is above 0."""
    found: list[tuple[Fraction, Optional[Fraction]]] = []
    begin: Optional[Fraction] = None
    before = Fraction(0), Fraction(0)
    for time, amount in curve.points:
        if amount > 0 and begin is None:
            begin = before[0] if before[1] == 0 else time
        elif amount == 0 and begin is not None:
            found.append((begin, time))
            begin = None
        before = time, amount
    return found if begin is None else [*found, (begin, None)]


def greatest(curve: Curve, start: Fraction, end: Optional[Fraction]) -> tuple[Fraction, Fraction]:
    """The greatest value at the points from one time to another (None: the last one), as (first time that has it, value)."""
    return max((point for point in curve.points if start <= point[0] and (end is None or point[0] <= end)), key=lambda point: (point[1], -point[0]))


def queues_of(run: Report, stretches: bool = False) -> list[Queue]:
    """The queues of a report, in the order of its links; links that never queue are left out.

    With `stretches` each of the times with a queue has a Queue of its own, with one span and the longest wait in it."""
    found = []
    for link in with_network(run).used_links():
        if link.capacity is None:
            continue
        queue = run.queue(link.name)
        standing = spans(queue)
        parts = [[span] for span in standing] if stretches else [standing] if standing else []
        for part in parts:
            time, most = greatest(queue, part[0][0], part[-1][1])
            found.append(Queue(link.name, part, most / link.capacity, time, most))
    return found


def longest_first(found: Sequence[Queue]) -> list[Queue]:
    """The queues by their longest wait; of equal ones the first link stays first."""
    return sorted(found, key=lambda queue: -queue.wait)


def read_places(path: str, vehicle: Fraction = VEHICLE) -> dict[str, Place]:
    """The links of a file of names, as `nfot-py table --names` writes it, by their name in the network.

    The room of a road is its length times its lanes (1 where they aren't known) divided by the metres of a vehicle."""
    sheet = read_sheet(path)
    sheet.column("id")
    found = {}
    for row in sheet.rows:
        if row.cells.get("kind", "link") != "link":
            continue
        lanes = row.number("lanes") if row.cells.get("lanes") else Fraction(1)
        room = row.number("km") * 1000 * lanes / vehicle if row.cells.get("km") else None
        found[row.text("id")] = Place(row.cells.get("name") or row.text("id"), room)
    return found
