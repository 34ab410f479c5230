"""Roads of a table: links with their minutes and capacities, and those that lead from the origin to a destination.

Times are minutes. Capacities are vehicles a minute, None where there is no limit."""
from __future__ import annotations

import heapq
from dataclasses import dataclass, replace
from fractions import Fraction
from typing import Callable, Iterable, Mapping, Optional, Sequence

from .faults import Refused
from .sheets import Row, Sheet, read_sheet


@dataclass(frozen=True)
class Columns:
    """The names of the columns, None where the usual name is meant; and the capacity of a lane, in vehicles an hour."""
    tail: Optional[str] = None
    head: Optional[str] = None
    name: Optional[str] = None
    minutes: Optional[str] = None
    length_km: Optional[str] = None
    length_m: Optional[str] = None
    speed_kmh: Optional[str] = None
    capacity: Optional[str] = None
    lanes: Optional[str] = None
    lane_capacity: Optional[Fraction] = None


@dataclass(frozen=True)
class Road:
    """A road in one direction as a table has it. `line` is its row; `kilometres` and `lanes` are None where they aren't known."""
    line: int
    name: Optional[str]
    tail: str
    head: str
    minutes: Fraction
    capacity: Optional[Fraction]
    kilometres: Optional[Fraction] = None
    lanes: Optional[Fraction] = None

    def words(self) -> str:
        """What a message calls it."""
        return self.name or f"{self.tail}-{self.head}"


@dataclass(frozen=True)
class Roads:
    """The roads of a table, the closed ones apart, and the columns that were asked for."""
    file: str
    encoding: str
    open: Sequence[Road]
    closed: Sequence[Road]
    columns: Columns = Columns()

    def places(self) -> set[str]:
        """The names at both ends of all roads, closed ones too."""
        return {end for road in [*self.open, *self.closed] for end in (road.tail, road.head)}


Measure = Callable[[Row], Optional[Fraction]]


def length_of(sheet: Sheet, columns: Columns) -> Optional[Measure]:
    """How the kilometres of a row are read; None where no column has them."""
    if columns.length_m and columns.length_km:
        raise Refused("the length is in kilometres or in metres, not in both columns", file=sheet.file)
    if columns.length_m:
        metres = sheet.column(columns.length_m, option="--length-m")
        return lambda row: row.number(metres) / 1000
    if columns.length_km or sheet.has("length_km"):
        kilometres = sheet.column(columns.length_km, "length_km", option="--length-km")
        return lambda row: row.number(kilometres)
    return None


def minutes_of(sheet: Sheet, columns: Columns, length: Optional[Measure]) -> Measure:
    """How the minutes of a row are read: from their column, else from length and speed."""
    if columns.speed_kmh and columns.minutes:
        raise Refused("the time is given in minutes or by a speed, not by both columns", file=sheet.file)
    if columns.speed_kmh or not (columns.minutes or sheet.has("minutes", "time")) and sheet.has("speed_kmh"):
        if length is None:
            raise Refused("a speed needs a length: name its column by --length-km or --length-m", file=sheet.file, line=1)
        speed = sheet.column(columns.speed_kmh, "speed_kmh", option="--speed-kmh")
        measured = length

        def driven(row: Row) -> Fraction:
            if row.number(speed) == 0:
                raise row.fault(speed, "0 is no speed")
            return (measured(row) or Fraction(0)) * 60 / row.number(speed)
        return driven
    minutes = sheet.column(columns.minutes, "minutes", "time", option="--minutes")
    return lambda row: row.number(minutes)


def capacity_of(sheet: Sheet, columns: Columns, hourly: bool) -> Measure:
    """How the capacity of a row is read, in vehicles a minute: from its column, else from lanes."""
    if columns.lane_capacity is None and columns.lanes and not columns.capacity and not sheet.has("capacity"):
        raise Refused("lanes need the vehicles that a lane lets through in an hour: --lane-capacity 1800", file=sheet.file)
    if columns.lane_capacity is not None:
        if columns.capacity:
            raise Refused("the capacity is given by its column or by lanes, not by both", file=sheet.file)
        lanes, each = sheet.column(columns.lanes, "lanes", option="--lanes"), columns.lane_capacity
        return lambda row: row.number(lanes) * each / 60
    capacity = sheet.column(columns.capacity, "capacity", option="--capacity")

    def limit(row: Row) -> Optional[Fraction]:
        if row.text(capacity).lower() in ("", "inf"):
            return None
        return row.number(capacity) / (60 if hourly else 1)
    return limit


def read_roads(path: str, columns: Columns = Columns(), *, two_way: bool = False, hourly: bool = False) -> Roads:
    """The roads of a table (CSV; `-` is standard input). With `two_way` a row is a road with both directions; with `hourly` the column
    of capacities counts vehicles an hour. A capacity of 0 closes a road. Raises a Fault with file, row and column."""
    sheet = read_sheet(path)
    tail, head = sheet.column(columns.tail, "from", option="--from"), sheet.column(columns.head, "to", option="--to")
    name = sheet.column(columns.name, "name", option="--name") if columns.name or sheet.has("name") else None
    lanes = sheet.column(columns.lanes, "lanes", option="--lanes") if columns.lanes or sheet.has("lanes") else None
    length = length_of(sheet, columns)
    minutes, capacity = minutes_of(sheet, columns, length), capacity_of(sheet, columns, hourly)
    found: list[Road] = []
    for row in sheet.rows:
        for column in (tail, head):
            if not row.text(column):
                raise row.fault(column, "the cell is empty")
        road = Road(row.line, (name and row.text(name)) or None, row.text(tail), row.text(head), minutes(row) or Fraction(0), capacity(row),
                    length(row) if length else None, row.number(lanes) if lanes and row.text(lanes) else None)
        found += [road, reverse(road)] if two_way else [road]
    return Roads(sheet.file, sheet.encoding, [road for road in found if road.capacity != 0], [road for road in found if road.capacity == 0], columns)


def reverse(road: Road) -> Road:
    """The other direction of a road."""
    return replace(road, name=f"{road.name}_back" if road.name else None, tail=road.head, head=road.tail)


def distances(roads: Iterable[Road], starts: Sequence[str], forward: bool) -> dict[str, Fraction]:
    """The least minutes from one of some nodes to each node (forward), or from each node to one of them, on empty roads (Dijkstra)."""
    beside: dict[str, list[tuple[Fraction, str]]] = {}
    for road in roads:
        beside.setdefault(road.tail if forward else road.head, []).append((road.minutes, road.head if forward else road.tail))
    found: dict[str, Fraction] = {}
    queue = [(Fraction(0), node) for node in starts]
    while queue:
        so_far, node = heapq.heappop(queue)
        if node not in found:
            found[node] = so_far
            for minutes, further in beside.get(node, []):
                heapq.heappush(queue, (so_far + minutes, further))
    return found


@dataclass(frozen=True)
class Corridor:
    """The roads on routes from the origin to a destination, each with the least detour at which it is there; the others by the reason."""
    kept: Sequence[tuple[Fraction, Road]]
    left_out: Mapping[str, Sequence[Road]]


def corridor(roads: Sequence[Road], origin: str, goals: Sequence[str], detour: Optional[Fraction]) -> Corridor:
    """The roads on routes from the origin to a goal that take at most `detour` minutes longer than the quickest one, on empty roads."""
    out: dict[str, list[Road]] = {}
    useful: list[Road] = []
    for road in roads:
        reason = "they lead back to where they begin" if road.tail == road.head else \
            "they lead into the origin or out of a destination" if road.tail in goals or road.head == origin else None
        (out.setdefault(reason, []) if reason else useful).append(road)
    there, on = distances(useful, [origin], True), distances(useful, goals, False)
    if origin not in on:
        raise Refused(f"no route leads from {origin} to {' or '.join(goals)}", status=1)
    kept = []
    for road in useful:
        longer = there[road.tail] + road.minutes + on[road.head] - on[origin] if road.tail in there and road.head in on else None
        if longer is None:
            out.setdefault(f"no route from {origin} to {' or '.join(goals)} takes them", []).append(road)
        elif detour is not None and longer > detour:
            out.setdefault("each route with them takes longer than --detour allows", []).append(road)
        else:
            kept.append((longer, road))
    return Corridor(kept, out)
