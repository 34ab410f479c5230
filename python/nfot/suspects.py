"""What looks wrong in a table of roads though it can be read: a road that stands there twice, and units that nobody means."""
from __future__ import annotations

from fractions import Fraction
from typing import Callable, Optional, Sequence

from .roads import Columns, Road
from .rounding import readable

LISTED = 12  # how many notes of a kind are given
LANE, ROAD, ROUTE, DAY = 100, Fraction(1, 20), Fraction(1, 10), 1440  # vehicles an hour, minutes
SLOWEST, FASTEST, GREATEST = 1, 300, 300  # km/h, km/h, vehicles a minute


def same_roads(roads: Sequence[Road], file: str) -> list[str]:
    """A line for each road that several rows have: with the same ends and name, or without a name with the same ends and numbers."""
    rows: dict[object, list[int]] = {}
    words: dict[object, str] = {}
    for road in roads:
        name = road.name and (road.name[:-5] if road.name.endswith("_back") else road.name)
        key = (road.tail, road.head, name) if name else (road.tail, road.head, road.minutes, road.capacity)
        rows.setdefault(key, []).append(road.line)
        words.setdefault(key, road.words())
    named = {tuple(lines): words[key] for key, lines in reversed(rows.items()) if len(lines) > 1}
    found = [f"lines {', '.join(map(str, lines[:-1]))} and {lines[-1]} of {file} are the same road, {name}: it is kept "
             f"{'twice' if len(lines) == 2 else f'{len(lines)} times'}; delete one if it is a copy" for lines, name in sorted(named.items())]
    return found[:LISTED] + [f"{len(found) - LISTED} more roads stand in several lines"] * (len(found) > LISTED)


def odd_units(roads: Sequence[Road], columns: Columns, quickest: Fraction, hourly: bool) -> list[str]:
    """Lines on numbers that seem to have another unit than the option says: one on capacities, one on times."""
    found = []
    capacities = [road.capacity for road in roads if road.capacity is not None]
    if columns.lane_capacity is not None and columns.lane_capacity < LANE:
        found.append(f"--lane-capacity {readable(columns.lane_capacity)} counts vehicles an hour, and a lane lets some 1800 through: "
                     f"vehicles a minute may be meant, as --lane-capacity {readable(columns.lane_capacity * 60)}")
    elif not hourly and capacities and min(capacities) >= GREATEST:
        found.append(f"each road lets {readable(min(capacities))} vehicles a minute through or more: vehicles an hour may be meant, by --hourly")
    return found + [note for note in [odd_time(roads, columns, quickest)] if note]


def odd_time(roads: Sequence[Road], columns: Columns, quickest: Fraction) -> Optional[str]:
    """The line on speeds or times that nobody drives; None where all are usual."""
    def with_minutes(odd: Callable[[Fraction], bool]) -> list[Road]:
        return [road for road in roads if road.minutes and odd(road.minutes)]
    fast, slow = with_speed(roads, lambda speed: speed > FASTEST), with_speed(roads, lambda speed: speed < SLOWEST)
    short = with_minutes(lambda minutes: minutes < ROAD)
    if fast or slow:
        return odd_speed(fast or slow, columns)
    if quickest < ROUTE or short:
        what = "the quickest route" if quickest < ROUTE else short[0].words()
        minutes = quickest if quickest < ROUTE else short[0].minutes
        return f"{what} takes {readable(minutes)} minutes: {too_short(columns)}"
    if quickest > DAY:
        return f"the quickest route takes {readable(quickest)} minutes: {too_long(columns)}"
    return None


def with_speed(roads: Sequence[Road], odd: Callable[[Fraction], bool]) -> list[Road]:
    """The roads of which length and time are known, whose speed in km/h is an odd one."""
    return [road for road in roads if road.kilometres and road.minutes and odd(road.kilometres * 60 / road.minutes)]


def odd_speed(roads: Sequence[Road], columns: Columns) -> str:
    """The line on roads whose speed is too high or too low."""
    road = roads[0]
    speed = (road.kilometres or Fraction(0)) * 60 / road.minutes
    begin = f"{len(roads)} road{'s have speeds' if len(roads) > 1 else ' has a speed'} as {road.words()}, {readable(speed)} km/h: "
    fast = speed > FASTEST
    if columns.minutes or not columns.speed_kmh:
        return begin + (f"--minutes takes minutes, and {'hours' if fast else 'seconds'} may be meant, or the lengths have another unit")
    return begin + f"--speed-kmh takes kilometres an hour, and {'metres' if fast else 'kilometres'} a minute may be meant"


def too_short(columns: Columns) -> str:
    """What may be meant where times are too short."""
    if columns.length_m:
        return "--length-m takes metres, and kilometres may be meant, by --length-km"
    return "--length-km takes kilometres, and another unit may be meant" if columns.length_km else "--minutes takes minutes, and hours may be meant"


def too_long(columns: Columns) -> str:
    """What may be meant where times are too long."""
    return "--length-km takes kilometres, and metres may be meant, by --length-m" if columns.length_km else "--minutes takes minutes, and seconds may be meant"
