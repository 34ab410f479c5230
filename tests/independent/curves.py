"""Curves: lists of points (time, value) whose times rise strictly from 0 (`IsCurve`).

MODEL.md, "Functions of time and curves"; LISTS.md, "Lists of curves". A function of time is given by its curve
(`HasCurve`). Each call takes the part of the work to which its operations belong.
"""

from .exact import ZERO


def slope(start, end, part):
    """The slope of the piece from one point to the next (`slope`; the list Slope)."""
    rise = part.difference(end[1], start[1])
    run = part.difference(end[0], start[0])
    return part.quotient(rise, run)


def slopes(points, part):
    """The slope of each piece, in order (`AreSlopes`)."""
    return [slope(start, end, part) for start, end in zip(points, points[1:])]


def on_line(start, end, time, part):
    """The value at a time on the line through two points (the list Line)."""
    rate = slope(start, end, part)
    past = part.difference(time, start[0])
    return part.sum(start[1], part.product(rate, past))


def inverse(start, end, level, part):
    """The time at which the line through two points has this value (the list Inverse)."""
    rate = slope(start, end, part)
    rise = part.difference(level, start[1])
    return part.sum(start[0], part.quotient(rise, rate))


def crossing(before, after, part):
    """The time at which two curves cross (the list Cross), given two triples of a time and both values there."""
    (start, left, right), (end, left_after, right_after) = before, after
    gap = part.difference(left, right)
    gap_after = part.difference(left_after, right_after)
    share = part.quotient(gap, part.difference(gap, gap_after))
    length = part.difference(end, start)
    return part.sum(start, part.product(share, length))


def count_until(points, time):
    """How many points have at most this time."""
    low, high = 0, len(points)
    while low < high:
        middle = (low + high) // 2
        if time < points[middle][0]:
            high = middle
        else:
            low = middle + 1
    return low


def value(points, time, part):
    """The curve's value at a time: linear between points, constant after the last (`value`; the list Value)."""
    after = count_until(points, time)
    here = points[after - 1]
    if here[0] == time or after == len(points):
        return here[1]
    return on_line(here, points[after], time, part)


def cut(points, end, part):
    """The points before a time, and one at that time (`IsCutOf`; the list Cut)."""
    at_end = value(points, end, part)
    return [point for point in points if point[0] < end] + [(end, at_end)]


def times(*curves):
    """The times of the points of some curves in rising order, each once (`both_times`)."""
    return sorted({time for points in curves for time, _ in points})


def sum_of(left, right, part):
    """The sum of two curves (`IsSumOf`; the list Sum)."""
    result = []
    for time in times(left, right):
        left_value = value(left, time, part)
        right_value = value(right, time, part)
        result.append((time, part.sum(left_value, right_value)))
    return result


def least_of(left, right, part):
    """The lesser of two curves at each time (`IsLeastOf`; the list Least), with a point wherever they cross."""
    result = []
    before = None
    for time in times(left, right):
        now = (time, value(left, time, part), value(right, time, part))
        if before is not None and cross(before, now):
            meeting = crossing(before, now, part)
            result.append((meeting, on_line(before[:2], now[:2], meeting, part)))
        result.append((time, min(now[1:])))
        before = now
    return result


def cross(before, now):
    """Whether the curve that was below the other before is above it now."""
    return (before[1] < before[2] and now[1] > now[2]) or (before[1] > before[2] and now[1] < now[2])


def composed(outer, inner, until, part):
    """The outer curve at the values of the inner one up to a time (`IsComposedOf`; the list Composed)."""
    points = cut(inner, until, part)
    result = []
    for start, end in zip(points, points[1:]):
        result.append((start[0], value(outer, start[1], part)))
        low, high = min(start[1], end[1]), max(start[1], end[1])
        between = [point for point in outer if low < point[0] < high]
        if start[1] > end[1]:
            between.reverse()
        for level, outer_value in between:
            result.append((inverse(start, end, level, part), outer_value))
    time, level = points[-1]
    result.append((time, value(outer, level, part)))
    return result


def short(points, part):
    """The same values in short form (`IsShort`, `IsShortOf`; the list Short): no inner point has equal slopes on both
    sides."""
    rates = slopes(points, part)
    last = len(points) - 1
    return [point for i, point in enumerate(points) if i in (0, last) or rates[i - 1] != rates[i]]


def first_difference(left, right, until, part):
    """The first corner at which two curves differ, up to a last time, with both values (`IsDifference`), or None.

    Corners (`IsCorner`) are 0, the last time, and each time between at which one of the curves turns (the list First
    difference).
    """
    for time in [t for t in times(left, right) if t < until] + [until]:
        left_value = value(left, time, part)
        right_value = value(right, time, part)
        if left_value == right_value:
            continue
        if time in (ZERO, until) or turns_at(left, time, part) or turns_at(right, time, part):
            return time, left_value, right_value
    return None


def turns_at(points, time, part):
    """Whether the slope changes at this time, which is above 0 (`TurnsAt`). After the last point the slope is 0."""
    i = next((i for i, point in enumerate(points) if point[0] == time), None)
    if i is None:
        return False
    before = slope(points[i - 1], points[i], part)
    after = slope(points[i], points[i + 1], part) if i + 1 < len(points) else ZERO
    return before != after


def constant(level):
    """The curve with one value at all times."""
    return [(ZERO, level)]


def identity(until):
    """The curve of the times from 0 to a last one themselves."""
    return [(ZERO, ZERO)] if until == ZERO else [(ZERO, ZERO), (until, until)]
