"""Curves as lists of points (time, value): straight between points, constant after the last one.

These are the definitions of the model for a link and for earliest arrivals; generators use them to make flows that are true in part.
"""
from fractions import Fraction


def value_at(points, time):
    """The value of a curve at a time from its first point on."""
    for (t0, v0), (t1, v1) in zip(points, points[1:]):
        if time <= t1:
            return v0 + (v1 - v0) * (time - t0) / (t1 - t0)
    return points[-1][1]


def shortened(points):
    """The points without those at which the curve doesn't turn."""
    kept = points[:1]
    for point, after in zip(points[1:], points[2:]):
        (t0, v0), (t1, v1), (t2, v2) = kept[-1], point, after
        if (v1 - v0) * (t2 - t1) != (v2 - v1) * (t1 - t0):
            kept.append(point)
    return kept + points[1:][-1:]


def composed(outer, inner):
    """The curve t -> outer(inner(t)), for an inner one that never falls."""
    times = {time for time, _ in inner}
    for (t0, v0), (t1, v1) in zip(inner, inner[1:]):
        times |= {t0 + (value - v0) * (t1 - t0) / (v1 - v0) for value, _ in outer if v0 < value < v1}
    return shortened([(time, value_at(outer, value_at(inner, time))) for time in sorted(times)])


def least(left, right):
    """The lesser of two curves of one range."""
    times = sorted({time for time, _ in left} | {time for time, _ in right})
    gaps = [(time, value_at(left, time) - value_at(right, time)) for time in times]
    crossings = [t0 + (t1 - t0) * g0 / (g0 - g1) for (t0, g0), (t1, g1) in zip(gaps, gaps[1:]) if g0 * g1 < 0]
    return shortened([(time, min(value_at(left, time), value_at(right, time))) for time in sorted(times + crossings)])


def added(left, right):
    """The sum of two curves."""
    times = sorted({time for time, _ in left} | {time for time, _ in right})
    return shortened([(time, value_at(left, time) + value_at(right, time)) for time in times])


def mean(left, right, weight):
    """The curve between two, with this weight of the left one."""
    times = sorted({time for time, _ in left} | {time for time, _ in right})
    return shortened([(time, value_at(left, time) * weight + value_at(right, time) * (1 - weight)) for time in times])


def cumulative(pieces, until):
    """The amount that pieces (start, rate) have brought by each time up to a last one."""
    points, rate = [(Fraction(0), Fraction(0))], Fraction(0)
    for start, next_rate in [piece for piece in pieces if piece[0] < until] + [(until, None)]:
        time, amount = points[-1]
        if start > time:
            points.append((start, amount + rate * (start - time)))
        rate = next_rate
    return shortened(points)


def queue_of(inflow, capacity, until):
    """The queue before a link: it grows at the inflow's rate less the capacity, and never falls below 0."""
    if capacity is None:
        return [(Fraction(0), Fraction(0)), (until, Fraction(0))]
    points = [(Fraction(0), Fraction(0))]
    corners = [time for time, _ in inflow if 0 < time < until] + [until]
    for time in corners:
        start, queue = points[-1]
        growth = value_at(inflow, time) - value_at(inflow, start) - capacity * (time - start)
        if queue > 0 and queue + growth < 0:
            points.append((start + queue * (time - start) / -growth, Fraction(0)))
        points.append((time, max(Fraction(0), queue + growth)))
    return shortened(points)


def exit_of(queue, inflow, link, until):
    """When what enters the link at a time leaves it."""
    times = sorted({time for time, _ in queue} | {time for time, _ in inflow if time < until})
    wait = (lambda time: Fraction(0)) if link.capacity is None else (lambda time: value_at(queue, time) / link.capacity)
    return shortened([(time, time + wait(time) + link.transit) for time in times])


def outflow_of(exits, inflow):
    """The amount that has left a link by a time: what entered by the moment whose exit that time is."""
    points = {Fraction(0): Fraction(0)}
    times = sorted({time for time, _ in exits} | {time for time, _ in inflow if time <= exits[-1][0]})
    for time in times:
        points[value_at(exits, time)] = value_at(inflow, time)
    return shortened(sorted(points.items()))
