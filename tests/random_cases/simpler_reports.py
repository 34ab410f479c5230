"""Reports that are simpler than a given one: shorter, with fewer points or with smaller numbers, told rates always being the slopes."""
from fractions import Fraction

from .numerals import printed
from .piecewise import value_at
from .reports import read_report


def read_exactly(text):
    """The report of a text, or None where writing it again gives another text."""
    try:
        report = read_report(text)
        return report if report.text() == text else None
    except (ValueError, IndexError, ZeroDivisionError):
        return None


def cut_at(report, time):
    """The report up to an earlier departure, to which it has come."""
    shorter = report.copy()
    shorter.horizon, shorter.reached, shorter.cause = time, time, "done"
    for key, points in report.curves.items():
        if key[0] == "label":
            end = [(time, value_at(points, time))] if time > 0 else []
            shorter.curves[key] = [point for point in points if point[0] < time] + end or points[:1]
    return shorter


def without_point(report, key, place):
    """The report without a point of a curve."""
    fewer = report.copy()
    del fewer.curves[key][place]
    return fewer


def with_number(report, key, place, column, number):
    """The report with another time or value of a point, if times still rise."""
    points = list(report.curves[key])
    point = list(points[place])
    point[column] = number
    points[place] = tuple(point)
    if any(end <= start for (start, _), (end, _) in zip(points, points[1:])):
        return None
    other = report.copy()
    other.curves[key] = points
    return other


def simpler(report):
    """Simpler reports, those first that take most away."""
    times = [Fraction(0), Fraction(1), Fraction(2)] + report.event_times()
    yield from (cut_at(report, time) for time in sorted(set(times)) if time < report.reached)
    for key, points in report.curves.items():
        yield from (without_point(report, key, place) for place in range(len(points) - 1, 0, -1))
    for key, points in report.curves.items():
        for place, point in enumerate(points):
            for column in ((0, 1) if place else (1,)):
                yield from with_smaller_numbers(report, key, place, column, point[column])


def with_smaller_numbers(report, key, place, column, number):
    """The report with a shorter number in a place."""
    for smaller in (Fraction(0), Fraction(1), Fraction(2), Fraction(1, 2), Fraction(int(number))):
        if len(printed(smaller)) < len(printed(number)):
            changed = with_number(report, key, place, column, smaller)
            if changed is not None:
                yield changed
