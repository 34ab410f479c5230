"""Curves: piecewise linear functions of time, exact, with a known range."""
from __future__ import annotations

from bisect import bisect_left, bisect_right
from fractions import Fraction
from typing import Callable, Iterable, Iterator, List, Optional, Sequence, Tuple, Union

from .faults import OutOfRange, Refused
from .merging import Point, Row, clipped, composed, lesser, merged, on_line, slope_between, tidied
from .numbers import Number, Time, exact, pairs_of, short, time_of

ZERO = Fraction(0)


class Curve:
    """A function of time: straight between two points, constant after the last one, known from `start` to `until`.

    A curve never changes. Outside its known range each call raises OutOfRange. Two curves are equal where they are the same
    function on the same range, whatever points they were made of.

    >>> arrival = Curve([(0, 10), (20, 50), (60, 90)])
    >>> print(arrival(30), arrival.slope(30), arrival.until)
    60 1 60
    """

    __slots__ = ("_points", "_until", "_times")

    def __init__(self, points: Iterable[Tuple[Number, Number]], until: Optional[Number] = None) -> None:
        made = tuple((exact(time), exact(value)) for time, value in pairs_of(points, "points of a curve"))
        if not made:
            raise Refused("a curve has at least one point")
        for (before, _), (time, _) in zip(made, made[1:]):
            if time <= before:
                raise Refused(f"time {short(time)} comes after time {short(before)}: the times of a curve rise")
        end = made[-1][0] if until is None else exact(until)
        if end < made[-1][0]:
            raise Refused(f"the curve is known until {short(end)}, and its last point is at {short(made[-1][0])}")
        self._points, self._until, self._times = made, end, [time for time, _ in made]

    @classmethod
    def _made(cls, points: Sequence[Point], until: Fraction) -> "Curve":
        """A curve of points whose times rise and end by `until`, which nobody looks at again."""
        curve = cls.__new__(cls)
        curve._points, curve._until, curve._times = tuple(points), until, [time for time, _ in points]
        return curve

    @classmethod
    def of_rates(cls, pieces: Iterable[Tuple[Number, Number]], until: Number) -> "Curve":
        """The amount that has come by a time, from 0 to `until`, given pieces (start, rate); each rate holds up to the next start."""
        end, points, rate = exact(until), [(ZERO, ZERO)], ZERO
        for start, following in ((exact(start), exact(rate)) for start, rate in pairs_of(pieces, "pieces")):
            time, amount = points[-1]
            if start < time:
                raise Refused(f"start {short(start)} comes after start {short(time)}: the starts of pieces rise from 0 on")
            if start < end and start > time:
                points.append((start, amount + rate * (start - time)))
            rate = following if start < end else rate
        time, amount = points[-1]
        return cls._made(points + [(end, amount + rate * (end - time))] * (end > time), end)

    @property
    def points(self) -> Tuple[Point, ...]:
        """The points (time, value) by rising times."""
        return self._points

    @property
    def start(self) -> Fraction:
        """The first time that is known."""
        return self._times[0]

    @property
    def until(self) -> Fraction:
        """The last time that is known."""
        return self._until

    def __repr__(self) -> str:
        shown = [f"({short(time)}, {short(value)})" for time, value in self._points[:6]]
        more = [".."] if len(self._points) > 6 else []
        return f"Curve([{', '.join(shown + more)}], until={short(self._until)})"

    # ---- values

    def __call__(self, time: Time) -> Fraction:
        """The value at a time; OutOfRange outside the known range."""
        return self._value(self._known(time))

    def _known(self, time: Time) -> Fraction:
        """The time as a Fraction; OutOfRange outside the known range."""
        moment = time_of(time)
        if not self._times[0] <= moment <= self._until:
            raise OutOfRange(f"time {short(moment)} is outside of what is known: {short(self.start)} to {short(self.until)}")
        return moment

    def _value(self, time: Fraction) -> Fraction:
        """The value at a time of the known range."""
        at = bisect_right(self._times, time)
        t, v = self._points[at - 1]
        if at == len(self._points) or t == time:
            return v
        u, w = self._points[at]
        return on_line((t, v), (u, w), time)

    def slope(self, time: Time, side: str = "right") -> Fraction:
        """The slope right (or left) of a time; OutOfRange where nothing is known on that side."""
        moment = self._known(time)
        if side not in ("right", "left"):
            raise Refused(f"{side} is no side: right or left")
        if moment == (self._until if side == "right" else self.start):
            raise OutOfRange(f"nothing is known {side} of time {short(moment)}")
        at = bisect_right(self._times, moment)
        if side == "left" and self._times[at - 1] == moment:
            at -= 1
        if at == len(self._points):
            return ZERO
        return slope_between(self._points[at - 1], self._points[at])

    def at(self, times: Iterable[Time]) -> List[Fraction]:
        """The values at rising times, in one pass; OutOfRange outside the known range."""
        values, place = [], 0
        for moment in map(self._known, times):
            if moment < self._times[place]:
                place = bisect_right(self._times, moment) - 1
            while place + 1 < len(self._times) and self._times[place + 1] <= moment:
                place += 1
            (t, v), (u, w) = self._points[place], self._points[min(place + 1, len(self._points) - 1)]
            values.append(v if u == t or v == w else on_line((t, v), (u, w), moment))
        return values

    def sample(self, every: Time, start: Optional[Time] = None, stop: Optional[Time] = None) -> List[Point]:
        """Pairs (time, value) at `start`, and then each `every` up to `stop`; both ends are those of the known range if left out."""
        step, time = time_of(every), self.start if start is None else self._known(start)
        end = self._until if stop is None else self._known(stop)
        if step <= 0:
            raise Refused(f"{every} is no step: it is above 0")
        times = [time + step * number for number in range(int((end - time) / step) + 1)] if end >= time else []
        return list(zip(times, self.at(times)))

    def floats(self) -> Tuple[List[float], List[float]]:
        """Times and values of the points, up to the last time known, as floats for plotting."""
        points = self._ended()
        return [float(time) for time, _ in points], [float(value) for _, value in points]

    def pieces(self) -> Iterator[Tuple[Fraction, Fraction, Fraction, Fraction]]:
        """The straight pieces (from, to, value at from, slope) of the known range."""
        points = self._ended()
        for before, after in zip(points, points[1:]):
            yield before[0], after[0], before[1], slope_between(before, after)

    def _ended(self) -> List[Point]:
        """The points, with one at the last time known."""
        time, value = self._points[-1]
        return list(self._points) + [(self._until, value)] * (time < self._until)

    # ---- other curves

    def tidy(self) -> "Curve":
        """The same curve with the points at which it turns, and the first and last time known."""
        return Curve._made(tidied(self._ended()), self._until)

    def cut(self, until: Time) -> "Curve":
        """The curve up to a time of its known range."""
        end = self._known(until)
        kept = self._points[:bisect_right(self._times, end)]
        return Curve._made(kept if kept[-1][0] == end else kept + ((end, self._value(end)),), end)

    def __eq__(self, other: object) -> bool:
        if not isinstance(other, Curve):
            return NotImplemented
        return self._until == other._until and self.tidy()._points == other.tidy()._points

    def __hash__(self) -> int:
        return hash((self._until, self.tidy()._points))

    def _mapped(self, change: Callable[[Fraction], Fraction]) -> "Curve":
        """The curve whose values are changed, each by the same linear function."""
        return Curve._made([(time, change(value)) for time, value in self._points], self._until)

    def _between(self, start: Fraction, end: Fraction) -> List[Point]:
        """The points from one time to another one of the known range, with both."""
        points = list(self._points[bisect_left(self._times, start):bisect_right(self._times, end)])
        if not points or points[0][0] > start:
            points.insert(0, (start, self._value(start)))
        return points if points[-1][0] == end else [*points, (end, self._value(end))]

    def _common(self, other: "Curve") -> Tuple[List[Point], List[Point]]:
        """The points of both curves in the range that both know."""
        start, end = max(self.start, other.start), min(self._until, other._until)
        if start > end:
            raise OutOfRange(f"one curve is known until {short(end)}, the other one from {short(start)} on")
        return self._between(start, end), other._between(start, end)

    def _merged(self, other: "Curve") -> List[Row]:
        """The times of both curves in the range that both know, with both values."""
        return list(merged(*self._common(other)))

    def _joined(self, other: Union["Curve", Number], join: Callable[[Fraction, Fraction], Fraction]) -> "Curve":
        """Both curves joined value by value, by a linear function."""
        if not isinstance(other, Curve):
            number = exact(other)
            return self._mapped(lambda value: join(value, number))
        rows = self._merged(other)
        return Curve._made([(time, join(here, there)) for time, here, there in rows], rows[-1][0])

    def __add__(self, other: Union["Curve", Number]) -> "Curve":
        return self._joined(other, lambda here, there: here + there)

    def __sub__(self, other: Union["Curve", Number]) -> "Curve":
        return self._joined(other, lambda here, there: here - there)

    def __mul__(self, factor: Number) -> "Curve":
        number = exact(factor)
        return self._mapped(lambda value: value * number)

    def least(self, other: "Curve") -> "Curve":
        """The lesser of both curves at each time that both know."""
        points = list(lesser(*self._common(other)))
        return Curve._made(points, points[-1][0])

    def then(self, outer: "Curve") -> "Curve":
        """The curve that has outer(self(t)) at t, where self(t) is known of outer; this curve never falls."""
        inner, reach = self._ended(), outer._until
        if inner[-1][1] < outer.start or inner[0][1] > reach:
            known = f"{short(outer.start)} to {short(reach)}"
            raise OutOfRange(f"values {short(inner[0][1])} to {short(inner[-1][1])} are outside of what is known: {known}")
        falls = [t for (t, v), (_, w) in zip(inner, inner[1:]) if w < v]
        if falls:
            raise Refused(f"the curve falls after time {short(falls[0])}: only one that never falls is put into another one")
        points = list(composed(clipped(inner, outer.start, reach), outer._ended()))
        return Curve._made(points, points[-1][0])

    # ---- numbers of a curve

    def integral(self, a: Optional[Time] = None, b: Optional[Time] = None) -> Fraction:
        """The area under the curve from a to b; both ends are those of the known range if left out."""
        begin, end = self.start if a is None else self._known(a), self._until if b is None else self._known(b)
        times = [begin, *(time for time in self._times if begin < time < end), end]
        values = self.at(times)
        pieces = zip(times, values, times[1:], values[1:])
        return sum(((v + w) * (u - t) / 2 for t, v, u, w in pieces), ZERO)

    def greatest(self) -> Point:
        """The greatest value, as (first time that has it, value)."""
        return max(self._points, key=lambda point: (point[1], -point[0]))

    def least_value(self) -> Point:
        """The least value, as (first time that has it, value)."""
        return min(self._points, key=lambda point: (point[1], point[0]))

    def differences(self, other: "Curve") -> List[Tuple[Fraction, Fraction, Fraction]]:
        """The corners of both curves at which they differ, as (time, value here, value there), in the range that both know."""
        return [(time, here, there) for time, here, there in self._merged(other) if here != there]
