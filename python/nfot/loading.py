"""The law of the point queue: what waits at a link, and when it leaves, given what enters it."""
from __future__ import annotations

from bisect import bisect_left
from fractions import Fraction
from typing import Iterable, List, Mapping, Tuple

from .curves import Curve
from .drafts import Link
from .merging import Point, on_line, tidied

Piece = Tuple[Fraction, Fraction]  # (start, rate): the rate holds up to the start of the next piece
Row = Tuple[Fraction, Fraction, Fraction]  # (time, amount that has entered, amount that waits)
ZERO = Fraction(0)


class FedLink:
    """A link and the flow that enters it, known at each time from 0 on: the rate of the last piece holds for ever.

    Flow leaves the queue at the capacity, and then takes the transit time. `rows` has the times at which a rate changes or the queue
    runs empty; from the last one on, both amounts grow at constant rates.
    """

    def __init__(self, link: Link, pieces: Iterable[Piece]) -> None:
        self.link = link
        self.rows: List[Row] = [(ZERO, ZERO, ZERO)]
        self._rate = ZERO
        self._growth = self._queue_growth()
        for start, rate in pieces:
            if start:
                self._go_on(start)
            self._rate = rate
            self._growth = self._queue_growth()
        time, _, waits = self.rows[-1]
        if self._growth < 0:
            if waits:
                self._go_on(time - waits / self._growth)
            self._growth = ZERO

    def _queue_growth(self) -> Fraction:
        """The rate at which a queue grows now, below 0 where it shrinks."""
        return ZERO if self.link.capacity is None else self._rate - self.link.capacity

    def _go_on(self, until: Fraction) -> None:
        """Adds a row for a later time, and one before it where the queue runs empty."""
        time, entered, waits = self.rows[-1]
        length = until - time
        left = waits + self._growth * length if waits or self._growth.numerator > 0 else ZERO
        if left.numerator < 0:
            lasts = -waits / self._growth
            self.rows.append((time + lasts, entered + self._rate * lasts, ZERO))
            left = ZERO
        self.rows.append((until, entered + self._rate * length if self._rate else entered, left))

    @property
    def settled(self) -> Fraction:
        """The time from which on no rate changes."""
        return self.rows[-1][0]

    def row(self, time: Fraction) -> Row:
        """What has entered by a time, and what waits then."""
        place = bisect_left(self.rows, (time,))
        if place == len(self.rows):
            last, entered, waits = self.rows[-1]
            return time, entered + self._rate * (time - last), waits + self._growth * (time - last)
        after = self.rows[place]
        if after[0] == time:
            return after
        before = self.rows[place - 1]
        return time, on_line(before[:2], after[:2], time), on_line(before[::2], after[::2], time)

    def between(self, start: Fraction, until: Fraction) -> List[Row]:
        """The rows from one time to a later one, with both."""
        first, last = bisect_left(self.rows, (start,)), bisect_left(self.rows, (until,))
        inner = [row for row in self.rows[first:last] if row[0] > start]
        return [self.row(start), *inner, *([self.row(until)] if until > start else [])]

    def leaves(self, row: Row) -> Fraction:
        """When flow leaves the link that enters it at the time of a row."""
        time, _, waits = row
        passing = time + self.link.transit
        return passing + waits / self.link.capacity if waits and self.link.capacity else passing

    def time_spent(self) -> Fraction:
        """What all that enters up to the last change spends on the link, in amount times time."""
        waited = sum(((waits + later) * (end - time) / 2 for (time, _, waits), (end, _, later) in zip(self.rows, self.rows[1:])), ZERO)
        return waited + self.rows[-1][1] * self.link.transit

    # ---- curves

    def exits(self, start: Fraction, until: Fraction) -> Curve:
        """When flow leaves the link that enters it at a time, for times from `start` to `until`."""
        return made((row[0], self.leaves(row)) for row in self.between(start, until))

    def inflow(self, until: Fraction) -> Curve:
        """The amount that has entered the link by a time."""
        return made(tidied((time, entered) for time, entered, _ in self.between(ZERO, until)))

    def queue(self, until: Fraction) -> Curve:
        """The amount that waits at a time."""
        return made(tidied((time, waits) for time, _, waits in self.between(ZERO, until)))

    def outflow(self, until: Fraction) -> Curve:
        """The amount that has left the link by a time, until all has left that enters it up to `until`."""
        points: List[Point] = [(ZERO, ZERO)]
        for row in self.between(ZERO, until):
            point = self.leaves(row), row[1]
            if point[0] > points[-1][0]:
                points.append(point)
        return made(tidied(points))


def made(points: Iterable[Point]) -> Curve:
    """The curve of points whose times are known to rise."""
    known = list(points)
    return Curve._made(known, known[-1][0])


def pieces_of_changes(changes: Mapping[Fraction, Fraction]) -> List[Piece]:
    """The pieces (start, rate), given by how much the rate changes at each time."""
    pieces: List[Piece] = []
    rate = ZERO
    for start in sorted(changes):
        rate += changes[start]
        if rate != (pieces[-1][1] if pieces else ZERO):
            pieces.append((start, rate))
    return pieces
