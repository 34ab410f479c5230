"""Demand: rates of the supply from counts per interval, or from words as `7:30:400`. Times are minutes from the beginning of the run."""
from __future__ import annotations

from dataclasses import dataclass
from fractions import Fraction
from typing import Optional, Sequence

from .faults import Refused
from .numbers import Time, parse, short, time_of
from .sheets import Row, Sheet, read_sheet

DAY = 1440  # minutes
STARTS, COUNTS = ("start", "time", "from", "begin"), ("count", "counts", "vehicles", "volume", "demand")


@dataclass(frozen=True)
class Demand:
    """Pieces of a supply: starts in minutes, rates in vehicles a minute. `begin` is the time of day of minute 0, None where it isn't known."""
    pieces: Sequence[tuple[Fraction, Fraction]]
    begin: Optional[Fraction] = None

    def vehicles(self) -> Optional[Fraction]:
        """How many vehicles are supplied; None where the last rate lasts for ever."""
        if self.pieces and self.pieces[-1][1]:
            return None
        return sum((rate * (end - start) for (start, rate), (end, _) in zip(self.pieces, self.pieces[1:])), Fraction(0))


def minutes_at(word: str, begin: Optional[Fraction]) -> Fraction:
    """A time: minutes as they are, and a time of day as `7:30` from the beginning of the run on, where that is known."""
    found = parse(word)
    return found - begin if ":" in word and begin is not None else found


def demand_of_words(words: Sequence[str], begin: Optional[Fraction] = None) -> Demand:
    """The supply of words START:RATE, as `0:200 30:400` or, with a time of day for minute 0, `6:30:400`. The starts have to rise."""
    pieces: list[tuple[Fraction, Fraction]] = []
    for word in words:
        start, colon, rate = word.rpartition(":")
        if not colon or not start:
            raise Refused(f"{word} is no START:RATE, as 30:400")
        pieces.append((minutes_at(start, begin), parse(rate)))
        if min(pieces[-1]) < 0:
            raise Refused(f"{word}: {'the start is before minute 0' if pieces[-1][0] < 0 else 'the rate is below 0'}")
        if len(pieces) > 1 and pieces[-1][0] <= pieces[-2][0]:
            raise Refused(f"{word}: the start isn't after the one before; starts have to rise")
    return Demand(tuple(pieces), begin)


def read_demand(path: str, each: Time, begin: Optional[Fraction] = None, start: Optional[str] = None, count: Optional[str] = None) -> Demand:
    """The supply of a table of counts, one row for each interval of `each` minutes: the rate is the count divided by `each`.

    `start` and `count` name the columns. Without a column of starts the first interval begins at minute 0 and each follows the one before.
    Starts are minutes, or times of day; then minute 0 is `begin`, else the first start. Raises a Fault with file, row and column."""
    each = time_of(each)
    if each <= 0:
        raise Refused(f"--each {short(each)}: an interval is longer than 0 minutes")
    sheet = read_sheet(path)
    counts, starts = columns_of(sheet, start, count)
    pieces: list[tuple[Fraction, Fraction]] = []
    for row in sheet.rows:
        due = pieces[-1][0] + each if pieces else None
        at = due if due is not None else Fraction(0)
        if starts is not None:
            at, begin = start_of(row, starts, begin, pieces[-1][0] if pieces else None)
            if due is not None and at != due:
                raise row.fault(starts, f"{row.text(starts)} is {short(at - pieces[-1][0])} minutes after the row before, and an interval has {short(each)}: "
                                f"write a row for each interval, with the count 0 where nobody leaves")
        pieces.append((at, row.number(counts) / each))
    pieces.append((pieces[-1][0] + each, Fraction(0)))
    return Demand(merged(pieces), begin)


def columns_of(sheet: Sheet, start: Optional[str], count: Optional[str]) -> tuple[str, Optional[str]]:
    """The column of counts, and that of starts if there is one."""
    if not count and not sheet.has(*COUNTS) and len(sheet.columns) <= 2:
        return sheet.columns[-1], sheet.column(start or sheet.columns[0], option="--start") if len(sheet.columns) == 2 else None
    counts = sheet.column(count, *COUNTS, option="--count")
    return counts, sheet.column(start, *STARTS, option="--start") if start or sheet.has(*STARTS) else None


def start_of(row: Row, column: str, begin: Optional[Fraction], before: Optional[Fraction]) -> tuple[Fraction, Optional[Fraction]]:
    """The minute at which a row begins, and the time of day of minute 0 (that of the first row, where nothing else is known).

    `before` is the minute of the row before; a time of day that is earlier is one of the next day."""
    word, plain = row.text(column), row.with_point(column)
    try:
        time = parse(plain)
    except Refused as fault:
        raise row.fault(column, fault.why) from None
    if ":" not in word:
        minute = time
    elif begin is None:
        if time >= DAY:
            raise row.fault(column, f"{word} is no time of day: a day begins at 0:00 and ends before 24:00")
        minute, begin = Fraction(0), time
    else:
        minute = time - begin
        minute += DAY if before is not None and minute <= before else 0
    if minute < 0:
        raise row.fault(column, f"{word} is before minute 0")
    return minute, begin


def merged(pieces: Sequence[tuple[Fraction, Fraction]]) -> tuple[tuple[Fraction, Fraction], ...]:
    """The pieces without those that go on at the rate before, and without a rate 0 at the beginning."""
    found: list[tuple[Fraction, Fraction]] = []
    for start, rate in pieces:
        if rate != (found[-1][1] if found else 0):
            found.append((start, rate))
    return tuple(found)
