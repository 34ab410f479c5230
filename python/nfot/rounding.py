"""Rounding to multiples of one unit, so that the numbers of a run stay short; the greatest change is known and limited."""
from __future__ import annotations

from fractions import Fraction
from itertools import takewhile
from math import gcd, lcm
from typing import Iterable, Iterator, Optional, Sequence

from .faults import Refused
from .numbers import short

MOST = Fraction(20)  # percent: a greater change is refused unless it is asked for


class Rounding:
    """Rounds amounts to the nearest multiple of a unit, at least one unit. `what` names them, as "capacities"; `most` is in percent.

    `option` and `allow` begin what a message tells the user to write: for the unit, and for a greater change."""

    def __init__(self, what: str, unit: Fraction, option: str, most: Fraction = MOST, allow: str = "--most-change ") -> None:
        if unit <= 0:
            raise Refused(f"{option}{short(unit)}: the unit has to be above 0")
        self.what, self.unit, self.option, self.most, self.allow = what, unit, option, most, allow
        self.greatest = Fraction(0)  # change in percent
        self.where = ""
        self.least: Optional[Fraction] = None  # the smallest amount above 0
        self.zeros = 0  # how many amounts of 0 were raised to the unit

    def __call__(self, amount: Fraction, where: str) -> Fraction:
        """The rounded amount; `where` says whose it is, for the message."""
        found = max(1, round(amount / self.unit)) * self.unit
        if amount == 0:
            self.zeros += 1
            return found
        self.least = amount if self.least is None else min(self.least, amount)
        change = abs(found - amount) / amount * 100
        if change > self.greatest:
            self.greatest, self.where = change, f"{where}: {readable(amount)} becomes {readable(found)}"
        return found

    def refuse(self) -> None:
        """Raises a Fault where the greatest change is above the limit; the line says which unit fits."""
        if self.greatest > self.most and self.least is not None:
            fits = round_number(self.least * 2 * self.most / 100)
            raise Refused(f"{self.what} change by up to {percent(self.greatest)} ({self.where}): take {self.option}{short(fits)}, "
                          f"or allow it with {self.allow}{-(-self.greatest // 1)}")

    def note(self, unit_words: str) -> str:
        """The line that tells what was rounded, and by how much at most."""
        if self.greatest == 0:
            return f"{self.what} are multiples of {short(self.unit)} {unit_words}; none changed"
        return f"{self.what} are rounded to multiples of {short(self.unit)} {unit_words}; the greatest change is {percent(self.greatest)} ({self.where})"


def readable(amount: Fraction) -> str:
    """At most four digits behind the point, as a message shows a number.

    >>> readable(Fraction(122, 3)), readable(Fraction(5, 2))
    ('40.6667', '2.5')
    """
    digits = f"{float(amount):.4f}".rstrip("0").rstrip(".")
    return digits if digits != "0" or not amount else f"{float(amount):.2g}"


def percent(change: Fraction) -> str:
    """A change for a message: one digit behind the point, never 0 for a change."""
    return f"{float(change):.1f} %" if change >= Fraction(1, 20) or not change else "less than 0.1 %"


def round_number(most: Fraction, digits: Sequence[int] = (1, 2, 5)) -> Fraction:
    """The greatest number 1, 2 or 5 times a power of ten that is at most this one (above 0).

    >>> round_number(Fraction(8)), round_number(Fraction(1, 30))
    (Fraction(5, 1), Fraction(1, 50))
    """
    power = Fraction(1)
    while power > most:
        power /= 10
    while power * 10 <= most:
        power *= 10
    return max(power * digit for digit in digits if power * digit <= most)


def unit_for(amounts: Iterable[Fraction], share: Fraction, greatest: Optional[Fraction] = None, digits: Sequence[int] = (1, 2, 5),
             finer: int = 10) -> Fraction:
    """The round number, of these digits, that is at most this share of the smallest amount above 0, and at most `greatest`.

    Where it would change an amount, and all are multiples of another round number, at most so many times finer: that one.

    >>> unit_for(map(Fraction, (60, 25, 20)), Fraction(1, 10)), unit_for(map(Fraction, (61, 25, 20)), Fraction(1, 10))
    (Fraction(5, 1), Fraction(1, 1))
    >>> unit_for([Fraction(20), Fraction(207, 10000)], Fraction(1, 10))
    Fraction(1, 500)
    """
    given = [amount for amount in amounts if amount > 0]
    unit = unit_of_least(given, share, greatest, digits)
    return unit if divides(unit, given) else unit_of_all(given, unit / finer, digits) or unit


def unit_of_least(amounts: Sequence[Fraction], share: Fraction, greatest: Optional[Fraction], digits: Sequence[int]) -> Fraction:
    """The round number, of these digits, that is at most this share of the least amount, and at most `greatest`; of no amounts at most 1."""
    most = min((amount * share for amount in amounts), default=Fraction(1))
    return round_number(most if greatest is None else min(most, greatest), digits)


def divides(unit: Fraction, amounts: Iterable[Fraction]) -> bool:
    """Whether all amounts are multiples of the unit."""
    return all((amount / unit).denominator == 1 for amount in amounts)


def unit_of_all(amounts: Sequence[Fraction], least: Fraction, digits: Sequence[int]) -> Optional[Fraction]:
    """The greatest round number, of these digits, of which all amounts (above 0) are multiples; None where it is below `least`."""
    common = Fraction(gcd(*(amount.numerator for amount in amounts)), lcm(*(amount.denominator for amount in amounts)))
    tried = takewhile(lambda unit: unit >= least, round_numbers(common, digits))
    return next((unit for unit in tried if divides(unit, [common])), None)


def round_numbers(most: Fraction, digits: Sequence[int]) -> Iterator[Fraction]:
    """The round numbers, of these digits, that are at most this one (above 0), from the greatest on, without end."""
    while True:
        unit = round_number(most, digits)
        yield unit
        most = unit * Fraction(9, 10)
