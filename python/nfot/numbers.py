"""Numbers: exact fractions, their words, and times of day."""
from __future__ import annotations

import numbers
import re
from decimal import Decimal
from fractions import Fraction
from math import gcd
from typing import Iterable, List, Optional, Tuple, TypeVar, Union

from .faults import Refused

First = TypeVar("First")
Second = TypeVar("Second")

Number = Union[int, Fraction, Decimal, str]  # what a network or a report takes
Time = Union[int, float, Fraction, Decimal, str]  # what the calls of a curve take; a float exactly as it is

BOUND = 2 ** 127 - 1  # the greatest numerator and denominator of a number in a file
LONGEST_WORD = 400  # characters; longer words are no numbers
LONGEST_PRINTED = 80  # characters of a printed number within the bound: two times 39 digits, a minus and a slash

_DECIMAL = re.compile(r"[+-]?(?:\d+(?:\.\d*)?|\.\d+)(?:[eE][+-]?\d{1,3})?", re.ASCII)
_FRACTION = re.compile(r"[+-]?\d+/0*[1-9]\d*", re.ASCII)
_OVER_ZERO = re.compile(r"[+-]?\d+/0+", re.ASCII)
_THOUSANDS = re.compile(r"[+-]?\d+,\d{3}", re.ASCII)
_CLOCK = re.compile(r"(\d{1,3}):([0-5]\d)(?::([0-5]\d))?", re.ASCII)
_PRINTED = re.compile(r"0|-?[1-9]\d*(?:/[1-9]\d*)?", re.ASCII)
_FILE_FRACTION = re.compile(r"(-?)(\d+)(?:/(\d+))?", re.ASCII)
_FILE_DECIMAL = re.compile(r"(-?)(\d+)\.(\d+)", re.ASCII)


def exact(value: object) -> Fraction:
    """The value as a Fraction: of an int, a Fraction, a Decimal, or a text as "7/2", "3.5" or "1e6".

    A float is refused, since it is mostly a rounded number. So is anything else that is no number.
    """
    if type(value) is Fraction:
        return value
    if isinstance(value, numbers.Rational):
        return Fraction(int(value.numerator), int(value.denominator))
    if isinstance(value, numbers.Real) and not isinstance(value, Decimal):
        raise Refused(f"{value} is a float: round it and write it as a text, as Fraction('{float(value):.4g}')")
    found = _of_word(value)
    if found is None:
        raise Refused(f"{value!s:.60} is no number: {hint(str(value), '5/2 or 2.5')}")
    return found


def _of_word(value: object) -> Optional[Fraction]:
    """The number of a Decimal or a text; None for all else."""
    if isinstance(value, Decimal) and value.is_finite():
        return Fraction(value)
    if isinstance(value, str) and len(value) <= LONGEST_WORD:
        word = value.strip()
        if _DECIMAL.fullmatch(word) or _FRACTION.fullmatch(word):
            return Fraction(word)
    return None


def hint(word: str, forms: str = "5/2") -> str:
    """What to do about a word that isn't taken as a number: its own number as a fraction, where it has one; `forms` are taken.

    A comma before three digits may part thousands, so such a word has no number."""
    value = _of_word(word if _THOUSANDS.fullmatch(word) else word.replace(",", "."))
    if value is not None:
        return f"write {value}" if within(value) else "its numerator or denominator exceeds 2^127 - 1"
    return "its denominator is 0" if _OVER_ZERO.fullmatch(word) else f"a number is written like {forms}"


def time_of(value: object) -> Fraction:
    """The value as a Fraction, as `exact` has it; a float is taken exactly as it is."""
    if isinstance(value, numbers.Real) and not isinstance(value, numbers.Rational):
        number = float(value)
        if number - number != 0:
            raise Refused(f"{value} is no time")
        return Fraction(number)
    return exact(value)


def pairs_of(given: Iterable[Tuple[First, Second]], what: str) -> List[Tuple[First, Second]]:
    """The pairs of points or pieces; Refused where `given` isn't made of pairs. `what` names it."""
    try:
        return [(first, second) for first, second in given]
    except (TypeError, ValueError):
        raise Refused(f"{what}: pairs are needed, as [(0, 4), (60, 0)], not {given!r:.60}") from None


def parse(word: Number) -> Fraction:
    """The number of a word of the command line: "2.5", "7/2", "1e6", or a time of day "7:30" in minutes. Else as `exact`."""
    day = _CLOCK.fullmatch(word.strip()) if isinstance(word, str) else None
    if day:
        return Fraction(int(day[1]) * 60 + int(day[2])) + Fraction(int(day[3] or 0), 60)
    return exact(word)


def within(number: Fraction) -> bool:
    """Whether both parts of the number are within the bound of files."""
    return abs(number.numerator) <= BOUND and number.denominator <= BOUND


def printed(word: str) -> Optional[Fraction]:
    """The number of which the word is the printed form (lowest terms, no slash before a 1); None for another word."""
    if not _PRINTED.fullmatch(word) or len(word) > LONGEST_PRINTED:
        return None
    above, slash, below = word.partition("/")
    numerator, denominator = int(above), int(below) if slash else 1
    if abs(numerator) > BOUND or denominator > BOUND or (slash and (denominator == 1 or gcd(numerator, denominator) > 1)):
        return None
    return Fraction(numerator, denominator) if slash else Fraction(numerator)


def file_number(word: str, decimals: bool) -> Optional[Fraction]:
    """The number of a word of a file, `a` or `a/b`, or with decimals also `a.b`; None for another word."""
    parts = _FILE_FRACTION.fullmatch(word)
    if parts:
        above, below = int(parts[2]), int(parts[3] or 1)
    else:
        parts = _FILE_DECIMAL.fullmatch(word) if decimals else None
        if not parts:
            return None
        above, below = int(parts[2] + parts[3]), 10 ** len(parts[3])
    if above > BOUND or not 0 < below <= BOUND:
        return None
    return Fraction(-above if parts[1] else above, below)


def short(value: Time) -> str:
    """The number as a decimal where six digits behind the point are exact, else as a fraction."""
    value = time_of(value)
    scaled = value * 10 ** 6
    if scaled.denominator != 1 or value.denominator == 1:
        return str(value)
    whole, rest = divmod(abs(scaled.numerator), 10 ** 6)
    return f"{'-' * (value < 0)}{whole}.{rest:06}".rstrip("0")


def decimal(value: Fraction, digits: int = 2) -> str:
    """The number rounded to so many digits behind the point, halves away from 0."""
    scale = 10 ** digits
    scaled = (abs(value) * scale * 2 + 1) // 2
    sign = "-" if value < 0 and scaled else ""
    whole, rest = divmod(scaled, scale)
    return f"{sign}{whole}.{rest:0{digits}}" if digits else f"{sign}{whole}"


def clock(minutes: Time, start: Time) -> str:
    """The time of day `minutes` after `start` (in minutes after midnight, or as "6:00"), as 07:30; with seconds where it isn't a whole minute.

    Seconds are rounded. Hours go on after 24: 25:10 is ten past one on the next day.
    """
    minutes, start = time_of(minutes), parse(start) if isinstance(start, str) else time_of(start)
    seconds = round((start + minutes) * 60)
    sign, seconds = ("-", -seconds) if seconds < 0 else ("", seconds)
    hours, rest = divmod(seconds, 3600)
    text = f"{sign}{hours:02}:{rest // 60:02}"
    return text if (start + minutes).denominator == 1 else f"{text}:{rest % 60:02}"
