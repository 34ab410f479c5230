"""The cause of a report: why its run ended, with the rules P6, P8 and P9."""
from __future__ import annotations

from fractions import Fraction
from typing import Sequence

from .lines import broken
from .numbers import printed

COUNTS = {"done": 1, "phases": 2, "patterns": 3, "passed": 7, "nopattern": 2}
PARTS = ("slack", "table", "verdict", "extend", "advance", "curve", "load", "check", "quick")
OPERATIONS = ("sum", "difference", "product", "quotient")


def count_of(words: Sequence[str]) -> int:
    """The number of words of a cause with this first word; any number is right for a word that is none."""
    return COUNTS.get(words[0], len(words)) if words else 1


def printed_number(word: str) -> Fraction:
    """The number of a word in its printed form; Refused by P8."""
    number = printed(word)
    if number is None:
        raise broken("P8", f"{word[:60]} isn't the printed form of a number: lowest terms, as 5/2 or 3")
    return number


def check_count(word: str) -> None:
    """Refuses a word that is no plain count, by P8."""
    if not (word.isascii() and word.isdigit()) or str(int(word[:40])) != word or int(word) >= 2 ** 64:
        raise broken("P8", f"{word[:60]} is no plain count below 2^64")


def check_cause(words: Sequence[str]) -> None:
    """Refuses words that are no cause, by the lowest of the rules P6, P8 and P9."""
    if not words or len(words) != count_of(words):
        raise broken("P6", f"the cause `{' '.join(words)}` has not the words of a cause")
    if words[0] not in COUNTS:
        raise broken("P9", f"{words[0][:60]} is no cause: {', '.join(COUNTS)} are")
    if words[0] != "passed":
        for word in words[1:]:
            check_count(word)
        return
    _, phase, part, place, operation, left, right = words
    for word in [phase] + [place] * (place != "-"):
        check_count(word)
    printed_number(left), printed_number(right)
    if part not in PARTS or operation not in OPERATIONS:
        raise broken("P9", f"{part} is no part of the work, or {operation} no operation")
