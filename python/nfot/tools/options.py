"""Kinds of arguments and options that several tools share."""
from __future__ import annotations

import argparse
import sys
from fractions import Fraction
from typing import Callable

from ..demand import DAY
from ..faults import Fault
from ..numbers import parse, short


def number(word: str) -> Fraction:
    """A number of the command line: 2.5, 7/2, 1e6 or 7:30."""
    try:
        return parse(word)
    except Fault as fault:
        raise argparse.ArgumentTypeError(fault.why) from None


def least(bound: Fraction, open_end: bool = False) -> Callable[[str], Fraction]:
    """A kind of number that is at least a bound, or above it."""
    def read(word: str) -> Fraction:
        found = number(word)
        if found < bound or open_end and found == bound:
            raise argparse.ArgumentTypeError(f"{word} isn't {'above' if open_end else 'at least'} {short(bound)}")
        return found
    return read


positive, natural = least(Fraction(0), True), least(Fraction(0))


def minute(word: str) -> Fraction:
    """A time of a run, of a tool without --clock: how a word as 7:30 is read is said on standard error."""
    found = natural(word)
    if ":" in word:
        print(f"nfot-py: {word} is minute {short(found)} of the run", file=sys.stderr)
    return found


def seconds(word: str) -> float:
    """A time limit: a number of seconds above 0."""
    return float(positive(word))


def time_of_day(word: str) -> Fraction:
    """A time of day, as 6:00, in minutes."""
    found = number(word)
    if ":" not in word or not found < DAY:
        example = f": write {word}:00" if word.isdecimal() and int(word) < 24 else ": a day begins at 0:00 and ends before 24:00"
        raise argparse.ArgumentTypeError(f"{word} is no time of day{example}")
    return found


def count(word: str) -> int:
    """A whole number above 0."""
    if not word.isdecimal() or not int(word):
        raise argparse.ArgumentTypeError(f"{word} is no whole number above 0")
    return int(word)


def add_pair(parser: argparse.ArgumentParser) -> None:
    """The arguments NET REPORT."""
    parser.add_argument("net", metavar="NET", help="the network file")
    parser.add_argument("report", metavar="REPORT", help="a report of this network, as `nfot-py solve` writes it")


def add_clock(parser: argparse.ArgumentParser) -> None:
    """The option --clock."""
    parser.add_argument("--clock", metavar="TIME", type=time_of_day, help="the time of day of minute 0, as 6:00")


def add_csv(parser: argparse.ArgumentParser) -> None:
    """The options --csv, --semicolon and --exact."""
    parser.add_argument("--csv", metavar="PATH", help="write the table as CSV to this file (`-`: to standard output)")
    add_semicolon(parser)
    parser.add_argument("--exact", action="store_true", help="write exact numbers, as 16/3, where a decimal would be rounded")


def add_semicolon(parser: argparse.ArgumentParser) -> None:
    """The option --semicolon."""
    parser.add_argument("--semicolon", action="store_true", help="CSV for spreadsheets in German: `;` between fields, decimal commas, "
                        "and a byte order mark (UTF-8), so that umlauts are read rightly")
