"""Prints a network file of Sioux Falls, a test network of the field with 24 zones and 76 links.

Capacities are rounded to multiples of UNIT vehicles an hour (at least one), and written a minute; times are minutes. From START (minutes) on
RATE vehicles a minute leave zone FROM. With --roads the roads themselves are printed as CSV, for `nfot-py table`.

example: nfot-py city 2400 1 20 0:200 30:400 60:200 90:0 > siouxfalls.net
example: nfot-py city --roads > roads.csv"""
from __future__ import annotations

import argparse
from fractions import Fraction
from pathlib import Path

from ..demand import demand_of_words
from ..faults import Refused
from ..rows import MARK, Rows
from .options import add_semicolon, positive

ROADS = Path(__file__).resolve().parents[1] / "data/siouxfalls.txt"


def add_arguments(parser: argparse.ArgumentParser) -> None:
    """The arguments of the tool."""
    parser.add_argument("unit", metavar="UNIT", nargs="?", type=positive, help="capacities are multiples of it, vehicles an hour")
    parser.add_argument("origin", metavar="FROM", nargs="?", help="a zone, from 1 to 24")
    parser.add_argument("destination", metavar="TO", nargs="?", help="another zone")
    parser.add_argument("rates", metavar="START:RATE", nargs="*", help="from START on RATE vehicles a minute leave zone FROM")
    parser.add_argument("--roads", action="store_true", help="print the roads as CSV: from, to, minutes, capacity an hour")
    add_semicolon(parser)


def roads() -> list[list[str]]:
    """The roads, each for both directions: from, to, capacity (vehicles an hour), minutes."""
    return [line.split() for line in ROADS.read_text(encoding="ascii").splitlines() if not line.startswith("#")]


def network_lines(arguments: argparse.Namespace) -> list[str]:
    """The lines of the network file."""
    unit: Fraction = arguments.unit
    lines = ["# Sioux Falls (LeBlanc, Morlok and Pierskalla 1975): values of public test networks, as remembered (siouxfalls.txt).",
             f"# Minutes, and vehicles a minute. Capacities are rounded to multiples of {unit} vehicles an hour, transit times are not.",
             "nfot 1", f"source {arguments.origin}", f"sink {arguments.destination}"]
    for tail, head, capacity, minutes in roads():
        rate = max(1, round(Fraction(capacity) / unit)) * unit / 60
        lines += [f"link {v}-{w} {v} {w} {minutes} {rate}" for v, w in ((tail, head), (head, tail))]
    return [*lines, *(f"inflow {start} {rate}" for start, rate in demand_of_words(arguments.rates).pieces), "end"]


def main(arguments: argparse.Namespace) -> int:
    """Prints the network, or the roads."""
    if arguments.roads:
        if arguments.unit is not None:
            raise Refused("--roads stands alone")
        rows = [(tail, head, Fraction(minutes), Fraction(capacity)) for tail, head, capacity, minutes in roads()]
        print(MARK * arguments.semicolon + Rows(["from", "to", "minutes", "capacity"], rows).csv_text(semicolon=arguments.semicolon), end="")
        return 0
    if arguments.destination is None:
        raise Refused("UNIT, FROM and TO are needed, or --roads (nfot-py city --help says more)")
    zones = {zone for road in roads() for zone in road[:2]}
    for zone in (arguments.origin, arguments.destination):
        if zone not in zones:
            raise Refused(f"{zone} is no zone, from 1 to 24")
    if arguments.origin == arguments.destination:
        raise Refused(f"{arguments.origin} is FROM and TO")
    print("\n".join(network_lines(arguments)))
    return 0
