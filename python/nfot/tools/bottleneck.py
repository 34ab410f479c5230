"""Prints whether travel times settle under lasting demand, and if not, the bottleneck.

FOREVER is the output of `nfot solve NET --forever` (`-`: standard input); without it the tool has it made. If travel times grow, the links of
the bottleneck are printed with their capacities, the sum beside the last supply rate, and the growth. Numbers are exact. With --csv the
links and their capacities are written alone.

example: nfot-py bottleneck lasting.net
example: nfot-py solve lasting.net --forever | nfot-py bottleneck lasting.net -"""
from __future__ import annotations

import argparse
import sys
from fractions import Fraction
from typing import Sequence

from ..commands import forever
from ..cuts import bottleneck, numbers_of
from ..faults import Refused
from ..lines import read_bytes
from ..networks import Network, read_network
from ..rows import Rows
from .common import write_rows
from .options import add_csv


def add_arguments(parser: argparse.ArgumentParser) -> None:
    """The arguments of the tool."""
    parser.add_argument("net", metavar="NET", help="the network file, with a demand whose last rate lasts")
    parser.add_argument("forever", metavar="FOREVER", nargs="?", help="the output of `nfot solve NET --forever`")
    add_csv(parser)


def slopes_of(network: Network, path: str | None) -> dict[str, Fraction]:
    """The slopes of the phase that never ends."""
    if path is None:
        return dict(forever(network).slopes)
    name = "standard input" if path == "-" else path
    lines = sys.stdin.readlines() if path == "-" else read_bytes(path).decode("ascii", "replace").splitlines()
    slopes = numbers_of(lines, "slope", name)
    if not slopes:
        raise Refused(f"{name} {why_none(lines)}", status=1)
    return slopes


def why_none(lines: Sequence[str]) -> str:
    """Why a text has no slopes, by its first word."""
    word = next((line.split()[0] for line in lines if line.split()), "")
    if word == "forever":
        return "has no slopes: the run stopped before a phase that never ends; `nfot-py cut NET --amount 1000000` shows the same links"
    reason = {"quick": "is the output of `nfot quick`, whose links `nfot-py cut` shows", "report": "is a report, whose run has a horizon"}
    return f"{reason.get(word, 'has no slopes')}: this tool takes the output of `nfot solve NET --forever`"


def main(arguments: argparse.Namespace) -> int:
    """Prints the bottleneck."""
    network = read_network(arguments.net)
    found = bottleneck(network, slopes_of(network, arguments.forever))
    if arguments.csv is not None:
        write_rows(Rows(["link", "capacity"], [(link.name, link.capacity) for link in found.links]), arguments)
        return 0
    if found.slope == 1:
        print("travel times settle: the slope of the sink is 1")
        return 0
    for link in found.links:
        print(f"{link.name}: capacity {link.capacity}")
    print(f"together {found.capacity}, supplied {found.rate}")
    print(f"travel times grow by {60 * (found.slope - 1)} minutes an hour")
    return 0
