"""Prints which links limit an amount: capacity, for how long, and how much goes through, the greatest amount first.

The output of `nfot quick` comes from standard input, or --amount has it made. The amounts of the links add up to the whole amount.

example: nfot-py cut siouxfalls.net --amount 24000
example: nfot-py quick siouxfalls.net --amount 24000 | nfot-py cut siouxfalls.net"""
from __future__ import annotations

import argparse
import sys

from ..commands import quick
from ..cuts import links_of_cut, numbers_of
from ..faults import Refused
from ..networks import read_network
from ..rows import Rows
from .common import amounts, write_rows
from .options import add_csv, natural


def add_arguments(parser: argparse.ArgumentParser) -> None:
    """The arguments of the tool."""
    parser.add_argument("net", metavar="NET", help="the network file")
    parser.add_argument("--amount", metavar="Q", type=natural, help="the amount that has to come to the sink")
    add_csv(parser)


def main(arguments: argparse.Namespace) -> int:
    """Prints the links of the cut, or writes them as CSV."""
    network = read_network(arguments.net)
    if arguments.amount is not None:
        cut = dict(quick(network, arguments.amount).cut)
    else:
        cut = numbers_of(sys.stdin, "cut", "standard input")
    if set(cut) != set(network.nodes()):
        raise Refused(f"standard input has no lines `cut` of {arguments.net}", status=1)
    found = sorted(links_of_cut(network, cut), key=lambda link: -link.amount)
    if arguments.csv is not None:
        write_rows(Rows(["link", "capacity", "minutes", "amount"], [(cut.link.name, cut.link.capacity, cut.lasts, cut.amount) for cut in found]), arguments)
        return 0
    for link in found:
        capacity, lasts, amount = amounts(arguments.exact, (link.link.capacity, 6), (link.lasts, 2), (link.amount, 1))
        print(f"{link.link.name}: {capacity} a minute for {lasts} minutes, {amount}")
    return 0
