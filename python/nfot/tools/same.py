"""Tells what speaks against a report being one of a network, and what the report leaves open of the network.

Prints `no: ..` for each reason, with status 10, or `yes`: the flow of the report is an equilibrium of this network. A `yes` doesn't prove that
it was computed for this network: what might be otherwise follows, in lines that begin with `open:`.

example: nfot-py same bridge.net bridge.report"""
from __future__ import annotations

import argparse

from ..evidence import same, unsaid
from ..networks import read_network
from ..reports import read_report
from .common import check_kinds
from .options import add_pair

NO = 10  # as `nfot check` ends


def add_arguments(parser: argparse.ArgumentParser) -> None:
    """The arguments of the tool."""
    add_pair(parser)


def main(arguments: argparse.Namespace) -> int:
    """Prints the answer."""
    check_kinds(arguments.net, arguments.report)
    network, report = read_network(arguments.net), read_report(arguments.report)
    against = same(network, report)
    print("\n".join([f"no: {why}" for why in against] or ["yes", *(f"open: {what}" for what in unsaid(network, report))]))
    return NO if against else 0
