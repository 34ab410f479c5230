"""Makes a report of flows that another program computed, for `nfot-py check` and `nfot-py gap`.

FLOWS is a loads file (what enters each link) or a routes file (what is sent along each route). REACHED is the last departure that is judged.
Queues and outflows follow from the law of the point queue, labels are the earliest arrivals. All is printed until nothing changes any more.

example: nfot-py judge two.net late.loads 4 > late.report && nfot-py check two.net late.report
example: nfot-py judge merge.net merge.routes 2 --out merge.report"""
from __future__ import annotations

import argparse

from ..inputs import read_sent
from ..judging import report_of_flows, report_of_routes
from ..networks import read_network
from ..reports import write_report
from .options import minute


def add_arguments(parser: argparse.ArgumentParser) -> None:
    """The arguments of the tool."""
    parser.add_argument("net", metavar="NET", help="the network file")
    parser.add_argument("flows", metavar="FLOWS", help="the loads file or the routes file (`-`: standard input)")
    parser.add_argument("reached", metavar="REACHED", type=minute, help="the last departure that is judged; routes are sent until then")
    parser.add_argument("--out", metavar="PATH", help="write the report to this file, not to standard output")


def main(arguments: argparse.Namespace) -> int:
    """Prints the report."""
    network = read_network(arguments.net)
    loads, routes = read_sent(arguments.flows, network)
    if routes:
        report = report_of_routes(network, routes, arguments.reached)
    else:
        report = report_of_flows(network, loads, arguments.reached)
    if arguments.out is None:
        print(report.text(), end="")
    else:
        write_report(report, arguments.out)
    return 0
