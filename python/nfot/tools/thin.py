"""Checks a thin flow with resetting that you worked out, or prints that of a departure.

With FLOWS (a flows file: lines `flow LINK X` and `slope NODE L`) prints `yes`, or the conditions that are broken, each with its node or link
and the numbers, and ends with status 15. The sets and the supply are those at DEPARTURE of the equilibrium, which is solved for, or taken
from --report. Without FLOWS prints them, with the flows x' and the slopes l' from there on.

example: nfot-py thin even.net 0 even.flows
example: nfot-py thin bridge.net 20"""
from __future__ import annotations

import argparse
import sys

from ..commands import solve
from ..inputs import read_flows
from ..networks import read_network
from ..theory import all_broken, candidate, thin
from .common import read_run
from .options import minute

NOT_THIN = 15  # as `nfot settle` ends


def add_arguments(parser: argparse.ArgumentParser) -> None:
    """The arguments of the tool."""
    parser.add_argument("net", metavar="NET", help="the network file")
    parser.add_argument("departure", metavar="DEPARTURE", type=minute, help="the departure whose thin flow is meant")
    parser.add_argument("flows", metavar="FLOWS", nargs="?", help="the flows file to check (`-`: standard input)")
    parser.add_argument("--report", metavar="REPORT", help="an equilibrium of the network that comes to DEPARTURE, in place of solving for it")


def main(arguments: argparse.Namespace) -> int:
    """Prints the answer."""
    network, departure = read_network(arguments.net), arguments.departure
    given = None if arguments.flows is None else read_flows(arguments.flows, network)
    run = read_run(arguments.net, arguments.report)[1] if arguments.report else solve(network, departure + (given is None))
    if given is None:
        phase = thin(network, run, departure)
        print(str(phase).replace(f"[{phase.start}, {phase.end})", f"at {departure}"))
        return 0
    unnamed = [node for node in network.nodes() if node not in given[1]]
    if unnamed:
        print(f"nfot-py thin: {arguments.flows} has no line `slope` of {', '.join(unnamed)}, so the slope counts as 0", file=sys.stderr)
    phase = candidate(network, run, departure, *given)
    faults = list(all_broken(network, phase))
    print("\n".join(["no: " + str(fault) for fault in faults] or ["yes"]))
    return NOT_THIN if faults else 0
