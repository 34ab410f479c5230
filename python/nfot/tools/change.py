"""Prints a network with other capacities or times of links, without links, or with a later begin of the supply, and says what changed.

A change that changes nothing is refused, and so is a link that isn't there.

example: nfot-py change siouxfalls.net --capacity 1-3=200 > works.net
example: nfot-py change siouxfalls.net --capacity 6-8=120 --time 6-8=1.5 --without 13-24 --without 24-13 > other.net"""
from __future__ import annotations

import argparse
import sys
from fractions import Fraction
from typing import Optional

from ..demand import minutes_at
from ..faults import Refused
from ..networks import Link, Network, read_network
from ..numbers import exact, short
from .common import tell_minutes
from .options import add_clock


def add_arguments(parser: argparse.ArgumentParser) -> None:
    """The arguments of the tool."""
    parser.add_argument("net", metavar="NET", help="the network file; `-` is standard input")
    parser.add_argument("--capacity", metavar="LINK=C", action="append", default=[], help="the new capacity of a link (`inf`: no limit), in units of the file")
    parser.add_argument("--time", metavar="LINK=T", action="append", default=[], help="the new transit time of a link")
    parser.add_argument("--without", metavar="LINK", action="append", default=[], help="leave a link out: the road is closed")
    parser.add_argument("--begin", metavar="T", help="nobody leaves before T, in minutes or with --clock as a time of day")
    add_clock(parser)


def changed(network: Network, word: str, what: str) -> tuple[Network, str]:
    """The network with the change LINK=VALUE of a capacity or a transit time, and the line on it."""
    name, equals, value = word.rpartition("=")
    if not equals or not name:
        raise Refused(f"{word} is no LINK=VALUE, as 1-3=200")
    link = network.known(name)
    number = None if value == "inf" and what == "capacity" else exact(value)
    before = link.capacity if what == "capacity" else link.transit
    if number == before:
        raise Refused(f"the {what} of {name} is {value} already, so nothing would change", status=1)
    new = Link(name, link.tail, link.head, link.transit if what == "capacity" else number or 0, number if what == "capacity" else link.capacity)
    return network.with_link(new), f"{what} of {name}: {shown(before)} becomes {shown(number)}"


def begun(network: Network, word: str, clock: Optional[Fraction]) -> tuple[Network, str]:
    """The network whose supply begins at a departure, in minutes or as a time of day, and the line on it."""
    time = minutes_at(word, clock)
    said = short(time) if clock is not None or ":" not in word else f"{short(time)} ({word} without --clock is minute {short(time)})"
    if time <= 0:
        raise Refused(f"--begin {word} isn't after minute 0")
    if not network.supplied(time):
        raise Refused(f"nobody leaves before {said}, so nothing would change", status=1)
    rate = [rate for start, rate in network.supply if start <= time][-1]
    if not rate and all(start <= time or not later for start, later in network.supply):
        raise Refused(f"nobody leaves after {said}, so no supply would be left", status=1)
    return network.with_supply([(time, rate), *(piece for piece in network.supply if piece[0] > time)]), f"the supply begins at {short(time)}"


def shown(value: Optional[Fraction]) -> str:
    """A capacity or a time as a line has it."""
    return "inf" if value is None else short(value)


def main(arguments: argparse.Namespace) -> int:
    """Prints the network, and on standard error what changed."""
    network = read_network(arguments.net)
    lines: list[str] = []
    if not arguments.capacity + arguments.time + arguments.without and arguments.begin is None:
        raise Refused("say what changes: --capacity LINK=C, --time LINK=T, --without LINK or --begin T")
    for what, words in (("capacity", arguments.capacity), ("time", arguments.time)):
        for word in words:
            network, line = changed(network, word, what)
            lines.append(line)
    for name in arguments.without:
        network = network.without(name)
        lines.append(f"{name} is left out")
    if arguments.begin is not None:
        network, line = begun(network, arguments.begin, arguments.clock)
        lines.append(line)
        tell_minutes("change", [arguments.begin], arguments.clock)
    print(network.text(), end="", flush=True)
    for line in lines:
        print(f"change: {line}", file=sys.stderr)
    return 0
