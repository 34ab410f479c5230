"""Makes a network file from a table of roads (CSV).

The first line of the table names its columns: from, to, minutes (or time) and capacity, perhaps name; other names are given by options. A
row is a one-way link. An empty capacity, or inf, is unbounded; 0 closes the road. Roads on no route from ORIGIN to DESTINATION are left out.
Names get the characters that nfot allows; standard error says what was renamed (with --names how many names), left out and rounded, and what
may be a mistake: a road that stands there twice, an unusual unit.

example, a table of a map program (length, speed, lanes) and counts of each quarter of an hour:
  nfot-py table roads.csv A B --from a_node --to b_node --length-km km --speed-kmh vmax --lanes n --lane-capacity 1800 \\
      --demand counts.csv --each 15 --clock 6:00 --names names.csv > town.net
example, capacities an hour and rates a minute: 200 from minute 0 on, 400 from 30 on, none from 90 on:
  nfot-py table roads.csv 1 20 0:200 30:400 90:0 --two-way --hourly --round-capacity 600 > town.net"""
from __future__ import annotations

import argparse
import sys
from fractions import Fraction
from typing import Optional

from ..demand import Demand, demand_of_words, read_demand
from ..faults import Refused
from ..numbers import clock
from ..roads import Columns, read_roads
from ..tables import Units, network_of_table
from .common import check_inputs, tell_minutes
from .options import add_semicolon, natural, number, positive, time_of_day

COLUMNS = [("--from", "tail", "node at which a road begins (usual: from)"), ("--to", "head", "node at which it ends (usual: to)"),
           ("--name", "name", "name of the road (usual: name)"), ("--minutes", "minutes", "minutes on the empty road (usual: minutes or time)"),
           ("--length-km", "length_km", "length in kilometres"), ("--length-m", "length_m", "length in metres"),
           ("--speed-kmh", "speed_kmh", "speed in kilometres an hour, in place of minutes"),
           ("--capacity", "capacity", "capacity, vehicles a minute (usual: capacity)"), ("--lanes", "lanes", "number of lanes, in place of a capacity")]


def add_arguments(parser: argparse.ArgumentParser) -> None:
    """The arguments of the tool."""
    parser.add_argument("table", metavar="ROADS", help="the table; `-` is standard input")
    parser.add_argument("origin", metavar="ORIGIN", help="the node at which drivers start")
    parser.add_argument("destination", metavar="DESTINATION", help="the node to which they go, or several as 20,21,22: any of them will do")
    parser.add_argument("rates", metavar="START:RATE", nargs="*", help="from START (minutes) on RATE vehicles a minute leave the origin")
    columns = parser.add_argument_group("columns of the table")
    for option, name, help_text in COLUMNS:
        columns.add_argument(option, dest=name, metavar="COLUMN", help=help_text)
    columns.add_argument("--lane-capacity", metavar="N", type=positive, help="vehicles an hour that a lane lets through, as 1800")
    columns.add_argument("--two-way", action="store_true", help="each row is a road with both directions")
    columns.add_argument("--hourly", action="store_true", help="capacities, and --round-capacity, are vehicles an hour")
    demand = parser.add_argument_group("demand")
    demand.add_argument("--demand", metavar="FILE", help="a table of counts: the vehicles that leave in each interval")
    demand.add_argument("--each", metavar="MINUTES", type=positive, help="the length of an interval, as 15")
    demand.add_argument("--start", metavar="COLUMN", help="the column with the start of an interval: minutes, or a time of day as 7:30")
    demand.add_argument("--count", metavar="COLUMN", help="the column with the count")
    demand.add_argument("--clock", metavar="TIME", type=time_of_day, help="the time of day of minute 0, as 6:00; then STARTs may be times of day")
    rounding = parser.add_argument_group("rounding (short numbers let a run go further)")
    rounding.add_argument("--round-capacity", metavar="UNIT", type=positive, help="multiples for capacities (else one that changes nothing, or by the smallest capacity)")
    rounding.add_argument("--round-time", metavar="UNIT", type=positive, help="multiples for minutes (else 0.1, or less where a time is shorter)")
    rounding.add_argument("--round-rate", metavar="UNIT", type=positive, help="multiples for rates (else by the smallest rate)")
    rounding.add_argument("--most-change", metavar="PERCENT", type=number, default=Fraction(20), help="the greatest change that is not refused (20)")
    parser.add_argument("--detour", metavar="MINUTES", type=natural, help="keep routes that take at most so much longer than the quickest one, on empty roads")
    parser.add_argument("--names", metavar="PATH", help="write the names as CSV: id (in the network), kind, name (in the table), line, km, lanes")
    add_semicolon(parser)


def demand_of(arguments: argparse.Namespace) -> Demand:
    """The demand, of a file or of words."""
    begin: Optional[Fraction] = arguments.clock
    if arguments.demand is None:
        if arguments.each is not None:
            raise Refused("--each is the interval of a file: name it by --demand")
        return demand_of_words(arguments.rates, begin)
    if arguments.rates:
        raise Refused(f"{arguments.rates[0]}: the demand is given by --demand or by START:RATE, not by both")
    if arguments.each is None:
        raise Refused("--demand has counts of intervals: say how long one is, as --each 15")
    return read_demand(arguments.demand, arguments.each, begin, arguments.start, arguments.count)


def main(arguments: argparse.Namespace) -> int:
    """Prints the network, and on standard error what became of the table."""
    columns = Columns(**{name: getattr(arguments, name) for _, name, _ in COLUMNS}, lane_capacity=arguments.lane_capacity)
    hourly = arguments.hourly or arguments.lane_capacity is not None
    check_inputs(arguments.table, arguments.demand)
    roads = read_roads(arguments.table, columns, two_way=arguments.two_way, hourly=arguments.hourly)
    demand = demand_of(arguments)
    tell_minutes("table", [word.rpartition(":")[0] for word in arguments.rates], demand.begin)
    units = Units(arguments.round_capacity, arguments.round_time, arguments.round_rate, hourly, arguments.most_change)
    made = network_of_table(roads, arguments.origin, arguments.destination, demand, units=units, detour=arguments.detour)
    if demand.begin is not None:
        begin = clock(Fraction(0), demand.begin)
        made.notes.insert(len(made.notes) - len(made.warnings), f"minute 0 is {begin}; the other tools take --clock {begin}")
    if arguments.names is not None:
        made.write_names(arguments.names, arguments.semicolon)
    print(made.network.text(), end="", flush=True)
    for note in made.notes_with(arguments.names):
        print(f"table: {note}", file=sys.stderr)
    return 0
