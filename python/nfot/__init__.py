"""nfot: exact dynamic traffic equilibria (Nash flows over time), computed and checked by the program of this name.

>>> import nfot
>>> links = [nfot.Link("bridge", "home", "work", 10, 2), nfot.Link("bay", "home", "work", 30, 4)]
>>> net = nfot.Network("home", "work", links, [(0, 4), (60, 0)])  # times in minutes, rates in vehicles per minute
>>> run = nfot.solve(net, 60)  # the equilibrium of all who leave by 60
>>> print(run.arrival(30), run.travel_time(30), run.queue("bridge").greatest()[1])
60 30 40
>>> print(nfot.check(net, run), nfot.check(net.with_capacity("bridge", 4), run).rule)
yes C3
>>> wide = nfot.solve(net.with_capacity("bridge", "3.5"), 60)
>>> print(wide.travel_time(30), nfot.quick(net, 240).time, nfot.forever(net).reached)
100/7 190/3 80

Numbers are exact: ints, Fractions, Decimals or texts as "7/2" and "3.5". Each fault is a `Fault`, one sentence.
"""
import sys

if sys.version_info < (3, 9):
    sys.exit("nfot: Python 3.9 or later is needed, and this is Python %d.%d" % sys.version_info[:2])

try:
    from .answers import Carried, Forever, Generated, Loaded, Quickest, Settled, Verdict
    from .commands import check, forever, gen, load, quick, resume, routes, settle, show, solve
    from .comparing import Comparison, compare
    from .curves import Curve
    from .demand import Demand, demand_of_words, read_demand
    from .evidence import Open, same, unsaid
    from .faults import Fault, Killed, NotFound, OutOfRange, Refused, Stopped, Timeout, Unbounded, outcome
    from .gaps import Gap, gap
    from .graphs import clean_names, from_networkx, to_networkx
    from .inputs import read_flows, read_loads, read_routes
    from .judging import report_of_flows, report_of_routes, supply_of
    from .networks import Link, Network, network_of, read_network, write_network
    from .numbers import clock, decimal, exact, parse, short
    from .phases import Phase, phases
    from .program import Program, program
    from .queues import Queue, longest_first, queues_of
    from .reports import Report, mismatch, read_pair, read_report, report_of, write_report
    from .roads import Columns, Roads, read_roads
    from .rows import Rows, side_by_side, table
    from .rules import explain, meaning, status
    from .tables import Made, Units, network_of_table
    from .theory import Broken, broken, candidate, thin
    from .vehicles import loads_of_vehicles, routes_of_vehicles
except (MemoryError, ImportError) as fault:
    if isinstance(fault, ImportError) and "failed to map" not in str(fault):  # a library that memory is too short for
        raise
    sys.exit("nfot: memory is short: raise its limit (ulimit -v), or end other programs")

__all__ = [
    "Broken", "Carried", "Columns", "Comparison", "Curve", "Demand", "Fault", "Forever", "Gap", "Generated", "Killed", "Link", "Loaded",
    "Made", "Network", "NotFound", "Open", "OutOfRange", "Phase", "Program", "Queue", "Quickest", "Refused", "Report", "Roads", "Rows",
    "Settled", "Stopped", "Timeout", "Unbounded", "Units", "Verdict", "broken", "candidate", "check", "clean_names", "clock", "compare",
    "decimal", "demand_of_words", "exact", "explain", "forever", "from_networkx", "gap", "gen", "load", "loads_of_vehicles",
    "longest_first", "meaning", "mismatch", "network_of", "network_of_table", "outcome", "parse", "phases", "program", "queues_of", "quick",
    "read_demand", "read_flows", "read_loads", "read_network", "read_pair", "read_report", "read_roads", "read_routes", "report_of",
    "report_of_flows", "report_of_routes", "resume", "routes", "routes_of_vehicles", "same", "settle", "short", "show", "side_by_side",
    "solve", "status", "supply_of", "table", "thin", "to_networkx", "unsaid", "write_network", "write_report",
]
__version__ = "1.0.0"
