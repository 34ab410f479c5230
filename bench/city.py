#!/usr/bin/env python3
"""Makes networks, runs programs over them, and prints how the runs end and what they take.

    python3 bench/city.py [--families city,grids] [--commands solve] [--other "PROGRAM WORDS"]..

The families of networks:

    city      the roads of Sioux Falls (python/nfot/data/siouxfalls.txt) from one zone to another, supplied for an hour: all ordered pairs of six zones, four
              demands, three roundings of the capacities (hundreds of vehicles an hour, vehicles a minute, 500 vehicles an hour)
    grids     squares of 25 to 64 nodes with links to the right and down; `streets` has transits of 1 and 2 and small capacities
    random    20 to 64 nodes with three links a node that mostly lead forward
    ladders   `nfot gen`'s

The commands are solve, check (of the report that the program itself has solved), load (what the links take in that report; and `many`,
100 drawn pieces on each link), quick (the amount that is supplied), resume (from half of the horizon) and routes (eight routes, or fewer,
that lead away from the source).

Each run is made once for its bytes (status, standard output, standard error), then some times for its time: the least sum of user and
system time, since the kernel tells the sum exactly and the two parts by samples alone. The programs take turns. Networks are made by this
file's own generator, so that they are the same everywhere. Outside the gate; Python 3 and its standard library are enough.

Statuses: 0 the runs were made, whatever they show; 1 a program isn't there; 2 wrong arguments.
"""
import argparse
import collections
import fractions
import heapq
import os
import re
import shlex
import shutil
import subprocess
import sys
import tempfile

HERE = os.path.dirname(os.path.realpath(__file__))
ROADS = f"{HERE}/../python/nfot/data/siouxfalls.txt"
PROGRAM = f"{HERE}/../crates/nfot/out/nfot"

# A network of the bench: its family, the group that its figures are summed in, the lines of its file, and the departure to solve up to.
Network = collections.namedtuple("Network", "family group name links pieces source sink horizon")
# A link of a network: its ends are names, the transit a whole number and the capacity too.
Link = collections.namedtuple("Link", "name tail head transit capacity")
# A run to be made: the words that the program is given.
Case = collections.namedtuple("Case", "family group name command words")
# What a run has shown: its status, and the bytes that it wrote to standard output and standard error.
Answer = collections.namedtuple("Answer", "status out err")
# What became of a case: the answers and the least seconds of each program.
Result = collections.namedtuple("Result", "case answers seconds")

# ---- networks ----


class Draws:
    """Draws whole numbers by a linear congruential generator of 64 bits, from a seed."""

    def __init__(self, seed):
        self.value = seed
        for _ in range(4):
            self.below(1)

    def below(self, bound):
        self.value = (self.value * 6364136223846793005 + 1442695040888963407) % 2**64
        return (self.value >> 33) % bound

    def within(self, least, most):
        return least + self.below(most - least + 1)


def text_of(network):
    """Returns the text of the network file."""
    lines = ["nfot 1", f"source {network.source}", f"sink {network.sink}"]
    lines += [f"link {it.name} {it.tail} {it.head} {it.transit} {it.capacity}" for it in network.links]
    lines += [f"inflow {start} {rate}" for start, rate in network.pieces]
    return "\n".join([*lines, "end", ""])


# The zones between which the city's drivers go, and what they supply, in vehicles an hour.
ZONES = [1, 3, 10, 13, 15, 20]
DEMANDS = [10_000, 30_000, 60_000, 100_000]
# The roundings: a capacity is a whole number of so many vehicles an hour (minutes: what passes in a minute).
ROUNDINGS = {"hundred": 100, "minute": 60, "coarse": 500}
# The unit in which rates are written, in vehicles an hour.
UNITS = {"hundred": 1, "minute": 60, "coarse": 500}
HOUR = 60


def roads():
    """Returns the city's roads: from, to, capacity in vehicles an hour as a fraction, minutes."""
    with open(ROADS, encoding="utf-8") as it:
        words = [line.split() for line in it if line.strip() and not line.startswith("#")]
    return [(tail, head, fractions.Fraction(capacity), int(minutes)) for tail, head, capacity, minutes in words]


def nearest(value, step):
    """Returns how many steps are nearest to a value above 0, at least one; the greater number of two."""
    return max(1, int(fractions.Fraction(value) / step + fractions.Fraction(1, 2)))


def city_network(pair, demand, rounding, horizon):
    """Returns the city with all drivers going from one zone to another, for an hour at an even rate."""
    links = []
    written = ROUNDINGS[rounding] // UNITS[rounding]
    for tail, head, capacity, minutes in roads():
        wide = nearest(capacity, ROUNDINGS[rounding]) * written
        links += [Link(f"{a}-{b}", a, b, minutes, wide) for a, b in ((tail, head), (head, tail))]
    source, sink = pair.split("-")
    pieces = [(0, nearest(demand, UNITS[rounding])), (HOUR, 0)]
    name = f"city_{rounding}_{pair}_{demand}_{horizon}"
    return Network("city", f"city {rounding} {demand} to {horizon}", name, links, pieces, source, sink, horizon)


def city(asked):
    """Returns the city's networks, those of one rounding and demand together."""
    pairs = asked.pairs or [f"{a}-{b}" for a in ZONES for b in ZONES if a != b]
    return [
        city_network(pair, demand, rounding, horizon)
        for rounding in asked.roundings
        for demand in asked.demands
        for horizon in asked.horizons
        for pair in pairs
    ]


def supplied(draws, least, most):
    """Returns pieces of inflow: one rate up to 20, another up to 40, then nothing."""
    return [(0, draws.within(least, most)), (20, draws.within(least, most)), (40, 0)]


def grid(kind, size, seed, transits, capacities, rates):
    """Returns a square of nodes with a link from each to the right and one down."""
    draws = Draws(seed * 1000 + size)

    def node(row, column):
        return {0: "s", 2 * size - 2: "t"}.get(row + column, f"n{row}_{column}")

    links = []
    for row in range(size):
        for column in range(size):
            for way, below, right in (("r", 0, 1), ("d", 1, 0)):
                if row + below < size and column + right < size:
                    ends = node(row, column), node(row + below, column + right)
                    links.append(Link(f"{way}{row}_{column}", *ends, draws.within(*transits), draws.within(*capacities)))
    group = f"{kind} {size} by {size}"
    return Network("grids", group, f"{kind}{size}_{seed}", links, supplied(draws, *rates), "s", "t", 80)


def grids(asked):
    """Returns grids with unlike links, and streets with few transits and small capacities."""
    made = [grid("grid", size, seed, (1, 9), (3, 12), (2, 10)) for size in (5, 6, 7, 8) for seed in range(asked.seeds)]
    return made + [grid("streets", size, seed, (1, 2), (1, 4), (1, 4)) for size in (6, 7, 8) for seed in range(asked.seeds)]


def random_network(nodes, seed):
    """Returns nodes that each have a link from one before them, and further links that mostly lead forward."""
    draws = Draws(seed * 1000 + nodes)
    names = ["s", *[f"n{it}" for it in range(1, nodes - 1)], "t"]
    ends = [(draws.within(max(0, head - 6), head - 1), head) for head in range(1, nodes)]
    count = min(200, 3 * nodes)
    while len(ends) < count:
        tail = draws.below(nodes - 1)
        head = min(nodes - 1, max(1, tail + draws.within(-2, 8)))
        if head != tail:
            ends.append((tail, head))
    links = [
        Link(f"e{number}", names[tail], names[head], draws.within(1, 9), draws.within(3, 12))
        for number, (tail, head) in enumerate(ends)
    ]
    return Network("random", f"random {nodes} nodes", f"r{nodes}_{seed}", links, supplied(draws, 2, 10), "s", "t", 80)


def random_networks(asked):
    """Returns random networks of 20 to 64 nodes."""
    return [random_network(nodes, seed) for nodes in (20, 30, 40, 52, 64) for seed in range(asked.seeds)]


def ladder(number, rungs, horizon):
    """Returns the ladder of a number, as docs/FORMATS.md defines it."""
    value = number % 65537

    def draw(bound):
        nonlocal value
        value = (75 * value + 74) % 65537
        return 1 + value % bound

    ends = [("su", "s", "u1"), ("sl", "s", "l1")]
    for it in range(1, rungs):
        ends += [(f"{rail}{it}", f"{rail}{it}", f"{rail}{it + 1}") for rail in "ul"]
    ends += [(f"r{it}", f"u{it}", f"l{it}") for it in range(1, rungs + 1)]
    ends += [(f"{rail}t", f"{rail}{rungs}", "t") for rail in "ul"]
    links = []
    for name, tail, head in ends:
        transit = draw(5)
        links.append(Link(name, tail, head, transit, draw(4)))
    pieces = [(0, draw(6)), (10, draw(6)), (20, 0)]
    return Network("ladders", f"ladder {number}/{rungs}", f"ladder{number}-{rungs}", links, pieces, "s", "t", horizon)


LADDERS = [(7, 10), (7, 15), (3, 15), (3, 20), (7, 20), (2, 15), (1, 20), (2, 20), (1, 30), (2, 30)]


def ladders(_):
    """Returns ladders up to 30, ten after the supply has ended."""
    return [ladder(number, rungs, 30) for number, rungs in LADDERS]


FAMILIES = {"city": city, "grids": grids, "random": random_networks, "ladders": ladders}

# ---- files beside a network ----


def loads_text(report):
    """Returns the loads file of what each link takes in a report, or None where a link has more pieces than such a file may have."""
    pieces = collections.defaultdict(list)
    for words in map(str.split, report.splitlines()):
        if words and words[0] == "inflow":
            pieces[words[1]].append((words[2], "0" if words[4] == "-" else words[4]))
    if not pieces or max(map(len, pieces.values())) > 200:
        return None
    lines = [f"rate {link} {start} {rate}" for link in pieces for start, rate in pieces[link]]
    return "\n".join(["loads 1", *lines, "end", ""])


def many_loads_text(network, count):
    """Returns a loads file with so many pieces for each link, up to twice its capacity."""
    draws, lines = Draws(count), ["loads 1"]
    for it in network.links:
        start = 0
        for _ in range(count):
            lines.append(f"rate {it.name} {start} {fractions.Fraction(draws.below(12 * it.capacity), 6)}")
            start += draws.within(1, 9)
    return "\n".join([*lines, "end", ""])


def distances(links, source):
    """Returns the least sum of transits from the source to each node that is reached."""
    found, ready = {}, [(0, source)]
    while ready:
        length, node = heapq.heappop(ready)
        if node not in found:
            found[node] = length
            for it in links:
                if it.tail == node:
                    heapq.heappush(ready, (length + it.transit, it.head))
    return found


def steps_of(network):
    """Returns the links out of each node that lead farther from the source and from whose head the sink is still reached so."""
    far = distances(network.links, network.source)
    steps, leads = collections.defaultdict(list), {network.sink}
    for it in sorted(network.links, key=lambda link: -far[link.tail]):
        if far[it.head] > far[it.tail] and it.head in leads and it.tail != network.sink:
            steps[it.tail].append(it)
            leads.add(it.tail)
    return steps


def routes_of(network, count):
    """Returns up to so many routes, each step of which leads farther from the source, so that no two of their links go round."""
    steps, draws, made = steps_of(network), Draws(len(network.links)), []
    for _ in range(20 * count):
        node, route = network.source, []
        while node != network.sink:
            route.append(steps[node][draws.below(len(steps[node]))])
            node = route[-1].head
        if route not in made and len(made) < count:
            made.append(route)
    return made


def routes_text(network):
    """Returns a routes file that shares the network's supply among some routes (a shortest one is always found)."""
    made = routes_of(network, 8)
    lines = ["routes 1"]
    for number, route in enumerate(made):
        lines.append(f"route way{number} " + " ".join(it.name for it in route))
        lines += [f"rate way{number} {start} {fractions.Fraction(rate, len(made))}" for start, rate in network.pieces]
    return "\n".join([*lines, "end", ""])


def amount_of(network):
    """Returns how much is supplied in all."""
    pieces = network.pieces
    return sum(rate * (pieces[at + 1][0] - start) for at, (start, rate) in enumerate(pieces[:-1]))


# ---- runs ----


class Shelf:
    """Writes the files of the runs into a folder, and asks the program under test for the reports that other runs read."""

    def __init__(self, folder, program, patterns):
        self.folder, self.program, self.patterns = folder, program, patterns

    def put(self, name, text):
        path = f"{self.folder}/{name}"
        with open(path, "w", encoding="utf-8") as it:
            it.write(text)
        return path

    def report(self, network, net, horizon):
        """Returns the file with the report of a network up to a departure, and its text; no file where none is written."""
        words = [*self.program, "solve", net, "--horizon", str(horizon), "--patterns", str(self.patterns[0])]
        text = subprocess.run(words, stdout=subprocess.PIPE, stderr=subprocess.DEVNULL, check=False).stdout.decode()
        return (self.put(f"{network.name}.{horizon}.report", text) if text else None), text


def solve_words(_, network, net, patterns):
    """Yields the words of `solve`, with each budget of patterns."""
    for budget in patterns:
        yield f"; {budget}", [net, "--horizon", str(network.horizon), "--patterns", str(budget)]


def check_words(shelf, network, net, _):
    """Yields the words of `check` for the solved report."""
    report, _ = shelf.report(network, net, network.horizon)
    if report:
        yield "", [net, report]


def load_words(shelf, network, net, _):
    """Yields the words of `load` for what the links take in the solved report, and for 100 drawn pieces on each."""
    _, text = shelf.report(network, net, network.horizon)
    loads = loads_text(text)
    if loads:
        yield "", [net, shelf.put(f"{network.name}.loads", loads), "--horizon", str(2 * network.horizon)]
    many = shelf.put(f"{network.name}.many", many_loads_text(network, 100))
    yield "; many", [net, many, "--horizon", "1000"]


def quick_words(_, network, net, __):
    """Yields the words of `quick` for the whole supply."""
    yield "", [net, "--amount", str(amount_of(network))]


def resume_words(shelf, network, net, patterns):
    """Yields the words of `resume` from half of the horizon to the whole of it, with each budget of patterns."""
    report, _ = shelf.report(network, net, network.horizon // 2)
    for budget in patterns if report else []:
        yield f"; {budget}", [net, report, "--horizon", str(network.horizon), "--patterns", str(budget)]


def routes_words(shelf, network, net, _):
    """Yields the words of `routes` for some routes."""
    routes = shelf.put(f"{network.name}.routes", routes_text(network))
    yield "", [net, routes, "--horizon", str(2 * network.horizon)]


COMMANDS = {
    "solve": solve_words,
    "check": check_words,
    "load": load_words,
    "quick": quick_words,
    "resume": resume_words,
    "routes": routes_words,
}


def cases_of(asked, shelf):
    """Yields the runs that are asked for, and writes their files."""
    for family in asked.families:
        networks = [it for it in FAMILIES[family](asked) if re.search(asked.only, it.name)]
        for network in networks[:: asked.every]:
            net = shelf.put(f"{network.name}.net", text_of(network))
            for command in asked.commands:
                for suffix, words in COMMANDS[command](shelf, network, net, asked.patterns):
                    yield Case(family, network.group + suffix, network.name + suffix, command, [command, *words])


def answer_of(words, limit):
    """Runs a program once, and returns what it answers; none where it takes more seconds than the limit."""
    try:
        ran = subprocess.run(words, stdin=subprocess.DEVNULL, capture_output=True, timeout=limit, check=False)
    except subprocess.TimeoutExpired:
        return None
    return Answer(ran.returncode, ran.stdout, ran.stderr)


def seconds_of(words):
    """Runs a program with its output thrown away, and returns the processor seconds that it takes."""
    null = [(os.POSIX_SPAWN_OPEN, at, os.devnull, os.O_RDWR, 0) for at in range(3)]
    pid = os.posix_spawn(words[0], words, os.environ, file_actions=null)
    used = os.wait4(pid, 0)[2]
    return used.ru_utime + used.ru_stime


def counted_of(words):
    """Runs a program under valgrind, and returns the instructions that it takes, in millions."""
    told = ["valgrind", "--tool=callgrind", "--callgrind-out-file=/dev/null", *words]
    said = subprocess.run(told, stdin=subprocess.DEVNULL, capture_output=True, check=False).stderr.decode()
    return int(re.search(r"Collected : (\d+)", said)[1]) / 1e6


def measure(runs, asked):
    """Returns the answers of the programs' runs, and the least that each takes: they take turns."""
    answers = [answer_of(it, asked.limit) for it in runs]
    least, spent, turn = [0.0] * len(runs), 0.0, 0
    cost = counted_of if asked.count else seconds_of
    while turn < (1 if asked.count else asked.runs) and (turn == 0 or spent < asked.seconds):
        for at, words in enumerate(runs):
            if answers[at]:
                took = cost(words)
                least[at] = took if turn == 0 else min(least[at], took)
                spent += took
        turn += 1
    return answers, least


# ---- tables ----


def statuses_of(results, at=0):
    """Returns how many runs of a program end with which status, in words: `0: 28, 6: 2`."""
    counts = collections.Counter(it.answers[at].status if it.answers[at] else "stopped" for it in results)
    return ", ".join(f"{status}: {counts[status]}" for status in sorted(counts, key=str))


def is_known(result, at):
    """Whether another program has the command at all, and ended in time."""
    usage = 2
    return result.answers[at] is not None and (result.answers[at].status != usage or result.answers[0].status == usage)


def beside(results, at):
    """Returns the cells for another program: its time, the ratio of the sums, the greatest single ratio, and what isn't the same."""
    known = [it for it in results if it.answers[0] and is_known(it, at)]
    if not known:
        return ["", "", "", ""]
    ours, theirs = (sum(it.seconds[one] for it in known) for one in (0, at))
    most = max((it.seconds[0] / it.seconds[at] for it in known if it.seconds[at]), default=0)
    differing = [it for it in known if it.answers[0] != it.answers[at]]
    same = f"{len(known) - len(differing)} of {len(known)}"
    return [shown(theirs), f"{ours / theirs:.2f}" if theirs else "", f"{most:.2f}", same]


def shown(seconds):
    """Returns milliseconds, or millions of instructions, for a table."""
    return f"{seconds:.1f}"


def print_table(title, groups, asked):
    """Prints a table with a line for each group of results."""
    names = [os.path.basename(it) for it in asked.other]
    heads = [title, "runs", "statuses", "sum"]
    for name in names:
        heads += [name, "ratio", "most", "same bytes"]
    print("\n| " + " | ".join(heads) + " |\n|" + "---|" * len(heads))
    for name, results in groups.items():
        ours = sum(it.seconds[0] for it in results)
        cells = [name, str(len(results)), statuses_of(results), shown(ours)]
        for at in range(len(names)):
            cells += beside(results, at + 1)
        print("| " + " | ".join(cells) + " |", flush=True)


def grouped(results, key):
    """Returns the results by a key, in the order in which the keys come first."""
    groups = collections.OrderedDict()
    for it in results:
        groups.setdefault(key(it), []).append(it)
    return groups


def print_tables(results, asked):
    """Prints the tables: by group, and each family by the status of its runs."""
    unit = "millions of instructions" if asked.count else "milliseconds"
    print(f"In {unit}; `most` is the greatest ratio of one run; `same bytes` counts runs with the same status and output.")
    for command, found in grouped(results, lambda it: it.case.command).items():
        print_table(command, grouped(found, lambda it: it.case.group), asked)
    budget = re.compile(r"; (\d+)$")

    def family(it):
        patterns = budget.search(it.case.name)
        status = it.answers[0].status if it.answers[0] else "stopped"
        return f"{it.case.command} {it.case.family}{'; ' + patterns[1] if patterns else ''}; status {status}"

    print_table("by status", grouped(results, family), asked)


def print_each(result, asked):
    """Prints a line for one run, and what isn't the same."""
    if asked.each:
        times = "  ".join(f"{it:9.2f}" for it in result.seconds)
        print(f"{result.case.command:7} {result.case.name:32} {statuses_of([result]):10} {times}", flush=True)
    for at in range(1, len(result.answers)):
        if result.answers[0] and is_known(result, at) and result.answers[0] != result.answers[at]:
            print(f"not the same bytes: {shlex.join(result.case.words)}  ({asked.other[at - 1]})", flush=True)


def program_of(text):
    """Returns the words of a program, the first of them as its file."""
    name, *words = shlex.split(text)
    file = shutil.which(name)
    if not file:
        sys.exit(f"city: there is no program {name}")
    return [file, *words]


def run_all(asked, folder):
    """Makes the runs, and prints what they show."""
    programs = [program_of(it) for it in [asked.program, *asked.other]]
    scale = 1 if asked.count else 1000
    results = []
    for case in cases_of(asked, Shelf(folder, programs[0], asked.patterns)):
        own = [[*it[:1], *case.words, *it[1:]] for it in programs]
        answers, seconds = measure(own, asked)
        results.append(Result(case, answers, [it * scale for it in seconds]))
        print_each(results[-1], asked)
    if results:
        print_tables(results, asked)


def words_like(pattern):
    """Returns a reader of words with commas between them, all of which the pattern allows."""

    def words_of(text):
        words = text.split(",")
        for word in words:
            if not re.fullmatch(pattern, word):
                raise argparse.ArgumentTypeError(f"{word} isn't {pattern}")
        return words

    return words_of


def numbers_of(text):
    """Reads whole numbers with commas between them."""
    return [int(it) for it in text.split(",")]


def asked_for():
    """Reads the command line."""
    how = argparse.ArgumentParser(description=__doc__, formatter_class=argparse.RawDescriptionHelpFormatter)
    how.add_argument("--program", default=shlex.quote(PROGRAM), help="the program under test, with further words where wanted")
    how.add_argument("--other", action="append", default=[], help="another program beside it, with further words; may be given again")
    how.add_argument("--families", type=words_like("|".join(FAMILIES)), default=list(FAMILIES), help="city,grids,random,ladders")
    how.add_argument("--commands", type=words_like("|".join(COMMANDS)), default=["solve"], help="solve,check,load,quick,resume,routes")
    how.add_argument("--patterns", type=numbers_of, default=[100_000], help="pattern budgets: 100000,1000000")
    how.add_argument("--pairs", type=words_like("[0-9]+-[0-9]+"), default=None, help="of the city: 1-20,13-3; all of six zones without it")
    how.add_argument("--demands", type=numbers_of, default=DEMANDS, help="of the city, in vehicles an hour")
    how.add_argument("--roundings", type=words_like("|".join(ROUNDINGS)), default=list(ROUNDINGS), help="of the city: hundred,minute,coarse")
    how.add_argument("--horizons", type=numbers_of, default=[60, 120], help="of the city, in minutes")
    how.add_argument("--seeds", type=int, default=4, help="how many grids and random networks of each size")
    how.add_argument("--every", type=int, default=1, help="take each so-manieth network of a family alone")
    how.add_argument("--only", default="", help="take networks whose names this pattern finds")
    how.add_argument("--runs", type=int, default=5, help="how many timed runs of each program; 0 compares bytes alone")
    how.add_argument("--seconds", type=float, default=2.0, help="no further turn of timed runs after so many seconds of a case")
    how.add_argument("--limit", type=float, default=120.0, help="a run that takes more seconds is stopped")
    how.add_argument("--count", action="store_true", help="count instructions by valgrind in place of time")
    how.add_argument("--each", action="store_true", help="print a line for each run")
    how.add_argument("--keep", help="a folder that the files are left in")
    return how.parse_args()


def main():
    asked = asked_for()
    if asked.keep:
        os.makedirs(asked.keep, exist_ok=True)
        return run_all(asked, asked.keep)
    with tempfile.TemporaryDirectory() as folder:
        return run_all(asked, folder)


if __name__ == "__main__":
    sys.exit(main())
