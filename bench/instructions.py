#!/usr/bin/env python3
"""Counts the instructions of a program's runs by callgrind, beside those of another program on the same files.

    python3 bench/instructions.py PROGRAM [PEER] [--only WORD] [--each]

The count of a run is the same each time, whatever else the machine does. The networks are those of bench/city.py, made by its own generator:

    solve city      the 30 ordered pairs of six zones of the city, 60,000 vehicles an hour for an hour, to departure 60
    solve pieces    one pair of zones with 10, 40 and 160 pieces of supply
    solve ladders   ten generated ladders, to departure 30
    solve grids     six grids of 36 to 64 nodes
    solve random    twelve random networks of 20 to 64 nodes
    check           twelve of the reports that PROGRAM wrote for these networks
    show            the same reports' networks
    load            100 drawn pieces on each link of six networks
    quick supply    the whole supply of the ladders, and of six grids
    quick rounds    a billion through eight layered networks of 62 nodes and 200 links, which is never supplied: pushes and nothing else
    forever         `solve --forever` of six grids, six random networks, the ladders and seven examples
    resume          twelve reports up to half of their horizon, resumed to the whole of it
    routes          up to eight routes, which lead away from the source, through six grids and six random networks
    settle          the thin flows at departure 0 of the same twelve reports
    gen             six ladders

PEER takes the same words; it is also given `--fast` for solve, quick and gen, and once more `--skip` for the ladders. It need not know forever,
resume, routes and settle: these runs have PROGRAM's instructions alone. Without PEER its columns are left out. Runs that end with status 6 (the budget of patterns) are summed apart. A line of the table: the work, how many runs, their statuses,
millions of instructions of PROGRAM and of PEER, the quotient, and in how many runs both wrote the same bytes with the same status.

Statuses: 0 the table was printed; 1 a program or valgrind isn't there, or a run failed under valgrind; 2 wrong arguments.
"""
import argparse
import collections
import os
import shutil
import subprocess
import sys
import tempfile

sys.dont_write_bytecode = True
import city

# A run: the part of the table that it belongs to, the words of the program, and those that the peer has beside them (None: not run by it).
Run = collections.namedtuple("Run", "work words peer_words")
# What a run took: its part, its status, instructions of both, and whether both answered the same (None without a peer).
Count = collections.namedtuple("Count", "work status ours theirs same")

BUDGET_STATUS = 6
# Statuses of runs whose words or files are wrong.
WRONG = (2, 3, 4)
# An amount that none of the networks supplies.
NEVER_SUPPLIED = 10**9
# The layered networks: nodes of a layer, layers.
LAYERS = [(6, 10), (10, 6), (12, 5), (20, 3)]
EXAMPLES_FOLDER = f"{city.HERE}/../examples"
EXAMPLES = ["braess", "bridge", "corridor", "even", "merge", "paradox", "two"]
ZONE_PAIRS = [f"{a}-{b}" for a in city.ZONES for b in city.ZONES if a != b]
GENERATED = [(7, 10), (7, 15), (3, 20), (2, 30), (1, 30), (7, 20)]


class Failed(Exception):
    """A program can't be run, or its instructions can't be counted."""


# ---- networks ----


def pieces_network(count):
    """Returns a city network whose supply changes this often within the hour."""
    network = city.city_network("1-20", 30_000, "hundred", 60)
    draws = city.Draws(count)
    minutes = city.HOUR * 10
    starts = [minutes * at // count for at in range(count)]
    pieces = [(city.fractions.Fraction(start, 10), draws.within(100, 600)) for start in starts]
    return network._replace(name=f"pieces{count}", pieces=[*pieces, (city.HOUR, 0)])


def grid_networks():
    return [city.grid("grid", size, seed, (1, 9), (3, 12), (2, 10)) for size in (6, 7, 8) for seed in range(2)]


def random_networks():
    return [city.random_network(nodes, seed) for nodes in (20, 40, 64) for seed in range(4)]


def ladder_networks():
    return city.ladders(None)


def city_networks():
    return [city.city_network(pair, 60_000, "hundred", 60) for pair in ZONE_PAIRS]


def layered_network(width, depth, seed):
    """Returns layers of nodes with 200 links from each layer to the next, of unlike transits and capacities, between source and sink.

    The supply, one an hour for an hour, is never used up: `quick` is asked for more.
    """
    draws = city.Draws(seed * 1000 + width)

    def node(layer):
        return f"n{layer}_{draws.below(width)}"

    ends = [("s", f"n0_{at}") for at in range(width)] + [(f"n{depth - 1}_{at}", "t") for at in range(width)]
    ends += [(f"n{layer}_{at}", f"n{layer + 1}_{at}") for layer in range(depth - 1) for at in range(width)]
    while len(ends) < 200:
        layer = draws.below(depth - 1)
        ends.append((node(layer), node(layer + 1)))
    links = [
        city.Link(f"e{number}", tail, head, draws.within(1, 60), draws.within(1, 1000))
        for number, (tail, head) in enumerate(ends)
    ]
    return city.Network("layers", "layers", f"layers{width}x{depth}_{seed}", links, [(0, 1), (1, 0)], "s", "t", 1)


def layered_networks():
    """Returns layered networks through which many walks are pushed."""
    return [layered_network(width, depth, seed) for width, depth in LAYERS for seed in range(2)]


def reported_networks():
    """Returns the twelve networks whose reports are checked."""
    return city_networks()[::6] + ladder_networks()[:5] + grid_networks()[:1] + random_networks()[:1]


# ---- runs ----


def solve_runs(shelf):
    """Yields the runs of `solve`."""
    families = {
        "city": city_networks(),
        "pieces": [pieces_network(count) for count in (10, 40, 160)],
        "ladders": ladder_networks(),
        "grids": grid_networks(),
        "random": random_networks(),
    }
    for family, networks in families.items():
        for network in networks:
            words = ["solve", shelf.put(f"{network.name}.net", city.text_of(network)), "--horizon", str(network.horizon)]
            if family == "ladders":
                yield Run("solve ladders, peer --skip", words, ["--skip"])
            yield Run(f"solve {family}", words, ["--fast"])


def report_runs(shelf):
    """Yields the runs of `check` and `show`."""
    for network in reported_networks():
        net = shelf.put(f"{network.name}.net", city.text_of(network))
        report, _ = shelf.report(network, net, network.horizon)
        if report:
            yield Run("check", ["check", net, report], [])
        yield Run("show", ["show", net], [])


def other_runs(shelf):
    """Yields the runs of `load`, `quick` and `gen`."""
    for network in grid_networks():
        net = shelf.put(f"{network.name}.net", city.text_of(network))
        loads = shelf.put(f"{network.name}.many", city.many_loads_text(network, 100))
        yield Run("load", ["load", net, loads, "--horizon", "1000"], [])
    for network in ladder_networks() + grid_networks():
        net = shelf.put(f"{network.name}.net", city.text_of(network))
        yield Run("quick supply", ["quick", net, "--amount", str(city.amount_of(network))], ["--fast"])
    for network in layered_networks():
        net = shelf.put(f"{network.name}.net", city.text_of(network))
        yield Run("quick rounds", ["quick", net, "--amount", str(NEVER_SUPPLIED), "--augments", "100000"], ["--fast"])
    for number, rungs in GENERATED:
        yield Run("gen", ["gen", "--number", str(number), "--rungs", str(rungs), "--horizon", "30"], ["--fast"])


def forever_runs(shelf):
    """Yields the runs of `solve --forever`."""
    nets = [f"{EXAMPLES_FOLDER}/{name}.net" for name in EXAMPLES]
    for network in grid_networks() + random_networks()[:6] + ladder_networks():
        nets.append(shelf.put(f"{network.name}.net", city.text_of(network)))
    for net in nets:
        yield Run("forever", ["solve", net, "--forever"], None)


def route_runs(shelf):
    """Yields the runs of `routes`."""
    for network in grid_networks() + random_networks()[:6]:
        net = shelf.put(f"{network.name}.net", city.text_of(network))
        routes = shelf.put(f"{network.name}.routes", city.routes_text(network))
        yield Run("routes", ["routes", net, routes, "--horizon", str(2 * network.horizon)], None)


def later_runs(shelf):
    """Yields the runs of `resume` and `settle`, from reports of PROGRAM."""
    for network in reported_networks():
        net = shelf.put(f"{network.name}.net", city.text_of(network))
        half, text = shelf.report(network, net, network.horizon // 2)
        if half:
            yield Run("resume", ["resume", net, half, "--horizon", str(network.horizon)], None)
            yield Run("settle", ["settle", net, shelf.put(f"{network.name}.flows", flows_text(network, text))], None)


def first_slope(points):
    """Returns the slope of a curve from its first corner to the second."""
    (start, low), (end, high) = points[:2]
    return (high - low) / (end - start)


def flows_text(network, report):
    """Returns the flows file of the thin flow at departure 0 of a report.

    A link's flow is its inflow at the first label of its tail, by unit of departure: that rate times the slope of this label.
    """
    labels, rates = collections.defaultdict(list), collections.defaultdict(list)
    for words in map(str.split, report.splitlines()):
        if words and words[0] == "label":
            labels[words[1]].append((city.fractions.Fraction(words[2]), city.fractions.Fraction(words[3])))
        elif words and words[0] == "inflow":
            rates[words[1]].append((city.fractions.Fraction(words[2]), words[4]))
    lines = ["flows 1"]
    for it in network.links:
        tail = str(it.tail)
        if tail in labels:
            now = [rate for start, rate in rates[it.name] if start <= labels[tail][0][1]]
            flow = city.fractions.Fraction(now[-1]) * first_slope(labels[tail]) if now and now[-1] != "-" else 0
            lines.append(f"flow {it.name} {flow}")
    lines += [f"slope {node} {first_slope(points)}" for node, points in labels.items()]
    return "\n".join([*lines, "end", ""])


# ---- counts ----


def answered(words):
    """Returns the status of a run, and what it writes."""
    ran = subprocess.run(words, stdin=subprocess.DEVNULL, capture_output=True, check=False)
    return ran.returncode, ran.stdout, ran.stderr


def instructions(words):
    """Returns how many instructions a run takes."""
    told = ["valgrind", "--tool=callgrind", "--callgrind-out-file=/dev/null", *words]
    said = subprocess.run(told, stdin=subprocess.DEVNULL, stdout=subprocess.DEVNULL, stderr=subprocess.PIPE, check=False).stderr.decode()
    lines = [line.split()[-1] for line in said.splitlines() if "Collected :" in line]
    if not lines:
        raise Failed(f"callgrind counts nothing for {' '.join(words)}")
    return int(lines[0])


def count_of(run, program, peer):
    """Returns what a run takes."""
    own = [program, *run.words]
    answer = answered(own)
    if answer[0] in WRONG:
        raise Failed(f"{' '.join(own)} ends with status {answer[0]}")
    ours = instructions(own)
    if not peer or run.peer_words is None:
        return Count(run.work, answer[0], ours, None, None)
    other = [peer, *run.words, *run.peer_words]
    return Count(run.work, answer[0], ours, instructions(other), answered(other) == answer)


def parts_of(counts):
    """Returns the counts by part of the table, runs that end by their budget apart."""
    parts = collections.OrderedDict()
    for it in counts:
        parts.setdefault((it.work, ""), []).append(it)
    split = collections.OrderedDict()
    for (work, _), them in parts.items():
        split[work] = them
        ended = [it for it in them if it.status == BUDGET_STATUS]
        if ended and len(ended) < len(them):
            split[f"{work}, without status {BUDGET_STATUS}"] = [it for it in them if it.status != BUDGET_STATUS]
            split[f"{work}, status {BUDGET_STATUS} alone"] = ended
    return split


# ---- the table ----


def hundredths(number, of):
    """Returns a quotient with two decimals, rounded to the nearest."""
    whole = (200 * number + of) // (2 * of)
    return f"{whole // 100}.{whole % 100:02}"


def statuses_of(counts):
    """Returns how many runs end with which status."""
    found = collections.Counter(it.status for it in counts)
    return ", ".join(f"{status}: {found[status]}" for status in sorted(found))


def print_line(work, counts, peer):
    """Prints a line of the table."""
    ours = sum(it.ours for it in counts)
    cells = [work, str(len(counts)), statuses_of(counts), hundredths(ours, 10**6)]
    if counts[0].theirs is not None:
        theirs = sum(it.theirs for it in counts)
        cells += [hundredths(theirs, 10**6), hundredths(ours, theirs), str(sum(it.same for it in counts))]
    elif peer:
        cells += ["", "", ""]
    print("| " + " | ".join(cells) + " |", flush=True)


def print_head(peer):
    heads = ["work", "runs", "statuses", "millions"] + (["peer's millions", "quotient", "same bytes"] if peer else [])
    print("| " + " | ".join(heads) + " |\n|" + "---|" * len(heads), flush=True)


def table(asked, program, peer):
    """Makes the runs, and prints the table."""
    with tempfile.TemporaryDirectory() as folder:
        shelf = city.Shelf(folder, [program], [100_000])
        counts = []
        for runs in (solve_runs, report_runs, other_runs, forever_runs, later_runs, route_runs):
            for run in runs(shelf):
                if asked.only not in run.work:
                    continue
                counts.append(count_of(run, program, peer))
                if asked.each:
                    print_line(" ".join(os.path.basename(word) for word in run.words), counts[-1:], peer)
    print_head(peer)
    for work, them in parts_of(counts).items():
        print_line(work, them, peer)


def file_of(name):
    """Returns the file of a program."""
    found = shutil.which(name)
    if not found:
        raise Failed(f"there is no program {name}")
    return os.path.realpath(found)


def asked_for():
    """Reads the command line."""
    how = argparse.ArgumentParser(description=__doc__, formatter_class=argparse.RawDescriptionHelpFormatter)
    how.add_argument("program", metavar="PROGRAM")
    how.add_argument("peer", metavar="PEER", nargs="?")
    how.add_argument("--only", default="", help="the parts whose names have this word")
    how.add_argument("--each", action="store_true", help="print a line for each run first")
    return how.parse_args()


def main():
    asked = asked_for()
    try:
        file_of("valgrind")
        table(asked, file_of(asked.program), file_of(asked.peer) if asked.peer else None)
    except (Failed, OSError) as fault:
        print(f"instructions: {fault}", file=sys.stderr)
        return 1
    return 0


if __name__ == "__main__":
    sys.exit(main())
