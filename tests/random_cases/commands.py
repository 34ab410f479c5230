"""A random case of each command: its files, valid, changed at random or broken at a chosen rule, and its options."""
from __future__ import annotations

import random
from dataclasses import replace
from fractions import Fraction

from . import breaking
from .breaking_reports import break_report
from .case import Call, spelled
from .corrupting import corrupted, respelled, with_odd_end
from .crafted import crafted_files
from .flow_changes import changed_flow, foreign_states
from .limits import full_file, second_file_at_limits, show_at_limits
from .networks import PLAIN, WIDE, joined, some_network
from .numerals import LARGEST, chance, near_powers, printed, some_time, wide
from .places import beside_a_place
from .reports import read_report
from .running import AnswerOf
from .side_files import flows_lines, full_loads_lines, loads_lines, routes_lines

NUMBER_COLUMNS = {"link": 4, "inflow": 1, "rate": 2, "flow": 2, "slope": 2}


def with_budgets(rng, options):
    """The options with a budget of patterns that is small enough for the slow program, and at times one of phases."""
    options = options + [("patterns", rng.choice([1, 2, 3, 5, 20, 100, 300, 300, 300]))]
    return options + [("phases", rng.choice([1, 1, 2, 3, 5, 10]))] if chance(rng, 0.3) else options


def some_horizon(rng, answer_of, network):
    """A horizon: at an event of the network, between two, or any time."""
    if chance(rng, 0.5):
        return some_time(rng)
    answer = answer_of(["solve", "N", "--horizon", "60", "--patterns", "300", "--phases", "6"], {"N": network.text()})
    if not answer.out:
        return some_time(rng)
    times = read_report(answer.out).event_times()
    i = rng.randrange(len(times))
    return times[i] if i + 1 == len(times) or chance(rng, 0.6) else (times[i] + times[i + 1]) / 2


def changed_text(rng, text, break_one):
    """The file as it is, in another spelling, with bytes changed at random, or broken at one chosen rule or at several."""
    kind = rng.random()
    if kind < 0.5:
        return text
    if kind < 0.65:
        text = respelled(rng, text, NUMBER_COLUMNS)
        return with_odd_end(rng, text) if chance(rng, 0.2) else text
    if kind < 0.75:
        return corrupted(rng, text)
    lines = text.decode("latin-1").splitlines()
    for _ in range(rng.choice([1, 1, 1, 2, 3])):
        if lines:
            break_one(lines)
    return joined(lines)


def network_text(rng, network):
    """The network's file, seldom changed: for commands that are asked about another file."""
    return corrupted(rng, network.text()) if chance(rng, 0.02) else network.text()


def show_call(rng, answer_of):
    """`show` of a network file of any kind."""
    if chance(rng, 0.12):
        return show_at_limits(rng, answer_of)
    network = some_network(rng, answer_of, ["row"] * 2 + PLAIN * 3 + WIDE)
    text = changed_text(rng, network.text(), lambda lines: rng.choice(
        [breaking.break_network, breaking.break_network, breaking.break_twice_on_a_line, breaking.break_two_words])(rng, lines))
    return Call("show", [], {"N": text})


def large_call(rng: random.Random, answer_of: AnswerOf) -> Call:
    """`solve` of a network of up to 64 nodes and 200 links, for a phase or two by few patterns."""
    network = some_network(rng, answer_of, ["row"])
    options = [("horizon", printed(some_time(rng))), ("phases", rng.choice([1, 1, 2])), ("patterns", rng.choice([1, 2, 3, 5, 20]))]
    return Call("solve", options, {"N": network.text()})


def solve_call(rng, answer_of):
    """`solve` up to an event, between events or to any time."""
    if chance(rng, 0.08):
        return large_call(rng, answer_of)
    network = some_network(rng, answer_of)
    horizon = printed(some_horizon(rng, answer_of, network))
    return Call("solve", with_budgets(rng, [("horizon", horizon)]), {"N": network_text(rng, network)})


def forever_call(rng, answer_of):
    """`solve` without a horizon."""
    network = some_network(rng, answer_of)
    options = with_budgets(rng, [("forever", None)])
    if not any(name == "phases" for name, _ in options):
        options.append(("phases", 40))
    return Call("solve", options, {"N": network_text(rng, network)})


def load_call(rng, answer_of):
    """`load` of pieces for some links."""
    network, horizon = some_network(rng, answer_of), some_time(rng)
    lines = full_loads_lines(rng, network) if chance(rng, 0.02) else loads_lines(rng, network, horizon)
    names, idle = names_of(network)
    text = changed_text(rng, joined(lines), lambda lines: breaking.break_loads(rng, lines, names, idle))
    return Call("load", [("horizon", printed(horizon))], {"N": network_text(rng, network), "X": text})


def names_of(network):
    """The names of the links that other files may name, and those of the idle ones."""
    names = [link.name for link in network.used_links()]
    return names, [link.name for link in network.links if link.name not in names]


def settle_call(rng, answer_of):
    """`settle` of a thin flow, or of flows near one."""
    network = some_network(rng, answer_of)
    _, idle = names_of(network)
    lines = flows_lines(rng, answer_of, network)
    text = joined(lines)
    if chance(rng, 0.6):
        text = changed_text(rng, text, lambda lines: breaking.break_flows(rng, lines, network.used_nodes(), idle))
    return Call("settle", [], {"N": network_text(rng, network), "F": text})


def routes_call(rng, answer_of):
    """`routes` of walks through the network."""
    network, horizon = some_network(rng, answer_of, ["layers"] * 12 + PLAIN * 3 + WIDE), Fraction(rng.randint(0, 12), rng.choice([1, 2, 3]))
    names, idle = names_of(network)
    text = changed_text(rng, joined(routes_lines(rng, network, horizon)), lambda lines: breaking.break_routes(rng, lines, names, idle))
    return Call("routes", [("horizon", printed(horizon))], {"N": network_text(rng, network), "G": text})


def some_amount(rng):
    """An amount: small, tiny, huge or wide."""
    kind = rng.random()
    if kind < 0.1:
        return rng.choice(["0", "-0", "0/7"])
    if kind < 0.5:
        return printed(Fraction(rng.randint(1, 60), rng.choice([1, 1, 2, 3, 7])))
    if kind < 0.65:
        return printed(Fraction(1, rng.choice([10, 1000, 10 ** 12, 2 ** 100, LARGEST])))
    if kind < 0.8:
        return str(rng.choice([1000, 10 ** 6, 10 ** 12, 10 ** 30]))
    return printed(rng.choice([wide(rng), near_powers(rng), Fraction(LARGEST), Fraction(LARGEST, 2)]))


def length_amount(answer_of, network):
    """An amount at which the quickest time equals the length of a walk: what two walks bring until the longer one is through."""
    answer = answer_of(["quick", "N", "--amount", "1000"], {"N": network.text()})
    walks = [line.split(" ")[1:] for line in answer.out.decode().splitlines() if line.startswith("walk")]
    transits = {link.name: link.transit for link in network.links}
    lengths = sorted((sum(transits[name] for name in names), Fraction(rate)) for rate, *names in walks)
    return printed(sum(rate * (lengths[-1][0] - length) for length, rate in lengths)) if lengths else "1"


def quick_call(rng, answer_of):
    """`quick` of an amount; most networks have no supply, so that no equilibrium is looked for."""
    network = some_network(rng, answer_of, ["row", "row", "layers"] + PLAIN + WIDE)
    if len(network.links) > 8 or chance(rng, 0.5):
        network = replace(network, pieces=[])
    amount = length_amount(answer_of, network) if chance(rng, 0.2) else some_amount(rng)
    options = [("amount", amount)]
    if chance(rng, 0.3):
        options.append(("augments", rng.choice([1, 1, 2, 3, 5, 100000])))
    return Call("quick", options, {"N": network_text(rng, network)})


def gen_call(rng, answer_of):
    """`gen` of a ladder."""
    rungs = rng.choice([1, 1, 2, 2, 3, 3, 4, 5, rng.randint(1, 30)])
    number = rng.choice([0, 1, 7, 65536, 65537, 65538, rng.randint(0, 200), rng.randint(0, 2 ** 64 - 1), 2 ** 64 - 1])
    horizon = rng.choice([printed(some_time(rng)), "30", "100", "40/2"])
    most = {1: 1000, 2: 1000, 3: 300, 4: 100}.get(rungs, 20)
    options = [("number", rng.choice([number, f"00{number}"])), ("rungs", rng.choice([rungs, f"0{rungs}"])), ("horizon", horizon),
               ("patterns", rng.choice([1, 2, 5, most]))]
    return Call("gen", options + [("phases", rng.choice([1, 2, 3, 5]))] if chance(rng, 0.35) else options, {})


def true_report(rng, answer_of):
    """A network and a report of it that `solve` writes, at an event or between, stopped at times."""
    while True:
        network = some_network(rng, answer_of, PLAIN * 4 + WIDE)
        horizon = some_horizon(rng, answer_of, network)
        call = Call("solve", with_budgets(rng, [("horizon", printed(horizon))]), {"N": network.text()})
        answer = answer_of(call.in_plain_words().words, call.files)
        if answer.out:
            return network, answer.out


def report_files(rng, answer_of):
    """A network and a report for it: true, changed as a flow, changed as a text, or broken at a rule; and the departure reached."""
    network, text = true_report(rng, answer_of)
    report = read_report(text)
    kind = rng.random()
    if kind < 0.55:
        text = changed_flow(rng, network, report, answer_of).text()
    elif kind < 0.65:
        text = foreign_states(rng, network, report).text()
    elif kind < 0.75:
        network = with_later_supply(rng, network, report)
    else:
        text = changed_report_text(rng, text)
    return {"N": network_text(rng, network), "R": text}, report.reached


def changed_report_text(rng, text):
    """The text of a report broken at a chosen rule or at several, corrupted, or cut."""
    kind = rng.random()
    if kind < 0.15:
        return corrupted(rng, text)
    if kind < 0.25:
        return text[:rng.randrange(len(text) + 1)]
    lines = text.decode().splitlines()
    for _ in range(rng.choice([1, 1, 1, 2, 3])):
        if lines:
            break_report(rng, lines)
    return joined(lines)[:-1 if chance(rng, 0.02) else None]


def with_later_supply(rng, network, report):
    """The network with another supply from the departure reached on, or from a time before."""
    time = report.reached + rng.choice([Fraction(0), Fraction(0), Fraction(1, 2), Fraction(3), -report.reached / 2])
    pieces = [piece for piece in network.pieces if piece[0] < time]
    changed = replace(network, pieces=pieces + [(time, Fraction(rng.randint(0, 6)))])
    return changed if changed.fits() else network


def check_call(rng, answer_of):
    """`check` of a report."""
    if chance(rng, 0.02):
        return Call("check", [], crafted_files(rng, answer_of))
    files, _ = report_files(rng, answer_of)
    return Call("check", [], files)


def resume_call(rng, answer_of):
    """`resume` from a report, mostly to a later horizon."""
    files, reached = report_files(rng, answer_of)
    horizon = max(Fraction(0), reached + Fraction(rng.choice([-1, 0, 1, 3, 7, 20]), rng.choice([1, 2, 3])))
    return Call("resume", with_budgets(rng, [("horizon", printed(horizon) if chance(rng, 0.9) else printed(some_time(rng)))]), files)


MAKERS = {"solve": solve_call, "show": show_call, "load": load_call, "check": check_call, "quick": quick_call, "gen": gen_call,
          "settle": settle_call, "forever": forever_call, "resume": resume_call, "routes": routes_call}
SHARES = {"solve": 4, "show": 3, "load": 2, "check": 4, "quick": 2, "gen": 1, "settle": 2, "forever": 2, "resume": 4, "routes": 2}


def some_case(rng, answer_of, commands):
    """A case of one of the commands, and the name of that command."""
    name = rng.choices(commands, [SHARES[command] for command in commands])[0]
    call = MAKERS[name](rng, answer_of)
    if chance(rng, 0.08):
        call = beside_a_place(rng, answer_of, call)
    if chance(rng, 0.02) and len(call.files) == 2:
        call = second_file_at_limits(rng, call)
    if chance(rng, 0.005) and call.files:
        call = Call(call.command, call.options, {**call.files, "N": full_file(rng)})
    return name, spelled(rng, call)
