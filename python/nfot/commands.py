"""The ten commands of `nfot` as calls, each with an answer of its own.

Each call takes a network or the name of its file, and `timeout` in seconds for each run of the program. Besides the faults that it
names, each raises NotFound without a program, Killed where a signal ended it, Timeout, and a Fault with status 1 where memory is short.
"""
from __future__ import annotations

from fractions import Fraction
from typing import Callable, Iterable, List, Mapping, Optional, Sequence, Tuple, Union

from .answers import Carried, Forever, Generated, Lines, Loaded, Quickest, Settled, Verdict, lines_of
from .calling import Answer, ask, stop_of, words_of_budgets
from .faults import Fault, Refused, Stopped, Unbounded, with_memory
from .given import Net, Run, as_network, as_report, as_routes
from .graph import path_of
from .hints import go_on_past
from .lines import PathLike
from .drafts import fitting
from .networks import Network
from .numbers import Number, pairs_of
from .report_file import report_of
from .report_values import Report
from .meanings import meaning

Pieces = Iterable[Tuple[Number, Number]]
Again = Callable[[Mapping[str, str]], Answer]


@with_memory()
def solve(net: Net, horizon: Number, *, phases: Optional[int] = None, patterns: Optional[int] = None,
          timeout: Optional[float] = None, go_on: bool = True) -> Report:
    """The equilibrium of all who leave by the horizon.

    `phases` and `patterns` are budgets of each call of the program, `timeout` is in seconds and holds for each. Where the patterns of
    a phase are used up, the run goes on from a pattern that the package finds, unless `go_on` is false. Raises Stopped, with the
    report, where the horizon isn't reached.
    """
    network = as_network(net)
    words = ["--horizon", str(_horizon(horizon)), *words_of_budgets(phases=phases, patterns=patterns)]
    answer = ask("solve", words, {"network": network.text()}, timeout=timeout, statuses=(0, 5, 6, 7))
    return _reached(network, answer, _again("solve", words, timeout) if go_on else None)


@with_memory()
def resume(net: Net, report: Run, horizon: Number, *, phases: Optional[int] = None, patterns: Optional[int] = None,
           timeout: Optional[float] = None, go_on: bool = True) -> Report:
    """The run of a report, gone on up to the horizon, as `solve`.

    Refused with status 10 where the report is no equilibrium, and with 16 where it has reached a departure after the horizon.
    """
    network = as_network(net)
    words = ["--horizon", str(_horizon(horizon)), *words_of_budgets(phases=phases, patterns=patterns)]
    files = {"network": network.text(), "report": as_report(network, report).text()}
    answer = ask("resume", words, files, timeout=timeout, statuses=(0, 5, 6, 7, 10))
    if answer.status == 10:
        raise Refused(f"the report is no equilibrium: {_verdict(answer.out).why}", status=10)
    return _reached(network, answer, _again("resume", words, timeout) if go_on else None)


def _horizon(horizon: Number) -> Fraction:
    """The horizon; Refused where it is negative."""
    number = fitting(horizon, "horizon")
    if number < 0:
        raise Refused(f"the horizon {number} is negative")
    return number


def _again(caller: str, words: Sequence[str], timeout: Optional[float]) -> Again:
    """How a call goes on from its files: by `resume`, whose faults name the call."""
    return lambda files: ask("resume", words, files, timeout=timeout, statuses=(0, 5, 6, 7), caller=caller)


def _reached(net: Network, answer: Answer, again: Optional[Again]) -> Report:
    """The report of a run, gone on past the pattern budget by `again` if that is given; Stopped where it doesn't reach the horizon."""
    report = report_of(answer.out, "the report of nfot", net) if answer.out or not answer.cause else None
    if report is not None and again is not None and answer.status == 6:
        report = go_on_past(net, report, again)
    if report is None or report.cause != "done":
        raise stop_of(report.cause if report else answer.cause, report)
    return report


@with_memory()
def check(net: Net, report: Run, *, timeout: Optional[float] = None) -> Verdict:
    """Whether the flow of a report is an equilibrium of the network up to the departure reached.

    Stopped where an operation passes (status 7). Refused where the report breaks a rule.
    """
    network = as_network(net)
    files = {"network": network.text(), "report": as_report(network, report).text()}
    return _verdict(ask("check", [], files, timeout=timeout, statuses=(0, 10)).out)


def _verdict(text: str) -> Verdict:
    """The answer that a line `yes` or `no RULE SUBJECT TIME LEFT RIGHT` gives."""
    words = text.split()
    if words == ["yes"]:
        return Verdict(True)
    if words[:1] != ["no"] or len(words) != 6:
        raise Fault(f"nfot answered neither yes nor no: {text[:80]!r}", status=1)
    _, rule, subject, time, left, right = words
    why = f"{rule} doesn't hold for {subject} at {time}: the report has {left}, and {right} is right ({meaning(rule)})"
    return Verdict(False, rule, subject, Fraction(time), Fraction(left), Fraction(right), why)


def _lines(kind: str, pieces: Mapping[str, Pieces]) -> List[str]:
    """The lines `rate NAME START RATE` of pieces by name, between the first line of their file and its last one."""
    rates = [f"rate {name} {fitting(start, 'start')} {fitting(rate, 'rate')}" for name, given in pieces.items() for start, rate in pairs_of(given, f"rates of {name}")]
    return [f"{kind} 1", *rates, "end", ""]


def _loading(command: str, net: Net, horizon: Number, given: Union[PathLike, List[str]], timeout: Optional[float]) -> Lines:
    """The lines of the answer of `load` or `routes`, given the name of their file or its lines."""
    texts, kind = {"network": as_network(net).text()}, {"load": "loads"}.get(command, command)
    named = {} if isinstance(given, list) else {kind: given}
    texts.update({kind: "\n".join(given)} if isinstance(given, list) else {})
    return lines_of(ask(command, ["--horizon", str(_horizon(horizon))], texts, named, timeout=timeout).out)


@with_memory()
def load(net: Net, loads: Union[PathLike, Mapping[str, Pieces]], horizon: Number, *, timeout: Optional[float] = None) -> Loaded:
    """Queues, outflows and exits of links that take given inflows, up to the time horizon.

    `loads` has pieces (start, rate) by link, or is the name of a loads file. Refused by L1 to L12.
    """
    given = _lines("loads", loads) if isinstance(loads, Mapping) else loads
    found = _loading("load", net, horizon, given, timeout)
    return Loaded(found.curves_of("queue"), found.curves_of("outflow"), found.curves_of("exit"))


@with_memory()
def routes(net: Net, routes: Union[PathLike, Mapping[str, Tuple[Sequence[str], Pieces]]], horizon: Number, *,
           timeout: Optional[float] = None) -> Carried:
    """Queues, outflows, exits, arrivals and travel times of what is sent along routes up to the time horizon.

    `routes` has (links, pieces (start, rate)) by route, or is the name of a routes file. Refused by G1 to G17.
    """
    given: Union[PathLike, List[str]]
    if isinstance(routes, Mapping):
        parts = as_routes(routes)
        given = _lines("routes", {name: pieces for name, (_, pieces) in parts.items()})
        given[1:1] = [f"route {name} {' '.join(links)}" for name, (links, _) in parts.items()]
    else:
        given = routes
    found = _loading("routes", net, horizon, given, timeout)
    return Carried(*(found.curves_of(kind) for kind in ("queue", "outflow", "exit", "arrival", "travel")))


@with_memory()
def show(net: Net) -> str:
    """The canonical text of a network, as `nfot show` writes it."""
    return ask("show", [], {"network": as_network(net).text()}).out


@with_memory()
def quick(net: Net, amount: Number, *, augments: Optional[int] = None, timeout: Optional[float] = None) -> Quickest:
    """The quickest flow of an amount, its cut, and when the amount has arrived in the equilibrium.

    Unbounded, with a walk of links without capacity, where any amount arrives in no time. Stopped (status 11) where `augments` is
    used up, or 7.
    """
    network = as_network(net)
    words = ["--amount", str(fitting(amount, "amount")), *words_of_budgets(augments=augments)]
    answer = ask("quick", words, {"network": network.text()}, timeout=timeout, statuses=(0, 14))
    if answer.status == 14:
        links = path_of(network.source, network.sink, [link for link in network.used_links() if link.capacity is None])
        raise Unbounded(f"any amount arrives at once: a walk of unbounded links leads to the sink: {' '.join(links)}", links=links)
    found = lines_of(answer.out, ended=False)
    walks = tuple((Fraction(rate), tuple(links)) for rate, *links in found.words.get("walk", []))
    equilibrium = _arrival(found.only("equilibrium"))
    return Quickest(Fraction(found.only("quick")[0]), walks, found.numbers["cut"], Fraction(found.only("value")[0]), equilibrium)


def _arrival(words: List[str]) -> Union[Fraction, None, Stopped]:
    """What the line `equilibrium` of `quick` says."""
    if words[0] == "stopped":
        return stop_of(" ".join(words[1:]), None)
    return None if words[0] == "none" else Fraction(words[0])


@with_memory()
def forever(net: Net, *, phases: Optional[int] = None, patterns: Optional[int] = None, timeout: Optional[float] = None) -> Forever:
    """The run without a horizon, up to the phase that never ends, with the slopes and flows of that phase.

    Stopped, with the report up to the departure reached, where a budget is used up (status 12 or 6) or an operation passes (7). That
    report has the next whole departure as its horizon, since a report has one.
    """
    network = as_network(net)
    words = ["--forever", *words_of_budgets(phases=phases, patterns=patterns)]
    answer = ask("solve", words, {"network": network.text()}, timeout=timeout, statuses=(0, 6, 7, 12))
    found = lines_of(answer.out)
    reached = found.only("reached")[0]
    kept = ("label ", "never ", "inflow ", "outflow ", "queue ", "state ")
    body = [line for line in answer.out.splitlines() if line.startswith(kept)]
    horizon, cause = (int(Fraction(reached)) + 1, answer.cause) if answer.status else (reached, "done")
    head = [f"report {network.version}", f"horizon {horizon}", f"reached {reached}", f"cause {cause}"]
    report = report_of([*head, *body, "end"], "the run of nfot", network)
    if answer.status:
        raise stop_of(answer.cause, report, status=answer.status)
    return Forever(report, found.numbers["slope"], found.numbers["flow"])


@with_memory()
def settle(net: Net, flows: Union[PathLike, Mapping[str, Number]], slopes: Mapping[str, Number] = {}, *,
           timeout: Optional[float] = None) -> Settled:
    """The thin flow of given flows and slopes at departure 0 without flow round cycles, with the states of its links.

    `flows` has the flow of each link that carries some and `slopes` the slope of each node, or `flows` is the name of a flows file.
    Refused by S1 to S11, and with status 15 where they are no thin flow.
    """
    texts, named = {"network": as_network(net).text()}, {}
    if isinstance(flows, Mapping):
        lines = [f"flow {link} {fitting(flow, 'flow')}" for link, flow in flows.items()]
        lines += [f"slope {node} {fitting(slope, 'slope')}" for node, slope in slopes.items()]
        texts["flows"] = "\n".join(["flows 1", *lines, "end", ""])
    else:
        named["flows"] = flows
    found = lines_of(ask("settle", [], texts, named, timeout=timeout).out)
    return Settled({link: state for link, state in found.words.get("state", [])}, found.numbers.get("flow", {}))


@with_memory()
def gen(number: int, rungs: int, horizon: Number, *, phases: Optional[int] = None, patterns: Optional[int] = None,
        timeout: Optional[float] = None) -> Generated:
    """The run of a ladder, a network that its number stands for, up to the horizon. Stopped where the horizon isn't reached."""
    words = ["--number", str(number), "--rungs", str(rungs), "--horizon", str(_horizon(horizon))]
    answer = ask("gen", words + words_of_budgets(phases=phases, patterns=patterns), {}, timeout=timeout)
    found = lines_of(answer.out, ended=False)
    nodes, links, made = (int(found.only(kind)[0]) for kind in ("nodes", "links", "phases"))
    arrival, reached = Fraction(found.only("arrival")[0]), Fraction(found.only("reached")[0])
    return Generated(number, rungs, nodes, links, made, reached, " ".join(found.only("cause")), arrival)
