"""Going on past the pattern budget: states for `resume` to begin with, found by repairing a pattern.

Where `solve` tries as many patterns as allowed, the package looks for a pattern whose equations give a thin flow at the departure that
the report has reached. `resume` then accepts the first pattern that it tries. Nothing is trusted: `resume` checks the report and the
pattern itself.
"""
from __future__ import annotations

from fractions import Fraction
from typing import Callable, Dict, Iterator, List, Mapping, Optional, Set, Tuple

from .calling import Answer
from .drafts import Link
from .networks import Network
from .program import progress
from .numbers import short
from .report_file import report_of
from .report_values import Report

MOST_STEPS, MOST_HINTS = 2000, 500
TIGHT, FULL, ZERO = "tight", "full", "zero"

States = Dict[str, str]
Slopes = Dict[str, Fraction]
Rows = Dict[str, Dict[str, Fraction]]


class Question:
    """What a thin flow is asked of: the rate, the nodes, the active links and which of them are resetting, at the departure reached."""

    def __init__(self, net: Network, report: Report) -> None:
        labels = {node: report.label(node)(report.reached) for node in net.nodes()}
        waits = {link.name: labels[link.head] - labels[link.tail] - link.transit for link in net.used_links()}
        rates = [rate for start, rate in net.supply if start <= report.reached]
        self.source, self.sink, self.rate = net.source, net.sink, rates[-1] if rates else Fraction(0)
        self.links: Dict[str, Link] = {link.name: link for link in net.used_links() if waits[link.name] >= 0}
        self.resetting = {name for name in self.links if waits[name] > 0}
        self.free = [name for name in self.links if name not in self.resetting]
        self.into: Dict[str, List[str]] = {node: [] for node in labels}
        for name, link in self.links.items():
            self.into[link.head].append(name)
        self.kept = report.states
        self.nodes = self._sorted()

    def _sorted(self) -> List[str]:
        """The nodes, each after the tails of the active links into it; those behind a cycle are left out."""
        order: List[str] = []
        left = {node: len(into) for node, into in self.into.items()}
        ready = [node for node in left if not left[node]]
        while ready:
            node = ready.pop()
            order.append(node)
            for link in self.links.values():
                left[link.head] -= link.tail == node
                if link.tail == node and not left[link.head]:
                    ready.append(link.head)
        return order

    def has_answer(self) -> bool:
        """Whether active links enter each node but the source and hold no cycle, and each resetting one has a capacity."""
        entered = [node for node in self.nodes if self.into[node] or node == self.source]
        return len(entered) == len(self.into) and all(self.links[name].capacity is not None for name in self.resetting)

    def first_states(self) -> States:
        """The pattern with which the search begins: kept states, else Tight for the first link into a node without queue, else Zero."""
        states = {}
        for name in self.free:
            into = self.into[self.links[name].head]
            first = into[0] == name and not self.resetting & set(into)
            states[name] = self.kept.get(name) or (TIGHT if first else ZERO)
        return states

    def components(self, states: States) -> Tuple[Dict[str, str], List[str]]:
        """A name of its Tight component for each node, and the Tight links that close a cycle with those before them."""
        names, closing = {node: node for node in self.nodes}, []
        for name in self.free:
            if states[name] == TIGHT:
                here, there = names[self.links[name].tail], names[self.links[name].head]
                if here == there:
                    closing.append(name)
                else:
                    names.update((node, there) for node in names if names[node] == here)
        return names, closing

    def make_listed(self, states: States, slopes: Slopes) -> None:
        """Changes states so that the Tight links form a forest and each node but the source is entered."""
        for name in self.components(states)[1]:
            states[name] = ZERO
        for node in self.nodes:
            if node != self.source and all(name in self.free and states[name] == ZERO for name in self.into[node]):
                self._enter(node, states, slopes)

    def _enter(self, node: str, states: States, slopes: Slopes) -> None:
        """Makes a link into the node Tight: that whose tail has the least slope."""
        new = min(self.into[node], key=lambda name: slopes.get(self.links[name].tail, Fraction(0)))
        tail = self.links[new].tail
        for name in [name for name in self.free if states[name] == TIGHT and self.links[name].tail == node]:
            joined = self.components(states)[0]
            if joined[tail] != joined[node]:
                break
            states[name] = ZERO  # a Tight link out of the node gives way where it leads towards the tail
            parted = self.components(states)[0]
            states[name] = TIGHT if parted[tail] == parted[node] else ZERO
        states[new] = TIGHT

    def loaded(self, states: States) -> List[Tuple[Link, Fraction]]:
        """The links that carry their capacity times the slope of their head, with the capacity."""
        names = [name for name in self.links if name in self.resetting or states[name] == FULL]
        return [(self.links[name], self.links[name].capacity or Fraction(0)) for name in names]

    def slopes_of(self, states: States) -> Slopes:
        """The slopes that solve a listed pattern's equations: the nodes of a Tight component have the same.

        The balance of each component but the source's is a row over the slopes of the components. A column has its greatest entry on
        the diagonal and sums to at least 0 (an M-matrix, never singular for a listed pattern), so the diagonal is the pivot.
        """
        names = self.components(states)[0]
        root = names[self.source]
        rows: Rows = {name: {} for name in dict.fromkeys(names[node] for node in reversed(self.nodes)) if name != root}
        right = {name: self.rate if name == names[self.sink] else Fraction(0) for name in rows}
        for link, capacity in self.loaded(states):
            here, there = names[link.tail], names[link.head]
            for name, amount in ((there, capacity), (here, -capacity)):
                if here != there and name != root:
                    rows[name][there] = rows[name].get(there, Fraction(0)) + amount
        for name, row in rows.items():
            right[name] -= row.pop(root, Fraction(0))  # the source has the slope 1
        slopes = {root: Fraction(1), **_solution(rows, right)}
        return {node: slopes[names[node]] for node in self.nodes}

    def flows_of(self, states: States, slopes: Slopes) -> Dict[str, Fraction]:
        """The flows that solve a listed pattern's equations with these slopes."""
        flows = {name: Fraction(0) for name in self.links}
        spare = {node: Fraction(0) for node in self.nodes}
        spare[self.source] += self.rate
        spare[self.sink] -= self.rate
        for link, capacity in self.loaded(states):
            flows[link.name] = capacity * slopes[link.head]
            spare[link.tail] -= flows[link.name]
            spare[link.head] += flows[link.name]
        tight = [self.links[name] for name in self.free if states[name] == TIGHT]
        at_node = {node: {link.name for link in tight if node in (link.tail, link.head)} for node in self.nodes}
        leaves = [node for node in self.nodes if len(at_node[node]) == 1]
        while leaves:
            leaf = leaves.pop()
            for link in [self.links[name] for name in at_node[leaf]]:  # at most one
                other = link.head if leaf == link.tail else link.tail
                flows[link.name] = spare[leaf] if leaf == link.tail else -spare[leaf]
                spare[other] += spare[leaf]
                at_node[leaf] = set()
                at_node[other].remove(link.name)
                leaves += [other] * (len(at_node[other]) == 1)
        return flows

    def repairs(self, states: States, slopes: Slopes) -> Iterator[Tuple[str, str]]:
        """The links whose inequalities are broken, with the states that they should rather have."""
        flows = self.flows_of(states, slopes)
        for name in self.free:
            link, flow, state = self.links[name], flows[name], states[name]
            here, there = slopes[link.tail], slopes[link.head]
            if state == TIGHT and flow < 0:
                yield name, ZERO
            elif state == TIGHT and link.capacity is not None and flow > link.capacity * there:
                yield name, FULL
            elif state == FULL and there < here or state == ZERO and there > here:
                yield name, TIGHT

    def answer(self) -> Optional[States]:
        """A listed pattern whose solution meets all inequalities; None where none is found."""
        states, slopes = self.first_states(), {}  # type: States, Slopes
        seen: Set[Tuple[str, ...]] = set()
        for step in range(1, MOST_STEPS + 1):
            self.make_listed(states, slopes)
            slopes = self.slopes_of(states)
            repairs = list(self.repairs(states, slopes))
            if not repairs:
                return states
            if tuple(states.values()) in seen:  # the search goes in a circle: one repair alone, another one each time
                repairs = [repairs[step % len(repairs)]]
            seen.add(tuple(states.values()))
            self.repair(states, repairs)
        return None

    def repair(self, states: States, repairs: List[Tuple[str, str]]) -> None:
        """Changes the states of links, but for Tight ones that would close a cycle with those before."""
        for name, state in sorted(repairs, key=lambda repair: repair[1] == TIGHT):
            before, states[name] = states[name], state
            if state == TIGHT and self.components(states)[1]:
                states[name] = before


def _solution(rows: Rows, right: Slopes) -> Slopes:
    """The solution of linear equations, one row for each unknown, whose pivots are on the diagonal."""
    order = list(rows)
    for at, name in enumerate(order):
        for other in order[at + 1:]:
            _eliminate(rows, right, name, other)
    found: Slopes = {}
    for name in reversed(order):
        known = sum((amount * found[column] for column, amount in rows[name].items() if column != name), Fraction(0))
        found[name] = (right[name] - known) / rows[name][name]
    return found


def _eliminate(rows: Rows, right: Slopes, name: str, other: str) -> None:
    """Takes an unknown out of another row by its own one."""
    factor = rows[other].pop(name, Fraction(0)) / rows[name][name]
    if factor:
        right[other] -= factor * right[name]
        for column, amount in rows[name].items():
            if column != name:
                rows[other][column] = rows[other].get(column, Fraction(0)) - factor * amount


def hinted(net: Network, report: Report) -> Optional[Report]:
    """The report with states that give a thin flow at the departure reached; None where none are found."""
    question = Question(net, report)
    states = question.answer() if question.has_answer() else None
    if states is None:
        return None
    return Report(report.horizon, report.reached, report.labels, report.inflows, report.outflows, report.queues, states, report.cause,
                  net, rates=report.rates)


def go_on_past(net: Network, report: Report, again: Callable[[Mapping[str, str]], Answer]) -> Report:
    """The report of a run, gone on while patterns are used up and `again`, which resumes, accepts what the package finds."""
    with progress("solve") as show:
        for hints in range(MOST_HINTS):
            show(f"departure {short(report.reached)} of {short(report.horizon)}, {hints} hints")
            with_states = hinted(net, report) if report.cause.startswith("patterns ") else None
            if with_states is None:
                break
            text = again({"network": net.text(), "report": with_states.text()}).out
            following = report_of(text, "the report of nfot", net) if text else report
            if not text or following.cause.startswith("patterns 1 "):
                break
            report = following
    return report
