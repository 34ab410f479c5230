"""Patterns: the case distinction of a thin flow, and the order in which a search tries them.

MODEL.md, "Thin flows with resetting" and "Patterns"; LISTS.md, "Listed patterns and the search".
A pattern (`Pattern`) is a list with one entry for each link: a State, or None.
"""
from enum import Enum

from . import exact


class State(Enum):
    """The state of a link in a pattern (`State`), in the order of the search."""

    TIGHT = "tight"
    FULL = "full"
    ZERO = "zero"


TIGHT, FULL, ZERO = State


class Sets:
    """Which links are active and which resetting."""

    def __init__(self, active, resetting):
        self.active = active
        self.resetting = resetting


def sets_of(slacks):
    """A link is active where its slack is at least 0, and resetting where it is above 0 (`sets_of`)."""
    return Sets([slack >= exact.ZERO for slack in slacks], [slack > exact.ZERO for slack in slacks])


def has_state(sets, e):
    """Whether the link has a state: the active links that are not resetting have one (`IsPattern`)."""
    return sets.active[e] and not sets.resetting[e]


def states(link):
    """The states that a link may have: an unbounded link is never Full (`IsPattern`)."""
    return (TIGHT, ZERO) if link.capacity is None else (TIGHT, FULL, ZERO)


def base_pattern(net, sets, last):
    """The base of a phase, given the last phase's pattern (`IsBase`).

    A link that is to have a state keeps that of the last phase. Where it had none, it is Tight or Zero. It is Tight if it
    is the first active link into its head, in link order, and no resetting link enters that node.
    """
    base = []
    for e, link in enumerate(net.links):
        entering = [f for f in net.into[link.head] if sets.active[f]]
        if not has_state(sets, e):
            base.append(None)
        elif last[e] is not None:
            base.append(last[e])
        elif e == entering[0] and not any(sets.resetting[f] for f in entering):
            base.append(TIGHT)
        else:
            base.append(ZERO)
    return base


def listing(net, sets, base):
    """The listed patterns in their order, one after the other (`IsListing`).

    Patterns that differ from the base at fewer links come first. Of two that differ at equally many, the first one has
    the earlier state at the first link where they differ (`IsBefore`).
    """
    listed = Listing(net, sets, base)
    component, entering = listed.start()
    if all(entering[1:]):           # the source, node 0, need not be entered
        for changes in range(len(listed.links) + 1):
            yield from listed.completions(0, changes, component, entering)


class Listing:
    """The listed patterns of some sets, enumerated link by link (`IsListed`).

    `component` tells which nodes the Tight links so far join. `entering` counts the links that may enter each node: those
    that are resetting, Tight or Full, and those without a state so far. A Tight link between joined nodes would close a
    cycle, and a node that no link may enter would be stranded: no pattern that goes on so is listed.
    """

    def __init__(self, net, sets, base):
        self.net = net
        self.sets = sets
        self.links = [e for e in range(len(net.links)) if has_state(sets, e)]
        self.base = base
        self.pattern = [None] * len(net.links)

    def start(self):
        """Components and entering links where no link has a state."""
        component = list(range(len(self.net.nodes)))
        entering = [sum(self.sets.active[e] for e in into) for into in self.net.into]
        return component, entering

    def completions(self, i, changes, component, entering):
        """Yields the listed patterns with the states of `pattern` before the i-th link and so many changes from it on.

        A change is a link whose state differs from the base.
        """
        if i == len(self.links):
            yield list(self.pattern)
            return
        e = self.links[i]
        for state in states(self.net.links[e]):
            changes_left = changes if state == self.base[e] else changes - 1
            if not 0 <= changes_left < len(self.links) - i:
                continue
            after = self.with_state(e, state, component, entering)
            if after is not None:
                self.pattern[e] = state
                yield from self.completions(i + 1, changes_left, *after)

    def with_state(self, e, state, component, entering):
        """Components and entering links with this state of the link; None where no such pattern is listed."""
        link = self.net.links[e]
        if state == TIGHT:
            tail, head = component[link.tail], component[link.head]
            if tail == head:
                return None
            return [head if c == tail else c for c in component], entering
        if state == ZERO:
            if entering[link.head] == 1 and link.head != self.net.source:
                return None
            entering = list(entering)
            entering[link.head] -= 1
        return component, entering
