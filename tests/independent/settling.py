"""Settling: a thin flow whose interior links hold no cycle, and its pattern.

LISTS.md, "Settling"; FORMATS.md, "The flows file, and what `settle` writes".
"""
from .exact import VERDICT, ZERO as NOTHING
from .lines import joined
from .network import start_labels
from .patterns import FULL, TIGHT, ZERO, has_state, sets_of
from .phases import slacks
from .reports import state_lines
from .thin_flows import is_thin_flow


def settle_text(net, flows, slopes):
    """What `settle` writes, or None where flows and slopes are no thin flow of departure 0.

    The sets are those of the least transit sums from the source, and the rate is that from time 0 on. The operations are
    those of the slacks, then of the test, then of settling (`PassesFirst`).
    """
    sets = sets_of(slacks(net, start_labels(net)))
    rate = net.rate_at(NOTHING)
    test_operations(net, sets, rate, flows, slopes)
    if not is_thin_flow(net, sets, rate, flows, slopes):
        return None
    flows = settled(net, sets, flows, slopes)
    lines = state_lines(net, settled_pattern(net, sets, flows, slopes))
    lines += [f"flow {link.name} {flow}" for link, flow in zip(net.links, flows)]
    return joined(lines + ["end"])


def test_operations(net, sets, rate, flows, slopes):
    """The operations of the test whether flows and slopes are thin (`thin_list`). Each may pass; no value is used."""
    for v in range(len(net.nodes)):
        for links in (net.into[v], net.out_of[v]):
            total = NOTHING
            for e in links:
                if sets.active[e]:
                    total = VERDICT.sum(total, flows[e])
        if v == net.sink:
            VERDICT.sum(total, rate)
    filling_flows(net, sets, slopes)


def filling_flows(net, sets, slopes):
    """The flow that fills each active link with a capacity: the capacity times its head's slope. None for other links."""
    return [VERDICT.product(link.capacity, slopes[link.head]) if sets.active[e] and link.capacity is not None else None
            for e, link in enumerate(net.links)]


def settled(net, sets, flows, slopes):
    """The flows once interior links hold no cycle (`Settles`).

    Along each cycle the flow changes by the least amount at which a link is filled or empty.
    """
    filling = filling_flows(net, sets, slopes)
    flows = list(flows)
    while True:
        cycle = first_cycle(net, interior_links(net, sets, flows, filling))
        if cycle is None:
            return flows
        rooms = [VERDICT.difference(filling[e], flows[e]) for e, forward in cycle if forward and filling[e] is not None]
        amount = min(rooms + [flows[e] for e, forward in cycle if not forward])
        for e, forward in cycle:
            change = VERDICT.sum if forward else VERDICT.difference
            flows[e] = change(flows[e], amount)


def interior_links(net, sets, flows, filling):
    """The links that are active and not resetting, and carry some flow, but less than fills them."""
    return [e for e in range(len(net.links)) if has_state(sets, e) and flows[e] > NOTHING
            and (filling[e] is None or flows[e] < filling[e])]


def first_cycle(net, links):
    """The cycle that the first such link closes with links before it, taken without direction, or None (`IsNextCycle`).

    The cycle is a list of pairs in link order: a link, and whether it is taken forward. Its lowest link is.
    """
    before = []
    for e in links:
        path = path_between(net, before, net.links[e].head, net.links[e].tail)
        if path is not None:
            cycle = sorted([(e, True)] + path)
            lowest_forward = cycle[0][1]
            return cycle if lowest_forward else [(f, not forward) for f, forward in cycle]
        before.append(e)
    return None


def path_between(net, forest, start, end):
    """The path between two nodes in a forest of links, taken without direction, or None.

    It is a list of pairs: a link, and whether it is taken forward.
    """
    paths = {start: []}
    nodes = [start]
    for v in nodes:
        for e in forest:
            link = net.links[e]
            for here, there, forward in ((link.tail, link.head, True), (link.head, link.tail, False)):
                if here == v and there not in paths:
                    paths[there] = paths[v] + [(e, forward)]
                    nodes.append(there)
    return paths.get(end)


def settled_pattern(net, sets, flows, slopes):
    """The pattern of settled flows (`IsSettledPattern`): Zero for no flow, Full where the flow fills the link, else Tight.

    There is an exception at nodes other than the source. Where all active links into a node carry nothing and none is
    resetting, the first of them with equal slopes at its ends is Tight.
    """
    pattern = [None] * len(net.links)
    for e, link in enumerate(net.links):
        if has_state(sets, e):
            full = link.capacity is not None and flows[e] == link.capacity * slopes[link.head]
            pattern[e] = ZERO if flows[e] == NOTHING else FULL if full else TIGHT
    for v in range(len(net.nodes)):
        entering = [e for e in net.into[v] if sets.active[e]]
        if v != net.source and all(pattern[e] == ZERO for e in entering):
            level = [e for e in entering if slopes[net.links[e].tail] == slopes[v]]
            if level:
                pattern[level[0]] = TIGHT
    return pattern
