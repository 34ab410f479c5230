"""Quickest flows, the cuts over time that prove them, and the equilibrium beside them.

MODEL.md, "Quickest flows"; LISTS.md, "Quickest flows"; FORMATS.md, "What `quick` writes".
"""
from .exact import QUICK, ZERO
from .loading import cumulative
from .network import reached_from
from .phases import DONE, solve
from .residual import FORWARD, Residual

PHASES, PATTERNS = 10000, 100000


class PushesSpent(Exception):
    """The budget of pushes is spent: the walks that were pushed."""

    def __init__(self, walks):
        super().__init__(walks)
        self.walks = walks


class QuickestFlow:
    """The least time (`IsQuickest`), the walks as pairs of a rate and links, a cut over time (`IsCut`) and its value."""

    def __init__(self, time, walks, cut, value):
        self.time = time
        self.walks = walks
        self.cut = cut
        self.value = value


def has_unbounded_walk(net):
    """Whether a walk of unbounded links leads from source to sink. Then no amount above 0 has a quickest flow."""
    unbounded = [(link.tail, link.head) for link in net.links if link.capacity is None]
    return net.sink in reached_from(net.source, unbounded)


def quickest_flow(net, amount, augments):
    """The quickest flow of an amount, pushing at most so many walks (the list Quickest); raises PushesSpent."""
    if amount == ZERO:
        return QuickestFlow(ZERO, [], [ZERO] * len(net.nodes), ZERO)
    residual = Residual(net)
    time = pushed_time(residual, amount, augments)
    walks = walks_of(net, residual.flow)
    cut = cut_of(net, residual, time)
    return QuickestFlow(time, walks, cut, cut_value(net, cut))


def pushed_time(residual, amount, augments):
    """Pushes shortest walks until one is at least as long as the time of the pushed ones, or there is none; that time.

    Each walk is fed at its rate until the time minus its length. The pushed walks bring the amount by this time: the
    amount plus the sum of rate times length, over the sum of rates (the list Time).
    """
    pushed, time = [], None
    so_far = rates = ZERO
    while True:
        walk = residual.shortest_walk()
        if walk is None or (time is not None and walk.length >= time):
            return time
        if len(pushed) == augments:
            raise PushesSpent(pushed)
        residual.push(walk)
        pushed.append(walk)
        so_far = QUICK.sum(so_far, QUICK.product(walk.rate, walk.length))
        rates = QUICK.sum(rates, walk.rate)
        time = QUICK.quotient(QUICK.sum(amount, so_far), rates)


def walks_of(net, flow):
    """Takes walks off a static flow until no flow is left at the source. A walk is a pair of a rate and links.

    It leaves each node by the first link out of it with flow left. Its rate is the least flow left on it.
    """
    left = list(flow)
    walks = []
    while first_with_flow(net, left, net.source) is not None:
        links, node = [], net.source
        while node != net.sink:
            links.append(first_with_flow(net, left, node))
            node = net.links[links[-1]].head
        rate = min(left[e] for e in links)
        for e in links:
            left[e] = QUICK.difference(left[e], rate)
        walks.append((rate, links))
    return walks


def first_with_flow(net, left, node):
    """The first link out of a node with flow left; None where there is none."""
    return next((e for e in net.out_of[node] if left[e] > ZERO), None)


def cut_of(net, residual, time):
    """Each node's time in the cut, by distances in the residual network.

    It is the least of the time, the distance from the source, and the time plus the distance from the sink.
    """
    from_source = residual.distances_from(net.source)
    from_sink = residual.distances_from(net.sink)
    cut = []
    for v in range(len(net.nodes)):
        candidates = [time]
        if from_source[v] is not None:
            candidates.append(from_source[v])
        if from_sink[v] is not None:
            candidates.append(QUICK.sum(time, from_sink[v]))
        cut.append(min(candidates))
    return cut


def cut_value(net, cut):
    """The sum over the links with a capacity ν, from v to w, of ν max(0, a_w - τ - a_v) (`cut_value`)."""
    value = ZERO
    for link in net.links:
        if link.capacity is not None:
            gap = QUICK.difference(QUICK.difference(cut[link.head], link.transit), cut[link.tail])
            if gap > ZERO:
                value = QUICK.sum(value, QUICK.product(link.capacity, gap))
    return value


def departure_of(net, amount):
    """The first departure by which an amount above 0 is supplied, or None (the list Departure)."""
    supplied = ZERO
    for i, (start, rate) in enumerate(net.pieces):
        if i + 1 < len(net.pieces):
            supplied_next = cumulative(net.pieces, net.pieces[i + 1][0], QUICK)[-1][1]
            if supplied_next < amount:
                supplied = supplied_next
                continue
        elif rate == ZERO:
            return None
        missing = QUICK.difference(amount, supplied)
        return QUICK.sum(start, QUICK.quotient(missing, rate))
    return None


def equilibrium_words(net, amount):
    """The last line of `quick`: when who leaves last of the amount arrives in the equilibrium."""
    departure = ZERO if amount == ZERO else departure_of(net, amount)
    if departure is None:
        return "equilibrium none"
    solution = solve(net, departure, PHASES, PATTERNS)
    if solution.cause != DONE:
        return f"equilibrium stopped {solution.cause}"
    return f"equilibrium {solution.flow.labels[net.sink][-1][1]}"


def quick_lines(net, amount, quickest):
    """What `quick` writes where it finds the quickest flow."""
    lines = [f"quick {quickest.time}"]
    lines += [f"walk {rate} " + " ".join(net.links[e].name for e in links) for rate, links in quickest.walks]
    lines += [f"cut {name} {time}" for name, time in zip(net.nodes, quickest.cut)]
    return lines + [f"value {quickest.value}", equilibrium_words(net, amount)]


def augment_lines(net, walks):
    """What `quick` writes where the budget of pushes is spent: the walks that were pushed."""
    return [f"augment {walk.rate} " + " ".join(("+" if direction == FORWARD else "-") + net.links[e].name
                                                for e, direction in walk.steps) for walk in walks]
