"""Checks by definition of patterns, quickest flows, tails and loading by route. No list of operations is used.

MODEL.md, "Patterns" and "Quickest flows"; LISTS.md, "A run without a horizon" and "Loading by route".
"""
import itertools
from fractions import Fraction

from .direct import LoadedLink, between, plain, plain_points, supply, value
from .exact import ZERO as NOTHING
from .patterns import FULL, TIGHT, State, has_state
from .phases import Flow


def is_listed(net, sets, pattern):
    """Whether a pattern is listed (`IsListed`, `IsListedIn`).

    The Tight links, taken without direction, form a forest. Each node but the source is entered by a link that is Tight,
    Full or resetting. No unbounded link is Full.
    """
    entering = [e for e in range(len(net.links)) if sets.resetting[e] or pattern[e] in (TIGHT, FULL)]
    entered = {net.links[e].head for e in entering} | {net.source}
    no_full = all(link.capacity is not None or state != FULL for link, state in zip(net.links, pattern))
    tight = [(link.tail, link.head) for link, state in zip(net.links, pattern) if state == TIGHT]
    return no_full and len(entered) == len(net.nodes) and is_forest(tight)


def is_forest(ends):
    """Whether no closed trail takes each of its links once (`IsForest`).

    A link that is the only one at one of its ends is on no closed trail. Such links are removed until none is left.
    """
    left = list(ends)
    while left:
        at = [node for pair in left for node in pair]
        kept = [pair for pair in left if all(at.count(node) > 1 for node in pair)]
        if len(kept) == len(left):
            return False
        left = kept
    return True


def whole_listing(net, sets, base):
    """All listed patterns, those with fewer changes from the base first, then those with earlier states (`IsListing`)."""
    order = list(State)
    links = [e for e in range(len(net.links)) if has_state(sets, e)]
    found = []
    for choice in itertools.product(range(len(order)), repeat=len(links)):
        pattern = [None] * len(net.links)
        for e, place in zip(links, choice):
            pattern[e] = order[place]
        if is_listed(net, sets, pattern):
            found.append((sum(pattern[e] != base[e] for e in links), choice, pattern))
    return [pattern for _, _, pattern in sorted(found, key=lambda entry: entry[:2])]


class RepeatedFlow:
    """A temporally repeated flow: each walk is fed at its rate from time 0 until the end minus its transit sum.

    A feed is a link, a rate, and the times from which and until which the rate enters the link (`transit_sum`).
    """

    def __init__(self, net, walks, end):
        self.net = net
        self.feeds = []
        self.ends_in_time = True
        for rate, links in walks:
            length = sum(plain(net.links[e].transit) for e in links)
            self.ends_in_time = self.ends_in_time and length <= end
            begin = Fraction(0)
            for e in links:
                self.feeds.append((e, plain(rate), begin, begin + end - length))
                begin += plain(net.links[e].transit)

    def entered_by(self, e, time):
        """What has entered a link by a time (`entered_by`)."""
        return sum((rate * max(0, min(time, end) - begin) for f, rate, begin, end in self.feeds if f == e), Fraction(0))

    def left_by(self, e, time):
        """What has left a link by a time: what had entered it one transit time before (`left_by`)."""
        return self.entered_by(e, time - plain(self.net.links[e].transit))

    def is_feasible(self, until):
        """Whether it is a feasible flow over time (`IsFeasible`), at its corners and at times between them.

        Amounts never fall (`IsAmount`). What leaves a link between two times is at most the capacity times the time
        between. At each node but the source, no more has entered links out of it than has left links into it.
        """
        times = self.corners(until)
        within = all(self.is_within_capacity(e, start, end) for e in range(len(self.net.links))
                     for start, end in zip(times, times[1:]))
        nodes = [v for v in range(len(self.net.nodes)) if v != self.net.source]
        return self.ends_in_time and within and all(self.at_node(v, time) >= 0 for v in nodes for time in times)

    def corners(self, until):
        """The times at which a feed begins or ends at either end of its link, with times between."""
        times = [Fraction(0), until]
        for e, _, begin, end in self.feeds:
            transit = plain(self.net.links[e].transit)
            times += [begin, end, begin + transit, end + transit]
        return between(times)

    def is_within_capacity(self, e, start, end):
        """Whether what leaves a link between two times is at least 0, and at most the capacity times the time between."""
        left = self.left_by(e, end) - self.left_by(e, start)
        capacity = self.net.links[e].capacity
        return left >= 0 and (capacity is None or left <= plain(capacity) * (end - start))

    def at_node(self, v, time):
        """What has left links into a node by a time, minus what has entered links out of it (at the sink `delivered`)."""
        return sum((self.left_by(e, time) for e in self.net.into[v]), Fraction(0)) - sum(
            self.entered_by(e, time) for e in self.net.out_of[v])


def is_quickest(net, amount, quickest):
    """Whether a time is that of the quickest flow of an amount (`IsQuickest`).

    The walks are a feasible flow that delivers the amount by the time. The nodes' times are a cut over time (`IsCut`)
    whose value (`cut_value`) is the amount. No feasible flow delivers more than a cut's value.
    """
    time, cut = plain(quickest.time), [plain(number) for number in quickest.cut]
    repeated = RepeatedFlow(net, quickest.walks, time)
    gaps = [cut[link.head] - plain(link.transit) - cut[link.tail] for link in net.links]
    is_cut = cut[net.source] == 0 and cut[net.sink] == time and all(
        link.capacity is not None or gap <= 0 for link, gap in zip(net.links, gaps))
    cut_value = sum(plain(link.capacity) * max(0, gap) for link, gap in zip(net.links, gaps) if link.capacity is not None)
    delivered = repeated.at_node(net.sink, time)
    return is_cut and repeated.is_feasible(time) and delivered == cut_value == plain(quickest.value) == plain(amount)


def extended(net, flow, tail, until):
    """The flow of a run with a tail, up to a later departure (`extended`).

    Each curve has one point more, on the line of the tail, but none where the label of its node stands still.
    """
    slopes, flows = tail
    longer = until - flow.reached
    labels = [points[-1][1] + longer * slope for points, slope in zip(flow.labels, slopes)]
    new = Flow(until, [points + [(until, label)] for points, label in zip(flow.labels, labels)], [], [], [])
    for e, link in enumerate(net.links):
        amount = flow.inflows[e][0][-1][1] + longer * flows[e]
        slack = labels[link.head] - labels[link.tail] - link.transit
        queue = link.capacity * slack if link.capacity is not None and slack > NOTHING else NOTHING
        moves_in, moves_out = slopes[link.tail] > NOTHING, slopes[link.head] > NOTHING
        new.inflows.append(longer_trace(flow.inflows[e], labels[link.tail], amount, moves_in))
        new.outflows.append(longer_trace(flow.outflows[e], labels[link.head], amount, moves_out))
        new.queues.append(flow.queues[e] + ([(labels[link.tail], queue)] if moves_in else []))
    return new


def longer_trace(trace, time, amount, moves):
    """The trace with one point more, where the label of its node moves; the rate before it is the slope to it."""
    points, rates = trace
    if not moves:
        return trace
    last_time, last_amount = points[-1]
    return points + [(time, amount)], rates + [(amount - last_amount) / (time - last_time)]


class DirectRoutes:
    """What routes carry, in plain fractions (`IsRouted`): the entries into their links, then the arrivals, and travels.

    Each link's inflow is the sum of the entries into it.
    """

    def __init__(self, net, routes, routed, horizon):
        self.routes = routes
        self.horizon = plain(horizon)
        self.ends = [plain(end) for end in routed.ends]
        self.carried = [[plain_points(entry) for entry in entries] + [plain_points(arrival)]
                        for entries, arrival in zip(routed.entries, routed.arrivals)]
        self.travels = [plain_points(points) for points in routed.travels]
        self.loaded = [[plain_points(points) for points in (loaded.queue, loaded.outflow, loaded.exits)]
                       for loaded in routed.loaded]
        self.links = [LoadedLink(link, self.inflow_of(e)) for e, link in enumerate(net.links)]

    def inflow_of(self, e):
        """The sum of the entries into a link."""
        entries = [self.carried[r][route.links.index(e)] for r, route in enumerate(self.routes) if e in route.links]
        times = sorted({Fraction(0)} | {time for points in entries for time, _ in points})
        return [(time, sum((value(points, time) for points in entries), Fraction(0))) for time in times]

    def complaints(self):
        """Where something is not as defined, at sample times."""
        found = []
        for r in range(len(self.routes)):
            found += self.wrong_entry(r) + self.wrong_passages(r) + self.wrong_travel(r)
        for e in range(len(self.links)):
            found += self.wrong_end(e) + self.wrong_loading(e)
        return found

    def wrong_entry(self, r):
        """A route's entry into its first link is what its pieces supply up to the horizon, and nothing later."""
        pieces, entry = plain_points(self.routes[r].pieces), self.carried[r][0]
        times = between([Fraction(0), self.horizon, self.horizon + 2] + [start for start, _ in pieces])
        return [["entry", r, time] for time in times if value(entry, time) != supply(pieces, min(time, self.horizon))]

    def wrong_passages(self, r):
        """By the exit of an entry time a route has sent on what had entered by that time.

        Nothing is sent on after the exit of the link's end.
        """
        found = []
        for place, e in enumerate(self.routes[r].links):
            entry, sent_on = self.carried[r][place], self.carried[r][place + 1]
            end = self.ends[e]
            corners = [time for time, _ in entry + self.loaded[e][2] if time < end]
            found += [["passage", r, e, time] for time in between([Fraction(0), end] + corners)
                      if value(sent_on, self.links[e].exit(time)) != value(entry, time)]
            if sent_on[-1][0] > self.links[e].exit(end) or sent_on[-1][1] != entry[-1][1]:
                found.append(["passage of all", r, e])
        return found

    def wrong_travel(self, r):
        """The travel of a departure is the exits of the route's links one after the other.

        By the arrival all that was sent before the departure has arrived.
        """
        found = []
        for time in between([Fraction(0), self.horizon] + [time for time, _ in self.travels[r]]):
            arrival = time
            for e in self.routes[r].links:
                arrival = self.links[e].exit(arrival)
            all_arrived = value(self.carried[r][-1], arrival) == value(self.carried[r][0], time)
            if value(self.travels[r], time) != arrival or not all_arrived:
                found.append(["travel", r, time])
        return found

    def wrong_end(self, e):
        """A link's end is the greatest of the horizon and of the exits from the links directly before it, at their ends."""
        pairs = [pair for route in self.routes for pair in zip(route.links, route.links[1:])]
        before = {f for f, following in pairs if following == e}
        greatest = max([self.horizon] + [self.links[f].exit(self.ends[f]) for f in before])
        return [] if self.ends[e] == greatest else [["end", e]]

    def wrong_loading(self, e):
        """Queue and exit up to the link's end, and the outflow up to the transit time after it, are those of its inflow."""
        link, end = self.links[e], self.ends[e]
        queue, outflow, exits = self.loaded[e]
        corners = [time for time, _ in queue + link.inflow if time < end]
        found = [["loading", e, time] for time in between([Fraction(0), end] + corners)
                 if value(queue, time) != link.queue(time) or value(exits, time) != link.exit(time)]
        leaving = between([Fraction(0), end + link.transit] + [time for time, _ in outflow])
        return found + [["outflow", e, time] for time in leaving if value(outflow, time) != link.outflow(time)]
