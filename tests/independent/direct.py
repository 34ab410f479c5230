"""Checks by definition: whether a flow is an equilibrium, from the definitions of MODEL.md alone.

No list of operations is used, and no computation is shared with the modules that make flows and check them. Numbers have
no bound. Queues and outflows look back over all past times, earliest arrivals over all walks. The checks are made at
sample times: corners, and two times between each two corners. From corner to corner all functions of time are linear.
"""
from fractions import Fraction


def plain(number):
    """A number as a fraction of the standard library."""
    return Fraction(number.numerator, number.denominator)


def plain_points(points):
    """Pairs of numbers as pairs of fractions of the standard library."""
    return [(plain(time), plain(value)) for time, value in points]


def value(points, time):
    """The curve's value at a time (`value`)."""
    for (start, before), (end, after) in zip(points, points[1:]):
        if start <= time < end:
            return before + (after - before) / (end - start) * (time - start)
    return points[-1][1]


def supply(pieces, time):
    """The amount supplied by a time (`supply`).

    It is a sum over the pieces: the rate times the length of the times so far in which the piece is the latest.
    """
    total = Fraction(0)
    for i, (start, rate) in enumerate(pieces):
        end = min(time, pieces[i + 1][0]) if i + 1 < len(pieces) else time
        total += rate * max(0, end - start)
    return total


def between(times):
    """The times in rising order, with two more between each two neighbours."""
    ordered = sorted(set(times))
    more = [time for a, b in zip(ordered, ordered[1:]) for time in ((a + b) / 2, (2 * a + b) / 3)]
    return sorted(ordered + more)


class LoadedLink:
    """A link and its inflow F, in plain fractions."""

    def __init__(self, link, inflow):
        self.tail, self.head = link.tail, link.head
        self.transit = plain(link.transit)
        self.capacity = None if link.capacity is None else plain(link.capacity)
        self.inflow = inflow
        self.exits = {}

    def entered(self, time):
        """F at a time."""
        return value(self.inflow, time)

    def corners(self, until):
        """The corners of F on the times from 0 to a last one (`IsCorner`, `Within`).

        A function that is linear between them is greatest, and least, at one of them (`IsGreatest`, `IsLeast`).
        """
        return [Fraction(0), until] + [time for time, _ in self.inflow if 0 < time < until]

    def queue(self, time):
        """The greatest value of F(time) - F(η) - ν (time - η) over all η from 0 to the time (`IsQueue`).

        On an unbounded link it is 0.
        """
        if self.capacity is None:
            return Fraction(0)
        now = self.entered(time)
        return max(now - self.entered(past) - self.capacity * (time - past) for past in self.corners(time))

    def exit(self, time):
        """The sum of the time, the transit time and the waiting, which is queue over capacity (`IsExit`, `waiting`)."""
        if time not in self.exits:
            waiting = 0 if self.capacity is None else self.queue(time) / self.capacity
            self.exits[time] = time + self.transit + waiting
        return self.exits[time]

    def outflow(self, time):
        """The least value of F(η) + ν (time - τ - η) over all η from 0 to time - τ (`IsOutflow`).

        Before τ it is 0. On an unbounded link it is F(time - τ).
        """
        entry = time - self.transit
        if entry < 0:
            return Fraction(0)
        if self.capacity is None:
            return self.entered(entry)
        return min(self.entered(past) + self.capacity * (entry - past) for past in self.corners(entry))


class DirectFlow:
    """A network and a flow (`HasShape`) in plain fractions. A complaint is a list: what is wrong, where and when."""

    def __init__(self, net, flow):
        self.net = net
        self.pieces = plain_points(net.pieces)
        self.reached = plain(flow.reached)
        self.labels = [plain_points(points) for points in flow.labels]
        self.inflows = [(plain_points(points), [plain(rate) for rate in rates]) for points, rates in flow.inflows]
        self.outflows = [(plain_points(points), [plain(rate) for rate in rates]) for points, rates in flow.outflows]
        self.queues = [plain_points(points) for points in flow.queues]
        self.links = [LoadedLink(link, inflow) for link, (inflow, _) in zip(net.links, self.inflows)]
        self.arrivals = {}

    def earliest(self, departure):
        """The earliest arrival at each node for a departure, over all walks (`IsEarliest`).

        Walks that come to no node twice are enough. Where inflows never fall, nobody who enters a link later leaves it
        earlier. So a walk that returns to a node arrives no earlier than without the part between.
        """
        if departure not in self.arrivals:
            best = [None] * len(self.net.nodes)
            self.walk_on(self.net.source, departure, [], best)
            self.arrivals[departure] = best
        return self.arrivals[departure]

    def walk_on(self, node, arrival, visited, best):
        """Extends a walk that is at a node by each link; the exit from a link is the entry into the next (`Arrives`)."""
        if best[node] is None or arrival < best[node]:
            best[node] = arrival
        for e in self.net.out_of[node]:
            head = self.links[e].head
            if head != node and head not in visited:
                self.walk_on(head, self.links[e].exit(arrival), visited + [node], best)

    def complaints(self):
        """Where the flow is no equilibrium (`Equilibrium`, `IsNashFlow`); an empty list where it is one at all samples."""
        found = self.wrong_inflows_and_rates()
        if not found:
            departures = self.departures()
            found = self.wrong_labels(departures)
            if not found:
                found = self.wrong_links(departures) + self.wrong_balances(departures) + self.detours(departures)
        return found

    def departures(self):
        """Sample departures: 0, the departure reached, the points of labels, the starts of pieces, and times between."""
        times = [time for points in self.labels for time, _ in points] + [start for start, _ in self.pieces]
        return between([Fraction(0), self.reached] + [time for time in times if time < self.reached])

    def wrong_inflows_and_rates(self):
        """Inflows that are not 0 at time 0 or fall (`NeverFalls`), and rates that are not the slopes (`AreSlopes`)."""
        found = []
        for e, (points, _) in enumerate(self.inflows):
            if points[0][1] != 0 or any(after < before for (_, before), (_, after) in zip(points, points[1:])):
                found.append(["inflow", e])
        for e, traces in enumerate(zip(self.inflows, self.outflows)):
            for points, rates in traces:
                for (start, before), (end, after), rate in zip(points, points[1:], rates):
                    if after - before != rate * (end - start):
                        found.append(["rate", e, start])
        return found

    def wrong_labels(self, departures):
        """Labels that are not the earliest arrivals (`IsEarliest`)."""
        return [["label", v, departure] for departure in departures for v, points in enumerate(self.labels)
                if value(points, departure) != self.earliest(departure)[v]]

    def samples(self, e, node, departures, until):
        """Sample times at one end of a link, up to a last one."""
        curves = (self.inflows[e][0], self.outflows[e][0], self.queues[e])
        times = [time for points in curves for time, _ in points if time < until]
        times += [self.earliest(departure)[node] for departure in departures]
        return between([Fraction(0), until] + [time for time in times if time < until])

    def wrong_links(self, departures):
        """Printed outflows and queues that are not those of the inflow.

        Outflows are compared up to the label of the link's head at the departure reached, queues up to the tail's.
        """
        found = []
        end = self.earliest(self.reached)
        for e, link in enumerate(self.links):
            found += [["outflow", e, time] for time in self.samples(e, link.head, departures, end[link.head])
                      if value(self.outflows[e][0], time) != link.outflow(time)]
            found += [["queue", e, time] for time in self.samples(e, link.tail, departures, end[link.tail])
                      if value(self.queues[e], time) != link.queue(time)]
        return found

    def balance(self, v, time):
        """What has left the links into a node by a time, minus what has entered the links out of it (`Balances`)."""
        come = sum(self.links[e].outflow(time) for e in self.net.into[v])
        gone = sum(self.links[e].entered(time) for e in self.net.out_of[v])
        return come - gone

    def wrong_balances(self, departures):
        """Where flow is not conserved (`Conserves`)."""
        net, found = self.net, []
        end, begin = self.earliest(self.reached), self.earliest(Fraction(0))
        for v in range(len(net.nodes)):
            until = begin[v] if v == net.sink else end[v]
            times = {time for e in net.into[v] + net.out_of[v] for time in self.samples(e, v, departures, until)}
            for time in times:
                missing = supply(self.pieces, time) if v == net.source else 0
                if self.balance(v, time) + missing != 0:
                    found.append(["balance", v, time])
        for departure in departures:
            arrival = self.earliest(departure)[net.sink]
            if self.balance(net.sink, arrival) != supply(self.pieces, departure):
                found.append(["balance at the sink", departure])
        return found

    def detours(self, departures):
        """Links that take flow just after a departure but lie on no shortest route (`TakesFlow`, `OnlyShortest`)."""
        found = []
        for e, link in enumerate(self.links):
            corners = sorted(set(departures) | self.departures_at(link.tail, [time for time, _ in self.inflows[e][0]]))
            for now, later in zip(corners, corners[1:]):
                entry, next_entry = self.earliest(now)[link.tail], self.earliest(later)[link.tail]
                takes_flow = link.entered(next_entry) > link.entered(entry)
                if takes_flow and link.exit(entry) != self.earliest(now)[link.head]:
                    found.append(["detour", e, now])
        return found

    def departures_at(self, v, times):
        """The departures, up to the one reached, whose arrival at a node is one of these times."""
        label = self.labels[v]
        found = set()
        for (start, before), (end, after) in zip(label, label[1:]):
            found |= {start + (time - before) / (after - before) * (end - start) for time in times if before < time <= after}
        return {departure for departure in found if departure <= self.reached}
