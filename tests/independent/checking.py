"""The check whether a flow is an equilibrium: the rules C1 to C8 in their order.

FORMATS.md, "What `check` answers"; LISTS.md, "The check of a flow". A flow that keeps all rules is an equilibrium
(`Equilibrium`).
"""
from . import curves
from .exact import CHECK, TWO, ZERO
from .loading import cumulative, load_link


class Violation(Exception):
    """A broken rule: its name, the node or link that breaks it, a time, and the two values that differ there."""

    def __init__(self, rule, subject, time, left, right):
        super().__init__(rule, subject, time, left, right)
        self.rule = rule
        self.subject = subject
        self.time = time
        self.left = left
        self.right = right

    def line(self):
        """What `check` writes."""
        return f"no {self.rule} {self.subject} {self.time} {self.left} {self.right}"


def check(net, flow):
    """Tests the rules in order (`trial`, `Checks`); raises Violation with the first one that the flow breaks."""
    trial = Trial(net, flow)
    trial.labels_not_negative()
    trial.inflows_never_fall()
    trial.rates_are_slopes()
    trial.load_links()
    trial.labels_are_earliest()
    trial.outflows_and_queues()
    trial.supply = cumulative(net.pieces, flow.reached)
    for v in range(len(net.nodes)):
        if v != net.sink:
            trial.conserves(v)
    trial.conserves_at_sink()
    for e in range(len(net.links)):
        trial.only_shortest(e)


class Trial:
    """The state of a check: the labels cut at the departure reached, the loaded links, and the supply."""

    def __init__(self, net, flow):
        self.net = net
        self.flow = flow
        self.labels = []
        self.loaded = []
        self.supply = None

    def differ(self, rule, subject, left, right, until):
        """Raises Violation at the first corner up to a time at which two curves differ."""
        difference = curves.first_difference(left, right, until, CHECK)
        if difference is not None:
            raise Violation(rule, subject, *difference)

    def labels_not_negative(self):
        """C1 for labels: none is negative up to the departure reached. Each label is cut there."""
        for name, label in zip(self.net.nodes, self.flow.labels):
            points = curves.cut(label, self.flow.reached, CHECK)
            for time, value in points:
                if value < ZERO:
                    raise Violation("C1", name, time, value, ZERO)
            self.labels.append(points)

    def inflows_never_fall(self):
        """C1 for inflows: each is 0 at time 0 and never falls (`NeverFalls`)."""
        for link, (points, _) in zip(self.net.links, self.flow.inflows):
            if points[0][1] != ZERO:
                raise Violation("C1", link.name, ZERO, points[0][1], ZERO)
            for (time, before), (_, after) in zip(points, points[1:]):
                if after < before:
                    raise Violation("C1", link.name, time, before, after)

    def rates_are_slopes(self):
        """C2: each printed rate of an inflow, then of an outflow, is the slope to the next point (`AreSlopes`)."""
        for e, link in enumerate(self.net.links):
            for points, rates in (self.flow.inflows[e], self.flow.outflows[e]):
                for start, end, rate in zip(points, points[1:], rates):
                    slope = curves.slope(start, end, CHECK)
                    if rate != slope:
                        raise Violation("C2", link.name, start[0], rate, slope)

    def load_links(self):
        """Queue, outflow and exits of each inflow, up to the greatest value of the labels of both ends."""
        for link, (inflow, _) in zip(self.net.links, self.flow.inflows):
            until = max(value for _, value in self.labels[link.tail] + self.labels[link.head])
            self.loaded.append(load_link(link, inflow, until))

    def labels_are_earliest(self):
        """C3: the source's label is the departure; another node's is the least exit over the links into it.

        Each of these links is entered at the label of its tail.
        """
        net, reached = self.net, self.flow.reached
        self.differ("C3", net.nodes[net.source], self.labels[net.source], curves.identity(reached), reached)
        for v, name in enumerate(net.nodes):
            if v == net.source:
                continue
            least = None
            for e in net.into[v]:
                arrival = curves.composed(self.loaded[e].exits, self.labels[net.links[e].tail], reached, CHECK)
                least = arrival if least is None else curves.least_of(least, arrival, CHECK)
            self.differ("C3", name, self.labels[v], least, reached)

    def outflows_and_queues(self):
        """C4: each printed outflow is that of the inflow, up to the head's label at the departure reached.

        C5: each printed queue is that of the inflow, up to the tail's label there.
        """
        ends = [points[-1][1] for points in self.labels]
        for e, link in enumerate(self.net.links):
            self.differ("C4", link.name, self.flow.outflows[e][0], self.loaded[e].outflow, ends[link.head])
        for e, link in enumerate(self.net.links):
            self.differ("C5", link.name, self.flow.queues[e], self.loaded[e].queue, ends[link.tail])

    def amount_into(self, v):
        """The sum of the outflows of the links into a node (`sum_in`)."""
        total = curves.constant(ZERO)
        for e in self.net.into[v]:
            total = curves.sum_of(total, self.loaded[e].outflow, CHECK)
        return total

    def amount_out_of(self, v):
        """The sum of the inflows of the links out of a node (`sum_out`)."""
        total = curves.constant(ZERO)
        for e in self.net.out_of[v]:
            total = curves.sum_of(total, self.flow.inflows[e][0], CHECK)
        return total

    def conserves(self, v):
        """C6: what leaves the links into a node enters the links out of it (`Conserves`). The source is supplied besides.
        """
        amount_in = self.amount_into(v)
        until = self.labels[v][-1][1]
        if v == self.net.source:
            amount_in = curves.sum_of(amount_in, self.supply, CHECK)
            until = self.flow.reached
        self.differ("C6", self.net.nodes[v], amount_in, self.amount_out_of(v), until)

    def conserves_at_sink(self):
        """C7: nothing leaves the sink but what came, up to its label at departure 0 (`Conserves`).

        At the label of each departure, what has come in is what has gone out and what was supplied by that departure.
        """
        sink, reached = self.net.sink, self.flow.reached
        name, label = self.net.nodes[sink], self.labels[sink]
        amount_in, amount_out = self.amount_into(sink), self.amount_out_of(sink)
        self.differ("C7", name, amount_in, amount_out, label[0][1])
        arrived = curves.composed(amount_in, label, reached, CHECK)
        left = curves.composed(amount_out, label, reached, CHECK)
        self.differ("C7", name, arrived, curves.sum_of(left, self.supply, CHECK), reached)

    def only_shortest(self, e):
        """C8: a link takes flow only where its exit, at its tail's label, is its head's label (`OnlyShortest`).

        Departures are cut at the corners of three curves: inflow and exit at the tail's label, and the head's label.
        """
        link, reached = self.net.links[e], self.flow.reached
        entered = curves.composed(self.flow.inflows[e][0], self.labels[link.tail], reached, CHECK)
        exits = curves.composed(self.loaded[e].exits, self.labels[link.tail], reached, CHECK)
        entered, exits = curves.short(entered, CHECK), curves.short(exits, CHECK)
        label = curves.short(self.labels[link.head], CHECK)
        corners = curves.times(entered, exits, label)
        for start, end in zip(corners, corners[1:]):
            grows = curves.value(entered, start, CHECK) < curves.value(entered, end, CHECK)
            if grows and differ_at(start, exits, label):
                raise Violation("C8", link.name, start, *values_at(start, exits, label))
            if grows and differ_at(end, exits, label):
                middle = CHECK.quotient(CHECK.sum(start, end), TWO)
                raise Violation("C8", link.name, middle, *values_at(middle, exits, label))


def values_at(time, left, right):
    """The values of two curves at a time."""
    return curves.value(left, time, CHECK), curves.value(right, time, CHECK)


def differ_at(time, left, right):
    """Whether two curves differ at a time."""
    left_value, right_value = values_at(time, left, right)
    return left_value != right_value
