"""The residual network of a static flow: shortest walks in it, and pushes along them.

LISTS.md, "Quickest flows".
"""
from .exact import QUICK, ZERO

FORWARD, BACK = 0, 1


class Walk:
    """A walk of steps, its length and the rate that it has room for. A step is a pair of a link and FORWARD or BACK."""

    def __init__(self, steps, length, rate):
        self.steps = steps
        self.length = length
        self.rate = rate


class Residual:
    """The residual network of a static flow, which is 0 on each link at first."""

    def __init__(self, net):
        self.net = net
        self.flow = [ZERO] * len(net.links)

    def steps(self):
        """The steps in order, each with the nodes from which and to which it leads.

        A link is taken forward where its flow is below its capacity, and back where its flow is above 0.
        """
        steps = []
        for e, link in enumerate(self.net.links):
            if link.capacity is None or self.flow[e] < link.capacity:
                steps.append(((e, FORWARD), link.tail, link.head))
            if self.flow[e] > ZERO:
                steps.append(((e, BACK), link.head, link.tail))
        return steps

    def ways_from(self, begin):
        """The best way to each node, as its length, its number of steps and its steps, or None (the list Rounds).

        A round makes each best way of the rounds before one step longer, and there is one round fewer than nodes. Shorter
        ways are better. Of equally long ones those of fewer steps are, and of these the one with the earlier step at the
        first place where they differ.
        """
        best = [None] * len(self.net.nodes)
        best[begin] = (ZERO, 0, ())
        steps = self.steps()
        for _ in range(len(best) - 1):
            before, best = best, list(best)
            for step, start, end in steps:
                if before[start] is not None:
                    way = longer_way(self.net, before[start], step)
                    if best[end] is None or way < best[end]:
                        best[end] = way
        return best

    def distances_from(self, begin):
        """The length of the best way to each node; None where there is none."""
        return [None if way is None else way[0] for way in self.ways_from(begin)]

    def shortest_walk(self):
        """The best way from source to sink with the rate of its push, or None (the list Shortest).

        The rate is the least room: capacity minus flow where a link is taken forward, the flow where it is taken back.
        """
        way = self.ways_from(self.net.source)[self.net.sink]
        if way is None:
            return None
        length, _, steps = way
        rooms = []
        for e, direction in steps:
            capacity = self.net.links[e].capacity
            if direction == BACK:
                rooms.append(self.flow[e])
            elif capacity is not None:
                rooms.append(QUICK.difference(capacity, self.flow[e]))
        return Walk(steps, length, min(rooms))

    def push(self, walk):
        """Changes the flow along a walk by its rate (the list Push)."""
        for e, direction in walk.steps:
            change = QUICK.sum if direction == FORWARD else QUICK.difference
            self.flow[e] = change(self.flow[e], walk.rate)


def longer_way(net, way, step):
    """A way with one step more. The length of a step is the transit time, negated where the link is taken back."""
    length, count, steps = way
    e, direction = step
    change = QUICK.sum if direction == FORWARD else QUICK.difference
    return change(length, net.links[e].transit), count + 1, steps + (step,)
