#!/usr/bin/env python3
"""simulate.py STEP HORIZON: a simulation of two.net in time steps, written as a report for `nfot check`.

At the start of each step drivers look at the queues, and all who leave within the step take the road that is quicker then (half
take each where both are equal). A report asks for exact fractions, for curves by their corners, also those between two steps, and for
labels that are the least exit at every departure. The package writes its lines. Statuses: 0 printed; 2 wrong arguments."""
import pathlib
import sys
from fractions import Fraction

import nfot


class Road:
    """A point queue: corners (time, amount that has entered, amount that waits)."""

    def __init__(self, link):
        self.transit, self.capacity, self.corners = link.transit, link.capacity, [(Fraction(0), Fraction(0), Fraction(0))]

    def exit(self, corner):
        """When a driver who enters at a corner leaves the road."""
        time, _, waits = corner
        return time + self.transit + waits / self.capacity

    def send(self, rate, length):
        """Lets flow enter at a rate for some time; where the queue is gone before, there is a corner."""
        time, entered, waits = self.corners[-1]
        growth = rate - self.capacity
        lasts = -waits / growth if growth < 0 else length
        for part in [lasts, length] if 0 < lasts < length else [length]:
            self.corners.append((time + part, entered + rate * part, max(Fraction(0), waits + growth * part)))


def simulate(net, step, horizon):
    """The roads after the simulation."""
    roads, now = {name: Road(link) for name, link in net.links.items()}, Fraction(0)
    ((_, supply),) = net.supply
    while now < horizon:
        length = min(step, horizon - now)
        exits = {name: road.exit(road.corners[-1]) for name, road in roads.items()}
        quick = [name for name in roads if exits[name] == min(exits.values())]
        for name, road in roads.items():
            road.send(supply / len(quick) if name in quick else Fraction(0), length)
        now += length
    return roads


def report_of(net, roads, horizon):
    """The report of the simulation."""
    first, second = (nfot.Curve((corner[0], road.exit(corner)) for corner in road.corners) for road in roads.values())
    inflows = {name: [(time, entered) for time, entered, _ in road.corners] for name, road in roads.items()}
    outflows = {name: [(road.exit(corner), corner[1]) for corner in road.corners] for name, road in roads.items()}
    queues = {name: [(time, waits) for time, _, waits in road.corners] for name, road in roads.items()}
    labels = {"s": [(0, 0), (horizon, horizon)], "t": first.least(second)}
    return nfot.Report(horizon, horizon, labels, inflows, outflows, queues, network=net)


def main(words):
    try:
        step, horizon = map(Fraction, words)
    except (ValueError, ZeroDivisionError):
        step = horizon = 0
    if min(step, horizon) <= 0:
        print("usage: simulate.py STEP HORIZON, two numbers above 0, as 3/4", file=sys.stderr)
        return 2
    net = nfot.read_network(pathlib.Path(__file__).with_name("two.net"))
    nfot.write_report(report_of(net, simulate(net, step, horizon), horizon), "-")
    return 0


if __name__ == "__main__":
    sys.exit(main(sys.argv[1:]))
