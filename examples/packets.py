#!/usr/bin/env python3
"""packets.py K ..: packets of 1/K on two.net, and how far they are from the equilibrium. Statuses: 0 printed; 2 wrong arguments."""
import pathlib
import sys
from fractions import Fraction

import nfot

MINUTES = 4  # during which packets leave


def trips(net, k):
    """The route and the departure of each packet: it takes the road that lets it arrive first."""
    ((_, supply),) = net.supply
    free = {link: Fraction(0) for link in net.links}  # from when on a road lets out the next packet
    for number in range(int(MINUTES * supply * k)):
        time = number / (supply * k)
        leaves = {name: max(time, free[name]) + 1 / (k * link.capacity) for name, link in net.links.items()}
        best = min(net.links, key=lambda name: leaves[name] + net.links[name].transit)
        free[best] = leaves[best]
        yield [best], time


def main(words):
    if not words or not all(word.isdigit() and int(word) for word in words):
        print("usage: packets.py K .., whole numbers above 0", file=sys.stderr)
        return 2
    net = nfot.read_network(pathlib.Path(__file__).with_name("two.net"))
    for k in map(int, words):
        routes = nfot.routes_of_vehicles(trips(net, k), size=Fraction(1, k), spread=1 / (3 * Fraction(k)))
        gap = nfot.gap(net, nfot.report_of_routes(net, routes, MINUTES))
        print(f"{k:3}  {float(gap.gap / net.supplied(MINUTES)):.4f}  {float(gap.worst.time):.4f}")
    return 0


if __name__ == "__main__":
    sys.exit(main(sys.argv[1:]))
