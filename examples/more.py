#!/usr/bin/env python3
"""more.py COUNT: does more capacity ever hurt, and more supply ever help? In COUNT random networks of six nodes.

Counts the networks in which some departure arrives earlier, and those in which some arrives later. Statuses: 0 printed; 2 wrong arguments."""
import random
import sys

import nfot

NODES, HORIZON = "suvwxt", 20


def network(rng):
    """A random network in which each node leads to the next one, with eight more links forward."""
    ends = list(zip(NODES, NODES[1:])) + [sorted(rng.sample(NODES, 2), key=NODES.index) for _ in range(8)]
    links = [nfot.Link(f"e{number}", tail, head, rng.randint(1, 9), rng.randint(1, 4)) for number, (tail, head) in enumerate(ends)]
    return nfot.Network("s", "t", links, [(0, rng.randint(2, 8)), (10, rng.randint(0, 8))])


def main(words):
    if len(words) != 1 or not words[0].isdigit():
        print("usage: more.py COUNT, a whole number", file=sys.stderr)
        return 2
    found = {what: [0, 0] for what in ("capacity", "supply")}
    for seed in range(int(words[0])):
        rng = random.Random(seed)
        net, link = network(rng), f"e{rng.randrange(13)}"
        wider, fuller = net.with_capacity(link, 2 * net.links[link].capacity), net.with_supply([(start, rate + 1) for start, rate in net.supply])
        before = nfot.solve(net, HORIZON).label("t")
        for what, other in ("capacity", wider), ("supply", fuller):
            changes = before.differences(nfot.solve(other, HORIZON).label("t"))
            found[what][0] += any(after < now for _, now, after in changes)
            found[what][1] += any(after > now for _, now, after in changes)
    for what, (earlier, later) in found.items():
        print(f"more {what}: earlier in {earlier}, later in {later} of {words[0]} networks")
    return 0


if __name__ == "__main__":
    sys.exit(main(sys.argv[1:]))
