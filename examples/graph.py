#!/usr/bin/env python3
"""graph.py: from a graph of networkx to flows of links per five minutes, and back. Statuses: 0 printed; 1 networkx isn't installed."""
import sys

import nfot


def main():
    try:
        import networkx
    except ImportError:
        print("graph: networkx isn't installed", file=sys.stderr)
        return 1
    graph = networkx.DiGraph()
    graph.add_edge("home", "bridge", minutes=2, per_minute=4)
    graph.add_edge("bridge", "work", minutes=10, per_minute=2)
    graph.add_edge("home", "work", minutes=30.25, per_minute=4)
    net = nfot.from_networkx(graph, "home", "work", supply=[(0, 4), (60, 0)], transit="minutes", capacity="per_minute", round_to="1/4")
    run = nfot.solve(net, 60)
    print(nfot.table(run, every=5, clock="6:00", show=["in"]).text(), end="")
    back = nfot.to_networkx(net, run, every=5)  # with flows and queues on its edges
    for tail, head, link in back.edges(keys=True):
        back.edges[tail, head, link]["longest_wait"] = float(run.waits(link).greatest()[1])
    print(max(back.edges(data="longest_wait"), key=lambda edge: edge[2]))
    return 0


if __name__ == "__main__":
    sys.exit(main())
