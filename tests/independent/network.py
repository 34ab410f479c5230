"""Networks: links, supply, least transit sums, and the canonical text.

MODEL.md, "Walks" and "Networks"; FORMATS.md, "The canonical text".
"""
from .exact import ZERO
from .lines import joined


class Link:
    """A link (`Link`): its name, the numbers of its tail and head, its transit time and its capacity.

    The capacity of an unbounded link is None.
    """

    def __init__(self, name, tail, head, transit, capacity):
        self.name = name
        self.tail = tail
        self.head = head
        self.transit = transit
        self.capacity = capacity


class Network:
    """A network (`Network`) with the names of its nodes and links, which are counted from 0.

    The source is node 0, the sink node 1. Pieces (`Piece`) are pairs of a start and a rate. Idle nodes and idle links
    are kept beside the network. An idle link is a tuple of its name, the names of its ends, its transit time and its
    capacity.
    """

    source = 0
    sink = 1

    def __init__(self, version, nodes, links, pieces, idle_nodes=(), idle_links=()):
        self.version = version
        self.nodes = nodes
        self.links = links
        self.pieces = pieces
        self.idle_nodes = idle_nodes
        self.idle_links = idle_links
        self.node_number = {name: number for number, name in enumerate(nodes)}
        self.link_number = {link.name: number for number, link in enumerate(links)}
        self.into = [[e for e, link in enumerate(links) if link.head == v] for v in range(len(nodes))]
        self.out_of = [[e for e, link in enumerate(links) if link.tail == v] for v in range(len(nodes))]

    def rate_at(self, time):
        """The rate of the last piece that starts at or before the time, and 0 where there is none (`rate_at`)."""
        rate = ZERO
        for start, piece_rate in self.pieces:
            if start <= time:
                rate = piece_rate
        return rate

    def next_change(self, time):
        """The first start of a piece after the time; None where there is none (`next_change`)."""
        return next((start for start, _ in self.pieces if start > time), None)


def reached_from(source, pairs):
    """The nodes to which a walk along some links, pairs of a tail and a head, leads from a node."""
    reached = {source}
    grew = True
    while grew:
        heads = {head for tail, head in pairs if tail in reached}
        grew = not heads <= reached
        reached |= heads
    return reached


def least_transit_sums(source, hops):
    """The least transit sum over the walks from the source to each node (`IsLeastTransit`), exact and without a bound.

    Hops (`Hop`) are triples of a tail, a head and a transit time. Nodes that no walk reaches have no sum. Each sum is
    lowered until no hop allows a lower one.
    """
    least = {source: ZERO}
    changed = True
    while changed:
        changed = False
        for tail, head, transit in hops:
            if tail in least and (head not in least or least[tail] + transit < least[head]):
                least[head] = least[tail] + transit
                changed = True
    return least


def start_labels(net):
    """The labels of departure 0: the least transit sums from the source (`AreStartLabels`).

    They are within the bound, by rule N22.
    """
    least = least_transit_sums(net.source, [(link.tail, link.head, link.transit) for link in net.links])
    return [least[v] for v in range(len(net.nodes))]


def link_line(name, tail, head, transit, capacity):
    """The `link` line of a link, given the names of its ends."""
    return f"link {name} {tail} {head} {transit} {'inf' if capacity is None else capacity}"


def canonical_text(net):
    """The one text of the network, which `nfot show` writes."""
    lines = [f"nfot {net.version}", f"source {net.nodes[net.source]}", f"sink {net.nodes[net.sink]}"]
    lines += [link_line(link.name, net.nodes[link.tail], net.nodes[link.head], link.transit, link.capacity)
              for link in net.links]
    lines += [link_line(*idle) for idle in net.idle_links]
    lines += [f"inflow {start} {rate}" for start, rate in net.pieces]
    return joined(lines + ["end"])
