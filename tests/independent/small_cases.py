"""Random small networks, flows and routes, on which the program and the definitions meet."""
from . import curves
from .exact import CHECK, Rational, ZERO
from .lines import Broken, joined
from .loading import load_link
from .network import Network, canonical_text
from .network_file import read_network
from .phases import Flow, solve

TRANSITS = ["0", "1", "1", "2", "3", "1/2", "5/3"]
CAPACITIES = ["1", "2", "3", "1/2", "3/2", "4"]


def some_number(rng, least, most, denominators):
    """A fraction with a numerator within limits over one of the denominators."""
    return Rational(rng.randint(least, most), rng.choice(denominators))


def some_network(rng):
    """A network of two to six nodes and one to ten links. In version 2 links may be unbounded, and links may be idle."""
    while True:
        try:
            return read_network(some_network_text(rng))
        except Broken:
            continue


def some_network_text(rng):
    """The text of such a network, unless it breaks a rule."""
    version = rng.choice([1, 2])
    nodes = (["s", "t"] + [f"n{i}" for i in range(4)])[:rng.randint(2, 6)]
    lines = [f"nfot {version}", "source s", "sink t"]
    for i in range(rng.randint(1, 10)):
        capacity = "inf" if version == 2 and rng.random() < 0.3 else rng.choice(CAPACITIES)
        lines.append(f"link e{i} {rng.choice(nodes)} {rng.choice(nodes)} {rng.choice(TRANSITS)} {capacity}")
    start = some_number(rng, 0, 1, [1, 2])
    for _ in range(rng.randint(0, 4)):
        lines.append(f"inflow {start} {some_number(rng, 0, 6, [1, 1, 2])}")
        start = start + some_number(rng, 1, 30, [6])
    return joined(lines + ["end"])


def reordered(rng, net):
    """The network with its links in another order."""
    lines = canonical_text(net).decode().splitlines()
    links = [line for line in lines if line.startswith("link")]
    others = [line for line in lines if not line.startswith(("link", "end"))]
    rng.shuffle(links)
    return read_network(joined(others + links + ["end"]))


def with_last_rate(net, rate):
    """The network with another rate in its last supply piece; with a piece from 0 on if it has none."""
    pieces = [*net.pieces[:-1], (net.pieces[-1][0] if net.pieces else ZERO, rate)]
    return Network(net.version, net.nodes, net.links, pieces, net.idle_nodes, net.idle_links)


def part_of(rng, net):
    """The network without some of its links, on the same nodes, or None."""
    lines = canonical_text(net).decode().splitlines()
    links = [line for line in lines if line.startswith("link")]
    gone = rng.sample(links, rng.randint(1, max(1, len(links) // 2)))
    try:
        part = read_network(joined(line for line in lines if line not in gone))
    except Broken:
        return None
    return part if len(part.nodes) == len(net.nodes) else None


def trace_of(points):
    """The points with their slopes as rates."""
    return points, [(after - before) / (end - start) for (start, before), (end, after) in zip(points, points[1:])]


def flow_of_part(rng, net, horizon):
    """The equilibrium of a part of the network, with the earliest arrivals of the whole one, or None.

    It keeps the rules before C6.
    """
    part = part_of(rng, net)
    if part is None:
        return None
    flow = solve(part, horizon, phases=10, patterns=500).flow
    latest = max([value for points in flow.labels for _, value in points] + [flow.reached])
    inflow_of = dict(zip((link.name for link in part.links), flow.inflows))
    inflows = [inflow_of.get(link.name, ([(ZERO, ZERO)], [])) for link in net.links]
    loaded = [load_link(link, inflow, latest) for link, (inflow, _) in zip(net.links, inflows)]
    labels = earliest_labels(net, [of_link.exits for of_link in loaded], flow.reached)
    return Flow(flow.reached, labels, inflows, [trace_of(of_link.outflow) for of_link in loaded],
                [of_link.queue for of_link in loaded])


def earliest_labels(net, exits, reached):
    """Labels that no link undercuts, given the exits of the links. Each link lowers them, as often as there are nodes."""
    labels = [None] * len(net.nodes)
    labels[net.source] = curves.identity(reached)
    for _ in net.nodes:
        for e, link in enumerate(net.links):
            if labels[link.tail] is not None and link.head != net.source:
                arrival = curves.composed(exits[e], labels[link.tail], reached, CHECK)
                if labels[link.head] is not None:
                    arrival = curves.least_of(labels[link.head], arrival, CHECK)
                labels[link.head] = curves.short(arrival, CHECK)
    return labels


def changed_flow(rng, flow):
    """The flow with one or two changes of points. Rates are the slopes again, so that the flow keeps rule C2."""
    labels, queues = [list(points) for points in flow.labels], [list(points) for points in flow.queues]
    inflows, outflows = [list(points) for points, _ in flow.inflows], [list(points) for points, _ in flow.outflows]
    for _ in range(rng.randint(1, 2)):
        change_points(rng, rng.choice(rng.choice([labels, queues, outflows, inflows, inflows])))
    return Flow(flow.reached, labels, list(map(trace_of, inflows)), list(map(trace_of, outflows)), queues)


def change_points(rng, points):
    """Moves a point or all later ones, leaves one out, or adds one behind the last."""
    i = rng.randrange(len(points))
    kind = rng.randrange(4)
    if kind == 0:
        more = some_number(rng, 1, 3, [2])
        points[i:] = [(time, value + more) for time, value in points[i:]]
    elif kind == 1:
        time, value = points[-1]
        points.append((time + some_number(rng, 1, 4, [2]), value + some_number(rng, 0, 4, [2])))
    elif kind == 2 and i > 0:
        del points[i]
    else:
        points[i] = (points[i][0], points[i][1] + some_number(rng, -2, 3, [3]))


def some_routes_text(rng, net):
    """A routes file with up to four routes of at most six links."""
    routes = [links for links in (some_walk(rng, net) for _ in range(rng.randint(0, 4))) if links]
    lines = ["routes 1"]
    lines += [f"route r{r} " + " ".join(net.links[e].name for e in links) for r, links in enumerate(routes)]
    for r in range(len(routes)):
        start = some_number(rng, 0, 1, [1])
        for _ in range(rng.randint(0, 3)):
            lines.append(f"rate r{r} {start} {some_number(rng, 0, 6, [1, 2])}")
            start = start + some_number(rng, 1, 12, [4])
    return joined(lines + ["end"])


def some_walk(rng, net):
    """A random walk from source to sink, or None where ten attempts fail."""
    for _ in range(10):
        node, links = net.source, []
        while len(links) < 6 and net.out_of[node] and (node != net.sink or rng.random() < 0.3):
            links.append(rng.choice(net.out_of[node]))
            node = net.links[links[-1]].head
        if node == net.sink:
            return links
    return None
