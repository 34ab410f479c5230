"""Loads, flows and routes files for a given network."""
from fractions import Fraction

from .numerals import chance, coprime, fits, printed, small_rate, wide
from .piecewise import value_at
from .reports import read_report


def mixed(rng, lines):
    """The lines in another order, in which those of one name keep theirs."""
    by_name = {}
    for line in lines:
        by_name.setdefault(line.split(" ")[1], []).append(line)
    names = [line.split(" ")[1] for line in lines]
    rng.shuffle(names)
    return [by_name[name].pop(0) for name in names]


def draining_pieces(rng, capacity):
    """Pieces of which the third starts just when the queue that the first one makes is empty."""
    more, less = capacity * Fraction(rng.randint(1, 6), rng.choice([1, 2, 3])), capacity * Fraction(rng.randint(1, 4), 4)
    start, length = Fraction(rng.choice([0, 1, 5]), 2), Fraction(rng.randint(1, 9), rng.choice([1, 2, 3]))
    empty = start + length + length * more / less
    return [(start, capacity + more), (start + length, capacity - less), (empty, capacity * Fraction(rng.randint(0, 9), 4))]


def link_pieces(rng, link, horizon):
    """Pieces that enter a link: few, with rates about its capacity, wide ones at times, starts at the horizon among them."""
    if link.capacity is not None and chance(rng, 0.25):
        return draining_pieces(rng, link.capacity)
    pieces, time, is_wide = [], Fraction(rng.choice([0, 0, 0, 1, 5]), 2), chance(rng, 0.15)
    for _ in range(rng.choice([0, 1, 1, 2, 3, 5])):
        start = horizon if horizon > time and chance(rng, 0.15) else time
        rate = link.capacity if link.capacity is not None and chance(rng, 0.15) else small_rate(rng)
        pieces.append((start, rng.choice([wide, coprime])(rng) if is_wide and chance(rng, 0.4) else rate))
        time = start + (wide(rng, 40) if is_wide and chance(rng, 0.3) else Fraction(rng.randint(1, 12), rng.choice([1, 2, 3, 10 ** 6])))
    return pieces


def piece_lines(key, name, pieces):
    """The lines of pieces, up to the first that no file may have."""
    lines = []
    for start, rate in pieces:
        if not (fits(start) and fits(rate)):
            break
        lines.append(f"{key} {name} {printed(start)} {printed(rate)}")
    return lines


def loads_lines(rng, network, horizon):
    """The lines of a loads file for the links of a network."""
    lines = [line for link in network.used_links() for line in piece_lines("rate", link.name, link_pieces(rng, link, horizon))]
    return ["loads 1"] + (mixed(rng, lines) if chance(rng, 0.3) else lines) + ["end"]


def full_loads_lines(rng, network):
    """The lines of a loads file in which links have as many lines as they may have, or nearly."""
    return ["loads 1"] + [f"rate {link.name} {i}/3 {rng.randint(0, 5)}" for link in network.used_links()[:6]
                          for i in range(rng.choice([3, 199, 200]))] + ["end"]


def some_walk(rng, network):
    """A walk of at most eight links from source to sink, or none."""
    for _ in range(20):
        node, names = network.source, []
        while len(names) < 8 and not (node == network.sink and names and chance(rng, 0.8)):
            links = [link for link in network.links if link.tail == node]
            if not links:
                break
            link = rng.choice(links)
            names.append(link.name)
            node = link.head
        if node == network.sink and names:
            return names
    return None


def routes_lines(rng, network, horizon):
    """The lines of a routes file: some walks, and what is sent along each, with starts at the horizon at times."""
    walks = [walk for walk in (some_walk(rng, network) for _ in range(rng.choice([0, 1, 2, 4, 8]))) if walk]
    lines, rates = ["routes 1"], []
    for i, walk in enumerate(walks):
        lines.append(f"route r{i} {' '.join(walk)}")
        pieces, time = [], Fraction(rng.choice([0, 0, 1]))
        for _ in range(rng.choice([0, 1, 2, 4])):
            start = horizon if horizon > time and chance(rng, 0.2) else time
            pieces.append((start, coprime(rng) if chance(rng, 0.03) else small_rate(rng)))
            time = start + rng.choice([Fraction(1), Fraction(1, 2), Fraction(1, 7), Fraction(3)])
        rates += piece_lines("rate", f"r{i}", pieces)
    return lines + (mixed(rng, rates) if chance(rng, 0.3) else rates) + ["end"]


def thin_flow(answer_of, network):
    """The thin flow of the first phase, as (flows by link, slopes by node), from a report of that phase; None where there is none."""
    answer = answer_of(["solve", "N", "--horizon", "1000000", "--phases", "1", "--patterns", "300"], {"N": network.text()})
    if not answer.out:
        return None
    report = read_report(answer.out)
    length = report.reached
    if length == 0:
        return None
    labels = {name: report.curves["label", name] for name in report.labels()}
    slopes = {name: (value_at(points, length) - value_at(points, Fraction(0))) / length for name, points in labels.items()}
    flows = {}
    for link in network.used_links():
        inflow, label = report.curves["inflow", link.name], labels[link.tail]
        flows[link.name] = (value_at(inflow, value_at(label, length)) - value_at(inflow, value_at(label, Fraction(0)))) / length
    return flows, slopes


def with_shuffled_links(rng, network):
    """The same network with its links in another order."""
    links = list(network.links)
    rng.shuffle(links)
    return type(network)(network.version, links, network.pieces, network.source, network.sink)


def moved_over(rng, network, flows):
    """Flow moved between two links beside each other, so that what leaves and enters nodes stays."""
    links, flows = network.used_links(), dict(flows)
    for one in links:
        for other in links:
            if one is not other and (one.tail, one.head) == (other.tail, other.head) and chance(rng, 0.5):
                part = flows[one.name] * Fraction(rng.randint(0, 3), 3)
                flows[one.name] -= part
                flows[other.name] += part
    return flows


def mean_thin_flow(rng, answer_of, network):
    """A thin flow between those that two orders of the links lead to, changed at times; None where there is none."""
    one, other = thin_flow(answer_of, network), thin_flow(answer_of, with_shuffled_links(rng, network))
    if one is None or other is None:
        return None
    weight = Fraction(rng.randint(0, 4), 4)
    flows = {name: weight * flow + (1 - weight) * other[0].get(name, flow) for name, flow in one[0].items()}
    slopes, kind = dict(one[1]), rng.random()
    if kind < 0.2:
        flows = moved_over(rng, network, flows)
    elif kind < 0.35:
        name = rng.choice(sorted(flows))
        flows[name] += rng.choice([Fraction(1), Fraction(1, 7), coprime(rng), -flows[name] / 2])
    elif kind < 0.45:
        name = rng.choice(sorted(slopes))
        slopes[name] += rng.choice([Fraction(1), Fraction(1, 7), coprime(rng)])
    return flows, slopes


def flows_text_lines(flows, slopes):
    """The lines of a flows file."""
    return ["flows 1"] + [f"flow {name} {printed(flow)}" for name, flow in flows.items()] + [
        f"slope {name} {printed(slope)}" for name, slope in slopes.items()] + ["end"]


def flows_lines(rng, answer_of, network):
    """The lines of a flows file: a thin flow mostly, some of its zeros left out, in any order."""
    found = mean_thin_flow(rng, answer_of, network) if chance(rng, 0.85) else None
    if found is None:
        found = {link.name: small_rate(rng) for link in network.used_links()}, {node: small_rate(rng) for node in network.used_nodes()}
    flows, slopes = ({name: value for name, value in values.items() if fits(value) and (value or chance(rng, 0.5))} for values in found)
    lines = flows_text_lines(flows, slopes)
    if chance(rng, 0.3):
        inner = lines[1:-1]
        rng.shuffle(inner)
        lines[1:-1] = inner
    return lines
