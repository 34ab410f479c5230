"""Networks of several kinds, and their files."""
from __future__ import annotations

import random
from dataclasses import dataclass, replace
from fractions import Fraction

from .numerals import chance, coprime, fits, near_powers, over_primes, printed, rising_times, small_rate, wide

NAME_CHARACTERS = "ABCXYZabcxyz0189_-."


@dataclass(frozen=True)
class Link:
    """A link; its capacity is a fraction, or None where it is unbounded."""
    name: str
    tail: str
    head: str
    transit: Fraction
    capacity: object


@dataclass
class Network:
    """What a network file says: links, and pieces (start, rate) of the supply."""
    version: int
    links: list
    pieces: list
    source: str = "s"
    sink: str = "t"

    def text(self):
        """The file, each number printed."""
        lines = [f"nfot {self.version}", f"source {self.source}", f"sink {self.sink}"]
        lines += [link_line(link) for link in self.links]
        lines += [f"inflow {printed(start)} {printed(rate)}" for start, rate in self.pieces]
        return joined(lines + ["end"])

    def reached(self):
        """The nodes to which a walk leads from the source."""
        found, waiting = {self.source}, [self.source]
        while waiting:
            node = waiting.pop()
            heads = {link.head for link in self.links if link.tail == node} - found
            found |= heads
            waiting += heads
        return found

    def used_links(self):
        """The links whose tails are reached, in order: those that reports and other files name."""
        reached = self.reached()
        return [link for link in self.links if link.tail in reached]

    def used_nodes(self):
        """The nodes that are reached, in the order of reports."""
        nodes = [self.source, self.sink] + [node for link in self.used_links() for node in (link.tail, link.head)]
        return list(dict.fromkeys(nodes))

    def fits(self):
        """Whether each number has parts that a file may have."""
        numbers = [link.transit for link in self.links] + [link.capacity for link in self.links if link.capacity is not None]
        return all(fits(number) for number in numbers + [number for piece in self.pieces for number in piece])


def joined(lines):
    """Lines as the bytes of a file."""
    return ("\n".join(lines) + "\n").encode("latin-1") if lines else b""


def link_line(link):
    """The line of a link."""
    capacity = "inf" if link.capacity is None else printed(link.capacity)
    return f"link {link.name} {link.tail} {link.head} {printed(link.transit)} {capacity}"


def some_name(rng, taken):
    """A name that isn't taken, often of all 24 characters."""
    while True:
        name = "".join(rng.choice(NAME_CHARACTERS) for _ in range(rng.choice([1, 2, 23, 24, 24])))
        if name not in taken:
            taken.add(name)
            return name


def some_pieces(rng, most=4):
    """Pieces of supply, rates of 0 and equal neighbours among them."""
    pieces = []
    for start in rising_times(rng, rng.randint(0 if chance(rng, 0.1) else 1, most)):
        before = pieces[-1][1] if pieces else Fraction(1)
        pieces.append((start, rng.choice([Fraction(0), small_rate(rng), small_rate(rng), Fraction(rng.randint(1, 6)), before])))
    return pieces


def chain(rng, nodes, transit, capacity):
    """Links from each node to the next."""
    return [Link(f"c{i}", tail, head, transit(rng), capacity(rng)) for i, (tail, head) in enumerate(zip(nodes, nodes[1:]))]


def inner_nodes(count):
    """So many nodes between source and sink, and these two."""
    return ["s"] + [f"n{i}" for i in range(count)] + ["t"]


def choice_of(*values):
    """A call that chooses one of the values."""
    return lambda rng: rng.choice(values)


def unbounded_at_times(rng, version, capacity):
    """A capacity, at times none in version 2."""
    return None if version == 2 and chance(rng, 0.25) else capacity


def small(rng, version):
    """Two to six nodes joined at random, up to ten links, loops and links back among them."""
    nodes = ["s", "t"] + [f"n{i}" for i in range(rng.randint(0, 4))]
    transits = [Fraction(word) for word in ["0", "1", "1", "2", "3", "1/2", "5/3"]]
    capacities = [Fraction(word) for word in ["1", "2", "3", "1/2", "3/2", "4"]]
    links = [Link(f"e{i}", rng.choice(nodes), rng.choice(nodes), rng.choice(transits), unbounded_at_times(rng, version, rng.choice(capacities)))
             for i in range(rng.randint(1, 10))]
    return Network(version, links, some_pieces(rng))


def larger(rng, version):
    """Up to ten nodes and thirty links, with many equal lengths."""
    nodes = inner_nodes(rng.randint(1, 8))
    transits = [Fraction(word) for word in rng.choice([["0", "1", "2"], ["1", "2"], ["1"], ["1/2", "1/3", "2/3", "1"], ["1", "3", "5/3"]])]
    capacities = [Fraction(word) for word in rng.choice([["1"], ["1", "2"], ["1", "3/2", "4"], ["1/2", "1/3", "5/6"]])]
    links = []
    for i in range(rng.randint(len(nodes) - 1, 3 * len(nodes))):
        if i < len(nodes) - 1 and chance(rng, 0.8):
            tail, head = nodes[rng.randint(max(0, i - 2), i)], nodes[i + 1]
        else:
            tail, head = rng.choice(nodes), rng.choice(nodes)
        links.append(Link(f"e{i}", tail, head, rng.choice(transits), unbounded_at_times(rng, version, rng.choice(capacities))))
    return Network(version, links, some_pieces(rng, 3))


def parallel(rng, version):
    """Many links beside each other, with ties of lengths, over one or two hops."""
    nodes = inner_nodes(rng.randint(0, 1))
    ties, taken, links = rng.randrange(4), set(), []
    for tail, head in zip(nodes, nodes[1:]):
        for k in range(rng.randint(3, 9) if len(nodes) == 2 else rng.randint(2, 4)):
            transit = [Fraction(1), Fraction(k), Fraction(rng.randint(0, 2)), Fraction(k, 2)][ties]
            capacity = rng.choice([Fraction(1), Fraction(1), Fraction(1, 2), Fraction(2), Fraction(1, rng.randint(1, 7))])
            links.append(Link(some_name(rng, taken), tail, head, transit, unbounded_at_times(rng, version, capacity)))
    rng.shuffle(links)
    return Network(version, links, some_pieces(rng))


def zero_chains(rng, version):
    """Transit times of 0 nearly everywhere, so that labels are equal and meet."""
    nodes = inner_nodes(rng.randint(1, 4))
    links = chain(rng, nodes, choice_of(Fraction(0)), choice_of(Fraction(1), Fraction(2), Fraction(1, 2), Fraction(3)))
    for k in range(rng.randint(0, 5)):
        tail, head = sorted(rng.sample(range(len(nodes)), 2))
        transit = rng.choice([Fraction(0), Fraction(0), Fraction(0), Fraction(1), Fraction(1, 2)])
        capacity = unbounded_at_times(rng, version, rng.choice([Fraction(1), Fraction(2), Fraction(3, 2)]))
        links.append(Link(f"x{k}", nodes[tail], nodes[head], transit, capacity))
    if chance(rng, 0.3):
        links.append(Link("back", "t", "s", Fraction(1, 1000), Fraction(1)))
    rng.shuffle(links)
    return Network(version, links, some_pieces(rng, 6))


def standing_still(rng, version):
    """A queue drains while nothing comes, and supply starts again about when it is empty: labels stand still."""
    first, second = Fraction(rng.randint(1, 3)), Fraction(rng.randint(1, 3), rng.randint(1, 2))
    links = [Link("a", "s", "m", Fraction(rng.randint(0, 1)), first), Link("b", "m", "t", Fraction(rng.randint(0, 1)), second)]
    for name, tail, head in (("c", "s", "t"), ("d", "m", "t"), ("e", "t", "m")):
        if chance(rng, 0.4):
            links.append(Link(name, tail, head, Fraction(rng.randint(1, 6)), Fraction(rng.randint(1, 3))))
    rate, stop = first + rng.randint(1, 4), Fraction(rng.randint(1, 4))
    empty = stop * rate / first
    beside = rng.choice(["0", "0", "0", "1/1000", "-1/1000", "1/1000000000", "1", "-1/2"])
    again = max(stop + Fraction(1, 10 ** 6), empty + Fraction(beside))
    pieces = [(Fraction(0), rate), (stop, Fraction(0)), (again, Fraction(rng.randint(0, 5)))]
    if chance(rng, 0.5):
        pieces += [(again + 2, Fraction(0)), (again + rng.randint(4, 9), Fraction(rng.randint(1, 4)))]
    return Network(version, links, pieces)


def with_wide_numbers(rng, version, number):
    """A few nodes in a chain with further links; about half of the numbers are of a wide kind."""
    nodes = inner_nodes(rng.randint(0, 2))

    def transit(rng):
        """A wide transit time, or a small one."""
        return number(rng) if chance(rng, 0.4) else Fraction(rng.randint(0, 2))

    def capacity(rng):
        """A wide capacity, or a small one."""
        return number(rng) if chance(rng, 0.6) else Fraction(rng.randint(1, 3))

    links = chain(rng, nodes, transit, capacity)
    for k in range(rng.randint(0, 4)):
        tail, head = rng.choice(nodes), rng.choice(nodes)
        links.append(Link(f"x{k}", tail, head, transit(rng) or Fraction(1), unbounded_at_times(rng, version, capacity(rng))))
    pieces, time = [], Fraction(0)
    for _ in range(rng.randint(1, 3)):
        pieces.append((time, rng.choice([number(rng), Fraction(rng.randint(0, 3))])))
        time += rng.choice([Fraction(1), number(rng)])
    return Network(version, links, pieces)


def wide_numbers(rng, version):
    """Numbers of any width, so that operations pass."""
    return with_wide_numbers(rng, version, wide)


def wide_tables(rng, version):
    """Parallel links over a hop or more with capacities so wide that the equations of several patterns pass."""
    nodes, links = inner_nodes(rng.randint(0, 2)), []
    number = rng.choice([over_primes, coprime, lambda r: Fraction(r.randint(2 ** 50, 2 ** 62), r.randint(2 ** 50, 2 ** 62))])
    for tail, head in zip(nodes, nodes[1:]):
        for _ in range(rng.randint(1, 4)):
            capacity = number(rng) if chance(rng, 0.7) else Fraction(rng.randint(1, 3))
            links.append(Link(f"c{len(links)}", tail, head, Fraction(rng.choice([0, 1, 1, 1, 2])), capacity))
    rng.shuffle(links)
    rate = rng.choice([Fraction(rng.randint(1, 9)), Fraction(rng.randint(0, 9), 2), wide(rng, 63), number(rng)])
    return Network(version, links, [(Fraction(0), rate), (Fraction(2), Fraction(rng.randint(0, 5)))])


def coprime_numbers(rng, version):
    """Denominators near 2^127 that share nothing."""
    return with_wide_numbers(rng, version, coprime)


def at_powers(rng, version):
    """One link or two, with numbers beside powers of two."""
    def number():
        """A number beside powers of two, or a small one."""
        return near_powers(rng) if chance(rng, 0.6) else Fraction(rng.randint(1, 3))
    links = [Link(name, "s", "t", rng.choice([number(), Fraction(0)]), number()) for name in "ab"[:rng.randint(1, 2)]]
    pieces = [(Fraction(0), number())]
    if chance(rng, 0.4):
        pieces.append((near_powers(rng), near_powers(rng)))
    return Network(version, links, pieces)


def primes(rng, version):
    """A larger network whose numbers can hardly be summed."""
    network = larger(rng, version)
    numbers = [Fraction(1), Fraction(2)] + [over_primes(rng) for _ in range(rng.randint(1, 3))]
    network.links = [replace(link, transit=rng.choice(numbers) if chance(rng, 0.3) else link.transit, capacity=link.capacity and rng.choice(numbers))
                     for link in network.links]
    return network


def with_idle_parts(rng, version):
    """A network of version 2 with links that nobody comes to; of version 1, a small one."""
    network = small(rng, version)
    if version == 2:
        for k in range(rng.randint(1, 5)):
            tail = f"i{rng.randrange(4)}"
            head = rng.choice(["s", "t", f"i{rng.randrange(4)}", f"i{rng.randrange(4)}"])
            link = Link(f"q{k}", tail, head, Fraction(rng.randint(1, 4), rng.choice([1, 2])), rng.choice([None, Fraction(1, 2)]))
            network.links.insert(rng.randint(0, len(network.links)), link)
    return network


def other_units(rng, version):
    """A small network in wide units of time and amount."""
    return scaled(small(rng, version), wide(rng, rng.choice([20, 40, 63])), wide(rng, rng.choice([3, 20, 40, 63])))


def many_pieces(rng: random.Random, version: int) -> Network:
    """Two to four nodes whose supply changes up to 40 times, seldom 200 times, so that reports are long."""
    nodes = inner_nodes(rng.randint(0, 2))
    transit, capacity = choice_of(Fraction(0), Fraction(1), Fraction(1, 2)), choice_of(Fraction(1), Fraction(2), Fraction(3, 2))
    links = chain(rng, nodes, transit, capacity)
    for k in range(rng.randint(1, 3)):
        tail, head = sorted(rng.sample(range(len(nodes)), 2))
        links.append(Link(f"x{k}", nodes[tail], nodes[head], Fraction(rng.randint(1, 5)), unbounded_at_times(rng, version, capacity(rng))))
    starts = rising_times(rng, rng.choice([200] + 9 * [rng.randint(8, 40)]))
    return Network(version, links, [(start, Fraction(rng.choice([0, 0, 1, 2, 3, 5, Fraction(1, 2)]))) for start in starts])


def layers(rng: random.Random, version: int) -> Network:
    """Up to three layers of up to three nodes between source and sink, with a link or two from each node to each of the next layer."""
    width, taken, links = rng.randint(1, 3), set(), []
    rows = [["s"]] + [[f"n{i}{j}" for j in range(width)] for i in range(rng.randint(0, 3))] + [["t"]]
    transits = rng.choice([[0, 1], [1], [0, 1, Fraction(1, 2), 2]])
    for tail, head in [(tail, head) for row, after in zip(rows, rows[1:]) for tail in row for head in after]:
        for _ in range(rng.choice([1, 1, 2])):
            capacity = unbounded_at_times(rng, version, Fraction(rng.choice([1, 2, Fraction(1, 2), Fraction(3, 2)])))
            links.append(Link(some_name(rng, taken), tail, head, Fraction(rng.choice(transits)), capacity))
    if chance(rng, 0.3):
        links.append(Link(some_name(rng, taken), "t", rng.choice("st"), Fraction(1), Fraction(1)))
    rng.shuffle(links)
    return Network(version, links, some_pieces(rng, 2))


def ladder_like(rng, version):
    """Up to 64 nodes in a row with links between near ones, and long names."""
    count = rng.choice([12, 24, 40, 64])
    taken, names = set(), set()
    nodes = [some_name(rng, taken) for _ in range(count)]
    transits = rng.choice([[1], [0, 1], [1, 2, 3], [5, 7, 11], [2 ** k for k in range(8)]])
    capacities = rng.choice([[1], [1, 2], [3, 4, 5, 6, 7], [2 ** k for k in range(30)], [3 ** k for k in range(20)]])
    ends = [(max(0, i - rng.randint(1, 4)), i) for i in range(1, count)]
    ends += [(i, min(count - 1, max(0, i + rng.randint(-3, 6)))) for i in (rng.randrange(count) for _ in range(rng.randint(0, 200 - count)))]
    links = [Link(some_name(rng, names), nodes[tail], nodes[head], Fraction(rng.choice(transits) or head <= tail),
                  unbounded_at_times(rng, version, Fraction(rng.choice(capacities)))) for tail, head in ends]
    return Network(version, links, some_pieces(rng), nodes[0], nodes[-1])


def scaled(network, time, amount):
    """The same network with another unit of time and another of amount."""
    rate = amount / time
    links = [replace(link, transit=link.transit * time, capacity=None if link.capacity is None else link.capacity * rate) for link in network.links]
    return replace(network, links=links, pieces=[(start * time, value * rate) for start, value in network.pieces])


KINDS = {"small": small, "larger": larger, "parallel": parallel, "zero": zero_chains, "still": standing_still, "wide": wide_numbers,
         "tables": wide_tables, "coprime": coprime_numbers, "powers": at_powers, "primes": primes, "idle": with_idle_parts, "units": other_units,
         "row": ladder_like, "pieces": many_pieces, "layers": layers}
PLAIN = ["small", "small", "larger", "parallel", "zero", "still", "idle", "pieces"]
WIDE = ["wide", "tables", "coprime", "powers", "primes", "units"]


def some_network(rng, answer_of, kinds=tuple(PLAIN * 2 + WIDE)):
    """A network of one of the kinds that the independent program accepts."""
    while True:
        network = KINDS[rng.choice(kinds)](rng, rng.choice([1, 2]))
        if network.fits() and answer_of(["show", "N"], {"N": network.text()}).status == 0:
            return network
