"""Texts in other units and with other names, for the relations of `metamorphic`."""
from fractions import Fraction

from .networks import Link, Network, some_name
from .numerals import is_number, printed
from .running import Answer

# What the words behind the first one of a line are: t a time, a an amount, r a rate, - neither. Further words are neither.
UNITS = {"horizon": "t", "reached": "t", "label": "-tt", "inflow": "-tar", "outflow": "-tar", "queue": "-ta", "exit": "-tt", "travel": "-tt",
         "arrival": "-ta", "quick": "t", "walk": "r", "cut": "-t", "value": "a", "equilibrium": "t", "flow": "-r", "rate": "-tr"}
NODE_LINES = ("label", "never", "slope", "cut", "source", "sink")
LINK_LINES = ("inflow", "outflow", "queue", "exit", "state", "flow")


def in_other_units(text, time, amount):
    """The text with times multiplied by one number and amounts by another, so that rates are by their quotient."""
    factors = {"t": time, "a": amount, "r": amount / time, "-": None}
    lines = []
    for line in text.decode().splitlines():
        words = line.split(" ")
        for i, unit in enumerate(UNITS.get(words[0], ""), 1):
            if i < len(words) and factors[unit] is not None and is_number(words[i]):
                words[i] = printed(Fraction(words[i]) * factors[unit])
        lines.append(" ".join(words) + "\n")
    return "".join(lines).encode()


def with_names(text, nodes, links):
    """The text with other names of nodes and of links."""
    lines = []
    for line in text.decode().splitlines():
        words = line.split(" ")
        if words[0] in NODE_LINES:
            words[1] = nodes[words[1]]
        elif words[0] in LINK_LINES:
            words[1] = links[words[1]]
        elif words[0] == "walk":
            words[2:] = [links[word] for word in words[2:]]
        lines.append(" ".join(words) + "\n")
    return "".join(lines).encode()


def other_names(rng, network):
    """New names for all nodes and for all links."""
    nodes = [network.source, network.sink] + [node for link in network.links for node in (link.tail, link.head)]
    taken_nodes, taken_links = set(), set()
    return ({node: some_name(rng, taken_nodes) for node in dict.fromkeys(nodes)},
            {link.name: some_name(rng, taken_links) for link in network.links})


def renamed(network, nodes, links):
    """The network with other names."""
    new = [Link(links[link.name], nodes[link.tail], nodes[link.head], link.transit, link.capacity) for link in network.links]
    return Network(network.version, new, network.pieces, nodes[network.source], nodes[network.sink])


def lines_of(answer, *keys):
    """The answer with those lines alone that begin with one of the words, or with all lines if there is no word, sorted."""
    lines = [line for line in answer.out.splitlines(keepends=True) if not keys or line.split(b" ")[0].decode() in keys]
    return Answer(answer.status, b"".join(sorted(lines)), answer.err)


def without_name(answer: Answer, name: str) -> Answer:
    """The answer without the lines whose second word is a name."""
    lines = [line for line in answer.out.splitlines(keepends=True) if line.split(b" ")[1:2] != [name.encode()]]
    return Answer(answer.status, b"".join(lines), answer.err)
