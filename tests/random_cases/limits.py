"""Files at the limits: of nodes, links, pieces, names, lines and bytes, and one beyond."""
from fractions import Fraction

from .breaking import break_network
from .case import Call
from .networks import Link, Network, joined, some_name
from .numerals import chance

MOST_BYTES = 1048576


def some_links(rng, version, nodes, count):
    """So many links that reach all nodes, forwards where they take no time."""
    taken = set()
    ends = [(rng.randrange(i), i) for i in range(1, len(nodes))]
    while len(ends) < count:
        ends.append((rng.randrange(len(nodes)), rng.randrange(len(nodes))))
    links = []
    for tail, head in ends:
        transit = Fraction(rng.choice(["0", "1", "2", "1/2"] if tail < head else ["1", "2"]))
        capacity = None if version == 2 and chance(rng, 0.2) else Fraction(rng.choice([1, 2, 3]))
        links.append(Link(some_name(rng, taken), nodes[tail], nodes[head], transit, capacity))
    return links


def full_network(rng):
    """A network of 63 to 65 nodes, 199 to 201 links and 199 to 201 pieces, or of a few of some of these."""
    taken, version = set(), rng.choice([1, 2])
    nodes = [some_name(rng, taken) for _ in range(rng.choice([3, 10, 63, 64, 64, 65]))]
    links = some_links(rng, version, nodes, rng.choice([len(nodes) - 1, 199, 200, 200, 201]))
    if chance(rng, 0.3):
        rng.shuffle(links)
    pieces = [(Fraction(i), Fraction(rng.randint(0, 3))) for i in range(rng.choice([0, 1, 199, 200, 200, 201]))]
    return Network(version, links, pieces, nodes[0], nodes[1])


def reordered(rng, lines):
    """The lines between the first and the last one, the supply before the links or all in any order."""
    inner = lines[1:-1]
    if chance(rng, 0.1):
        rng.shuffle(inner)
    else:
        inner = [line for line in inner if line.startswith("inflow")] + [line for line in inner if not line.startswith("inflow")]
    return lines[:1] + inner + lines[-1:]


def with_a_long_line(rng, lines):
    """One line of 999 to 1001 bytes."""
    i, length = rng.randrange(len(lines)), rng.choice([999, 1000, 1000, 1001])
    lines[i] = (lines[i] + " " + rng.choice([" ", "\t", "#"]) * 1001)[:length]
    return lines


def padded(rng, text):
    """The file with comments behind it, up to the most bytes a file may have, or one more or fewer."""
    missing = rng.choice([MOST_BYTES, MOST_BYTES, MOST_BYTES + 1, MOST_BYTES - 1]) - len(text)
    line = b"#" * rng.choice([999, 1000]) + b"\n"
    padding = line * (missing // len(line)) + b"#" * (missing % len(line))
    if padding.endswith(b"\n") and chance(rng, 0.3):
        return padding + text
    return text + padding


def full_file(rng):
    """The bytes of a network file at some limits."""
    lines = full_network(rng).text().decode().splitlines()
    if chance(rng, 0.2):
        break_network(rng, lines)
    if chance(rng, 0.4):
        lines = reordered(rng, lines)
    if chance(rng, 0.3):
        lines = with_a_long_line(rng, lines)
    ending = rng.choice(["\n", "\n", "\r\n"])
    text = (ending.join(lines) + ending).encode("latin-1")
    return padded(rng, text) if chance(rng, 0.3) else text


def show_at_limits(rng, answer_of):
    """`show` of a network file at some limits."""
    return Call("show", [], {"N": full_file(rng)})


def second_file_at_limits(rng, call):
    """The call with a long line in its second file, or with a second file of about the most bytes."""
    files = dict(call.files)
    name = list(files)[-1]
    if chance(rng, 0.2):
        files[name] = padded(rng, files[name])
    else:
        files[name] = joined(with_a_long_line(rng, files[name].decode("latin-1").splitlines() or [""]))
    return Call(call.command, call.options, files)
