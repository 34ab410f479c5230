"""Reading a loads file: the rules L1 to L12 in their order. FORMATS.md, "The loads file"."""
from .exact import ZERO, read_fraction
from .lines import Broken, body_lines, content_lines

COUNTS = {"rate": [4], "end": [1]}
MOST_PIECES = 200


def read_loads(net, text):
    """The pieces of each link; raises Broken with the first rule that the text breaks."""
    _, lines = content_lines(text, "L", [["loads", "1"]])
    loads = [[] for _ in net.links]
    for line in body_lines(lines, "L", COUNTS, "L12"):
        rule = take_rate(net, loads, *line.words[1:])
        if rule is not None:
            raise Broken(rule, line.number)
    return loads


def take_rate(net, loads, name, start_word, rate_word):
    """Reads a `rate` line; returns the lowest of the rules L7 to L11 that it breaks, or None."""
    if name not in net.link_number:
        return "L7"
    pieces = loads[net.link_number[name]]
    start, rate = read_fraction(start_word), read_fraction(rate_word)
    if start is None or rate is None:
        return "L8"
    if start < ZERO or rate < ZERO:
        return "L9"
    if pieces and start <= pieces[-1][0]:
        return "L10"
    if len(pieces) == MOST_PIECES:
        return "L11"
    pieces.append((start, rate))
    return None
