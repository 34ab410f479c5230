"""Reading a flows file: the rules S1 to S11 in their order. FORMATS.md, "The flows file, and what `settle` writes"."""
from .exact import ZERO, read_fraction
from .lines import Broken, body_lines, content_lines

COUNTS = {"flow": [3], "slope": [3], "end": [1]}


def read_flows(net, text):
    """The flow of each link and the slope of each node, 0 where none is named; raises Broken with the first broken rule."""
    _, lines = content_lines(text, "S", [["flows", "1"]])
    numbers = {"flow": net.link_number, "slope": net.node_number}
    given = {"flow": {}, "slope": {}}
    for line in body_lines(lines, "S", COUNTS, "S11"):
        first, name, word = line.words
        rule = take_value(numbers[first], given[first], name, word)
        if rule is not None:
            raise Broken(rule, line.number)
    return ([given["flow"].get(link.name, ZERO) for link in net.links],
            [given["slope"].get(name, ZERO) for name in net.nodes])


def take_value(numbers, values, name, word):
    """Reads a value of a link or node; returns the lowest of the rules S7 to S10 that its line breaks, or None."""
    value = read_fraction(word)
    if name not in numbers:
        return "S7"
    if value is None:
        return "S8"
    if value < ZERO:
        return "S9"
    if name in values:
        return "S10"
    values[name] = value
    return None
