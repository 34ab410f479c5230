"""Reading a routes file: the rules G1 to G17 in their order. FORMATS.md, "The routes file, and what `routes` writes"."""
from .exact import ZERO, read_fraction
from .lines import Broken, body_lines, content_lines, is_name

COUNTS = {"route": range(3, 1001), "rate": [4], "end": [1]}
MOST_ROUTES, MOST_PIECES = 100, 200


class Route:
    """A route: its name, the numbers of its links, and its pieces, pairs of a start and a rate."""

    def __init__(self, name, links):
        self.name = name
        self.links = links
        self.pieces = []


def read_routes(net, text):
    """The routes of a text; raises Broken with the first rule that the text breaks."""
    _, lines = content_lines(text, "G", [["routes", "1"]])
    routes = {}
    for line in body_lines(lines, "G", COUNTS, "G16"):
        take = take_route if line.words[0] == "route" else take_rate
        rule = take(net, routes, *line.words[1:])
        if rule is not None:
            raise Broken(rule, line.number)
    routes = list(routes.values())
    if loading_order(net, routes) is None:
        raise Broken("G17", 0)
    return routes


def take_route(net, routes, name, *link_names):
    """Reads a `route` line; returns the lowest of the rules G7 to G12 that it breaks, or None."""
    if not is_name(name):
        return "G7"
    if not all(link_name in net.link_number for link_name in link_names):
        return "G8"
    if name in routes:
        return "G10"
    if len(routes) == MOST_ROUTES:
        return "G11"
    links = [net.link_number[link_name] for link_name in link_names]
    if not is_walk(net, links, net.source, net.sink):
        return "G12"
    routes[name] = Route(name, links)
    return None


def take_rate(net, routes, name, start_word, rate_word):
    """Reads a `rate` line; returns the lowest of the rules G8 to G15 that it breaks, or None."""
    if name not in routes:
        return "G8"
    pieces = routes[name].pieces
    start, rate = read_fraction(start_word), read_fraction(rate_word)
    if start is None or rate is None:
        return "G9"
    if start < ZERO or rate < ZERO:
        return "G13"
    if pieces and start <= pieces[-1][0]:
        return "G14"
    if len(pieces) == MOST_PIECES:
        return "G15"
    pieces.append((start, rate))
    return None


def is_walk(net, links, begin, end):
    """Whether links are a walk between two nodes (`IsWalk`): each leaves the node to which the one before leads."""
    node = begin
    for e in links:
        if net.links[e].tail != node:
            return False
        node = net.links[e].head
    return node == end


def links_before(net, routes):
    """The links directly before each link: those that stand right before it on some route."""
    before = [set() for _ in net.links]
    for route in routes:
        for e, following in zip(route.links, route.links[1:]):
            before[following].add(e)
    return before


def loading_order(net, routes):
    """The order in which links are loaded (`loading_order`), or None where rule G17 is broken.

    The next one is the lowest link that is left and before which no link that is left stands directly.
    """
    before = links_before(net, routes)
    order = []
    while len(order) < len(net.links):
        free = [e for e in range(len(net.links)) if e not in order and before[e] <= set(order)]
        if not free:
            return None
        order.append(free[0])
    return order
