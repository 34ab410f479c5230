"""Loading by route: what routes carry through a network, and when it arrives.

LISTS.md, "Loading by route"; FORMATS.md, "The routes file, and what `routes` writes".
"""
from . import curves
from .exact import LOAD, ZERO
from .lines import joined
from .loading import cumulative, load_link, loaded_lines
from .reports import curve_lines
from .routes_file import links_before, loading_order


class Routed:
    """What is computed of routes (`IsRouted`): each link's end and loading, and what each route carries.

    A route has entries into its links, one after the other, arrivals and a travel.
    """

    def __init__(self, net, routes):
        self.ends = [None] * len(net.links)
        self.loaded = [None] * len(net.links)
        self.entries = [[] for _ in routes]
        self.arrivals = [None] * len(routes)
        self.travels = []


def load_routes(net, routes, horizon):
    """Loads the links in their order, then computes the travels (`routes_list`)."""
    routed = Routed(net, routes)
    before = links_before(net, routes)
    for e in loading_order(net, routes):
        for entries, route in zip(routed.entries, routes):
            if route.links[0] == e:
                entries.append(curves.short(cumulative(route.pieces, horizon), LOAD))
        routed.ends[e] = max([horizon] + [last_exit(routed.loaded[f]) for f in before[e]])
        load_next(net, routes, routed, e)
    for route in routes:
        routed.travels.append(travel(routed, route, horizon))
    return routed


def last_exit(loaded):
    """The exit from a link at its end."""
    return loaded.exits[-1][1]


def load_next(net, routes, routed, e):
    """Loads a link up to its end with the sum of the entries into it; route by route, what leaves enters the next link."""
    over = [(r, route.links.index(e)) for r, route in enumerate(routes) if e in route.links]
    inflow = curves.constant(ZERO)
    for r, place in over:
        inflow = curves.sum_of(inflow, routed.entries[r][place], LOAD)
    routed.loaded[e] = load_link(net.links[e], inflow, routed.ends[e])
    for r, place in over:
        sent_on = next_entry(routed.entries[r][place], routed.loaded[e].exits)
        if place + 1 < len(routes[r].links):
            routed.entries[r].append(sent_on)
        else:
            routed.arrivals[r] = sent_on


def next_entry(entry, exits):
    """A route's entry into its next link, or its arrivals (`next_entry`): by the exit of a time, what had entered by it."""
    points = [(ZERO, ZERO)]
    for time in curves.times(entry, exits):
        amount = curves.value(entry, time, LOAD)
        leaving = curves.value(exits, time, LOAD)
        if leaving != points[-1][0]:
            points.append((leaving, amount))
    return curves.short(points, LOAD)


def travel(routed, route, horizon):
    """The arrival of each departure up to the horizon: the exits of the route's links one after the other."""
    arrival = curves.identity(horizon)
    for e in route.links:
        arrival = curves.composed(routed.loaded[e].exits, arrival, horizon, LOAD)
    return curves.short(arrival, LOAD)


def routes_text(net, routes, horizon):
    """What `routes` writes."""
    routed = load_routes(net, routes, horizon)
    lines = ["routed 1", f"horizon {horizon}"]
    for link, loaded in zip(net.links, routed.loaded):
        lines += loaded_lines(link, loaded)
    for route, arrival, travel_curve in zip(routes, routed.arrivals, routed.travels):
        lines += curve_lines("arrival", route.name, arrival) + curve_lines("travel", route.name, travel_curve)
    return joined(lines + ["end"])
