"""The loading of a link: queue, outflow and exits of given inflow.

MODEL.md, "Queue, exit and outflow of one link"; LISTS.md, "Loading"; FORMATS.md, "What `load` writes".
"""
from . import curves
from .exact import LOAD, ZERO
from .lines import joined
from .reports import curve_lines


class Loaded:
    """The curves of a link with some inflow: its queue (`IsQueue`), its outflow (`IsOutflow`) and its exits (`IsExit`)."""

    def __init__(self, queue, outflow, exits):
        self.queue = queue
        self.outflow = outflow
        self.exits = exits


def cumulative(pieces, until, part=LOAD):
    """The amount that pieces supply by each time up to a last one (`supply`, `IsCumulative`; the list Cumulative).

    From its start to the next piece's start a piece supplies at its rate.
    """
    points = [(ZERO, ZERO)]
    amount = ZERO
    for i, (start, rate) in enumerate(pieces):
        if start >= until:
            break
        end = min(until, pieces[i + 1][0]) if i + 1 < len(pieces) else until
        if start != ZERO:
            points.append((start, amount))
        length = part.difference(end, start)
        amount = part.sum(amount, part.product(rate, length))
    if until != ZERO:
        points.append((until, amount))
    return points


def load_link(link, inflow, until):
    """Queue, outflow and exits of a link with this inflow up to a last time (`IsLoaded`; the list Loading).

    What enters waits in a queue at the entrance, which is served at the rate of the capacity. Then it takes the transit
    time.
    """
    points = curves.cut(inflow, until, LOAD)
    if link.capacity is None:
        queue = [(time, ZERO) for time, _ in points]
        entered = [amount for _, amount in points]
    else:
        queue, entered = queue_of(link.capacity, points)
    exits = [(time, exit_time(link, time, amount)) for time, amount in queue]
    outflow = [(ZERO, ZERO)]
    for (_, time), amount in zip(exits, entered):
        if time != outflow[-1][0]:
            outflow.append((time, amount))
    outflow = curves.cut(outflow, LOAD.sum(until, link.transit), LOAD)
    return Loaded(curves.short(queue, LOAD), curves.short(outflow, LOAD), curves.short(exits, LOAD))


def queue_of(capacity, points):
    """The queue before a capacity, given the points of an inflow; and what has entered by each point of the queue."""
    queue, entered = [(ZERO, ZERO)], [points[0][1]]
    for start, end in zip(points, points[1:]):
        waiting = queue[-1][1]
        rate = curves.slope(start, end, LOAD)
        emptied = emptied_at(capacity, rate, start[0], waiting)
        if emptied is not None and emptied < end[0]:
            entered.append(curves.on_line(start, end, emptied, LOAD))
            queue.append((emptied, ZERO))
            waiting = ZERO
        elif waiting > ZERO or rate > capacity:
            growth = LOAD.difference(rate, capacity)
            length = LOAD.difference(end[0], start[0])
            waiting = LOAD.sum(waiting, LOAD.product(growth, length))
        queue.append((end[0], waiting))
        entered.append(end[1])
    return queue, entered


def emptied_at(capacity, rate, time, waiting):
    """The time at which a queue that drains is empty; None where there is no queue, or it does not drain."""
    if waiting == ZERO or rate >= capacity:
        return None
    drain = LOAD.difference(rate, capacity)
    length = LOAD.quotient(LOAD.difference(ZERO, waiting), drain)
    return LOAD.sum(time, length)


def exit_time(link, time, waiting):
    """The exit of who enters at a time: the time, the transit time and the waiting (`IsExit`, `waiting`)."""
    if link.capacity is None:
        return LOAD.sum(time, link.transit)
    wait = LOAD.quotient(waiting, link.capacity)
    return LOAD.sum(LOAD.sum(time, link.transit), wait)


def loaded_lines(link, loaded):
    """The `queue`, `outflow` and `exit` lines of a link."""
    return (curve_lines("queue", link.name, loaded.queue) + curve_lines("outflow", link.name, loaded.outflow)
            + curve_lines("exit", link.name, loaded.exits))


def load_text(net, loads, horizon):
    """What `load` writes, link by link (`AreLoaded`; the list Load)."""
    lines = ["loaded 1", f"horizon {horizon}"]
    for link, pieces in zip(net.links, loads):
        lines += loaded_lines(link, load_link(link, cumulative(pieces, horizon), horizon))
    return joined(lines + ["end"])
