"""Changes of the curves of a report: some leave an equilibrium an equilibrium, most break a chosen rule of `check`.

Each call takes the generator, the network and the report, and gives a changed report, or None where it can't change this one.
"""
from fractions import Fraction

from .networks import Network
from .numerals import LARGEST, PRIMES, chance, fits, near_powers, printed, small_rate, wide
from .piecewise import added, composed, cumulative, exit_of, least, mean, outflow_of, queue_of, value_at
from .reports import read_report, with_curve

FAR = 10 ** 6


def some_curve(rng, report, kinds=("label", "inflow", "outflow", "queue")):
    """The key of a curve of one of the kinds."""
    return rng.choice([key for key in report.curves if key[0] in kinds])


# Changes that leave the same flow.

def more_points(rng, network, report, denominators=(2, 3, 7, 10, 2 ** 20 + 7, 2 ** 40 + 15, 2 ** 61 - 1), most=5):
    """Further points on the lines between points, and behind the last one."""
    for _ in range(rng.randint(1, most)):
        key = some_curve(rng, report)
        points = list(report.curves[key])
        if len(points) == 1 or chance(rng, 0.2):
            points.append((points[-1][0] + wide(rng, 40), points[-1][1]))
        else:
            i, denominator = rng.randrange(len(points) - 1), rng.choice(denominators)
            (t0, v0), (t1, v1) = points[i], points[i + 1]
            part = Fraction(rng.randint(1, denominator - 1), denominator)
            points.insert(i + 1, (t0 + (t1 - t0) * part, v0 + (v1 - v0) * part))
        report = with_curve(report, key, points) or report
    return report


def wide_points(rng, network, report):
    """Further points whose fractions can hardly be summed."""
    return more_points(rng, network, report, PRIMES[:6], rng.choice([2, 6, 12]))


def moved_end(rng, network, report):
    """A last point moved along its slope, so that the curve is cut short or goes on."""
    key = some_curve(rng, report)
    points = list(report.curves[key])
    if len(points) < 2:
        return None
    (t0, v0), (t1, v1) = points[-2:]
    time = t1 + rng.choice([Fraction(1), Fraction(1, 2), Fraction(-1, 2), Fraction(1, 10 ** 9)])
    if time <= t0:
        return None
    points[-1] = (time, v0 + (v1 - v0) * (time - t0) / (t1 - t0))
    return with_curve(report, key, points)


def foreign_states(rng, network, report):
    """States of links at random, also of those that have none."""
    changed, share = report.copy(), rng.random()
    changed.states = {link.name: rng.choice(["tight", "zero", "tight" if link.capacity is None else "full"])
                      for link in network.used_links() if chance(rng, share)}
    return changed


# Changes that break a rule.

def negative_label(rng, network, report):
    """A label with a negative value, or one that is negative behind the departure reached."""
    key = some_curve(rng, report, ("label",))
    points = list(report.curves[key])
    i = rng.randrange(len(points))
    points[i] = (points[i][0], Fraction(-rng.randint(1, 9), rng.choice([1, 2, 7])))
    return with_curve(report, key, points)


def beyond_the_reach(rng, network, report):
    """A label that goes on behind the departure reached to anywhere, so that it has to be cut."""
    key = some_curve(rng, report, ("label",))
    points = list(report.curves[key])
    if chance(rng, 0.5) and len(points) > 1:
        points.pop()
    time = max(points[-1][0], report.reached) + Fraction(rng.randint(1, 9), rng.choice([1, 2, 10 ** 9, *PRIMES]))
    points.append((time, rng.choice([Fraction(-rng.randint(1, 99), 2), wide(rng, 63), Fraction(1, rng.choice(PRIMES))])))
    return with_curve(report, key, points)


def falling_inflow(rng, network, report):
    """An inflow that falls somewhere, or isn't 0 at first."""
    key = some_curve(rng, report, ("inflow",))
    points = list(report.curves[key])
    i = rng.randrange(len(points))
    value = rng.choice([Fraction(1), Fraction(-1), Fraction(1, 3)]) if i == 0 else points[i - 1][1] - Fraction(rng.randint(1, 4), rng.choice([1, 3]))
    points[i] = (points[i][0], value)
    return with_curve(report, key, points)


def wrong_rate(rng, network, report):
    """A told rate that isn't the slope."""
    keys = [key for key in report.curves if report.slopes(key)]
    if not keys:
        return None
    key = rng.choice(keys)
    i = rng.randrange(len(report.slopes(key)))
    slope = report.slopes(key)[i]
    changed = report.copy()
    changed.rates[(*key, i)] = rng.choice([Fraction(0), Fraction(1), wide(rng), -slope, slope + Fraction(1, 2 ** 60)])
    return changed if changed.fits() else None


def moved_point(rng, network, report, kinds=("label", "inflow", "outflow", "queue")):
    """The time or the value of one point changed, a little or more."""
    key = some_curve(rng, report, kinds)
    points = list(report.curves[key])
    i = rng.randrange(len(points))
    time, value = points[i]
    if i > 0 and chance(rng, 0.3):
        low = points[i - 1][0]
        high = points[i + 1][0] if i + 1 < len(points) else time + 2
        time = low + (high - low) * Fraction(rng.randint(1, 9), 10)
    else:
        value += Fraction(rng.choice([-1, 1]), rng.choice([1, 2, 3, 7, 10 ** 9, 2 ** 60]))
    points[i] = (time, value)
    return with_curve(report, key, points)


def moved_label(rng, network, report):
    """A point of a label moved."""
    return moved_point(rng, network, report, ("label",))


def moved_outflow(rng, network, report):
    """A point of an outflow moved."""
    return moved_point(rng, network, report, ("outflow",))


def moved_queue(rng, network, report):
    """A point of a queue moved."""
    return moved_point(rng, network, report, ("queue",))


def lost_point(rng, network, report):
    """A curve without one of its inner points."""
    keys = [key for key, points in report.curves.items() if len(points) > 2]
    if not keys:
        return None
    key = rng.choice(keys)
    points = list(report.curves[key])
    del points[rng.randrange(1, len(points))]
    return with_curve(report, key, points)


def zigzag(rng, network, report):
    """A label that leaves the true one at some departure, and rises and falls from there."""
    key = some_curve(rng, report, ("label",))
    label, end = report.curves[key], report.reached
    begin = end * Fraction(rng.randint(0, 11), 12)
    points = [point for point in label if point[0] < begin] + [(begin, value_at(label, begin))]
    most = max(0, int(label[-1][1])) + rng.choice([0, 2, 10])
    for part in sorted(rng.sample(range(1, 13), rng.randint(1, 4))):
        time = begin + (end - begin) * Fraction(part, 12)
        if time > points[-1][0]:
            points.append((time, rng.choice([Fraction(rng.randint(0, 2 * most + 1), 2), *(value for _, value in label)])))
    return with_curve(report, key, points)


def far_point(rng, network, report):
    """A point far out on one curve, with a wide or an odd value."""
    key = some_curve(rng, report)
    points = list(report.curves[key])
    time = rng.choice([Fraction(LARGEST), Fraction(LARGEST - 1, 2), points[-1][0] + wide(rng, 64), points[-1][0] + near_powers(rng)])
    if time <= points[-1][0]:
        return None
    value = rng.choice([wide(rng), points[-1][1], points[-1][1] + 1, Fraction(1, 3), Fraction(-5)])
    return with_curve(report, key, points + [(time, value)])


# Flows that are true but for conservation, or but for the choice of links.

def loaded(network, report, inflows):
    """The report of given inflows: outflows, queues and earliest arrivals follow by the law of the point queue."""
    links = network.used_links()
    changed = report.copy()
    until = report.reached + 1 + sum((link.transit for link in links), Fraction(0))
    for link in links:
        inflow = inflows[link.name]
        until = max(until, inflow[-1][0]) + (0 if link.capacity is None else inflow[-1][1] / link.capacity)
    until = Fraction(int(until) + 1)  # whole, so that the width of its parts doesn't add to that of the flow
    exits = {}
    for link in links:
        inflow = inflows[link.name]
        queue = queue_of(inflow, link.capacity, until)
        exits[link.name] = exit_of(queue, inflow, link, until)
        changed.curves["inflow", link.name] = inflow
        changed.curves["outflow", link.name] = outflow_of(exits[link.name], inflow)
        changed.curves["queue", link.name] = queue
    for node, label in earliest_arrivals(network, exits, report.reached).items():
        changed.curves["label", node] = label
    return changed if changed.fits() else None


def earliest_arrivals(network, exits, reached):
    """The labels that follow from exits: the least over walks, link by link."""
    labels = {network.source: [(Fraction(0), Fraction(0))] + ([(reached, reached)] if reached else [])}
    for _ in network.used_nodes():
        for link in network.used_links():
            if link.tail in labels and link.head != network.source:
                arrival = composed(exits[link.name], labels[link.tail])
                labels[link.head] = least(labels[link.head], arrival) if link.head in labels else arrival
    return labels


def inflows_of(network, report):
    """The inflows of the report by the names of links."""
    return {link.name: report.curves["inflow", link.name] for link in network.used_links()}


def random_inflow(rng):
    """A few pieces from about 0 on."""
    pieces, time = [], Fraction(rng.choice([0, 0, 0, 1, 3]), 2)
    for _ in range(rng.randint(0, 3)):
        pieces.append((time, small_rate(rng)))
        time += Fraction(rng.randint(1, 12), rng.choice([1, 2, 3]))
    return cumulative(pieces, time)


def other_inflow(rng, network, report):
    """Other inflows of one link or of all: conservation breaks at a node."""
    inflows = inflows_of(network, report)
    names = list(inflows) if chance(rng, 0.2) else [rng.choice(sorted(inflows))]
    return loaded(network, report, {**inflows, **{name: random_inflow(rng) for name in names}})


def walk_without_return(rng, network, start, end):
    """Links of a walk that comes to no node twice, or None."""
    node, links, seen = start, [], set()
    while node != end or not links:
        choices = [link for link in network.used_links() if link.tail == node and link.head not in seen]
        if not choices:
            return None
        links.append(rng.choice(choices))
        node = links[-1].head
        seen.add(node)
    return links


def along(inflows, links, points):
    """The inflows with these amounts added along a walk, each link loaded by itself."""
    inflows = dict(inflows)
    for link in links:
        inflows[link.name] = added(inflows[link.name], points)
        queue = queue_of(points, link.capacity, Fraction(FAR))
        points = outflow_of(exit_of(queue, points, link, Fraction(FAR)), points)
    return inflows


def one_route(rng, network, report):
    """All of the supply on one route, whether that is a shortest one or not."""
    links = walk_without_return(rng, network, network.source, network.sink)
    if links is None:
        return None
    nothing = {name: [(Fraction(0), Fraction(0))] for name in inflows_of(network, report)}
    return loaded(network, report, along(nothing, links, cumulative(network.pieces, report.reached)))


def round_the_sink(rng, network, report):
    """More flow on a way from the sink back to it."""
    links = walk_without_return(rng, network, network.sink, network.sink)
    if links is None:
        return None
    end = Fraction(rng.randint(1, 6), rng.choice([1, 2]))
    points = cumulative([(Fraction(0), small_rate(rng))], end)
    return loaded(network, report, along(inflows_of(network, report), links, points))


# Flows of other runs.

def of_another_order(rng, network, report, answer_of):
    """The equilibrium that the network with its links in another order has, or the mean of the two."""
    links = list(network.links)
    rng.shuffle(links)
    other = solved(answer_of, Network(network.version, links, network.pieces, network.source, network.sink), report.horizon)
    if other is None or other.reached != report.reached or any(key not in other.curves for key in report.curves):
        return None
    changed, weight = report.copy(), rng.choice([Fraction(0), Fraction(rng.randint(1, 6), 7)])
    for key in report.curves:
        if key[0] in ("inflow", "outflow"):
            changed.curves[key] = mean(report.curves[key], other.curves[key], weight)
    return changed if changed.fits() else None


def of_a_part(rng, network, report, answer_of):
    """The equilibrium of the network without some links, with the earliest arrivals of the whole one."""
    gone = {link.name for link in network.links if chance(rng, 0.3)}
    part = Network(network.version, [link for link in network.links if link.name not in gone], network.pieces, network.source, network.sink)
    other = solved(answer_of, part, report.horizon)
    if other is None or other.reached != report.reached or set(other.labels()) != set(report.labels()):
        return None
    nothing = [(Fraction(0), Fraction(0))]
    return loaded(network, report, {link.name: other.curves.get(("inflow", link.name), nothing) for link in network.used_links()})


def solved(answer_of, network, horizon):
    """The report of a network up to a horizon, or None where there is none."""
    answer = answer_of(["solve", "N", "--horizon", printed(horizon), "--patterns", "300"], {"N": network.text()})
    return read_report(answer.out) if answer.out else None


SAME_FLOW = [more_points, more_points, wide_points, moved_end]
BROKEN = [negative_label, beyond_the_reach, falling_inflow, wrong_rate, moved_point, moved_label, moved_outflow, moved_queue, lost_point, zigzag,
          far_point, other_inflow, other_inflow, one_route, one_route, one_route, round_the_sink]
OF_OTHER_RUNS = [of_another_order, of_another_order, of_a_part]


def changed_flow(rng, network, report, answer_of):
    """The report, or a changed one; up to two changes, one after the other."""
    kind = rng.random()
    if kind < 0.2:
        return report
    if kind < 0.4:
        changes = [rng.choice(SAME_FLOW)]
    elif kind < 0.5:
        changes = [lambda *three: rng.choice(OF_OTHER_RUNS)(*three, answer_of)]
    elif kind < 0.9:
        changes = [rng.choice(BROKEN)]
    else:
        changes = [rng.choice(BROKEN), rng.choice(BROKEN + SAME_FLOW)]
    for change in changes:
        report = change(rng, network, report) or report
    return report
