"""Two cases of a study, as a road open and closed: who gains, who loses, how much, when. Exact; times as in the networks."""
from __future__ import annotations

from dataclasses import dataclass
from fractions import Fraction
from typing import Iterator, NamedTuple, Optional, Sequence

from .curves import Curve
from .faults import Refused
from .given import Net, Run, as_pair
from .networks import Network
from .reports import Report, mismatch


class Piece(NamedTuple):
    """Departures from `start` to `end` at a constant rate; the travel time changes linearly from `first` to `last`, without a change of sign."""
    start: Fraction
    end: Fraction
    rate: Fraction
    first: Fraction
    last: Fraction


@dataclass(frozen=True)
class Group:
    """Those who lose, or those who gain: how many vehicles, the change on average and at most (above 0), the departure with the greatest
    change, and when they leave."""
    vehicles: Fraction
    mean: Fraction
    most: Fraction
    departure: Optional[Fraction]
    spans: Sequence[tuple[Fraction, Fraction]]


class Pair(NamedTuple):
    """The same figure of the first and of the second case."""
    before: Fraction
    after: Fraction

    @property
    def change(self) -> Fraction:
        """By how much it grows."""
        return self.after - self.before


@dataclass(frozen=True)
class Comparison:
    """Two cases up to the departure `until`, which both reach.

    `vehicles`, `total` (time spent by all), `mean` and `longest` (travel time of a vehicle) are pairs; the last two are None where a case
    has no vehicles. `same_supply` says whether the supplies are equal until then. `lose` and `gain` are those of `common` vehicles that
    leave at the same time in both cases."""
    until: Fraction
    before: Curve
    after: Curve
    vehicles: Pair
    total: Pair
    mean: Optional[Pair]
    longest: Optional[Pair]
    same_supply: bool
    common: Fraction
    lose: Group
    gain: Group

    def takes(self, departure: Fraction) -> Pair:
        """The travel times of a departure; OutOfRange beyond `until`."""
        return Pair(self.before(departure) - departure, self.after(departure) - departure)


def spans(supply: Sequence[tuple[Fraction, Fraction]], until: Fraction, corners: Sequence[Fraction]) -> Iterator[tuple[Fraction, Fraction, Fraction]]:
    """Departures from a to b and their rate, up to `until`, cut at the corners."""
    ends = [start for start, _ in supply[1:]] + [until]
    for (start, rate), stop in zip(supply, ends):
        stop = min(stop, until)
        cuts = [start, *(time for time in corners if start < time < stop), stop]
        if start < stop:
            yield from ((a, b, rate) for a, b in zip(cuts, cuts[1:]))


def least_rates(first: Network, second: Network, until: Fraction) -> list[tuple[Fraction, Fraction]]:
    """The lesser of two supplies at each time: what leaves at the same time in both cases."""
    starts = sorted({Fraction(0), *(start for net in (first, second) for start, _ in net.supply if start < until)})

    def rate(net: Network, time: Fraction) -> Fraction:
        return next((rate for start, rate in reversed(net.supply) if start <= time), Fraction(0))
    return [(time, min(rate(first, time), rate(second, time))) for time in starts]


def corners(*curves: Curve) -> list[Fraction]:
    """The times of the points of some curves."""
    return sorted({time for curve in curves for time, _ in curve.points})


class Spent(NamedTuple):
    """The time that all vehicles spend on the way, and the longest travel time of one (None without vehicles)."""
    total: Fraction
    longest: Optional[Fraction]


def spent(net: Network, label: Curve, until: Fraction) -> Spent:
    """The time that all who leave by `until` spend, given when they arrive at the sink."""
    total, longest = Fraction(0), None
    for start, end, rate in spans(net.supply, until, corners(label)):
        first, last = label(start) - start, label(end) - end
        total += rate * (end - start) * (first + last) / 2
        if rate:
            longest = max(first, last, *([] if longest is None else [longest]))
    return Spent(total, longest)


def changes(supply: Sequence[tuple[Fraction, Fraction]], before: Curve, after: Curve, until: Fraction) -> Iterator[Piece]:
    """The change of travel times of those who leave, in pieces without a change of sign."""
    change = after - before
    for start, end, rate in spans(supply, until, corners(before, after)):
        first, last = change(start), change(end)
        cuts = [start, start + (end - start) * first / (first - last), end] if first * last < 0 else [start, end]
        if rate:
            yield from (Piece(a, b, rate, change(a), change(b)) for a, b in zip(cuts, cuts[1:]))


def group(pieces: Sequence[Piece]) -> Group:
    """The vehicles of some pieces together."""
    vehicles = sum((piece.rate * (piece.end - piece.start) for piece in pieces), Fraction(0))
    joined: list[tuple[Fraction, Fraction]] = []
    for piece in pieces:
        start = joined.pop()[0] if joined and joined[-1][1] == piece.start else piece.start
        joined.append((start, piece.end))
    if not vehicles:
        return Group(Fraction(0), Fraction(0), Fraction(0), None, ())
    together = sum((piece.rate * (piece.end - piece.start) * abs(piece.first + piece.last) / 2 for piece in pieces), Fraction(0))
    ends = [(abs(change), -time) for piece in pieces for time, change in ((piece.start, piece.first), (piece.end, piece.last))]
    most, departure = max(ends)
    return Group(vehicles, together / vehicles, most, -departure, tuple(joined))


def alike(net: Network, run: Report, other_net: Network, other_run: Report) -> Optional[str]:
    """The sentence that says that two cases are the same, up to the departure that both reach; None where some label differs."""
    until = min(run.reached, other_run.reached)
    if list(run.labels) != list(other_run.labels) or any(run.label(node).cut(until) != other_run.label(node).cut(until) for node in run.labels):
        return None
    if net == other_net:
        return "both networks are the same, so look whether a change was made"
    return "the networks differ, and no travel time does"


def compare(net: Net, run: Run, other_net: Net, other_run: Run) -> Comparison:
    """Compares two cases: who gains, who loses, how much, when, up to the departure that both reports reach.

    Where the supplies differ, `same_supply` is false, and `lose` and `gain` count the vehicles that leave at the same time in both cases
    (at each time the lesser rate). Raises a Fault with status 1 where a report isn't one of its network."""
    (net, run), (other_net, other_run) = as_pair(net, run), as_pair(other_net, other_run)
    for network, report, what in ((net, run, "first"), (other_net, other_run, "second")):
        if why := mismatch(network, report):
            raise Refused(f"the {what} report is none of its network: {why}", status=1)
    until = min(run.reached, other_run.reached)
    before, after = run.label(net.sink).cut(until), other_run.label(other_net.sink).cut(until)
    first, second = spent(net, before, until), spent(other_net, after, until)
    vehicles = Pair(net.supplied(until), other_net.supplied(until))
    same = net.supply_curve(until) == other_net.supply_curve(until)
    common = net.supply if same else least_rates(net, other_net, until)
    pieces = list(changes(common, before, after, until))
    mean = Pair(first.total / vehicles.before, second.total / vehicles.after) if all(vehicles) else None
    longest = None if first.longest is None or second.longest is None else Pair(first.longest, second.longest)
    amount = sum((rate * (end - start) for start, end, rate in spans(common, until, ())), Fraction(0))
    return Comparison(until, before, after, vehicles, Pair(first.total, second.total), mean, longest, same, amount,
                      group([piece for piece in pieces if piece.first + piece.last > 0]), group([piece for piece in pieces if piece.first + piece.last < 0]))
