"""Discrete vehicles as flow: how entry times of vehicles become rates of links and routes."""
from __future__ import annotations

from fractions import Fraction
from typing import Dict, Iterable, List, Mapping, Optional, Sequence, Tuple, Union

from .faults import OutOfRange, Refused
from .given import Net, as_network
from .loading import Piece, pieces_of_changes
from .near import near
from .numbers import Number, Time, exact, short, time_of

Entries = Mapping[str, Iterable[Time]]  # by link: the times at which vehicles enter it
Trip = Iterable[Tuple[str, Time]]  # the links of a vehicle, each with the time at which it enters
ZERO = Fraction(0)


def loads_of_vehicles(net: Net, vehicles: Union[Entries, Iterable[Trip]], size: Number = 1, spread: Optional[Number] = None,
                      round_to: Optional[Number] = None) -> Dict[str, List[Piece]]:
    """What enters each link, as pieces (start, rate) for `report_of_flows`, given when vehicles enter links.

    `vehicles` has entry times by link, or trips, each a list of pairs (link, entry time). Each vehicle is an amount `size`. It enters
    evenly during `spread` from its entry time on; without `spread` until the next vehicle comes to the link, so that at each entry time
    just the vehicles before have entered (the last one as long as the one before it). `round_to` rounds times to its multiples.
    Floats are taken with `round_to` alone. Refused where a time is negative, OutOfRange where a link isn't there.
    """
    entries: Dict[str, List[Fraction]] = {link.name: [] for link in as_network(net).used_links()}
    pairs: Iterable[Tuple[str, Iterable[Time]]]
    pairs = vehicles.items() if isinstance(vehicles, Mapping) else ((link, [time]) for trip in vehicles for link, time in trip)
    for link, times in pairs:
        if link not in entries:
            raise OutOfRange(f"the network has no link {link} whose tail is reached{near(link, entries)}")
        entries[link] += [entry_time(time, round_to, f"link {link}") for time in times]
    return {link: rates_of_entries(times, exact(size), spread, f"link {link}") for link, times in entries.items() if times}


def routes_of_vehicles(trips: Iterable[Tuple[Sequence[str], Time]], size: Number = 1, spread: Optional[Number] = None,
                       round_to: Optional[Number] = None) -> Dict[str, Tuple[List[str], List[Piece]]]:
    """What is sent along routes, for `report_of_routes`, given the links of each vehicle and when it leaves the source.

    Vehicles with the same links are of one route. The rest is as in `loads_of_vehicles`. Give `spread`, the time between two vehicles
    that leave the source: then the rates of all routes together are those of the supply.
    """
    found: Dict[Tuple[str, ...], List[Fraction]] = {}
    for links, time in trips:
        found.setdefault(tuple(links), []).append(entry_time(time, round_to, f"route {' '.join(links)}"))
    return {f"r{number}": (list(links), rates_of_entries(times, exact(size), spread, f"route {' '.join(links)}"))
            for number, (links, times) in enumerate(found.items(), 1)}


def entry_time(time: Time, round_to: Optional[Number], what: str) -> Fraction:
    """An entry time; Refused where it is negative, or a float that isn't to be rounded."""
    try:
        made = exact(time) if round_to is None else round(time_of(time) / exact(round_to)) * exact(round_to)
    except Refused as fault:
        more = ", or give round_to" if isinstance(time, float) else ""
        raise Refused(f"{what}: {fault.why}{more}") from None
    if made < 0:
        raise Refused(f"{what}: the entry time {short(made)} is below 0")
    return made


def rates_of_entries(times: Iterable[Fraction], size: Fraction, spread: Optional[Number], what: str) -> List[Piece]:
    """The pieces (start, rate) of vehicles that enter at these times."""
    count: Dict[Fraction, int] = {}
    for time in times:
        count[time] = count.get(time, 0) + 1
    starts = sorted(count)
    if spread is not None:
        lengths = [exact(spread)] * len(starts)
    elif len(starts) > 1:
        lengths = [after - before for before, after in zip(starts, starts[1:])]
        lengths.append(lengths[-1])
    else:
        raise Refused(f"{what}: all vehicles enter at {short(starts[0])}: give spread, how long one takes to enter")
    if min(lengths) <= 0 or size <= 0:
        raise Refused(f"{what}: spread {short(min(lengths))} and size {short(size)} have to be above 0")
    changes: Dict[Fraction, Fraction] = {}
    for start, length in zip(starts, lengths):
        rate = count[start] * size / length
        changes[start] = changes.get(start, ZERO) + rate
        changes[start + length] = changes.get(start + length, ZERO) - rate
    return pieces_of_changes(changes)
