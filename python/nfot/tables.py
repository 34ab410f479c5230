"""A network from a table of roads: `nfot-py table` and the functions behind it.

    roads = nfot.read_roads("roads.csv", nfot.Columns(minutes="t0"), two_way=True)
    made = nfot.network_of_table(roads, "home", "work", nfot.demand_of_words(["0:30", "60:0"]))
    made.network, made.notes, made.names

Times are minutes. Capacities and rates are vehicles a minute."""
from __future__ import annotations

from dataclasses import dataclass, field
from fractions import Fraction
from typing import Iterable, NamedTuple, Optional, Sequence

from .demand import Demand
from .faults import OutOfRange, Refused
from .graph import least_sums
from .near import near
from .networks import Link, Network
from .numbers import decimal, short
from .renaming import Names, joined
from .roads import Corridor, Road, Roads, corridor
from .rounding import MOST, Rounding, readable, unit_for
from .rows import Rows
from .suspects import odd_units, same_roads

NODES, LINKS, SUPPLIES = 64, 200, 200
LISTED = 12  # how many roads a note names
RENAMED = 5  # how many changed names are told


@dataclass(frozen=True)
class Units:
    """What numbers are rounded to multiples of; None: chosen by the numbers. `capacity` is in vehicles an hour if `hourly`.

    A change by more than `most` percent is refused."""
    capacity: Optional[Fraction] = None
    time: Optional[Fraction] = None
    rate: Optional[Fraction] = None
    hourly: bool = False
    most: Fraction = MOST


class Name(NamedTuple):
    """A name of the network, and what the table calls it; of a link also its row, kilometres and lanes, where known."""
    id: str
    kind: str
    name: str
    line: Optional[int] = None
    km: Optional[Fraction] = None
    lanes: Optional[Fraction] = None


@dataclass
class Made:
    """A network made from a table: what was rounded, left out and renamed, in lines; the names of the table by those of the network.

    `renamed` has the notes on changed names alone, `warnings` what may be a mistake. Both are among the notes, first and last."""
    network: Network
    notes: list[str] = field(default_factory=list)
    names: list[Name] = field(default_factory=list)
    renamed: list[str] = field(default_factory=list)
    warnings: list[str] = field(default_factory=list)

    def notes_with(self, names: Optional[str]) -> list[str]:
        """The notes for a terminal: one line for all changed names, which stand in the file of this name; without it the first few names."""
        count = sum(name.id != name.name for name in self.names)
        changed = [f"{count} name{'s' * (count > 1)} changed, see {'standard output' if names == '-' else names}"] if count else []
        if names is None:
            changed, more = self.renamed[:RENAMED], len(self.renamed) - RENAMED
            changed += [f"and {more} more name{'s' * (more > 1)} changed: --names FILE writes them all"] * (more > 0)
        return changed + [note for note in self.notes if note not in self.renamed]

    def name_rows(self) -> Rows:
        """The names as a table."""
        rows = ([name.id, name.kind, name.name, None if name.line is None else str(name.line), name.km, name.lanes] for name in self.names)
        return Rows(Name._fields, rows)

    def write_names(self, path: str, semicolon: bool = False) -> None:
        """Writes the names as CSV with the columns id, kind (node or link), name, line, km and lanes. `-` is standard output."""
        self.name_rows().csv(path, exact=True, semicolon=semicolon)


def goals_of(roads: Roads, origin: str, destination: str) -> list[str]:
    """The destinations: one node, or several joined by commas; a Fault where a name is no node of the table."""
    if not isinstance(roads, Roads):
        raise Refused(f"roads are needed, as read_roads(path) has them, not {roads!r:.60}")
    places = roads.places()
    goals = [destination] if destination in places else [goal.strip() for goal in destination.split(",")]
    for node in [origin, *goals]:
        if node not in places:
            raise OutOfRange(f"{node} is no node of {roads.file}{near(node, places)}")
    if origin in goals:
        raise Refused(f"{origin} is the origin and a destination")
    return goals


def check_size(kept: Sequence[tuple[Fraction, Road]], sinks: int) -> None:
    """Raises a Fault where there are more nodes or links than `nfot` takes; the line says which detour fits. `sinks`: links to a common sink."""
    def size(roads: Iterable[Road]) -> tuple[int, int]:
        part = list(roads)
        return len({end for road in part for end in (road.tail, road.head)}) + (sinks > 0), len(part) + sinks
    nodes, links = size(road for _, road in kept)
    if nodes <= NODES and links <= LINKS:
        return
    fits = None
    for longer in sorted({longer for longer, _ in kept}):
        some_nodes, some_links = size(road for length, road in kept if length <= longer)
        if some_nodes > NODES or some_links > LINKS:
            break
        fits = longer
    advice = "cut out the part that the question is about" if fits is None else f"--detour {short(Fraction(fits * 100 // 1, 100))} leaves few enough"
    raise Refused(f"{nodes} nodes and {links} links are on routes to the destination; nfot takes {NODES} and {LINKS}: {advice}", status=1)


class Maker:
    """Makes the network: names and rounded numbers, and the notes on them."""

    def __init__(self, kept: Sequence[Road], units: Units, rates: Sequence[Fraction]) -> None:
        self.nodes, self.links = Names(), Names()
        self.names: list[Name] = []
        self.renamed: list[str] = []
        self.per = 60 if units.hourly else 1
        capacities = [road.capacity * self.per for road in kept if road.capacity is not None]
        self.capacity = Rounding("capacities", units.capacity or unit_for(capacities, Fraction(1, 10)), "--round-capacity ", units.most)
        step = unit_for([road.minutes for road in kept], Fraction(2, 5), Fraction(1, 10), finer=2)
        self.time = Rounding("times", units.time or step, "--round-time ", units.most)
        rate_unit = units.rate or unit_for(rates, Fraction(1, 100), digits=(1,))
        self.rate = Rounding("rates", rate_unit, "--round-rate ", units.most)

    def node(self, name: str) -> str:
        """The name of a node in the network."""
        if name not in self.nodes.given:
            self.names.append(Name(self.nodes.of(name), "node", name))
            self.tell("node", name, self.nodes.of(name), name)
        return self.nodes.of(name)

    def tell(self, kind: str, name: str, new: str, expected: str) -> None:
        """Notes a name that isn't the one that a user would expect."""
        if new != expected:
            self.renamed.append(f"{kind} `{name}` is called {new}")

    def link(self, road: Road) -> Link:
        """The link of a road."""
        tail, head = self.node(road.tail), self.node(road.head)
        name = self.links.new(road.name or joined(tail, head))
        self.names.append(Name(name, "link", road.words(), road.line, road.kilometres, road.lanes))
        self.tell("link", road.words(), name, road.name or f"{tail}-{head}")
        capacity = None if road.capacity is None else self.capacity(road.capacity * self.per, road.words()) / self.per
        return Link(name, tail, head, self.time(road.minutes, road.words()), capacity)

    def supply(self, demand: Demand) -> list[tuple[Fraction, Fraction]]:
        """The pieces of the supply, with rounded rates; a rate 0 stays 0."""
        return [(start, self.rate(rate, f"from {short(start)} on") if rate else Fraction(0)) for start, rate in demand.pieces]

    def notes(self) -> list[str]:
        """What was rounded."""
        found = [self.capacity.note(f"vehicles {'an hour' if self.per > 1 else 'a minute'}") if self.capacity.least is not None else "no road has a capacity",
                 self.time.note("minutes")]
        if self.time.zeros:
            found.append(f"{self.time.zeros} times of 0 became {short(self.time.unit)}, since no walk may take no time")
        if self.rate.least is not None:
            found.append(self.rate.note("vehicles a minute"))
        return found


def left_out(found: Corridor, closed: Sequence[Road]) -> list[str]:
    """The lines on roads that are left out, by the reason."""
    reasons = {**({"their capacity is 0": closed} if closed else {}), **found.left_out}
    lines = []
    for reason, roads in reasons.items():
        named = ", ".join(road.words() for road in roads[:LISTED]) + (f" and {len(roads) - LISTED} more" if len(roads) > LISTED else "")
        lines.append(f"left out, since {reason}: {len(roads)} ({named})")
    return lines


def network_of_table(roads: Roads, origin: str, destination: str, demand: Demand = Demand(()), *, units: Units = Units(),
                     detour: Optional[Fraction] = None) -> Made:
    """The network of the roads on routes from the origin to the destination (several: joined by commas; each driver takes the best one).

    `detour` keeps routes that take at most so many minutes longer than the quickest one on empty roads. Raises a Fault where there is no
    route, more than 64 nodes or 200 links, or a number changes too much."""
    origin = str(origin)
    goals = goals_of(roads, origin, str(destination))
    found = corridor(roads.open, origin, goals, detour)
    check_size(found.kept, len(goals) if len(goals) > 1 else 0)
    kept = [road for _, road in found.kept]
    maker = Maker(kept, units, [rate for _, rate in demand.pieces])
    source = maker.node(origin)
    sink = maker.nodes.new("sink") if len(goals) > 1 else maker.node(goals[0])
    links = [maker.link(road) for road in kept]
    for goal in goals if len(goals) > 1 else []:
        links.append(Link(maker.links.new(f"{maker.node(goal)}-to"), maker.node(goal), sink, Fraction(0), None))
    supply = maker.supply(demand)
    for rounding in (maker.capacity, maker.time, maker.rate):
        rounding.refuse()
    if len(supply) > SUPPLIES:
        raise Refused(f"the demand has {len(supply)} pieces, and nfot takes {SUPPLIES}: take longer intervals", status=1)
    network = Network(source, sink, links, supply)
    notes = [] if roads.encoding in ("utf-8-sig", "utf-16") else [f"{roads.file} is read as {roads.encoding}"]
    notes = maker.renamed + notes + left_out(found, roads.closed) + maker.notes() + supply_notes(demand, network)
    quickest = least_sums(source, links)[sink]
    warnings = same_roads(kept, roads.file) + odd_units(kept, roads.columns, quickest, units.hourly)
    notes.append(f"the quickest route from {origin} to {destination} takes {decimal(quickest)} minutes on empty roads")
    notes.append(f"{len(network.nodes())} nodes, {len(links)} links")
    return Made(network, notes + warnings, maker.names, maker.renamed, warnings)


def supply_notes(demand: Demand, network: Network) -> list[str]:
    """The line on how much is supplied."""
    if not demand.pieces:
        return ["no demand: nothing is supplied, so nfot gives the times on empty roads"]
    before, until = demand.vehicles(), demand.pieces[-1][0]
    if before is None:
        return [f"the last rate, {readable(network.supply[-1][1])} a minute, lasts for ever"]
    after = network.supplied(until)
    changed = f"; the table has {decimal(before, 1)}" if after != before else ""
    return [f"{decimal(after, 1)} vehicles are supplied by {short(until)}{changed}"]
