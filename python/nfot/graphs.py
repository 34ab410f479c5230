"""Networks from and to graphs of networkx. networkx itself is imported only where one of its graphs is made."""
from __future__ import annotations

import importlib
import math
from fractions import Fraction
from typing import Any, Hashable, Iterable, Iterator, Mapping, Optional, Union

from .faults import Fault, OutOfRange, Refused
from .given import Net, Run, as_network, as_report
from .networks import Link, Network
from .numbers import Number, Time, exact, time_of
from .renaming import Names, joined
from .rounding import MOST, Rounding
from .rows import LINK_WORDS, table


def clean_names(graph: Iterable[Hashable]) -> dict[Hashable, str]:
    """A name for each node that the network file allows: `networkx.relabel_nodes(graph, nfot.clean_names(graph))`.

    A list of names of nodes or links may stand in the graph's place. Umlauts are spelled out, other characters become `_`, and the
    second of equal names gets `.2`."""
    names = Names()
    return {node: names.new(str(node)) for node in dict.fromkeys(graph)}


class Reader:
    """Reads the numbers of a graph's edges, rounded where that was asked for."""

    def __init__(self, transit: str, capacity: str, round_to: Optional[Number], most: Fraction) -> None:
        self.transit, self.capacity = transit, capacity
        unit = None if round_to is None else exact(round_to)
        self.time = None if unit is None else Rounding("times", unit, "round_to=", most, "most_change=")
        self.rate = None if unit is None else Rounding("capacities", unit, "round_to=", most, "most_change=")

    @staticmethod
    def number(value: object, rounding: Optional[Rounding], what: str) -> Fraction:
        """A number of an edge: exact, or rounded where a rounding is given; 0 stays 0."""
        try:
            found = exact(value) if rounding is None else time_of(value)
        except Fault as fault:
            raise Refused(f"{what}: {fault.why}" + (", or give round_to" if isinstance(value, float) else "")) from None
        if found < 0:
            raise Refused(f"{what}: {value} is below 0")
        return found if rounding is None or not found else rounding(found, what)

    def numbers(self, data: Mapping[str, Any], what: str) -> tuple[Fraction, Optional[Fraction]]:
        """The transit time and the capacity of an edge; without a capacity, or with an infinite one, it is unbounded."""
        if data.get(self.transit) is None:
            raise Refused(f"{what} has no attribute `{self.transit}`")
        transit = self.number(data[self.transit], self.time, f"`{self.transit}` of {what}")
        limit = data.get(self.capacity)
        if limit is None or limit == "inf" or isinstance(limit, float) and limit == math.inf:
            return transit, None
        return transit, self.number(limit, self.rate, f"`{self.capacity}` of {what}")

    def refuse(self) -> None:
        """Raises a Fault where the rounding changes a number too much."""
        for rounding in (self.time, self.rate):
            if rounding is not None:
                rounding.refuse()


def edges(graph: Any) -> Iterator[tuple[Hashable, Hashable, Optional[str], Mapping[str, Any]]]:
    """The edges as (tail, head, key where it is a text, attributes); those of an undirected graph in both directions."""
    keyed = graph.edges(keys=True, data=True) if graph.is_multigraph() else ((tail, head, None, data) for tail, head, data in graph.edges(data=True))
    for tail, head, key, data in keyed:
        yield tail, head, key if isinstance(key, str) else None, data
        if not graph.is_directed():
            yield head, tail, f"{key}_back" if isinstance(key, str) else None, data


def check_capacity(graph: Any, capacity: str) -> None:
    """Refuses a graph with edges none of which has the attribute of capacities."""
    found = [data for _, _, _, data in edges(graph)]
    if found and not any(capacity in data for data in found):
        there = ", ".join(f"`{word}`" for word in dict.fromkeys(str(word) for data in found for word in data)) or "none"
        raise Refused(f"no edge has the attribute `{capacity}`, so each link would be unbounded; edges have the attributes: {there}. Name the one with "
                      f"capacities by capacity=, or give an edge `{capacity}` None if all are unbounded")


def from_networkx(graph: Any, source: Hashable, sink: Hashable, *, supply: Optional[Iterable[tuple[Number, Number]]] = None,
                  transit: str = "transit", capacity: str = "capacity", name: Optional[str] = None, round_to: Optional[Number] = None,
                  most_change: Union[int, Fraction] = MOST) -> Network:
    """The network of a graph of networkx (of any kind; an edge of an undirected one is a road with both directions).

    `supply` is needed; `[]` means that nothing enters. `transit` and `capacity` name attributes of edges. An edge without a capacity is
    unbounded, one of capacity 0 is closed and left out. Refused where no edge has the attribute `capacity`.
    `name` is the attribute with the name of a link; without one it is the key of a multigraph, if that is a text, else `TAIL-HEAD`.
    Numbers are exact; floats need `round_to`, the unit to whose multiples times and capacities are rounded. Raises a Fault where a number
    is a float, where rounding changes one by more than `most_change` percent, and for a name that the network file doesn't allow
    (see `clean_names`)."""
    for node in (source, sink):
        if node not in graph:
            raise OutOfRange(f"the graph has no node {node!r}")
    if supply is None:
        raise Refused("no supply is given, so nothing would enter: give pairs (start, rate), as supply=[(0, 4), (60, 0)]")
    check_capacity(graph, capacity)
    reader, names, links = Reader(transit, capacity, round_to, Fraction(most_change)), Names(), []
    for tail, head, key, data in edges(graph):
        what = f"the edge {tail}-{head}"
        time, limit = reader.numbers(data, what)
        called = str(data[name]) if name is not None and data.get(name) is not None else key
        if limit != 0:
            links.append(Link(names.new(called or joined(str(tail), str(head))), str(tail), str(head), time, limit))
    reader.refuse()
    version, order = kept(graph, links)
    if len({str(node) for node in graph.nodes}) < len(graph.nodes):
        raise Refused("two nodes of the graph have the same name as a text: relabel them by networkx.relabel_nodes(graph, nfot.clean_names(graph))")
    return Network(str(source), str(sink), sorted(links, key=lambda link: order.get(link.name, len(order))), supply, version)


def kept(graph: Any, links: Iterable[Link]) -> tuple[int, dict[str, int]]:
    """The version of the network file and the order of links that `to_networkx` kept; those of another graph are 2 and its own.

    Version 1 has no unbounded links."""
    version, names = graph.graph.get("nfot", (2, ()))
    bounded = all(link.capacity is not None for link in links)
    return version if bounded else 2, {name: at for at, name in enumerate(names)}


def to_networkx(net: Net, run: Optional[Run] = None, every: Time = 5) -> Any:
    """The network as a MultiDiGraph of networkx: keys are the names of links, `transit` and `capacity` are Fractions (None: unbounded).

    With a report each edge also has the lists `queue`, `wait`, `in` and `out`, as the columns of `table`: one value for each of the
    times, `every` minutes apart, that the graph's attribute `times` has. A list ends with the last value that is known. An idle link
    has 0, and the attribute `notes` names it.
    The graph's attributes `source`, `sink`, `supply` and `nfot` (the version of the file, the order of links) hold the rest, so
    `from_networkx(graph, source, sink, supply=supply)` gives an equal network back. Raises a Fault where networkx isn't installed, and
    where the report is one of another network."""
    try:
        networkx: Any = importlib.import_module("networkx")
    except ImportError:
        raise Fault("networkx isn't installed: `pip install networkx`") from None
    net = as_network(net)
    graph = networkx.MultiDiGraph(source=net.source, sink=net.sink, supply=net.supply, nfot=(net.version, tuple(net.links)))
    graph.add_nodes_from([*net.nodes(), *net.idle_nodes()])
    for link in net.links.values():
        graph.add_edge(link.tail, link.head, key=link.name, transit=link.transit, capacity=link.capacity)
    if run is not None:
        rows = table(as_report(net, run), every, show=LINK_WORDS)
        graph.graph.update(times=[row["time"] for row in rows], notes=rows.notes)
        for _, _, name, data in graph.edges(keys=True, data=True):
            data.update({word: rows.values(f"{name} {word}") for word in LINK_WORDS})
    return graph
