"""Networks and reports that a caller gives as values, or by the names of their files."""
from __future__ import annotations

from typing import Dict, List, Mapping, Sequence, Tuple, TypeVar, Union

from .faults import Refused
from .lines import PathLike
from .networks import Network, read_network
from .report_file import read_report
from .report_values import Report, belonging

Net = Union[Network, PathLike]
Run = Union[Report, PathLike]
Value = TypeVar("Value")


def as_network(net: Net) -> Network:
    """The network, read where it is the name of a file."""
    return net if isinstance(net, Network) else read_network(net)


def as_pair(net: Net, run: Run) -> Tuple[Network, Report]:
    """A network and its report, read where they are names of files."""
    network = as_network(net)
    return network, run if isinstance(run, Report) else read_report(run, network)


def as_report(net: Network, run: Run) -> Report:
    """The report as one of the network, read where it is the name of a file; OutOfRange for names that the network doesn't have."""
    return belonging(run, net) if isinstance(run, Report) else read_report(run, net)


def as_form(run: Run) -> Report:
    """A report, read by its form alone where it is the name of a file."""
    return run if isinstance(run, Report) else read_report(run)


def with_network(run: Report) -> Network:
    """The network of a report; Refused for the name of a file, and where there is none."""
    if not isinstance(run, Report):
        raise Refused("a report is needed here, and no name of a file: read it by read_report(path, net)")
    if run.network is None:
        raise Refused("the report has no network: read it by read_report(path, net)")
    return run.network


def as_values(given: Mapping[str, Value], reader: str) -> Mapping[str, Value]:
    """Loads or routes by name; Refused for the name of a file, which `reader` reads."""
    if not isinstance(given, Mapping):
        raise Refused(f"values by name are needed here: read the file by {reader}(path, net)")
    return given


def as_routes(given: Mapping[str, Tuple[Sequence[str], Value]]) -> Dict[str, Tuple[List[str], Value]]:
    """Routes by name, each a pair of links (one may be a text) and pieces; Refused for anything else, and for the name of a file."""
    found = {}
    for name, route in as_values(given, "read_routes").items():
        try:
            links, pieces = route
        except (TypeError, ValueError):
            raise Refused(f"route {name}: a pair of links and pieces is needed, as (['a'], [(0, 3)]), not {route!r:.60}") from None
        found[name] = ([links] if isinstance(links, str) else list(links), pieces)
    return found
