"""Whether a report and a network belong together, and what the report can't say of the network."""
from __future__ import annotations

from dataclasses import dataclass
from fractions import Fraction
from typing import Iterator, List, Optional

from .commands import check
from .drafts import Link
from .given import Net, Run, as_form, as_network, as_pair
from .matching import mismatches
from .numbers import short
from .phases import Course


def same(net: Net, report: Run) -> List[str]:
    """What speaks against the report being one that `nfot` wrote of the network, a sentence each; an empty list where nothing does.

    Where names and simple sums fit, `check` looks at the whole report. An empty list proves that the flow is an equilibrium of this
    network, and not that it was computed for it: other networks have the same one. `unsaid` lists which.
    """
    net, report = as_network(net), as_form(report)
    found = list(mismatches(net, report))
    if report.version != net.version:
        found.insert(0, f"it is a report of version {report.version}, and the network is of version {net.version}")
    names = [link.name for link in net.used_links()]
    if not found and (list(report.labels), list(report.inflows), list(report.never)) != (net.nodes(), names, net.idle_nodes()):
        found.append("its nodes or links are in another order than those of the network")
    if found:
        return found
    verdict = check(net, report)
    return [] if verdict else [verdict.why]


@dataclass(frozen=True)
class Open:
    """What a report leaves open of its network: the `supply` after the last departure, the `capacity` or the `transit` time of a link,
    or all of an `idle` link. Each value of at least `least` gives the same report (None: any value)."""
    what: str
    name: str
    least: Optional[Fraction]
    why: str

    def __str__(self) -> str:
        subject = {"supply": "the supply", "capacity": f"the capacity of {self.name}", "transit": f"the transit time of {self.name}",
                   "idle": f"the link {self.name}"}[self.what]
        return f"{subject}: any{'' if self.least is None else f' of at least {self.least}'} ({self.why})"


def unsaid(net: Net, report: Run) -> List[Open]:
    """What might be otherwise in the network, and the same report would be an equilibrium of it.

    A link that never has a queue may have a greater capacity, a link that is never on a quickest route a greater transit time. What
    is supplied after the last departure is not in the report, nor are links whose tail isn't reached.
    """
    net, report = as_pair(net, report)
    course = Course(net, report)
    found = [Open("supply", net.source, None, f"after departure {short(report.reached)}")]
    for link in net.used_links():
        found += _unsaid_of(course, link)
    return found + [Open("idle", link.name, None, "its tail isn't reached") for link in net.links.values() if link.tail not in net.reached()]


def _unsaid_of(course: Course, link: Link) -> Iterator[Open]:
    """What might be otherwise of a link."""
    last = course.labels[link.tail].points[-1][1]
    queue, inflow = course.run.queue(link.name).cut(last), course.run.inflow(link.name).cut(last)
    slack = course.slacks[link.name].greatest()[1]
    if queue.greatest()[1] == 0:
        rate = max((slope for _, _, _, slope in inflow.pieces()), default=Fraction(0))
        yield Open("capacity", link.name, rate or None, f"no queue until {short(last)}")
    if slack < 0:
        yield Open("transit", link.name, max(link.transit + slack, Fraction(0)) or None, "never on a quickest route")
