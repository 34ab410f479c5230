"""Reports: their value, reading and writing them, and whether one belongs to a network."""
from __future__ import annotations

from typing import Optional

from .faults import Refused
from .lines import PathLike
from .matching import mismatch, read_pair
from .networks import Network
from .program import write_beside
from .report_file import read_report, report_of
from .report_values import Report, belonging, curve_of

__all__ = ["Report", "belonging", "curve_of", "mismatch", "read_pair", "read_report", "report_of", "write_report"]


def write_report(report: Report, path: PathLike, net: Optional[Network] = None) -> None:
    """Writes a report, whole or not at all; `-` is standard output. With a network, its names and order are those of the network.

    Refused where the first argument is no report."""
    if not isinstance(report, Report):
        raise Refused(f"write_report(report, path) takes a report first, not {report!r:.60}")
    write_beside(path, (report if net is None else belonging(report, net)).text())
