"""Names that are near to one that isn't there, for messages."""
from __future__ import annotations

from difflib import get_close_matches
from typing import Iterable

MOST = 3


def near(name: str, names: Iterable[str]) -> str:
    """What a message adds behind a name that isn't there: the nearest ones, those first that differ only in capitals. Nothing where none is near.

    >>> near("brigde", ["bay", "bridge"]), near("Bay", ["bay", "bridge"]), near("25", ["2", "5"])
    (' (the nearest name is bridge)', ' (the nearest name is bay)', '')
    """
    known: dict[str, list[str]] = {}
    for each in names:
        known.setdefault(each.lower(), []).append(each)
    found = known.get(name.lower(), [])
    if not found and not name.isdigit():
        found = [each for low in get_close_matches(name.lower(), known, MOST, 0.6) for each in known[low]]
    found = list(dict.fromkeys(found))
    if not found:
        return ""
    return f" (the nearest name{' is' if len(found) == 1 else 's are'} {', '.join(found[:MOST])})"
