"""What rules and statuses mean: the texts of docs/FORMATS.md and docs/STUDIES.md, which tools/rules.py packs."""
from __future__ import annotations

import json
import pathlib
import re
from functools import lru_cache
from typing import Any, Dict, List, Tuple

from .faults import OutOfRange
from .program import signal_name

RULE = re.compile(r"[NPLSGC][0-9]+")
_STATUS = re.compile(r"(?:status )?(\d{1,3})")
_SAME = re.compile(r"as ([NPLSGC]\d+)(?: and ([NPLSGC]\d+))?")

_OUTSIDE = {70: ("nfot-py failed by a fault of its own", "report it (CONTRIBUTING.md)"),
            124: ("`timeout`, or the package, ended the command at its limit of seconds", ""),
            126: ("the file of this name can't be run", "chmod +x, or the right path"),
            127: ("there is no program of this name", "put nfot on the PATH, or give its whole path (README.md, Getting it)")}
_SIGNALS = {"SIGINT": "Ctrl-C", "SIGKILL": "`kill -9`, or the system where memory was short", "SIGPIPE": "the reader of its output had ended",
            "SIGTERM": "`kill`, or the queue of the machine", "SIGXCPU": "the limit of `ulimit -t`", "SIGXFSZ": "the limit of `ulimit -f` on a file"}
_AGAIN = "none of its output is a result, also no report that is begun: repeat the run, with more time, memory or room, or bound it by --phases"


@lru_cache(maxsize=None)
def tables() -> Dict[str, Any]:
    """The packed tables: `rules` (cells by rule), `statuses`, `lines`, `advice` (texts by status), `usage` (lines)."""
    found: Dict[str, Any] = json.loads((pathlib.Path(__file__).parent / "data/rules.json").read_text(encoding="utf-8"))
    return found


def meaning(rule: str) -> str:
    """What breaks a rule N, P, L, S or G, or what a rule C asks for; OutOfRange where there is no such rule."""
    rows = tables()["rules"]
    if rule not in rows:
        raise OutOfRange(f"there is no rule {rule}")
    text: str = rows[rule][0]
    pair = _SAME.match(text)
    if not pair:
        return text
    other = pair[2] if pair[2] and rule.endswith("2") else pair[1]
    return f"{meaning(other)}{text[pair.end():]}"


def sentence(rule: str) -> str:
    """The first sentence of what a rule means."""
    return meaning(rule).split(". ")[0]


def status(number: int) -> Tuple[str, str]:
    """When the program ends with a status, and what to do (empty where nothing is to be done); OutOfRange for another number.

    It may be one of a shell, too: 124, 126, 127, or 128 more than the number of a signal."""
    found, signal = tables(), signal_name(number - 128)
    if signal.startswith("SIG"):
        return f"the signal {signal} ended the command ({_SIGNALS.get(signal, 'see `man 7 signal`')})", _AGAIN
    if number in _OUTSIDE:
        return _OUTSIDE[number][0], _OUTSIDE[number][1] or _AGAIN
    if str(number) not in found["statuses"]:
        raise OutOfRange(f"there is no status {number} of nfot")
    return found["statuses"][str(number)], found["advice"].get(str(number), "")


def told_of_word(word: str) -> List[str]:
    """What a word means that is a rule, as N8, or a status, as `status 7`; nothing for another word."""
    if RULE.fullmatch(word):
        return [f"{word}: {meaning(word)}"]
    number = _STATUS.fullmatch(word)
    if not number:
        return []
    when, advice = status(int(number[1]))
    return [f"status {number[1]}: {when}"] + [f"to do: {advice}"] * bool(advice)
