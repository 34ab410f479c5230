"""Calls of the program: its words, its files, and a fault for each status."""
from __future__ import annotations

import os
import re
from dataclasses import dataclass
from fractions import Fraction
from typing import Collection, List, Mapping, NoReturn, Optional, Sequence

from .faults import SHORT, Fault, NotFound, Refused, Stopped, is_short
from .lines import PathLike, shown_name
from .numbers import decimal, short
from .program import Done, in_files, run
from .report_values import Report
from .meanings import sentence

_BROKEN = re.compile(r"nfot: (\w+) line (\d+): (\w+)")
_STOPPED = re.compile(r"nfot: stopped: (.*)")

LONGEST_SHOWN = 20  # letters of an exact number in a message
CAUSES = {"phases": 5, "patterns": 6, "passed": 7, "nopattern": 8}
TO_DO = {5: "allow more phases, or resume", 6: "allow more patterns, or let transit times differ a little",
         7: "round capacities and rates to multiples of one unit", 11: "allow more augments, or ask for a smaller amount",
         12: "allow more phases, or give a horizon"}
FIXED = {1: "the program ran out of memory", 2: "the program takes no such words or numbers", 9: "the output of the program failed",
         10: "the flow of the report is no equilibrium", 15: "flows and slopes are no thin flow at departure 0",
         16: "the horizon is before the departure that the report has reached"}


@dataclass(frozen=True)
class Answer:
    """An answer of the program: its status, its text, and the cause where it stopped."""
    status: int
    out: str
    cause: str


def words_of_budgets(**budgets: Optional[int]) -> List[str]:
    """The options of the budgets that are given."""
    return [word for name, most in budgets.items() if most is not None for word in (f"--{name}", str(most))]


def ask(command: str, options: Sequence[str], texts: Mapping[str, str], named: Mapping[str, PathLike] = {}, *,
        timeout: Optional[float] = None, statuses: Collection[int] = (0,), caller: str = "") -> Answer:
    """Runs a command on texts, which are put into temporary files, and on files that the caller names, in this order.

    The keys are the program's words for the files: network, report, loads, flows, routes. Any other status than `statuses` is raised,
    as a fault of the call `caller` where that is another one than the command.
    """
    with in_files(texts) as paths:
        names = {**paths, **{key: os.fspath(path) for key, path in named.items()}}
        done = run([command, *options, "--", *names.values()], timeout=timeout, caller=caller)
    stopped = _STOPPED.match(done.err)
    answer = Answer(done.status, done.out, stopped[1] if stopped else "")
    if done.status not in statuses:
        _raise(caller or command, done, answer, {key: shown_name(path) for key, path in named.items()})
    return answer


def _raise(command: str, done: Done, answer: Answer, named: Mapping[str, str]) -> NoReturn:
    """Raises the fault of a status; `named` has the names of files that the caller knows."""
    found = _BROKEN.match(done.err)
    if done.status == 4 and found:
        kind, line, rule = found[1], int(found[2]), found[3]
        raise Refused(sentence(rule), status=4, file=named.get(kind, f"the {kind}"), line=line, rule=rule)
    if done.status == 3 and named:
        raise _unread(list(named.values()), done)
    if done.status in TO_DO:
        raise stop_of(answer.cause or done.err.partition(": ")[2].strip(), None, done.status)
    if done.status in FIXED:
        raise Refused(f"nfot {command}: {FIXED[done.status]}", status=done.status)
    last = (done.err.strip().splitlines() or ["nothing on standard error"])[-1]
    if is_short(RuntimeError(last)):
        raise Fault(SHORT, status=1)
    raise Fault(f"nfot {command} ended with the status {done.status}: {last[:200]}", status=done.status or 1)


def _unread(names: Sequence[str], done: Done) -> Fault:
    """The fault of a file that the program couldn't read."""
    for name in names:
        if not os.path.exists(name):
            return NotFound("there is no file of this name", status=3, file=name)
        if os.path.isdir(name):
            return Refused("it is a folder", status=3, file=name)
    return Refused("it has too many bytes" if "too long" in done.err else "it can't be read", status=3, file=names[0])


def near_time(time: Fraction) -> str:
    """A departure for a message: exact, or a decimal where that is long."""
    return short(time) if len(str(time)) <= LONGEST_SHOWN else f"{decimal(time)} (rounded)"


def stop_of(cause: str, report: Optional[Report], status: Optional[int] = None) -> Stopped:
    """The fault of a run that ended early, by its cause; with a status that of a run without a horizon."""
    ended = CAUSES.get(cause.split(" ")[0], 1) if status is None else status
    reached = f" at departure {near_time(report.reached)}" if report else ""
    reached += f" of {short(report.horizon)}" if report and status is None else ""
    return Stopped(f"the run stopped{reached} (cause {cause}): {TO_DO.get(ended, 'see the cause')}", status=ended, cause=cause, report=report)
