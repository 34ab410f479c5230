"""The ten commands of nfot: `nfot-py` hands them to the program that was found. Output and status are the program's."""
from __future__ import annotations

import os
import re
import subprocess
import sys
import time
from typing import NamedTuple, Sequence

from ..calling import near_time
from ..faults import BROKEN, Fault, NotFound
from ..lines import LONGEST_LINE
from ..numbers import parse
from ..program import program, progress
from ..rules import files_of, windows_lines
from ..starting import start

TAKEN = re.compile(r"-?\d+(/0*[1-9]\d*)?")  # a number as nfot takes it on its command line


class Command(NamedTuple):
    """A command of nfot: its words, what it does in a sentence, and an example."""
    words: str
    summary: str
    example: str


COMMANDS = {
    "solve": Command("NET --horizon Q | --forever [--phases N] [--patterns N]", "Prints the equilibrium of all departures up to Q, as a report.",
                     "nfot-py solve bridge.net --horizon 60 > bridge.report"),
    "resume": Command("NET REPORT --horizon Q [--phases N] [--patterns N]", "Goes on from a report to a later horizon.",
                      "nfot-py resume bridge.net bridge.report --horizon 90 > longer.report"),
    "check": Command("NET REPORT", "Says whether the flow of a report is an equilibrium up to the departure reached, and if not, where it breaks which rule.",
                     "nfot-py check bridge.net bridge.report"),
    "load": Command("NET LOADS --horizon Q", "Prints queues and exit times of links for given inflows.", "nfot-py load bridge.net tolled.loads --horizon 60"),
    "routes": Command("NET ROUTES --horizon Q", "Prints arrivals of drivers whose routes are given.", "nfot-py routes merge.net merge.routes --horizon 2"),
    "quick": Command("NET --amount Q [--augments N]", "Prints the least time for an amount, and the cut that proves it.", "nfot-py quick bridge.net --amount 240"),
    "gen": Command("--number N --rungs N --horizon Q [--phases N] [--patterns N]", "Solves a numbered test network.", "nfot-py gen --number 7 --rungs 3 --horizon 20"),
    "settle": Command("NET FLOWS", "Settles a thin flow of departure 0: which links are tight, full or zero.", "nfot-py settle even.net even.flows"),
    "show": Command("NET", "Prints a network as nfot understands it.", "nfot-py show bridge.net"),
}


def help_of(name: str) -> str:
    """The text of `nfot-py COMMAND --help`."""
    command = COMMANDS[name]
    return (f"usage: nfot-py {name} {command.words}\n\n{command.summary}\n\nThe program nfot does this; docs/FORMATS.md has files, options and statuses, and\n"
            f"`nfot-py why -- nfot {name} ..` explains what it answers.\n\nexample: {command.example}")


def version() -> str:
    """The text of `nfot-py --version`."""
    from .. import __version__
    found = program()
    return f"nfot-py {__version__}, with {'the program' if found.proved else 'the slow program, which is not proved:'} {found.place}"


def plain(words: Sequence[str]) -> list[str]:
    """The words with each horizon and amount as nfot takes it: `--horizon 2.5` becomes `--horizon 5/2`. All else stays."""
    found: list[str] = []
    for word in words:
        option, equals, value = word.partition("=")
        if equals and option in ("--horizon", "--amount"):
            found.append(f"{option}={fraction(value)}")
        else:
            found.append(fraction(word) if found and found[-1] in ("--horizon", "--amount") else word)
    return found


def fraction(word: str) -> str:
    """A number as nfot takes it; a word that is no number stays, so that nfot refuses it."""
    if TAKEN.fullmatch(word):
        return word
    try:
        return str(parse(word))
    except Fault:
        return word


def pass_through(words: Sequence[str]) -> int:
    """Runs the program with these words, on this process's own streams; its status, 128 more than the number of a signal that ended it."""
    if list(words[1:]) in (["--help"], ["-h"]):
        print(help_of(words[0]))
        return 0
    sys.stdout.flush()
    try:
        process = start([*program().words, *plain(words)])
    except OSError as fault:
        raise NotFound(f"the program doesn't start: {fault.strerror}", file=os.fspath(program().words[0])) from None
    status = status_of(process, f"nfot {words[0]}")
    for line in added_lines(words, status):
        print(f"nfot-py {words[0]}: {line}", file=sys.stderr)
    return status if status >= 0 else 128 - status


def added_lines(words: Sequence[str], status: int) -> list[str]:
    """What the package says beside the program's answer, on standard error."""
    if status == BROKEN:
        return windows_lines(words)
    return stopped_lines(words) if status == 0 and words[0] == "check" else []


def stopped_lines(words: Sequence[str]) -> list[str]:
    """The line on a report that ends before its horizon, after `check` said yes: up to which departure that holds. A pipe is read by then."""
    names = files_of(words)[1:2]
    heads = head_of(names[0]) if names and os.path.isfile(names[0]) else {}
    if heads.keys() < {"horizon", "reached", "cause"} or heads["cause"] == "done":
        return []
    reached, horizon = (near_time(parse(heads[word])) for word in ("reached", "horizon"))
    return [f"{names[0]} was checked up to departure {reached}, where it ends, not up to {horizon}: {heads['cause']}"]


def head_of(name: str) -> dict[str, str]:
    """What the lines 2 to 4 of a report say, by their first word."""
    try:
        with open(name, encoding="ascii", errors="replace") as file:
            lines = [file.readline(LONGEST_LINE + 1).rstrip("\n").partition(" ") for _ in range(4)]
    except OSError:
        return {}
    return {word: text for word, _, text in lines[1:]}


def status_of(process: "subprocess.Popen[bytes]", name: str) -> int:
    """The status of a process at its end. On a terminal the seconds are shown that it takes, unless its output goes there too."""
    begun = time.monotonic()
    with process, progress(name) as show:
        try:
            while show.on and not sys.stdout.isatty():
                try:
                    return process.wait(1)
                except subprocess.TimeoutExpired:
                    show(f"{time.monotonic() - begun:.0f} s")
            return process.wait()
        except BaseException:
            process.kill()
            raise
