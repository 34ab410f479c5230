"""Explains what nfot answers: the rule or status in words, the line of the file, and what to do.

Behind `--` is a command, which is run; its output and status stay. A rule (N8), a status (7, or 137 of a killed run)
or a line of nfot may stand as a word. Without either, lines of nfot are read from standard input, and FILEs are the files of the command (to
show the line that is meant). A line without a rule or a status is printed as it is.

example: nfot-py why -- nfot solve my.net --horizon 60
example: nfot-py why N8
example: nfot show my.net 2>&1 | nfot-py why my.net"""
from __future__ import annotations

import argparse
import os
import re
import sys
from typing import Iterable, Sequence

from ..faults import Refused
from ..meanings import told_of_word
from ..program import run
from ..rules import explain, files_of
from .passing import COMMANDS, plain

LINE = re.compile(r"(nfot: )?(network|report|loads|flows|routes) line \d+: \w+|nfot: .*|no C\d .*")


def check_words(words: Sequence[str]) -> None:
    """Refuses a command without `--` before it."""
    if words and "--" not in words and words[0] in ("nfot", "nfot-py") and not os.path.exists(words[0]):
        raise Refused(f"put -- before the command: nfot-py why -- {' '.join(words)}")


def add_arguments(parser: argparse.ArgumentParser) -> None:
    """The arguments of the tool."""
    parser.add_argument("files", metavar="FILE", nargs="*", help="the files of the command that printed the lines; or a rule, a status or a line itself")
    parser.usage = "nfot-py why [RULE | STATUS | LINE] [FILE ..]  or  nfot-py why -- nfot COMMAND .."


def run_explained(words: list[str]) -> int:
    """Runs a command of nfot; prints its output, its lines on standard error, and what they mean; its status."""
    done = run(words)
    print(done.out, end="", flush=True)
    answers = [line for line in done.out.splitlines() if line.startswith("no C")]
    faults = ["nfot: usage"] if done.status == 2 else done.err.splitlines()
    for line in answers + faults:
        if line in faults:
            print(line, file=sys.stderr)
        for told in explain(line, files_of(words), words, done.status):
            print(f"  {told}", file=sys.stderr)
    return done.status


def explained(lines: Iterable[str], files: Sequence[str]) -> int:
    """Prints lines, each with what it means below; how many there were."""
    count = 0
    for line in lines:
        count += 1
        print(line.rstrip("\n"))
        whole = line if line.startswith(("nfot: ", "no ")) or not LINE.fullmatch(line.strip()) else f"nfot: {line}"
        for told in told_of_word(line.strip()) or explain(whole, files):
            print(f"  {told}")
    return count


def command(behind: list[str], files: Sequence[str]) -> int:
    """Runs the command behind `--`, and explains what it prints."""
    words = behind
    if files:
        raise Refused(f"{files[0]}: the files are named behind --, by the command itself")
    if words[:1] == ["nfot"]:
        return run_explained(words[1:])
    if words[:1] == ["nfot-py"]:
        words = words[1:]
    elif not words or words[0] not in COMMANDS:
        raise Refused(f"{' '.join(words[:1]) or 'nothing'}: behind -- is a command of nfot, as `nfot solve my.net --horizon 60`")
    return run_explained(plain(words))


def main(arguments: argparse.Namespace) -> int:
    """Explains words, lines of standard input, or those of a command."""
    if arguments.behind is not None:
        return command(arguments.behind, arguments.files)
    lines = [word for word in arguments.files if not os.path.exists(word) and (LINE.fullmatch(word) or told_of_word(word))]
    files = [word for word in arguments.files if word not in lines]
    for word in files:
        if not os.path.exists(word):
            raise Refused(f"{word} is no file, no rule (as N8), no status (as 7 or 137) and no line of nfot")
    if lines:
        explained(lines, files)
        return 0
    if sys.stdin.isatty():
        print("nfot-py why: waiting for lines of nfot, which end with Ctrl-D; or write nfot-py why -- nfot COMMAND ..", file=sys.stderr)
    if not explained(sys.stdin, files):
        said = f"the file {files[0]} says nothing of what was answered, and standard input" if files else "standard input"
        raise Refused(f"{said} was empty: give a line of nfot or a rule, as `nfot-py why N8`, or a command, as `nfot-py why -- nfot show my.net`")
    return 0
