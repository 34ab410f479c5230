"""What a line of `nfot` means, in words: its rule or status, the line of the file that is meant, and what to do."""
from __future__ import annotations

import os
import re
from typing import Dict, List, Optional, Sequence, Tuple

from .faults import Fault
from .lines import MOST_BYTES, MOST_REPORT_BYTES, read_bytes
from .networks import read_network
from .numbers import LONGEST_WORD, file_number, hint
from .report_file import WINDOWS, read_report
from .meanings import RULE, meaning, status, tables

__all__ = ["explain", "files_of", "meaning", "status", "wrong_words"]

_FILE = re.compile(r"nfot: (network|report|loads|flows|routes) line (\d+): (\w+)")
_VERDICT = re.compile(r"no (C\d) (\S+) (\S+) (\S+) (\S+)")
_RANGES = {"--phases": (1, 100000), "--patterns": (1, 1000000), "--augments": (1, 100000), "--number": (0, 2 ** 64 - 1), "--rungs": (1, 30)}


def explain(line: str, files: Sequence[str] = (), words: Sequence[str] = (), ended: Optional[int] = None) -> List[str]:
    """The sentences that say what a line of `nfot` means; none for a line without a rule or a status.

    `files` are the files of the command, `words` the words behind `nfot`, `ended` its status, as far as they are known.
    """
    line = line.strip()
    found = _FILE.fullmatch(line)
    if found:
        return _of_rule(found[1], int(found[2]), found[3], files)
    found = _VERDICT.fullmatch(line)
    if found:
        rule, subject = found[1], found[2]
        return [f"{rule}: {meaning(rule)}", f"at {subject}: {_named(found.groups()[2:], tables()['rules'][rule][1])}"]
    number = _status_of(line) if ended is None else ended
    if number is None or _status_of(line) is None:
        return []
    when, advice = status(number)
    reason = wrong_words(words) if number == 2 and words else _unread(files, words) if number == 3 else None
    sentences = [f"status {number}: {when}", reason, f"to do: {advice}" if advice else None]
    return [text for text in sentences if text]


def _of_rule(kind: str, number: int, rule: str, files: Sequence[str]) -> List[str]:
    """What a line with a rule of a file means."""
    if not RULE.fullmatch(rule) or rule not in tables()["rules"]:
        return [f"{rule}: there is no such rule"]
    sentences = [f"{rule}: {meaning(rule)}"]
    name = None if not files else files[0] if kind == "network" else files[min(1, len(files) - 1)]
    if name is not None and number:
        sentences.insert(0, _line_of(name, number))
    why = _why(kind, rule, files)
    if rule == "P3" and not why and name is not None and has_windows_ends(name):
        why = WINDOWS
    return [*sentences, why] if why else sentences


def has_windows_ends(name: str) -> bool:
    """Whether a file, which is no pipe, has lines that end with CR LF."""
    try:
        return os.path.isfile(name) and b"\r\n" in read_bytes(name, MOST_REPORT_BYTES)
    except Fault:
        return False


def windows_lines(words: Sequence[str]) -> List[str]:
    """The line on a report with the line ends of Windows, which P3 refuses, of a command that `nfot` ended with status 4."""
    reports = files_of(words)[1:2] if words[0] in ("check", "resume") else []
    return [f"{name}: {WINDOWS}" for name in reports if has_windows_ends(name)]


def _line_of(name: str, number: int) -> str:
    """The line of a file, with the file's name."""
    try:
        lines = read_bytes(name, MOST_REPORT_BYTES).split(b"\n")
    except Fault:
        lines = []
    text = lines[number - 1].decode("ascii", "backslashreplace").rstrip("\r") if number <= len(lines) else ""
    return f"{name} line {number}: {text[:200]}" if text else f"{name} line {number}"


def _why(kind: str, rule: str, files: Sequence[str]) -> Optional[str]:
    """What the package says of the same fault, with names and numbers."""
    try:
        if files and kind == "network":
            read_network(files[0])
        elif len(files) > 1 and kind == "report":
            read_report(files[1], files[0])
    except Fault as fault:
        return fault.why if fault.rule == rule else None
    return None


def _named(values: Sequence[str], names: str) -> str:
    """The three values of a `no`, each behind its name where the rule has just three names."""
    each = names.split(", ")
    if len(each) == len(values) and ";" not in names:
        return ", ".join(f"{name} {value}" for name, value in zip(each, values))
    return f"{', '.join(values)} are {names}"


def _status_of(line: str) -> Optional[int]:
    """The status of which a line on standard error speaks; None where it is of none."""
    found = tables()
    if line == "nfot: usage":
        return 2
    if line.startswith("nfot: stopped: "):
        cause = f"`cause {line.split()[2]}`"
        return next((int(number) for number, when in found["statuses"].items() if cause in when), None)
    for number, text in found["lines"].items():
        if any(re.fullmatch(form.replace("N", r"\d+"), line) for form in re.findall("`(nfot: [^`]*)`", text)):
            return int(number)
    return None


def _unread(files: Sequence[str], words: Sequence[str]) -> Optional[str]:
    """Which of the files of a command can't be read, and why, as far as it can be seen. A second file may be a report, which may be longer."""
    longest = MOST_BYTES if words and words[0] in ("load", "routes", "settle") else MOST_REPORT_BYTES
    for name in files:
        if not os.path.exists(name):
            return f"{name}: there is no file of this name"
        if os.path.isdir(name):
            return f"{name} is a folder"
        if not os.access(name, os.R_OK):
            return f"{name}: no right to read it"
        most = longest if name in files[1:] else MOST_BYTES
        if os.path.isfile(name) and os.path.getsize(name) > most:
            return f"{name} has {os.path.getsize(name)} bytes, and {most} are allowed"
    return None


# ---- words of the command line

def files_of(words: Sequence[str]) -> List[str]:
    """The files among the words of a command, given behind `nfot`."""
    return _split(words[1:])[0]


def _split(words: Sequence[str]) -> Tuple[List[str], List[Tuple[str, str]]]:
    """The files and the options with their values, of words behind the command."""
    files, options, rest = [], [], list(words)
    while rest:
        word, equals, value = rest.pop(0).partition("=")
        if not word.startswith("-") or word == "-":
            files.append(word + equals + value)
        elif word == "--":
            files += rest
            rest = []
        else:
            takes = word != "--forever" and not equals and bool(rest)
            options.append((word, rest.pop(0) if takes else value))
    return files, options


def wrong_words(words: Sequence[str]) -> str:
    """What is wrong with the words of a command, by the usage lines."""
    forms = [line.split()[1:] for line in tables()["usage"]]
    if not words or words[0] not in {form[0] for form in forms}:
        return f"{words[0]} is no command of nfot" if words else "no command is named"
    forms = [form for form in forms if form[0] == words[0]]
    files, options = _split(words[1:])
    known = {word.strip("[]") for form in forms for word in form if word.lstrip("[").startswith("--")}
    names = [name for name, _ in options]
    for name in names:
        if name not in known or names.count(name) > 1:
            return f"{name} stands twice" if name in known else f"{name} is no option of {words[0]}"
    wanted = [word for word in forms[0][1:] if word.isalpha() and word.isupper() and word not in ("Q", "N")]
    if len(files) != len(wanted):
        return f"{words[0]} takes {len(wanted)} files{': ' * bool(wanted)}{' '.join(wanted)}, and {len(files)} are given"
    return _wrong_value(dict(options)) or _missing(forms, names) or "options exclude each other, or a value begins with a minus"


def _wrong_value(options: Dict[str, str]) -> Optional[str]:
    """The option whose value is none, and what a value is."""
    for name, value in options.items():
        why = _wrong_count(value, *_RANGES[name]) if name in _RANGES else None if name == "--forever" else _wrong_quantity(value)
        if why:
            return f"{value[:60] or 'nothing'} is no value of {name}: {why}"
    return None


def _wrong_count(value: str, least: int, most: int) -> Optional[str]:
    """What a count is, where the value is none."""
    digits = value.lstrip("0") or value[:1]
    if re.fullmatch(r"\d{1,20}", digits, re.ASCII) and least <= int(digits) <= most:
        return None
    return f"it takes {least} to {most}, in decimal digits alone"


def _wrong_quantity(value: str) -> Optional[str]:
    """What a horizon or an amount is, where the value is none."""
    number = file_number(value, False) if len(value) <= LONGEST_WORD else None
    if value.startswith("-") and number != 0:
        return "it takes a number of at least 0"
    return hint(value) if number is None else None


def _missing(forms: Sequence[Sequence[str]], names: Sequence[str]) -> Optional[str]:
    """The option that is missing, where one is."""
    needed = [[word for word in form if word.startswith("--")] for form in forms]
    if any(all(word in names for word in form) for form in needed):
        return None
    return f"{' or '.join(' and '.join(form) for form in needed)} is missing"
