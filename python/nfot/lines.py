"""Lines of files: reading them, what all formats share of them, and writing whole files."""
from __future__ import annotations

import codecs
import os
import re
import sys
from typing import Iterable, List, Tuple, Union

from .faults import NO_FILE, BROKEN, Fault, NotFound, Refused

PathLike = Union[str, "os.PathLike[str]"]
Text = Union[str, bytes, Iterable[str]]  # a whole text, or its lines

MOST_BYTES, MOST_REPORT_BYTES, LONGEST_LINE, LONGEST_NAME = 1048576, 67108864, 1000, 24

_NAME = re.compile(r"[A-Za-z0-9_.-]{1,24}", re.ASCII)
_MARKS = (codecs.BOM_UTF8, codecs.BOM_UTF16_LE, codecs.BOM_UTF16_BE)
_FORBIDDEN = re.compile(rb"[^\t\n -~]")


def is_name(word: str) -> bool:
    """Whether the word is a name of a node or a link."""
    return _NAME.fullmatch(word) is not None


def broken(rule: str, why: str, line: int = 0) -> Refused:
    """The fault of a broken rule."""
    return Refused(why, status=BROKEN, rule=rule, line=line or None)


def system_fault(name: PathLike, fault: OSError) -> Fault:
    """The fault of a call of the operating system."""
    shown = shown_name(name)
    if isinstance(fault, FileNotFoundError):
        return NotFound("there is no file of this name", status=NO_FILE, file=shown)
    return Fault(f"{fault.strerror or fault}", status=NO_FILE, file=shown)


def shown_name(path: PathLike) -> str:
    """The name of a file as faults have it."""
    name = os.fsdecode(path)
    return "standard input" if name == "-" else name


def read_bytes(path: PathLike, most: int = MOST_BYTES) -> bytes:
    """The bytes of a file; `-` is standard input. A Fault where it can't be read or has more than `most` bytes."""
    try:
        if os.fspath(path) == "-":
            data = sys.stdin.buffer.read(most + 1)
        else:
            with open(path, "rb") as file:
                data = file.read(most + 1)
    except (OSError, ValueError) as fault:
        raise system_fault(path, fault if isinstance(fault, OSError) else OSError(str(fault))) from None
    if len(data) > most:
        raise Refused(f"the file has more than {most} bytes", status=NO_FILE, file=shown_name(path))
    return data


def as_bytes(text: Text) -> bytes:
    """The bytes of a text, or of lines with or without their endings."""
    if isinstance(text, bytes):
        return text
    if not isinstance(text, str):
        text = "".join(line if line.endswith("\n") else line + "\n" for line in text)
    return text.encode("utf-8", "surrogateescape")


def split_lines(data: bytes, letter: str) -> Tuple[List[str], bool]:
    """The lines without LF, and whether the last one has its ending. Refused by rule 1 or 2 of the letter, at the lowest line.

    A CR before LF stays at the end of its line.
    """
    raw = data.split(b"\n")
    ended = not raw[-1]
    if ended:
        raw.pop()
    plain = data.replace(b"\r\n", b"\n")
    if _FORBIDDEN.search(plain) or max(map(len, raw), default=0) > LONGEST_LINE:
        for number, line in enumerate(plain.split(b"\n"), 1):
            _check_line(line, letter, number)
    return [line.decode("ascii") for line in raw], ended


def _check_line(line: bytes, letter: str, number: int) -> None:
    """Refuses a line by rule 1 or 2."""
    found = _FORBIDDEN.search(line)
    if number == 1 and line.startswith(_MARKS):
        raise broken(f"{letter}1", "the file begins with a byte order mark: save the file as plain text without a byte order mark", number)
    if found:
        raise broken(f"{letter}1", f"the byte {found[0]!r} is neither printable ASCII nor a space or a tab"[:80], number)
    if len(line) > LONGEST_LINE:
        raise broken(f"{letter}2", f"the line has {len(line)} bytes, and {LONGEST_LINE} are allowed", number)


def content_words(line: str) -> List[str]:
    """The words of a line, without its comment."""
    return line.partition("#")[0].split()


def check_name(word: object, what: str) -> None:
    """Refuses what is no name of a node or a link, by rule N7."""
    if not isinstance(word, str) or not is_name(word):
        wanted = f"1 to {LONGEST_NAME} characters out of A-Z a-z 0-9 _ - ."
        raise broken("N7", f"{word!r:.60} is no name of a {what}: a name has {wanted} (in Python, nfot.clean_names makes names)")
