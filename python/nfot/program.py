"""The program `nfot`: which one it is, running it, temporary files, and whole files that replace others."""
from __future__ import annotations

import os
import pathlib
import shutil
import signal as signals
import subprocess
import sys
import tempfile
import time
from contextlib import contextmanager
from dataclasses import dataclass
from typing import IO, Dict, Iterator, Mapping, Optional, Sequence, Tuple, Union

from . import slow
from .faults import Fault, Killed, NotFound, Timeout, with_memory
from .starting import is_nfot, start

PathLike = Union[str, "os.PathLike[str]"]
WARNING = "nfot: no proved program found; using the slow one (put nfot on the PATH, or set NFOT)"
NO_PROGRAM = 127  # the status of shells where there is no program

_warned = False


@dataclass(frozen=True)
class Program:
    """The program: the words that begin its command line, `proved` (False: the slow program), and where it is."""
    words: Tuple[str, ...]
    proved: bool
    place: str


@dataclass(frozen=True)
class Done:
    """What a run of the program ended with: its status, standard output and standard error."""
    status: int
    out: str
    err: str


@with_memory()
def program() -> Program:
    """The program that is used: NFOT in the environment, else `nfot` on the PATH, else the build of this checkout, else the slow one.

    The slow one gives one warning on standard error. `proved` says that it is not the slow one: the package can't verify that a program
    is the proved one. NotFound where NFOT names no program, and where the program doesn't show a tiny network as `nfot` does.
    """
    named = os.environ.get("NFOT")
    place = shutil.which(named or "nfot")
    if named and place is None:
        raise NotFound(f"NFOT is {named}, and there is no program of this name: correct it or unset it", status=NO_PROGRAM)
    if place is None:
        build = pathlib.Path(__file__).resolve().parents[2] / "crates/nfot/out/nfot"
        place = shutil.which(str(build))
    if place is not None and slow.is_slow(place):
        return Program((place,), False, place)
    if place is not None:
        if not is_nfot(place):
            raise NotFound(f"{place} is not nfot: it doesn't show a network as nfot does; set NFOT to the program", status=NO_PROGRAM)
        return Program((place,), True, place)
    words = slow.words()
    _warn()
    return Program(words, False, words[-1])


def _warn() -> None:
    """The warning that the slow program is used, once a process."""
    global _warned
    if not _warned:
        _warned = True
        print(WARNING, file=sys.stderr)


def run(words: Sequence[str], *, timeout: Optional[float] = None, input: Optional[bytes] = None,
        stdout: Optional[IO[bytes]] = None, caller: str = "") -> Done:
    """Runs the program with these words: at most `timeout` seconds, its standard output to `stdout` if that is given.

    Standard input is `input`, or that of this process. Faults name the call `caller`, or else the first word. Raises NotFound without a program, Timeout, and Killed where a signal ended
    the program. Any status is returned as it is.
    """
    used, name = program(), " ".join(["nfot", *([caller] if caller else words[:1])])
    try:
        process = start([*used.words, *words], None if input is None else subprocess.PIPE, stdout or subprocess.PIPE, subprocess.PIPE)
    except (OSError, ValueError) as fault:
        why = fault.strerror if isinstance(fault, OSError) else str(fault)
        raise NotFound(f"{used.place} can't be run: {why}", status=NO_PROGRAM) from None
    with process, progress(name) as show:
        try:
            out, err = _output(process, input, timeout, show if stdout is None else None)
        except BaseException as fault:
            process.kill()
            if isinstance(fault, subprocess.TimeoutExpired):
                raise Timeout(f"{name} took more than {timeout:g} seconds and was ended") from None
            raise
    if process.returncode < 0:
        signal = signal_name(-process.returncode)
        raise Killed(f"{name} was ended by the signal {signal}", signal=signal, status=128 - process.returncode)
    return Done(process.returncode, (out or b"").decode("utf-8", "replace"), err.decode("utf-8", "replace"))


def _output(process: "subprocess.Popen[bytes]", input: Optional[bytes], timeout: Optional[float],
            show: Optional["Progress"]) -> Tuple[Optional[bytes], bytes]:
    """Both outputs of a process; on a terminal the seconds are shown that it has taken."""
    begun = time.monotonic()
    while True:
        spent = time.monotonic() - begun
        left = None if timeout is None else max(timeout - spent, 0)
        if show is None or not show.on:
            return process.communicate(input, left)
        try:
            return process.communicate(input, 1 if left is None else min(left, 1))
        except subprocess.TimeoutExpired:
            if left is not None and left <= 1:
                raise
            show(f"{spent + 1:.0f} s")


def signal_name(number: int) -> str:
    """The name of a signal, as SIGKILL."""
    try:
        return signals.Signals(number).name
    except ValueError:
        return f"signal {number}"


@contextmanager
def in_files(files: Mapping[str, str]) -> Iterator[Dict[str, str]]:
    """Temporary files with these texts: their paths by the same keys, gone in the end. A Fault where they can't be made."""
    wanted = os.environ.get("TMPDIR")
    if wanted and not os.path.isdir(wanted):
        raise Fault(f"the folder for temporary files, {wanted}, isn't there: make it or unset TMPDIR", status=1)
    try:
        folder = tempfile.TemporaryDirectory(prefix="nfot")
    except OSError as fault:
        raise Fault(f"no temporary folder can be made ({fault.strerror}): set TMPDIR to a folder with room", status=1) from None
    with folder as place:
        paths = {key: os.path.join(place, key) for key in files}
        try:
            for key, text in files.items():
                with open(paths[key], "w", encoding="utf-8", newline="\n") as file:
                    file.write(text)
        except OSError as fault:
            raise Fault(f"a temporary file in {place} can't be written: {fault.strerror}", status=1) from None
        yield paths


def write_beside(path: PathLike, text: str) -> None:
    """Writes a file, whole or not at all: beside it first, then renamed. `-` is standard output, and a device is written directly.

    A Fault where it can't be written, as on a full disk; then the file is as it was before.
    """
    name = os.fspath(path)
    data = text.encode("utf-8")
    try:
        if name == "-":
            _write_out(text, data)
        elif os.path.exists(name) and not os.path.isfile(name):
            _write_open(name, os.O_WRONLY, data)
        else:
            _replace(os.path.realpath(name), data)
    except OSError as fault:
        shown = "standard output" if name == "-" else name
        raise Fault(f"it can't be written: {fault.strerror}", status=9, file=shown) from None


def _write_out(text: str, data: bytes) -> None:
    """Writes to standard output; to its file directly, so that nothing stays in a buffer where that fails."""
    sys.stdout.flush()
    try:
        descriptor = sys.stdout.fileno()
    except (AttributeError, OSError, ValueError):  # it is no file, as in tests
        sys.stdout.write(text)
    else:
        _write_all(descriptor, data)


def _write_all(descriptor: int, data: bytes) -> None:
    """Writes all bytes."""
    left = memoryview(data)
    while left:
        left = left[os.write(descriptor, left):]


def _write_open(name: str, flags: int, data: bytes) -> None:
    """Opens a file, writes all bytes and closes it."""
    descriptor = os.open(name, flags | getattr(os, "O_BINARY", 0), 0o666)
    try:
        _write_all(descriptor, data)
        if flags & os.O_CREAT:
            os.fsync(descriptor)
    finally:
        os.close(descriptor)


def _replace(name: str, data: bytes) -> None:
    """Writes the bytes beside the file and renames."""
    folder, last = os.path.split(name)
    beside = os.path.join(folder, f".{last}.{os.getpid()}")
    try:
        _write_open(beside, os.O_WRONLY | os.O_CREAT | os.O_EXCL, data)
        if os.path.exists(name):
            shutil.copymode(name, beside)
        os.replace(beside, name)
    except BaseException:
        if os.path.exists(beside):
            os.unlink(beside)
        raise


@contextmanager
def progress(label: str) -> Iterator["Progress"]:
    """Shows how far a long work is, on a terminal alone: `with progress("solve") as show: show("3 hints")`."""
    shown = Progress(label)
    try:
        yield shown
    finally:
        shown.clear()


class Progress:
    """A line on standard error that is written over; nothing where standard error is no terminal."""

    def __init__(self, label: str) -> None:
        self.label = label
        self.width = 0
        self.on = sys.stderr is not None and sys.stderr.isatty()

    def __call__(self, text: str) -> None:
        """Shows a text in place of the one before."""
        if self.on:
            line = f"{self.label}: {text}"
            sys.stderr.write("\r" + line.ljust(self.width))
            sys.stderr.flush()
            self.width = len(line)

    def clear(self) -> None:
        """Takes the line away."""
        if self.on and self.width:
            sys.stderr.write("\r" + " " * self.width + "\r")
            sys.stderr.flush()
            self.width = 0
