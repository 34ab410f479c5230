"""Starting the program: on Linux it ends with the process that started it; and whether it answers as `nfot` does."""
from __future__ import annotations

import os
import pathlib
import signal
import subprocess
import sys
import threading
from functools import lru_cache
from typing import IO, Any, Optional, Sequence, Union

from .faults import with_memory

Stream = Union[None, int, IO[bytes]]
SET_DEATH_SIGNAL, ENDED = 1, 143  # PR_SET_PDEATHSIG of prctl; the status of a process whose parent has ended already
TINY = pathlib.Path(__file__).parent / "data/tiny.net"  # in canonical form
SECONDS = 5  # the most that the answer about the tiny network takes


@lru_cache(maxsize=None)
def _prctl() -> Any:
    """The call `prctl` of Linux; None on another system."""
    if not sys.platform.startswith("linux"):
        return None
    try:
        import ctypes
        return ctypes.CDLL(None).prctl
    except (ImportError, OSError, AttributeError):
        return None


def start(words: Sequence[str], stdin: Stream = None, stdout: Stream = None, stderr: Stream = None) -> "subprocess.Popen[bytes]":
    """Starts a program, which on Linux is killed when this process ends, in whichever way. A Fault where memory is short."""
    prctl, parent = _prctl(), os.getpid()

    def bound() -> None:
        prctl(SET_DEATH_SIGNAL, int(signal.SIGKILL))
        if os.getppid() != parent:
            os._exit(ENDED)
    with with_memory():
        return subprocess.Popen(words, stdin=stdin, stdout=stdout, stderr=stderr, close_fds=False,  # a word may be /dev/fd/63
                                preexec_fn=bound if prctl is not None else None)


def is_nfot(place: str) -> bool:
    """Whether the program at a place answers as `nfot` does: it shows a tiny network. Asked once for each file, and again when it changes."""
    try:
        return _shows(place, os.stat(place).st_mtime_ns)
    except OSError:  # it can't be run: whoever runs it is told why
        return True


@lru_cache(maxsize=None)
def _shows(place: str, changed: int) -> bool:
    """Whether the program shows the tiny network, has a fault of `nfot`, or ends without an answer, as for want of memory."""
    wanted, name = TINY.read_bytes(), os.path.basename(place)
    if name.startswith("nfot-py"):  # it would run itself
        return False
    with start([place, "show", str(TINY)], subprocess.DEVNULL, subprocess.PIPE, subprocess.PIPE) as process:
        assert process.stdout is not None and process.stderr is not None
        timer = threading.Timer(SECONDS, process.kill)
        try:
            timer.start()
            out = process.stdout.read(len(wanted) + 1)
            if len(out) >= len(wanted):
                return out == wanted
            return process.wait() < 0 or process.stderr.read(6) == b"nfot: "
        finally:
            timer.cancel()
            process.kill()
