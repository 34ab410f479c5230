"""Runs the two programs on a case: the one under test as a process, the independent one within this process."""
import contextlib
import pathlib
import shutil
import signal
import subprocess
import tempfile
from typing import Callable, NamedTuple

from independent.app import run


class Answer(NamedTuple):
    """What a run answers: its status, or why there is none, and what it writes on its two outputs."""
    status: object
    out: bytes
    err: bytes


AnswerOf = Callable[[list, dict], Answer]  # a program: its answer to words and files


class TooSlow(Exception):
    """The independent program took longer than it may."""


@contextlib.contextmanager
def within_seconds(seconds):
    """Raises TooSlow where the block takes longer."""
    def late(number, frame):
        """The signal that time is over."""
        raise TooSlow
    before = signal.signal(signal.SIGALRM, late)
    signal.setitimer(signal.ITIMER_REAL, seconds)
    try:
        yield
    finally:
        signal.setitimer(signal.ITIMER_REAL, 0)
        signal.signal(signal.SIGALRM, before)


def put_files(folder, files):
    """Makes the folder hold these files and no others."""
    shutil.rmtree(folder, ignore_errors=True)
    folder.mkdir()
    for name, text in files.items():
        (folder / name).write_bytes(text)


class Programs:
    """The two programs, with a temporary folder in which each case stands while the program under test runs."""

    def __init__(self, program, slowest=20):
        self.program, self.slowest = pathlib.Path(program).resolve(), slowest
        self.temporary = tempfile.TemporaryDirectory(prefix="differ")
        self.folder = pathlib.Path(self.temporary.name) / "case"

    def expected(self, words, files):
        """The answer of the independent program. Raises TooSlow."""
        with within_seconds(self.slowest):
            return Answer(*run(list(words), files))

    def found(self, words, files):
        """The answer of the program under test."""
        put_files(self.folder, files)
        try:
            done = subprocess.run([self.program, *words], cwd=self.folder, stdin=subprocess.DEVNULL, capture_output=True, timeout=300)
        except subprocess.TimeoutExpired:
            return Answer("no answer in 300 seconds", b"", b"")
        return Answer(done.returncode, done.stdout, done.stderr)

    def differ(self, case):
        """Whether the two answer a case differently. Raises TooSlow."""
        return self.expected(case.words, case.files) != self.found(case.words, case.files)
