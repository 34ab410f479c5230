"""Faults: everything that can go wrong, as one sentence with its status, file, line and rule."""
from __future__ import annotations

import errno
from contextlib import contextmanager
from typing import TYPE_CHECKING, Any, Callable, Iterator, List, Optional, Sequence, TypeVar, Union

if TYPE_CHECKING:
    from .reports import Report

Value = TypeVar("Value")

WORDS, NO_FILE, BROKEN, UNFIT = 2, 3, 4, 1  # statuses: arguments, a file that can't be read, a broken rule, values that don't fit
SHORT = "memory is short: raise its limit (ulimit -v), or end other programs"


class Fault(Exception):
    """A fault as one sentence.

    `status` is the status with which a tool ends. `file` is the name that the caller knows, `line` counts from 1 (0: the file as a
    whole), `rule` is a rule of docs/FORMATS.md. Each is None where there is none.
    """

    def __init__(self, why: str, *, status: int = WORDS, file: Optional[str] = None, line: Optional[int] = None,
                 rule: Optional[str] = None) -> None:
        super().__init__(why)
        self.why = why
        self.status = status
        self.file = file
        self.line = line
        self.rule = rule

    def __str__(self) -> str:
        place = [self.file] if self.file is not None else []
        if self.line:
            place.append(f"line {self.line}")
        parts = [" ".join(place)] if place else []
        if self.rule is not None:
            parts.append(self.rule)
        return ": ".join([*parts, self.why])

    def __repr__(self) -> str:
        return f"{type(self).__name__}({str(self)!r})"

    def placed(self, file: Optional[str] = None, line: Optional[int] = None) -> "Fault":
        """This fault with a file and a line, where it has none yet."""
        self.file = file if self.file is None else self.file
        self.line = line if self.line is None else self.line
        return self


class Refused(Fault):
    """A file or a value breaks a rule."""


class Stopped(Fault):
    """A run ended early. `cause` is the cause as `nfot` prints it, `report` the report up to the departure that the run reached."""

    def __init__(self, why: str, *, status: int = 5, cause: str = "", report: Optional["Report"] = None) -> None:
        super().__init__(why, status=status)
        self.cause = cause
        self.report = report


class Unbounded(Fault):
    """There is no quickest flow: `links` is a walk of unbounded links from the source to the sink."""

    def __init__(self, why: str, *, links: Sequence[str] = ()) -> None:
        super().__init__(why, status=14)
        self.links: List[str] = list(links)


class Killed(Fault):
    """A signal ended the program. `signal` is its name, as SIGKILL; the status is 128 more than its number."""

    def __init__(self, why: str, *, signal: str = "", status: int = 137) -> None:
        super().__init__(why, status=status)
        self.signal = signal


class Timeout(Fault):
    """The program took longer than the caller allows."""

    def __init__(self, why: str, *, status: int = 124) -> None:
        super().__init__(why, status=status)


class NotFound(Fault):
    """A program or a file isn't there."""


class OutOfRange(Fault):
    """A time beyond what is known, or a name that the network or the report doesn't have."""

    def __init__(self, why: str, *, status: int = UNFIT) -> None:
        super().__init__(why, status=status)


def outcome(call: Callable[..., Value], *given: Any, **named: Any) -> Union[Value, Fault]:
    """What a call of the package returns, or the Fault that it raises: `outcome(solve, net, 60, phases=3)`.

    So one run that fails doesn't end the others. Any other exception is raised."""
    try:
        return call(*given, **named)
    except Fault as fault:
        return fault


def is_short(fault: BaseException) -> bool:
    """Whether an exception says that memory is short: for Python, for another process, for a thread or for a library."""
    wanting = ("can't start new thread", "failed to map segment", "preexec_fn")
    return isinstance(fault, MemoryError) or getattr(fault, "errno", None) == errno.ENOMEM or any(word in str(fault) for word in wanting)


@contextmanager
def with_memory() -> Iterator[None]:
    """A Fault with status 1 where memory is short for the block, or for the call that this decorates."""
    try:
        yield
    except Fault:
        raise
    except Exception as fault:
        if not is_short(fault):
            raise
        raise Fault(SHORT, status=UNFIT) from None
