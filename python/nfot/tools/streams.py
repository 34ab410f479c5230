"""Standard output and standard error of the command.

A text is written whole, whatever the settings of Python, or a fault says that it was cut.
"""
from __future__ import annotations

import contextlib
import io
import os
import sys
from typing import Iterator, Optional, TextIO


def buffered(stream: Optional[TextIO]) -> Optional[TextIO]:
    """The stream, behind a buffer where it has none, as with PYTHONUNBUFFERED. Without a buffer a partial write raises no error."""
    raw = getattr(stream, "buffer", None)
    if stream is None or not isinstance(raw, io.RawIOBase):
        return stream
    stream.flush()
    own = open(raw.fileno(), "wb", closefd=False)
    return io.TextIOWrapper(own, stream.encoding, stream.errors, line_buffering=True)


@contextlib.contextmanager
def whole_streams() -> Iterator[None]:
    """Runs with both streams behind buffers."""
    before = sys.stdout, sys.stderr
    sys.stdout, sys.stderr = (buffered(stream) for stream in before)  # type: ignore[assignment]
    try:
        yield
    finally:
        sys.stdout, sys.stderr = before


def closed_output() -> None:
    """Sends what is still to be written nowhere, since standard output doesn't take it."""
    try:
        os.dup2(os.open(os.devnull, os.O_WRONLY), sys.stdout.fileno())
    except (OSError, ValueError, AttributeError):
        pass  # standard output is no file, as in tests
