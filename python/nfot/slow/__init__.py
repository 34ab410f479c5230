"""The slow program: an independent one in plain Python, packed as data. It is run as a process and never imported.

In a checkout it is the folder tests/independent; in an installed copy it is the folder `independent` beside this file.
"""
from __future__ import annotations

import os
import pathlib
import sys
from typing import Tuple

from ..faults import NotFound

HERE = pathlib.Path(__file__).resolve().parent


def place() -> str:
    """The folder of the slow program, which Python runs; NotFound where the package is incomplete."""
    for folder in (HERE / "independent", HERE.parents[2] / "tests/independent"):
        if (folder / "__main__.py").is_file():
            return str(folder)
    raise NotFound("neither the program nfot nor the slow one is here: install the package again, or set NFOT to the program", status=127)


def words() -> Tuple[str, ...]:
    """The words that run the slow program as long as this process lives; NotFound where the package is incomplete."""
    return sys.executable, str(HERE / "guard.py"), place()


def is_slow(path: str) -> bool:
    """Whether the program at this path is the slow one."""
    return pathlib.Path(os.path.realpath(path)).parent.name == "independent"
