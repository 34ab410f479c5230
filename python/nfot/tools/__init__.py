"""The command `nfot-py`, also `python3 -m nfot`: the ten commands of nfot, and tools beside them.

A tool is a module of this folder, named in TOOLS. Its docstring is its help text: the first line is a sentence that says what it does,
and the text has an example. It has two functions: `add_arguments(parser)` and `main(arguments) -> int`, the status; perhaps a third,
`check_words(words)`, which may refuse words before they are read. The words behind `--` are in `arguments.behind` (None without `--`).
A tool prints to standard output, and raises a Fault; this module tells it."""
from __future__ import annotations

import argparse
import importlib
import os
import signal
import sys
from types import FrameType, ModuleType
from typing import Any, NoReturn, Optional, Sequence

from ..faults import Fault, Refused, with_memory
from .passing import COMMANDS, pass_through
from .streams import closed_output, whole_streams

TOOLS = ["table", "change", "city", "solve-on", "times", "queues", "series", "compare", "phases", "judge", "gap", "same", "cut", "bottleneck", "thin", "why"]
OUTPUT, INTERNAL, INTERRUPTED, ENDED = 9, 70, 130, 143  # statuses

Words = Sequence[str]


class Parser(argparse.ArgumentParser):
    """Reads the words of a tool; a wrong word is a Fault of one sentence."""

    def error(self, message: str) -> NoReturn:
        raise Refused(f"{message} (nfot-py {self.prog.split()[-1]} --help says more)")

    def print_help(self, file: Any = None) -> None:
        """Prints the help text; other than that of argparse it doesn't hide that the output fails."""
        print(self.format_help(), end="", file=file)


def tool(name: str) -> ModuleType:
    """The module of a tool."""
    return importlib.import_module(f"{__name__}.{name.replace('-', '_')}")


def summary(name: str) -> str:
    """The first line of a tool's help text."""
    return (tool(name).__doc__ or "").splitlines()[0]


def overview() -> str:
    """The text of `nfot-py --help`."""
    width = max(map(len, [*COMMANDS, *TOOLS])) + 2
    lines = ["usage: nfot-py NAME ..", "", "Exact dynamic traffic equilibria: the commands of nfot, and tools beside them.", "",
             "The commands of nfot (docs/FORMATS.md, The command line):"]
    lines += [f"  {name:<{width}}{command.summary}" for name, command in COMMANDS.items()]
    lines += ["", "Tools:"] + [f"  {name:<{width}}{summary(name)}" for name in TOOLS]
    lines += ["", "`nfot-py NAME --help` explains a command or tool, with an example. `nfot-py --version` says which program is used.",
              "`nfot-py --cite` prints an entry of BibTeX.",
              "Numbers may be 2.5, 7/2, 1e6, or 7:30 (hours and minutes, as minutes).",
              "", "example: nfot-py solve bridge.net --horizon 60 > bridge.report && nfot-py times bridge.net bridge.report 0 30 60"]
    return "\n".join(lines)


def run_tool(name: str, words: Words) -> int:
    """Runs a tool with its words; its status."""
    module = tool(name)
    parser = Parser(prog=f"nfot-py {name}", description=module.__doc__, formatter_class=argparse.RawDescriptionHelpFormatter, allow_abbrev=False)
    module.add_arguments(parser)
    getattr(module, "check_words", len)(words)
    cut = list(words).index("--") if "--" in words else len(words)
    arguments = parser.parse_intermixed_args(list(words[:cut]))
    check_semicolon(arguments)
    arguments.behind = list(words[cut + 1:]) if cut < len(words) else None
    status: int = module.main(arguments)
    return status


def check_semicolon(arguments: argparse.Namespace) -> None:
    """Refuses --semicolon where no CSV is written."""
    wanted = next((option for option in ("csv", "names", "roads") if hasattr(arguments, option)), None)
    if getattr(arguments, "semicolon", False) and wanted is not None and getattr(arguments, wanted) in (None, False):
        raise Refused(f"--semicolon is a form of CSV: give --{wanted} too")


def chosen(words: Words) -> int:
    """Runs the command or the tool that the first word names."""
    if not words or words[0] in ("--help", "-h", "help"):
        print(overview(), file=sys.stdout if words else sys.stderr)
        return 0 if words else 2
    if words[0] == "--version":
        from .passing import version
        print(version())
        return 0
    if words[0] == "--cite":
        from .citing import citation
        print(citation())
        return 0
    if words[0] in COMMANDS:
        return pass_through(words)
    if words[0] in TOOLS:
        return run_tool(words[0], words[1:])
    raise Refused(f"{words[0]} is no command or tool; `nfot-py --help` lists them")


def ended(number: int, frame: Optional[FrameType]) -> NoReturn:
    """What SIGTERM does: it ends the process in order, so that temporary files go and a running program is ended."""
    sys.exit(ENDED)


def told(name: str, line: str, status: int) -> int:
    """Prints one line on standard error, behind the name of the tool; the status."""
    print(line if line.startswith("nfot: ") else f"{name}: {line}", file=sys.stderr)
    return status


def tried(name: str, words: Words) -> int:
    """Runs the command or the tool, and prints a Fault in one line."""
    try:
        with with_memory():
            return chosen(words)
    except SystemExit as end:  # argparse, behind --help
        return int(end.code or 0)
    except Fault as fault:
        if isinstance(fault.__context__, BrokenPipeError):
            raise BrokenPipeError from None
        return told(name, " ".join(str(fault).split()), fault.status or 1)


def main(words: Optional[Words] = None) -> int:
    """Runs `nfot-py` with these words (None: those of the command line); the status. Prints each fault in one line."""
    words = sys.argv[1:] if words is None else words
    name = f"nfot-py {words[0]}" if words and words[0] in TOOLS + list(COMMANDS) else "nfot-py"
    if sys.stderr is None:
        sys.stderr = open(os.devnull, "w")
    if sys.stdout is None:
        return told(name, "standard output is closed, so nothing was done and no file was written", OUTPUT)
    try:
        signal.signal(signal.SIGTERM, ended)
    except ValueError:
        pass  # another thread than the main one
    with whole_streams():
        return finished(name, words)


def finished(name: str, words: Words) -> int:
    """Runs the command or the tool, and looks whether all of its output was written; the status."""
    try:
        status = tried(name, words)
        sys.stdout.flush()
        return status
    except BrokenPipeError:  # without a line: whoever closed the pipe has read enough
        closed_output()
        return OUTPUT
    except KeyboardInterrupt:
        return told(name, "interrupted", INTERRUPTED)
    except OSError as fault:
        closed_output()
        return told(name, f"{fault.filename or 'standard output'}: {fault.strerror}", OUTPUT)
    except Exception as fault:  # a tool never ends with a traceback
        if os.environ.get("NFOT_PY_TRACE"):
            raise
        return told(name, f"a fault of nfot-py itself, please report it: {type(fault).__name__}: {fault}", INTERNAL)
