#!/usr/bin/env python3
"""Runs each command that the pages show, in a copy of the folder examples, and compares what it prints with the page; then the tests of the package.

    tests/pages.py [--page NAME].. [PROGRAM]

PROGRAM is a program, else the built one: `tests/pages.py tests/independent/nfot`. With `--page docs/GUIDE.md` the commands of that page alone
are run, and no test of the package.

A block that begins with ```console has lines `$ COMMAND`, each followed by what the command prints (on both streams, as it comes).
The commands of a page run one after the other in one folder, so that a later one finds the files of an earlier one.
`nfot` is PROGRAM, `nfot-py` and `import nfot` are the package of this checkout (python/nfot). Each PAGE is one of the repository.
Statuses: 0 all the same, or Python is older than 3.9; 1 some differ, a test fails, or the program isn't built; 2 wrong arguments.
"""
import argparse
import os
import pathlib
import shutil
import subprocess
import sys
import tempfile

ROOT = pathlib.Path(__file__).resolve().parent.parent
PAGES = ["README.md", "docs/GUIDE.md", "docs/STUDIES.md", "docs/PROGRAMS.md", "docs/TEACHING.md"]


def shown(page):
    """The commands of a page, in order: the line of each, its words, and the lines that stand below it."""
    runs, inside = [], False
    for number, line in enumerate(page.read_text(encoding="utf-8").splitlines(), 1):
        if line.startswith("```"):
            inside = line == "```console"
        elif inside and line.startswith("$ "):
            runs.append((number, line[2:], []))
        elif inside:
            runs[-1][2].append(line)
    return runs


def printed(command, folder, environment):
    """What a command prints, line by line."""
    done = subprocess.run(["bash", "-c", command], cwd=folder, env=environment, stdout=subprocess.PIPE, stderr=subprocess.STDOUT)
    return done.stdout.decode().splitlines()


def launchers(folder, program):
    """Makes the commands nfot, of the program, and nfot-py, of the package of this checkout, in a folder."""
    (pathlib.Path(folder) / "nfot").symlink_to(program)
    place = pathlib.Path(folder) / "nfot-py"
    place.write_text(f'#!/bin/sh\nexec "{sys.executable}" -m nfot "$@"\n')
    place.chmod(0o755)


def environment_of(folder):
    """The environment of the commands: both commands of the folder first on the path, the package of this checkout, and no other program."""
    kept = {name: value for name, value in os.environ.items() if name != "NFOT"}
    path = f"{folder}:{os.environ['PATH']}"
    return dict(kept, PATH=path, PYTHONPATH=str(ROOT / "python"), PYTHONDONTWRITEBYTECODE="1", LC_ALL="C")  # else awk may print 1,5 for 1.5


def tests_fail(environment):
    """Runs the tests of the package; whether one fails (what it says is printed)."""
    words = [sys.executable, "-m", "unittest", "discover", "python"]
    done = subprocess.run(words, cwd=ROOT, env=environment, stdout=subprocess.PIPE, stderr=subprocess.STDOUT)
    told = done.stdout.decode()
    print("pages: tests of the package:", told.strip().splitlines()[-1] if done.returncode == 0 else told)
    return done.returncode != 0


def compared(name, environment):
    """Runs the commands of a page; how many there are, and how many print other lines than the page has (these are printed)."""
    wrong = count = 0
    with tempfile.TemporaryDirectory() as folder:
        examples = shutil.copytree(ROOT / "examples", f"{folder}/examples")
        for number, command, expected in shown(ROOT / name):
            count += 1
            found = printed(command, examples, environment)
            if found != expected:
                wrong += 1
                print(f"pages: {name}:{number}: {command}\n  shown   {expected}\n  printed {found}")
    return count, wrong


def asked_for():
    """Reads the command line."""
    how = argparse.ArgumentParser(description=__doc__, formatter_class=argparse.RawDescriptionHelpFormatter)
    how.add_argument("program", metavar="PROGRAM", nargs="?", default=ROOT / "crates/nfot/out/nfot", type=pathlib.Path, help="the program")
    how.add_argument("--page", metavar="NAME", dest="pages", action="append", choices=PAGES, help=f"this page alone: {', '.join(PAGES)}")
    return how.parse_args()


def main():
    if sys.version_info < (3, 9):
        sys.exit(print("pages: skipped, Python 3.9 or later is needed"))
    asked = asked_for()
    program = asked.program.resolve()
    if not program.exists():
        sys.exit(f"pages: {program} isn't built")
    with tempfile.TemporaryDirectory() as tools:
        launchers(tools, program)
        environment = environment_of(tools)
        found = [compared(name, environment) for name in asked.pages or PAGES]
        failed = not asked.pages and tests_fail(environment)
    count, wrong = (sum(numbers) for numbers in zip(*found))
    print(f"pages: {count} commands, {wrong} differ")
    sys.exit(1 if wrong or failed or not count else 0)


if __name__ == "__main__":
    main()
