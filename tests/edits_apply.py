#!/usr/bin/env python3
"""Tells which must-fail edits can't be applied to the tree, those of the gate and those of tests/edits.

    tests/edits_apply.py

An edit names a file of its crate and pairs of texts, each a line. Each old text must stand exactly once in what the earlier pairs made,
and the new text must differ from it. Exits with 1 if an edit can't be applied.
"""
import sys
from pathlib import Path

ROOT = Path(__file__).resolve().parent.parent


def read_edit(path):
    """Returns the file that the edit names, and its pairs of old and new text."""
    name, olds, news = None, [], []
    for line in path.read_text().splitlines():
        if line.startswith("file: "):
            name = line[len("file: "):]
        elif line.startswith("old: "):
            olds.append(line[len("old: "):])
        elif line.startswith("new:"):
            news.append(line[len("new:"):].removeprefix(" "))
    if name is None or not olds or len(olds) != len(news):
        raise ValueError("it doesn't name a file and pairs of texts")
    return name, list(zip(olds, news))


def apply(path, crate):
    """Applies the edit in memory, and raises ValueError if that isn't possible."""
    name, pairs = read_edit(path)
    target = crate / name
    if not target.is_file():
        raise ValueError(f"there is no file {name} in {crate.name}")
    text = target.read_text()
    for old, new in pairs:
        count = text.count(old)
        if count != 1:
            raise ValueError(f"{name} has the text {old!r} {count} times")
        if old == new:
            raise ValueError(f"it doesn't change {old!r}")
        text = text.replace(old, new)


def main():
    crates = ROOT / "crates"
    edits = sorted(crates.glob("*/must-fail/*.edit")) + sorted((ROOT / "tests/edits").glob("*/*.edit"))
    faults = 0
    for path in edits:
        crate = crates / path.relative_to(ROOT).parts[-3 if "must-fail" in path.parts else -2]
        try:
            apply(path, crate)
        except ValueError as fault:
            faults += 1
            print(f"{path.relative_to(ROOT)}: {fault}")
    print(f"edits: {len(edits)} tried to apply, {faults} can't be")
    return 1 if faults else 0


if __name__ == "__main__":
    sys.exit(main())
