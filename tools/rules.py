#!/usr/bin/env python3
"""rules.py [--check]: writes python/nfot/data/rules.json, the tables of rules and statuses of docs/FORMATS.md and docs/STUDIES.md.

With --check nothing is written, and the status is 1 where the file isn't what the pages say.
"""
import json
import pathlib
import re
import sys

ROOT = pathlib.Path(__file__).resolve().parent.parent
DATA = ROOT / "python/nfot/data/rules.json"
RULE = re.compile(r"[NPLSGC][0-9]+")
ADVICE = re.compile(r"\| \d[^|]*\| `nfot: ")
HEADINGS = {"standard error": "lines", "The command line": "statuses"}


def cells(line):
    """The cells of a row of a table, without the bar that begins it and the one that ends it."""
    return [cell.replace("\\|", "|").strip() for cell in re.split(r"(?<!\\)\|", line)[1:-1]]


def numbers(words):
    """Statuses as they stand in a table: `5`, or `5 to 7, 12`."""
    found = []
    for part in words.split(", "):
        ends = re.fullmatch(r"(\d+)(?: to (\d+))?", part)
        if ends:
            found += [str(number) for number in range(int(ends[1]), int(ends[2] or ends[1]) + 1)]
    return found


def formats_tables(page):
    """The tables of FORMATS.md: rules with their cells, statuses, lines on standard error, usage lines."""
    found = {"rules": {}, "statuses": {}, "lines": {}, "usage": []}
    heading = ""
    for line in page.splitlines():
        heading = line if line.startswith("## ") else heading
        table = next((table for end, table in HEADINGS.items() if heading.endswith(end)), None)
        row = cells(line) if line.startswith("|") else [""]
        names = row[0].split(", ")
        if all(RULE.fullmatch(name) for name in names):
            found["rules"].update((name, row[1:]) for name in names)
        elif table:
            found[table].update((number, row[1]) for number in numbers(row[0]))
        if line.startswith("nfot ") and table == "statuses":
            found["usage"].append(line)
    return found


def tables():
    """All tables, as the package has them."""
    found = formats_tables((ROOT / "docs/FORMATS.md").read_text(encoding="utf-8"))
    rows = [cells(line) for line in (ROOT / "docs/STUDIES.md").read_text(encoding="utf-8").splitlines() if ADVICE.match(line)]
    found["advice"] = {number: row[-1] for row in rows for number in numbers(row[0])}
    return json.dumps(found, indent=1, ensure_ascii=False) + "\n"


def main(words):
    """Writes the file, or compares it."""
    if words == ["--check"]:
        return 0 if DATA.read_text(encoding="utf-8") == tables() else 1
    DATA.write_text(tables(), encoding="utf-8", newline="\n")
    return 0


if __name__ == "__main__":
    sys.exit(main(sys.argv[1:]))
