#!/usr/bin/env python3
"""Compares the code of each page crates/*/CALLING.md with the file that the page quotes.

    tests/calling.py            says which blocks differ
    tests/calling.py --write    puts the text of the files into the pages

A block of code begins with ```rust or ```antt. It quotes the file that the page names last before it, as in `crates/NAME/src/FILE.rt`, from
its first line to its last. Each page quotes a file of CALLERS. docs/CRATES.md links each page. Statuses: 0 all the same, or written; 1 some
differ; 2 an option is unknown.
"""
import pathlib
import re
import sys

ROOT = pathlib.Path(__file__).resolve().parent.parent
CALLERS = ("crates/library_callers/src/", "crates/nfot/src/")
TABLE = "docs/CRATES.md"
QUOTED = re.compile(r"crates/\w+/(?:src|specs)/[\w/]+\.(?:rt|antt)")
OPENING = ("```rust", "```antt")


def parts(lines):
    """The lines of a page, cut into runs of lines: text, or the inside of a block of code with the file that it quotes."""
    found, name, inside, since = [], None, False, 0
    for number, line in enumerate(lines):
        if inside and line == "```":
            found.append((name, since, lines[since:number]))
            inside, since = False, number
        elif not inside and line in OPENING:
            found.append((None, since, lines[since:number + 1]))
            inside, since = True, number + 1
        elif not inside:
            name = (QUOTED.findall(line) or [name])[-1]
    found.append((None, since, lines[since:]))
    return found, inside


def quoted(name):
    """The lines of a file, or None if there is no such file."""
    path = ROOT / name
    return path.read_text().splitlines() if path.exists() else None


def checked(page, faults):
    """Notes the faults of a page, and returns the text that it should have."""
    where = page.relative_to(ROOT)
    runs, unended = parts(page.read_text().splitlines())
    names = {name for name, _, _ in runs if name}
    if unended:
        faults.append(f"{where}: a block has no end")
    if not any(name.startswith(CALLERS) for name in names):
        faults.append(f"{where}: quotes no file of {' or '.join(CALLERS)}")
    wanted = []
    for name, since, lines in runs:
        code = quoted(name) if name else lines
        if code is None:
            faults.append(f"{where}:{since + 1}: there is no {name}")
        elif code != lines:
            differs = next((i for i, (here, there) in enumerate(zip(lines, code)) if here != there), min(len(lines), len(code)))
            faults.append(f"{where}:{since + 1 + differs}: differs from line {differs + 1} of {name}")
        wanted += lines if code is None else code
    return "\n".join(wanted) + "\n"


def unlinked(pages, faults):
    """Notes the pages that the table of crates doesn't link, and its links that lead nowhere."""
    linked = set(re.findall(r"\.\./(crates/\w+/CALLING\.md)", (ROOT / TABLE).read_text()))
    there = {str(page.relative_to(ROOT)) for page in pages}
    faults += [f"{TABLE}: no link to {name}" for name in sorted(there - linked)]
    faults += [f"{TABLE}: there is no {name}" for name in sorted(linked - there)]


def main():
    options = sys.argv[1:]
    if options not in ([], ["--write"]):
        print(__doc__)
        sys.exit(2)
    pages = sorted(ROOT.glob("crates/*/CALLING.md"))
    faults = []
    for page in pages:
        text = checked(page, faults)
        if options and text != page.read_text():
            page.write_text(text)
    if options:
        faults = []
        for page in pages:
            checked(page, faults)
    unlinked(pages, faults)
    print("".join(f"calling: {fault}\n" for fault in faults), end="")
    print(f"calling: {len(pages)} pages, {len(faults)} faults")
    sys.exit(1 if faults or not pages else 0)


if __name__ == "__main__":
    main()
