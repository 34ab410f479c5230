#!/usr/bin/env python3
"""Checks what the pages point at: links, pages and sections that they name, and lines of files that they quote.

    tests/links.py [--write]

- A link `[text](page.md#section)` leads to a file of the repository, and to a heading of it.
- A page that a sentence names, as `docs/GUIDE.md`, is there. A section that follows, as in `docs/GUIDE.md, *A city*`, is a heading of it.
- A quoted line, as `` `IsCurve` ([Curve.antt:51](../crates/nf_model/specs/Curve.antt#L51)) ``, declares the name in front of it. A name with dots
  is a field: the line declares its last part. `--write` puts in the first line that declares the name, where the number is wrong.

Statuses: 0 all are right (or were written); 1 some are wrong, each on one line; 2 wrong arguments."""
from __future__ import annotations

import pathlib
import re
import sys
from typing import Dict, Iterator, List, Optional, Set

ROOT = pathlib.Path(__file__).resolve().parent.parent
LINK = re.compile(r"\[[^\]]*\]\(([^)\s]+)\)")
NAMED = re.compile(r"(?<![\w/])((?:docs/|bench/)?[A-Z]+\.md)(?:, \*([^*]+)\*)?")
QUOTED = re.compile(r"`([\w.↔-]+)` \(\[[\w.-]+:(\d+)\]\(\.\./([\w./-]+\.(?:antt|rt))#L\d+\)\)")


def pages() -> List[pathlib.Path]:
    """The pages of the repository: README, docs, bench and the crates' own."""
    return sorted([*ROOT.glob("*.md"), *ROOT.glob("docs/*.md"), *ROOT.glob("bench/*.md"), *ROOT.glob("crates/*/*.md")])


def prose(page: pathlib.Path) -> Iterator[tuple[int, str]]:
    """The numbered lines of a page outside its blocks of code."""
    inside = False
    for number, line in enumerate(page.read_text(encoding="utf-8").splitlines(), 1):
        if line.startswith("```"):
            inside = not inside
        elif not inside:
            yield number, line


def headings(page: pathlib.Path) -> Set[str]:
    """The headings of a page, and the bold words and row heads that it can be asked for, as they stand."""
    found = set()
    for _, line in prose(page):
        if line.startswith("#"):
            found.add(line.lstrip("#").strip())
        found.update(re.findall(r"\*\*([^*]+)\*\*", line))
    return found


def anchor(heading: str) -> str:
    """The anchor of a heading, as the common viewers make it."""
    return re.sub(r"[^\w\- ]", "", heading.replace("`", "").lower()).replace(" ", "-")


def bad_link(page: pathlib.Path, target: str) -> Optional[str]:
    """Why a link is wrong, or None."""
    if re.match(r"[a-z]+:", target):
        return None
    name, _, section = target.partition("#")
    file = (page.parent / name).resolve() if name else page
    if not file.exists():
        return f"{target}: no such file"
    if section and file.suffix == ".md" and section not in {anchor(heading) for heading in headings(file)}:
        return f"{target}: no such section"
    return None


def page_of(page: pathlib.Path, name: str) -> Optional[pathlib.Path]:
    """The page that a sentence names: from the top, or beside the page itself."""
    places = [ROOT / name, page.parent / name, ROOT / "docs" / name, *ROOT.glob(f"crates/*/{name}")]
    return next((file for file in places if file.exists()), None)


def bad_name(page: pathlib.Path, name: str, section: str) -> Optional[str]:
    """Why the name of a page or of its section is wrong, or None."""
    file = page_of(page, name)
    if file is None:
        return f"{name}: no such page"
    if section and section.strip("`") not in {heading.strip("`") for heading in headings(file)}:
        return f"{name}, *{section}*: no such section"
    return None


def declares(line: str, name: str) -> bool:
    """Whether a line of a definition or of code declares a name: a definition, a field, a constructor, a function, a type or a clause."""
    word = re.escape(name)
    definition = rf"(?:\s*(?:(?:pub|abbrev|record|data|opaque|unfoldable) )+|){word}(?= |$)"
    field = rf"\s+(?:pub )?{word} ?:"
    code = rf".*\b(?:fn|struct|enum|trait|const|ensures) {word}\b"
    return re.match(rf"(?:{definition}|{field}|{code})", line) is not None


def declared_at(file: pathlib.Path, name: str) -> Optional[int]:
    """The first line of a file that declares a name; of a dotted name, the line of its last part, after those of the others."""
    lines, at = file.read_text(encoding="utf-8").splitlines(), 0
    for part in name.split("."):
        found = next((number for number, line in enumerate(lines, 1) if number > at and declares(line, part)), None)
        if found is None:
            return None
        at = found
    return at


def mend(page: pathlib.Path, writes: bool) -> List[str]:
    """The wrong quoted lines of a page; where it writes, the page is put right instead."""
    wrong: List[str] = []

    def right(found: re.Match[str]) -> str:
        name, number, place = found.groups()
        file = ROOT / place
        at = declared_at(file, name) if file.exists() else None
        if at is None:
            wrong.append(f"{place}: it declares no {name}")
        elif at != int(number) and not writes:
            wrong.append(f"{place}:{number}: {name} stands at line {at}")
        return found[0] if at is None else f"`{name}` ([{file.name}:{at}](../{place}#L{at}))"

    text = page.read_text(encoding="utf-8")
    new = QUOTED.sub(right, text)
    if writes and new != text:
        page.write_text(new, encoding="utf-8")
    return wrong


def main() -> int:
    if sys.argv[1:] not in ([], ["--write"]):
        print("usage: tests/links.py [--write]", file=sys.stderr)
        return 2
    told: Dict[str, None] = {}
    for page in pages():
        for number, line in prose(page):
            faults = [bad_link(page, target) for target in LINK.findall(re.sub(r"`[^`]*`", "", line))]
            faults += [bad_name(page, name, section) for name, section in NAMED.findall(line)]
            told.update((f"links: {page.relative_to(ROOT)}:{number}: {fault}", None) for fault in faults if fault)
        told.update((f"links: {page.relative_to(ROOT)}: {fault}", None) for fault in mend(page, sys.argv[1:] == ["--write"]))
    print(*told, sep="\n", end="\n" * bool(told))
    print(f"links: {len(pages())} pages, {len(told)} faults")
    return 1 if told else 0


if __name__ == "__main__":
    sys.exit(main())
