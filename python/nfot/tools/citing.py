"""What `nfot-py --cite` prints: an entry of BibTeX, with the commit where the package runs from a checkout or is that of a release."""
from __future__ import annotations

import pathlib
import subprocess
from typing import Optional

TITLE, AUTHORS, YEAR = "nfot: exact dynamic traffic equilibria, proved", "The nfot authors", "2026"  # as in CITATION.cff


RELEASED = pathlib.Path(__file__).resolve().parents[1] / "data/commit.txt"  # written by tools/release.sh, and in no checkout


def commit() -> Optional[str]:
    """The commit of the release, or that of the checkout that the package runs from, with `-dirty` where files were changed; None without both."""
    if RELEASED.is_file():
        return RELEASED.read_text(encoding="ascii").strip()
    top = pathlib.Path(__file__).resolve().parents[3]
    if not (top / ".git").exists() or not (top / "CITATION.cff").is_file():
        return None
    words = ["git", "-C", str(top), "describe", "--always", "--dirty", "--abbrev=40", "--exclude=*"]
    try:
        done = subprocess.run(words, stdout=subprocess.PIPE, stderr=subprocess.DEVNULL, stdin=subprocess.DEVNULL)
    except OSError:  # git isn't installed
        return None
    return done.stdout.decode("ascii", "replace").strip() if done.returncode == 0 else None


def citation() -> str:
    """The entry of BibTeX."""
    from .. import __version__
    found = commit()
    fields = {"title": f"{{{TITLE}}}", "author": f"{{{AUTHORS}}}", "version": __version__, "year": YEAR, **({"note": f"commit {found}"} if found else {})}
    lines = [f"  {name} = {{{value}}}," for name, value in fields.items()]
    return "\n".join(["@software{nfot,", *lines, "}"])
