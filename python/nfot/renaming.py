"""Names of a table as the network file allows them: at most 24 letters without accents, digits, `_`, `-` and `.`."""
from __future__ import annotations

import re
import unicodedata

LENGTH = 24
SPELLED = {"ä": "ae", "ö": "oe", "ü": "ue", "Ä": "Ae", "Ö": "Oe", "Ü": "Ue", "ß": "ss", "ẞ": "SS", "æ": "ae", "Æ": "Ae", "œ": "oe", "Œ": "Oe",
           "ø": "oe", "Ø": "Oe", "å": "aa", "Å": "Aa", "ł": "l", "Ł": "L", "đ": "d", "Đ": "D", "ð": "d", "þ": "th"}


def plain(name: str) -> str:
    """The name with allowed characters alone: umlauts are spelled out, accents dropped, other characters become `_`.

    >>> plain("Höhe 2"), plain("Café"), plain("123#1")
    ('Hoehe_2', 'Cafe', '123_1')
    """
    spelled = "".join(SPELLED.get(letter, letter) for letter in unicodedata.normalize("NFC", name))
    bare = "".join(letter for letter in unicodedata.normalize("NFKD", spelled) if not unicodedata.combining(letter))
    return re.sub(r"[^A-Za-z0-9_.-]", "_", bare) or "_"


def shortened(name: str, length: int) -> str:
    """At most this many characters: of a longer name the beginning and the last three, since names often differ in these.

    >>> shortened("Hauptbahnhof_12", 11)
    'Hauptba._12'
    """
    return name if len(name) <= length else f"{name[:length - 4]}.{name[-3:]}"


def joined(tail: str, head: str) -> str:
    """The name of a link without one: `TAIL-HEAD`, with shortened names where the whole is too long."""
    if len(tail) + len(head) < LENGTH:
        return f"{tail}-{head}"
    least = (LENGTH - 1) // 2
    room = max(least, LENGTH - 1 - len(head))
    tail = shortened(tail, room)
    return f"{tail}-{shortened(head, LENGTH - 1 - len(tail))}"


class Names:
    """Allowed names, one for each name of a table. No two get the same: the second one ends with `.2`."""

    def __init__(self) -> None:
        self.given: dict[str, str] = {}
        self.used: set[str] = set()

    def new(self, name: str) -> str:
        """An allowed name that isn't used yet, as near to this one as possible."""
        short = tried = shortened(plain(name), LENGTH)
        number = 1
        while tried in self.used:
            number += 1
            tried = f"{short[:LENGTH - 1 - len(str(number))]}.{number}"
        self.used.add(tried)
        return tried

    def of(self, name: str) -> str:
        """The allowed name of this name, always the same one."""
        if name not in self.given:
            self.given[name] = self.new(name)
        return self.given[name]
