"""Tables as spreadsheets and map programs write them: encodings, separators, decimal commas, and what is wrong in which row.

UTF-8, UTF-16 and Windows-1252 are read, with or without a byte order mark. The separator is the one of `;`, tab and `,` that the first
line holds most often. With `;` or tabs a number may have a decimal comma; then a dot before three digits is refused, since it may part
thousands."""
from __future__ import annotations

import csv
import io
import re
from dataclasses import dataclass, replace
from fractions import Fraction
from typing import Iterator, Mapping, Optional, Sequence

from .faults import Refused
from .lines import read_bytes, shown_name
from .near import near

MOST_BYTES = 2 ** 28
NUMBER = re.compile(r"[+-]?(\d+(\.\d*)?|\.\d+)([eE][+-]?\d{1,3})?|[+-]?\d+/0*[1-9]\d*")

WITH_COMMA = re.compile(r"[+-]?\d*,\d+")
MAYBE_THOUSANDS = re.compile(r"[+-]?\d+\.\d{3}")


@dataclass(frozen=True)
class Row:
    """A row of a table: its cells by column (names in small letters), and where it stands.

    `decimal_comma` says that a number may have one, `has_commas` that some number of the table has one."""
    file: str
    line: int
    cells: Mapping[str, str]
    decimal_comma: bool
    has_commas: bool = False

    def fault(self, column: str, why: str) -> Refused:
        """The Fault that names file, row and column."""
        return Refused(f"column `{column}`: {why}", file=self.file, line=self.line)

    def text(self, column: str) -> str:
        """The cell of a column, without blanks around it."""
        return self.cells[column.lower()]

    def with_point(self, column: str) -> str:
        """The cell of a column with a decimal point for a decimal comma; a Fault where its dot may part thousands."""
        word = self.text(column)
        if self.has_commas and MAYBE_THOUSANDS.fullmatch(word):
            both = f"{word.replace('.', '')} or {word.replace('.', ',')}"
            raise self.fault(column, f"`{word}` has a dot before three digits, and the table has decimal commas: write {both}")
        return word.replace(",", ".") if self.decimal_comma else word

    def number(self, column: str) -> Fraction:
        """The number in a column, at least 0; a Fault for an empty cell and for what is no such number."""
        word = self.text(column)
        if not word:
            raise self.fault(column, "the cell is empty")
        plain = self.with_point(column)
        if not NUMBER.fullmatch(plain):
            raise self.fault(column, f"`{word}` is no number")
        found = Fraction(plain)
        if found < 0:
            raise self.fault(column, f"{word} is below 0")
        return found


@dataclass(frozen=True)
class Sheet:
    """A table: its file, the columns of its first line (in small letters), its rows, the encoding that was found, and the columns as they
    are spelled."""
    file: str
    columns: Sequence[str]
    rows: Sequence[Row]
    encoding: str
    heads: Sequence[str] = ()

    def column(self, asked: Optional[str], *usual: str, option: str = "") -> str:
        """The column that was asked for, else the first usual one that is there; a Fault where there is none, which names the option."""
        for name in [asked] if asked else usual:
            if name.strip().lower() in self.columns:
                if self.columns.count(name.strip().lower()) > 1:
                    raise Refused(f"two columns are called `{name}`", file=self.file, line=1)
                return name.strip().lower()
        raise Refused(self.missing(asked, usual, option), file=self.file, line=1)

    def missing(self, asked: Optional[str], usual: Sequence[str], option: str) -> str:
        """Why a column isn't found, and what to write."""
        blank = next((head for head in self.heads if asked and head.lower().startswith(f"{asked.strip().lower()} ")), None)
        if blank is not None:
            return f"no column `{asked}`: put a name with blanks in quotes, as {option} \"{blank}\""
        wanted = f"`{asked}`{near(asked, self.heads)}" if asked else " or ".join(f"`{name}`" for name in usual)
        named = f": name the right one by {option}" if option else ""
        return f"no column {wanted}{named}; the first line has {', '.join(f'`{head}`' for head in self.heads)}"

    def has(self, *usual: str) -> bool:
        """Whether one of these columns is there."""
        return any(name in self.columns for name in usual)


def text_of(data: bytes, file: str) -> tuple[str, str]:
    """The text of a file's bytes, and the encoding that fits them; a Fault where none does."""
    if data.startswith((b"\xff\xfe", b"\xfe\xff")):
        encodings = ["utf-16"]
    elif b"\0" in data[:200]:
        encodings = ["utf-16-le" if data[1:2] == b"\0" else "utf-16-be"]
    else:
        encodings = ["utf-8-sig", "cp1252"]
    for encoding in encodings:
        try:
            text = data.decode(encoding)
        except UnicodeDecodeError:
            continue
        if "\0" not in text:
            return text, encoding
    raise Refused("this is no text; save it as CSV in UTF-8", file=file)


def read_sheet(path: str) -> Sheet:
    """The table of a file (`-`: of standard input); a Fault where it has no first line, no rows, or a row of another width."""
    name = shown_name(path)
    text, encoding = text_of(read_bytes(path, MOST_BYTES), name)
    first = next((line for line in text.splitlines() if line.strip()), "")
    separator = max(";\t,", key=first.count)
    table = csv.reader(io.StringIO(text, newline=""), delimiter=separator)
    try:
        heads: list[str] = next((words for words in table if any(word.strip() for word in words)), [])
        if not heads:
            raise Refused("the file is empty", file=name)
        columns = [head.strip().lower() for head in heads]
        heads = [head.strip() for head in heads]
        rows = list(rows_of(table, name, columns, separator != ","))
        if any(WITH_COMMA.fullmatch(cell) for row in rows if row.decimal_comma for cell in row.cells.values()):
            rows = [replace(row, has_commas=True) for row in rows]
    except csv.Error as fault:
        raise Refused(f"{fault}", file=name, line=table.line_num) from None
    if not rows:
        raise Refused("no rows follow the first line", file=name)
    return Sheet(name, columns, rows, encoding, heads)


def rows_of(table: Iterator[list[str]], name: str, columns: Sequence[str], decimal_comma: bool) -> Iterator[Row]:
    """The rows behind the first line, without blank ones."""
    for words in table:
        line: int = getattr(table, "line_num")
        cells = [word.strip() for word in words]
        if not any(cells):
            continue
        if len(cells) < len(columns) or any(cells[len(columns):]):
            hint = " (a comma in a cell needs quotes around the cell)" if len(cells) > len(columns) and not decimal_comma else ""
            raise Refused(f"{len(cells)} cells, the first line has {len(columns)}{hint}", file=name, line=line)
        yield Row(name, line, dict(zip(columns, cells)), decimal_comma)
