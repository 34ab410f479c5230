"""Results as rows: curves on a grid of times, for a table, a CSV file or pandas. All values are Fractions until they are written."""
from __future__ import annotations

import csv
import importlib
import io
from fractions import Fraction
from itertools import takewhile
from typing import Any, Callable, Collection, Dict, Iterable, Iterator, Optional, Sequence, Union, overload

from .curves import Curve
from .faults import Fault, OutOfRange, Refused
from .given import with_network
from .near import near
from .numbers import Time, clock as clock_of, decimal, parse, short, time_of
from .program import write_beside
from .reports import Report

Cell = Union[str, Fraction, None]  # None: nothing is known
RowDict = Dict[str, Cell]
MOST_ROWS = 1_000_000
MARK = "\ufeff"  # a byte order mark: with it spreadsheets read UTF-8


def count_columns(columns: Sequence[str]) -> set[str]:
    """The columns that count vehicles."""
    return {name for name in columns if name.split(" ")[-1] in ("vehicles", "holds", "amount", "queue", "in", "out")}


def cell_text(cell: Cell, digits: int, exact: bool) -> str:
    """A cell as a text: a decimal of so many digits, or the exact number; nothing where nothing is known."""
    if cell is None or isinstance(cell, str):
        return cell or ""
    return short(cell) if exact else decimal(cell, digits)


class Rows(Sequence[RowDict]):
    """Rows of one table: dicts with the same keys, in the same order. Values are Fractions, texts, or None where nothing is known.

    `notes` has sentences on the table, as on idle links."""

    def __init__(self, columns: Sequence[str], rows: Iterable[Sequence[Cell]], notes: Iterable[str] = ()) -> None:
        self.columns, self.notes = tuple(columns), tuple(notes)
        self._rows = [dict(zip(self.columns, row)) for row in rows]

    @overload
    def __getitem__(self, at: int) -> RowDict: ...

    @overload
    def __getitem__(self, at: slice) -> list[RowDict]: ...

    def __getitem__(self, at: Union[int, slice]) -> Union[RowDict, list[RowDict]]:
        return self._rows[at]

    def __len__(self) -> int:
        return len(self._rows)

    def __iter__(self) -> Iterator[RowDict]:
        return iter(self._rows)

    def __repr__(self) -> str:
        return f"Rows({len(self)} rows: {', '.join(self.columns)})"

    def values(self, column: str) -> list[Cell]:
        """The values of a column, up to the first one that isn't known."""
        return list(takewhile(lambda cell: cell is not None, (row[column] for row in self._rows)))

    def csv_text(self, exact: bool = False, semicolon: bool = False, counts: Collection[str] = ()) -> str:
        """The table as CSV: decimals with at most six digits behind the point, or with `exact` the fractions themselves.

        With `semicolon` fields are parted by `;`, and decimals have a comma, as spreadsheets in German want it. Columns of `counts` have at
        most two digits from 10 on."""
        text = io.StringIO()
        lines = csv.writer(text, lineterminator="\n", delimiter=";" if semicolon else ",")
        lines.writerow(self.columns)
        for row in self._rows:
            words = [cell if isinstance(cell, str) else bare(cell_text(cell, 2 if name in counts and cell and cell >= 10 else 6, exact)) for name, cell in row.items()]
            lines.writerow([word.replace(".", ",") if semicolon and not isinstance(cell, str) else word for word, cell in zip(words, row.values())])
        return text.getvalue()

    def csv(self, path: str, exact: bool = False, semicolon: bool = False, counts: Collection[str] = ()) -> None:
        """Writes the table as CSV; `-` is standard output. Raises a Fault where the file can't be written.

        With `semicolon` it begins with a byte order mark (Python's `utf-8-sig`), so that spreadsheets read umlauts rightly."""
        write_beside(path, MARK * semicolon + self.csv_text(exact, semicolon, counts))

    def text(self, exact: bool = False) -> str:
        """The table in columns, numbers with two digits behind the point, or with `exact` as they are."""
        cells = [[cell_text(cell, 2, exact) for cell in row.values()] for row in self._rows]
        widths = [max(map(len, column)) for column in zip(self.columns, *cells)]
        lefts = [any(isinstance(row[name], str) for row in self._rows) for name in self.columns]
        lines = [[word.ljust(width) if left else word.rjust(width) for word, width, left in zip(row, widths, lefts)]
                 for row in [list(self.columns), *cells]]
        return "".join("  ".join(line).rstrip() + "\n" for line in lines)

    def frame(self) -> Any:
        """The table as a DataFrame of pandas, numbers as floats. Raises a Fault where pandas isn't installed."""
        try:
            pandas: Any = importlib.import_module("pandas")
        except ImportError:
            raise Fault("pandas isn't installed: `pip install pandas`, or take .csv(path)") from None
        return pandas.DataFrame([{name: float(cell) if isinstance(cell, Fraction) else cell for name, cell in row.items()} for row in self._rows],
                                columns=list(self.columns))


def bare(word: str) -> str:
    """A decimal without zeros at its end."""
    return word.rstrip("0").rstrip(".") if "." in word and "/" not in word else word


def grid(every: Time, stop: Fraction, start: Fraction = Fraction(0)) -> list[Fraction]:
    """The times from `start` to `stop` in steps of `every`; a Fault where the step isn't above 0."""
    step = parse(every) if isinstance(every, str) else time_of(every)
    if step <= 0:
        raise Refused(f"{short(step)} is no step of time: it has to be above 0")
    if (stop - start) / step >= MOST_ROWS:
        raise Refused(f"steps of {short(step)} make more than {MOST_ROWS} rows")
    return [start + step * number for number in range(int((stop - start) // step) + 1)]


def known(curve: Curve, time: Fraction) -> Optional[Fraction]:
    """The value of a curve at a time; None beyond what is known."""
    return curve(time) if curve.start <= time <= curve.until else None


def grown(curve: Curve, start: Fraction, end: Fraction) -> Optional[Fraction]:
    """By how much a curve grows from one time to another; None beyond what is known."""
    before, after = known(curve, start), known(curve, end)
    return None if before is None or after is None else after - before


Column = Callable[[Fraction, Fraction], Cell]  # of the time of a row and of the next one
NO_COLUMNS: Dict[str, Column] = {word: lambda time, after: None for word in ("queue", "wait", "in", "out")}  # of a link that isn't there
ZEROS: Dict[str, Column] = {word: lambda time, after: Fraction(0) for word in NO_COLUMNS}  # of an idle link


def clock_column(clock: Union[str, Fraction]) -> Column:
    """The time of day of a row; `clock` is that of time 0, as "6:00"."""
    begin = parse(clock) if isinstance(clock, str) else clock
    return lambda time, after: clock_of(time, begin)


def arrival_columns(run: Report, name: str = "") -> dict[str, Column]:
    """Arrival and travel time at the sink of a driver who leaves at the time of a row."""
    sink = with_network(run).sink
    label = run.label(sink)

    def takes(time: Fraction, after: Fraction) -> Cell:
        arrival = known(label, time)
        return None if arrival is None else arrival - time
    return {f"{name}arrive": lambda time, after: known(label, time), f"{name}takes": takes}


def link_columns(run: Report, link: str, name: str) -> dict[str, Column]:
    """Of a link: the queue and its wait at the time of a row, and what enters and leaves until the next row."""
    queue, wait, into, out = run.queue(link), run.waits(link), run.inflow(link), run.outflow(link)
    return {f"{name}queue": lambda time, after: known(queue, time), f"{name}wait": lambda time, after: known(wait, time),
            f"{name}in": lambda time, after: grown(into, time, after), f"{name}out": lambda time, after: grown(out, time, after)}


def rows_of(times: Sequence[Fraction], step: Fraction, columns: dict[str, Column], notes: Iterable[str]) -> Rows:
    """The rows of these columns, one for each time."""
    return Rows(["time", *columns], ([time, *(column(time, time + step) for column in columns.values())] for time in times), notes)


DRIVER_WORDS, LINK_WORDS = ("arrive", "takes"), ("queue", "wait", "in", "out")


def names_in(given: Union[str, Iterable[str], None]) -> list[str]:
    """Several names, or one as a text."""
    return [given] if isinstance(given, str) else list(given or [])


def table(run: Report, every: Time = 5, links: Union[str, Iterable[str], None] = None, clock: Optional[str] = None,
          show: Union[str, Iterable[str], None] = None) -> Rows:
    """A report on a grid of times, `every` minutes from 0 on, up to the last one at which the queues are known (outflows may be longer).

    Columns: `time`; with `clock` (the time of day of time 0, as "6:00") `clock`; `arrive` and `takes` of a driver who leaves the source
    then; of each link `LINK queue` and `LINK wait` at that time, and `LINK in` and `LINK out`, the vehicles that enter and leave it until
    the next row. `show` picks some of arrive, takes, queue, wait, in, out; with one of a link, and without `links`, all links have it.
    A value that isn't known is None; all those of idle links, which are told in `notes`, are 0. Raises a Fault for a link that isn't in the
    network, for an idle one in `links`, and for a word that is no column."""
    wanted = names_in(show) or [*DRIVER_WORDS, *LINK_WORDS]
    check_words(wanted, [*DRIVER_WORDS, *LINK_WORDS])
    named = list(with_network(run).links) if links is None and show is not None and set(wanted) & set(LINK_WORDS) else names_in(links)
    idle = [link for link in named if links is None and link not in run.queues]
    columns: dict[str, Column] = {"clock": clock_column(clock)} if clock is not None else {}
    columns.update((word, column) for word, column in arrival_columns(run).items() if word in wanted)
    stop = run.reached
    for link in named:
        if link not in idle:
            check_link({"": run}, link, "the report has no")
            stop = max(stop, run.queue(link).until)
        offered = ZEROS if link in idle else link_columns(run, link, "")
        columns.update((f"{link} {word}", column) for word, column in offered.items() if word in wanted)
    times = grid(every, stop)
    notes = [f"no walk from the source reaches the tail of {', '.join(idle)}: each value is 0"] * bool(idle)
    return rows_of(times, times[1] - times[0] if len(times) > 1 else stop, columns, notes)


def check_words(wanted: Sequence[str], offered: Sequence[str]) -> None:
    """Raises a Fault for a word that is no column."""
    for word in wanted:
        if word not in offered:
            raise Refused(f"{word} is none of the columns: {', '.join(offered)}")


def side_by_side(runs: dict[str, Report], link: Union[str, Sequence[str], None], show: Sequence[str], every: Time = 5, clock: Optional[str] = None) -> Rows:
    """Scenarios beside each other on one grid of times: of each run, by its name, the columns `NAME queue` and so on.

    `show` names them: queue, wait, in, out of the link, or of several, then as `NAME LINK queue`; without a link arrive and takes. A link
    that a scenario doesn't have is left empty. The last row is at the last time that is known."""
    if not isinstance(runs, dict) or not all(isinstance(run, Report) for run in runs.values()):
        raise Refused("reports by name are needed, as {\"closed\": run}, not " + f"{runs!r:.60}")
    links = names_in(link)
    columns: dict[str, Column] = {"clock": clock_column(clock)} if clock is not None else {}
    for each in links:
        check_link(runs, each)
    stop = Fraction(0)
    columns_of: list[Optional[str]] = [*links] if links else [None]
    for name, run in runs.items():
        stop = max(stop, run.reached, *(run.queue(each).until for each in links if each in run.queues))
        for of in columns_of:
            offered = arrival_columns(run) if of is None else link_columns(run, of, "") if of in run.queues else NO_COLUMNS
            check_words(show, list(offered))
            for word in show:
                columns[f"{name} {of} {word}" if len(links) > 1 else f"{name} {word}"] = offered[word]
    return rows_until(stop, every, columns)


def check_link(runs: dict[str, Report], link: str, owner: str = "no scenario has a") -> None:
    """Raises a Fault where no report has the link, or where it is idle; `owner` begins the sentence."""
    if any(link in run.queues for run in runs.values()):
        return
    if any(run.network is not None and link in run.network.links for run in runs.values()):
        raise OutOfRange(f"the link {link} is idle: no walk from the source reaches it")
    raise OutOfRange(f"{owner} link {link}{near(link, [name for run in runs.values() for name in run.queues])}")


def rows_until(stop: Fraction, every: Time, columns: dict[str, Column]) -> Rows:
    """The rows of these columns in steps of `every`, and one at the last time."""
    times = grid(every, stop)
    times += [stop] * (times[-1] < stop)
    ends = [*times[1:], times[-1] + (times[-1] - times[-2] if len(times) > 1 else stop)]
    return Rows(["time", *columns], ([time, *(column(time, end) for column in columns.values())] for time, end in zip(times, ends)))
