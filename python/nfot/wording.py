"""Numbers and times as tools print them: rounded or exact, minutes or times of day."""
from __future__ import annotations

from dataclasses import dataclass
from fractions import Fraction
from typing import Optional

from .comparing import Group
from .numbers import clock, decimal, short
from .queues import Queue

BEYOND = "end of report"  # in place of a time: the queue is still there at the last time that the report knows


@dataclass(frozen=True)
class Words:
    """How numbers are printed: `exact` or rounded; `begin` is the time of day of minute 0 (None: times are minutes)."""
    exact: bool = False
    begin: Optional[Fraction] = None

    def number(self, value: Fraction, digits: int = 2) -> str:
        """A number, with so many digits behind the point or exact."""
        return short(value) if self.exact else decimal(value, digits)

    def change(self, value: Fraction) -> str:
        """A number with its sign."""
        word = self.number(value)
        return word if word.startswith("-") else f"+{word}"

    def time(self, minute: Fraction) -> str:
        """A time, as a time of day where minute 0 has one."""
        return self.number(minute) if self.begin is None else clock(minute, self.begin)

    def queue(self, queue: Queue) -> str:
        """When a link has a queue, and how long its longest wait is."""
        spans = [f"from {self.time(start)} to {BEYOND if end is None else self.time(end)}" for start, end in queue.spans]
        return f"{queue.link}: queue {', '.join(spans)}, longest wait {self.number(queue.wait)}"

    def group(self, word: str, group: Group) -> str:
        """How many vehicles lose or gain, by how much, and when they leave."""
        if group.departure is None:
            return f"{word}: nobody"
        when = ", ".join(f"{self.time(start)} to {self.time(end)}" for start, end in group.spans)
        return (f"{word}: {self.number(group.vehicles, 1)} vehicles, {self.number(group.mean)} on average, "
                f"at most {self.number(group.most)} (leave {self.time(group.departure)}); they leave {when}")
