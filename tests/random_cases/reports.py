"""Reports as curves, read from their texts and written again."""
from dataclasses import dataclass, field
from fractions import Fraction

from .networks import joined
from .numerals import fits, printed

WITH_RATES = ("inflow", "outflow")
CURVES = ("label", "inflow", "outflow", "queue")


@dataclass
class Report:
    """The curves of a report by (kind, name), its states by link, and its other lines; told rates that aren't the slopes by (kind, name, point)."""
    version: str
    horizon: Fraction
    reached: Fraction
    cause: str
    curves: dict
    never: list
    states: dict
    rates: dict = field(default_factory=dict)

    def copy(self):
        """The same report once more, to be changed."""
        curves = {key: list(points) for key, points in self.curves.items()}
        return Report(self.version, self.horizon, self.reached, self.cause, curves, list(self.never), dict(self.states), dict(self.rates))

    def labels(self):
        """The names of the nodes that have a label, in order."""
        return [name for kind, name in self.curves if kind == "label"]

    def fits(self):
        """Whether each number has parts that a file may have."""
        return all(fits(number) for key, points in self.curves.items() for number in [n for point in points for n in point] + self.slopes(key))

    def slopes(self, key):
        """The rates that are written with the points of a curve, but for the last one."""
        points = self.curves[key]
        if key[0] not in WITH_RATES:
            return []
        return [self.rates.get((*key, i), (v1 - v0) / (t1 - t0)) for i, ((t0, v0), (t1, v1)) in enumerate(zip(points, points[1:]))]

    def lines(self):
        """The lines of the text."""
        lines = [f"report {self.version}", f"horizon {printed(self.horizon)}", f"reached {printed(self.reached)}", f"cause {self.cause}"]
        curves = {key: self.curve_lines(key) for key in self.curves}
        lines += [line for key, curve in curves.items() if key[0] == "label" for line in curve]
        lines += [f"never {node}" for node in self.never]
        lines += [line for key, curve in curves.items() if key[0] != "label" for line in curve]
        return lines + [f"state {link} {state}" for link, state in self.states.items()] + ["end"]

    def curve_lines(self, key):
        """The lines of a curve."""
        lines = [f"{key[0]} {key[1]} {printed(time)} {printed(value)}" for time, value in self.curves[key]]
        if key[0] not in WITH_RATES:
            return lines
        return [f"{line} {rate}" for line, rate in zip(lines, [*map(printed, self.slopes(key)), "-"])]

    def text(self):
        """The bytes of the report."""
        return joined(self.lines())

    def event_times(self):
        """The departures at which some label turns, and the first and the last one."""
        return sorted({time for (kind, _), points in self.curves.items() if kind == "label" for time, _ in points})


def read_report(text):
    """The report of a text of `solve` or `resume`."""
    lines = [line.split(" ") for line in text.decode().splitlines()]
    head = [" ".join(words[1:]) for words in lines[:4]]
    report = Report(head[0], Fraction(head[1]), Fraction(head[2]), head[3], {}, [], {})
    for words in lines[4:]:
        if words[0] in CURVES:
            report.curves.setdefault((words[0], words[1]), []).append((Fraction(words[2]), Fraction(words[3])))
        elif words[0] == "never":
            report.never.append(words[1])
        elif words[0] == "state":
            report.states[words[1]] = words[2]
    return report


def with_curve(report, key, points):
    """The report with one curve in place of another, or None where a number is too wide."""
    changed = report.copy()
    changed.curves[key] = points
    return changed if changed.fits() else None
