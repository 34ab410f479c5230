"""Reports, and the rules P1 to P14 against the independent program."""
import pickle
import random
import re
import unittest
from fractions import Fraction
from typing import List, Tuple

import nfot

from .cases import EXAMPLES, ROOT, Case, example, first_broken, independent, pairs, refusal

PAGE = (ROOT / "docs/FORMATS.md").read_text(encoding="utf-8")
TEXT = re.findall(r"```\n(report 1\n.*?end\n)```", PAGE, re.DOTALL)[0]


def reports() -> List[Tuple[nfot.Network, str]]:
    """Three networks with a report of each: of the page, a stopped one, and one of version 2 with idle nodes."""
    idle = nfot.network_of("nfot 2\nsource s\nsink t\nlink x w t 1 1\nlink a s t 0.5 1.50\nlink c s t 4 inf\ninflow 0 2\nend\n")
    with_queue = nfot.solve(example("bridge"), 30).text()
    return [(example("two"), TEXT), (example("bridge"), with_queue), (idle, nfot.solve(idle, 12).text())]


REPORTS = reports()


class Values(Case):
    def test_report_of_the_page(self) -> None:
        report = nfot.report_of(TEXT, net=example("two"))
        self.assertEqual((report.reached, report.cause, dict(report.states)), (4, "done", {"b": "full"}))
        self.assertEqual(report.labels["t"].points, tuple(pairs((0, 1), (1, 4), (4, "17/2"))))
        self.assertEqual((report.arrival(1), report.travel_time(1), report.arrival(2, "s")), (4, 3, 2))
        self.assertEqual(report.queue("a").greatest(), (4, Fraction(7, 2)))
        self.assertEqual(report.waits("a")(1), 2)
        self.assertEqual(report.text(), TEXT)
        self.assertEqual(nfot.solve(example("two"), 4), report)

    def test_nothing_is_said_beyond_the_departure_reached(self) -> None:
        """A label that is read after the departure reached would give negative travel times."""
        with self.assertRaises(nfot.Stopped) as caught:
            nfot.solve(example("two"), 4, phases=1)
        report = caught.exception.report
        assert report is not None
        self.assertEqual((report.reached, report.cause, report.arrival(1)), (1, "phases 1", 4))
        for call in (report.arrival, report.travel_time):
            self.faulted(nfot.OutOfRange, "departure 1.5 is after 1, the last one of the report", call, "1.5")
        self.faulted(nfot.OutOfRange, "time 2 is outside of what is known: 0 to 1", report.queue("a"), 2)
        self.faulted(nfot.OutOfRange, "time 4.5 is outside", report.outflow("a"), 4.5)

    def test_unknown_names(self) -> None:
        report = nfot.report_of(TEXT, net=example("two"))
        for call in (report.queue, report.inflow, report.outflow, report.waits):
            self.faulted(nfot.OutOfRange, "the report has no link z", call, "z")
        self.faulted(nfot.OutOfRange, "the report has no node z", report.label, "z")
        self.faulted(nfot.OutOfRange, "the report has no node z", report.arrival, 1, "z")

    def test_a_report_never_changes(self) -> None:
        report = nfot.report_of(TEXT, net=example("two"))
        with self.assertRaises(AttributeError):
            report.reached = Fraction(9)
        with self.assertRaises(TypeError):
            report.queues["a"] = nfot.Curve([(0, 0)])  # type: ignore[index]
        again = pickle.loads(pickle.dumps(report))
        self.assertEqual((again, again.network), (report, report.network))


class Simulators(Case):
    """What an author writes is made a report that `check` reads."""

    NET = example("even")
    HALF = pairs((2, 1))

    def report(self, **changed: object) -> nfot.Report:
        """Half of the supply on each road, by dictionaries in any order, without the points that go without saying."""
        given = {"horizon": 2, "reached": 2, "labels": {"t": pairs((0, 1), (2, 3)), "s": pairs((0, 0), (2, 2))},
                 "inflows": {"b": self.HALF, "a": self.HALF}, "outflows": {"b": pairs((1, 0), (3, 1)), "a": pairs((0, 0), (1, 0), (1, 0), (3, 1))},
                 "network": self.NET}
        given.update(changed)
        return nfot.Report(**given)  # type: ignore[arg-type]

    def test_check(self) -> None:
        self.assertTrue(nfot.check(self.NET, self.report()))
        path = self.folder() / "report"
        nfot.write_report(self.report(), path)
        self.assertEqual(nfot.read_report(path, self.NET), self.report())

    def test_values_that_make_no_report_are_refused(self) -> None:
        for changed, kind, wanted in [({"labels": {"t": [(0, 1), (2, 2.9)], "s": [(0, 0)]}}, nfot.Refused, "label of t: 2.9 is a float"),
                                      ({"labels": {"s": [(0, 0)]}}, nfot.Refused, "label of t: it has no point at time 0"),
                                      ({"labels": {"s": [(0, 0)], "u": [(0, 0)]}}, nfot.OutOfRange, "no node u"),
                                      ({"inflows": {"z": [(0, 0)]}}, nfot.OutOfRange, "no link z"),
                                      ({"inflows": {"a": [(2, 1), (1, 1)]}}, nfot.Refused, "inflow of a: time 1 comes after time 2"),
                                      ({"inflows": {"a": [(2, 1), (2, 3)]}}, nfot.Refused, "inflow of a: time 2 comes after time 2"),
                                      ({"reached": 3}, nfot.Refused, "P10"), ({"reached": 1}, nfot.Refused, "P10"),
                                      ({"reached": 1, "cause": "why 3"}, nfot.Refused, "P9: why is no cause"),
                                      ({"reached": 1, "cause": "phases"}, nfot.Refused, "P6"), ({"reached": 1, "cause": "phases 01"}, nfot.Refused, "P8"),
                                      ({"network": None}, nfot.Refused, "inflow of b: it has no point at time 0"),
                                      ({"states": {"a": "wide"}}, nfot.Refused, "P9: wide is no state")]:
            self.faulted(kind, wanted, self.report, **changed)


    def test_names_without_a_network(self) -> None:
        zero = [(0, 0)]
        labels = {"s": zero, "t": zero}
        report = nfot.Report(0, 0, labels, {"a": zero}, {"a": zero}, {"a": zero}, {"a": "zero"})
        self.assertEqual(nfot.report_of(report.text()), report)
        self.assertEqual(report.arrival(0), 0)
        for given in (({"a": zero}, {"b": zero}), ({"a": zero}, {"a": zero}, {"b": zero}), ({}, {}, {}, {"b": "zero"})):
            self.faulted(nfot.OutOfRange, "the report has no link b", nfot.Report, 0, 0, labels, *given)
        self.faulted(nfot.Refused, "N7: 'a b' is no name", nfot.Report, 0, 0, {"a b": zero, "t": zero})
        self.faulted(nfot.Refused, "waiting times need the capacity", report.waits, "a")


class Files(Case):
    def test_a_report_cut_anywhere_is_a_fault(self) -> None:
        """Also one that is cut at the end of a line, behind the lines of some links."""
        reader = independent("report_file").read_report
        for net, text in REPORTS:
            lines = text.splitlines(True)
            for kept in range(len(lines)):
                cut = "".join(lines[:kept])
                for part in (cut, cut[:-1], cut + lines[kept][:3]):
                    given = independent("network_file").read_network(net.text().encode()), part.encode()
                    wanted = first_broken(reader, *given)
                    self.assertEqual(refusal(nfot.report_of, part, "report", net), wanted)
                    self.assertNotEqual(refusal(nfot.report_of, part), ("", 0), part)
                    self.assertNotEqual(wanted, ("", 0))

    def test_a_missing_line_is_a_fault_with_the_network(self) -> None:
        for net, text in REPORTS:
            lines = text.splitlines(True)
            for gone in range(len(lines)):
                self.assert_same(net, "".join(lines[:gone] + lines[gone + 1:]))

    def assert_same(self, net: nfot.Network, text: str) -> str:
        """Both readers refuse by the same rule and line, or both read the report; the rule."""
        given = independent("network_file").read_network(net.text().encode()), text.encode()
        wanted = first_broken(independent("report_file").read_report, *given)
        self.assertEqual(refusal(nfot.report_of, text, "report", net), wanted, text)
        if wanted == ("", 0):
            self.assertEqual(nfot.report_of(text, net=net).text(), text)
            self.assertEqual(nfot.report_of(text).text(), text)
        return wanted[0]

    def test_rules_are_those_of_the_independent_program(self) -> None:
        rng, broken = random.Random(7), set()
        words = ["", "0", "-1", "-0", "4/2", "1/1", "-", "done", "phases 1", "phases 01", "patterns 1 2", "cause why", "passed 1 table - sum 1 2",
                 "passed 1 table x sum 1 2", "passed 1 wide - sum 1 2", "s", "t", "a", "b", "full", "tight", "label", "never w", "end", "state a zero",
                 "queue", "é", "\r", "#", " ", "18446744073709551616", "9" * 50, "x" * 1001, "report 2", "end\nend"]
        for _ in range(2500):
            net, text = rng.choice(REPORTS)
            parts = re.split(r"(?<=[ \n])", text)
            for _ in range(rng.randint(1, 2)):
                at = rng.randrange(len(parts))
                parts[at] = rng.choice([rng.choice(words) + rng.choice(["", " ", "\n"]), parts[at] * 2, parts[rng.randrange(len(parts))]])
            broken.add(self.assert_same(net, "".join(parts)))
        self.assertLessEqual({f"P{number}" for number in (1, 3, 4, 5, 6, 7, 8, 9, 10, 11, 12, 13, 14)} | {""}, broken)

    def test_wrong_rates_are_kept(self) -> None:
        """With slopes in place of the rates that were read, `check` would say yes of a report that it refuses."""
        text = TEXT.replace("inflow a 0 0 3\n", "inflow a 0 0 2\n")
        report = nfot.report_of(text, net=example("two"))
        self.assertEqual(report.text(), text)
        self.assertEqual(nfot.check(example("two"), report).rule, "C2")
        self.assertEqual(pickle.loads(pickle.dumps(report)), report)

    def test_faults_name_the_file(self) -> None:
        path = self.folder() / "late.report"
        path.write_text(TEXT.replace("label s 4 4", "label s 4 8/2"))
        fault = self.faulted(nfot.Refused, "late.report line 6: P8: 8/2 isn't the printed form", nfot.read_report, path, EXAMPLES / "two.net")
        self.assertEqual((fault.file, fault.line, fault.rule, fault.status), (str(path), 6, "P8", 4))
        self.faulted(nfot.NotFound, "there is no file", nfot.read_report, path.parent / "nowhere")
        self.faulted(nfot.Refused, "P4: the report is empty", nfot.report_of, "")


class Pairs(Case):
    """Reports of one network are told from those of another one."""

    def test_mismatch(self) -> None:
        net = example("two")
        report = nfot.report_of(TEXT)
        self.assertIsNone(nfot.mismatch(net, report))
        wide = nfot.Network("s", "t", [*net.links.values(), nfot.Link("c", "s", "t", 9, 1)], net.supply)
        for other, wanted in [(net.with_capacity("a", 2), "a queue stands at a from 0 on, 1 leave it, and its capacity is 2"),
                              (net.with_capacity("a", "1/2"), "1 leave a at 1, and its capacity is 0.5"),
                              (net.with_link(nfot.Link("a", "s", "t", 2, 1)), "reaches t at 1, and the transit times sum to 2"),
                              (net.with_supply([(0, 2)]), "12 leave the source by 4, and 8 are supplied"),
                              (net.without("b"), "it has a line `inflow b`"), (wide, "it has no line `inflow c`")]:
            self.assertIn(wanted, nfot.mismatch(other, report) or "")

    def test_read_pair(self) -> None:
        folder = self.folder()
        (folder / "r").write_text(TEXT)
        net, report = nfot.read_pair(EXAMPLES / "two.net", folder / "r")
        self.assertEqual((net, report.network), (example("two"), net))
        fault = self.faulted(nfot.Refused, "is no report of .*even.net: ", nfot.read_pair, EXAMPLES / "even.net", folder / "r")
        self.assertEqual(fault.status, 1)


if __name__ == "__main__":
    unittest.main()
