"""The ten commands, against values worked out by hand or printed on the pages."""
import unittest
from fractions import Fraction

import nfot
from nfot import Curve, calling

from .cases import EXAMPLES, Case, example

TWO = example("two")


class Answers(Case):
    def test_solve(self) -> None:
        run = nfot.solve(example("bridge"), 60)
        self.assertEqual((run.arrival(30), run.travel_time(30), run.cause, run.reached), (60, 30, "done", 60))
        self.assertEqual(run.queue("bridge").greatest(), (Fraction(20), Fraction(40)))
        self.assertEqual(run.waits("bridge")(20), 20)
        self.assertEqual(run.network, example("bridge"))
        self.assertEqual(nfot.solve(EXAMPLES / "bridge.net", "60"), run)
        self.assertEqual(nfot.solve(str(EXAMPLES / "bridge.net"), Fraction(60)), run)

    def test_resume_writes_the_report_of_one_long_run(self) -> None:
        self.assertEqual(nfot.resume(TWO, nfot.solve(TWO, 2), 4), nfot.solve(TWO, 4))
        path = self.folder() / "report"
        nfot.write_report(nfot.solve(TWO, 2), path)
        self.assertEqual(nfot.resume(EXAMPLES / "two.net", path, 4), nfot.solve(TWO, 4))

    def test_check(self) -> None:
        verdict = nfot.check(TWO, nfot.solve(TWO, 4))
        self.assertTrue(verdict)
        self.assertEqual((str(verdict), verdict.rule, verdict.why), ("yes", None, "the flow is an equilibrium"))
        late = nfot.check(TWO, EXAMPLES / "late.report")
        self.assertFalse(late)
        self.assertEqual((late.rule, late.subject, late.time, late.left, late.right), ("C3", "t", 2, 7, 5))
        self.assertEqual(str(late), "no C3 t 2 7 5")
        self.assertIn("C3 doesn't hold for t at 2: the report has 7, and 5 is right", late.why)

    def test_load(self) -> None:
        loaded = nfot.load(TWO, {"a": [(0, 3), (2, 0)]}, 5)  # 2 wait more each minute until 2, then 1 less
        self.assertEqual(loaded.queues["a"], Curve([(0, 0), (2, 4), (5, 1)]))
        self.assertEqual(loaded.outflows["a"], Curve([(0, 0), (1, 0), (6, 5)]))
        self.assertEqual(loaded.exits["a"], Curve([(0, 1), (2, 7), (5, 7)]))
        self.assertEqual(loaded.queues["b"], Curve([(0, 0)], 5))
        by_file = nfot.load(EXAMPLES / "two.net", EXAMPLES / "late.loads", 5)
        self.assertEqual(by_file, nfot.load(TWO, {"a": [(0, 3), (2, "3/2")], "b": [(2, "1.5")]}, 5))

    def test_routes(self) -> None:
        sent = {"one": (["p", "z"], [(0, 1), (2, 0)]), "two": (["q", "z"], [(0, 1), (2, 0)])}
        carried = nfot.routes(example("merge"), sent, 4)  # the second route's vehicles meet those of the first one at z from 2 on
        self.assertEqual(carried.queues["z"], Curve([(0, 0), (2, 0), (3, 1), (4, 1), (5, 0), (6, 0)]))
        self.assertEqual(carried.travels["one"](2), 5)
        self.assertEqual(carried.arrivals["two"](5), 1)
        self.assertEqual(nfot.routes(EXAMPLES / "merge.net", EXAMPLES / "merge.routes", 4), carried)

    def test_quick(self) -> None:
        quickest = nfot.quick(TWO, 7)  # (T - 1) + (T - 3) = 7
        self.assertEqual((quickest.time, quickest.value, quickest.equilibrium), (Fraction(11, 2), 7, 6))
        self.assertEqual(quickest.walks, ((1, ("a",)), (1, ("b",))))
        self.assertEqual(quickest.cut, {"s": 0, "t": Fraction(11, 2)})
        self.assertEqual(nfot.quick(TWO, 0).equilibrium, 1)
        self.assertIsNone(nfot.quick(example("bridge"), 1000).equilibrium)

    def test_an_equilibrium_that_stops_is_a_fault_as_a_value(self) -> None:
        line = "quick 1\nwalk 1 a\ncut s 0\ncut t 1\nvalue 1\nequilibrium stopped patterns 3 100000\n"
        with self.program_of(f"printf '{line}'"):
            stopped = nfot.quick(TWO, 1).equilibrium
        assert isinstance(stopped, nfot.Stopped)
        self.assertEqual((stopped.cause, stopped.status), ("patterns 3 100000", 6))

    def test_forever(self) -> None:
        lasting = nfot.forever(TWO)  # both roads let 1 through and get 3/2
        self.assertEqual((lasting.reached, lasting.slopes, lasting.flows), (1, {"s": 1, "t": Fraction(3, 2)}, {"a": Fraction(3, 2), "b": Fraction(3, 2)}))
        self.assertEqual(lasting.report.label("t"), Curve([(0, 1), (1, 4)]))
        self.assertEqual(nfot.forever(example("corridor")).reached, 122)
        self.assertTrue(nfot.check(example("bridge"), nfot.forever(example("bridge")).report))

    def test_forever_that_stops(self) -> None:
        """The report says that it isn't done; it is the one of a run with a horizon, and goes on as that does."""
        net = example("bridge")  # its first phase ends at 20
        stop = self.faulted(nfot.Stopped, r"the run stopped at departure 20 \(cause phases 1\): allow more phases, or give a horizon", nfot.forever, net, phases=1)
        assert isinstance(stop, nfot.Stopped) and stop.report is not None
        self.assertEqual((stop.report.cause, stop.report.reached, stop.report.horizon), ("phases 1", 20, 21))
        self.assertEqual((str(nfot.check(net, stop.report)), nfot.resume(net, stop.report, 60)), ("yes", nfot.solve(net, 60)))

    def test_settle(self) -> None:
        half = {"a": Fraction(1, 2), "b": "0.5"}
        settled = nfot.settle(example("even"), half, {"s": 1, "t": 1})
        self.assertEqual(sum(settled.flows.values()), 1)
        self.assertEqual(set(settled.states.values()) - {"tight", "full", "zero"}, set())
        self.assertEqual(nfot.settle(EXAMPLES / "even.net", EXAMPLES / "even.flows"), settled)

    def test_gen(self) -> None:
        made = nfot.gen(7, 3, 10)
        self.assertEqual((made.nodes, made.links, made.reached, made.cause), (8, 11, 10, "done"))

    def test_show(self) -> None:
        for name in ("two", "siouxfalls", "paradox-closed"):
            self.assertEqual(nfot.show(EXAMPLES / f"{name}.net"), example(name).text())


class Faults(Case):
    def test_budgets(self) -> None:
        """A run that ends early is never returned like one that reached its horizon."""
        stop = self.faulted(nfot.Stopped, r"stopped at departure 1 of 4 \(cause phases 1\): allow more phases", nfot.solve, TWO, 4, phases=1)
        assert isinstance(stop, nfot.Stopped) and stop.report is not None
        self.assertEqual((stop.cause, stop.status, stop.report.reached), ("phases 1", 5, 1))
        self.assertTrue(nfot.check(TWO, stop.report))
        self.assertEqual(nfot.resume(TWO, stop.report, 4).label("t"), nfot.solve(TWO, 4).label("t"))
        for call, cause, status in [(lambda: nfot.gen(7, 3, 10, phases=1), "phases 1", 5),
                                    (lambda: nfot.forever(example("bridge"), phases=1), "phases 1", 12),
                                    (lambda: nfot.quick(TWO, 7, augments=1), "augments 1", 11)]:
            stop = self.faulted(nfot.Stopped, cause, call)
            assert isinstance(stop, nfot.Stopped)
            self.assertEqual((stop.cause, stop.status), (cause, status))

    def test_too_wide_numbers(self) -> None:
        wide = nfot.Network("s", "t", [nfot.Link("a", "s", "t", 2 ** 127 - 1, 1)], [(0, 1)])
        stop = self.faulted(nfot.Stopped, "stopped at departure 0 of 1 .*round capacities and rates", nfot.solve, wide, 1)
        self.assertEqual([calling.near_time(Fraction(1, 3)), calling.near_time(Fraction(10 ** 20, 3 * 10 ** 19 + 1))], ["1/3", "3.33 (rounded)"])
        assert isinstance(stop, nfot.Stopped)
        self.assertEqual((stop.status, stop.cause), (7, f"passed 1 advance - sum {2 ** 127 - 1} 1"))
        stop = self.faulted(nfot.Stopped, "round capacities", nfot.load, wide, {"a": [(0, 1)]}, 1)
        self.faulted(nfot.Refused, "horizon .* is too wide", nfot.solve, TWO, 2 ** 130)

    def test_unbounded_names_the_walk(self) -> None:
        links = [nfot.Link("a", "s", "t", 1, 1), nfot.Link("b", "s", "u", 1, None), nfot.Link("c", "u", "t", 1, "inf")]
        fault = self.faulted(nfot.Unbounded, "b c", nfot.quick, nfot.Network("s", "t", links, [(0, 1)]), 5)
        assert isinstance(fault, nfot.Unbounded)
        self.assertEqual((fault.links, fault.status), (["b", "c"], 14))

    def test_values_that_do_not_fit(self) -> None:
        for wanted, status, call in [
                ("no C3|C3 doesn't hold for t at 2", 10, lambda: nfot.resume(TWO, EXAMPLES / "late.report", 9)),
                ("before the departure that the report has reached", 16, lambda: nfot.resume(TWO, nfot.solve(TWO, 4), 2)),
                ("no thin flow", 15, lambda: nfot.settle(example("even"), {"a": "1/3", "b": "1/2"}, {"s": 1, "t": 1})),
                ("the horizon -1 is negative", 2, lambda: nfot.solve(TWO, -1)), ("no such words or numbers", 2, lambda: nfot.gen(7, 99, 10)),
                ("0.1 is a float", 2, lambda: nfot.solve(TWO, 0.1)),  # type: ignore[arg-type]
                ("0.1 is a float", 2, lambda: nfot.load(TWO, {"a": [(0, 0.1)]}, 3))]:  # type: ignore[list-item]
            self.assertEqual(self.faulted(nfot.Refused, wanted, call).status, status)
        self.faulted(nfot.OutOfRange, "the report has no label of the node home", nfot.check, example("bridge"), nfot.solve(TWO, 4))
        self.faulted(nfot.OutOfRange, "the network has no link b", nfot.check, TWO.without("b"), nfot.solve(TWO, 4))

    def test_faults_of_files_name_the_file_that_the_caller_knows(self) -> None:
        path = self.folder() / "my.loads"
        path.write_text("loads 1\nrate a 0 1\nrate z 0 1\nend\n")
        fault = self.faulted(nfot.Refused, "my.loads line 3: L7: no link has the name", nfot.load, TWO, path, 4)
        self.assertEqual((fault.file, fault.line, fault.rule, fault.status), (str(path), 3, "L7", 4))
        for call in (nfot.load, nfot.routes):
            self.faulted(nfot.NotFound, "/nowhere: there is no file of this name", call, TWO, "/nowhere", 4)
            self.faulted(nfot.Refused, "it is a folder", call, TWO, path.parent, 4)
        self.faulted(nfot.Refused, "line 1: L3: ", nfot.load, TWO, EXAMPLES / "two.net", 4)
        self.faulted(nfot.Refused, "the loads line 2: L7: no link has the name", nfot.load, TWO, {"z": [(0, 1)]}, 4)
        self.faulted(nfot.Refused, "the routes line 2: G8", nfot.routes, TWO, {"one": (["z"], [(0, 1)])}, 4)
        self.faulted(nfot.Refused, "the flows line 2: S7", nfot.settle, TWO, {"z": 1})
        for call in (nfot.solve, nfot.show, nfot.forever):
            self.faulted(nfot.NotFound, "nowhere.net: there is no file", call, "nowhere.net", *([2] if call == nfot.solve else []))
        path.write_text("nfot 1\nlink a s t 1\n")
        self.faulted(nfot.Refused, "my.loads line 2: N6: the line has 5 words, and a line `link` has 6", nfot.solve, path, 4)


class PastTheBudget(Case):
    """Going on where the patterns of a phase are used up."""

    def test_solve_goes_on_by_itself(self) -> None:
        for name, horizon, patterns in (("twelve", 8, 1), ("braess", 20, 1)):
            net = example(name)
            stop = self.faulted(nfot.Stopped, "cause patterns", nfot.solve, net, horizon, patterns=patterns, go_on=False)
            self.assertEqual(stop.status, 6)
            run = nfot.solve(net, horizon, patterns=patterns)
            self.assertEqual((run.reached, run.cause), (horizon, "done"))
            self.assertTrue(nfot.check(net, run))

    def test_a_grid_of_equal_streets(self) -> None:
        """Of the guide: the way of 12 streets takes 24; two streets of 30 lead out, so 20 times 30 too many wait 10 by 40."""
        side = 7 if nfot.program().proved else 4
        ends = [((i, j), other) for i in range(side) for j in range(side) for other in ((i + 1, j), (i, j + 1)) if max(other) < side]
        ways = [(f"{i}_{j}", f"{k}_{m}") for one, other in ends for (i, j), (k, m) in ((one, other), (other, one))]
        links = [nfot.Link(f"{tail}-{head}", tail, head, 2, 30) for tail, head in ways]
        net = nfot.Network("0_0", f"{side - 1}_{side - 1}", links, [(0, 30), (20, 90), (40, 20), (60, 0)])
        self.faulted(nfot.Stopped, "cause patterns 2 9", nfot.solve, net, 90, patterns=9, go_on=False)
        run = nfot.solve(net, 90, patterns=9)
        self.assertEqual([run.travel_time(time) - 4 * (side - 1) for time in (0, 20, 40, 60)], [0, 0, 10, 0])
        self.assertTrue(nfot.check(net, run))

    def test_resume_goes_on_too(self) -> None:
        net = example("braess")
        run = nfot.resume(net, nfot.solve(net, 0), 20, patterns=1)
        self.assertEqual(run.reached, 20)

    def test_a_fault_names_the_call(self) -> None:
        """`solve` goes on by resume: its faults say `nfot solve`."""
        stop = nfot.outcome(nfot.solve, EXAMPLES / "twelve.net", 30, patterns=1, go_on=False)
        assert isinstance(stop, nfot.Stopped) and stop.report is not None
        cut = self.folder() / "cut"
        nfot.write_report(stop.report, cut)
        for after, wanted in (("exec sleep 60", "^nfot solve took more than 1 seconds"), ("exit 99", "^nfot solve ended with the status 99"), ("kill -9 $$", "^nfot solve was ended by the signal")):
            with self.program_of(f'[ "$1" = resume ] || {{ cat "{cut}"; echo "nfot: stopped: {stop.cause}" >&2; exit 6; }}\n{after}'):
                self.faulted(nfot.Fault, wanted, nfot.solve, EXAMPLES / "twelve.net", 30, timeout=1)

    def test_labels_are_those_of_one_long_run(self) -> None:
        net = example("twelve")
        self.assertEqual(nfot.solve(net, 8, patterns=1).labels, nfot.solve(net, 8).labels)

    def test_a_hint_that_is_not_accepted_stops(self) -> None:
        text = nfot.solve(TWO, 4).text().replace("cause done", "cause patterns 1 5").replace("horizon 4", "horizon 5")
        folder = self.folder()
        (folder / "stopped").write_text(text)
        with self.program_of(f"cat {folder}/stopped; echo 'nfot: stopped: patterns 1 5' >&2; exit 6"):
            stop = self.faulted(nfot.Stopped, "stopped at departure 4 of 5 .cause patterns 1 5.", nfot.solve, TWO, 5)
        self.assertEqual(stop.status, 6)


if __name__ == "__main__":
    unittest.main()
