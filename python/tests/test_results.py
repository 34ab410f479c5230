"""Results: times, queues, series, compare, cut and bottleneck, against values worked out by hand."""
from __future__ import annotations

import csv
import os
import unittest
from fractions import Fraction
from pathlib import Path
from typing import Optional
from unittest import mock

import nfot

from .tooling import EXAMPLES, Case

SOLVED: dict[tuple[str, int], str] = {}


class Results(Case):
    """Has reports of examples, each solved once."""

    def solved(self, net: str, horizon: int) -> tuple[Path, str]:
        """The names of an example, or of a file of the folder, and of its report."""
        source = EXAMPLES / net if (EXAMPLES / net).exists() else self.folder / net
        text = SOLVED.get((source.read_text(), horizon))
        if text is None:
            text = SOLVED[source.read_text(), horizon] = nfot.solve(source, horizon).text()
        return source, self.write(f"{Path(net).stem}.report", text)

    def rows(self, path: str) -> list[dict[str, str]]:
        """The rows of a CSV file."""
        return list(csv.DictReader((self.folder / path).read_text().splitlines()))


class Times(Results):
    def test_bridge(self) -> None:
        """Who leaves at 30 takes 30; 40 cars at 2 a minute are a wait of 20. In all 6,400 minutes, as docs/GUIDE.md works out."""
        self.assertEqual(self.fine("times", *self.solved("bridge.net", 60), "0", "20", "30", "1:00").splitlines(), [
            "leave 0.00  arrive 10.00  takes 10.00", "leave 20.00  arrive 50.00  takes 30.00", "leave 30.00  arrive 60.00  takes 30.00",
            "leave 60.00  arrive 90.00  takes 30.00", "bridge: queue from 0.00 to end of report, longest wait 20.00",
            "all together on the way: 6400.0, a vehicle 26.67"])

    def test_report_from_standard_input(self) -> None:
        net, report = self.solved("two.net", 4)
        self.assertIn("leave 1.00  arrive 4.00  takes 3.00", self.fine("times", net, "-", "1", stdin=(self.folder / report).read_text()))

    def test_steps_times_of_day_and_csv(self) -> None:
        pair = self.solved("bridge.net", 60)
        out = self.fine("times", *pair, "6:25", "--every", 30, "--clock", "6:00").splitlines()
        self.assertEqual(out[:4], ["06:00  leave 0.00  arrive 10.00  takes 10.00", "06:25  leave 25.00  arrive 55.00  takes 30.00",
                                   "06:30  leave 30.00  arrive 60.00  takes 30.00", "07:00  leave 60.00  arrive 90.00  takes 30.00"])
        self.fine("times", *pair, "1/3", "--clock", "6:00", "--csv", "times.csv")
        self.assertEqual(self.rows("times.csv"), [{"clock": "06:00:20", "leave": "0.333333", "arrive": "10.666667", "takes": "10.333333"}])
        self.fine("times", *pair, "1/3", "--csv", "times.csv", "--exact")
        self.assertEqual(self.rows("times.csv"), [{"leave": "1/3", "arrive": "32/3", "takes": "31/3"}])
        self.assertIn("leave 1/3  arrive 32/3  takes 31/3", self.fine("times", *pair, "1/3", "--exact"))

    def test_faults(self) -> None:
        net, report = self.solved("two.net", 4)
        self.write("wide.net", net.read_text().replace("link a s t 1 1", "link a s t 1 2"))
        for words, status, wanted in [((net, report, "5"), 1, "from 0 to 4.00, not 5"), ((net, report, "2.x"), 2, "2.x is no number"), ((net, "nix"), 3, "nix: there is no file"),
                                      (("wide.net", report), 1, "a queue stands at a from 0 on, 1 leave it, and its capacity is 2"), ((net,), 2, "required: REPORT"),
                                      ((net, report, "--csv", "x.csv"), 2, "name some, or take --every"), ((net, report, "--every", "0"), 2, "0 isn't above 0"),
                                      ((net, report, "1", "--csv", "."), 9, "it can't be written"), ((net, report, "1", "--csv", "/dev/full"), 9, "No space left"),
                                      (("-", "-"), 2, "only one of the files can be standard input")]:
            self.refused(status, wanted, "times", *words)

    def test_cut_report(self) -> None:
        """A report that ends at a line's end is refused, and isn't taken for a shorter one."""
        net, report = self.solved("two.net", 4)
        lines = (self.folder / report).read_text().splitlines(keepends=True)
        self.write("cut.report", "".join(lines[:20]))
        status, out, err = self.run_tool("times", net, "cut.report", "1")
        self.assertEqual((status != 0, out, err.count("\n")), (True, "", 1))


class Warned(Results):
    def test_stopped(self) -> None:
        """Three phases of examples/twelve.net end at departure 12. Each tool says so in one line, and nothing of a whole report."""
        net, good = self.solved("two.net", 4)
        stop = nfot.outcome(nfot.solve, EXAMPLES / "twelve.net", 30, phases=3)
        assert isinstance(stop, nfot.Stopped) and stop.report is not None
        self.write("cut.report", stop.report.text())
        for tool in ("series", "phases", "gap"):
            status, out, err = self.run_tool(tool, EXAMPLES / "twelve.net", "cut.report")
            self.assertEqual((status, bool(out), err), (0, True, f"nfot-py {tool}: cut.report ends at departure 12, not at 30: phases 3\n"))
            self.assertEqual(self.run_tool(tool, net, good)[::2], (0, ""))
        self.assertEqual(nfot.gap(EXAMPLES / "twelve.net", stop.report).reached, 12)

    def test_no_equilibrium(self) -> None:
        """examples/late.report breaks C3: at 2 the label of t is 7, and 5 is right. The tools say so, and nothing of a report that is one."""
        net, good = self.solved("two.net", 4)
        late = EXAMPLES / "late.report"
        for words in (["times", net, late, 1], ["times", net, late, 1, "--csv", "x.csv"], ["queues", net, late], ["series", net, good, net, late], ["compare", net, late, net, good]):
            status, _, err = self.run_tool(*words)
            self.assertEqual((status, err.count("\n")), (0, 1), err)
            self.assertTrue(err.startswith(f"nfot-py {words[0]}: {late} is no equilibrium: C3 doesn't hold for t at 2: the report has 7, and 5 is right"), err)
        for words in (["times", net, good, 1], ["queues", net, good], ["series", net, good]):
            self.assertEqual(self.run_tool(*words)[2], "")

    def test_not_checked(self) -> None:
        """Where the program fails, the tool prints what it has, and says that it couldn't be checked."""
        net, good = self.solved("two.net", 4)
        wanted = self.fine("times", net, good, 1)
        os.chmod(self.write("broken", "#!/bin/sh\nkill -9 $$\n"), 0o755)
        with mock.patch.dict(os.environ, {"NFOT": str(self.folder / "broken")}):
            self.assertEqual(self.run_tool("times", net, good, 1), (0, wanted, "nfot-py times: two.report wasn't checked: nfot check was ended by the signal SIGKILL\n"))


class Queues(Results):
    def test_longest_first(self) -> None:
        """The corridor's waits as docs/GUIDE.md has them; on the bridge 680 cars wait from 71 on, and the queue is gone at 129."""
        net, report = self.solved("corridor.net", 160)
        self.fine("queues", net, report, "--clock", "6:00", "--csv", "queues.csv")
        rows = self.rows("queues.csv")
        self.assertEqual([(row["link"], f"{float(row['longest wait']):.2f}") for row in rows], [("bridge", "17.00"), ("approach", "7.20"), ("main", "6.17"), ("alley", "2.17")])
        self.assertEqual(rows[0], {"link": "bridge", "from": "06:37", "until": "08:09", "longest wait": "17", "at": "07:11", "vehicles": "680"})
        self.assertEqual(len(self.fine("queues", net, report, "--top", 1).splitlines()), 2)
        self.refused(2, "argument --top: 0 is no whole number above 0", "queues", net, report, "--top", 0)

    def test_longer_than_the_road(self) -> None:
        """The bridge of bridge.net has 140 metres, so 20 vehicles of 7 metres: its queue grows by 2 a minute, and is longer from 10 on."""
        self.write("names.csv", "id,kind,name,line,km,lanes\nhome,node,Zuhause,,,\nbridge,link,Brücke,2,0.14,1\nbay,link,Bucht,3,,\n")
        out = self.fine("queues", *self.solved("bridge.net", 60), "--names", "names.csv").splitlines()
        self.assertEqual([out[0].split("  ")[-1], out[1].split()], ["too long from", "bridge 0.00 end of report 20.00 20.00 40.00 Brücke 20.00 10.00".split()])

    def test_a_row_for_each_stretch(self) -> None:
        """A capacity of 1 takes 2 a minute up to 4, so 4 wait then, until 8; and 3 a minute from 30 to 35, so 10 wait then, until 45."""
        self.write("twice.net", "nfot 2\nsource s\nsink t\nlink a s t 1 1\ninflow 0 2\ninflow 4 0\ninflow 30 3\ninflow 35 0\nend\n")
        self.write("names.csv", "id,kind,name,line,km,lanes\na,link,Allee,2,0.035,1\n")
        net, report = self.solved("twice.net", 50)
        out = self.fine("queues", net, report, "--names", "names.csv").splitlines()
        self.assertEqual([line.split() for line in out[1:]], [["a", "30.00", "45.00", "10.00", "35.00", "10.00", "Allee", "5.00", "32.50"],
                                                              ["a", "0.00", "8.00", "4.00", "4.00", "4.00", "Allee", "5.00"]])
        self.fine("queues", net, report, "--csv", "queues.csv")
        self.assertEqual([(row["from"], row["until"], row["longest wait"]) for row in self.rows("queues.csv")], [("30", "45", "10"), ("0", "8", "4")])
        run = nfot.read_report(report, net)
        self.assertEqual([(queue.spans, queue.wait) for queue in nfot.queues_of(run)], [([(0, 8), (30, 45)], 10)])
        self.assertEqual([(queue.spans, queue.wait, queue.time) for queue in nfot.queues_of(run, stretches=True)], [([(0, 8)], 4, 4), ([(30, 45)], 10, 35)])

    def test_none(self) -> None:
        self.write("free.net", "nfot 2\nsource s\nsink t\nlink a s t 1 inf\ninflow 0 3\nend\n")
        self.assertEqual(self.fine("queues", *self.solved("free.net", 2)), "no link has a queue\n")


class Series(Results):
    def test_two_scenarios(self) -> None:
        """The queue of bridge.net grows by 2 a minute up to 40; with a capacity of 4 there is none."""
        self.write("wide.net", (EXAMPLES / "bridge.net").read_text().replace("home work 10 2", "home work 10 4"))
        pairs = [*self.solved("bridge.net", 60), *self.solved("wide.net", 60)]
        self.fine("series", *pairs, "--link", "bridge", "--every", 10, "--clock", "7:30", "--csv", "bridge.csv")
        rows = self.rows("bridge.csv")
        self.assertEqual([row["bridge queue"] for row in rows], ["0", "20", "40", "40", "40", "40", "40"])
        self.assertEqual({row["wide queue"] for row in rows}, {"0"})
        self.assertEqual([row["clock"] for row in rows][:3], ["07:30", "07:40", "07:50"])
        out = self.fine("series", *pairs, "--link", "bridge", "--every", 30, "--show", "in,out,wait").split()
        self.assertEqual(out[:13], ["time", "bridge", "in", "bridge", "out", "bridge", "wait", "wide", "in", "wide", "out", "wide", "wait"])
        self.assertEqual(out[13:20], ["0.00", "100.00", "40.00", "0.00", "120.00", "80.00", "0.00"])  # 4 a minute for 20, then 2; 2 a minute from 10 on

    def test_travel_times(self) -> None:
        out = self.fine("series", *self.solved("paradox.net", 60), *self.solved("paradox-closed.net", 60), "--every", 30).split()
        self.assertEqual(out, ["time", "paradox", "takes", "paradox-closed", "takes", "0.00", "3.00", "11.00", "30.00", "19.00", "11.00", "60.00", "19.00", "11.00"])

    def test_faults(self) -> None:
        pair = self.solved("bridge.net", 60)
        for words, status, wanted in [((*pair, "--link", "tunnel"), 1, "no scenario has a link tunnel"), ((*pair, pair[0]), 2, "each scenario is a pair"),
                                      ((*pair, *pair), 2, "a report is named twice"), ((*pair, "--link", "bridge", "--show", "speed"), 2, "speed is none of the columns"),
                                      ((*pair, "--every", "1e-9"), 2, "make more than 1000000 rows")]:
            self.refused(status, wanted, "series", *words)

    def test_idle_link(self) -> None:
        """A link of the network that no walk from the source reaches has no curves."""
        self.write("idle.net", "nfot 2\nsource s\nsink t\nlink a s t 1 1\nlink x u t 1 1\ninflow 0 1\nend\n")
        pair = self.solved("idle.net", 2)
        self.refused(1, "the link x is idle: no walk from the source reaches it", "series", *pair, "--link", "x")
        self.refused(1, "no scenario has a link y", "series", *pair, "--link", "y")


class Compare(Results):
    def test_braess(self) -> None:
        """Until 8 the new road helps, by 8 - departure; from 16 on it costs 8. Of 240 vehicles 4 a minute leave."""
        pairs = self.solved("paradox.net", 60) + self.solved("paradox-closed.net", 60)
        out = self.fine("compare", *pairs, "0", "30")
        rows = [line.split() for line in out.splitlines()]
        self.assertEqual(rows[1:6], [["leave", "0.00", "3.00", "11.00", "+8.00"], ["leave", "30.00", "19.00", "11.00", "-8.00"], ["a", "vehicle,", "mean", "16.87", "11.00", "-5.87"],
                                     ["a", "vehicle,", "longest", "19.00", "11.00", "-8.00"], ["all", "together,", "hours", "67.47", "44.00", "-23.47"]])
        self.assertEqual(out.splitlines()[6:], ["lose: 32.0 vehicles, 4.00 on average, at most 8.00 (leave 0.00); they leave 0.00 to 8.00",
                                                "gain: 208.0 vehicles, 7.38 on average, at most 8.00 (leave 16.00); they leave 8.00 to 60.00"])
        self.fine("compare", *pairs, "--every", 30, "--clock", "6:00", "--csv", "braess.csv")
        self.assertEqual(self.rows("braess.csv")[1], {"clock": "06:30", "leave": "30", "first": "19", "second": "11", "change": "-8"})

    def test_same_and_other_supply(self) -> None:
        """With 2 a minute nobody waits, so each of the 120 who leave at the same time in both takes 10."""
        bridge = self.solved("bridge.net", 60)
        self.assertEqual(self.fine("compare", *bridge, *bridge).splitlines()[-2:], ["lose: nobody", "gain: nobody"])
        self.write("less.net", (EXAMPLES / "bridge.net").read_text().replace("inflow 0 4", "inflow 0 2"))
        out = self.fine("compare", *bridge, *self.solved("less.net", 60)).splitlines()
        self.assertEqual(out[-3:], ["the supplies differ: 240.0 and 120.0 vehicles; of those, 120.0 leave at the same time in both cases", "lose: nobody",
                                    "gain: 120.0 vehicles, 16.67 on average, at most 20.00 (leave 20.00); they leave 0.00 to 60.00"])

    def test_reports_of_other_lengths(self) -> None:
        out = self.fine("compare", *self.solved("bridge.net", 60), EXAMPLES / "bridge.net", self.shorter()).splitlines()
        self.assertEqual(out[0], "both are cut at departure 30.00, where short.report ends")

    def shorter(self) -> str:
        """A report of bridge.net up to 30."""
        return self.write("short.report", nfot.solve(EXAMPLES / "bridge.net", 30).text())

    def test_faults_name_the_word(self) -> None:
        bridge = self.solved("bridge.net", 60)
        for words, status, wanted in [((*bridge, EXAMPLES / "two.net", bridge[1]), 1, "is no report of"), ((*bridge, *bridge, "61"), 1, "not 61"),
                                      ((*bridge, *bridge, "x"), 2, "x is no number"),
                                      ((bridge[0], "-", bridge[0], "-"), 2, "only one of the files"), (bridge, 2, "required: NET2, REPORT2")]:
            self.refused(status, wanted, "compare", *words)


class Bottlenecks(Results):
    def test_cut(self) -> None:
        """Of 240 cars at least time 71: su and vt count for 60 minutes, at 2 a minute."""
        quick = "quick 71\nwalk 2 su ut\nwalk 2 sv vt\ncut s 0\ncut t 71\ncut u 61\ncut v 10\nvalue 240\nequilibrium 79\n"
        wanted = "su: 2 a minute for 60.00 minutes, 120.0\nvt: 2 a minute for 60.00 minutes, 120.0\n"
        self.assertEqual(self.fine("cut", EXAMPLES / "paradox.net", stdin=quick), wanted)
        self.assertEqual(self.fine("cut", EXAMPLES / "paradox.net", "--amount", 240), wanted)
        self.fine("cut", EXAMPLES / "paradox.net", "--amount", 240, "--csv", "cut.csv")
        self.assertEqual(self.rows("cut.csv")[1], {"link": "vt", "capacity": "2", "minutes": "60", "amount": "120"})
        self.refused(1, "standard input has no lines `cut`", "cut", EXAMPLES / "paradox.net", stdin="quick 71\n")
        self.refused(2, "standard input line 1: a line `cut` has a node and a number", "cut", EXAMPLES / "paradox.net", stdin="cut s\n")

    def test_bottleneck(self) -> None:
        """Two roads of 1 a minute, supplied with 3: the slope is 3/2, so travel times grow by 30 minutes an hour."""
        wanted = "a: capacity 1\nb: capacity 1\ntogether 2, supplied 3\ntravel times grow by 30 minutes an hour\n"
        forever = "forever 1\nslope s 1\nslope t 3/2\n"
        self.assertEqual(self.fine("bottleneck", EXAMPLES / "two.net", "-", stdin=forever), wanted)
        self.assertEqual(self.fine("bottleneck", EXAMPLES / "two.net"), wanted)
        self.fine("bottleneck", EXAMPLES / "two.net", "--csv", "links.csv")
        self.assertEqual(self.rows("links.csv"), [{"link": "a", "capacity": "1"}, {"link": "b", "capacity": "1"}])
        self.assertEqual(self.fine("bottleneck", EXAMPLES / "bridge.net"), "travel times settle: the slope of the sink is 1\n")
        self.refused(1, "other nodes", "bottleneck", EXAMPLES / "bridge.net", "-", stdin=forever)
        self.refused(1, "aren't those of this network", "bottleneck", EXAMPLES / "two.net", "-", stdin=forever.replace("3/2", "5/2"))
        for text, why in (("forever 1\n", "has no slopes: the run stopped"), ("quick 71\ncut s 0\n", "is the output of `nfot quick`, whose links `nfot-py cut`"),
                          ("report 1\n", "is a report"), ("\n", "has no slopes: this tool takes the output of `nfot solve NET --forever`")):
            self.refused(1, f"standard input {why}", "bottleneck", EXAMPLES / "two.net", "-", stdin=text)


class Library(Results):
    def run_of(self, net: str, horizon: int) -> nfot.Report:
        """The report of an example, with its network."""
        return nfot.read_report(*reversed(self.solved(net, horizon)))

    def test_table(self) -> None:
        rows = nfot.table(self.run_of("bridge.net", 60), every=20, links=["bridge"], clock="6:00")
        self.assertEqual(rows[1], {"time": 20, "clock": "06:20", "arrive": 50, "takes": 30, "bridge queue": 40, "bridge wait": 20, "bridge in": 40, "bridge out": 40})
        self.assertEqual((len(rows), [row["time"] for row in rows], rows[3]["bridge in"]), (4, [0, 20, 40, 60], None))
        self.assertIsInstance(rows[0]["arrive"], Fraction)
        rows.csv("table.csv")
        self.assertEqual(self.rows("table.csv")[3]["bridge in"], "")
        with self.assertRaisesRegex(nfot.OutOfRange, "tunnel"):
            nfot.table(self.run_of("bridge.net", 60), links=["tunnel"])

    def test_columns_that_are_picked(self) -> None:
        run = self.run_of("bridge.net", 60)
        self.assertEqual(nfot.table(run, every=60, show=["in"]).columns, ("time", "bridge in", "bay in"))
        self.assertEqual([dict(row) for row in nfot.table(run, every=30, links="bay", show=("in", "takes"))],
                         [{"time": 0, "takes": 10, "bay in": 20}, {"time": 30, "takes": 30, "bay in": 60}, {"time": 60, "takes": 30, "bay in": None}])
        self.assertEqual(nfot.table(run, every=60, show="takes").columns, ("time", "takes"))
        for wrong in (["inflow"], "inflow"):
            with self.assertRaisesRegex(nfot.Refused, "inflow is none of the columns: arrive, takes, queue, wait, in, out"):
                nfot.table(run, show=wrong)
        idle = nfot.network_of("nfot 2\nsource s\nsink t\nlink a s t 1 2\nlink b u t 1 2\ninflow 0 2\nend\n")
        with self.assertRaisesRegex(nfot.OutOfRange, "the link b is idle"):
            nfot.table(nfot.solve(idle, 2), links=idle.links)

    def test_compare(self) -> None:
        net, other = (nfot.read_network(EXAMPLES / name) for name in ("paradox.net", "paradox-closed.net"))
        found = nfot.compare(net, self.run_of("paradox.net", 60), other, self.run_of("paradox-closed.net", 60))
        self.assertEqual((found.lose.vehicles, found.gain.vehicles, found.gain.mean, found.gain.spans), (32, 208, Fraction(96, 13), ((8, 60),)))
        self.assertEqual((found.until, found.takes(Fraction(30)), found.total, found.same_supply), (60, (19, 11), (4048, 2640), True))
        with self.assertRaisesRegex(nfot.Fault, "the second report is none of its network"):
            nfot.compare(net, self.run_of("paradox.net", 60), net, self.run_of("paradox-closed.net", 60))

    def test_frame(self) -> None:
        rows = nfot.table(self.run_of("two.net", 4), every=1)
        try:
            import pandas
        except ImportError:
            with self.assertRaisesRegex(nfot.Fault, "pandas isn't installed"):
                rows.frame()
            self.skipTest("pandas isn't installed")
        frame: Optional[pandas.DataFrame] = rows.frame()
        assert frame is not None
        self.assertEqual(list(frame["takes"]), [1.0, 3.0, 3.5, 4.0, 4.5])


if __name__ == "__main__":
    unittest.main()
