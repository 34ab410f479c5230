"""The tools phases, judge, gap, thin and same."""
import csv
import io
import shutil
import unittest

import nfot

from . import tooling

BRIDGE = "[20, 60) u=4 E'={bridge bay} E*={bridge} x'=(bridge:2 bay:2) l'=(home:1 work:1)"


class Tools(tooling.Case):
    def setUp(self) -> None:
        super().setUp()
        for name in ("bridge.net", "two.net", "merge.net", "merge.routes", "late.loads", "late.report", "tolled.loads", "even.net", "even.flows"):
            shutil.copy(tooling.EXAMPLES / name, name)

    def report(self) -> str:
        """The name of a report of the bridge up to 60."""
        net = nfot.read_network("bridge.net")
        nfot.write_report(nfot.solve(net, 60), "bridge.report")
        return "bridge.report"

    def test_phases(self) -> None:
        lines = self.fine("phases", "bridge.net", self.report()).splitlines()
        self.assertEqual((len(lines), lines[1]), (2, BRIDGE))
        rows = list(csv.DictReader(io.StringIO(self.fine("phases", "bridge.net", "bridge.report", "--csv", "-"))))
        self.assertEqual((rows[1]["start"], rows[1]["active"], rows[0]["flow bridge"], rows[0]["slope work"]), ("20", "bridge bay", "4", "2"))
        self.refused(1, "bridge.report is no report of two.net: other names: 2 nodes and 2 links of the network are not in the report", "phases", "two.net", "bridge.report")

    def test_phases_of_no_equilibrium(self) -> None:
        self.fine("judge", "bridge.net", "tolled.loads", "60", "--out", "tolled.report")
        status, out, err = self.run_tool("phases", "bridge.net", "tolled.report")
        self.assertEqual((status, len(out.splitlines())), (0, 1))
        self.assertIn("is no equilibrium, so a phase may be no thin flow: C7", err)

    def test_judge(self) -> None:
        """docs/PROGRAMS.md: of who left by 2 only 4 are there at the label."""
        self.write("late-judged.report", self.fine("judge", "two.net", "late.loads", 4))
        self.assertEqual(self.fine("judge", "two.net", "-", "4", stdin=(self.folder / "late.loads").read_text()), (self.folder / "late-judged.report").read_text())
        net = nfot.read_network("two.net")
        self.assertEqual(str(nfot.check(net, nfot.read_report("late-judged.report", net))), "no C7 t 2 4 6")
        self.refused(4, "late.loads line 2: L7: the network has no link a", "judge", "bridge.net", "late.loads", "4")
        self.refused(2, "x is no number", "judge", "two.net", "late.loads", "x")

    def test_judge_routes(self) -> None:
        out = self.fine("judge", "merge.net", "merge.routes", 2)
        self.assertIn("queue z 3 1\nqueue z 4 1\nqueue z 5 0\n", out)

    def test_gap(self) -> None:
        self.fine("judge", "bridge.net", "tolled.loads", "60", "--out", "tolled.report")
        self.assertEqual(self.fine("gap", "bridge.net", "tolled.report"), "spent 4800.00  best 2400.00  gap 2400.00  relative 1.0000  worst 20.00 (leave 0.00)\n")
        self.assertEqual(self.fine("gap", "bridge.net", "tolled.report", "--csv", "-"), "spent,best,gap,relative,worst,leaves\n4800,2400,2400,1,20,0\n")
        self.fine("judge", "two.net", "late.loads", 4, "--out", "late-judged.report")
        self.refused(1, "a gap needs the whole way of those who leave by 4", "gap", "two.net", "late-judged.report")
        self.refused(1, "C3 doesn't hold for t at 2", "gap", "two.net", "late.report")

    def test_thin(self) -> None:
        self.assertEqual(self.fine("thin", "even.net", 0, "even.flows"), "yes\n")
        self.assertEqual(self.fine("thin", "bridge.net", "20"), "at 20 " + BRIDGE[9:] + "\n")
        given = "flows 1\nflow bridge 3\nflow bay 1\nslope home 1\nslope work 1\nend\n"
        for more in ([], ["--report", self.report()]):
            status, out, _ = self.run_tool("thin", "bridge.net", "0:30", "-", *more, stdin=given)
            self.assertEqual((status, out), (15, "no: link bridge has flow 3 and the exit slope 3/2 (flow 3 over capacity 2, since the link is resetting), and "
                                                 "a link with flow has the slope of its head work, 1\n"))
        self.refused(1, "departure 61 isn't from 0 to 60", "thin", "bridge.net", "61", "-", "--report", "bridge.report", stdin=given)
        self.refused(4, "standard input line 2: S7", "thin", "two.net", "0", "-", stdin=given)

    def test_same(self) -> None:
        self.assertEqual(self.fine("same", "bridge.net", self.report()), "yes\nopen: the supply: any (after departure 60)\n"
                         "open: the capacity of bay: any of at least 2 (no queue until 60)\n")
        status, out, _ = self.run_tool("same", "two.net", "bridge.report")
        self.assertEqual((status, out.splitlines()), (10, ["no: other names: 2 nodes and 2 links of the network are not in the report",
                                                           "no: other names: 2 nodes and 2 links of the report are not in the network"]))


if __name__ == "__main__":
    unittest.main()
