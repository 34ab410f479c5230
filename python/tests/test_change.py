"""`nfot-py change`: other capacities, times and links, and a later begin of the supply."""
from __future__ import annotations

from fractions import Fraction

import nfot

from .tooling import EXAMPLES, Case


class Change(Case):
    def test_changes(self) -> None:
        net = EXAMPLES / "bridge.net"
        status, out, err = self.run_tool("change", net, "--capacity", "bridge=2.5", "--time", "bridge=9", "--capacity", "bay=inf")
        self.assertEqual(status, 4)  # a file of version 1 has no inf
        status, out, err = self.run_tool("change", net, "--capacity", "bridge=2.5", "--time", "bridge=9", "--without", "bay")
        self.assertEqual((status, err.splitlines()), (0, ["change: capacity of bridge: 2 becomes 2.5", "change: time of bridge: 10 becomes 9", "change: bay is left out"]))
        self.assertEqual(nfot.network_of(out), nfot.read_network(net).without("bay").with_link(nfot.Link("bridge", "home", "work", 9, "5/2")))

    def test_what_changes_nothing(self) -> None:
        for words, status, wanted in [(["--capacity", "bridge=2.0"], 1, "the capacity of bridge is 2.0 already"), (["--capacity", "brigde=3"], 1, "(the nearest name is bridge)"),
                                      ([], 2, "say what changes"), (["--time", "bridge"], 2, "bridge is no LINK=VALUE"), (["--without", "Bay"], 1, "(the nearest name is bay)"),
                                      (["--time", "bay=inf"], 2, "inf is no number"), (["--capacity", "bay=0"], 4, "isn't above 0")]:
            self.refused(status, wanted, "change", EXAMPLES / "bridge.net", *words)

    def test_a_begin_as_a_time_of_day(self) -> None:
        """With --clock it is one; without it 7:17 is read as minutes, and that is said. The bridge has supply from 0 to 60."""
        net = EXAMPLES / "bridge.net"
        for words in (["7:17", "--clock", "7:00"], ["17"]):
            status, out, err = self.run_tool("change", net, "--begin", *words)
            self.assertEqual((status, err), (0, "change: the supply begins at 17\n"))
            self.assertEqual(nfot.network_of(out).supply, ((17, 4), (60, 0)))
        self.refused(1, "nobody leaves after 437 (7:17 without --clock is minute 437), so no supply would be left", "change", net, "--begin", "7:17")
        self.assertIn("0:17 is minute 17 of the run; for times of day give --clock", self.run_tool("change", net, "--begin", "0:17")[2])
        self.refused(2, "--begin 6:00 isn't after minute 0", "change", net, "--begin", "6:00", "--clock", "7:00")

    def test_tools_without_a_clock(self) -> None:
        """They say once as which minute a time of day is read."""
        net = EXAMPLES / "two.net"
        for words in (["thin", net, "0:02"], ["judge", net, EXAMPLES / "late.loads", "0:02"], ["solve-on", net, "--horizon", "0:02"]):
            status, _, err = self.run_tool(*words)
            self.assertEqual((status, err), (0, "nfot-py: 0:02 is minute 2 of the run\n"))

    def test_a_later_begin(self) -> None:
        status, out, err = self.run_tool("change", EXAMPLES / "bridge.net", "--begin", "12.5")
        self.assertEqual((status, err), (0, "change: the supply begins at 12.5\n"))
        self.assertEqual(nfot.network_of(out).supply, ((Fraction(25, 2), 4), (60, 0)))
        self.refused(1, "nobody leaves before 12.5", "change", "-", "--begin", "12.5", stdin=out)
