"""The package against the program, on random networks: written, solved, read back, checked."""
import random
import unittest
from fractions import Fraction

import nfot
from nfot.program import program

from .cases import Case, random_network

COUNT = 100 if program().proved else 9


class Networks(Case):
    def setUp(self) -> None:
        self.rng = random.Random(76)

    def test_reports_are_read_back_and_checked(self) -> None:
        for _ in range(COUNT):
            net = random_network(self.rng)
            run = nfot.solve(net, self.rng.randint(0, 12))
            self.assertEqual(nfot.report_of(run.text(), net=net), run)
            self.assertEqual(nfot.report_of(run.text()).text(), run.text())
            self.assertTrue(nfot.check(net, run))
            self.assertIsNone(nfot.mismatch(net, run))
            self.assert_amounts(net, run)

    def assert_amounts(self, net: nfot.Network, run: nfot.Report) -> None:
        """What is supplied leaves the source; queues and waits are those of the curves; travel times are no less than on empty roads."""
        out = sum((run.inflow(link.name)(run.reached) for link in net.used_links() if link.tail == net.source), Fraction(0))
        back = sum((run.outflow(link.name)(run.reached) for link in net.used_links() if link.head == net.source), Fraction(0))
        self.assertEqual(out - back, net.supplied(run.reached))
        for link in net.used_links():
            queue, end = run.queue(link.name), run.label(link.tail)(run.reached)
            self.assertEqual(queue.until, end)
            self.assertGreaterEqual(queue.least_value()[1], 0)
            if link.capacity is not None:
                exits = run.waits(link.name) + nfot.Curve([(0, link.transit), (end, link.transit + end)] if end else [(0, link.transit)])
                arrivals = run.label(link.tail).then(exits)
                self.assertEqual(arrivals.least(run.label(link.head)), run.label(link.head))

    def test_other_capacity_is_another_report(self) -> None:
        for _ in range(COUNT // 3):
            net = random_network(self.rng)
            run = nfot.solve(net, 9)
            queued = [link for link in net.used_links() if link.capacity and run.queue(link.name).greatest()[1] > 0]
            for link in queued[:1]:
                wide = net.with_capacity(link.name, (link.capacity or 1) * 2)
                self.assertFalse(nfot.check(wide, run))
                self.assertIsNotNone(nfot.mismatch(wide, run))


if __name__ == "__main__":
    unittest.main()
