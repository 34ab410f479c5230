"""Reports of flows of others, against the program's own loading of links and routes, and gaps against what drivers lose."""
import random
import time
import unittest
from fractions import Fraction
from typing import Dict, List, Mapping, Optional, Tuple

import nfot
from nfot.judging import Loads
from nfot.program import program

from .cases import EXAMPLES, Case, example, pairs, random_network

Pieces = List[Tuple[Fraction, Fraction]]
Routes = Dict[str, Tuple[List[str], Pieces]]
COUNT = 12 if program().proved else 3
SPLIT: Loads = {"a": [(0, 3), (1, "3/2"), (4, 0)], "b": [(1, "3/2"), (4, 0)]}  # the equilibrium of two.net, for those who leave by 4
LATE: Loads = {"a": [(0, 3), (2, "3/2"), (4, 0)], "b": [(2, "3/2"), (4, 0)]}  # drivers look every two minutes


def random_pieces(rng: random.Random, most: int) -> Pieces:
    """Up to so many pieces, at different starts."""
    starts = sorted(rng.sample(range(0, 30), rng.randint(0, most)))
    return [(Fraction(start, 2), Fraction(rng.randint(0, 12), rng.choice([1, 2, 3]))) for start in starts]


def random_route(rng: random.Random, net: nfot.Network) -> Optional[List[str]]:
    """A walk from source to sink of at most six different links, or None."""
    for _ in range(10):
        at = net.source
        links: List[str] = []
        while len(links) < 6 and (at != net.sink or rng.random() < 0.3):
            out = [link for link in net.used_links() if link.tail == at and link.name not in links]
            if not out:
                break
            links.append(rng.choice(out).name)
            at = net.links[links[-1]].head
        if at == net.sink:
            return links
    return None


def random_routes(rng: random.Random, net: nfot.Network, pieces: int) -> Optional[Routes]:
    """Up to four routes of which no links follow each other round a cycle, or None."""
    routes: Routes = {}
    for number in range(rng.randint(1, 4)):
        links = random_route(rng, net)
        if links:
            routes[f"r{number}"] = (links, random_pieces(rng, pieces))
    try:
        nfot.report_of_routes(net, routes, 1)
    except nfot.Refused as fault:
        assert fault.rule == "G17", fault
        return None
    return routes or None


def slopes_of(report: nfot.Report, link: str) -> Pieces:
    """What enters a link of a report, as pieces, nothing after the end."""
    inflow = report.inflow(link)
    return [(start, slope) for start, _, _, slope in inflow.pieces()] + [(inflow.until, Fraction(0))]


class Links(Case):
    def agrees(self, curve: nfot.Curve, other: nfot.Curve) -> None:
        """Both are the same as far as both are known, and both are known somewhere after 0."""
        until = min(curve.until, other.until)
        self.assertEqual(curve.cut(until), other.cut(until))

    def test_queues_outflows_and_exits_are_those_of_load(self) -> None:
        rng = random.Random(21)
        for _ in range(COUNT):
            net = random_network(rng)
            loads = {link.name: random_pieces(rng, 5) for link in net.used_links()}
            found, horizon = nfot.report_of_flows(net, loads, 6), Fraction(rng.randint(16, 40))
            wanted = nfot.load(net, loads, horizon)
            for link in net.used_links():
                with self.subTest(net=net.text(), loads=loads, link=link.name):
                    self.agrees(found.queue(link.name), wanted.queues[link.name])
                    self.agrees(found.outflow(link.name), wanted.outflows[link.name])
                    waits = found.waits(link.name)
                    for moment in range(0, int(min(horizon, waits.until)) + 1):
                        self.assertEqual(moment + link.transit + waits(moment), wanted.exits[link.name](moment))

    def test_the_checker_finds_no_fault_with_labels_queues_and_outflows(self) -> None:
        """So `check` answers by conservation alone: C6 or C7."""
        rng = random.Random(22)
        rules = set()
        for _ in range(COUNT):
            net = random_network(rng)
            verdict = nfot.check(net, nfot.report_of_flows(net, {link.name: random_pieces(rng, 3) for link in net.used_links()}, 5))
            rules.add(verdict.rule)
        self.assertLessEqual(rules, {None, "C6", "C7"})

    def test_an_equilibrium_comes_back(self) -> None:
        rng = random.Random(23)
        for _ in range(COUNT):
            net = random_network(rng)
            run = nfot.solve(net, rng.choice([3, 9]))
            report = nfot.report_of_flows(net, {link.name: slopes_of(run, link.name) for link in net.used_links()}, run.reached)
            self.assertEqual(dict(report.labels), dict(run.labels))
            self.assertTrue(nfot.check(net, report))
            self.assertEqual(nfot.gap(net, report).gap, 0)

    def test_two_roads(self) -> None:
        """docs/FORMATS.md, *The report*: the report of the first network of the page up to 4."""
        report = nfot.report_of_flows(example("two"), SPLIT, 4)
        self.assertEqual(report.label("t").points, tuple(pairs((0, 1), (1, 4), (4, "17/2"))))
        self.assertEqual(report.queue("a").cut(4).points, tuple(pairs((0, 0), (1, 2), (4, "7/2"))))
        self.assertEqual(report.outflow("b").cut("17/2").points, tuple(pairs((0, 0), (4, 0), ("17/2", "9/2"))))
        self.assertEqual(report, nfot.report_of(report.text(), net=example("two")))

    def test_faults(self) -> None:
        net = example("two")
        for loads, wanted in [({"a": [(0, -1)]}, "link a: the rate -1 from 0 on has a negative number"), ({"a": [(1, 1), (1, 2)]}, "start 1 isn't above"),
                              ({"a": [(0, 0.5)]}, "0.5 is a float"), ({"z": []}, "no link z")]:
            self.faulted(nfot.Fault, wanted, nfot.report_of_flows, net, loads, 4)
        self.faulted(nfot.Refused, "departure -1 is below 0", nfot.report_of_flows, net, SPLIT, -1)

    def test_speed(self) -> None:
        """200 pieces on each of the 76 links of Sioux Falls within some seconds, and 2,000 on those out of one node."""
        net, rng = example("siouxfalls"), random.Random(24)
        loads = {link.name: [(Fraction(number, 2), Fraction(rng.randint(0, int(link.capacity or 0) * 6 // 5))) for number in range(200)]
                 for link in net.used_links()}
        begin = time.process_time()
        report = nfot.report_of_flows(net, loads, 60)
        self.assertGreater(len(report.text()), 10 ** 6)
        self.assertLess(time.process_time() - begin, 6)
        loads = {name: [(Fraction(number, 20), Fraction(rng.randint(0, 400))) for number in range(2000)] for name in ("1-2", "2-6", "6-8", "8-16")}
        begin = time.process_time()
        nfot.report_of_flows(net, loads, 60)
        self.assertLess(time.process_time() - begin, 5)


class Along(Case):
    def test_routes_are_those_of_the_program(self) -> None:
        rng = random.Random(31)
        seen = 0
        while seen < COUNT:
            net = random_network(rng)
            routes = random_routes(rng, net, 4)
            if not routes:
                continue
            seen += 1
            horizon = rng.choice([4, 10, 16])
            found, wanted = nfot.report_of_routes(net, routes, horizon), nfot.routes(net, routes, horizon)
            with self.subTest(net=net.text(), routes=routes, horizon=horizon):
                for link in net.used_links():
                    for here, there in (found.queue(link.name), wanted.queues[link.name]), (found.outflow(link.name), wanted.outflows[link.name]):
                        until = min(here.until, there.until)
                        self.assertEqual(here.cut(until), there.cut(until))
                for links, travel in ((routes[name][0], travel) for name, travel in wanted.travels.items()):
                    for departure in range(horizon + 1):
                        self.assertLessEqual(found.arrival(departure), travel(departure), links)

    def test_single_routes_have_the_gap_of_their_travel_times(self) -> None:
        """With the routes' rates as supply: what is spent is what `routes` says of each departure; the greatest loss is not below that of any route."""
        rng, count, positive = random.Random(32), 0, 0
        while count < 2 * COUNT or positive < COUNT // 2:
            net, count = random_network(rng), count + 1
            routes = random_routes(rng, net, 2)
            if not routes:
                continue
            net = net.with_supply(nfot.supply_of(routes, 12))
            report, carried = nfot.report_of_routes(net, routes, 12), nfot.routes(net, routes, 12)
            found, verdict = nfot.gap(net, report), nfot.check(net, report)
            spent, loss = self.of_travels(report, routes, carried.travels)
            self.assertEqual(found.spent, spent, (net.text(), routes))
            self.assertGreaterEqual(found.worst.time, loss)
            self.assertEqual((found.gap == 0, found.worst.time == 0, found.worst.departure is None), (bool(verdict),) * 3)
            self.assertEqual(found.gap, found.spent - found.best)
            positive += found.gap > 0

    def of_travels(self, report: nfot.Report, routes: Routes, travels: Mapping[str, nfot.Curve]) -> Tuple[Fraction, Fraction]:
        """Time spent and greatest loss on the routes themselves, from the travel lines of `nfot routes`."""
        spent = loss = Fraction(0)
        for name, (_, pieces) in routes.items():
            for (start, rate), (stop, _) in zip(pieces, [*pieces[1:], (Fraction(12), 0)]):
                end = min(stop, Fraction(12))
                if start >= end or not rate:
                    continue
                travel = travels[name]
                spent += rate * (travel.integral(start, end) - (end * end - start * start) / 2)
                label = report.label(report.network.sink) if report.network else travel
                corners = {start, end, *(time for curve in (travel, label) for time, _ in curve.points if start < time < end)}
                loss = max([loss, *(travel(time) - label(time) for time in corners)])
        return spent, loss

    def test_supply_of_routes(self) -> None:
        """By hand: 1, then 3, then 2 a minute, until the horizon."""
        routes: Routes = {"x": (["a"], pairs((0, 1), (2, 0))), "y": (["b"], pairs((1, 2), (9, 5)))}
        self.assertEqual(nfot.supply_of(routes, 8), pairs((0, 1), (1, 3), (2, 2), (8, 0)))

    def test_shared_queue(self) -> None:
        """examples/merge.net by hand: z of capacity 1 takes 1 a minute from 1 on, 2 from 2 to 3, and 1 until 4: 1 waits from 3 to 4."""
        net = example("merge")
        report = nfot.report_of_routes(net, nfot.read_routes(EXAMPLES / "merge.routes", net), 2)
        self.assertEqual(report.queue("z").tidy().points[:5], tuple(pairs((0, 0), (2, 0), (3, 1), (4, 1), (5, 0))))

    def test_faults(self) -> None:
        net = example("merge")
        for links, wanted in [(["z"], "route r takes z at "), (["p"], "route r ends at "), ([], "route r ends at s"), (["x"], "no link x")]:
            self.faulted(nfot.Fault, wanted, nfot.report_of_routes, net, {"r": (links, [(0, 1)])}, 2)
        self.faulted(nfot.Refused, "route r: start 1 isn't above", nfot.report_of_routes, net, {"r": (["p", "z"], [(1, 1), (1, 2)])}, 2)
        round_trip = nfot.Network("s", "t", [nfot.Link("a", "s", "v", 1, 1), nfot.Link("b", "v", "w", 1, 1), nfot.Link("c", "w", "v", 1, 1),
                                             nfot.Link("d", "v", "t", 1, 1), nfot.Link("e", "s", "w", 1, 1)], [(0, 1)])
        fault = self.faulted(nfot.Refused, "round a cycle: ", nfot.report_of_routes, round_trip,
                             {"x": (["a", "b", "c", "d"], [(0, 1)]), "y": (["e", "c", "b", "c", "d"], [(0, 1)])}, 2)
        self.assertEqual((fault.rule, fault.status), ("G17", 4))


class Gaps(Case):
    def test_toll(self) -> None:
        """docs/PROGRAMS.md: under the toll 4,800 minutes are spent, and the best is 2,400; who takes the bay loses 20 minutes."""
        net = example("bridge")
        report = nfot.report_of_flows(net, {"bridge": [(0, 2), (60, 0)], "bay": [(0, 2), (60, 0)]}, 60)
        found = nfot.gap(net, report)
        self.assertEqual((found.spent, found.best, found.gap, found.relative, found.worst), (4800, 2400, 2400, 1, (20, 0)))
        self.assertEqual(str(found), "spent 4800.00  best 2400.00  gap 2400.00  relative 1.0000  worst 20.00 (leave 0.00)")

    def test_late_drivers(self) -> None:
        """By hand: who leaves just before 2 takes a, waits 4 minutes and arrives at 7; b would have been 5."""
        found = nfot.gap(example("two"), nfot.report_of_flows(example("two"), LATE, 4))
        self.assertEqual((found.worst, found.spent, found.best), ((2, 2), 45, 36))

    def test_zero_for_solved_runs_and_positive_for_those_of_smaller_networks(self) -> None:
        """The equilibrium of a network without some links, judged in the whole one: no gap exactly where `check` says yes."""
        rng = random.Random(41)
        told: List[bool] = []
        while len(told) < COUNT or all(told):
            net = random_network(rng)
            run = nfot.solve(net, 6)
            self.assertEqual(nfot.gap(net, run).gap, 0)
            try:
                part = net.without(rng.choice(list(net.links)))
                flows = nfot.solve(part, 6)
            except nfot.Refused:
                continue
            report = nfot.report_of_flows(net, {name: slopes_of(flows, name) for name in flows.inflows}, 6)
            verdict, found = nfot.check(net, report), nfot.gap(net, report)
            self.assertIn(verdict.rule, (None, "C7"))
            self.assertEqual((found.gap > 0, found.worst.time > 0), (not verdict, not verdict), net.text())
            self.assertLessEqual(found.gap, found.worst.time * net.supplied(6))
            told.append(bool(verdict))

    def test_small_gaps_are_never_printed_as_zero(self) -> None:
        """One of 10^9 drivers a minute takes the longer road."""
        net = example("two").with_supply([(0, 1)])
        small = Fraction(1, 10 ** 9)
        report = nfot.report_of_flows(net, {"a": [(0, 1 - small), (4, 0)], "b": [(0, small), (4, 0)]}, 4)
        found = nfot.gap(net, report)
        self.assertEqual((found.gap, found.worst), (8 * small, (2, 0)))
        self.assertIn("gap 8E-9  relative 2E-9  worst 2.00 (leave 0.00)", str(found))

    def test_flow_that_has_none(self) -> None:
        net = example("two")
        self.faulted(nfot.Fault, "12 come to s in all and 24 leave it, at other rates from time 4 on", nfot.gap, net,
                     nfot.report_of_flows(net, {"a": [(0, 3), (1, "3/2"), (8, 0)], "b": [(1, "3/2"), (8, 0)]}, 4))
        fault = self.faulted(nfot.Fault, "all rules but C7 has a gap: C6", nfot.gap, net, nfot.report_of_flows(net, {"a": [(0, 3), (4, 0)], "b": [(1, 3)]}, 4))
        self.assertEqual(fault.status, 1)

    def test_no_supply(self) -> None:
        net = example("two").with_supply([])
        found = nfot.gap(net, nfot.solve(net, 4))
        self.assertEqual((found.spent, found.gap, found.relative, found.worst), (0, 0, 0, (0, None)))


if __name__ == "__main__":
    unittest.main()
