"""Phases and thin flows with resetting: against the definition, the program's own phases, and values worked out by hand."""
import random
import unittest
from dataclasses import replace
from fractions import Fraction
from typing import Dict, List

import nfot
from nfot.phases import Phase
from nfot.program import program
from nfot.theory import all_broken

from .cases import Case, example, random_network

HALF = Fraction(1, 2)
COUNT = 12 if program().proved else 3


def meets_definition(net: nfot.Network, phase: Phase) -> bool:
    """Whether a phase has a thin flow with resetting for its sets and rate, word by word from docs/MODEL.md (*Thin flows with resetting*)."""
    links, flows, slopes = net.used_links(), phase.flows, phase.slopes
    surplus = {node: Fraction(0) for node in net.nodes()}
    for link in links:
        surplus[link.tail] += flows[link.name]
        surplus[link.head] -= flows[link.name]
    surplus[net.source] -= phase.rate
    surplus[net.sink] += phase.rate
    static = all(amount == 0 for amount in surplus.values()) and all(not flows[link.name] or link.name in phase.active for link in links)
    if not static or min(*flows.values(), *slopes.values()) < 0 or slopes[net.source] != 1:
        return False
    for node in net.nodes():
        into = [link for link in links if link.head == node and link.name in phase.active]
        rhos = {link.name: rho(link, phase) for link in into}
        if node != net.source and (not into or min(rhos.values()) != slopes[node]):
            return False
        if node != net.source and any(flows[name] and rhos[name] != slopes[node] for name in rhos):
            return False
    return True


def rho(link: nfot.Link, phase: Phase) -> Fraction:
    """The exit slope of a link."""
    if link.capacity is None:
        return phase.slopes[link.tail]
    if link.name in phase.resetting:
        return phase.flows[link.name] / link.capacity
    return max(phase.slopes[link.tail], phase.flows[link.name] / link.capacity)


def solved(seed: int, count: int) -> List[nfot.Report]:
    """Runs of random networks."""
    rng = random.Random(seed)
    return [nfot.solve(random_network(rng), rng.choice([3, 8, 14])) for _ in range(count)]


class Random(Case):
    def test_each_phase_meets_the_definition(self) -> None:
        for run in solved(11, 2 * COUNT):
            net = run.network
            assert net is not None
            found = nfot.phases(net, run)
            self.assertEqual([phase.start for phase in found] + [run.reached], [Fraction(0)] + [phase.end for phase in found])
            for phase in found:
                with self.subTest(net=net.text(), phase=str(phase)):
                    self.assertLess(phase.start, phase.end)
                    self.assertTrue(meets_definition(net, phase))
                    self.assertIsNone(nfot.broken(net, phase))
                    self.sets_are_those_of_the_labels(net, run, phase)
                    self.curves_go_on_as_the_phase_says(net, run, phase)

    def sets_are_those_of_the_labels(self, net: nfot.Network, run: nfot.Report, phase: Phase) -> None:
        slack = {link.name: run.label(link.head)(phase.start) - run.label(link.tail)(phase.start) - link.transit for link in net.used_links()}
        self.assertEqual((list(phase.active), list(phase.resetting)), ([e for e in slack if slack[e] >= 0], [e for e in slack if slack[e] > 0]))
        for link in net.used_links():
            waits = run.queue(link.name)(run.label(link.tail)(phase.start))
            self.assertEqual(waits > 0, link.name in phase.resetting)

    def curves_go_on_as_the_phase_says(self, net: nfot.Network, run: nfot.Report, phase: Phase) -> None:
        length = phase.end - phase.start
        for node in net.nodes():
            label = run.label(node)
            self.assertEqual(label(phase.end), label(phase.start) + length * phase.slopes[node])
        for link in net.used_links():
            label, inflow = run.label(link.tail), run.inflow(link.name)
            self.assertEqual(inflow(label(phase.end)), inflow(label(phase.start)) + length * phase.flows[link.name])
        self.assertEqual(net.supplied(phase.end) - net.supplied(phase.start), length * phase.rate)

    def test_as_many_phases_as_the_program_makes(self) -> None:
        """A run of as many phases reaches the horizon, and with one less it ends where the last phase begins."""
        for run in solved(12, COUNT):
            net = run.network
            assert net is not None
            rates = [Fraction(0)] + [rate for _, rate in net.supply]
            found = nfot.phases(net, run)
            if any(before == after for before, after in zip(rates, rates[1:])):
                continue  # the program counts the start of each piece, also where its rate is the one before
            self.assertEqual(nfot.solve(net, run.reached, phases=len(found)).reached, run.reached)
            if len(found) > 1:
                with self.assertRaises(nfot.Stopped) as caught:
                    nfot.solve(net, run.reached, phases=len(found) - 1)
                assert caught.exception.report is not None
                self.assertEqual(caught.exception.report.reached, found[-1].start)

    def test_neighbours_differ(self) -> None:
        for run in solved(13, COUNT):
            assert run.network is not None
            found = nfot.phases(run.network, run)
            for before, after in zip(found, found[1:]):
                self.assertNotEqual(replace(before, start=after.start, end=after.end), after)

    def test_broken_exactly_where_the_definition_fails(self) -> None:
        rng = random.Random(14)
        broken = 0
        for run in solved(14, COUNT):
            net = run.network
            assert net is not None
            for phase in nfot.phases(net, run):
                for _ in range(6):
                    changed = self.changed(rng, phase)
                    self.assertEqual(nfot.broken(net, changed) is None, meets_definition(net, changed), changed)
                    broken += not meets_definition(net, changed)
        self.assertGreater(broken, COUNT)

    def changed(self, rng: random.Random, phase: Phase) -> Phase:
        """The phase with some flows or slopes changed; often along a whole route, so that all is kept but one condition."""
        flows, slopes = dict(phase.flows), dict(phase.slopes)
        values: Dict[str, Fraction] = rng.choice([flows, flows, slopes])
        for name in rng.sample(list(values), min(len(values), rng.choice([1, 1, 2]))):
            values[name] += rng.choice([1, -1, HALF, -HALF, -values[name]])
        return replace(phase, flows=flows, slopes=slopes)

    def test_settle_agrees_at_departure_0(self) -> None:
        """`settle` answers whether flows and slopes are a thin flow at departure 0."""
        rng = random.Random(15)
        answers: Dict[bool, int] = {True: 0, False: 0}
        while min(answers.values()) < COUNT // 3 or sum(answers.values()) < COUNT:
            net = random_network(rng)
            run = nfot.solve(net, 4)
            phase = self.changed(rng, nfot.thin(net, run, 0)) if rng.random() < 0.6 else nfot.thin(net, run, 0)
            if min(*phase.flows.values(), *phase.slopes.values()) < 0:
                continue
            given = nfot.candidate(net, run, 0, phase.flows, phase.slopes)
            try:
                nfot.settle(net, phase.flows, phase.slopes)
                thin = True
            except nfot.Refused:
                thin = False
            self.assertEqual(nfot.broken(net, given) is None, thin)
            answers[thin] += 1

    def test_a_later_departure_of_a_phase_has_its_thin_flow(self) -> None:
        """The flows and slopes of a phase are also a thin flow for the sets within it."""
        for run in solved(16, COUNT):
            assert run.network is not None
            for phase in nfot.phases(run.network, run):
                found = nfot.thin(run.network, run, (phase.start + phase.end) / 2)
                self.assertEqual((found.end, found.flows, found.slopes), (phase.end, phase.flows, phase.slopes))
                self.assertTrue(meets_definition(run.network, found))


class ByHand(Case):
    def lines(self, net: nfot.Network, horizon: int) -> List[str]:
        return [str(phase) for phase in nfot.phases(net, nfot.solve(net, horizon))]

    def test_bridge(self) -> None:
        """4 a minute take the bridge of capacity 2 until the wait is the 20 minutes by which the bay takes longer."""
        self.assertEqual(self.lines(example("bridge"), 60), ["[0, 20) u=4 E'={bridge} E*={} x'=(bridge:4) l'=(home:1 work:2)",
                                                             "[20, 60) u=4 E'={bridge bay} E*={bridge} x'=(bridge:2 bay:2) l'=(home:1 work:1)"])

    def test_braess(self) -> None:
        """docs/STUDIES.md, *A new road that makes it worse*: until 8 all take su, uv, vt; until 16 half of them; then nobody takes uv."""
        self.assertEqual(self.lines(example("paradox"), 60), [
            "[0, 8) u=4 E'={su uv vt} E*={} x'=(su:4 uv:4 vt:4) l'=(s:1 t:2 u:2 v:2)",
            "[8, 16) u=4 E'={su sv uv vt} E*={su} x'=(su:2 sv:2 uv:2 vt:4) l'=(s:1 t:2 u:1 v:1)",
            "[16, 60) u=4 E'={su sv uv ut vt} E*={su vt} x'=(su:2 sv:2 uv:0 ut:2 vt:2) l'=(s:1 t:1 u:1 v:1)"])

    def test_queue_that_grows_empties_and_grows(self) -> None:
        """4 a minute into capacity 2 for 10 minutes, 20 wait; 1 a minute, and it empties at 1 a minute until 30; 4 again from 40 on."""
        net = nfot.Network("s", "t", [nfot.Link("road", "s", "t", 5, 2)], [(0, 4), (10, 1), (40, 4)])
        self.assertEqual(self.lines(net, 50), [
            "[0, 10) u=4 E'={road} E*={} x'=(road:4) l'=(s:1 t:2)", "[10, 30) u=1 E'={road} E*={road} x'=(road:1) l'=(s:1 t:1/2)",
            "[30, 40) u=1 E'={road} E*={} x'=(road:1) l'=(s:1 t:1)", "[40, 50) u=4 E'={road} E*={} x'=(road:4) l'=(s:1 t:2)"])

    def test_link_that_is_active_inactive_and_active(self) -> None:
        """By hand: at 4 the waits are 7/2 and 3/2, and while nobody leaves they shrink with time: b is free at 11/2, a at 15/2."""
        net = example("two").with_supply([(0, 3), (4, 0), (10, 3)])
        phases = nfot.phases(net, nfot.solve(net, 12))
        self.assertEqual([(phase.start, phase.active, phase.resetting) for phase in phases], [
            (0, ("a",), ()), (1, ("a", "b"), ("a",)), (4, ("a", "b"), ("a", "b")), (Fraction(11, 2), ("a", "b"), ("a",)),
            (Fraction(15, 2), ("a",), ()), (10, ("a",), ()), (11, ("a", "b"), ("a",))])
        self.assertEqual([phase.slopes["t"] for phase in phases], [3, 3 * HALF, 0, 0, 1, 3, 3 * HALF])

    def test_equal_rates_begin_no_phase(self) -> None:
        net = example("two").with_supply([(0, 3), (HALF, 3)])
        self.assertEqual([phase.start for phase in nfot.phases(net, nfot.solve(net, 4))], [0, 1])

    def test_no_departures_no_phases(self) -> None:
        self.assertEqual(self.lines(example("two"), 0), [])

    def test_reports_of_others(self) -> None:
        """A label that is given by hand may fall; curves may end where nothing changes any more."""
        net = example("two")
        falling = nfot.Report(4, 4, {"s": [(0, 0), (4, 4)], "t": [(0, 1), (1, 4), (4, 2)]}, {"a": [(4, 12)]}, {"a": [(1, 0), (13, 12)]},
                              {"a": [(4, 8)]}, network=net)
        fault = self.faulted(nfot.Refused, "the label of t falls from departure 1 on", nfot.phases, net, falling)
        self.assertEqual(fault.status, 1)
        self.faulted(nfot.Refused, "none of the network: other names: 2 nodes and 2 links of the network", nfot.phases, example("bridge"), falling)


class Student(Case):
    """A thin flow worked out by hand for `bridge.net` at departure 30: who takes the bridge waits there."""

    def said(self, departure: int, flows: Dict[str, object], slopes: Dict[str, object]) -> List[str]:
        net = example("bridge")
        phase = nfot.candidate(net, nfot.solve(net, departure), departure, flows, slopes)  # type: ignore[arg-type]
        return [f"{fault.condition} {fault.subject}: {fault}" for fault in all_broken(net, phase)]

    def test_right_one(self) -> None:
        self.assertEqual(self.said(30, {"bridge": 2, "bay": "2"}, {"home": 1, "work": 1}), [])
        self.assertEqual(self.said(0, {"bridge": 4}, {"home": 1, "work": 2}), [])

    def test_each_condition(self) -> None:
        one = {"home": 1, "work": 1}
        for departure, flows, slopes, wanted in [
                (30, {"bridge": 2, "bay": 1}, one, "conservation home: at the source home the flow out of it minus the flow into it is 3, and the supply is 4"),
                (30, {"bridge": 5, "bay": -1}, {"home": 1, "work": 1}, "negative bay: the flow of link bay is -1, and no flow is below 0"),
                (30, {"bridge": 2, "bay": 2}, {"home": 2, "work": 1}, "source home: the slope of the source home is 2, and it has to be 1"),
                (30, {"bridge": 2, "bay": 2}, {"home": 1, "work": 2}, "least work: the slope of node work is 2, and the least exit slope of the active "
                 "links into it is 1, of link bridge: flow 2 over capacity 2, since the link is resetting"),
                (30, {"bridge": 3, "bay": 1}, one, "used bridge: link bridge has flow 3 and the exit slope 3/2 (flow 3 over capacity 2, since the link is "
                 "resetting), and a link with flow has the slope of its head work, 1"),
                (10, {"bridge": 3, "bay": 1}, {"home": 1, "work": "3/2"}, "inactive bay: the flow of link bay is 1, and the link isn't active: a quicker "
                 "route leads to work")]:
            with self.subTest(wanted=wanted):
                self.assertIn(wanted, self.said(departure, dict(flows), dict(slopes)))

    def test_names_and_departures(self) -> None:
        net = example("bridge")
        run = nfot.solve(net, 30)
        self.faulted(nfot.OutOfRange, "no link ferry that is reached", nfot.candidate, net, run, 30, {"ferry": 1}, {})
        self.faulted(nfot.OutOfRange, "no node shop that is reached", nfot.candidate, net, run, 30, {}, {"shop": 1})
        self.faulted(nfot.OutOfRange, "departure 31 isn't from 0 to 30", nfot.candidate, net, run, 31, {}, {})
        self.faulted(nfot.OutOfRange, "the report ends at departure 30", nfot.thin, net, run, 30)
        self.faulted(nfot.Refused, "0.5 is a float", nfot.candidate, net, run, 30, {"bridge": 0.5}, {})
        self.assertEqual(nfot.thin(net, run, 20.5).start, Fraction(41, 2))


if __name__ == "__main__":
    unittest.main()
