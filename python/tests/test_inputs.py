"""Readers of loads, routes and flows files against those of the independent program; vehicles as flow; what a report leaves open."""
import itertools
import random
import unittest
from fractions import Fraction
from typing import Callable, List, Set, Tuple

import nfot
from nfot.inputs import flows_of, loads_of, read_sent, routes_of
from nfot.program import program

from .cases import EXAMPLES, Case, example, first_broken, independent, pairs, random_network, refusal

COUNT = 12 if program().proved else 3

FILES = {
    "loads": (loads_of, "read_loads", b"loads 1\nrate p 0 3 # a comment\n\nrate p 1/2 3/2\r\nrate z 0 1\nend\n"),
    "routes": (routes_of, "read_routes", b"routes 1\nroute one p z\nroute two q z\nrate one 0 1\nrate two 0 1/2\nrate one 2 0\nend\n"),
    "flows": (flows_of, "read_flows", b"flows 1\nflow p 2\nflow z 2\nslope s 1\nslope t 3/2\nend\n")}
WORDS = [b"p", b"z", b"x", b"0", b"1/2", b"-1", b"1.5", b"2/0", b"007", b"rate", b"flow", b"slope", b"route", b"end", b"loads", b"one", b"two", b"Z" * 25, b"s",
         b"\xc3\xbc", b"9" * 40, b"", b"#"]


class Readers(Case):
    def test_the_same_rule_and_line_as_the_independent_readers(self) -> None:
        rng, text = random.Random(51), example("merge").text()
        net = independent("network_file").read_network(text.encode())
        rules = set()
        for kind, (reader, name, good) in FILES.items():
            other: Callable[..., object] = getattr(independent(f"{kind}_file"), name)
            for _ in range(700):
                bad = self.changed(rng, good)
                wanted = first_broken(other, net, bad)
                self.assertEqual(refusal(reader, bad, example("merge")), wanted, bad)
                rules.add(wanted[0])
        self.assertGreaterEqual(len(rules), 28, rules)

    def test_a_decimal_is_told_as_its_fraction(self) -> None:
        net = example("merge")
        for reader, text, wanted in [(loads_of, "loads 1\nrate p 0 1.5\nend\n", "line 2: L8: 1.5 is no number: write 3/2"),
                                     (routes_of, "routes 1\nroute one p z\nrate one 0.25 1\nend\n", "line 3: G9: 0.25 is no number: write 1/4"),
                                     (flows_of, f"flows 1\nflow p {2 ** 127}\nend\n", "S8: .* numerator or denominator exceeds 2")]:
            self.faulted(nfot.Refused, wanted, reader, text, net)

    def changed(self, rng: random.Random, good: bytes) -> bytes:
        """The file with one or two words or lines changed."""
        lines = [line.split(b" ") for line in good.split(b"\n")]
        for _ in range(rng.randint(1, 2)):
            at, kind = rng.randrange(len(lines)), rng.randrange(5)
            if kind == 0:
                lines.insert(at, list(rng.choice(lines)))
            elif kind == 1 and len(lines) > 2:
                del lines[at]
            elif kind == 2:
                lines[at].insert(rng.randrange(len(lines[at]) + 1), rng.choice(WORDS))
            else:
                lines[at][rng.randrange(len(lines[at]))] = rng.choice(WORDS)
        return b"\n".join(b" ".join(words) for words in lines)

    def test_many_lines(self) -> None:
        net = example("merge")
        rates = "".join(f"rate p {number} 1\n" for number in range(201))
        self.assertEqual(refusal(loads_of, f"loads 1\n{rates}end\n", net), ("L11", 202))
        self.assertEqual(refusal(routes_of, f"routes 1\nroute p p z\n{rates}end\n", net), ("G15", 203))
        many = "".join(f"route r{number} p z\n" for number in range(101))
        self.assertEqual(refusal(routes_of, f"routes 1\n{many}end\n", net), ("G11", 102))
        self.assertEqual(refusal(loads_of, "loads 1\n#" + "x" * 1000 + "\nend\n", net), ("L2", 2))

    def test_cycle(self) -> None:
        net = nfot.Network("s", "t", [nfot.Link("a", "s", "v", 1, 1), nfot.Link("b", "v", "v", 1, 1), nfot.Link("c", "v", "t", 1, 1)], [(0, 1)])
        self.assertEqual(refusal(routes_of, "routes 1\nroute r a b b c\nend\n", net), ("G17", 0))

    def test_values(self) -> None:
        net = example("merge")
        self.assertEqual(loads_of(FILES["loads"][2], net), {"p": pairs((0, 3), ("1/2", "3/2")), "z": pairs((0, 1))})
        self.assertEqual(flows_of(FILES["flows"][2], net), ({"p": 2, "z": 2}, {"s": 1, "t": Fraction(3, 2)}))
        self.assertEqual(nfot.read_loads(EXAMPLES / "late.loads", example("two")), {"a": pairs((0, 3), (2, "3/2")), "b": pairs((2, "3/2"))})
        loads, routes = read_sent(EXAMPLES / "merge.routes", net)
        self.assertEqual((loads, list(routes), routes["two"][0]), ({}, ["one", "two"], ["q", "z"]))
        fault = self.faulted(nfot.Refused, "late.loads line 2: L7: the network has no link a", nfot.read_loads, EXAMPLES / "late.loads", net)
        self.assertEqual((fault.status, fault.line, fault.rule), (4, 2, "L7"))


class Vehicles(Case):
    net = nfot.Network("s", "t", [nfot.Link("a", "s", "t", 1, 1), nfot.Link("b", "s", "t", 3, 1)], [(0, 3), (4, 0)])

    def test_amounts_between_entries(self) -> None:
        """At each entry time just the vehicles before have entered; the last one takes as long as the one before it."""
        loads = nfot.loads_of_vehicles(self.net, {"a": [0, 1, "1.5", 4]})
        self.assertEqual(loads, {"a": pairs((0, 1), (1, 2), ("3/2", "2/5"), ("13/2", 0))})
        entered = nfot.Curve.of_rates(loads["a"], 8)
        self.assertEqual(entered.at([0, 1, "3/2", 4, "13/2"]), [0, 1, 2, 3, 4])

    def test_trips_packets_and_several_at_once(self) -> None:
        trips: List[List[Tuple[str, object]]] = [[("a", 0)], [("a", 0)], [("b", 2)], [("a", 3)]]
        loads = nfot.loads_of_vehicles(self.net, trips, size="1/2", spread=2)  # type: ignore[arg-type]
        self.assertEqual(loads, {"a": pairs((0, "1/2"), (2, 0), (3, "1/4"), (5, 0)), "b": pairs((2, "1/4"), (4, 0))})

    def test_routes(self) -> None:
        """Drivers who alternate, each for a sixth of a minute: together the supply of 3 a minute, in two routes."""
        trips = [([["a", "b"][number % 2]], Fraction(number, 6)) for number in range(24)]
        routes = nfot.routes_of_vehicles(trips, size=Fraction(1, 2), spread=Fraction(1, 6))
        self.assertEqual([routes[name][0] for name in routes], [["a"], ["b"]])
        self.assertEqual(routes["r1"][1][:3], pairs((0, 3), ("1/6", 0), ("1/3", 3)))
        verdict = nfot.check(self.net, nfot.report_of_routes(self.net, routes, 4))
        self.assertEqual(verdict.rule, "C7")

    def test_floats_are_rounded_where_asked(self) -> None:
        self.faulted(nfot.Refused, "link a: 0.1 is a float.*or give round_to", nfot.loads_of_vehicles, self.net, {"a": [0.1, 1]})
        loads = nfot.loads_of_vehicles(self.net, {"a": [0.1, 1.26]}, round_to="1/4")
        self.assertEqual(loads, {"a": pairs((0, "4/5"), ("5/2", 0))})

    def test_faults(self) -> None:
        for vehicles, named, wanted in [({"a": [3]}, {}, "all vehicles enter at 3: give spread"), ({"z": [3]}, {}, "no link z"), ({"a": [-1, 2]}, {}, "entry time -1 is below 0"),
                                        ({"a": [1]}, {"spread": 0}, "spread 0 and size 1 have to be above 0"), ({"a": [1]}, {"spread": 1, "size": -1}, "size -1 have to be above 0")]:
            self.faulted(nfot.Fault, wanted, nfot.loads_of_vehicles, self.net, vehicles, **named)


class Evidence(Case):
    def test_what_is_open_may_be_otherwise(self) -> None:
        """The report is an equilibrium of each network that the list names, and of none with a smaller value."""
        rng = random.Random(61)
        kinds: Set[str] = set()
        for count in itertools.count():
            if count >= COUNT and kinds >= {"supply", "capacity", "transit"}:
                break
            net = random_network(rng)
            run = nfot.solve(net, 6)
            for item in nfot.unsaid(net, run):
                kinds.add(item.what)
                if item.what == "supply" or item.what == "idle":
                    continue
                found = nfot.Report(run.horizon, run.reached, run.labels, run.inflows, run.outflows, run.queues)
                for more in (Fraction(0), Fraction(5)):
                    self.assertTrue(nfot.check(self.other(net, item, more), found), (str(item), net.text()))
                if item.least and item.least > Fraction(1, 9):
                    self.assertFalse(nfot.check(self.other(net, item, Fraction(-1, 9)), found), (str(item), net.text()))

    def other(self, net: nfot.Network, item: nfot.Open, more: Fraction) -> nfot.Network:
        """The network with the least value that the item names, and so much more."""
        link, value = net.links[item.name], (item.least or Fraction(1, 7)) + more
        if item.what == "capacity":
            return net.with_capacity(link.name, value)
        return net.with_link(nfot.Link(link.name, link.tail, link.head, value, link.capacity))

    def test_bridge(self) -> None:
        net = example("bridge")
        run = nfot.solve(net, 60)
        self.assertEqual((nfot.same(net, run), [str(item) for item in nfot.unsaid(net, run)]),
                         ([], ["the supply: any (after departure 60)", "the capacity of bay: any of at least 2 (no queue until 60)"]))

    def test_what_speaks_against(self) -> None:
        net = example("bridge")
        run = nfot.solve(net, 60)
        wide = net.with_capacity("bridge", 3).with_supply([(0, 5)])
        self.assertEqual(nfot.same(wide, run), ["a queue stands at bridge from 0 on, 2 leave it, and its capacity is 3",
                                                "240 leave the source by 60, and 300 are supplied"])
        self.assertEqual(nfot.same(example("two"), run), ["other names: 2 nodes and 2 links of the network are not in the report",
                                                          "other names: 2 nodes and 2 links of the report are not in the network"])
        self.assertEqual(nfot.same(net.without("bay"), run), ["it has a line `inflow bay`"])
        wide = nfot.Network("home", "work", [*net.links.values(), *(nfot.Link(f"e{number}", "home", "work", 9, 1) for number in range(5))], net.supply)
        self.assertEqual(nfot.same(wide, run)[-1], "other names: 5 links of the network are not in the report")
        turned = nfot.Network("home", "work", [net.links["bay"], net.links["bridge"]], net.supply, version=1)
        self.assertIn("another order", nfot.same(turned, nfot.report_of(run.text()))[0])
        self.assertIn("of version 1", nfot.same(nfot.Network("home", "work", net.links, net.supply), nfot.report_of(run.text()))[0])
        late = nfot.report_of_flows(example("two"), {"a": [(0, 3)]}, 4)
        self.assertIn("C7 doesn't hold for t at 4", nfot.same(example("two"), late)[0])


if __name__ == "__main__":
    unittest.main()
