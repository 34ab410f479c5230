"""Networks from and to graphs of networkx."""
from __future__ import annotations

import random
import unittest
from fractions import Fraction
from typing import Any

import nfot

from .cases import random_network
from .tooling import EXAMPLES

networkx: Any
try:
    import networkx
except ImportError:
    networkx = None


@unittest.skipIf(networkx is None, "networkx isn't installed")
class Graphs(unittest.TestCase):
    def graph(self, **data: object) -> Any:
        """Home and work with a bridge, and a bay road behind."""
        graph = networkx.DiGraph()
        graph.add_edge("home", "work", **{"minutes": 10, "per_minute": 2, **data})
        graph.add_edge("home", "bay", minutes=30, per_minute=4)
        graph.add_edge("bay", "work", minutes=1)
        return graph

    def made(self, graph: Any, **options: Any) -> nfot.Network:
        """The network of a graph."""
        return nfot.from_networkx(graph, "home", "work", supply=[(0, 4), (60, 0)], transit="minutes", capacity="per_minute", **options)

    def test_there(self) -> None:
        net = self.made(self.graph())
        self.assertEqual(net.text(), "nfot 2\nsource home\nsink work\nlink home-work home work 10 2\nlink home-bay home bay 30 4\n"
                                     "link bay-work bay work 1 inf\ninflow 0 4\ninflow 60 0\nend\n")

    def test_back_and_forth(self) -> None:
        """The network comes back, with the order of its links and the version of its file; another graph has its own order."""
        nets = [nfot.read_network(EXAMPLES / name) for name in ("paradox.net", "siouxfalls.net", "braess.net")]
        for net in [random_network(random.Random(seed)) for seed in range(20)] + nets:
            graph = nfot.to_networkx(net)
            again = nfot.from_networkx(graph, graph.graph["source"], graph.graph["sink"], supply=graph.graph["supply"])
            self.assertEqual((again, again.version, list(again.links)), (net, net.version, list(net.links)))
        graph.add_edge(net.source, net.sink, key="new", transit=1)
        again = nfot.from_networkx(graph, net.source, net.sink, supply=net.supply)
        self.assertEqual((again.version, list(again.links)), (2, [*net.links, "new"]))

    def test_results_stand_on_edges(self) -> None:
        """Each list ends with the last value that is known. Up to 20 all 4 a minute take the bridge, which lets 2 through; then both roads take 2. The bay road's end is known up to 60."""
        net = nfot.read_network(EXAMPLES / "bridge.net")
        run = nfot.solve(net, 60)
        graph = nfot.to_networkx(net, run, every=20)
        self.assertEqual(graph.graph["times"], [0, 20, 40, 60])
        self.assertEqual({word: graph.edges["home", "work", "bridge"][word] for word in ("in", "queue", "wait")},
                         {"in": [80, 40, 40], "queue": [0, 40, 40, 40], "wait": [0, 20, 20, 20]})
        self.assertEqual((graph.edges["home", "work", "bay"]["in"], graph.graph["notes"]), ([0, 40, 40], ()))
        with self.assertRaisesRegex(nfot.OutOfRange, "no label of the node s"):
            nfot.to_networkx(nfot.read_network(EXAMPLES / "two.net"), run)

    def test_an_idle_link_carries_nothing(self) -> None:
        net = nfot.network_of("nfot 2\nsource s\nsink t\nlink a s t 1 2\nlink b u t 1 2\ninflow 0 2\nend\n")
        graph = nfot.to_networkx(net, nfot.solve(net, 2), every=1)
        self.assertEqual((graph.edges["s", "t", "a"]["in"], graph.edges["u", "t", "b"]["in"]), ([2, 2], [0, 0, 0]))
        rows = nfot.table(nfot.solve(net, 2), every=1, show="in")
        self.assertEqual(rows.csv_text(), "time,a in,b in\n0,2,0\n1,2,0\n2,,0\n")
        self.assertEqual((rows.notes, graph.graph["notes"]), (("no walk from the source reaches the tail of b: each value is 0",),) * 2)

    def test_rounding(self) -> None:
        net = self.made(self.graph(minutes=9.96, per_minute=1.93), round_to="1/10")
        self.assertEqual((net.links["home-work"].transit, net.links["home-work"].capacity), (10, Fraction(19, 10)))
        with self.assertRaisesRegex(nfot.Fault, r"capacities change by up to 46.4 % .*: take round_to=0.02, or allow it with most_change=47"):
            self.made(self.graph(per_minute=0.0683), round_to="1/10")
        self.assertEqual(self.made(self.graph(per_minute=0.0683), round_to="1/10", most_change=50).links["home-work"].capacity, Fraction(1, 10))

    def test_kinds_of_graphs(self) -> None:
        multi = networkx.MultiGraph()
        multi.add_edge("home", "work", minutes=1, per_minute=1)
        multi.add_edge("home", "work", key="tunnel", minutes=2, per_minute=1)
        self.assertEqual(list(self.made(multi).links), ["home-work", "work-home", "tunnel", "tunnel_back"])
        multi.add_edge("home", "work", minutes=2, per_minute=float("inf"))
        self.assertIsNone(self.made(multi).links["home-work.2"].capacity)

    def test_clean_names(self) -> None:
        graph = networkx.DiGraph()
        graph.add_edge("Höhe 2", "Höhe_2", transit=1, capacity=1)
        with self.assertRaisesRegex(nfot.Refused, "'Höhe 2' is no name of a node: .*nfot.clean_names"):
            nfot.from_networkx(graph, "Höhe 2", "Höhe_2", supply=[])
        names = nfot.clean_names(graph)
        self.assertEqual(names, {"Höhe 2": "Hoehe_2", "Höhe_2": "Hoehe_2.2"})
        self.assertEqual(nfot.from_networkx(networkx.relabel_nodes(graph, names), "Hoehe_2", "Hoehe_2.2", supply=[]).source, "Hoehe_2")

    def test_faults(self) -> None:
        graph = self.graph()
        with self.assertRaisesRegex(nfot.Fault, "no node 'shop'"):
            nfot.from_networkx(graph, "home", "shop")
        for data, wanted in [({"minutes": None}, "the edge home-work has no attribute `minutes`"), ({"minutes": 1.5}, "`minutes` of the edge home-work: 1.5 is a float"),
                             ({"per_minute": -1}, "`per_minute` of the edge home-work: -1 is below 0"), ({"per_minute": "x"}, "x is no number")]:
            with self.assertRaisesRegex(nfot.Fault, wanted):
                self.made(self.graph(**data))

    def test_forgotten(self) -> None:
        """A capacity that no edge has, and a supply that isn't given, would give a run without queues."""
        words = {"supply": [(0, 4), (60, 0)], "transit": "minutes"}
        for given in ({"capacity": "per_min"}, {}):
            wanted = f"no edge has the attribute `{given.get('capacity', 'capacity')}`, .*: `minutes`, `per_minute`. Name"
            with self.assertRaisesRegex(nfot.Refused, wanted):
                nfot.from_networkx(self.graph(), "home", "work", **given, **words)
        with self.assertRaisesRegex(nfot.Refused, "no supply is given, so nothing would enter"):
            nfot.from_networkx(self.graph(), "home", "work", transit="minutes", capacity="per_minute")
        self.assertIsNone(nfot.from_networkx(self.graph(per_min=None), "home", "work", capacity="per_min", **words).links["bay-work"].capacity)
        self.assertIsNone(nfot.from_networkx(self.graph(capacity=None), "home", "work", **words).links["home-work"].capacity)

    def test_closed_roads_are_left_out(self) -> None:
        self.assertEqual(list(self.made(self.graph(per_minute=0)).links), ["home-bay", "bay-work"])


class Without(unittest.TestCase):
    def test_clean_names_of_a_list(self) -> None:
        self.assertEqual(nfot.clean_names(["Brücke", "Br:cke", "Br:cke", "Br;cke"]), {"Brücke": "Bruecke", "Br:cke": "Br_cke", "Br;cke": "Br_cke.2"})
        with self.assertRaisesRegex(nfot.Refused, "'Brücke' is no name of a link: .*nfot.clean_names"):
            nfot.Link("Brücke", "s", "t", 1, 1)

    def test_nothing_is_imported(self) -> None:
        """The package imports neither networkx nor pandas by itself."""
        import subprocess
        import sys
        done = subprocess.run([sys.executable, "-c", "import sys, nfot, nfot.tools; print(sorted({'networkx', 'pandas'} & set(sys.modules)))"],
                              stdout=subprocess.PIPE, text=True, env={"PYTHONPATH": str(EXAMPLES.parent / "python")})
        self.assertEqual(done.stdout, "[]\n")
