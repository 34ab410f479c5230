"""Networks, and the rules N1 to N22 against the independent program."""
import pickle
import random
import unittest
from fractions import Fraction

import nfot
from nfot import Link, Network

from .cases import EXAMPLES, Case, example, first_broken, independent, pairs, random_network, refusal

TEXT = "nfot 2\nsource s\nsink t\nlink x w t 1 1  # idle\nlink a s t 0.5 1.50\nlink c s t 4 inf\ninflow 0 2\nend\n"
LINKS = [Link("a", "s", "t", 1, 1), Link("b", "s", "t", 3, "1/2")]


class Values(Case):
    def test_network(self) -> None:
        net = nfot.network_of(TEXT)
        self.assertEqual((net.source, net.sink, net.version, net.supply), ("s", "t", 2, tuple(pairs((0, 2)))))
        self.assertEqual(net.links["a"], Link("a", "s", "t", "1/2", "3/2"))
        self.assertIsNone(net.links["c"].capacity)
        self.assertEqual((net.nodes(), net.idle_nodes(), [link.name for link in net.used_links()]), (["s", "t"], ["w"], ["a", "c"]))
        self.assertEqual(net.reached(), {"s", "t"})

    def test_canonical_text_of_the_page(self) -> None:
        wanted = "nfot 2\nsource s\nsink t\nlink a s t 1/2 3/2\nlink c s t 4 inf\nlink x w t 1 1\ninflow 0 2\nend\n"
        self.assertEqual(nfot.network_of(TEXT).text(), wanted)
        self.assertEqual(nfot.network_of(TEXT.splitlines()), nfot.network_of(wanted.encode()))

    def test_supply(self) -> None:
        net = example("paradox")
        self.assertEqual([net.supplied(until) for until in (60, 90, "15/2", 0)], [240, 240, 30, 0])
        self.assertEqual(net.supply_curve(90).until, 90)

    def test_changes_make_another_network(self) -> None:
        net = Network("s", "t", LINKS, [(0, 3)])
        self.assertEqual(net.with_capacity("a", 2).links["a"].capacity, 2)
        self.assertIsNone(net.with_capacity("a", None).links["a"].capacity)
        self.assertEqual(list(net.without("a").links), ["b"])
        self.assertEqual(list(net.with_link(Link("c", "s", "t", 1, 1)).links), ["a", "b", "c"])
        self.assertEqual(net.with_link(Link("a", "s", "t", 9, 1)).links["a"].transit, 9)
        self.assertEqual(net.with_supply([(1, "2.5")]).supply, tuple(pairs((1, "5/2"))))
        self.assertEqual(net, Network("s", "t", LINKS, [(0, 3)]))
        self.assertEqual(hash(net), hash(pickle.loads(pickle.dumps(net))))
        for change in (net.with_capacity, net.without):
            self.faulted(nfot.OutOfRange, "the network has no link z", change, "z", *([2] if change == net.with_capacity else []))

    def test_a_network_never_changes(self) -> None:
        net = Network("s", "t", LINKS, [(0, 3)])
        for name in ("source", "links", "supply"):
            with self.assertRaises(AttributeError):
                setattr(net, name, None)
        with self.assertRaises(TypeError):
            net.links["z"] = LINKS[0]  # type: ignore[index]
        with self.assertRaises(AttributeError):
            LINKS[0].capacity = Fraction(2)  # type: ignore[misc]

    def test_a_key_that_is_not_the_name_is_refused(self) -> None:
        """Else a network is solved under one name and checked under the other one."""
        self.faulted(nfot.Refused, "the key b holds the link a", Network, "s", "t", {"b": LINKS[0]})
        self.assertEqual(list(Network("s", "t", {"a": LINKS[0]}).links), ["a"])

    def test_what_no_file_may_hold_is_refused_when_made(self) -> None:
        loop = Link("l", "t", "t", 0, 1)
        for links, supply, rule in [(LINKS + LINKS[:1], [], "N9"), (LINKS, [(0, -1)], "N15"), (LINKS, [(1, 1), (1, 2)], "N16"),
                                    ([Link("a", "t", "s", 1, 1)], [], "N20"), (LINKS + [loop], [], "N21"),
                                    ([Link(f"e{n}", "s", "t", 1, 1) for n in range(201)], [], "N11"),
                                    ([Link(f"e{n}", "s", f"v{n}", 1, 1) for n in range(70)] + LINKS, [], "N10"),
                                    (LINKS, [(n, 1) for n in range(201)], "N12"), (LINKS, [(0, 2 ** 127)], "N8"),
                                    ([Link("a", "s", "u", 2 ** 127 - 1, 1), Link("b", "u", "t", 1, 1)], [], "N22")]:
            fault = self.faulted(nfot.Refused, rule, Network, "s", "t", links, supply)
            self.assertEqual((fault.rule, fault.status), (rule, 4))
        self.faulted(nfot.Refused, "N19", Network, "s", "s", LINKS)
        self.faulted(nfot.Refused, "N8: a has no capacity: `inf` needs", Network, "s", "t", [Link("a", "s", "t", 1, None)], [], 1)
        self.faulted(nfot.Refused, "N20: no walk .* from the source s to w", Network, "s", "t", [*LINKS, Link("x", "w", "t", 1, 1)], [], 1)
        for given, rule in [(("a b", "s", "t", 1, 1), "N7"), (("a", "Höhe", "t", 1, 1), "N7"), (("a", "s", "x" * 25, 1, 1), "N7"),
                            (("a", "s", "t", -1, 1), "N13"), (("a", "s", "t", 1, 0), "N14"), ((7, "s", "t", 1, 1), "N7")]:
            self.assertEqual(self.faulted(nfot.Refused, rule, Link, *given).rule, rule)
        self.faulted(nfot.Refused, "0.1 is a float", Link, "a", "s", "t", 0.1, 1)
        self.faulted(nfot.Refused, "40.5 is a float", Network, "s", "t", LINKS, [(0, 40.5)])


class Files(Case):
    def test_files_are_read_back(self) -> None:
        path = self.folder() / "net"
        for name in ("bridge", "siouxfalls", "ladder7-10", "paradox-closed"):
            net = example(name)
            nfot.write_network(net, path)
            self.assertEqual(nfot.read_network(path), net)
            self.assertEqual(path.read_text(), net.text())

    def test_faults_name_file_line_rule_and_what_to_do(self) -> None:
        path = self.folder() / "roads.net"
        path.write_text("nfot 1\nsource s\nsink t\nlink a s t 1 1,5\nend\n")
        fault = self.faulted(nfot.Refused, "line 4: N8: 1,5 is no number: write 3/2", nfot.read_network, path)
        self.assertEqual((fault.file, fault.line, fault.rule, fault.status), (str(path), 4, "N8", 4))
        for wrong, wanted in (("Link a s t 1 1", "line 4: N5: Link begins no line of a network file: source, sink, link, inflow, end do"),
                              ("link a s t 1", "line 4: N6: the line has 5 words, and a line `link` has 6"), ("sink u", "line 4: N9: there are two")):
            path.write_text(f"nfot 1\nsource s\nsink t\n{wrong}\nend\n")
            self.faulted(nfot.Refused, wanted, nfot.read_network, path)
        for mark in (b"\xef\xbb\xbf", b"\xff\xfe", b"\xfe\xff"):
            path.write_bytes(mark + b"nfot 1\n")
            self.faulted(nfot.Refused, "line 1: N1: .* save the file as plain text without a byte order mark", nfot.read_network, path)
        path.write_bytes(b"nfot 1\n\xef\xbb\xbf\n")
        self.faulted(nfot.Refused, "line 2: N1: the byte", nfot.read_network, path)
        self.faulted(nfot.NotFound, "nowhere.net: there is no file of this name", nfot.read_network, "nowhere.net")
        self.faulted(nfot.Fault, "directory", nfot.read_network, path.parent)
        path.write_bytes(b"#" * 1048577)
        self.faulted(nfot.Refused, "more than 1048576 bytes", nfot.read_network, path)

    def test_rules_are_those_of_the_independent_program(self) -> None:
        """Small changes of files break rules: both readers name the same rule and line."""
        rng, reader = random.Random(5), independent("network_file").read_network
        texts = [TEXT, *((EXAMPLES / f"{name}.net").read_text() for name in ("two", "twelve", "merge"))]
        words = ["", "0", "-1", "1/0", "1.5", "inf", "s", "t", "w", "a", "end", "link", "source", "sink q", "inflow 0 1", "inflow 0 -1", "é", "\r", "\t#", "x" * 25,
                 "nfot 2", "y" * 999, "170141183460469231731687303715884105727", "end\nend", "link e s e 0 1\nlink f e s 0 1"]
        broken = set()
        for _ in range(3000):
            parts = [part for line in rng.choice(texts).splitlines(True) for part in line.replace(" ", " \0").split("\0")]
            for _ in range(rng.randint(1, 2)):
                at = rng.randrange(len(parts))
                parts[at] = rng.choice([rng.choice(words) + rng.choice(["", " ", "\n"]), parts[at] * 2, parts[rng.randrange(len(parts))]])
            lines = "".join(parts).splitlines(True)
            data = "".join(line for line in lines if rng.random() < 0.97).encode()
            self.assertEqual(refusal(nfot.network_of, data), first_broken(reader, data), data)
            broken.add(first_broken(reader, data)[0])
        self.assertLessEqual({f"N{number}" for number in (1, 3, 4, 5, 6, 7, 8, 9, 13, 14, 15, 16, 17, 18, 19, 20)}, broken)

    def test_accepted_files_are_the_same_network(self) -> None:
        rng, reader, text = random.Random(6), independent("network_file").read_network, independent("network").canonical_text
        for _ in range(300):
            net = random_network(rng)
            self.assertEqual(text(reader(net.text().encode())).decode(), net.text())
            self.assertEqual(nfot.network_of(net.text()), net)


if __name__ == "__main__":
    unittest.main()
