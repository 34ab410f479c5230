"""Tables of roads: encodings, names, rounding, demand, and what is refused. Expected values are worked out by hand."""
from __future__ import annotations

import csv
from fractions import Fraction

import nfot

from .tooling import EXAMPLES, Case


GOOD = "from,to,time,capacity\ns,t,1,1\n"


class Table(Case):
    """Runs `nfot-py table` on a table."""

    def made(self, text: str, *words: object, encoding: str = "utf-8") -> tuple[nfot.Network, str]:
        """The network and the notes."""
        status, out, err = self.run_tool("table", self.write("roads.csv", text, encoding), *words)
        self.assertEqual(status, 0, err)
        return nfot.network_of(out), err

    def wrong(self, status: int, wanted: str, text: str, *words: object) -> None:
        """Asserts that the table is refused."""
        self.refused(status, wanted, "table", self.write("roads.csv", text), *words)


class Numbers(Table):
    def test_sioux_falls_from_floats(self) -> None:
        """The links of siouxfalls.net, but for those out of the destination and into the origin, which nobody takes."""
        rows = list(csv.DictReader(self.fine("city", "--roads").splitlines()))
        table = "from,to,minutes,capacity\n" + "".join(f"{row['from']},{row['to']},{float(row['minutes'])},{float(row['capacity']) / 60!r}\n" for row in rows)
        net, err = self.made(table, 1, 20, "0:200", "30:400", "60:200", "90:0", "--two-way", "--round-capacity", 40)
        wanted = nfot.read_network(EXAMPLES / "siouxfalls.net")
        links = {name: link for name, link in wanted.links.items() if link.tail != "20" and link.head != "1"}
        self.assertEqual((net.source, net.sink, net.supply, dict(net.links)), ("1", "20", wanted.supply, links))
        self.assertIn("24 nodes, 70 links", err)
        self.assertIn("capacities are rounded to multiples of 40 vehicles a minute; the greatest change is 8.2 % (16-17: 87.1652 becomes 80)", err)

    def test_rounding_of_each_kind(self) -> None:
        net, err = self.made("To,FROM,x,capacity,Time\nt,s,9,82.63634880000001,4.26\nt,s,9,,1\n", "s", "t", "0:1.5", "--round-capacity", 5)
        self.assertEqual(net.text(), "nfot 2\nsource s\nsink t\nlink s-t s t 43/10 85\nlink s-t.2 s t 1 inf\ninflow 0 3/2\nend\n")
        self.assertIn("the greatest change is 2.9 % (s-t: 82.6363 becomes 85)", err)  # 85/82.6363 = 1.0286
        self.assertIn("times are rounded to multiples of 0.1 minutes; the greatest change is 0.9 % (s-t: 4.26 becomes 4.3)", err)
        net, _ = self.made("from,to,time,capacity\ns,t,7,4958.18\n", "s", "t", "0:1", "--hourly", "--round-time", 2, "--round-capacity", 100)
        self.assertEqual((net.links["s-t"].transit, net.links["s-t"].capacity), (8, Fraction(250, 3)))  # 7/2 is as far from 3 as from 4, and 4 is even

    def test_units_that_nobody_chose(self) -> None:
        """A tenth of the smallest capacity, 2/5 of the smallest time, a hundredth of the smallest rate, each at most by a round number."""
        net, _ = self.made("from,to,time,capacity\ns,m,0.024,81.6\nm,t,5,431.67\n", "s", "t", "0:40.666666666666664", "10:0")
        self.assertEqual([(link.transit, link.capacity) for link in net.links.values()], [(Fraction(1, 40), 80), (5, 430)])
        self.assertEqual(net.supply, ((0, Fraction(407, 10)), (10, 0)))

    def test_great_changes_are_refused(self) -> None:
        """A lane of 600 an hour isn't doubled in silence; neither are times and rates."""
        lanes = "from,to,time,lanes\ns,t,5,1\n"
        words = ["s", "t", "0:5", "--lane-capacity", 600, "--round-capacity", 1200]
        self.wrong(2, "capacities change by up to 100.0 % (s-t: 600 becomes 1200): take --round-capacity 200, or allow it with --most-change 100", lanes, *words)
        net, err = self.made(lanes, *words, "--most-change", 100)
        self.assertEqual(net.links["s-t"].capacity, 20)
        self.assertIn("the greatest change is 100.0 %", err)
        self.wrong(2, "times change by up to 900.0 % (s-t: 1 becomes 10): take --round-time 0.2", GOOD, "s", "t", "--round-time", 10)
        self.wrong(2, "rates change by up to 25.0 % (from 0 on: 4 becomes 5): take --round-rate 1", GOOD, "s", "t", "0:4", "--round-rate", 5)

    def test_length_speed_and_lanes(self) -> None:
        table = "a_node,b_node,km,vmax,n\nA,B,2.5,50,2\nB,C,1,30,1\n"
        words = ["A", "C", "0:10", "--from", "a_node", "--to", "b_node", "--length-km", "km", "--speed-kmh", "VMAX", "--lanes", "n", "--lane-capacity", 1800]
        net, _ = self.made(table, *words)
        self.assertEqual([(link.transit, link.capacity) for link in net.links.values()], [(3, 60), (2, 30)])  # 2.5 km at 50 km/h; 2 lanes of 30 a minute
        metres, _ = self.made(table.replace("km", "m").replace("2.5", "2500").replace("C,1,", "C,1000,"),
                              *["--length-m" if word == "--length-km" else "m" if word == "km" else word for word in words])
        self.assertEqual(metres, net)
        self.wrong(2, "roads.csv line 3: column `vmax`: 0 is no speed", table.replace("30,1", "0,1"), *words)
        self.wrong(2, "--lane-capacity 1800", table, *words[:-2])

    def test_two_columns_for_one_value_are_refused(self) -> None:
        """Neither is taken in silence."""
        table = "from,to,t,q,km,m,v,n\ns,t,1,1,1,1000,60,1\n"
        both = ["--minutes", "t", "--capacity", "q"]
        self.wrong(2, "in kilometres or in metres", table, "s", "t", *both, "--length-km", "km", "--length-m", "m")
        self.wrong(2, "in minutes or by a speed", table, "s", "t", *both, "--length-km", "km", "--speed-kmh", "v")
        self.wrong(2, "by its column or by lanes", table, "s", "t", *both, "--lanes", "n", "--lane-capacity", 1800)
        net, _ = self.made(table, "s", "t", *both, "--lanes", "n", "--length-km", "km", "--names", "names.csv")
        self.assertEqual(net.links["s-t"].capacity, 1)
        self.assertIn("s-t,link,s-t,2,1,1", (self.folder / "names.csv").read_text())

    def test_zero_times_are_told(self) -> None:
        net, err = self.made("from,to,time,capacity\ns,t,0,1\n", "s", "t", "0:1")
        self.assertEqual(net.links["s-t"].transit, Fraction(1, 10))
        self.assertIn("1 times of 0 became 0.1", err)


class Names(Table):
    def test_umlauts_and_others(self) -> None:
        rows = "from,to,time,capacity,name\n123#1,u:v,1,1,\nu:v,Höhe 2,1,1,Brücke\nHöhe 2,u_v,1,1,\n"
        net, err = self.made(rows + "u_v,ein sehr langer Name eines Orts,1,1,Brücke\n", "123#1", "ein sehr langer Name eines Orts", "0:1")
        self.assertEqual(net.nodes(), ["123_1", "ein_sehr_langer_Name.rts", "u_v", "Hoehe_2", "u_v.2"])
        self.assertEqual(list(net.links), ["123_1-u_v", "Bruecke", "Hoehe_2-u_v.2", "Bruecke.2"])
        for line in ("node `u:v` is called u_v", "node `Höhe 2` is called Hoehe_2", "link `Brücke` is called Bruecke", "and 2 more names changed: --names FILE writes them all"):
            self.assertIn(f"table: {line}\n", err)
        self.assertTrue(err.startswith("table: node `123#1` is called 123_1\n") and err.endswith("table: 5 nodes, 4 links\n"), err)
        made = nfot.network_of_table(nfot.read_roads("roads.csv"), "123#1", "ein sehr langer Name eines Orts")
        self.assertEqual(made.renamed[-2:], ["node `u_v` is called u_v.2", "link `Brücke` is called Bruecke.2"])

    def test_one_line_where_the_names_are_written(self) -> None:
        rows = "from,to,time,capacity,name\nA#1,B,1,1,\nB,C,1,1,Brücke\n"
        _, err = self.made(rows, "A#1", "C", "0:1", "--names", "names.csv")
        self.assertIn("table: 3 names changed, see names.csv\n", err)  # the node A#1, the links A#1-B and Brücke
        self.assertNotIn("is called", err)
        self.assertIn("3 nodes, 2 links", err)
        _, err = self.made(rows.replace("Brücke", ""), "B", "C", "0:1", "--names", "names.csv")
        self.assertNotIn("changed, see", err)

    def test_decomposed_umlaut(self) -> None:
        net, _ = self.made("from,to,time,capacity\ns,Ho\u0308he,1,1\n", "s", "Ho\u0308he", "0:1")
        self.assertEqual(net.sink, "Hoehe")

    def test_long_names_keep_their_end(self) -> None:
        net, _ = self.made("from,to,time,capacity\nHauptbahnhof 11,Hauptbahnhof 12,1,1\n", "Hauptbahnhof 11", "Hauptbahnhof 12", "0:1")
        self.assertEqual(list(net.links), ["Hauptba._11-Hauptbah._12"])

    def test_names_file_joins_back(self) -> None:
        self.made("from,to,time,capacity,name,length_km,lanes\nA,B,1,1,Brücke,0.7,2\n", "A", "B", "0:1", "--names", "names.csv")
        rows = list(csv.DictReader((self.folder / "names.csv").read_text(encoding="utf-8").splitlines()))
        self.assertEqual([list(row.values()) for row in rows],
                         [["A", "node", "A", "", "", ""], ["B", "node", "B", "", "", ""], ["Bruecke", "link", "Brücke", "2", "0.7", "2"]])


class Roads(Table):
    def test_left_out_and_why(self) -> None:
        text = "from,to,time,capacity,name\ns,t,1,1,\ns,x,1,1,\ny,t,1,1,\ns,m,1,0,shut\nm,t,1,1,\nt,s,1,1,home\nm,m,1,1,\n"
        net, err = self.made(text, "s", "t", "0:1")
        self.assertEqual((net.nodes(), list(net.links)), (["s", "t"], ["s-t"]))
        for line in ("their capacity is 0: 1 (shut)", "they lead into the origin or out of a destination: 1 (home)",
                     "they lead back to where they begin: 1 (m-m)", "no route from s to t takes them: 3 (s-x, y-t, m-t)"):
            self.assertIn(f"table: left out, since {line}\n", err)

    def test_the_quickest_route_is_told(self) -> None:
        """500 and 700 metres at 60 km/h are 0.5 and 0.7 minutes; read as kilometres they are 1200."""
        table = "from,to,m,v,capacity\ns,m,500,60,1\nm,t,700,60,1\ns,t,2000,60,1\nm,u,100,60,1\n"
        for option, goal, wanted in (("--length-m", "t", "1.20"), ("--length-km", "t", "1200.00"), ("--length-m", "t,u", "0.60")):
            _, err = self.made(table, "s", goal, "0:1", option, "m", "--speed-kmh", "v")
            self.assertIn(f"table: the quickest route from s to {goal} takes {wanted} minutes on empty roads\n", err)

    def test_detour(self) -> None:
        text = "from,to,time,capacity\ns,t,10,1\ns,m,6,1\nm,t,5,1\ns,n,9,1\nn,t,9,1\n"
        net, err = self.made(text, "s", "t", "0:1", "--detour", 1)
        self.assertEqual(list(net.links), ["s-t", "s-m", "m-t"])
        self.assertIn("each route with them takes longer than --detour allows: 2 (s-n, n-t)", err)

    def test_several_destinations(self) -> None:
        net, _ = self.made("from,to,time,capacity\ns,a,1,1\ns,b,2,1\na,b,1,1\n", "s", "a,b", "0:1")
        self.assertEqual([(link.tail, link.head, link.transit) for link in net.links.values()], [("s", "a", 1), ("s", "b", 2), ("a", "sink", 0), ("b", "sink", 0)])
        self.assertEqual(net.sink, "sink")
        self.assertIsNone(net.links["a-to"].capacity)

    def test_two_way(self) -> None:
        net, _ = self.made("from,to,time,capacity,name\ns,m,1,1,a\nt,m,2,3,b\nm,k,1,1,c\nk,m,1,1,d\n", "s", "t", "0:1", "--two-way")
        self.assertEqual([(name, link.tail, link.head) for name, link in net.links.items()],
                         [("a", "s", "m"), ("b_back", "m", "t"), ("c", "m", "k"), ("c_back", "k", "m"), ("d", "k", "m"), ("d_back", "m", "k")])

    def test_too_large(self) -> None:
        """A chain of 63 nodes from s to t, and one of 10 that takes 5 minutes longer."""
        def chain(word: str, count: int, first: int) -> list[str]:
            nodes = ["s"] + [f"{word}{i}" for i in range(count)] + ["t"]
            return [f"{v},{w},{first if v == 's' else 1},1\n" for v, w in zip(nodes, nodes[1:])]
        table = "from,to,time,capacity\n" + "".join(chain("a", 61, 1) + chain("b", 10, 56))
        self.wrong(1, "73 nodes and 73 links are on routes to the destination; nfot takes 64 and 200: --detour 0 leaves few enough", table, "s", "t", "0:1")
        net, _ = self.made(table, "s", "t", "0:1", "--detour", 0)
        self.assertEqual(len(net.nodes()), 63)

    def test_no_demand_is_told(self) -> None:
        self.assertIn("no demand: nothing is supplied", self.made(GOOD, "s", "t")[1])


class Demand(Table):
    COUNTS = "start,vehicles\n6:00,300\n6:15,610\n6:30,610\n6:45,0\n7:00,150\n"

    def test_counts_are_no_rates(self) -> None:
        """610 in a quarter of an hour are 40.67 a minute, rounded to 40.7; 6:00 is minute 0."""
        self.write("demand.csv", self.COUNTS)
        net, err = self.made(GOOD, "s", "t", "--demand", "demand.csv", "--each", 15)
        self.assertEqual(net.supply, ((0, 20), (15, Fraction(407, 10)), (45, 0), (60, 10), (75, 0)))
        self.assertIn("minute 0 is 06:00; the other tools take --clock 06:00", err)
        self.assertIn("rates are rounded to multiples of 0.1 vehicles a minute; the greatest change is 0.1 % (from 15 on: 40.6667 becomes 40.7)", err)
        self.assertIn("1671.0 vehicles are supplied by 75; the table has 1670.0", err)

    def test_clock(self) -> None:
        self.write("demand.csv", self.COUNTS)
        net, _ = self.made(GOOD, "s", "t", "--demand", "demand.csv", "--each", "0:15", "--clock", "5:30")
        self.assertEqual([start for start, _ in net.supply], [30, 45, 75, 90, 105])
        words, _ = self.made(GOOD, "s", "t", "6:00:20", "6:15:40", "7:00:0", "--clock", "6:00")
        self.assertEqual(words.supply, ((0, 20), (15, 40), (60, 0)))

    def test_past_midnight(self) -> None:
        self.write("demand.csv", "time,count\n23:30,30\n23:45,60\n0:00,90\n0:15,30\n")
        net, err = self.made(GOOD, "s", "t", "--demand", "demand.csv", "--each", 15)
        self.assertEqual(net.supply, ((0, 2), (15, 4), (30, 6), (45, 2), (60, 0)))

    def test_other_columns(self) -> None:
        for text, words in [("count\n30\n60\n", []), ("min;Zahl\n0;30\n15,0;60\n", []), ("t,a,b\n0,9,30\n15,9,60\n", ["--start", "t", "--count", "b"])]:
            self.write("demand.csv", text)
            self.assertEqual(self.made(GOOD, "s", "t", "--demand", "demand.csv", "--each", 15, *words)[0].supply, ((0, 2), (15, 4), (30, 0)))

    def test_faults(self) -> None:
        for text, words, wanted in [
                (self.COUNTS.replace("6:30,610\n", ""), ["--each", 15], "demand.csv line 4: column `start`: 6:45 is 30 minutes after the row before, and an interval has 15"),
                (self.COUNTS, ["--each", 60], "6:15 is 15 minutes after the row before, and an interval has 60"), (self.COUNTS, [], "--each 15"),
                (self.COUNTS.replace("150", "1x"), ["--each", 15], "demand.csv line 6: column `vehicles`: `1x` is no number"),
                (self.COUNTS, ["--each", 15, "0:5"], "by --demand or by START:RATE"), (self.COUNTS, ["--each", 15, "--clock", "7:00"], "6:00 is before minute 0"),
                (self.COUNTS, ["--each", 0], "0 isn't above 0"), (self.COUNTS, ["--each", 15, "--count", "cars"], "no column `cars`")]:
            self.write("demand.csv", text)
            self.wrong(2, wanted, GOOD, "s", "t", "--demand", "demand.csv", *words)
        self.wrong(3, "nothing.csv", GOOD, "s", "t", "--demand", "nothing.csv", "--each", 15)


class Files(Table):
    def test_encodings_and_separators(self) -> None:
        semicolons, tabs = "from;to;time;capacity\nKöln;t;2,5;3,0\n", "from\tto\ttime\tcapacity\r\nKöln\tt\t2.5\t3\r\n\r\n"
        for text, encoding in [(semicolons, "utf-8-sig"), (semicolons, "cp1252"), (semicolons, "utf-16"), (semicolons, "utf-16-le"), (tabs, "utf-8"), (tabs, "utf-16-be")]:
            net, err = self.made(text, "Köln", "t", "0:1", encoding=encoding)
            self.assertEqual(net.text().splitlines()[3], "link Koeln-t Koeln t 5/2 3")
            self.assertEqual("roads.csv is read as cp1252" in err, encoding == "cp1252")

    def test_dots_that_may_part_thousands(self) -> None:
        """They are refused beside decimal commas; without one, and in names and other columns, a dot is what it was."""
        head = "from;to;time;capacity\n"
        self.wrong(2, "roads.csv line 2: column `capacity`: `1.800` has a dot before three digits, and the table has decimal commas: write 1800 or 1,800",
                   head + "A;B;3,5;1.800\n", "A", "B", "0:1", "--hourly")
        self.wrong(2, "roads.csv line 2: column `time`: `2.125` has a dot", head + "A;B;2.125;1\nB;C;,5;1\n", "A", "C", "0:1")
        for text in ("A;B;3,5;1800\n", "A;B;3,5;1.8e3\n", "A;B;3.5;1800.000\n"):
            net, _ = self.made(head + text, "A", "B", "0:1", "--hourly")
            self.assertEqual((net.links["A-B"].transit, net.links["A-B"].capacity), (Fraction(7, 2), 30))
        net, _ = self.made("from;to;time;capacity;x\n1.800;B;3,5;1;2.500\n", "1.800", "B", "0:1")
        self.assertEqual(list(net.links), ["1.800-B"])
        self.write("counts.csv", "start;count\n0;1,5\n15;1.200\n")
        self.wrong(2, "counts.csv line 3: column `count`: `1.200` has a dot", GOOD, "s", "t", "--demand", "counts.csv", "--each", 15)
        self.write("counts.csv", "start;count\n1.000;1,5\n")
        self.wrong(2, "counts.csv line 2: column `start`: `1.000` has a dot", GOOD, "s", "t", "--demand", "counts.csv", "--each", 15)

    def test_standard_input(self) -> None:
        self.assertIn("link s-t s t 1 1\n", self.fine("table", "-", "s", "t", "0:1", stdin=GOOD))

    def test_faults_name_file_row_and_column(self) -> None:
        for text, wanted in [
                ("from,to,capacity\ns,t,1\n", "roads.csv line 1: no column `minutes` or `time`: name the right one by --minutes; the first line has `from`, `to`, `capacity`"),
                ("from,to,time,capacity\ns,t,1x,1\n", "roads.csv line 2: column `time`: `1x` is no number"),
                ("from,to,time,capacity\ns,t,1,1\ns,t,1,-1\n", "roads.csv line 3: column `capacity`: -1 is below 0"),
                ("from,to,time,capacity\ns,t,1\n", "roads.csv line 2: 3 cells, the first line has 4"),
                ("from,to,time,capacity\ns,t,1,5,30\n", "roads.csv line 2: 5 cells, the first line has 4 (a comma in a cell needs quotes around the cell)"),
                ("from,to,time,capacity\ns,t,,1\n", "roads.csv line 2: column `time`: the cell is empty"),
                ("from,to,time,capacity\n,t,1,1\n", "roads.csv line 2: column `from`: the cell is empty"),
                ("from,to,time,capacity,time\ns,t,1,1,1\n", "roads.csv line 1: two columns are called `time`"),
                ("", "roads.csv: the file is empty"), ("from,to,time,capacity\n", "roads.csv: no rows follow the first line"),
                ("from,to,time,capacity\ns,t,nan,1\n", "`nan` is no number"), ("from,to,time,capacity\ns,t,1e99999,1\n", "`1e99999` is no number")]:
            self.wrong(2, wanted, text, "s", "t", "0:1")
        (self.folder / "roads.csv").write_bytes(b"\x7fELF\0\1\0\0\0\x81\x8d\xff")
        self.refused(2, "roads.csv: this is no text", "table", "roads.csv", "s", "t")
        self.refused(3, "nothing.csv: there is no file of this name", "table", "nothing.csv", "s", "t")
        self.refused(3, ".: Is a directory", "table", ".", "s", "t")

    def test_faults_name_the_word(self) -> None:
        for words, status, wanted in [
                (["q", "t"], 1, "q is no node of roads.csv"), (["s", "t,q"], 1, "q is no node"), (["s", "s"], 2, "s is the origin and a destination"),
                (["t", "s"], 1, "no route leads from t to s"), (["s", "t", "5"], 2, "5 is no START:RATE"), (["s", "t", "0:1", "0:2"], 2, "0:2: the start isn't after"),
                (["s", "t", "0:-1"], 2, "0:-1: the rate is below 0"), (["s", "t", "--twoway"], 2, "unrecognized arguments: --twoway"), (["s"], 2, "required: DESTINATION"),
                (["s", "t", "--round-time", "0"], 2, "argument --round-time: 0 isn't above 0"), (["s", "t", "--speed-kmh", "v"], 2, "a speed needs a length")]:
            self.wrong(status, wanted, GOOD, *words)

    def test_output_that_fails(self) -> None:
        """A folder in the place of the names: nothing is printed before, and the status tells."""
        (self.folder / "names").mkdir()
        self.wrong(9, "names: it can't be written: Is a directory", GOOD, "s", "t", "0:1", "--names", "names")
