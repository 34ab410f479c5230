"""What people do wrong: copies, units, spellings, orders and outputs. Each is told in one line, with what to do next."""
from __future__ import annotations

import os
import subprocess
from fractions import Fraction

import nfot

from .test_command import ENVIRONMENT, command, told
from .test_results import Results
from .test_tables import Table
from .tooling import EXAMPLES

HEAD = "from,to,time,capacity,name\n"


class Copies(Table):
    def test_rows_that_stand_twice(self) -> None:
        """The same ends and name; or without names the same ends, times and capacities. Both are kept."""
        net, err = self.made(HEAD + "A,B,1,5,\nB,C,1,5,\nA,B,1,5,\nA,B,2,5,\n", "A", "C", "0:1")
        self.assertEqual(len(net.links), 4)
        self.assertTrue(err.endswith("table: lines 2 and 4 of roads.csv are the same road, A-B: it is kept twice; delete one if it is a copy\n"), err)
        _, err = self.made(HEAD + "A,B,1,5,x\nA,B,2,7,x\nA,B,1,5,y\nA,B,1,5,x\n", "A", "B", "0:1")
        self.assertIn("table: lines 2, 3 and 5 of roads.csv are the same road, x: it is kept 3 times", err)
        self.assertEqual(err.count("the same road"), 1)

    def test_both_directions_in_a_table_of_roads_with_two(self) -> None:
        text = HEAD + "A,B,1,5,x\nB,A,1,5,x\nB,C,1,5,\n"
        self.assertNotIn("the same road", self.made(text, "A", "C", "0:1")[1])
        self.assertIn("lines 2 and 3 of roads.csv are the same road, x", self.made(text, "A", "C", "0:1", "--two-way")[1])


class Units(Table):
    def test_numbers_that_fit_stay(self) -> None:
        """A tenth of 20 is 2, which changes 25; all are multiples of 5. Times of 0.25 are multiples of 0.05, and 4.26 isn't."""
        net, err = self.made(HEAD + "A,B,0.25,60,\nB,C,5,25,\nB,C,3,20,\n", "A", "C", "0:200.5", "10:0")
        self.assertEqual([(link.transit, link.capacity) for link in net.links.values()], [(Fraction(1, 4), 60), (5, 25), (3, 20)])
        self.assertEqual(net.supply[0], (0, Fraction(401, 2)))
        self.assertIn("capacities are multiples of 5 vehicles a minute; none changed", err)
        self.assertEqual(self.made(HEAD + "A,B,4.26,82.63,\n", "A", "B", "0:1")[0].links["A-B"].transit, Fraction(43, 10))

    def test_units_that_are_told(self) -> None:
        table = "from,to,x,v,lanes\nA,B,2,50,1\nB,C,3,60,2\n"
        lanes, speed = ["--lane-capacity", 1800], ["--speed-kmh", "v"]
        for text, words, wanted in [
                (table, ["--length-km", "x", *speed, "--lane-capacity", 30], "vehicles a minute may be meant, as --lane-capacity 1800"),
                (table, ["--length-m", "x", *speed, *lanes], "--length-m takes metres, and kilometres may be meant, by --length-km"),
                (table.replace(",50,", ",0.8,"), ["--length-km", "x", *speed, *lanes], "1 road has a speed as A-B, 0.8 km/h: --speed-kmh takes kilometres an hour, and kilometres"),
                (table.replace(",50,", ",833,"), ["--length-km", "x", *speed, *lanes], "A-B, 833 km/h: --speed-kmh takes kilometres an hour, and metres a minute may be meant"),
                (table.replace("2,", "2000,"), ["--length-km", "x", *speed, *lanes], "--length-km takes kilometres, and metres may be meant, by --length-m"),
                (table.replace(",2,", ",0.04,"), ["--minutes", "x", *lanes], "A-B takes 0.04 minutes: --minutes takes minutes, and hours may be meant"),
                (table.replace(",2,", ",0.02,").replace(",3,", ",0.06,"), ["--minutes", "x", *lanes], "the quickest route takes 0.08 minutes"),
                (HEAD + "A,B,1,1800,\nB,C,1,900,\n", [], "each road lets 900 vehicles a minute through or more: vehicles an hour may be meant, by --hourly")]:
            _, err = self.made(text, "A", "C", "0:1", *words)
            self.assertIn(wanted, err.splitlines()[-1])
            self.assertEqual(err.count("may be meant"), 1, err)
        self.assertNotIn("may be meant", self.made(table, "A", "C", "0:1", "--length-km", "x", *speed, *lanes)[1])

    def test_times_of_day(self) -> None:
        for word, wanted in (("17", "argument --clock: 17 is no time of day: write 17:00"), ("25:00", "25:00 is no time of day: a day begins at 0:00"), ("x", "x is no number")):
            self.refused(2, wanted, "times", "x.net", "x.report", "--clock", word)
            self.wrong(2, wanted, HEAD + "A,B,1,1,\n", "A", "B", "0:1", "--clock", word)
        self.write("counts.csv", "time,count\n25:00,10\n")
        self.wrong(2, "counts.csv line 2: column `time`: 25:00 is no time of day", HEAD + "A,B,1,1,\n", "A", "B", "--demand", "counts.csv", "--each", 15)


class Words(Table):
    def test_columns(self) -> None:
        """The option is named, and columns are spelled as the table has them."""
        text = "Von Knoten;Nach;Min;Kap\nA;B;1;1\n"
        self.wrong(2, "no column `von`: put a name with blanks in quotes, as --from \"Von Knoten\"", text, "A", "B", "0:1", "--from", "von", "Knoten")
        self.wrong(2, "no column `from`: name the right one by --from; the first line has `Von Knoten`, `Nach`, `Min`, `Kap`", text, "A", "B", "0:1")
        self.wrong(2, "no column `nahc` (the nearest name is Nach): name the right one by --to", text, "A", "B", "--from", "von knoten", "--to", "nahc")

    def test_a_missing_hour(self) -> None:
        self.write("counts.csv", "time,count\n6:00,10\n7:00,10\n9:00,10\n")
        self.wrong(2, "an interval has 60: write a row for each interval, with the count 0", HEAD + "A,B,1,1,\n", "A", "B", "--demand", "counts.csv", "--each", 60)

    def test_names_of_nodes_and_links(self) -> None:
        self.wrong(1, "hof is no node of roads.csv (the nearest name is Hof)", HEAD + "Hof,B,1,1,\n", "hof", "B", "0:1")
        net = nfot.read_network(EXAMPLES / "bridge.net")
        for call in (lambda: net.with_capacity("brigde", 1), lambda: nfot.solve(net, 1).queue("Bridge"), lambda: nfot.report_of_flows(net, {"brige": [(0, 1)]}, 1),
                     lambda: nfot.loads_of_vehicles(net, {"bridges": [1, 2]})):
            with self.assertRaisesRegex(nfot.OutOfRange, "the nearest name is bridge"):
                call()
        self.write("x.loads", "loads 1\nrate birdge 0 1\nend\n")
        self.refused(4, "no link birdge whose tail is reached (the nearest name is bridge)", "judge", EXAMPLES / "bridge.net", "x.loads", 1)


class Cases(Results):
    def test_cases_that_are_the_same(self) -> None:
        """A line on standard error says so, whether the networks are the same or the change does nothing."""
        pair = self.solved("bridge.net", 60)
        (self.folder / "same.net").write_text("# a sed that did nothing\n" + pair[0].read_text())
        (self.folder / "wide.net").write_text(pair[0].read_text().replace("home work 30 4", "home work 30 5"))
        for words in (["compare", *pair], ["series", *pair, "--link", "bridge"]):
            _, _, err = self.run_tool(*words, *self.solved("same.net", 60))
            self.assertEqual(err.splitlines(), [f"nfot-py {words[0]}: both networks are the same, so look whether a change was made ({pair[0]} and {self.folder / 'same.net'})"])
            _, _, err = self.run_tool(*words, *self.solved("wide.net", 60))
            self.assertIn("the networks differ, and no travel time does", err)
        self.assertEqual(self.run_tool("compare", *self.solved("paradox.net", 60), *self.solved("paradox-closed.net", 60))[2], "")

    def test_order_of_files(self) -> None:
        net, report = self.solved("bridge.net", 60)
        self.refused(2, "stands alone: each scenario is a pair NETWORK REPORT", "series", net, net, report)
        for tool in ("same", "times", "queues"):
            self.refused(2, "bridge.report is a report, and stands in the place of a network: the order is NETWORK REPORT", tool, report, net)
        self.refused(2, "is a network, and stands in the place of a report", "series", net, net, report, report)

    def test_time_of_day_without_clock(self) -> None:
        pair = self.solved("bridge.net", 60)
        self.refused(1, "not 420 (7:00 without --clock is minute 420: give --clock", "times", *pair, "7:00")

    def test_several_links_and_the_last_interval(self) -> None:
        """The bridge lets 2 a minute out from 10 on: 100 up to 60. In the last 10 minutes 2 a minute enter each road."""
        out = self.fine("series", *self.solved("bridge.net", 60), "--link", "bridge", "--link", "bay", "--show", "in", "--every", 25, "--csv", "-").splitlines()
        self.assertEqual(out, ["time,bridge bridge in,bridge bay in", "0,90,10", "25,50,50", "50,20,20", "60,,"])
        self.refused(1, "no scenario has a link bya (the nearest name is bay)", "series", *self.solved("bridge.net", 60), "--link", "bridge", "--link", "bya")

    def test_semicolons_and_counts(self) -> None:
        """Decimal commas; from 10 vehicles on two digits."""
        pair = self.solved("bridge.net", 60)
        self.assertEqual(self.fine("times", *pair, "1/3", "--csv", "-", "--semicolon").splitlines(), ["\ufeffleave;arrive;takes", "0,333333;10,666667;10,333333"])
        self.assertEqual(self.fine("series", *pair, "--link", "bridge", "--every", "20/3", "--csv", "-").splitlines()[2:3], ["6.666667,13.33"])
        self.assertTrue(self.fine("city", "--roads", "--semicolon").startswith("\ufefffrom;to;minutes;capacity\n1;2;6;25900,20064\n"))
        self.write("roads.csv", "from;to;length_km;time;capacity\nA;B;1,5;2,5;1\n")
        self.fine("table", "roads.csv", "A", "B", "0:1", "--names", "names.csv", "--semicolon")
        self.assertEqual((self.folder / "names.csv").read_bytes()[:5], b"\xef\xbb\xbfid")
        self.assertIn("\nA-B;link;A-B;2;1,5;\n", (self.folder / "names.csv").read_text())
        self.fine("times", *pair, "1", "--csv", "plain.csv")
        self.assertEqual((self.folder / "plain.csv").read_bytes()[:5], b"leave")
        self.assertEqual(nfot.queues.read_places("names.csv")["A-B"].room, Fraction(1500, 7))

    def test_times_of_day_without_the_one_of_minute_0(self) -> None:
        """7:30 is minute 450 then, and that is said."""
        pair = self.solved("bridge.net", 60)
        for words, told in ((["--by", "1:30"], "1:30 is minute 90"), (["0:20", "0:30"], "0:20 is minute 20, 0:30 is minute 30")):
            status, out, err = self.run_tool("times", *pair, *words)
            self.assertEqual((status, err), (0, f"nfot-py times: {told} of the run; for times of day give --clock, the time of day of minute 0\n"))
            status, _, err = self.run_tool("times", *pair, *(word.replace("0:", "6:").replace("1:", "7:") for word in words), "--clock", "6:00")
            self.assertEqual((status, err), (0, ""))
        _, _, err = self.run_tool("compare", *pair, *pair, "0:30")
        self.assertIn("nfot-py compare: 0:30 is minute 30 of the run", err)

    def test_cases_with_other_ends(self) -> None:
        pairs = [*self.solved("bridge.net", 60), *self.solved("two.net", 4)]
        for words in (["compare", *pairs], ["series", *pairs]):
            status, _, err = self.run_tool(*words)
            self.assertEqual((status, err), (0, f"nfot-py {words[0]}: {pairs[0]} leads from home to work, and {pairs[2]} from s to t\n"))

    def test_options_that_would_be_left_out(self) -> None:
        pair = self.solved("bridge.net", 60)
        self.write("roads.csv", HEAD + "A,B,1,5,\n")
        for wanted, words in [("--by stands alone", ["times", *pair, "--by", 30, "--every", 5]), ("--by stands alone", ["times", *pair, "--by", 30, "--csv", "x.csv"]),
                              ("give --csv too", ["queues", *pair, "--semicolon"]), ("give --names too", ["table", "roads.csv", "A", "B", "0:1", "--semicolon"]),
                              ("nan is no number", ["solve-on", pair[0], "--horizon", 1, "--timeout", "nan"]), ("0 isn't above 0", ["solve-on", pair[0], "--horizon", 1, "--timeout", 0])]:
            self.refused(2, wanted, *words)
        self.assertEqual(self.fine("times", *pair, "--by", 1000), "departures up to 60.00 (end of report) are at work by 1000.00\n")
        self.assertEqual(self.fine("times", *pair, "--by", 30), "departures up to 10.00 are at work by 30.00\n")
        err = self.run_tool("table", "roads.csv", "A", "B", "7:30:2")[2]
        self.assertIn("nfot-py table: 7:30 is minute 450 of the run; for times of day give --clock", err)

    def test_a_queue_beyond_the_report_has_one_word(self) -> None:
        pair = self.solved("bridge.net", 60)
        self.assertIn("bridge: queue from 0.00 to end of report", self.fine("times", *pair, "0"))
        self.assertEqual(self.fine("queues", *pair).splitlines()[1].split(), "bridge 0.00 end of report 20.00 20.00 40.00".split())
        self.assertEqual(self.fine("queues", *pair, "--csv", "-").splitlines()[1], "bridge,0,,20,20,40")

    def test_the_greatest_amount_of_a_cut_is_first(self) -> None:
        """7 have come by 5.5, as docs/PYTHON.md has it: 4.5 over a, 2.5 over b, which stands first here."""
        self.write("turned.net", "nfot 1\nsource s\nsink t\nlink b s t 3 1\nlink a s t 1 1\ninflow 0 3\nend\n")
        self.assertEqual([line.split(":")[0] for line in self.fine("cut", "turned.net", "--amount", 7).splitlines()], ["a", "b"])


class LastBy(Results):
    def test_last_departure_at_a_node(self) -> None:
        """In paradox.net the label of v is 2 + 2 d up to 8, so departure 4 is at v at 10."""
        pair = self.solved("paradox.net", 60)
        self.assertEqual(self.fine("times", *pair, "--node", "v", "--by", 10), "departures up to 4.00 are at v by 10.00\n")
        self.assertEqual(self.fine("times", *pair, "--node", "v", "--by", "7:10", "--clock", "7:00"), "departures up to 07:04 are at v by 07:10\n")
        self.assertEqual(self.fine("times", *pair, "--by", 2), "no departure is at t by 2.00\n")
        self.assertEqual(self.fine("times", *pair, "--by", 500), "departures up to 60.00 (end of report) are at t by 500.00\n")
        self.assertTrue(self.fine("times", *pair, "4", "--node", "v").startswith("leave 4.00  arrive 10.00  takes 6.00\n"))
        self.refused(1, "no node V (the nearest name is v)", "times", *pair, "--node", "V")


class Why(Results):
    def test_rules_statuses_and_lines_as_words(self) -> None:
        self.write("x.net", "nfot 1\nsource s\nsink t\nlink a s t 1.5 1\nend\n")
        for words, wanted in [(["N8"], "N8: a word in a number's place is no number"), (["network line 4: N8", "x.net"], "x.net line 4: link a s t 1.5 1"), (["status 7"], "to do: round to"),
                              (["no C3 t 2 7 5"], "printed label 7, right label 5")]:
            self.assertIn(wanted, self.fine("why", *words))
        self.refused(1, "there is no rule N99", "why", "N99")

    def test_nothing_to_explain(self) -> None:
        self.refused(2, "standard input was empty: give a line of nfot or a rule", "why")
        self.refused(2, "put -- before the command: nfot-py why -- nfot solve x.net --horizon 60", "why", "nfot", "solve", "x.net", "--horizon", 60)

    def test_line_ends_of_windows(self) -> None:
        net, report = self.solved("two.net", 4)
        self.write("w.report", (self.folder / report).read_text().replace("\n", "\r\n"))
        self.refused(4, "w.report line 1: P3: the line has the ending of Windows (CR LF)", "times", net, "w.report", 1)
        self.assertIn("the line has the ending of Windows", self.run_tool("why", "--", "nfot", "check", net, "w.report")[2])
        done = subprocess.run(command("check", net, "w.report"), stdout=subprocess.PIPE, stderr=subprocess.PIPE, env=ENVIRONMENT)
        self.assertEqual((done.returncode, done.stdout, told(done.stderr).split(b": the line")[0]), (4, b"", b"nfot: report line 1: P3\nnfot-py check: w.report"))


class Given(Results):
    def test_names_of_files_do_as_well(self) -> None:
        net, report = self.solved("bridge.net", 60)
        value, run = nfot.read_pair(net, report)
        for call in (nfot.phases, nfot.gap, nfot.same, nfot.unsaid, nfot.mismatch, lambda *given: nfot.compare(*given, *given), lambda *given: nfot.thin(*given, 3),
                     lambda *given: nfot.candidate(*given, 3, {}, {}), lambda one, two: nfot.report_of_flows(one, {"bridge": [(0, 1)]}, 1)):
            self.assertEqual(repr(call(net, report)), repr(call(value, run)))
        phase = nfot.candidate(value, run, 3, {"bridge": 4}, {"home": 1, "work": 1})
        for reader in (lambda given: nfot.read_loads(EXAMPLES / "tolled.loads", given), lambda given: nfot.loads_of_vehicles(given, {"bridge": [0, 1]}),
                       lambda given: nfot.broken(given, phase)):
            self.assertEqual(reader(net), reader(value))
        for given in (lambda: nfot.queues_of(report), lambda: nfot.table(report), lambda: nfot.supply_of("x.routes", 1), lambda: nfot.report_of_flows(net, "x.loads", 1)):
            with self.assertRaisesRegex(nfot.Refused, "read it by read_report|read the file by read_"):
                given()

    def test_values_in_the_wrong_order(self) -> None:
        net, report = self.solved("bridge.net", 60)
        value, run = nfot.read_pair(net, report)
        for given in (lambda: nfot.write_network("x.net", value), lambda: nfot.write_report("x.report", run), lambda: nfot.write_network(run, "x.net"),
                      lambda: nfot.write_report(value, "x.report")):
            with self.assertRaisesRegex(nfot.Refused, r"^write_(network|report)\((net|report), path\) takes a (network|report) first, not "):
                given()
        self.assertEqual(os.listdir(), [report])

    def test_values_of_another_kind(self) -> None:
        """A pair in place of pairs, a tuple in place of a link, a name of a file in place of a table or a report."""
        net, report = self.solved("bridge.net", 60)
        value, run = nfot.read_pair(net, report)
        link = nfot.Link("a", "s", "t", 1, 1)
        self.write("roads.csv", HEAD + "1,2,1,5,\n")
        for wanted, given in [("supply: pairs are needed, as", lambda: nfot.Network("s", "t", [link], (0, 4))), ("a link is made by Link", lambda: nfot.Network("s", "t", [("a", "s")])),
                              ("rates of bridge: pairs are needed", lambda: nfot.load(value, {"bridge": 4}, 1)), ("points of a curve: pairs", lambda: nfot.Curve([1, 2])),
                              ("queues?: pairs|queue of bridge: points: pairs", lambda: nfot.Report(1, 1, {"home": [(0, 0)], "work": [(0, 10)]}, queues={"bridge": [3]}, network=value)),
                              ("reports by name are needed", lambda: nfot.side_by_side([run], "bridge", ["queue"])), ("reports by name", lambda: nfot.side_by_side({"a": report}, None, ["takes"])),
                              ("the phase has other nodes or links", lambda: nfot.broken(EXAMPLES / "two.net", nfot.phases(value, run)[0])),
                              ("roads are needed, as read_roads", lambda: nfot.network_of_table("roads.csv", "1", "2")),
                              ("route r: a pair of links and pieces is needed", lambda: nfot.routes(value, {"r": ["bridge"]}, 1)),
                              ("route r: a pair of links and pieces", lambda: nfot.report_of_routes(value, {"r": 3}, 1)), ("link bridge: pairs are", lambda: nfot.report_of_flows(value, {"bridge": [1]}, 1)),
                              ("nothing.net: there is no file", lambda: nfot.read_network(b"nothing.net"))]:
            with self.assertRaisesRegex(nfot.Fault, wanted):
                given()
        self.assertEqual(nfot.supply_of({"r": ("bridge", [(0, 4)])}, 1), [(0, 4), (1, 0)])
        self.assertEqual(nfot.network_of_table(nfot.read_roads("roads.csv"), 1, 2).network.source, "1")
        self.assertEqual((nfot.clock(1.5, "6:00"), nfot.short(0.5), nfot.parse(3), nfot.read_demand(self.write("c.csv", "10\n20\n"), 7.5).pieces[1][0]), ("06:01:30", "0.5", 3, Fraction(15, 2)))

    def test_a_report_that_is_cut(self) -> None:
        net, report = self.solved("bridge.net", 60)
        text = (self.folder / report).read_text()
        for end in (text.index("inflow bridge") + 8, text.index("-\n") + 2 - 4):
            self.write("cut.report", text[:end])
            self.assertIn("is the report cut? Its last line isn't `end`", self.run_tool("times", net, "cut.report")[2])

    def test_a_file_that_is_too_long(self) -> None:
        self.write("long.net", "#" * 1048577)
        self.assertIn("long.net has 1048577 bytes, and 1048576 are allowed", self.run_tool("why", "--", "nfot", "show", "long.net")[2])
        self.write("long.loads", "#" * 1048577)
        told_why = self.run_tool("why", "--", "nfot", "load", EXAMPLES / "bridge.net", "long.loads", "--horizon", 1)[2]
        self.assertIn("long.loads has 1048577 bytes, and 1048576 are allowed", told_why)

    def test_slopes_that_are_missing(self) -> None:
        self.write("x.flows", "flows 1\nflow bridge 4\nslope home 1\nend\n")
        status, _, err = self.run_tool("thin", EXAMPLES / "bridge.net", 0, "x.flows")
        self.assertEqual((status, err), (15, "nfot-py thin: x.flows has no line `slope` of work, so the slope counts as 0\n"))


class Outputs(Results):
    def test_closed(self) -> None:
        """Nothing is done where standard output is closed; a help text that can't be written isn't hidden."""
        pair = self.solved("bridge.net", 60)
        for words in (["queues", *pair, "--csv", "x.csv"], ["solve-on", pair[0], "--horizon", 60, "--out", "x.report"], ["show", pair[0]]):
            done = subprocess.run(["sh", "-c", 'exec "$@" >&-', "sh", *command(*words)], stderr=subprocess.PIPE, env=ENVIRONMENT)
            self.assertEqual((done.returncode, done.stderr.decode()), (9, f"nfot-py {words[0]}: standard output is closed, so nothing was done and no file was written\n"))
        self.assertEqual(sorted(os.listdir()), ["bridge.report"])
        with open("/dev/full", "w") as full:
            done = subprocess.run(command("table", "--help"), stdout=full, stderr=subprocess.PIPE, env=ENVIRONMENT)
        self.assertEqual((done.returncode, done.stderr), (9, b"nfot-py table: standard output: No space left on device\n"))
