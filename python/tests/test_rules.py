"""What lines of the program mean, and that the packed tables are those of the pages."""
import re
import subprocess
import sys
import unittest

import nfot
from nfot import rules

from .cases import EXAMPLES, ROOT, Case


class Tables(Case):
    def test_the_packed_tables_are_those_of_the_pages(self) -> None:
        done = subprocess.run([sys.executable, "-B", str(ROOT / "tools/rules.py"), "--check"])
        self.assertEqual(done.returncode, 0, "run tools/rules.py")

    def test_each_rule_and_status_has_a_text(self) -> None:
        for letter, most in (("N", 22), ("P", 14), ("L", 12), ("S", 11), ("G", 17), ("C", 8)):
            for number in range(1, most + 1):
                self.assertGreater(len(nfot.meaning(f"{letter}{number}")), 10)
        for number in range(18):
            self.assertGreater(len(nfot.status(number)[0]), 15)
        self.assertEqual(nfot.meaning("S2"), nfot.meaning("L2"))
        self.faulted(nfot.OutOfRange, "there is no rule Z9", nfot.meaning, "Z9")
        self.faulted(nfot.OutOfRange, "there is no status 99", nfot.status, 99)


class Lines(Case):
    def test_a_rule_of_a_file(self) -> None:
        path = self.folder() / "my.net"
        path.write_text("nfot 1\nsource s\nsink t\nlink a s t 1 1,5\ninflow 0 3\nend\n")
        told = nfot.explain("nfot: network line 4: N8", [str(path)])
        self.assertEqual(told[0], f"{path} line 4: link a s t 1 1,5")
        self.assertTrue(told[1].startswith("N8: a word in a number's place is no number"))
        self.assertIn("1,5 is no number: write 3/2", told[2])
        path.write_text("nfot 1\nsource s\nsink t\nlink a s t 1 1\nlink b w t 1 1\nend\n")
        self.assertIn("to w", nfot.explain("nfot: network line 0: N20", [str(path)])[-1])
        self.assertEqual(nfot.explain("nfot: loads line 3: L7"), ["L7: no link has the name"])
        self.assertEqual(nfot.explain("nfot: loads line 3: L99"), ["L99: there is no such rule"])
        report = path.parent / "cut.report"
        report.write_text("report 1\nhorizon 4\n")
        told = nfot.explain("nfot: report line 0: P14", [str(EXAMPLES / "two.net"), str(report)])
        self.assertIn("is the report cut?", told[-1])

    def test_a_verdict(self) -> None:
        self.assertEqual(nfot.explain("no C3 t 2 7 5")[1], "at t: departure 2, printed label 7, right label 5")

    def test_statuses(self) -> None:
        for line, status in [("nfot: stopped: phases 5", 5), ("nfot: stopped: patterns 1 5", 6), ("nfot: augments 5", 11), ("nfot: unbounded", 14),
                             ("nfot: no thin flow", 15), ("nfot: earlier", 16), ("nfot: memory", 1), ("nfot: shelf too long", 3)]:
            self.assertTrue(nfot.explain(line)[0].startswith(f"status {status}: "), line)
        self.assertTrue(nfot.explain("nfot: stopped: phases 5", ended=12)[0].startswith("status 12: "))
        self.assertEqual([nfot.explain(line) for line in ("yes", "", "hello world", "report 1")], [[], [], [], []])
        self.assertIn("/nowhere: there is no file of this name", nfot.explain("nfot: shelf failed", ["/nowhere"]))

    def test_wrong_words(self) -> None:
        for words, wanted in [(["solve", "x", "--horizon", "2.5"], "2.5 is no value of --horizon: write 5/2"),
                              (["solve", "x", "y", "--horizon=2"], "solve takes 1 files: NET, and 2 are given"),
                              (["solve", "x"], "--horizon or --forever is missing"), (["check", "x", "y", "--phases", "2"], "--phases is no option of check"),
                              (["gen", "--number", "1", "--rungs", "2"], "--number and --rungs and --horizon is missing"),
                              (["quick", "x", "--amount", "1", "--amount", "2"], "--amount stands twice"), (["slove"], "slove is no command"),
                              ([], "no command is named"), (["solve", "x", "--forever", "--horizon", "1"], "options exclude each other")]:
            self.assertIn(wanted, rules.wrong_words(words))
        for option in ("--amount", "--amount=-1", "--amount=-1.5"):
            words = ["quick", "x", *([option, "-1"] if option == "--amount" else [option])]
            self.assertRegex(rules.wrong_words(words), r"^-1(.5)? is no value of --amount: it takes a number of at least 0$")
        self.assertEqual(rules.files_of(["solve", "--horizon", "2", "x.net", "--", "-y"]), ["x.net", "-y"])

    def test_values_outside_their_range(self) -> None:
        """The ranges are those of docs/FORMATS.md; the values at both ends are right."""
        page = (ROOT / "docs/FORMATS.md").read_text(encoding="utf-8")
        commands = {"--phases": "solve x --horizon 1", "--patterns": "solve x --horizon 1", "--augments": "quick x --amount 1",
                    "--number": "gen --rungs 2 --horizon 1", "--rungs": "gen --number 1 --horizon 1"}
        for option, words in commands.items():
            found = re.search(rf"`{option}` ?\|.* from (\d) to ([\d,]+)", page)
            assert found
            least, most = int(found[1]), int(found[2].replace(",", ""))
            for value in (least - 1, most + 1, "9" * 5000, "2.5", "", "٣"):
                said = rules.wrong_words([*words.split(), f"{option}={value}"])
                self.assertTrue(said.endswith(f" is no value of {option}: it takes {least} to {most}, in decimal digits alone"), said)
            for right in (least, most, f"000{most}"):
                self.assertNotIn("no value of", rules.wrong_words([*words.split(), f"{option}={right}"]))


if __name__ == "__main__":
    unittest.main()
