"""`nfot-py why`: all rules and statuses of docs/FORMATS.md are explained in its words."""
from __future__ import annotations

import re

from .tooling import EXAMPLES, Case

FORMATS = EXAMPLES.parent / "docs/FORMATS.md"
DECIMAL = "nfot 1\nsource s\nsink t\nlink a s t 1.5 1\nend\n"


class Why(Case):
    def said(self, lines: list[str], *files: object) -> list[list[str]]:
        """What is said of each line, in one run."""
        out = self.fine("why", *files, stdin="".join(line + "\n" for line in lines))
        found: list[list[str]] = []
        for line in out.splitlines():
            if not line.startswith("  "):
                self.assertEqual(line, lines[len(found)])
                found.append([])
            else:
                found[-1].append(line.strip())
        return found

    def test_all_rules(self) -> None:
        """Each rule that the page has in a table is said in its words."""
        kinds = {"N": "network", "P": "report", "L": "loads", "S": "flows", "G": "routes"}
        rows = [line.split("|") for line in FORMATS.read_text(encoding="utf-8").splitlines() if re.match(r"\| ?[NPLSGC]\d", line)]
        rules = {name: row[2].strip() for row in rows for name in row[1].strip().split(", ")}
        counts = {letter: sum(name[0] == letter for name in rules) for letter in "NPLSGC"}
        self.assertEqual(counts, {"N": 22, "P": 14, "L": 12, "S": 11, "G": 17, "C": 8})
        lines = [f"nfot: {kinds[name[0]]} line 7: {name}" if name[0] != "C" else f"no {name} t 2 7 5" for name in rules]
        for (name, text), told in zip(rules.items(), self.said(lines)):
            text = rules[{"S": "L", "G": "L", "P": "N"}[name[0]] + name[1:]] if text.startswith("as ") else text
            self.assertTrue(told[0].startswith(f"{name}: {text}"), told)

    def test_all_statuses(self) -> None:
        lines = {"nfot: memory": 1, "nfot: usage": 2, "nfot: shelf failed": 3, "nfot: shelf too long": 3, "nfot: stopped: phases 5": 5, "nfot: stopped: patterns 1 9": 6,
                 "nfot: stopped: passed 1 advance - sum 2 1": 7, "nfot: output": 9, "nfot: no equilibrium": 10, "nfot: augments 10000": 11, "nfot: unbounded": 14,
                 "nfot: no thin flow": 15, "nfot: earlier": 16}
        for status, told in zip(lines.values(), self.said(list(lines))):
            self.assertTrue(told[0].startswith(f"status {status}: "), told)
        self.assertIn("nfot-py solve-on", " ".join(self.said(["nfot: stopped: patterns 1 100000"])[0]))
        self.assertEqual(self.said(["label s 0 0"]), [[]])

    def test_statuses_of_killed_runs(self) -> None:
        """Those of a shell: 124 of `timeout`, 128 and the number of a signal (9, 15, 25), 127 without a program."""
        for word, wanted in [("124", "`timeout`, or the package, ended the command at its limit of seconds"), ("137", "the signal SIGKILL ended the command"),
                             ("status 143", "the signal SIGTERM ended the command"), ("153", "the signal SIGXFSZ ended the command (the limit of `ulimit -f` on a file)")]:
            out = self.fine("why", word)
            self.assertIn(wanted, out)
            self.assertIn("none of its output is a result", out)
        self.assertIn("there is no program of this name", self.fine("why", "127"))
        self.refused(1, "there is no status 128 of nfot", "why", "128")

    def test_unknown_words(self) -> None:
        """They are refused at once: nothing is read from standard input, which may be a terminal."""
        self.refused(2, "kiled is no file, no rule", "why", "kiled", stdin="nfot: memory\n")
        self.refused(2, "none.net is no file", "why", "N8", "none.net")
        self.write("x.net", DECIMAL)
        self.refused(2, "the file x.net says nothing of what was answered, and standard input was empty", "why", "x.net")

    def test_line_of_the_file(self) -> None:
        self.write("x.net", DECIMAL)
        self.assertEqual(self.said(["nfot: network line 4: N8"], "x.net")[0][0], "x.net line 4: link a s t 1.5 1")

    def test_command(self) -> None:
        """The output and the status of the command stay; below each line stands what it means."""
        self.write("x.net", DECIMAL)
        self.write("lost.net", "nfot 1\nsource s\nsink t\nlink a s t 1 1\nlink b u t 1 1\nend\n")
        for words, status, wanted in [
                ("nfot show x.net", 4, "x.net line 4: link a s t 1.5 1\n  N8: "), ("show lost.net", 4, "u"), ("nfot show none.net", 3, "none.net: there is no file"),
                ("nfot solve x.net --horizon 2x", 2, "2x is no value of --horizon"), ("nfot solve x.net --horison 2", 2, "--horison is no option of solve"),
                ("nfot solve x.net --horizon 2.5", 2, "2.5 is no value of --horizon: write 5/2"),
                ("nfot solve x.net", 2, "--horizon or --forever"), ("nfot check x.net", 2, "check takes 2 files: NET REPORT"), ("nfot sole x.net", 2, "sole is no command")]:
            found, out, err = self.run_tool("why", "--", *words.split())
            self.assertEqual((found, out), (status, ""), err)
            self.assertIn(wanted, err)
        found, out, err = self.run_tool("why", "--", "nfot", "check", EXAMPLES / "two.net", EXAMPLES / "late.report")
        self.assertEqual((found, out), (10, "no C3 t 2 7 5\n"))
        self.assertIn("at t: departure 2, printed label 7, right label 5", err)
        self.refused(2, "ls: behind -- is a command of nfot", "why", "--", "ls")
        self.refused(2, "nothing: behind --", "why", "--")
