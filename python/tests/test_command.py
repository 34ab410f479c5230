"""The command `nfot-py`: help, commands that pass through, faults, output that fails, closed pipes and signals."""
from __future__ import annotations

import os
import re
import signal
import subprocess
import sys
import time
import unittest
from pathlib import Path
from typing import Any
from unittest import mock

import nfot
from nfot import tools
from nfot.program import WARNING
from nfot.tools import citing

from .cases import SHOWS
from .tooling import EXAMPLES, Case

resource: Any
try:
    import resource
except ImportError:
    resource = None

PYTHON = str(EXAMPLES.parent / "python")
BEFORE = 100_000  # bytes of a file that takes 40 more; temporary files are shorter
ENVIRONMENT = dict(os.environ, PYTHONPATH=PYTHON)


def command(*words: object) -> list[str]:
    """The words that run `nfot-py` as a process."""
    return [sys.executable, "-m", "nfot", *map(str, words)]


def limited() -> None:
    """Lets this process write up to a size of a file: a longer write takes a part first, as on a disk that becomes full."""
    resource.setrlimit(resource.RLIMIT_FSIZE, (BEFORE + 40, BEFORE + 40))


def told(text: bytes) -> bytes:
    """Standard error without the warning that is printed where the slow program is used."""
    return text.replace(WARNING.encode() + b"\n", b"")


class Help(Case):
    def test_all_have_help_with_an_example(self) -> None:
        overview = self.fine("--help")
        for name in [*tools.TOOLS, *tools.COMMANDS]:
            self.assertIn(f"  {name} ", overview)
            out = self.fine(name, "--help")
            self.assertIn("example", out)
            self.assertTrue(out.startswith(f"usage: nfot-py {name} "), out)

    def test_without_words(self) -> None:
        status, out, err = self.run_tool()
        self.assertEqual((status, out), (2, ""))
        self.assertIn("usage: nfot-py", err)

    def test_wrong_words(self) -> None:
        self.refused(2, "sole is no command or tool", "sole")
        self.refused(2, "required: NET", "times")

    def test_cite(self) -> None:
        """The entry has the title, the authors, the version and the year of CITATION.cff, and the commit of a checkout."""
        told, cited = self.fine("--cite"), (EXAMPLES.parent / "CITATION.cff").read_text(encoding="utf-8")
        found = dict(re.findall(r"^  (\w+) = \{+([^{}]*)\}+,$", told, re.MULTILINE))
        self.assertTrue(told.startswith("@software{nfot,\n") and told.endswith("}\n"))
        for line in (f'title: "{found["title"]}"', f'  - name: "{found["author"]}"', f"version: {found['version']}", f"date-released: {found['year']}-"):
            self.assertIn(f"\n{line}", cited)
        with mock.patch.object(citing, "commit", return_value="0123"):
            self.assertIn("\n  note = {commit 0123},\n}", self.fine("--cite"))
        with mock.patch.object(subprocess, "run", side_effect=FileNotFoundError):
            self.assertNotIn("note", self.fine("--cite"))
            self.write("commit.txt", "4567\n")
            with mock.patch.object(citing, "RELEASED", self.folder / "commit.txt"):
                self.assertIn("\n  note = {commit 4567},\n}", self.fine("--cite"))

    def test_version(self) -> None:
        self.assertTrue(self.fine("--version").startswith(f"nfot-py {nfot.__version__}, with the "))


class Passing(Case):
    def test_bytes_and_status(self) -> None:
        """The ten commands print what the program prints, and end as it does."""
        words = nfot.program().words
        for given in (["show", EXAMPLES / "two.net"], ["check", EXAMPLES / "two.net", EXAMPLES / "late.report"], ["quick", EXAMPLES / "two.net", "--amount", "3"],
                      ["solve", "nothing.net", "--horizon", "2"], ["solve", EXAMPLES / "two.net", "--horizon", "x"]):
            here = subprocess.run(command(*given), stdout=subprocess.PIPE, stderr=subprocess.PIPE, env=ENVIRONMENT)
            there = subprocess.run([*words, *map(str, given)], stdout=subprocess.PIPE, stderr=subprocess.PIPE)
            self.assertEqual((here.returncode, here.stdout, told(here.stderr)), (there.returncode, there.stdout, there.stderr))

    def test_check_of_a_stopped_report(self) -> None:
        """The answer is the program's; a line beside it says up to which departure it holds."""
        with self.assertRaises(nfot.Stopped) as stopped:
            nfot.solve(EXAMPLES / "bridge.net", 60, phases=1)
        report = stopped.exception.report
        assert report is not None
        wanted = f"nfot-py check: stopped.report was checked up to departure {report.reached}, where it ends, not up to 60: phases 1\n"
        for text, more in ((report.text(), wanted), (nfot.solve(EXAMPLES / "bridge.net", 60).text(), "")):
            self.write("stopped.report", text)
            done = subprocess.run(command("check", EXAMPLES / "bridge.net", "stopped.report"), stdout=subprocess.PIPE, stderr=subprocess.PIPE, env=ENVIRONMENT)
            self.assertEqual((done.returncode, done.stdout, told(done.stderr).decode()), (0, b"yes\n", more))

    def test_process_substitution(self) -> None:
        """A file may be an open descriptor, as a shell makes one of `<(nfot solve ..)`."""
        report, into = os.pipe()
        with open(into, "w") as file:
            file.write(nfot.solve(EXAMPLES / "two.net", 4).text())
        words = ["check", EXAMPLES / "two.net", f"/dev/fd/{report}"]
        done = subprocess.run(command(*words), stdout=subprocess.PIPE, pass_fds=[report], env=ENVIRONMENT)
        os.close(report)
        self.assertEqual((done.returncode, done.stdout), (0, b"yes\n"))

    def test_numbers(self) -> None:
        from nfot.tools.passing import plain
        self.assertEqual(plain(["solve", "x.net", "--horizon", "2.5"]), ["solve", "x.net", "--horizon", "5/2"])
        self.assertEqual(plain(["quick", "2.5", "--amount=1e3"]), ["quick", "2.5", "--amount=1000"])
        self.assertEqual(plain(["solve", "x", "--horizon", "7:30", "--horizon", "07", "--horizon", "x"]), ["solve", "x", "--horizon", "450", "--horizon", "07", "--horizon", "x"])


class Output(Case):
    def solved(self) -> tuple[Path, str]:
        """A network and its report."""
        return EXAMPLES / "two.net", self.write("two.report", nfot.solve(EXAMPLES / "two.net", 4).text())

    def test_full_disk(self) -> None:
        """A tool whose output can't be written says so, in one line, and doesn't end with 0."""
        for words in (["times", *self.solved(), "1"], ["city", "--roads"], ["--help"], ["solve-on", EXAMPLES / "two.net", "--horizon", "4"]):
            with open("/dev/full", "w") as full:
                done = subprocess.run(command(*words), stdout=full, stderr=subprocess.PIPE, env=ENVIRONMENT)
            self.assertEqual((done.returncode, told(done.stderr).count(b"\n")), (9, 1), done.stderr)
            self.assertIn(b"standard output: No space left on device", done.stderr)

    @unittest.skipIf(resource is None, "this system has no limit on files")
    def test_cut_file(self) -> None:
        """A file that takes only a part gives 9 and one line, also where Python has no buffer for standard output."""
        net, report = self.solved()
        self.write("many.net", "nfot 2\nsource s\nsink t\n" + "".join(f"link a{number} s t {number} 1\n" for number in range(99)) + "end\n")
        for words in (["solve-on", net, "--horizon", 4], ["series", net, report, "--every", "1/10"], ["phases", net, report], ["why", "N8"],
                      ["change", "many.net", "--without", "a7"], ["times", net, report, "--every", "1/10", "--csv", "-"], ["city", "--roads"], ["--help"]):
            self.write("cut", "-" * BEFORE)
            with open("cut", "a") as cut:
                done = subprocess.run(command(*words), stdout=cut, stderr=subprocess.PIPE, env=dict(ENVIRONMENT, PYTHONUNBUFFERED="1"), preexec_fn=limited)
            self.assertEqual((done.returncode, told(done.stderr).count(b"\n")), (9, 1), (words, done.stderr))
            self.assertIn(b"standard output: ", done.stderr)
            self.assertEqual((self.folder / "cut").stat().st_size, BEFORE + 40)

    def test_closed_pipe(self) -> None:
        """Whoever closes the pipe gets no line; the status is that of nfot."""
        for words in (["city", "--roads"], ["times", *self.solved(), "--every", "1/1000", "--csv", "-"], ["solve-on", EXAMPLES / "two.net", "--horizon", "4"]):
            for setting in ("", "1"):
                with subprocess.Popen(command(*words), stdout=subprocess.PIPE, stderr=subprocess.PIPE, env=dict(ENVIRONMENT, PYTHONUNBUFFERED=setting)) as process:
                    assert process.stdout is not None and process.stderr is not None
                    process.stdout.close()
                    err = process.stderr.read()
                self.assertEqual((told(err), process.returncode), (b"", 9), words)

    def test_whole_files(self) -> None:
        """A file that can't be replaced stays as it was, and nothing is left beside it."""
        self.write("times.csv", "old\n")
        self.run_tool("times", *self.solved(), "9", "--csv", "times.csv")
        self.assertEqual((self.folder / "times.csv").read_text(), "old\n")
        self.fine("times", *self.solved(), "1", "--csv", "times.csv")
        self.assertEqual(sorted(path.name for path in self.folder.iterdir()), ["times.csv", "two.report"])

    def test_seconds_on_a_terminal(self) -> None:
        """A command that takes over a second shows it on a terminal, and nothing where standard error is a file."""
        slow = self.write("slow", SHOWS + "sleep 1.5\necho done\n")
        os.chmod(slow, 0o755)
        environment = dict(ENVIRONMENT, NFOT=str(self.folder / slow))
        ours, theirs = os.openpty()
        done = subprocess.run(command("solve", EXAMPLES / "two.net", "--horizon", 4), stdout=subprocess.PIPE, stderr=theirs, env=environment)
        os.close(theirs)
        shown = os.read(ours, 1000)
        os.close(ours)
        self.assertEqual((done.returncode, done.stdout), (0, b"done\n"))
        self.assertTrue(shown.startswith(b"\rnfot solve: 1 s"), shown)
        quiet = subprocess.run(command("solve", EXAMPLES / "two.net", "--horizon", 4), stdout=subprocess.PIPE, stderr=subprocess.PIPE, env=environment)
        self.assertEqual((quiet.stdout, quiet.stderr), (b"done\n", b""))

    def test_terminated(self) -> None:
        """SIGTERM ends a run at once, with the program that it runs, and leaves no temporary files."""
        slow = self.write("slow", SHOWS + "exec sleep 60\n")
        os.chmod(slow, 0o755)
        (self.folder / "tmp").mkdir()
        environment = dict(ENVIRONMENT, NFOT=str(self.folder / slow), TMPDIR=str(self.folder / "tmp"))
        with subprocess.Popen(command("solve-on", EXAMPLES / "two.net", "--horizon", 4), stdout=subprocess.PIPE, env=environment) as process:
            for _ in range(100):
                time.sleep(0.05)
                if any((self.folder / "tmp").glob("nfot*")):  # tempfile tries the folder with a file of its own before
                    break
            begun = time.monotonic()
            process.send_signal(signal.SIGTERM)
            self.assertEqual(process.wait(timeout=10), 143)
        self.assertLess(time.monotonic() - begun, 5)
        self.assertEqual(list((self.folder / "tmp").iterdir()), [])


class SolveOn(Case):
    def test_past_the_patterns(self) -> None:
        """With one pattern a phase nfot stops with status 6; the report that goes on is an equilibrium up to the horizon."""
        net = EXAMPLES / "twelve.net"
        self.fine("solve-on", net, "--horizon", "8", "--patterns", 1, "--out", "twelve.report")
        self.assertTrue(nfot.check(net, "twelve.report"))
        self.assertEqual(nfot.read_report("twelve.report", net).reached, 8)

    def test_stopped_run(self) -> None:
        """A run that ends early prints what it has, says so in one line, and ends with the status of nfot."""
        status, out, err = self.run_tool("solve-on", EXAMPLES / "two.net", "--horizon", 4, "--phases", 1)
        self.assertEqual((status, err.count("\n")), (5, 1), err)
        self.assertIn("the run stopped at departure 1 of 4", err)
        self.assertEqual(nfot.report_of(out, "report", nfot.read_network(EXAMPLES / "two.net")).cause, "phases 1")

    def test_faults(self) -> None:
        (self.folder / "out").mkdir()
        self.refused(9, "out: it can't be written: Is a directory", "solve-on", EXAMPLES / "two.net", "--horizon", 4, "--out", "out")
        self.refused(2, "required: --horizon", "solve-on", EXAMPLES / "two.net")
        self.refused(3, "nothing.net: there is no file of this name", "solve-on", "nothing.net", "--horizon", 4)


class City(Case):
    def test_file_of_the_examples(self) -> None:
        self.assertEqual(self.fine("city", 2400, 1, 20, "0:200", "30:400", "60:200", "90:0"), (EXAMPLES / "siouxfalls.net").read_text(encoding="ascii"))

    def test_faults(self) -> None:
        for words, wanted in [((1, 1, 25), "25 is no zone"), ((0, 1, 20), "0 isn't above 0"), ((1, 1, 1), "1 is FROM and TO"), ((1, 1, 20, "5"), "5 is no START:RATE"),
                              ((1, 1), "UNIT, FROM and TO are needed"), (("--roads", 1), "--roads stands alone")]:
            self.refused(2, wanted, "city", *words)
