"""Which program is used, what ends it, temporary files, and whole files."""
import contextlib
import errno
import io
import os
import pathlib
import signal
import subprocess
import sys
import tempfile
import time
import unittest
from unittest import mock

import nfot
from nfot import faults, tools
from nfot import program as _program_function  # noqa: F401  (the call, not the module)
from nfot.program import in_files, progress, run, write_beside

from .cases import EXAMPLES, ROOT, SHOWS, SLOW, Case, example

MODULE = sys.modules["nfot.program"]
FULL = pathlib.Path("/dev/full")


class Which(Case):
    def alone(self, **environment: str) -> "contextlib.AbstractContextManager[object]":
        """An environment with these variables, without NFOT and without a program on the PATH."""
        return mock.patch.dict(os.environ, {"PATH": str(self.folder()), **environment}, clear=True)

    def test_the_environment_comes_first(self) -> None:
        with mock.patch.dict(os.environ, {"NFOT": str(SLOW)}):
            self.assertEqual((nfot.program().words, nfot.program().proved), ((str(SLOW),), False))
        with self.program_of("exit 0") as place:
            self.assertEqual(nfot.program(), nfot.program().__class__((place,), True, place))
        with mock.patch.dict(os.environ, {"NFOT": "/nowhere/nfot"}):
            fault = self.faulted(nfot.NotFound, "NFOT is /nowhere/nfot, and there is no program of this name", nfot.show, EXAMPLES / "one.net")
            self.assertEqual(fault.status, 127)

    def test_another_program_is_refused(self) -> None:
        """One that doesn't show a network as nfot does, also one that prints without end, and `nfot-py` itself, which would run itself."""
        place = self.folder() / "nfot-py"
        place.write_text(SHOWS)
        place.chmod(0o755)
        for other in ("/bin/true", "/bin/false", "/usr/bin/yes", "/bin/echo", str(place)):
            with mock.patch.dict(os.environ, {"NFOT": other}):
                fault = self.faulted(nfot.NotFound, f"{os.path.basename(other)} is not nfot: it doesn't show a network as nfot does", nfot.program)
                self.assertEqual(fault.status, 127)

    def test_then_the_path(self) -> None:
        with self.program_of("exit 0") as place, self.alone():
            with mock.patch.dict(os.environ, {"PATH": os.path.dirname(place)}):
                self.assertEqual(nfot.program().place, place)

    def test_then_the_build_of_the_checkout_and_the_slow_one_with_one_warning(self) -> None:
        told = io.StringIO()
        with self.alone(), mock.patch.object(MODULE, "_warned", False), contextlib.redirect_stderr(told):
            with mock.patch.object(MODULE, "__file__", str(self.folder() / "python/nfot/program.py")):
                found = [nfot.program(), nfot.program()]
        self.assertEqual((found[0].words, found[0].proved), ((sys.executable, str(ROOT / "python/nfot/slow/guard.py"), str(ROOT / "tests/independent")), False))
        self.assertEqual(told.getvalue(), "nfot: no proved program found; using the slow one (put nfot on the PATH, or set NFOT)\n")
        checkout = self.folder()
        build = checkout / "crates/nfot/out/nfot"
        build.parent.mkdir(parents=True)
        build.write_text(SHOWS)
        build.chmod(0o755)
        with self.alone(), mock.patch.object(MODULE, "__file__", str(checkout / "python/nfot/program.py")):
            self.assertEqual((nfot.program().place, nfot.program().proved), (str(build.resolve()), True))

    def test_without_any_program(self) -> None:
        with self.alone(), mock.patch("nfot.slow.HERE", self.folder() / "a/b/c"):
            with mock.patch.object(MODULE, "__file__", str(self.folder() / "python/nfot/program.py")):
                self.faulted(nfot.NotFound, "neither the program nfot nor the slow one is here", nfot.program)


    def test_the_slow_one_by_itself(self) -> None:
        """It runs whatever NFOT is, with its own output and status."""
        words = [sys.executable, "-m", "nfot.slow", "check", str(EXAMPLES / "two.net"), str(EXAMPLES / "late.report")]
        done = subprocess.run(words, env={**os.environ, "NFOT": "/nowhere/nfot", "PYTHONPATH": str(ROOT / "python")}, stdout=subprocess.PIPE, stderr=subprocess.PIPE, text=True)
        self.assertEqual((done.returncode, done.stdout, done.stderr), (10, "no C3 t 2 7 5\n", "nfot: no equilibrium\n"))


class Ends(Case):
    def test_a_killed_program(self) -> None:
        for name in ("KILL", "TERM", "XFSZ"):
            with self.program_of(f"kill -{name} $$; sleep 5"):
                fault = self.faulted(nfot.Killed, f"nfot solve was ended by the signal SIG{name}", nfot.solve, example("one"), 2)
                assert isinstance(fault, nfot.Killed)
                self.assertEqual((fault.signal, fault.status), (f"SIG{name}", 128 + getattr(signal, f"SIG{name}")))

    @unittest.skipUnless(os.name == "posix", "another system tells no new parent")
    def test_a_slow_program_ends_with_its_parent(self) -> None:
        """Also where the parent is killed at once, and can do nothing about it."""
        script = ("import subprocess, sys\nfrom nfot import slow\n"
                  "process = subprocess.Popen([*slow.words(), 'solve', sys.argv[1], '--horizon', '1200'])\nprint(process.pid, flush=True)\nprocess.wait()")
        environment = {**os.environ, "PYTHONPATH": str(ROOT / "python")}
        with subprocess.Popen([sys.executable, "-c", script, str(EXAMPLES / "siouxfalls.net")], env=environment, stdout=subprocess.PIPE) as parent:
            assert parent.stdout is not None
            child = int(parent.stdout.readline())
            time.sleep(1)
            parent.kill()
            begun = time.monotonic()
            parent.stdout.read()  # the child has this pipe too, so it ends with the child
        self.assertLess(time.monotonic() - begun, 5)
        self.assertGreater(child, 0)

    @unittest.skipUnless(sys.platform.startswith("linux"), "another system doesn't end a child with its parent")
    def test_the_program_ends_with_its_parent(self) -> None:
        """Where SIGTERM ends a Python script, and where `kill -9` ends the command or the script."""
        calls = ("import sys, nfot; nfot.solve(sys.argv[1], 9)", "import sys; from nfot import tools; tools.main(['solve-on', sys.argv[1], '--horizon', '9'])",
                 "import sys; from nfot import tools; tools.main(['solve', sys.argv[1], '--horizon', '9'])")
        for call, number in zip(calls, (signal.SIGTERM, signal.SIGKILL, signal.SIGKILL)):
            begun, ours = os.pipe()
            with self.program_of(f"echo >&{ours}; exec sleep 60"):
                with subprocess.Popen([sys.executable, "-c", call, str(EXAMPLES / "two.net")], cwd=ROOT / "python", stdout=subprocess.PIPE, stderr=subprocess.PIPE,
                                      pass_fds=[ours], env={**os.environ, "TMPDIR": str(self.folder())}) as parent:
                    os.close(ours)
                    self.assertEqual(os.read(begun, 1), b"\n", call)
                    parent.send_signal(number)
                    early = time.monotonic()
                    self.assertEqual(os.read(begun, 1), b"", call)  # the program has this pipe too, so it has ended
            os.close(begun)
            self.assertLess(time.monotonic() - early, 30)

    def test_a_timeout_ends_the_program(self) -> None:
        with self.program_of("exec sleep 60"):
            self.faulted(nfot.Timeout, "nfot solve took more than 0.2 seconds", nfot.solve, example("one"), 2, timeout=0.2)

    def test_a_program_that_can_not_be_run(self) -> None:
        with self.program_of("") as place:
            pathlib.Path(place).write_text("#!/nowhere/sh\n")
            self.faulted(nfot.NotFound, "nfot can't be run: No such file", run, ["show"])

    def test_another_program_of_this_name_is_seen(self) -> None:
        for script in ("exit 0", "echo hello", "echo no; exit 10", "exit 3", "exit 99", "echo end"):
            with self.program_of(script):
                for call in (nfot.solve, nfot.quick):
                    self.faulted(nfot.Fault, "nfot", call, example("one"), 2)
                self.faulted(nfot.Fault, "nfot", nfot.check, example("two"), EXAMPLES / "late.report")
                for other in (nfot.forever, lambda net: nfot.gen(7, 3, 2), lambda net: nfot.load(net, {}, 2), lambda net: nfot.settle(net, {})):
                    if (script, other) != ("echo end", other):
                        self.faulted(nfot.Fault, "nfot", other, example("one"))

    def test_output_cut_at_any_line_is_a_fault(self) -> None:
        text = nfot.solve(example("one"), 2).text().splitlines(True)
        for kept in range(len(text)):
            folder = self.folder()
            (folder / "cut").write_text("".join(text[:kept]))
            with self.program_of(f"cat {folder}/cut"):
                self.faulted(nfot.Fault, "the report of nfot", nfot.solve, example("one"), 2)


class Temporary(Case):
    def test_files(self) -> None:
        with in_files({"network": "nfot 2\n", "report": ""}) as names:
            self.assertEqual(pathlib.Path(names["network"]).read_text(), "nfot 2\n")
        self.assertFalse(os.path.exists(names["network"]))

    def test_a_missing_folder(self) -> None:
        with mock.patch.dict(os.environ, {"TMPDIR": "/nowhere"}):
            self.faulted(nfot.Fault, "the folder for temporary files, /nowhere, isn't there", nfot.solve, example("one"), 2)
        with mock.patch.object(tempfile, "tempdir", "/nowhere"), mock.patch.dict(os.environ):
            os.environ.pop("TMPDIR", None)
            self.faulted(nfot.Fault, "no temporary folder can be made", nfot.solve, example("one"), 2)

    def test_a_full_disk(self) -> None:
        """With a limit of 20 bytes a file, each write of a file fails half way."""
        script = ("import resource, sys, nfot\nnet = nfot.read_network(sys.argv[1])\nresource.setrlimit(resource.RLIMIT_FSIZE, (20, 20))\n"
                  "for call in (lambda: nfot.solve(net, 2), lambda: nfot.write_network(net, sys.argv[2])):\n"
                  "    try:\n        call()\n        print('written')\n    except nfot.Fault as fault:\n        print(fault)\n")
        path = self.folder() / "old"
        path.write_text("as before")
        done = subprocess.run([sys.executable, "-c", script, str(EXAMPLES / "two.net"), str(path)], cwd=ROOT / "python", stdout=subprocess.PIPE,
                              stderr=subprocess.PIPE, text=True)
        self.assertRegex(done.stdout, r"^a temporary file in .* can't be written: File too large\n.*old: it can't be written: File too large\n$")
        self.assertEqual((path.read_text(), os.listdir(path.parent)), ("as before", ["old"]))


class Whole(Case):
    def test_a_file_is_replaced_as_a_whole(self) -> None:
        folder = self.folder()
        (folder / "file").write_text("old")
        (folder / "file").chmod(0o640)
        (folder / "link").symlink_to(folder / "file")
        write_beside(folder / "link", "new")
        self.assertEqual(((folder / "file").read_text(), (folder / "link").is_symlink()), ("new", True))
        self.assertEqual((folder / "file").stat().st_mode & 0o777, 0o640)
        self.assertEqual(sorted(os.listdir(folder)), ["file", "link"])

    def test_a_fault_leaves_the_file_as_it_was(self) -> None:
        folder = self.folder()
        (folder / "file").write_text("old")
        for name in ("write", "fsync", "replace"):
            with mock.patch.object(os, name, side_effect=OSError(28, "No space left on device")):
                fault = self.faulted(nfot.Fault, "file: it can't be written: No space left on device", write_beside, folder / "file", "new")
            self.assertEqual(((folder / "file").read_text(), os.listdir(folder), fault.status), ("old", ["file"], 9))
        self.faulted(nfot.Fault, "No such file", write_beside, folder / "nowhere/file", "new")
        self.faulted(nfot.Fault, "directory", write_beside, folder, "new")

    @unittest.skipUnless(FULL.exists(), "there is no /dev/full here")
    def test_a_full_disk_is_never_a_report_of_16_kB_and_status_0(self) -> None:
        """A write that fails half way is a fault, whatever was written before."""
        net = example("two")
        report = nfot.solve(net, 4)
        for call in (lambda: nfot.write_report(report, FULL), lambda: nfot.write_network(net, FULL), lambda: write_beside(FULL, "x" * 10 ** 6)):
            self.faulted(nfot.Fault, "/dev/full: it can't be written: No space left", call)
        self.assertTrue(FULL.is_char_device())

    def test_standard_output(self) -> None:
        script = "import sys, nfot\nnfot.write_network(nfot.read_network(sys.argv[1]), '-')"
        words = [sys.executable, "-c", script, str(EXAMPLES / "two.net")]
        done = subprocess.run(words, cwd=ROOT / "python", stdout=subprocess.PIPE, text=True)
        self.assertEqual(done.stdout, example("two").text())
        if FULL.exists():
            with open(FULL, "w") as full:
                done = subprocess.run(words, cwd=ROOT / "python", stdout=full, stderr=subprocess.PIPE, text=True)
            self.assertIn("standard output: it can't be written: No space left", done.stderr)
            self.assertNotEqual(done.returncode, 0)

    def test_progress_on_a_terminal_alone(self) -> None:
        for terminal, wanted in ((False, ""), (True, "\rsolve: phase 10\rsolve: phase 9 \r" + " " * 14 + "\r")):
            told = io.StringIO()
            told.isatty = lambda: terminal  # type: ignore[method-assign]
            with contextlib.redirect_stderr(told), progress("solve") as show:
                show("phase 10")
                show("phase 9")
            self.assertEqual(told.getvalue(), wanted)


class Memory(Case):
    def test_short(self) -> None:
        """Whatever says that memory is short gives one Fault with status 1, in the library and for the command; other faults stay."""
        for fault in (MemoryError(), OSError(errno.ENOMEM, "Cannot allocate memory"), RuntimeError("can't start new thread")):
            with mock.patch.object(subprocess, "Popen", side_effect=fault), self.program_of("exit 0"):
                self.assertEqual(self.faulted(nfot.Fault, "^memory is short: ", nfot.show, EXAMPLES / "one.net").status, 1)
                self.assertIs(type(nfot.outcome(nfot.solve, EXAMPLES / "one.net", 1)), nfot.Fault)
                err = io.StringIO()
                with contextlib.redirect_stderr(err):
                    self.assertEqual(tools.main(["solve", str(EXAMPLES / "one.net"), "--horizon", "1"]), 1)
                self.assertRegex(err.getvalue(), r"\Anfot-py solve: memory is short: .*\n\Z")
        with self.assertRaises(RuntimeError), faults.with_memory():
            raise RuntimeError("another one")

    @unittest.skipUnless(sys.platform.startswith("linux"), "the limit is one of Linux")
    def test_limit(self) -> None:
        """By a limit on memory a command ends with 0, or with status 1 and one line that isn't a traceback's; at the first limit Python has no thread."""
        for limit in (26, 34):
            done = subprocess.run(["/bin/sh", "-c", f'ulimit -v {limit}000; exec "$0" -m nfot show "$1"', sys.executable, str(EXAMPLES / "one.net")],
                                  stdout=subprocess.PIPE, stderr=subprocess.PIPE, text=True, env={**os.environ, "PYTHONPATH": str(ROOT / "python")})
            if "nfot" in done.stderr and "Traceback" not in done.stderr or not done.stderr:
                self.assertIn((done.returncode, "memory is short" in done.stderr), [(0, False), (1, True)], done.stderr)


if __name__ == "__main__":
    unittest.main()
