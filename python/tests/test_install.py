"""An installed copy, in a fresh virtual environment outside the checkout and without the program."""
import hashlib
import importlib.util
import os
import pathlib
import shutil
import subprocess
import sys
import tempfile
import unittest
import zipfile
import nfot

from .cases import EXAMPLES, ROOT, Case, independent


@unittest.skipUnless(all(map(importlib.util.find_spec, ("venv", "pip"))), "the modules venv and pip aren't here: python3-venv and python3-pip have them")
class Installed(Case):
    def setUp(self) -> None:
        self.place = self.folder()
        subprocess.run([sys.executable, "-m", "venv", "--without-pip", str(self.place / "venv")], check=True, stdout=subprocess.PIPE, stderr=subprocess.PIPE)
        self.bin = self.place / "venv" / ("Scripts" if os.name == "nt" else "bin")

    def run_there(self, *words: str) -> "subprocess.CompletedProcess[str]":
        """Runs a command of the environment, outside the checkout and without the program."""
        environment = {"PATH": str(self.place), "HOME": str(self.place)}
        return subprocess.run([str(self.bin / words[0]), *words[1:]], cwd=self.place, env=environment, stdout=subprocess.PIPE,
                              stderr=subprocess.PIPE, text=True)

    def test_an_installed_copy_works_without_the_program(self) -> None:
        """It is imported from any folder, and finds the slow program that came with it."""
        for options in (["--no-build-isolation"], ["--force-reinstall"]):
            words = ["--python", str(self.bin / "python"), "install", "--no-index", "--no-compile", *options, str(ROOT)]
            pip = subprocess.run([sys.executable, "-m", "pip", *words], cwd=self.place, stdout=subprocess.PIPE, stderr=subprocess.STDOUT, text=True)
            self.assertEqual(pip.returncode, 0, pip.stdout)
        shown = self.run_there("python", "-m", "nfot.slow", "solve", str(EXAMPLES / "one.net"), "--horizon", "-1")
        self.assertEqual((shown.returncode, shown.stdout), (2, ""), shown.stderr)
        script = ("import nfot, sys\nnet = nfot.read_network(sys.argv[1])\nrun = nfot.solve(net, 2)\nprint(run.text(), end='')\n"
                  "print(nfot.check(net, run), nfot.program().proved, nfot.__version__)")
        done = self.run_there("python", "-c", script, str(EXAMPLES / "one.net"))
        status, report, _ = independent("app").run(["solve", str(EXAMPLES / "one.net"), "--horizon", "2"])
        self.assertEqual((done.stdout, status), (f"{report.decode()}yes False {nfot.__version__}\n", 0))
        self.assertEqual(done.stderr, "nfot: no proved program found; using the slow one (put nfot on the PATH, or set NFOT)\n")
        if (ROOT / "python/nfot/__main__.py").exists():
            done = self.run_there("nfot-py", "solve", str(EXAMPLES / "one.net"), "--horizon", "2")
            self.assertEqual((done.returncode, done.stdout.encode()), (0, report), done.stderr)


@unittest.skipUnless(shutil.which("git") and shutil.which("bash"), "git or bash isn't here")
class Released(Case):
    def setUp(self) -> None:
        """A committed tree with the script, a source and a program that was built after it."""
        self.top = self.folder()
        for name, text in (("crates/one/src/lib.rt", ""), ("crates/one/notes.md", ""), ("crates/nfot/out/nfot", "#!/bin/sh\n"), ("crates.txt", ""), (".gitignore", "out/\n")):
            (self.top / name).parent.mkdir(parents=True, exist_ok=True)
            (self.top / name).write_text(text)
            os.utime(self.top / name, (1_000_000, 1_000_000))
        (self.top / "crates/nfot/out/nfot").chmod(0o755)
        os.utime(self.top / "crates/nfot/out/nfot", (2_000_000, 2_000_000))
        (self.top / "pyproject.toml").write_text("")
        (self.top / "tools").mkdir()
        shutil.copy(ROOT / "tools/release.sh", self.top / "tools")
        for words in (["init"], ["add", "."], ["-c", "user.name=n", "-c", "user.email=n@n", "commit", "-m", "one"]):
            subprocess.run(["git", *words], cwd=self.top, check=True, stdout=subprocess.PIPE, stderr=subprocess.PIPE)

    def release(self) -> "subprocess.CompletedProcess[str]":
        """Runs the script."""
        return subprocess.run(["bash", "tools/release.sh", "."], cwd=self.top, stdout=subprocess.PIPE, stderr=subprocess.PIPE, text=True)

    def test_a_program_older_than_a_source_is_refused(self) -> None:
        os.utime(self.top / "crates/one/src/lib.rt", (3_000_000, 3_000_000))
        done = self.release()
        self.assertEqual((done.returncode, done.stdout), (1, ""))
        self.assertEqual(done.stderr, "release: crates/nfot/out/nfot is older than crates/one/src/lib.rt: run bash .ci/run again\n")

    def test_the_build_that_is_taken_is_named(self) -> None:
        """A newer page is no source, nor is what stands in out."""
        os.utime(self.top / "crates/one/notes.md", (3_000_000, 3_000_000))
        done, program = self.release(), (self.top / "crates/nfot/out/nfot").read_bytes()
        self.assertEqual(done.stdout, "release: takes crates/nfot/out/nfot of 1970-01-24 03:33 UTC, sha256 "
                                      f"{hashlib.sha256(program).hexdigest()}; no source is newer\n")
        self.assertEqual((done.returncode, done.stderr), (1, "release: pyproject.toml has no version\n"))


class Built(Case):
    def test_the_wheel_has_the_package_and_one_copy_of_the_slow_program(self) -> None:
        sys.path.insert(0, str(ROOT / "tools"))
        self.addCleanup(sys.path.remove, str(ROOT / "tools"))
        wheels = __import__("wheels")
        with tempfile.TemporaryDirectory() as folder:
            with zipfile.ZipFile(pathlib.Path(folder) / wheels.build_wheel(folder)) as wheel:
                names = set(wheel.namelist())
                metadata = wheel.read(f"nfot-{nfot.__version__}.dist-info/METADATA").decode()
        for path in (ROOT / "python/nfot").rglob("*"):
            if path.is_file() and "__pycache__" not in path.parts:
                self.assertIn(f"nfot/{path.relative_to(ROOT / 'python/nfot').as_posix()}", names)
        self.assertLessEqual({"nfot/py.typed", "nfot/data/rules.json", "nfot/slow/independent/__main__.py"}, names)
        self.assertIn("Requires-Python: >=3.9\n", metadata)
        self.assertNotIn("Requires-Dist", metadata)
        self.assertFalse((ROOT / "python/nfot/slow/independent").exists())

    def test_the_version_is_the_same_everywhere(self) -> None:
        self.assertIn(f'version = "{nfot.__version__}"', (ROOT / "pyproject.toml").read_text())
        self.assertIn(f"\nversion: {nfot.__version__}\n", (ROOT / "CITATION.cff").read_text())


if __name__ == "__main__":
    unittest.main()
