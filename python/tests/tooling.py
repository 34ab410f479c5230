"""What the tests of the command `nfot-py` share: a folder of their own, and a run of the command in this process."""
from __future__ import annotations

import contextlib
import io
import os
import pathlib
import sys
import tempfile
import unittest
from unittest import mock

from nfot import tools

EXAMPLES = pathlib.Path(__file__).resolve().parents[2] / "examples"


class Case(unittest.TestCase):
    """Runs `nfot-py` in a folder of its own."""

    def setUp(self) -> None:
        folder = tempfile.TemporaryDirectory()
        self.addCleanup(folder.cleanup)
        self.folder = pathlib.Path(folder.name)
        self.addCleanup(os.chdir, os.getcwd())
        os.chdir(self.folder)

    def write(self, name: str, text: str, encoding: str = "utf-8") -> str:
        """Writes a file into the folder; its name."""
        (self.folder / name).write_bytes(text.encode(encoding))
        return name

    def run_tool(self, *words: object, stdin: str = "") -> tuple[int, str, str]:
        """Status, standard output and standard error of `nfot-py` with these words."""
        out, err = io.StringIO(), io.StringIO()
        given = io.TextIOWrapper(io.BytesIO(stdin.encode()))
        with mock.patch.object(sys, "stdin", given), contextlib.redirect_stdout(out), contextlib.redirect_stderr(err):
            try:
                status = tools.main([str(word) for word in words])
            except SystemExit as end:  # argparse, behind --help
                status = int(end.code or 0)
        return status, out.getvalue(), err.getvalue()

    def fine(self, *words: object, stdin: str = "") -> str:
        """Standard output of a run that ends with status 0."""
        status, out, err = self.run_tool(*words, stdin=stdin)
        self.assertEqual(status, 0, err)
        return out

    def refused(self, status: int, wanted: str, *words: object, stdin: str = "") -> None:
        """Asserts that a run prints nothing but one line with this text, which names the tool, and ends with this status."""
        found, out, err = self.run_tool(*words, stdin=stdin)
        self.assertEqual((out, err.count("\n"), found), ("", 1, status), err)
        self.assertIn(wanted, err)
        self.assertTrue(err.startswith("nfot-py"), err)
