"""Doctests of the package, its form, and the sentence for an old Python."""
import ast
import doctest
import importlib
import importlib.util
import inspect
import os
import pathlib
import pkgutil
import pydoc
import re
import shutil
import subprocess
import sys
import unittest
from typing import Any, Dict, Iterator, List, Tuple

import nfot

from .cases import EXAMPLES, ROOT, Case

PACKAGE = ROOT / "python/nfot"
PAGE = ROOT / "docs/PYTHON.md"


def load_tests(loader: unittest.TestLoader, tests: unittest.TestSuite, pattern: object) -> unittest.TestSuite:
    """The tests of this module, and the doctests of each module of the package."""
    tests.addTests(doctest.DocTestSuite(nfot))
    for module in pkgutil.walk_packages([str(PACKAGE)], "nfot."):
        if not module.name.endswith("__main__"):
            importlib.import_module(module.name)
            tests.addTests(doctest.DocTestSuite(sys.modules[module.name]))
    return tests


def sources() -> Iterator[pathlib.Path]:
    """The modules of the package and of its tests."""
    return (path for path in sorted((ROOT / "python").rglob("*.py")))


class Form(Case):
    def test_modules_and_functions_are_short_and_documented(self) -> None:
        for path in sources():
            text = path.read_text(encoding="utf-8")
            tree = ast.parse(text)
            if path.is_relative_to(PACKAGE):
                self.assertLessEqual(len(text.splitlines()), 300, path)
                self.assertTrue(ast.get_docstring(tree), path)
            for node in ast.walk(tree):
                if isinstance(node, (ast.FunctionDef, ast.AsyncFunctionDef)):
                    self.assertLessEqual((node.end_lineno or 0) - node.lineno + 1, 40, f"{path} {node.name}")

    def test_no_ten_lines_stand_twice(self) -> None:
        seen = {}
        for path in sources():
            lines = [(number, line.strip()) for number, line in enumerate(path.read_text(encoding="utf-8").splitlines(), 1) if line.strip()]
            for at in range(len(lines) - 9):
                key = tuple(line for _, line in lines[at:at + 10])
                self.assertNotIn(key, seen, f"{path} line {lines[at][0]} and {seen.get(key)}")
                seen[key] = f"{path} line {lines[at][0]}"

    def test_nothing_but_the_standard_library_is_imported(self) -> None:
        allowed = set(getattr(sys, "stdlib_module_names", ())) | {"nfot"}
        for path in PACKAGE.rglob("*.py"):
            for node in ast.parse(path.read_text(encoding="utf-8")).body:  # an import in a function is one of what the caller uses
                names = [alias.name for alias in node.names] if isinstance(node, ast.Import) else []
                names += [node.module or ""] if isinstance(node, ast.ImportFrom) and not node.level else []
                for name in names if len(allowed) > 1 else []:
                    self.assertIn(name.split(".")[0], allowed, path)


def blocks() -> Iterator[Tuple[int, str]]:
    """The blocks of Python on the page of the package: the line above each, and its text."""
    begun, lines = 0, list[str]()
    for number, line in enumerate(PAGE.read_text(encoding="utf-8").splitlines(), 1):
        if line.startswith("```"):
            if begun:
                yield begun, "\n".join([*lines, ""])
            begun, lines = 0 if begun else number, []
        elif begun:
            lines.append(line)


def section(title: str) -> List[str]:
    """The rows of the table in a section of the page, without its head."""
    text = PAGE.read_text(encoding="utf-8").partition(f"\n## {title}\n")[2].partition("\n## ")[0]
    return [line for line in text.splitlines() if line.startswith("|")][2:]


def public_names() -> List[str]:
    """The names that the package takes from its modules."""
    tree = ast.parse((PACKAGE / "__init__.py").read_text(encoding="utf-8"))
    return [alias.name for node in ast.walk(tree) if isinstance(node, ast.ImportFrom) for alias in node.names]


class Page(Case):
    def test_blocks_print_what_they_show(self) -> None:
        """The blocks run one after the other in a copy of examples; one that imports a package that isn't installed is skipped."""
        examples = shutil.copytree(EXAMPLES, self.folder() / "examples")
        self.addCleanup(os.chdir, os.getcwd())
        os.chdir(examples)
        session: Dict[str, Any] = {}
        for line, text in blocks():
            with self.subTest(line=line):
                for name in re.findall(r"^>>> import (\w+)$", text, re.MULTILINE):
                    if importlib.util.find_spec(name) is None:
                        self.skipTest(f"docs/PYTHON.md line {line}: {name} isn't installed")
                told: List[str] = []
                test = doctest.DocTestParser().get_doctest(text, {}, PAGE.name, str(PAGE), line)
                self.assertTrue(test.examples)
                test.globs = session
                failed, _ = doctest.DocTestRunner(verbose=False).run(test, out=told.append, clear_globs=False)
                self.assertEqual(failed, 0, "".join(told))

    def test_all_public_names_are_listed(self) -> None:
        """Each name stands in the list or among the faults, and each name there is public."""
        rows = section("All public names")
        listed = {name for row in rows + section("Faults") for name in re.findall(r"`([A-Za-z]\w*)(?:\([^`]*)?`", row)}
        heads = {name for row in rows + section("Faults") for name in re.findall(r"`(\w+)(?:\([^`]*)?`", row.split("|")[1])}
        self.assertEqual((set(public_names()) - listed, heads - set(public_names())), (set(), set()))

    def test_help_lists_all_public_names(self) -> None:
        """`help` lists what `__all__` names, and no function without it."""
        self.assertEqual(sorted(nfot.__all__), sorted(public_names()))
        self.assertEqual(len(set(nfot.__all__)), len(nfot.__all__))
        told = pydoc.render_doc(nfot, renderer=pydoc.plaintext)
        for name in public_names():
            self.assertRegex(told, rf"(?m)^    (class )?{name}\b")

    def test_words_of_calls_are_right(self) -> None:
        """The words in brackets are the first parameters of the call, in order."""
        for row in section("All public names"):
            for name, words in re.findall(r"`(\w+)\(([^)`]*)\)`", row.split("|")[1]):
                wanted = list(inspect.signature(getattr(nfot, name)).parameters)
                shown = words.split(", ") if words else []
                self.assertEqual(shown, wanted[:len(shown)], name)

    def test_all_faults_are_listed(self) -> None:
        kinds = [name for name in public_names() if isinstance(getattr(nfot, name), type) and issubclass(getattr(nfot, name), nfot.Fault)]
        self.assertEqual(sorted(row.split("|")[1] for row in section("Faults")), sorted(f"`{name}`" for name in kinds))

    def test_the_page_is_short(self) -> None:
        self.assertLessEqual(len(PAGE.read_text(encoding="utf-8").splitlines()), 350)


class OldPython(Case):
    def test_an_old_python_ends_with_a_sentence(self) -> None:
        """A SyntaxError would say nothing about the version."""
        text = (PACKAGE / "__init__.py").read_text(encoding="utf-8")
        ast.parse(text, feature_version=(3, 6))
        self.assertNotIn("annotations", text)
        script = "import sys\nsys.version_info = (3, 7, 9, 'final', 0)\nimport nfot"
        done = subprocess.run([sys.executable, "-B", "-c", script], cwd=ROOT / "python", stdout=subprocess.PIPE, stderr=subprocess.PIPE, text=True)
        self.assertEqual((done.returncode, done.stderr), (1, "nfot: Python 3.9 or later is needed, and this is Python 3.7\n"))
        self.assertTrue(re.search(r"^requires-python = \">=3.9\"$", (ROOT / "pyproject.toml").read_text(), re.MULTILINE))


if __name__ == "__main__":
    unittest.main()
