"""The examples of docs/PYTHON.md, as they are written."""

import doctest
import glob
import os
import pathlib
import re
import tempfile
import unittest

import sixel_check
from pages import run_report
from shared import RED, ROOT, UNCOVERED
from sixel_check import testing

PAGE = (ROOT / "docs/PYTHON.md").read_text()
BLOCKS = re.findall(r"^```(\w*)\n(.*?)^```", PAGE, re.DOTALL | re.MULTILINE)


class Page(unittest.TestCase):
    def test_sessions(self):
        text = "\n".join(block for kind, block in BLOCKS if kind == "python" and block.startswith(">>>"))
        test = doctest.DocTestParser().get_doctest(text, {}, "docs/PYTHON.md", None, 0)
        here = os.getcwd()
        os.chdir(ROOT)
        try:
            said = []
            result = doctest.DocTestRunner().run(test, out=said.append)
        finally:
            os.chdir(here)
        self.assertGreater(result.attempted, 8)
        self.assertEqual(result.failed, 0, "".join(said))

    def test_failure(self):
        """The failing test fails with the lines of the page, but for the folder."""
        program = next(block for kind, block in BLOCKS if "def test_plot():" in block)
        lines = next(block for kind, block in BLOCKS if block.startswith("E ")).splitlines()
        wanted = [re.sub("^E +", "", line) for line in lines]
        names = {}
        exec(program, names)
        with self.assertRaises(AssertionError) as caught:
            names["test_plot"]()
        said = f"AssertionError: {caught.exception}".splitlines()
        self.assertEqual([line.strip() for line in said[:-1]], wanted[:-1])
        self.assertEqual(said[-1].partition(" has ")[2], wanted[-1].partition(" has ")[2])
        # With the change that the page tells it passes.
        exec(program.replace("~", "~~"), names)
        names["test_plot"]()

    def test_report(self):
        """The report of three plots, of which one isn't portable."""
        call, said = next(block for kind, block in BLOCKS if block.startswith("$ sixel-report")).splitlines()
        _, _, files, *words = call.split()
        here = os.getcwd()
        with tempfile.TemporaryDirectory() as folder:
            os.chdir(folder)
            try:
                os.mkdir("plots")
                for name, text in (("a", RED), ("b", UNCOVERED), ("c", RED)):
                    pathlib.Path(f"plots/{name}.six").write_bytes(text)
                self.assertEqual(run_report(*sorted(glob.glob(files)), *words), (1, f"{said}\n"))
            finally:
                os.chdir(here)

    def test_code(self):
        """Each piece of code is Python."""
        for kind, block in BLOCKS:
            if kind == "python" and not block.startswith(">>>"):
                compile(block, "docs/PYTHON.md", "exec")

    def test_names(self):
        """The page has each name that the package offers, or one that gives it."""
        others = {"TERMINALS", "Names", "Pixel", "Source", "Outcome", "Group", "Event"}
        for name in {*sixel_check.__all__, *("assert_portable", "assert_same_picture")} - others:
            self.assertRegex(PAGE, rf"\b{name}\b")
        self.assertTrue(hasattr(testing, "assert_portable"))
