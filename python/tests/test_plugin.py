"""The plugin of pytest, in a pytest of its own: with the Python of SIXEL_PYTEST, or the first one that has a pytest."""

import functools
import os
import pathlib
import re
import subprocess
import sys
import tempfile
import unittest

from shared import ROOT

TESTS = r'''
import pytest
from sixel_check.testing import assert_portable, assert_same_picture

RED = b'\x1bPq"1;1;1;6#0;2;100;0;0#0~\x1b\\'
UNCOVERED = b'\x1bPq"1;1;2;1#0;2;0;0;0#0@\x1b\\'

def test_good(sixel_pictures):
    assert_portable(RED)
    assert_same_picture(RED, RED)
    assert sixel_pictures.add(RED).is_portable

def test_bad():
    assert_portable(UNCOVERED)

def test_other():
    assert_same_picture(RED, RED.replace(b"100", b"50"))

def test_collected(sixel_pictures):
    sixel_pictures.add(UNCOVERED, "first")
    sixel_pictures.add(RED, "second")
    sixel_pictures.add(b"x", "third")

def test_fails_by_itself(sixel_pictures):
    sixel_pictures.add(UNCOVERED)
    assert False, "its own reason"

@pytest.mark.parametrize("name", ["a/b", "c d"])
def test_each(name):
    assert_portable(UNCOVERED, on=())

class TestClass:
    def test_method(self, sixel_pictures):
        sixel_pictures.add(UNCOVERED)
'''


@functools.lru_cache(maxsize=None)
def find_python():
    """A Python that has pytest, or nothing."""
    for python in (os.environ.get("SIXEL_PYTEST"), sys.executable, "/usr/bin/python3"):
        if python and os.path.exists(python):
            if subprocess.run([python, "-c", "import pytest"], capture_output=True).returncode == 0:
                return python
    return None


class Plugin(unittest.TestCase):
    def setUp(self):
        if not find_python():
            self.skipTest("pytest isn't installed (python3-pytest)")
        folder = tempfile.TemporaryDirectory()
        self.addCleanup(folder.cleanup)
        self.folder = pathlib.Path(folder.name)
        (self.folder / "test_it.py").write_text(TESTS)

    def run_pytest(self, *words):
        # As the entry point of the wheel loads it.
        if "no:tmpdir" not in words:
            words = [f"--basetemp={self.folder}/temporary", *words]
        words = ["-p", "sixel_check.pytest_plugin", "-p", "no:cacheprovider", *words]
        python = os.pathsep.join(filter(None, (str(ROOT / "python"), os.environ.get("PYTHONPATH"))))
        paths = {"PYTHONPATH": python, "PYTEST_DISABLE_PLUGIN_AUTOLOAD": "1", "TMPDIR": str(self.folder)}
        paths = {**os.environ, **paths}
        how = {"cwd": self.folder, "env": paths, "capture_output": True, "text": True}
        got = subprocess.run([find_python(), "-m", "pytest", *words], **how)
        self.assertEqual(got.stderr, "")
        return got.stdout

    def test_failures(self):
        said = self.run_pytest("-rA")
        self.assertRegex(said, "7 failed, 1 passed")
        self.assertRegex(said, "E +AssertionError: the picture isn't portable: broken Rows 3")
        self.assertRegex(said, r"E +> 3 raster 1 1 2 1 +\"1;1;2;1")
        self.assertRegex(said, "E +AssertionError: xterm shows two pictures: in column 0, row 0")
        self.assertRegex(said, "\n2 of 3 pictures aren't portable\nfirst: the picture isn't portable: broken Rows 3\n")
        self.assertRegex(said, "\nthird: the picture isn't portable: refused NotSixel 0\n")
        self.assertRegex(said, "E +AssertionError: its own reason")
        # The failures are those of the tests, and show no code of the plugin.
        self.assertNotIn("ERROR", said)
        self.assertNotIn("raise AssertionError", said)
        for folder in re.findall(r"pictures: (\S+)/ has xterm.png", said):
            self.assertTrue(folder.startswith(f"{self.folder}/temporary/"), folder)
            self.assertTrue((pathlib.Path(folder) / "foot.png").exists())

    def test_folder(self):
        self.run_pytest("--sixel-pictures=kept")
        kept = sorted(path.name for path in (self.folder / "kept").iterdir())
        self.assertEqual(
            kept,
            [
                "test_it.py_TestClass_test_method",
                "test_it.py_test_bad",
                "test_it.py_test_collected",
                "test_it.py_test_each_a_b_",
                "test_it.py_test_each_c_d_",
                "test_it.py_test_fails_by_itself",
                "test_it.py_test_other",
            ],
        )
        for name in kept:
            self.assertTrue(list((self.folder / "kept" / name).glob("xterm*.png")))

    def test_without_temporary_folder(self):
        said = self.run_pytest("-p", "no:tmpdir", "-k", "test_good or test_bad")
        self.assertRegex(said, "1 failed, 1 passed")

    def test_help(self):
        said = self.run_pytest("--help")
        self.assertIn("--sixel-pictures=FOLDER", said)
        self.assertIn("sixel_pictures", self.run_pytest("--fixtures"))
