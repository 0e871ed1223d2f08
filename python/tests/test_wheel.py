"""The wheel: the same bytes each time, and installed by pip it has the program."""

import concurrent.futures
import os
import pathlib
import re
import subprocess
import sys
import tempfile
import unittest
import zipfile

import sixel_check
from shared import PIXEL, ROOT


class Wheel(unittest.TestCase):
    @classmethod
    def setUpClass(cls):
        folder = tempfile.TemporaryDirectory()
        cls.addClassCleanup(folder.cleanup)
        cls.folder = pathlib.Path(folder.name)
        with concurrent.futures.ThreadPoolExecutor() as pool:
            cls.wheels = list(pool.map(cls.build, (cls.folder / "first", cls.folder / "a second")))

    @staticmethod
    def build(folder):
        folder.mkdir()
        got = subprocess.run([ROOT / "package", "--wheel", folder], capture_output=True, text=True)
        if got.returncode == 125 and "python3-wheel" in got.stderr:
            raise unittest.SkipTest(got.stderr.strip())
        if got.returncode:
            raise AssertionError(got.stderr)
        return next(folder.iterdir())

    def run_program(self, *words, **options):
        return subprocess.run(words, capture_output=True, text=True, **options)

    def install(self, wheel, target):
        words = ["install", "-q", "--no-index", "--no-deps", "--target", target, wheel]
        got = self.run_program(sys.executable, "-m", "pip", *words)
        if "No module named pip" in got.stderr:
            self.skipTest("pip isn't installed (python3-pip)")
        return got

    def test_bytes(self):
        first, second = self.wheels
        self.assertEqual(first.name, second.name)
        self.assertEqual(first.read_bytes(), second.read_bytes())

    def test_contents(self):
        version = self.run_program(os.environ["SIXEL_PROGRAM"], "--version").stdout.split()[1]
        self.assertEqual(self.wheels[0].name, f"sixel_check-{version}-py3-none-manylinux_2_34_x86_64.whl")
        with zipfile.ZipFile(self.wheels[0]) as wheel:
            metadata = wheel.read(f"sixel_check-{version}.dist-info/METADATA").decode()
            self.assertIn("Requires-Python: >=3.9\n", metadata)
            self.assertNotIn("Requires-Dist", metadata)
            program = wheel.read(f"sixel_check-{version}.data/scripts/sixel")
            self.assertEqual(program, pathlib.Path(os.environ["SIXEL_PROGRAM"]).read_bytes())
            modules = {pathlib.PurePath(name).name for name in wheel.namelist() if name.startswith("sixel_check/")}
        files = {path.name for path in (ROOT / "python/sixel_check").iterdir() if path.is_file()}
        self.assertEqual(modules, files)

    def test_installed(self):
        target = self.folder / "target"
        got = self.install(self.wheels[0], target)
        self.assertEqual(got.returncode, 0, got.stderr)
        script = f"import sixel_check; print(sixel_check.check({PIXEL!r}), sixel_check.__file__)"
        plain = {name: value for name, value in os.environ.items() if name != "SIXEL_PROGRAM"}
        got = self.run_program(sys.executable, "-c", script, env={**plain, "PYTHONPATH": str(target)}, cwd="/")
        self.assertEqual((got.stdout, got.stderr), (f"portable 1 1 {target}/sixel_check/__init__.py\n", ""))
        got = self.run_program(target / "bin/sixel", "--version")
        self.assertRegex(got.stdout, r"^sixel \d+\.\d+")
        source, report = ROOT / "examples/wide/rainbow.six", self.folder / "report.html"
        words = [target / "bin/sixel-report", source, "--wide", "-o", report]
        got = self.run_program(*words, env={**plain, "PYTHONPATH": str(target)}, cwd="/")
        said = f"sixel-report: wrote {report}: 1 of 1 string is portable\n"
        self.assertEqual((got.returncode, got.stdout, got.stderr), (0, "", said))
        self.assertIn("--page: #f6f7f9;", report.read_text())

    def test_other_machine(self):
        """pip says that the wheel isn't for this machine."""
        other = self.folder / re.sub("x86_64", "aarch64", self.wheels[0].name)
        other.write_bytes(self.wheels[0].read_bytes())
        got = self.install(other, self.folder / "none")
        self.assertIn("is not a supported wheel on this platform", got.stderr)

    def test_usage(self):
        for words in (["--wheel", "/none"], ["--wheel", "a", "b"], ["--wheels"]):
            got = self.run_program(ROOT / "package", *words)
            self.assertEqual((got.returncode, got.stdout), (3, ""), words)
        self.assertIn("--wheel", self.run_program(ROOT / "package", "--help").stdout)


class Package(unittest.TestCase):
    def test_names(self):
        """What the package offers is what it lists."""
        for name in sixel_check.__all__:
            self.assertTrue(hasattr(sixel_check, name), name)
        self.assertEqual(sorted(sixel_check.__all__), sorted(set(sixel_check.__all__)))
