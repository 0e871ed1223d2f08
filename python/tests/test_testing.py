"""The assertions for tests: what passes, and what a failure says."""

import io
import os
import pathlib
import tempfile
import unittest
from unittest import mock

import sixel_check
from shared import PEN, PIXEL, RED, ROOT, UNCOVERED, WIDE
from sixel_check import testing
from sixel_check._commands import printable
from sixel_check.testing import Pictures, assert_portable, assert_same_picture

# Two columns in a box of one, 12 high.
OUTSIDE = b'\x1bPq"1;1;1;12#0;2;100;0;0#0!2~-!2~\x1b\\'
FAILURE = """\
the picture isn't portable: broken Outside 27 1 0
  a set bit outside the box
  commands, each with its offset:
    4 raster 1 1 1 12        "1;1;1;12
    13 define 0 2 100 0 0    #0;2;100;0;0
    25 select 0              #0
  > 27 repeat 2 63           !2~
    30 newline               -
    31 repeat 2 63           !2~
  also broken: Far, 2 times, first at 27
  fix: declare the true size."""


class WithFolder(unittest.TestCase):
    def setUp(self):
        folder = tempfile.TemporaryDirectory()
        self.addCleanup(folder.cleanup)
        self.folder = pathlib.Path(folder.name)
        patch = mock.patch.object(testing, "new_folder", lambda: pathlib.Path(tempfile.mkdtemp(dir=self.folder)))
        patch.start()
        self.addCleanup(patch.stop)

    def failure(self, call, *arguments, **options):
        with self.assertRaises(AssertionError) as caught:
            call(*arguments, **options)
        return str(caught.exception)

    def files(self):
        return sorted(path.name for path in self.folder.rglob("*.png"))


class AssertPortable(WithFolder):
    def test_portable(self):
        assert_portable(RED)
        assert_portable(io.BytesIO(RED))
        assert_portable(PIXEL, on=())
        assert_portable(WIDE, on="xterm", wide=True)
        assert_portable(PEN, on=["xterm", "mlterm"])
        assert_portable(ROOT / "examples/hi.six", on="")
        self.assertEqual(self.files(), [])

    def test_broken(self):
        text = b"\n" + OUTSIDE
        said = self.failure(assert_portable, text)
        self.assertTrue(said.startswith(FAILURE), said)
        folder = next(self.folder.iterdir())
        self.assertIn(f"  pictures: {folder}/ has xterm.png, mlterm.png, foot.png, konsole.png", said)
        for terminal in sixel_check.TERMINALS:
            shown = sixel_check.show(text, on=terminal, width=2, height=12)
            self.assertEqual((folder / f"{terminal}.png").read_bytes(), shown.png())

    def test_other_rules(self):
        said = self.failure(assert_portable, UNCOVERED)
        self.assertIn("broken Rows 3", said)
        self.assertIn("  also broken: Uncovered at 24\n", said)
        said = self.failure(assert_portable, UNCOVERED, on=iter(["konsole"]))
        self.assertIn("broken Rows 3", said)
        self.assertIn("  also broken: Uncovered at 24\n", said)
        said = self.failure(assert_portable, WIDE, on=())
        self.assertIn("broken Register 11", said)
        self.assertNotIn("also broken", said)

    def test_unmodelled(self):
        said = self.failure(assert_portable, b'\x1bPq"1;1;1;6#0;2;0;0;0#0!0~\x1b\\')
        self.assertIn(" has foot.png, konsole.png\n", said)
        self.assertIn("what xterm shows isn't known, from the command at 23 on", said)
        self.assertEqual(self.files(), ["foot.png", "konsole.png"])

    def test_refused(self):
        said = self.failure(assert_portable, b"\x1bPq#1;2~\x1b\\")
        self.assertIn("refused FieldCount 7\n", said)
        self.assertIn("    0 start 7bit 0           ESC Pq#1;2\n  > 7 no command             ~ESC \\\n", said)
        self.assertIn("  fix: after #, write only the register", said)
        self.assertIn("  pictures: none, too many or too few numbers in a command", said)
        self.assertEqual(self.files(), [])
        for text in (b"", b"\x89PNG\r\n\x1a\n", b"\xff" * 1000, PIXEL + b"\x00"):
            self.assertIn("the picture isn't portable: refused", self.failure(assert_portable, text))

    def test_large(self):
        """A hundred thousand commands, of which the last one is wrong."""
        text = b'\x1bPq"1;1;2;6#0;2;0;0;0#0~~' + b"?$" * 50_000 + b"#0;2;1;1;1\x1b\\"
        said = self.failure(assert_portable, text, on=())
        self.assertIn("> 100025 define 0 2 1 1 1", said)

    def test_kept_folder(self):
        test = "tests/test_x.py::test_plot[a/b ü] (call)"
        kept = mock.patch.object(testing, "kept_folder", self.folder / "new")
        with kept, mock.patch.dict(os.environ, PYTEST_CURRENT_TEST=test):
            for number in ("", "-2"):
                said = self.failure(assert_portable, UNCOVERED)
                folder = self.folder / f"new/tests_test_x.py_test_plot_a_b_ü_{number}"
                self.assertIn(f"{folder}/ has", said)
                self.assertTrue((folder / "foot.png").exists())


class AssertSamePicture(WithFolder):
    def test_same(self):
        assert_same_picture(RED, RED)
        assert_same_picture(RED, RED.replace(b"#0", b"#7"))
        assert_same_picture(RED, b'\x1bPq"1;1;1;6#5;2;100;0;0#5@$A$C$G$O$_\x1b\\', on=["xterm", "foot"])
        self.assertEqual(self.files(), [])

    def test_other_colour(self):
        said = self.failure(assert_same_picture, RED, RED.replace(b"100;0;0", b"99;0;0"))
        self.assertIn("xterm shows two pictures: in column 0, row 0 the first has #ff0000 and the second #fc0000", said)
        self.assertEqual(self.files(), ["xterm-first.png", "xterm-second.png"])

    def test_last_pixel(self):
        black = sixel_check.encode(b"P6 9 12 100\n" + bytes(3 * 9 * 12))
        dot = sixel_check.encode(b"P6 9 12 100\n" + bytes(3 * 9 * 12 - 1) + b"d")
        said = self.failure(assert_same_picture, black, dot, on="konsole")
        self.assertIn("konsole shows two pictures: in column 8, row 11 the first has #000000", said)

    def test_not_painted(self):
        """White that is painted isn't white that was there."""
        white = b'\x1bPq"1;1;2;6#0;2;0;0;0#1;2;100;100;100#0~#1~\x1b\\'
        bare = b'\x1bPq"1;1;2;6#0;2;0;0;0#0~\x1b\\'
        said = self.failure(assert_same_picture, white, bare, on="foot")
        self.assertIn("foot shows two pictures: in column 1, row 0", said)

    def test_other_size(self):
        larger = b'\x1bPq"1;1;2;6#0;2;100;0;0#0~~\x1b\\'
        self.assertIn("in column 1, row 0", self.failure(assert_same_picture, RED, larger))
        self.assertIn("in column 1, row 0", self.failure(assert_same_picture, larger, RED))

    def test_refused(self):
        self.assertIn("the second picture is refused NotSixel 0", self.failure(assert_same_picture, RED, b"x"))
        self.assertIn("the first picture is refused Empty", self.failure(assert_same_picture, b"\x1bPq\x1b\\", RED))

    def test_no_terminal(self):
        for on in ((), "", "kitty", "xterm,", "all,foot"):
            with self.assertRaisesRegex(ValueError, "on names one or more of xterm, mlterm"):
                assert_same_picture(RED, RED, on=on)

    def test_unmodelled(self):
        zero = RED.replace(b"#0~", b"#0!0~")
        said = self.failure(assert_same_picture, RED, zero)
        self.assertIn("what xterm shows of the second picture isn't known: refused Unmodelled 25", said)


class Collecting(WithFolder):
    def test_portable(self):
        pictures = Pictures()
        pictures.verify()
        self.assertTrue(pictures.add(RED).is_portable)
        pictures.verify()

    def test_broken(self):
        pictures = Pictures()
        self.assertTrue(pictures.add(RED, "red").is_portable)
        self.assertFalse(pictures.add(UNCOVERED, "plot <1>").is_portable)
        self.assertFalse(pictures.add(b"x").is_portable)
        said = self.failure(pictures.verify)
        self.assertIn("2 of 3 pictures aren't portable\nplot <1>: the picture isn't portable: broken Rows 3\n", said)
        self.assertIn("\npicture 3: the picture isn't portable: refused NotSixel 0\n", said)
        pictures.verify()


class Pieces(unittest.TestCase):
    def test_printable(self):
        self.assertEqual(printable(b'\x1bPq"1;\n\r\t\x00\xff\x1b\\', 40), 'ESC Pq"1; LF  CR  TAB \\x00\\xFFESC \\')
        self.assertEqual(printable(b"~" * 41, 40), "~" * 40 + " ..")
