"""The calls: what they read, what they answer, and how they fail."""

import concurrent.futures
import dataclasses
import io
import os
import pathlib
import pickle
import random
import struct
import tempfile
import threading
import time
import unittest
import warnings
import zlib
from unittest import mock

import sixel_check
from shared import PEN, PIXEL, RED, ROOT, UNCOVERED, WIDE, has_children, open_files, program, stand_in
from sixel_check import Broken, Picture, Portable, Refused

# Names that a command line, a shell or a message could take for something else.
NAMES = (b"-", b"--json", b"-x", b"a b", b" ", b"'\"", b"a\nb", b"<b>&", b"\xff\xfe", b"$(x)", b"*", b"\x1b[0m")
NAMES += ("ü\ufffd".encode(),)
CALLS = ("check", "survey", "scan", "events", "differ", "sheet", "render", "show", "mend", "encode")


class Sources(unittest.TestCase):
    """What a call reads."""

    def test_kinds(self):
        with tempfile.NamedTemporaryFile() as file:
            file.write(PIXEL)
            file.flush()
            with open(file.name, "rb") as opened:
                kinds = (PIXEL, bytearray(PIXEL), memoryview(PIXEL), memoryview(PIXEL * 2)[: len(PIXEL)], file.name)
                kinds += (pathlib.Path(file.name), io.BytesIO(PIXEL), opened)
                for source in kinds:
                    with self.subTest(repr(source)):
                        self.assertEqual(sixel_check.check(source), Portable(1, 1))

    def test_rest_of_a_file(self):
        source = io.BytesIO(b"12" + PIXEL)
        source.read(2)
        self.assertEqual(sixel_check.check(source), Portable(1, 1))

    def test_names(self):
        with tempfile.TemporaryDirectory() as folder:
            for name in NAMES:
                path = os.path.join(folder, os.fsdecode(name))
                with self.subTest(repr(path)):
                    pathlib.Path(path).write_bytes(PIXEL)
                    self.assertEqual(sixel_check.check(path), Portable(1, 1))
                    self.assertEqual(sixel_check.render(pathlib.Path(path)).rgb, bytes(3))
            self.assertEqual(sorted(os.listdir(os.fsencode(folder))), sorted(NAMES))

    def test_no_source(self):
        sources = ((1, TypeError), (None, TypeError), (io.StringIO("x"), TypeError), ("/none", FileNotFoundError))
        for call in CALLS:
            for source, kind in sources:
                with self.subTest(f"{call} {source!r}"), self.assertRaises(kind):
                    getattr(sixel_check, call)(source)
            with self.subTest(f"{call} of a folder"), self.assertRaises(IsADirectoryError):
                getattr(sixel_check, call)("/")

    def test_failed_read(self):
        for call in CALLS[:-1]:
            with self.subTest(call), self.assertRaisesRegex(sixel_check.ProgramDied, "read failed"):
                getattr(sixel_check, call)("/proc/self/mem")

    def test_any_bytes(self):
        """No byte, wherever it is in a string, makes another call fail."""
        for byte in range(256):
            text = bytes([byte]).join((PIXEL[:5], PIXEL[5:]))
            with self.subTest(byte):
                outcome = sixel_check.check(text)
                self.assertEqual(sixel_check.survey(text).outcome, outcome)
                if byte % 16 == 0:
                    refused = outcome if isinstance(outcome, Refused) else None
                    self.assertEqual(sixel_check.events(text).refused, refused)
                    self.assertTrue(sixel_check.scan(text))

    def test_long(self):
        for text in (PIXEL + b"\n" * 10_000_000, b"x" * 10_000_000, PIXEL[:-2] + b"?" * 3_000_000 + PIXEL[-2:]):
            outcome = sixel_check.check(text)
            self.assertEqual(isinstance(outcome, Refused), text.startswith(b"x"))


class Answers(unittest.TestCase):
    """What a call answers beyond the rows."""

    def test_outcomes(self):
        broken = sixel_check.check(UNCOVERED)
        message = "a pixel of the box that no set bit covers, at the terminator"
        self.assertEqual(broken, Broken("Uncovered", 24, (1, 0), message))
        self.assertEqual(str(broken), "broken Uncovered 24 1 0")
        self.assertRegex(broken.fix, "^paint the background too")
        self.assertFalse(broken.is_portable)
        with self.assertRaises(dataclasses.FrozenInstanceError):
            broken.rule = "Ratio"
        refused = sixel_check.check(b"x")
        self.assertEqual(refused, Refused("NotSixel", 0, "input that doesn't start like a sixel string"))
        self.assertRegex(refused.fix, "^remove what comes before the string")
        self.assertEqual(str(refused), "refused NotSixel 0")
        self.assertEqual({broken, refused, broken}, {broken, refused})
        self.assertEqual(pickle.loads(pickle.dumps((broken, refused))), (broken, refused))

    def test_terminals(self):
        for on in ("foot", ["foot"], ("xterm", "foot"), "xterm,foot", "all", {"foot": 1}):
            self.assertEqual(str(sixel_check.check(PEN, on=on)), "broken Stale 25")
        self.assertEqual(sixel_check.check(PEN, on=()), Portable(1, 6))
        self.assertEqual(sixel_check.check(PEN, on=[]), Portable(1, 6))

    def test_usage(self):
        """What is wrong in a call is told as the program tells it."""
        for call, options, said in (
            ("check", {"on": "kitty"}, "'kitty' for '--on"),
            ("check", {"on": "xterm --wide"}, "xterm --wide"),
            ("mend", {"background": "-1"}, "'-1' for '--background"),
            ("show", {"width": 0}, "--width"),
            ("show", {"box": True, "width": 3}, "--box"),
            ("show", {"background": "0,0,0"}, "--on"),
        ):
            with self.subTest(call, **options), self.assertRaisesRegex(ValueError, said):
                getattr(sixel_check, call)(PIXEL, **options)

    def test_explain(self):
        explanation = sixel_check.explain("uncovered")
        self.assertEqual(explanation.name, "Uncovered")
        self.assertEqual(explanation, sixel_check.explain("plot.six: broken Uncovered 24 1 0"))
        self.assertRegex(explanation.programs, "^use chafa -t 1")
        with self.assertRaisesRegex(ValueError, "no rule or refusal has the name 'Rato'"):
            sixel_check.explain("Rato")
        with self.assertRaises(ValueError):
            sixel_check.explain("--help")

    def test_scan(self):
        self.assertEqual(sixel_check.scan(b"text"), ())
        first, second = sixel_check.scan(b"ab" + PIXEL + b"\x1bPq?5")
        self.assertEqual((first.offset, first.outcome), (2, Portable(1, 1)))
        self.assertEqual(str(second), f"28 refused BadByte {28 + 4}")
        plain, wrapped = sixel_check.scan(PIXEL + b"\x1bP" + PIXEL)
        self.assertEqual((plain.wrapped, wrapped.wrapped), (False, True))

    def test_notes(self):
        """The program's notes are warnings of the line that called."""
        for call, options in (("mend", {}), ("show", {"box": True})):
            text = {"mend": UNCOVERED, "show": WIDE}[call]
            with self.subTest(call), warnings.catch_warnings(record=True) as caught:
                warnings.simplefilter("always")
                getattr(sixel_check, call)(text, **options)
                self.assertEqual([note.category for note in caught], [sixel_check.SixelWarning])
                self.assertEqual(caught[0].filename, __file__)

    def test_not_rendered(self):
        with self.assertRaisesRegex(sixel_check.NotPortable, "^broken Uncovered 24 1 0: a pixel of the box") as caught:
            sixel_check.render(UNCOVERED)
        self.assertEqual(caught.exception.outcome, sixel_check.check(UNCOVERED))
        with self.assertRaisesRegex(sixel_check.InputRefused, "(?s)NotSixel 0.*this is a PNG"):
            sixel_check.render(b"\x89PNG\r\n\x1a\n")
        copy = pickle.loads(pickle.dumps(caught.exception))
        self.assertEqual(copy.outcome, caught.exception.outcome)


class Pictures(unittest.TestCase):
    """Pictures, as PNG, for other libraries, and back."""

    def read(self, png):
        """A plain reader of PNG: the width, the height and the samples."""
        self.assertEqual(png[:8], b"\x89PNG\r\n\x1a\n")
        chunks, at = {}, 8
        while at < len(png):
            size, kind = struct.unpack(">I4s", png[at : at + 8])
            data = png[at + 8 : at + 8 + size]
            self.assertEqual(struct.unpack(">I", png[at + 8 + size : at + 12 + size])[0], zlib.crc32(kind + data))
            chunks[kind] = data
            at += 12 + size
        self.assertEqual(list(chunks), [b"IHDR", b"IDAT", b"IEND"])
        width, height, depth, colour, *others = struct.unpack(">IIBBBBB", chunks[b"IHDR"])
        self.assertEqual((depth, colour, others), (8, 2, [0, 0, 0]))
        rows = zlib.decompress(chunks[b"IDAT"])
        step = 3 * width + 1
        self.assertEqual(set(rows[::step]), {0})
        return width, height, b"".join(rows[start + 1 : start + step] for start in range(0, step * height, step))

    def test_png(self):
        for width, height in ((1, 1), (3, 2), (1, 9), (300, 1)):
            picture = Picture(width, height, bytes(index * 7 % 256 for index in range(3 * width * height)))
            self.assertEqual(self.read(picture.png()), (width, height, picture.rgb))
        with tempfile.TemporaryDirectory() as folder:
            path = pathlib.Path(folder) / "a b.png"
            picture.save(path)
            self.assertEqual(path.read_bytes(), picture.png())

    def test_levels(self):
        """Each percentage becomes the nearest level, and encoding that gives it back."""
        for first in range(0, 101, 16):
            percentages = range(first, min(first + 16, 101))
            ppm = b"P6 %d 1 100\n" % len(percentages) + bytes(it for each in percentages for it in (each, 0, 100))
            text = sixel_check.encode(ppm)
            picture = sixel_check.render(text)
            for column, percentage in enumerate(percentages):
                level = picture.pixel(column, 0)[0]
                self.assertLessEqual(abs(100 * level - 255 * percentage), 50)
            self.assertEqual(picture.pixel(0, 0)[1:], (0, 255))
            self.assertEqual(sixel_check.encode(picture), text)

    def test_not_a_picture(self):
        for width, height, rgb in ((1, 1, b""), (0, 0, b""), (-1, -1, bytes(3)), (2, 1, bytes(3))):
            with self.assertRaises(ValueError):
                Picture(width, height, rgb)
        for column, row in ((-1, 0), (0, -1), (1, 0), (0, 1)):
            with self.assertRaises(IndexError):
                Picture(1, 1, bytes(3)).pixel(column, row)
        self.assertEqual(repr(Picture(1, 1, bytes(3))), "Picture(width=1, height=1)")

    def test_largest(self):
        picture = Picture(2048, 2048, bytes(3 * 2048 * 2048))
        text = sixel_check.encode(picture)
        self.assertEqual(sixel_check.check(text), Portable(2048, 2048))
        self.assertEqual(sixel_check.render(text), picture)
        with self.assertRaisesRegex(sixel_check.InputRefused, "Size"):
            sixel_check.encode(Picture(2049, 1, bytes(3 * 2049)))

    def test_screens(self):
        sheet = sixel_check.sheet(PEN)
        self.assertEqual((sheet.width, sheet.height), (4 + 3 * 8, 6))
        red, black = (255, 0, 0), (0, 0, 0)
        self.assertEqual([sheet.pixel(9 * index, 0) for index in range(4)], [red, red, black, red])
        for index, terminal in enumerate(sixel_check.TERMINALS):
            self.assertEqual(sixel_check.show(PEN, on=terminal, box=True).pixel(0, 0), sheet.pixel(9 * index, 0))

    def test_too_many_colours(self):
        many = Picture(20, 1, bytes(it for red in range(20) for it in (red * 13, 0, 0)))
        with self.assertRaisesRegex(sixel_check.InputRefused, "TooManyColours"):
            sixel_check.encode(many)
        self.assertEqual(sixel_check.render(sixel_check.encode(many, wide=True), wide=True).pixel(19, 0)[0], 247)


class OtherLibraries(unittest.TestCase):
    """Pillow and numpy, where they are installed."""

    def test_numpy(self):
        try:
            import numpy
        except ImportError:
            self.skipTest("numpy isn't installed (python3-numpy)")
        array = sixel_check.render(RED).to_numpy()
        self.assertEqual((array.shape, array.dtype), ((6, 1, 3), numpy.uint8))
        self.assertEqual(array[5, 0].tolist(), [255, 0, 0])

    def test_pillow(self):
        try:
            import PIL.Image
        except ImportError:
            self.skipTest("Pillow isn't installed (python3-pil)")
        image = sixel_check.render(RED).to_pil()
        self.assertEqual((image.size, image.mode, image.getpixel((0, 5))), ((1, 6), "RGB", (255, 0, 0)))
        self.assertEqual(PIL.Image.open(io.BytesIO(sixel_check.render(RED).png())).tobytes(), image.tobytes())
        for mode in ("RGB", "RGBA", "P", "CMYK"):
            self.assertEqual(sixel_check.render(sixel_check.encode(image.convert(mode))).pixel(0, 0)[1:], (0, 0), mode)
        with self.assertRaisesRegex(ValueError, "transparent"):
            sixel_check.encode(PIL.Image.new("RGBA", (2, 2), (0, 0, 0, 128)))
        photo = PIL.Image.frombytes("RGB", (64, 64), random.Random(1).randbytes(3 * 64 * 64))
        for wide in (False, True):
            for source in (photo, Picture(64, 64, photo.tobytes()), Picture(64, 64, photo.tobytes()).ppm()):
                with self.assertRaisesRegex(sixel_check.InputRefused, "TooManyColours"):
                    sixel_check.encode(source, wide=wide)
                text = sixel_check.encode(source, wide=wide, quantize=True)
                self.assertEqual(sixel_check.check(text, wide=wide), Portable(64, 64))

    def test_without_pillow(self):
        many = Picture(20, 1, bytes(it for red in range(20) for it in (red * 13, 0, 0)))
        with mock.patch.dict("sys.modules", {"PIL": None, "PIL.Image": None}):
            with self.assertRaisesRegex(ImportError, "needs Pillow"):
                sixel_check.encode(many, quantize=True)
            # Few colours need none.
            sixel_check.encode(Picture(1, 1, bytes(3)), quantize=True)


class Failures(unittest.TestCase):
    """A program that is missing, dies or hangs, and what is left of it."""

    def try_each(self, kind, said, **options):
        for call in CALLS:
            with self.subTest(call), self.assertRaisesRegex(kind, said):
                getattr(sixel_check, call)(PIXEL, **options)

    def test_missing(self):
        with program("/none/sixel"):
            self.try_each(sixel_check.ProgramMissing, "/none/sixel can't be started: No such file")
        with tempfile.NamedTemporaryFile() as file, program(file.name):
            self.try_each(sixel_check.ProgramMissing, "can't be started: Permission denied")
        with program(""), mock.patch("os.access", return_value=False):
            self.try_each(sixel_check.ProgramMissing, "is missing: it is neither in .*/bin")

    def test_other_machine(self):
        with tempfile.TemporaryDirectory() as folder:
            path = pathlib.Path(folder) / "sixel"
            path.write_bytes(b"\x7fELF of another machine")
            path.chmod(0o755)
            with program(path):
                self.try_each(sixel_check.ProgramMissing, "can't be started: Exec format error")

    def test_died(self):
        with stand_in("kill -9 $$"):
            self.try_each(sixel_check.ProgramDied, "was ended by SIGKILL")
        with stand_in("cat > /dev/null; kill -SEGV $$"):
            self.try_each(sixel_check.ProgramDied, "was ended by SIGSEGV")
        with stand_in("echo 'no such library' >&2; exit 127"):
            self.try_each(sixel_check.ProgramDied, "ended with status 127: no such library")
        with stand_in("echo 'sixel: out of memory' >&2; exit 2"):
            for call in ("events", "differ", "sheet", "render", "show", "mend", "encode"):
                with self.subTest(call), self.assertRaisesRegex(sixel_check.ProgramDied, "out of memory"):
                    getattr(sixel_check, call)(PIXEL)
        answer = '{"file":null,"result":"refused","reason":"OutOfMemory","message":"an allocation failed"}'
        with stand_in(f"echo '{answer}'; exit 2"):
            for call in ("check", "survey", "scan"):
                with self.subTest(call), self.assertRaisesRegex(sixel_check.ProgramDied, "an allocation failed"):
                    getattr(sixel_check, call)(PIXEL)

    def test_another_program(self):
        """One that isn't sixel at all."""
        for script in ("exit 0", "exit 2", "exit 3", "echo text", "cat", "echo; exit 1"):
            with stand_in(script):
                for call in ("check", "survey", "scan", "sheet", "show"):
                    with self.subTest(f"{call} by {script}"), self.assertRaises(sixel_check.ProgramDied):
                        getattr(sixel_check, call)(PIXEL)

    def test_hung(self):
        with stand_in("exec sleep 60"):
            began = time.monotonic()
            self.try_each(sixel_check.ProgramHung, r"didn't answer within 0\.05 seconds", timeout=0.05)
            self.assertLess(time.monotonic() - began, 10)
        self.assertFalse(has_children())

    def test_killed(self):
        """The program itself, killed while it waits for more."""
        with tempfile.TemporaryDirectory() as folder:
            path = os.path.join(folder, "fifo")
            os.mkfifo(path)
            caught = []

            def call():
                try:
                    sixel_check.check(path)
                except sixel_check.SixelError as fault:
                    caught.append(fault)

            thread = threading.Thread(target=call)
            thread.start()
            with open(path, "wb", buffering=0) as keys:
                keys.write(PIXEL[:8])
                for _ in range(500):
                    children = pathlib.Path(f"/proc/self/task/{thread.native_id}/children").read_text().split()
                    if children:
                        os.kill(int(children[0]), 9)
                        break
                    time.sleep(0.01)
                thread.join()
            self.assertRegex(str(caught), "ProgramDied.*SIGKILL")

    def test_nothing_is_left(self):
        sixel_check.check(PIXEL)
        before = open_files()
        for index in range(250):
            sixel_check.check(PIXEL if index % 2 else io.BytesIO(UNCOVERED))
            sixel_check.render(ROOT / "examples/hi.six")
        for _ in range(20):
            with stand_in("kill -9 $$"), self.assertRaises(sixel_check.ProgramDied):
                sixel_check.check(PIXEL)
            with program("/none"), self.assertRaises(sixel_check.ProgramMissing):
                sixel_check.check(ROOT / "examples/hi.six")
        self.assertEqual(open_files(), before)
        self.assertFalse(has_children())

    def test_threads(self):
        pairs = ((PIXEL, "portable 1 1"), (UNCOVERED, "broken Uncovered 24 1 0"), (b"x", "refused NotSixel 0"))
        with concurrent.futures.ThreadPoolExecutor(4) as pool:
            for told, (_, wanted) in zip(pool.map(lambda pair: sixel_check.check(pair[0]), pairs * 40), pairs * 40):
                self.assertEqual(str(told), wanted)
