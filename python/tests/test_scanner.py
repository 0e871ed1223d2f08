"""The scanner: one running program that checks picture after picture."""

import concurrent.futures
import os
import random
import tempfile
import threading
import time
import unittest

import sixel_check
from shared import PEN, PIXEL, RED, ROOT, UNCOVERED, WIDE, has_children, open_files, program, stand_in

# Texts that a scan would find no string in, or more than one, or one that ends elsewhere.
OTHERS = (
    b"",
    b"x",
    b"\x1b",
    b"\x1bP",
    b"\x1bPq",
    b"\x1bP1;2",
    b"\x1bPq~\x1b",
    b"\x1bPp\x1b\\",
    b"\x1bP$q\x1b\\",
    b"\x1bP q\x1b\\",
    PIXEL[:-1],
    PIXEL[:-2],
    PIXEL[1:],
    PIXEL + PIXEL,
    PIXEL + b"x",
    b"x" + PIXEL,
    b"\x1b" + PIXEL,
    b"\x1bP" + PIXEL,
    PIXEL + b"\x1b",
    PIXEL[:9] + b"\x18" + PIXEL[9:],
    PIXEL[:9] + b"\x1a" + PIXEL[9:],
    PIXEL[:9] + b"\x1b[0m" + PIXEL[9:],
    PIXEL[:9] + b"\x1b\\" + PIXEL[9:],
    b'\x90q"1;1;1;1#0;2;0;0;0#0@\x9c',
    b'\x90q"1;1;1;1#0;2;0;0;0#0@\x1b\\',
    b'\x1bPq"1;1;1;1#0;2;0;0;0#0@\x9c',
    PIXEL + b"\x0b",
)
# What the running program is given.
WHOLE = (
    PIXEL,
    UNCOVERED,
    RED,
    PEN,
    WIDE,
    b" \t\r\n" + UNCOVERED + b"\n \r\t",
    b"\x1bPq\x1b\\",
    b"\x1bP;;;q\x1b\\",
    b"\x1bP1;2;3;4;5q\x1b\\",
    b"\x1bP99999999q\x1b\\",
    b"\x1bP" + b"0" * 5000 + b"q\x1b\\",
    b"\x1bPq5555\x1b\\",
    b"\x1bPq!3$~\x1b\\",
    b"\x1bPq\x9c~\x1b\\",
    b"\x1bPq\x90q~\x1b\\",
    b"\x1bPq~\x9c\x1b\\",
    b"\x1bPq\x00\xff\x1b\\",
    b"\n" * 100_000 + PIXEL + b"\n" * 100_000,
    PIXEL[:-3] + b"?" * 300_000 + b"@\x1b\\",
)


class Answers(unittest.TestCase):
    """Each answer is that of a check."""

    def test_any_text(self):
        """In any order: no text changes the answer of the next one."""
        texts = [*OTHERS, *WHOLE] * 2
        random.Random(7).shuffle(texts)
        with sixel_check.Scanner() as scanner, sixel_check.Scanner(wide=True) as wide:
            for text in texts:
                with self.subTest(text[:60]):
                    self.assertEqual(scanner.check(text), sixel_check.check(text))
                    self.assertEqual(wide.check(text), sixel_check.check(text, wide=True))

    def test_one_program(self):
        """What is whole is given to one program; nothing else starts another."""
        with sixel_check.Scanner() as scanner:
            scanner.check(PIXEL)
            with program("/none"):
                for text in WHOLE:
                    scanner.check(text)
                for text in OTHERS:
                    with self.subTest(text), self.assertRaises(sixel_check.ProgramMissing):
                        scanner.check(text)

    def test_changed_bytes(self):
        """A string with another byte anywhere."""
        with sixel_check.Scanner() as scanner:
            for at in range(len(PIXEL)):
                for byte in b"\x1b\\Pq\x18 0;":
                    text = PIXEL[:at] + bytes([byte]) + PIXEL[at + 1 :]
                    self.assertEqual(scanner.check(text), sixel_check.check(text), text)

    def test_sources(self):
        with sixel_check.Scanner() as scanner, tempfile.TemporaryFile() as file:
            file.write(PIXEL)
            file.seek(0)
            for source in (PIXEL, bytearray(PIXEL), ROOT / "examples/portable/dot.six", file):
                self.assertTrue(scanner.check(source).is_portable)
            for source, kind in ((1, TypeError), ("/none", FileNotFoundError)):
                with self.assertRaises(kind):
                    scanner.check(source)

    def test_threads(self):
        pairs = ((PIXEL, "portable 1 1"), (UNCOVERED, "broken Uncovered 24 1 0"), (PEN, "portable 1 6")) * 200
        with sixel_check.Scanner() as scanner, concurrent.futures.ThreadPoolExecutor(4) as pool:
            for told, (_, wanted) in zip(pool.map(lambda pair: scanner.check(pair[0]), pairs), pairs):
                self.assertEqual(str(told), wanted)

    def test_fork(self):
        """A copy of this process doesn't take the answers of this one."""
        with sixel_check.Scanner() as scanner:
            scanner.check(PIXEL)
            child = os.fork()
            if not child:
                status = 1
                try:
                    scanner.check(UNCOVERED)
                    scanner.close()
                    status = 0
                finally:
                    os._exit(status)
            self.assertEqual(os.waitpid(child, 0)[1], 0)
            self.assertEqual(str(scanner.check(PEN)), "portable 1 6")


class Failures(unittest.TestCase):
    """A program that is missing, dies or hangs. The next check starts a new one."""

    def test_missing(self):
        with sixel_check.Scanner() as scanner:
            with program("/none/sixel"), self.assertRaisesRegex(sixel_check.ProgramMissing, "/none/sixel can't be"):
                scanner.check(PIXEL)
            self.assertTrue(scanner.check(PIXEL).is_portable)

    def test_killed(self):
        with sixel_check.Scanner() as scanner:
            for text in (PIXEL, WHOLE[-1]):
                scanner.check(PIXEL)
                os.kill(scanner._process.pid, 9)
                with self.assertRaisesRegex(sixel_check.ProgramDied, "was ended by SIGKILL"):
                    scanner.check(text)
                self.assertTrue(scanner.check(PIXEL).is_portable)

    def test_killed_in_the_middle(self):
        """It stops, so the text can't be written whole, and is killed then."""
        with sixel_check.Scanner() as scanner:
            scanner.check(PIXEL)
            process = scanner._process.pid
            os.kill(process, 19)
            timer = threading.Timer(0.2, os.kill, (process, 9))
            timer.start()
            with self.assertRaisesRegex(sixel_check.ProgramDied, "was ended by SIGKILL"):
                scanner.check(WHOLE[-1])
            timer.join()
            self.assertTrue(scanner.check(PIXEL).is_portable)

    def test_hung(self):
        for text in (PIXEL, WHOLE[-1]):
            with stand_in("exec sleep 60"), sixel_check.Scanner(timeout=0.1) as scanner:
                began = time.monotonic()
                with self.assertRaisesRegex(sixel_check.ProgramHung, "0.1 seconds"):
                    scanner.check(text)
                self.assertLess(time.monotonic() - began, 5)
        self.assertFalse(has_children())

    def test_other_answers(self):
        """A program that answers something else, too much or nothing."""
        line = '{"file":null,"string":%d,"result":"portable","width":1,"height":1}'
        memory = '{"file":null,"result":"refused","reason":"OutOfMemory","message":"an allocation failed"}'
        for script, said in (
            (f"echo '{line % 7}'; exec sleep 60", "another string"),
            (f"echo '{memory}'; exec sleep 60", "an allocation failed"),
            ("exec 1>&-; exec sleep 60", "closed its streams"),
            ("echo 'no memory' >&2; exit 4", "ended with status 4: no memory"),
        ):
            with self.subTest(script), stand_in(script), sixel_check.Scanner(timeout=5) as scanner:
                with self.assertRaisesRegex(sixel_check.ProgramDied, said):
                    scanner.check(PIXEL)

    def test_interrupted(self):
        """The answer that was waited for isn't that of the next text."""
        with sixel_check.Scanner() as scanner:
            scanner.check(PIXEL)
            ask = scanner._ask

            def interrupted(text):
                ask(text)
                raise KeyboardInterrupt

            scanner._ask = interrupted
            with self.assertRaises(KeyboardInterrupt):
                scanner.check(UNCOVERED)
            scanner._ask = ask
            self.assertEqual(str(scanner.check(PEN)), "portable 1 6")

    def test_nothing_is_left(self):
        sixel_check.check(PIXEL)
        before = open_files()
        for _ in range(50):
            with sixel_check.Scanner() as scanner:
                for _ in range(20):
                    scanner.check(PIXEL)
            scanner.close()
        with sixel_check.Scanner():
            pass
        # It is started anew after it was closed.
        self.assertTrue(scanner.check(PIXEL).is_portable)
        scanner.close()
        self.assertEqual(open_files(), before)
        self.assertFalse(has_children())
