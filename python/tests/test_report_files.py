"""The report: what names and strings can't do, and how it is written."""

import os
import pathlib
import pty
import re
import resource
import signal
import stat
import subprocess
import sys
import time

import sixel_check
from pages import Page, WithFolder, data_of, rgb_of, run_report
from shared import PIXEL, RED, ROOT, UNCOVERED, has_children, open_files, program, stand_in
from sixel_check import _markup

# Names and strings that could pass for something else in HTML, in a URL or on a terminal.
NAMES = (
    b"<script>alert(1)<script>.six",
    b"\"><img src=x onerror=alert(1)>.six",
    b"' onmouseover='alert(1).six",
    b"&lt;b&gt;&amp;.six",
    b"a\nb\r\x1b[31m\x00"[:-1] + b".six",
    b"\xff\xfe\x80.six",
    "\u202egnp.six".encode(),
    b"-->]]><!--.six",
    b"javascript:alert(1).six",
    b"-o",
    b"--json",
    b"{0} %s $(x) `x`.six",
    "ü \u00a0\u2028\ufeff.six".encode(),
    b"</title></style></article>.six"[:-4].replace(b"/", b"") + b".six",
)
TEXTS = (
    b"</article><script>alert(1)</script>",
    b"<!doctype html><html><body onload=alert(1)>",
    b'\x1bPq"1;1;1;6<img src=x onerror=alert(1)>\x1b\\',
    b"\x1bPq#0;2;0;0;0&lt;script&gt;\x1b\\",
    b"\x1bPq~<!--\x1b\\",
    b"\x1bPq]]>\xff\x00\x9b31m\x1b\\",
    '\x1bPq"1;1;1;6\u202e<b>\x1b\\'.encode(),
    b"\x1bPqscript\x1b\\",
    b"",
    b"\x89PNG\r\n\x1a\n",
    bytes(range(256)),
)
TAGS = set(
    """a article b bdi body code details div figcaption figure h1 h2 head header html i image input label li link main
    meta nav ol p section span strong style summary svg table tbody td th thead title tr ul use""".split()
)
COMMAND = [sys.executable, "-m", "sixel_check"]


def environment():
    return {**os.environ, "PYTHONPATH": str(ROOT / "python")}


class Hostile(WithFolder):
    """Nothing of a name or a string becomes markup, and the page takes nothing from elsewhere."""

    def assert_harmless(self, page):
        text = self.output.read_bytes()
        # No control but line feeds, also none of those above 7F, and nothing that turns the direction of text.
        self.assertEqual(set(text) & {*range(32), 127} - {10}, set())
        self.assertTrue(all(each.isprintable() or each == "\n" for each in text.decode()))
        for each in page.all():
            self.assertIn(each.tag, TAGS)
            for key, value in each.attributes.items():
                self.assertNotRegex(key, "^on|^src|^action|^formaction|^xmlns")
                if key == "href":
                    self.assertRegex(value, "^(#|data:,|data:(image/png|application/octet-stream);base64,)")
                if key == "style":
                    self.assertRegex(value, r"^[\w\s.:;%#-]*$")
        self.assertNotRegex(page.one("style").text, r"url\(|@import|http|<")
        self.assertEqual(len(list(page.all("meta", http_equiv=None))), 4)
        policy = page.one("meta", **{"http-equiv": "Content-Security-Policy"}).attributes["content"]
        self.assertTrue(policy.startswith("default-src 'none'; img-src data:; style-src 'unsafe-inline';"))

    def test_names(self):
        paths = [self.put(UNCOVERED, name) for name in NAMES]
        page = self.page(*paths, status=1)
        self.assert_harmless(page)
        entries = list(page.all("article"))
        for path, entry in zip(paths, entries):
            self.assertEqual(entry.one("h2").text, _markup.readable(path))
            self.assertRegex(entry.one("a", "download").attributes["download"], r"^[A-Za-z0-9][\w.-]*-mended\.six$")
            # They have the same tags as one with a plain name.
            self.assertEqual([each.tag for each in entry.all()], [each.tag for each in entries[-1].all()])

    def test_readable(self):
        for name, wanted in (
            (b"a b", "a b"),
            (b"a\nb\x1b\x7f", r"a\x0Ab\x1B\x7F"),
            (b"\xff\xc3", r"\xFF\xC3"),
            ("ü\u00a0\u202e\u2028".encode(), r"ü\xA0\u202E\u2028"),
            ("\U0001f600".encode(), "\U0001f600"),
        ):
            self.assertEqual(_markup.readable(os.fsdecode(name)), wanted)

    def test_texts(self):
        page = self.page(*(self.put(text, f"{number}.six") for number, text in enumerate(TEXTS)), status=2)
        self.assert_harmless(page)
        self.assertEqual({entry.attributes["data-result"] for entry in page.all("article")}, {"broken", "refused"})

    def test_any_byte(self):
        """Each control and each byte that HTML has a meaning for, before a string, in it and after it."""
        odd = [bytes([byte]) for byte in (*range(0x21), *range(0x7F, 0xA0), *b"<>&\"'=/", 0xC2, 0xFF)]
        texts = [PIXEL[:5] + byte + PIXEL[5:] for byte in odd]
        texts += [text for byte in odd[::9] for text in (byte + PIXEL, PIXEL + byte)]
        page = self.page(*(self.put(text, f"{number}.six") for number, text in enumerate(texts)))
        self.assert_harmless(page)
        self.assertEqual(len(list(page.all("article"))), len(texts))

    def test_not_sixel(self):
        page = self.page(ROOT / "docs/pictures/differ.png", ROOT / "README.md", os.environ["SIXEL_PROGRAM"], status=2)
        self.assert_harmless(page)
        reasons = [entry.one("details", "fault").attributes["data-reason"] for entry in page.all("article")]
        self.assertEqual(reasons, ["NotSixel"] * 3)
        # The program says besides how to make sixel text of a PNG.
        said = [each.text for each in next(page.all("article")).all("p", "fix")]
        self.assertEqual(said[0], f"Fix: {sixel_check.explain('NotSixel').fix}")
        self.assertRegex(said[1], r"^This is a PNG; pngtopnm [^`]* \| sixel encode makes sixel text of it\.$")

    def test_largest(self):
        row = b"".join(bytes([index % 7, index % 2 * 99, 0]) for index in range(2048))
        text = sixel_check.encode(b"P6 2048 2048 100\n" + row * 2048)
        page = self.page(self.put(text), "--on=none", status=0)
        self.assert_harmless(page)
        entry = page.one("article")
        self.assertEqual(entry.one("p", "verdict").text.split("same ")[1], "2,048 by 2,048 pixels.")
        # xterm shows no side above 1,000, and konsole fills rows up to a multiple of six.
        images = {image.attributes["id"].split("-")[2]: image.attributes["href"] for image in entry.all("image")}
        self.assertEqual(list(images), ["xterm", "mlterm", "konsole"])
        for terminal, uri in images.items():
            width, height, rgb = rgb_of(data_of(uri, "image/png"))
            self.assertEqual((width, height), (2048, 2052))
            self.assertEqual(rgb, sixel_check.show(text, on=terminal, width=width, height=height).rgb)


class Written(WithFolder):
    """The report is there whole, or the old one stays."""

    def setUp(self):
        super().setUp()
        self.source = self.put(RED)

    def files(self):
        return sorted(path.name for path in self.folder.iterdir())

    def run_command(self, *words, **how):
        words = [*COMMAND, self.source, "-o", self.output, *words]
        return subprocess.run(words, env=environment(), capture_output=True, text=True, **how)

    def test_full_disk(self):
        """No file can be larger than a few bytes: the old report stays, and nothing else."""
        self.page(self.source, status=0)
        before = self.output.read_bytes()
        got = self.run_command(preexec_fn=lambda: resource.setrlimit(resource.RLIMIT_FSIZE, (5000, 5000)))
        self.assertEqual(got.returncode, 2)
        self.assertEqual(got.stderr, f"sixel-report: {self.output}: write failed: File too large\n")
        self.assertEqual(self.output.read_bytes(), before)
        self.assertEqual(self.files(), ["a.six", "report.html"])
        self.output.unlink()
        got = self.run_command(preexec_fn=lambda: resource.setrlimit(resource.RLIMIT_FSIZE, (5000, 5000)))
        self.assertEqual((got.returncode, self.files()), (2, ["a.six"]))
        status, said = run_report(self.source, "-o", "/dev/full")
        self.assertEqual((status, said), (2, "sixel-report: /dev/full: write failed: No space left on device\n"))

    def test_replaced(self):
        """One that is replaced keeps its mode, and a link to it."""
        link = self.folder / "link.html"
        link.symlink_to(self.output)
        status, said = run_report(self.source, "-o", link)
        self.assertEqual((status, said), (0, f"sixel-report: wrote {link}: 1 of 1 string is portable\n"))
        mask = os.umask(0)
        os.umask(mask)
        self.assertEqual(stat.S_IMODE(self.output.stat().st_mode), 0o666 & ~mask)
        self.output.chmod(0o604)
        self.assertEqual(run_report(self.put(UNCOVERED), "-q", "-o", link), (1, ""))
        self.assertEqual(stat.S_IMODE(self.output.stat().st_mode), 0o604)
        self.assertTrue(link.is_symlink())
        self.assertIn("0 of 1 string is portable", self.output.read_text())

    def test_stream(self):
        """To a pipe it is written as it is."""
        words = [*COMMAND, self.source, "-q", "-o", "/dev/stdout"]
        got = subprocess.run(words, env=environment(), capture_output=True, text=True)
        self.assertEqual((got.returncode, got.stderr), (0, ""))
        self.assertEqual(Page(got.stdout).top.one("h1").text, "1 of 1 string is portable")

    def test_usage(self):
        other = self.put(b"<!doctype html>\n<html>", "other.html")
        for words, said in (
            ([], "the following arguments are required: FILE"),
            (["-o", self.output], "the following arguments are required: FILE"),
            ([self.source], "the following arguments are required: -o/--output"),
            ([self.source, "-o", self.folder], f"the report {self.folder} is a folder"),
            ([self.source, "-o", self.folder / "none/x.html"], f"no such folder: {self.folder}/none"),
            ([self.source, "-o", other], f"{other} is no report; it isn't overwritten"),
            (["-o", self.source, self.source], f"{self.source} is no report; it isn't overwritten"),
            (["-", "-", "-o", self.output], "standard input is named twice"),
            ([self.source, "-o", self.output, "--on=kitty"], "invalid value 'kitty' for '--on"),
            ([self.source, "-o", self.output, "--background=reddish"], "invalid value 'reddish' for '--background"),
            ([self.source, "-o", self.output, "--wid"], "unrecognized arguments: --wid"),
        ):
            status, told = run_report(*words)
            with self.subTest(words):
                self.assertEqual(status, 3)
                self.assertRegex(told, f"^sixel-report: {re.escape(said)}.*\nusage: sixel-report ")
        self.assertEqual(self.files(), ["a.six", "other.html"])
        self.assertEqual(pathlib.Path(self.source).read_bytes(), RED)

    def test_statuses(self):
        broken, refused = self.put(UNCOVERED, "b.six"), self.put(b"x", "c.six")
        for files, wanted in (
            ([self.source], 0),
            ([self.source, broken], 1),
            ([refused, broken], 2),
            ([self.source, self.folder / "none"], 2),
        ):
            self.page(*files, status=wanted)

    def test_progress(self):
        """A terminal is told how many are done; the line is cleared at the end."""
        keys, terminal = pty.openpty()
        words = [*COMMAND, self.source, self.source, self.source, "-o", self.output]
        got = subprocess.run(words, env=environment(), stdout=terminal, stderr=terminal)
        os.close(terminal)
        told = b""
        while piece := self.read(keys):
            told += piece
        os.close(keys)
        self.assertEqual(got.returncode, 0)
        lines = [f"\rsixel-report: {done} of 3".encode() for done in range(4)]
        self.assertTrue(told.startswith(b"".join(lines) + b"\r\x1b[K"), told)
        self.assertRegex(told, rb"K"b"sixel-report: wrote .*: 3 of 3 strings are portable\r\n$")

    def read(self, keys):
        try:
            return os.read(keys, 65536)
        except OSError:
            return b""


class Failures(WithFolder):
    """A program that is missing, dies or hangs, and what is left of the report's own processes."""

    def test_missing(self):
        with program("/none/sixel"):
            status, said = run_report(self.put(RED), "-o", self.output)
        self.assertEqual((status, self.output.exists()), (2, False))
        self.assertRegex(said, "^sixel-report: the program /none/sixel can't be started: No such file")

    def test_died(self):
        """It dies of one string: the others are in the report."""
        real = os.environ["SIXEL_PROGRAM"]
        with stand_in(f'case "$1" in list) kill -9 $$ ;; esac; exec "{real}" "$@"'):
            page = self.page(self.put(RED), self.put(UNCOVERED, "b.six"), status=2)
        first, second = page.all("article")
        self.assertEqual(first.attributes["data-result"], "portable")
        self.assertEqual(second.one("p", "verdict").text, "The program was ended by SIGKILL.")

    def test_nothing_is_left(self):
        source = self.put(RED)
        self.page(source)
        before = open_files()
        for _ in range(3):
            self.page(source, source)
        self.assertEqual(open_files(), before)
        self.assertFalse(has_children())

    def test_killed(self):
        """Its processes end with it, and with an interrupt it leaves no report."""
        real = os.environ["SIXEL_PROGRAM"]
        hold = self.output.with_name("hold")
        script = f'case "$1" in survey) while [ -e "{hold}" ]; do sleep 0.01; done ;; esac; exec "{real}" "$@"'
        for number, status in ((signal.SIGKILL, -9), (signal.SIGINT, 130)):
            hold.touch()
            with stand_in(script):
                words = [*COMMAND, self.put(RED), self.put(UNCOVERED, "b.six"), "-o", self.output]
                ended = subprocess.Popen(words, env=environment(), stderr=subprocess.PIPE)
                workers = self.workers(ended.pid)
                ended.send_signal(number)
                hold.unlink()
                self.assertEqual(ended.stderr.read(), b"")
                ended.stderr.close()
                self.assertEqual(ended.wait(), status)
            self.assertFalse(self.output.exists())
            for _ in range(200):
                if not any(map(self.is_alive, workers)):
                    break
                time.sleep(0.01)
            self.assertEqual([worker for worker in workers if self.is_alive(worker)], [])

    def workers(self, process):
        """The processes of the pool, when each has started the program."""
        for _ in range(1000):
            found = self.children(process)
            if found and all(map(self.children, found)):
                return found
            time.sleep(0.01)
        self.fail("no process started the program")

    def children(self, process):
        try:
            return pathlib.Path(f"/proc/{process}/task/{process}/children").read_text().split()
        except OSError:
            return []

    def is_alive(self, process):
        try:
            return pathlib.Path(f"/proc/{process}/stat").read_text().rpartition(") ")[2][0] != "Z"
        except OSError:
            return False
