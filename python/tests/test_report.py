"""The report: its page says what the program says, and shows what the four terminals show."""

import collections
import os
import subprocess
import sys
import unittest

import sixel_check
from pages import Page, WithFolder, data_of, rgb_of, told_by_page, told_by_program
from shared import PEN, PIXEL, RED, ROOT, UNCOVERED
from sixel_check._png import png_of, small_png_of

EXAMPLES = sorted(map(str, (ROOT / "examples").glob("*/*.six")))
# Two columns in a box of one, 12 high.
OUTSIDE = b'\x1bPq"1;1;1;12#0;2;100;0;0#0!2~-!2~\x1b\\'
# xterm and mlterm aren't modelled here.
ZERO = b'\x1bPq"1;1;1;6#0;2;0;0;0#0!0~\x1b\\'


class Told(WithFolder):
    """The page says what the program said."""

    def try_files(self, words, program_words, files):
        page = self.page(*words, *files)
        told = told_by_program(*program_words, *files)
        entries = list(page.all("article"))
        self.assertEqual([entry.one("h2").text for entry in entries], files)
        results = collections.Counter()
        for name, entry in zip(files, entries):
            answers = told[name]
            if answers[0]["result"] == "broken":
                # The one that a check names comes first.
                answers.sort(key=lambda answer: answer["offset"])
            elif answers[0]["result"] == "unread":
                reason = answers[0]["reason"]
                answers = [{"result": "unread", "reason": f"{reason[:1].upper()}{reason[1:]}."}]
            with self.subTest(name):
                self.assertEqual(told_by_page(entry), answers)
            results[answers[0]["result"]] += 1
        self.assertEqual(page.one("h1").text, f"{results['portable']} of {len(files)} strings are portable")
        for result in ("portable", "broken", "refused", "unread"):
            labels = list(page.one("nav").all("label", result))
            self.assertEqual([label.one("b").text for label in labels], [str(results[result])] * bool(results[result]))
        return page, [answer for answers in told.values() for answer in answers]

    def test_examples(self):
        missing = [str(self.folder / "none.six"), str(self.folder), "/proc/self/mem"]
        page, answers = self.try_files([], ["--on=all"], [*EXAMPLES, *missing])
        # The summary counts the same.
        counts = collections.Counter(answer.get("rule") or answer.get("reason") for answer in answers)
        rows = list(page.one("section", "rules").one("tbody").all("tr"))
        for row in rows:
            name = row.attributes["data-name"]
            self.assertEqual(row.number("data-strings"), counts[name], name)
            self.assertEqual(row.number("data-times"), sum(it.get("count", 1) for it in answers if name in it.values()))
            self.assertEqual(row.one("p").text, f"Fix: {sixel_check.explain(name).fix}")
            self.assertEqual(len(list(row.all("a"))), counts[name])
        counted = [row.number("data-strings") for row in rows]
        self.assertEqual(counted, sorted(counted, reverse=True))
        # Each link leads to an element of the page, and each name is of one only.
        names = [each.attributes["id"] for each in page.all() if "id" in each.attributes]
        self.assertEqual(len(names), len(set(names)))
        links = [each.attributes[key] for each in page.all() for key in ("href", "for") if key in each.attributes]
        for link in links:
            self.assertTrue(link == "#" or link.startswith("data:") or link.lstrip("#") in names, link[:60])

    def test_options(self):
        self.try_files(["--on", "none", "--wide"], ["--wide"], EXAMPLES[::2])
        self.try_files(["--on", "foot,xterm"], ["--on=xterm,foot"], EXAMPLES[1::4])

    def test_words(self):
        entry = self.entry(RED)
        wanted = "Every terminal of the class, and each of xterm, mlterm, foot and konsole, shows the same"
        self.assertEqual(entry.one("p", "verdict").text, f"{wanted} 1 by 6 pixels.")
        self.assertEqual(entry.one("p", "line").text, f"portable 1 6, {len(RED)} bytes")
        self.assertEqual(list(entry.all("details")) + list(entry.all("a", "download")), [])
        entry = self.entry(UNCOVERED, "--on=none")
        wanted = "A pixel of the box that no set bit covers, at the terminator. The rule is Uncovered, broken at"
        self.assertEqual(entry.one("p", "verdict").text, f"{wanted} offset 24, in column 1, row 0.")
        self.assertEqual(entry.one("h2").text, f"{self.folder}/a.six")
        self.assertIn("Broken", entry.one("span", "chip").text)
        entry = self.entry(b"x")
        wanted = "Input that doesn't start like a sixel string. The reason is NotSixel, at offset 0."
        self.assertEqual(entry.one("p", "verdict").text, wanted)

    def test_same_bytes(self):
        """A report of the same strings has the same bytes."""
        self.page(*EXAMPLES[:9])
        before = self.output.read_bytes()
        self.page(*EXAMPLES[:9])
        self.assertEqual(self.output.read_bytes(), before)

    def test_standard_input(self):
        words = [sys.executable, "-m", "sixel_check", "-", "-o", self.output]
        how = {"env": {**os.environ, "PYTHONPATH": str(ROOT / "python")}, "capture_output": True}
        got = subprocess.run(words, input=UNCOVERED, **how)
        self.assertEqual((got.returncode, got.stdout), (1, b""))
        entry = Page(self.output.read_text()).top.one("article")
        self.assertEqual((entry.one("h2").text, entry.attributes["data-result"]), ("standard input", "broken"))


class Shown(WithFolder):
    """The screens, the commands and the mended string."""

    def pngs(self, entry):
        """The PNG of each screen, by the name below it."""
        images = {f"#{each.attributes['id']}": each.attributes["href"] for each in entry.all("image")}
        found = {}
        for figure in entry.all("figure"):
            drawing = next(figure.all("svg"), None)
            if drawing:
                (inside,) = drawing.inside
                uri = inside.attributes["href"]
                name = figure.one("strong").text
                found[name] = data_of(images.get(uri, uri), "image/png")
                self.assertIn(name, drawing.attributes["aria-label"])
        return found

    def test_screens(self):
        for text, count in ((RED, 1), (PEN, 2), (UNCOVERED, 3), (OUTSIDE, 1)):
            entry = self.entry(text)
            pngs = self.pngs(entry)
            self.assertEqual(tuple(pngs), sixel_check.TERMINALS)
            # Those that are the same are there once.
            self.assertEqual(len(list(entry.all("image"))), count)
            for terminal, png in pngs.items():
                width, height, rgb = rgb_of(png)
                shown = sixel_check.show(text, on=terminal, width=width, height=height)
                self.assertEqual(rgb, shown.rgb)

    def test_marks(self):
        entry = self.entry(PEN)
        self.assertEqual(sixel_check.differ(PEN).groups[1].pixel, (0, 0))
        for figure in entry.all("figure"):
            (mark,) = figure.all("i", "mark")
            is_first = figure.one("strong").text != "foot"
            self.assertEqual(mark.attributes["class"], "mark differs first" if is_first else "mark differs")
            self.assertEqual(mark.attributes["style"], "left: 50.000%; top: 8.333%")
            self.assertIn("#ff0000" if is_first else "#000000", figure.one("figcaption").text)
        said = "foot differs from xterm, mlterm and konsole, first in column 0, row 0: #000000 instead of #ff0000."
        self.assertIn(said, entry.one("div", "shown").text)
        # The pixel that isn't painted, on each screen, and that of the key.
        entry = self.entry(UNCOVERED, "--on=none")
        marks = [mark.attributes.get("style") for mark in entry.all("i", "pixel")]
        self.assertEqual(marks, ["left: 75.000%; top: 8.333%"] * 4 + [None])

    def test_unknown(self):
        entry = self.entry(ZERO)
        self.assertEqual(list(self.pngs(entry)), ["foot", "konsole"])
        said = [each.text for each in entry.one("div", "shown").all("p")]
        told = "What {} shows isn't known: its model doesn't cover the command at offset 23."
        self.assertEqual(said, ["foot and konsole show the same.", told.format("xterm"), told.format("mlterm")])
        self.assertEqual(len(list(entry.all("div", "unknown"))), 2)

    def test_no_screens(self):
        # A colour of hue, lightness and saturation has no RGB; what differs is known.
        entry = self.entry((ROOT / "examples/portable/hue.six").read_bytes())
        self.assertIn("There are no screens: a colour of hue", entry.text)
        self.assertIn("konsole differs from xterm, mlterm and foot, first in column 0, row 1.", entry.text)
        entry = self.entry(b"\x1bPq\x1b\\")
        self.assertIn("There are no screens: a text that paints nothing", entry.text)
        self.assertIn("There is no mended string: a text that paints nothing", entry.text)

    def test_portable_but_different(self):
        entry = self.entry(PIXEL, "--on=none")
        self.assertEqual(entry.attributes["data-result"], "portable")
        self.assertIn("konsole differs from", entry.text)
        self.assertIn("--on all counts their rules, too.", entry.one("p", "note").text)

    def test_commands(self):
        entry = self.entry(OUTSIDE, "--on=none")
        lines = [[cell.text for cell in row.all() if cell.tag in ("th", "td")] for row in entry.one("tbody").all("tr")]
        self.assertEqual(
            lines,
            [
                ["3", "raster 1 1 1 12", '"1;1;1;12', "22 31 3b 31 3b 31 3b 31 32"],
                ["12", "define 0 2 100 0 0", "#0;2;100;0;0", "23 30 3b 32 3b 31 30 30 3b 30 3b 30"],
                ["24", "select 0", "#0", "23 30"],
                ["26", "repeat 2 63", "!2~", "21 32 7e"],
                ["29", "newline", "-", "2d"],
                ["30", "repeat 2 63", "!2~", "21 32 7e"],
            ],
        )
        meant = [row.one("th").text for row in entry.one("tbody").all("tr", "meant")]
        self.assertEqual(meant, ["26"])

    def test_long_command(self):
        """Of a command only some bytes are shown."""
        entry = self.entry(PIXEL[:-3] + b"!" + b"0" * 5000 + b"1@\x1b\\", "--on=none")
        self.assertEqual(entry.attributes["data-result"], "portable")
        entry = self.entry(PIXEL[:-3] + b"!" + b"0" * 5000 + b"@\x1b\\", "--on=none")
        cells = [cell.text for cell in next(entry.all("tr", "meant")).all("td")]
        self.assertEqual(cells, ["repeat 0 1", "!000000000000000 and 4,986 bytes more", "21" + 15 * " 30"])

    def test_refused(self):
        entry = self.entry(b"\x1bPq#1;2~\x1b\\")
        lines = [[cell.text for cell in row.all("td")] for row in entry.one("tbody").all("tr")]
        self.assertEqual(lines[-1], ["no command", "~ESC \\", "7e 1b 5c"])
        self.assertEqual(entry.one("p", "fix").text, f"Fix: {sixel_check.explain('FieldCount').fix}")
        self.assertEqual(list(entry.all("figure")) + list(entry.all("a", "download")), [])

    def test_mended(self):
        entry = self.entry(OUTSIDE, "--background=#ff8000")
        link = entry.one("a", "download")
        mended = data_of(link.attributes["href"], "application/octet-stream")
        self.assertEqual(mended, sixel_check.mend(OUTSIDE, background="#ff8000"))
        self.assertEqual(link.attributes["download"], "a-mended.six")
        self.assertEqual(entry.one("p", "mended").one("span").text, f"{len(mended)} bytes, portable 2 12")
        # What named terminals do otherwise stays.
        entry = self.entry(UNCOVERED)
        said = entry.one("p", "mended").text
        self.assertRegex(said, "bytes, broken Rows 6: still not portable, a height that is no multiple of six")


class Png(unittest.TestCase):
    def test_small(self):
        """With a palette if there are few colours; the picture is the same in any case."""
        for count in (1, 2, 3, 15, 16, 17, 300):
            colours = [bytes((at * 37 % 251, at * 11 % 256, at % 7)) for at in range(count)]
            rgb = b"".join(colours[at * at % count] for at in range(35 * 24)) + b"".join(colours) + bytes(3 * 35 * 40)
            rgb = rgb[: 3 * 35 * 60]
            small = small_png_of(35, 60, rgb)
            self.assertEqual(rgb_of(small), (35, 60, rgb))
            self.assertEqual(b"PLTE" in small, count <= 16)
            self.assertEqual(rgb_of(png_of(35, 60, rgb)), (35, 60, rgb))
