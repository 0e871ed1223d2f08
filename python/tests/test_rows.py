"""Each row of the tables, by the calls of the package: they give what the row says."""

import collections
import concurrent.futures
import pathlib
import re
import tempfile
import unittest
import warnings

import sixel_check
from shared import ROOT, test_command

FLAGS = {"--wide", "--showing", "--fill", "--define-selects", "--box", "--eight-bit"}
VALUES = {"--on": str, "--pad": str, "--background": str, "--width": int, "--height": int}
# What the words of a row ask for that no call has: other lines, and streams.
UNCALLED = {"--json", "--explain", "--failed", "--help", "-h", "--version", "-V"}
WRAPPED = test_command.WRAPPED_LINE.decode().strip().removeprefix("sixel: ")
TASKS = ("check", "survey", "scan", "list", "render", "show", "differ", "mend", "encode")

Told = collections.namedtuple("Told", "status output said")


def split(words):
    """The task, the options as calls take them, the files, and whether it is quiet; or nothing if no call has them."""
    task, *rest = words
    options, files, is_quiet = {}, [], False
    while rest:
        word = rest.pop(0)
        name = word[2:].replace("-", "_")
        if word in FLAGS or word == "--sheet":
            options[name] = True
        elif word == "--on" and name in options and task in ("check", "survey"):
            values = [options[name], rest.pop(0)]
            options[name] = "all" if "all" in map(str.lower, values) else ",".join(values)
        elif word in VALUES:
            options[name] = VALUES[word](rest.pop(0))
        elif word == "-q":
            is_quiet = True
        elif word == "--":
            files += rest
            break
        elif word in UNCALLED or word.startswith("-") and word != "-":
            return None
        else:
            files.append(word)
    return task, options, files, is_quiet


def is_opened(name):
    """Whether the program opens a file of this name."""
    try:
        return bool(name.encode())
    except UnicodeEncodeError:
        return False


def ppm_of(picture):
    """The PPM that the program writes for a picture: with the percentage that each level comes from."""
    percentages = {(255 * percentage + 50) // 100: percentage for percentage in range(101)}
    return b"P6\n%d %d\n100\n" % (picture.width, picture.height) + bytes(percentages[level] for level in picture.rgb)


def refused(outcome):
    place = "" if outcome.offset is None else f" at {outcome.offset}"
    sides = "".join(f" {side}" for side in outcome.sides or ())
    return Told(2, b"", f"{outcome.reason}{place}{sides}")


def lines(status, *items):
    return Told(status, "".join(f"{item}\n" for item in items).encode(), "")


def told_by_call(task, options, source):
    """What a call gives, as the status, the output and the refusal that the program gives."""
    try:
        if task in ("check", "survey"):
            got = getattr(sixel_check, task)(source, **options)
            outcome = getattr(got, "outcome", got)
            if isinstance(outcome, sixel_check.Refused):
                return refused(outcome)
            return lines(not outcome.is_portable, *(getattr(got, "findings", ()) or [outcome]))
        if task == "scan":
            found = sixel_check.scan(source, **options)
            if any(string.wrapped for string in found):
                # The program has a note in place of the member.
                warnings.warn(WRAPPED, sixel_check.SixelWarning)
            return lines(not all(it.outcome.is_portable for it in found), *found) if found else Told(2, b"", "NoString")
        if task == "list":
            listing = sixel_check.events(source, **options)
            told = lines(0, *listing.events)
            return refused(listing.refused)._replace(output=told.output) if listing.refused else told
        if task == "differ":
            is_sheet = options.pop("sheet", False)
            got = sixel_check.differ(source, **options)
            if is_sheet and isinstance(got, sixel_check.Difference):
                return Told(not got.is_same, ppm_of(sixel_check.sheet(source, **options)), "")
            return refused(got) if isinstance(got, sixel_check.Refused) else lines(not got.is_same, got)
        got = getattr(sixel_check, task)(source, **options)
        return Told(0, got if isinstance(got, bytes) else ppm_of(got), "")
    except sixel_check.InputRefused as refusal:
        return refused(refusal.outcome)
    except sixel_check.NotPortable as fault:
        return Told(1, b"", str(fault.outcome))
    except FileNotFoundError:
        return Told(2, b"", "no such file")
    except sixel_check.ProgramDied as fault:
        return Told(2, b"", re.search("read failed", str(fault))[0])


class Rows(unittest.TestCase):
    """The rows of crates/sixel_rows/data, in threads."""

    def try_file(self, task):
        rows = test_command.rows_of(ROOT / f"crates/sixel_rows/data/{task}.rows")
        warnings.simplefilter("ignore", sixel_check.SixelWarning)

        def call(row):
            called, options, _, _ = split(row.words)
            return told_by_call(called, options, row.source)

        with concurrent.futures.ThreadPoolExecutor(4) as pool:
            for row, told in zip(rows, pool.map(call, rows)):
                with self.subTest(row.place):
                    said = f"sixel: {told.said}\n" if told.status == 2 else f"{told.said}\n" if told.said else ""
                    self.assertEqual((told.status, told.output, said), (row.status, row.output, row.said.decode()))

    def test_check(self):
        self.try_file("check")

    def test_survey(self):
        self.try_file("survey")

    def test_scan(self):
        self.try_file("scan")

    def test_list(self):
        self.try_file("list")

    def test_render(self):
        self.try_file("render")

    def test_show(self):
        self.try_file("show")

    def test_differ(self):
        self.try_file("differ")

    def test_mend(self):
        self.try_file("mend")

    def test_encode(self):
        self.try_file("encode")

    def test_scanner(self):
        """One running program says of each what a check says."""
        rows = test_command.rows_of(ROOT / "crates/sixel_rows/data/check.rows")
        rows = [row for row in rows if "--on" not in row.words]
        with sixel_check.Scanner() as scanner, sixel_check.Scanner(wide=True) as wide:
            for row in rows:
                with self.subTest(row.place):
                    outcome = (wide if "--wide" in row.words else scanner).check(row.source)
                    told = refused(outcome) if isinstance(outcome, sixel_check.Refused) else lines(0, outcome)
                    said = f"sixel: {told.said}\n" if told.said else ""
                    self.assertEqual((told.output, said), (row.output, row.said.decode()))


class FileRows(unittest.TestCase):
    """The rows of tests/rows over files, one call for each file."""

    def test_files(self):
        count = 0
        with tempfile.TemporaryDirectory() as name:
            folder = pathlib.Path(name)
            test_command.make_files(folder)
            for path in sorted((ROOT / "tests/rows").glob("*.rows")):
                for row in test_command.rows_of(path):
                    # A status of 3 is a usage error.
                    is_called = row.status < 3 and row.words and row.words[0] in TASKS and not row.terminal
                    asked = split(row.words) if is_called else None
                    # A quiet check or survey gives no result, and a call opens a file of any name.
                    if asked and not (asked[3] and asked[0] in ("check", "survey")) and all(map(is_opened, asked[2])):
                        count += 1
                        with self.subTest(row.place):
                            self.try_row(row, *asked, folder)
        self.assertGreater(count, 250)

    def try_row(self, row, task, options, files, is_quiet, folder):
        status, output, said = 0, b"", []
        notes = []
        for file in files or [None]:
            source = row.source if file in (None, "-") else folder / file
            with warnings.catch_warnings(record=True) as caught:
                warnings.simplefilter("always")
                told = told_by_call(task, dict(options), source)
            notes += [f"sixel: {note.message}" for note in caught if f"sixel: {note.message}" not in notes]
            has_lines = task in ("check", "survey", "scan", "differ") and not options.get("sheet")
            printed = re.sub("[\0-\x1f\x7f-\x9f]", lambda found: f"\\x{ord(found[0]):02X}", file or "")
            label = f"{printed}: " if file is not None else ""
            status = max(status, told.status)
            pieces = told.output.splitlines(True)
            output += b"".join(label.encode() + piece for piece in pieces) if has_lines else told.output
            if told.said.startswith("broken"):
                said.append(f"{label}{told.said}")
            elif told.said:
                said.append(f"sixel: {label}{told.said}")
        self.assertEqual((status, output), (row.status, row.output))
        # Objects of JSON lack what the program says beyond a refusal.
        beyond = re.compile("sixel: (this (is|begins)|the input is|'|[0-9]+ of )")
        wanted = [line for line in row.said.decode().splitlines() if not beyond.match(line)]
        self.assertEqual(said + ([] if is_quiet else notes), wanted)
