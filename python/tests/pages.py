"""What the tests of the report share: a page as a tree, and what it says."""

import base64
import collections
import contextlib
import html.parser
import io
import json
import os
import pathlib
import struct
import subprocess
import tempfile
import unittest
import zlib

from sixel_check import _report

VOID = {"meta", "link", "input"}


class Element:
    """An element of a page: its tag, its attributes and what is inside it."""

    def __init__(self, tag, attributes):
        self.tag, self.attributes, self.inside = tag, dict(attributes), []

    @property
    def text(self):
        return "".join(each if isinstance(each, str) else each.text for each in self.inside)

    def all(self, tag="", kind="", **attributes):
        """The elements inside with this tag, this class and these attributes."""
        for each in self.inside:
            if isinstance(each, Element):
                kinds = (each.attributes.get("class") or "").split()
                has = all(each.attributes.get(key) == value for key, value in attributes.items())
                if tag in ("", each.tag) and (not kind or kind in kinds) and has:
                    yield each
                yield from each.all(tag, kind, **attributes)

    def one(self, tag="", kind="", **attributes):
        (found,) = self.all(tag, kind, **attributes)
        return found

    def number(self, name):
        value = self.attributes.get(name)
        return None if value is None else int(value)


class Page(html.parser.HTMLParser):
    """A page as a tree. Each element ends where it should."""

    def __init__(self, text):
        super().__init__()
        self.open = [Element("", ())]
        self.feed(text)
        self.close()
        (self.top,) = self.open

    def handle_starttag(self, tag, attributes):
        names = [name for name, _ in attributes]
        assert len(names) == len(set(names)), names
        found = Element(tag, attributes)
        self.open[-1].inside.append(found)
        if tag not in VOID:
            self.open.append(found)

    def handle_endtag(self, tag):
        assert self.open.pop().tag == tag, tag

    def handle_data(self, text):
        self.open[-1].inside.append(text)


def run_report(*words):
    """The exit status of the command, and what it says."""
    with contextlib.redirect_stderr(io.StringIO()) as said:
        try:
            status = _report.main([*map(str, words)])
        except SystemExit as end:
            status = end.code
    return status, said.getvalue()


def told_by_program(*words):
    """The objects of `sixel survey --json`, by the names of their files."""
    words = [os.environ["SIXEL_PROGRAM"], "survey", "--json", *words]
    found = collections.defaultdict(list)
    for line in subprocess.run(words, stdout=subprocess.PIPE).stdout.splitlines():
        answer = json.loads(line)
        found[answer.pop("file")].append(answer)
    return found


def told_by_page(entry):
    """The same objects, as the page has them."""
    result = entry.attributes["data-result"]
    if result == "portable":
        width, height = entry.one(kind="line").one("code").text.split()[1:]
        return [{"result": result, "width": int(width), "height": int(height)}]
    if result == "unread":
        return [{"result": result, "reason": entry.one(kind="verdict").text}]
    answers = []
    for fault in entry.all("details", "fault"):
        keys = ("rule", "reason", "count", "offset", "x", "y")
        answer = {key: fault.attributes.get(f"data-{key}") for key in keys}
        answer = {key: value if key in keys[:2] else int(value) for key, value in answer.items() if value is not None}
        answers.append({"result": result, **answer, "message": fault.one(kind="message").text})
    return answers


def rgb_of(png):
    """A plain reader of PNG, with a palette or without: the width, the height and the samples."""
    chunks, at = {}, 8
    while at < len(png):
        size, kind = struct.unpack(">I4s", png[at : at + 8])
        chunks[kind] = png[at + 8 : at + 8 + size]
        at += 12 + size
    width, height, depth, colour = struct.unpack(">IIBB", chunks[b"IHDR"][:10])
    assert depth == 8, depth
    rows, step = zlib.decompress(chunks[b"IDAT"]), (3 * width if colour == 2 else width) + 1
    assert set(rows[::step]) == {0}
    samples = b"".join(rows[start + 1 : start + step] for start in range(0, len(rows), step))
    if colour == 2:
        return width, height, samples
    rgb = bytearray(3 * len(samples))
    for plane in range(3):
        rgb[plane::3] = samples.translate(chunks[b"PLTE"][plane::3].ljust(256, b"\0"))
    return width, height, bytes(rgb)


def data_of(uri, kind):
    start = f"data:{kind};base64,"
    assert uri.startswith(start), uri[:60]
    return base64.b64decode(uri[len(start) :], validate=True)


class WithFolder(unittest.TestCase):
    def setUp(self):
        folder = tempfile.TemporaryDirectory()
        self.addCleanup(folder.cleanup)
        self.folder = pathlib.Path(folder.name)
        self.output = self.folder / "report.html"

    def put(self, text, name="a.six"):
        path = os.path.join(os.fsencode(self.folder), os.fsencode(name))
        with open(path, "wb") as file:
            file.write(text)
        return os.fsdecode(path)

    def page(self, *words, status=None):
        """The page of a report. The command ends as a check would."""
        got, said = run_report(*words, "-q", "-o", self.output)
        self.assertEqual(said, "")
        if status is not None:
            self.assertEqual(got, status)
        text = self.output.read_text(encoding="utf-8")
        self.assertTrue(text.startswith("<!doctype html>\n<!-- sixel-report -->\n<html lang=\"en\"><head>"))
        return Page(text).top

    def entry(self, text, *words):
        return self.page(self.put(text), *words).one("article")
