#!/usr/bin/env python3
"""Compares the surveys of made documents with those of a plain model of the rules:

    tests/plain_survey.py

The documents are made from pseudo-random numbers, the same ones each time: portable ones, ones that break one rule or
several, and ones that are cut off. The model isn't told by the program: it is written from docs/RULES.md, sees the
commands that a document was made of, and marks the pixels one by one. The program is dist/sixel, or that of the variable
SIXEL_PROGRAM; `tests/run` calls this too. The last line counts the surveys that passed and that failed.
"""

import json
import os
import pathlib
import subprocess
import sys
import tempfile
from dataclasses import dataclass, field
from typing import Iterator, NamedTuple, Optional, Union

ROOT = pathlib.Path(__file__).resolve().parent.parent
DOCUMENTS, MOST_SHOWN, CALL_SECONDS = 600, 20, 300
MOST_SIDE, BAND_ROWS = 2048, 6
# In the order in which a survey lists them.
RULES = """RasterFirst RasterTwice Ratio BoxSize Register ColourValue RepeatZero Unselected Undefined Redefined Outside
    Uncovered EightBit""".split()
# What some of the surveys must have.
NEEDED = [*RULES, "portable", "refused"]


class Start(NamedTuple):
    eight: bool


class Raster(NamedTuple):
    pan: int
    pad: int
    width: int
    height: int


class Select(NamedTuple):
    register: int


class Define(NamedTuple):
    register: int
    system: int
    x: int
    y: int
    z: int


class Data(NamedTuple):
    """A sixel or, with a count, a repeat of one."""

    bits: int
    count: Optional[int] = None

    @property
    def columns(self) -> int:
        return 1 if self.count is None else self.count


class Return(NamedTuple):
    to_next_line: bool


class Finish(NamedTuple):
    eight: bool


Event = Union[Start, Raster, Select, Define, Data, Return, Finish]


def spelled(event: Event) -> bytes:
    """The bytes of an event."""
    if isinstance(event, Start):
        return b"\x90q" if event.eight else b"\x1bPq"
    if isinstance(event, Finish):
        return b"\x9c" if event.eight else b"\x1b\\"
    if isinstance(event, Raster):
        return b'"%d;%d;%d;%d' % event
    if isinstance(event, Select):
        return b"#%d" % event.register
    if isinstance(event, Define):
        return b"#%d;%d;%d;%d;%d" % event
    if isinstance(event, Return):
        return b"-" if event.to_next_line else b"$"
    sixel = bytes([ord("?") + event.bits])
    return sixel if event.count is None else b"!%d%s" % (event.count, sixel)


@dataclass
class Document:
    """A document in bytes, and its events with their offsets: those that it was made of, not read from the bytes."""

    text: bytes = b""
    events: list = field(default_factory=list)

    def add(self, *events: Event) -> None:
        for event in events:
            self.events.append((len(self.text), event))
            self.text += spelled(event)


class Numbers:
    """A sequence of pseudo-random numbers, the same with each Python."""

    def __init__(self, seed: int) -> None:
        self.state = seed

    def below(self, most: int) -> int:
        self.state = (self.state * 6_364_136_223_846_793_005 + 1_442_695_040_888_963_407) % 2**64
        return (self.state >> 33) % most

    def once_in(self, count: int) -> bool:
        return self.below(count) == 0


def bits_of(numbers: Numbers, kind: int) -> int:
    """The bits of a sixel: none, all, few or any."""
    any_bits = numbers.below(64)
    return (0, 63, any_bits & numbers.below(64) & numbers.below(64), any_bits)[kind]


def definition(numbers: Numbers, register: int, is_careful: bool) -> Define:
    """A definition; one that isn't careful may have an unknown system or a coordinate out of range."""
    if is_careful or numbers.below(8):
        return Define(register, 2 - numbers.below(2), *((0, 1, 99, 100)[numbers.below(4)] for _ in range(3)))
    return Define(register, numbers.below(4), *((0, 100, 101, 360, 361)[numbers.below(5)] for _ in range(3)))


def add_layer(document: Document, numbers: Numbers, width: int, rows: int, is_full: bool) -> None:
    """Columns in a band of so many rows, up to the right side of the box: all of them, some or, seldom, almost all."""
    left = width
    while left and (is_full or numbers.below(4)):
        count = numbers.below(min(left, 1 + numbers.below(40))) + 1
        full = 62 if numbers.once_in(300) else 63
        bits = (full if is_full else bits_of(numbers, numbers.below(4))) % 2**rows
        document.add(*[Data(bits, count)] if numbers.once_in(2) else [Data(bits)] * count)
        left -= count


def add_picture(document: Document, numbers: Numbers, width: int, height: int, registers: int) -> None:
    """Bands of layers that cover the whole box."""
    for top in range(0, height, BAND_ROWS):
        for layer in range(numbers.below(3) + 1):
            document.add(Select(numbers.below(registers)))
            add_layer(document, numbers, width, min(height - top, BAND_ROWS), layer == 0)
            document.add(Return(to_next_line=False))
        document.add(Return(to_next_line=True))


def add_command(document: Document, numbers: Numbers, most: int, registers: int, is_wild: bool) -> None:
    """A command, which may break any rule: most are sixels, selects, repeats and returns."""
    kind = numbers.below(24)
    if kind < 9:
        bits_kind = numbers.below(4)
        document.add(*(Data(bits_of(numbers, bits_kind)) for _ in range(numbers.below(most) + 1)))
    elif kind < 13:
        document.add(Select(numbers.below(registers)))
    elif kind < 16:
        document.add(Data(bits_of(numbers, 3), numbers.below(most)))
    elif kind < 21:
        document.add(Return(to_next_line=kind > 18))
    elif kind == 21 and is_wild:
        document.add(definition(numbers, numbers.below(registers), is_careful=False))
    elif kind == 22 and is_wild:
        document.add(Raster(1, 1, 7, 9))
    else:
        # A byte that says nothing.
        document.text += b"\n"


def made_document(numbers: Numbers) -> Document:
    """A document that may be portable, or break any of the rules."""
    document = Document()
    document.add(Start(eight=numbers.once_in(12)))
    is_careful = not numbers.once_in(2)
    width, height = numbers.below(60) + 1, numbers.below(30) + 1
    registers = (16, 20, 300)[numbers.below(3)]
    defined = min(registers, numbers.below(20) + 1)
    if not numbers.once_in(10):
        pan = 2 if numbers.once_in(20) else 1
        document.add(Raster(pan, 1, width, MOST_SIDE + 1 if numbers.once_in(12) else height))
    if not numbers.once_in(6):
        document.add(*(definition(numbers, register, is_careful) for register in range(defined)))
    if is_careful or numbers.once_in(2):
        add_picture(document, numbers, width, height, defined)
    if not is_careful:
        most, is_wild = numbers.below(40) + 1, numbers.once_in(2)
        for _ in range(numbers.below(60)):
            add_command(document, numbers, most, registers, is_wild)
    document.add(Finish(eight=numbers.once_in(12)))
    return document


@dataclass
class Model:
    """What is known after some events, and the tallies of the rules: how often each counts, and where first."""

    registers: int
    column: int = 0
    band: int = 0
    selected: Optional[int] = None
    named: Optional[int] = None
    definitions: dict = field(default_factory=dict)
    # The registers that were painted in, while they were known.
    painted: set = field(default_factory=set)
    # The first raster attributes.
    box: Optional[Raster] = None
    # Whether something was painted before them.
    is_early: bool = False
    covered: set = field(default_factory=set)
    tallies: dict = field(default_factory=dict)

    def known(self) -> Optional[int]:
        return self.selected if self.selected == self.named else None

    def has_sides(self) -> bool:
        return self.box is not None and not breaks_box_size(self.box)

    def points(self, data: Data) -> Iterator[tuple]:
        """The points that a command sets, row by row."""
        for bit in range(BAND_ROWS):
            if data.bits >> bit & 1:
                for column in range(data.columns):
                    yield self.column + column, BAND_ROWS * self.band + bit

    def is_outside(self, point: tuple) -> bool:
        return point[0] >= self.box.width or point[1] >= self.box.height

    def count(self, rule: str, place: int, pixel: Optional[tuple] = None, often: int = 1) -> None:
        self.tallies.setdefault(rule, [0, place, pixel])[0] += often

    def count_raster(self, place: int, event: Raster) -> None:
        if self.box is not None:
            self.count("RasterTwice", place)
        if (event.pan, event.pad) != (1, 1):
            self.count("Ratio", place)
        if breaks_box_size(event):
            self.count("BoxSize", place)

    def count_colour(self, place: int, event: Union[Select, Define]) -> None:
        if event.register >= self.registers:
            self.count("Register", place)
        if isinstance(event, Select):
            return
        if not has_colour(event):
            self.count("ColourValue", place)
        is_other = self.definitions.get(event.register, event) != event
        if event.register < self.registers and event.register in self.painted and is_other:
            self.count("Redefined", place)

    def count_data(self, place: int, event: Data) -> None:
        if event.count == 0:
            self.count("RepeatZero", place)
        if not event.bits:
            return
        known = self.known()
        if known is None:
            self.count("Unselected", place)
        elif known < self.registers and known not in self.definitions:
            self.count("Undefined", place)
        if self.has_sides():
            pixel = next(filter(self.is_outside, self.points(event)), None)
            if pixel is not None:
                self.count("Outside", place, pixel)

    def count_blank(self, place: int) -> None:
        if not self.has_sides() or self.is_early:
            return
        every = ((x, y) for y in range(self.box.height) for x in range(self.box.width))
        blank = [point for point in every if point not in self.covered]
        if blank:
            self.count("Uncovered", place, blank[0], len(blank))

    def tally(self, place: int, event: Event) -> None:
        """Counts each rule that counts at the event."""
        if self.box is None and isinstance(event, (Data, Return, Finish)):
            self.count("RasterFirst", place)
        if isinstance(event, Raster):
            self.count_raster(place, event)
        elif isinstance(event, (Select, Define)):
            self.count_colour(place, event)
        elif isinstance(event, Data):
            self.count_data(place, event)
        elif isinstance(event, Finish):
            self.count_blank(place)
        if isinstance(event, (Start, Finish)) and event.eight:
            self.count("EightBit", place)

    def note(self, event: Event) -> None:
        """What is known from the event on."""
        if isinstance(event, Raster):
            self.box = self.box or event
        elif isinstance(event, Select):
            self.selected = self.named = event.register
        elif isinstance(event, Define):
            self.named = event.register
            self.definitions[event.register] = event
        elif isinstance(event, Return):
            self.column = 0
            self.band += event.to_next_line
        elif isinstance(event, Data):
            if event.bits:
                self.painted.add(self.known())
                self.is_early = self.is_early or self.box is None
            self.covered.update(self.points(event))
            self.column += event.columns


def breaks_box_size(box: Raster) -> bool:
    return not (1 <= box.width <= MOST_SIDE and 1 <= box.height <= MOST_SIDE)


def has_colour(event: Define) -> bool:
    """Whether it gives a colour in range: a hue is at most 360, and anything else 100."""
    most = {1: (360, 100, 100), 2: (100, 100, 100)}.get(event.system)
    return most is not None and event.x <= most[0] and event.y <= most[1] and event.z <= most[2]


def survey_of(document: Document, registers: int) -> list:
    """The survey by the model: objects as those of `survey --json`, without a message and the file's name."""
    model = Model(registers)
    for place, event in document.events:
        model.tally(place, event)
        model.note(event)
    if not model.tallies:
        return [{"result": "portable", "width": model.box.width, "height": model.box.height}]
    found = []
    for rule in filter(model.tallies.get, RULES):
        count, place, pixel = model.tallies[rule]
        entry = {"result": "broken", "rule": rule, "count": count, "offset": place}
        found.append(entry if pixel is None else {**entry, "x": pixel[0], "y": pixel[1]})
    return found


def write_documents(folder: pathlib.Path, expected: dict) -> None:
    """Writes the files, and adds the surveys of each, by its name. Each 16th is cut off before its end."""
    numbers = Numbers(42)
    for number in range(DOCUMENTS):
        document, name = made_document(numbers), f"{number:04}.six"
        text = document.text
        if number % 16 == 0:
            text = text[: numbers.below(len(text))]
            refusal = {"result": "refused", "reason": "Truncated", "offset": len(text)}
            expected[name] = {16: [refusal], 256: [refusal]}
        else:
            expected[name] = {registers: survey_of(document, registers) for registers in (16, 256)}
        (folder / name).write_bytes(text)


def surveys_by(program: str, folder: pathlib.Path, names: list, options: list) -> dict:
    """What the program finds, by the file's name."""
    words = [program, "survey", "--json", *options, *names]
    got = subprocess.run(words, cwd=folder, stdout=subprocess.PIPE, timeout=CALL_SECONDS, check=False)
    found = {name: [] for name in names}
    for line in got.stdout.splitlines():
        entry = json.loads(line)
        entry.pop("message", None)
        found[entry.pop("file")].append(entry)
    return found


def lacking(expected: dict) -> list:
    """What the documents don't have often enough to show something."""
    entries = [entry for surveys in expected.values() for survey in surveys.values() for entry in survey]
    told = [entry.get("rule", entry["result"]) for entry in entries]
    return [f"fewer than 10 surveys with {name}" for name in NEEDED if told.count(name) < 10]


def main() -> int:
    program = os.path.abspath(os.environ.get("SIXEL_PROGRAM") or ROOT / "dist/sixel")
    expected: dict = {}
    faults = []
    with tempfile.TemporaryDirectory() as folder:
        write_documents(pathlib.Path(folder), expected)
        for registers, options in (16, []), (256, ["--wide"]):
            found = surveys_by(program, pathlib.Path(folder), list(expected), options)
            for name, surveys in expected.items():
                if found[name] != surveys[registers]:
                    faults.append(f"{name}, {registers} registers: {found[name]} instead of {surveys[registers]}")
    faults += lacking(expected)
    tried = 2 * len(expected) + len(NEEDED)
    print("".join(f"{fault}\n" for fault in faults[:MOST_SHOWN]), end="")
    print(f"{tried - len(faults)} passed, {len(faults)} failed")
    return 1 if faults else 0


if __name__ == "__main__":
    sys.exit(main())
