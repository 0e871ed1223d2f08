"""Assertions for tests: that a picture is portable, and that two show the same."""

from __future__ import annotations

import itertools
import os
import re
import tempfile
from pathlib import Path
from typing import Callable, Dict, Iterator, List, Optional, Tuple

from . import _calls
from ._calls import TERMINALS, Names
from ._commands import commands_around, listing_of, printable
from ._outcomes import Broken, Finding, InputRefused, Outcome, Portable, Refused
from ._picture import Picture
from ._program import Source, bytes_of

# How many bytes of a command a failure shows.
MOST_BYTES = 40
# What isn't painted shows the background, so a second one tells it from what is painted in the first one's colour.
BACKGROUNDS = ("100,100,100", "0,0,0")


def temporary_folder() -> Path:
    """A new folder of the system's temporary one."""
    return Path(tempfile.mkdtemp(prefix="sixel-"))


# Where failures put pictures: a folder that stays the same, or a function that makes a new one each time. The plugin
# for pytest sets these.
kept_folder: Optional[Path] = None
new_folder: Callable[[], Path] = temporary_folder
_names: Dict[str, int] = {}


def picture_folder() -> Path:
    """The folder of one failure's pictures. In a folder that is kept it has the name of the test."""
    if kept_folder is None:
        return new_folder()
    test = os.environ.get("PYTEST_CURRENT_TEST", "picture").rsplit(" ", 1)[0]
    name = re.sub(r"[^\w.-]+", "_", test)[-100:]
    number = _names[name] = _names.get(name, 0) + 1
    folder = kept_folder / (name if number == 1 else f"{name}-{number}")
    folder.mkdir(parents=True, exist_ok=True)
    return folder


def assert_portable(data: Source, on: Names = "all", wide: bool = False) -> None:
    """Fails if a picture isn't portable, or if a named terminal shows something else.

    The failure says which rule is broken by which command, what to do, and where the pictures of the four terminals
    are. With `on=()` no named terminal counts; with `wide` the picture may use 256 colour registers.
    """
    __tracebackhide__ = True
    said = failure(bytes_of(data), on, wide)[1]
    if said:
        raise AssertionError(said)


def assert_same_picture(a: Source, b: Source, on: Names = "all") -> None:
    """Fails if a named terminal shows two pictures differently, whatever their commands are.

    They are compared on a white and on a black screen. It also fails if one is refused, or if the model of a terminal
    doesn't say what it shows; `on` leaves that terminal out.
    """
    __tracebackhide__ = True
    texts, terminals = (bytes_of(a), bytes_of(b)), _named(on)
    sizes = []
    for text, name in zip(texts, ("first", "second")):
        try:
            sheet = _calls.sheet(text)
        except InputRefused as refusal:
            raise AssertionError(f"the {name} picture is {refusal}") from None
        sizes.append((_calls.screens_of(sheet)[0].width, sheet.height))
    width, height = max(width for width, _ in sizes), max(height for _, height in sizes)
    for background, terminal in itertools.product(BACKGROUNDS, terminals):
        screens = []
        for text, name in zip(texts, ("first", "second")):
            try:
                screens.append(_calls.show(text, on=terminal, background=background, width=width, height=height))
            except InputRefused as refusal:
                why = f"what {terminal} shows of the {name} picture isn't known: {refusal}"
                raise AssertionError(why) from None
        difference = first_difference(*screens)
        if difference:
            folder = picture_folder()
            for screen, name in zip(screens, ("first", "second")):
                screen.save(folder / f"{terminal}-{name}.png")
            raise AssertionError(f"{terminal} shows two pictures: {difference}\n  pictures: {folder}/{terminal}-*.png")


def _named(on: Names) -> List[str]:
    names = on.split(",") if isinstance(on, str) else list(on)
    names = list(TERMINALS) if names == ["all"] else names
    if not names or not set(names) <= set(TERMINALS):
        raise ValueError(f"on names one or more of {', '.join(TERMINALS)}, or all, and not {on!r}")
    return names


def first_difference(a: Picture, b: Picture) -> str:
    """The first pixel in which two pictures of one size differ, in words; nothing if they are the same."""
    if a.rgb == b.rgb:
        return ""
    # Halve the part that differs, since a loop over the bytes is slow.
    start, end = 0, len(a.rgb)
    while end - start > 1:
        middle = (start + end) // 2
        if a.rgb[start:middle] == b.rgb[start:middle]:
            start = middle
        else:
            end = middle
    row, column = divmod(start // 3, a.width)
    colours = ["#%02x%02x%02x" % picture.pixel(column, row) for picture in (a, b)]
    return f"in column {column}, row {row} the first has {colours[0]} and the second {colours[1]}"


def failure(text: bytes, on: Names, wide: bool) -> Tuple[Outcome, str]:
    """What a check says of a picture, and if it isn't portable, what a failure says."""
    names = on if isinstance(on, str) else tuple(on)
    outcome = _calls.check(text, on=names, wide=wide)
    if isinstance(outcome, Portable):
        return outcome, ""
    lines = [f"the picture isn't portable: {outcome}", f"  {outcome.message}"]
    if outcome.offset is not None:
        lines += ["  commands, each with its offset:", *(f"  {line}" for line in commands_told(text, outcome.offset))]
    rule = outcome.rule if isinstance(outcome, Broken) else ""
    others = [finding for finding in _calls.survey(text, on=names, wide=wide).findings if finding.rule != rule]
    if others:
        lines.append("  also broken: " + ", ".join(map(_told, others)))
    return outcome, "\n".join([*lines, f"  fix: {outcome.fix}", *(f"  {line}" for line in put_pictures(text))])


def _told(finding: Finding) -> str:
    often = "" if finding.count == 1 else f", {finding.count} times, first"
    return f"{finding.rule}{often} at {finding.offset}"


def commands_told(text: bytes, offset: int) -> Iterator[str]:
    """The command at an offset, marked, and some before and after it, each with its bytes."""
    for command in commands_around(text, listing_of(text), offset):
        line = f"{command.offset} {command.words}"
        yield f"{'>' if command.is_meant else ' '} {line:<24} {printable(command.piece, MOST_BYTES)}".rstrip()


def put_pictures(text: bytes) -> Iterator[str]:
    """Puts the pictures of the four terminals into a folder, and tells in lines where they are."""
    try:
        screens = _calls.screens_of(_calls.sheet(text))
    except InputRefused as refusal:
        yield f"pictures: none, {refusal.outcome.message}"
        return
    folder = picture_folder()
    difference = _calls.differ(text)
    groups = () if isinstance(difference, Refused) else difference.groups
    unknown = {name: group.unmodelled for group in groups for name in group.terminals if group.unmodelled is not None}
    for name, screen in zip(TERMINALS, screens):
        if name not in unknown:
            screen.save(folder / f"{name}.png")
    drawn = ", ".join(f"{name}.png" for name in TERMINALS if name not in unknown)
    yield f"pictures: {folder}{os.sep} has {drawn or 'none'}"
    for name, offset in unknown.items():
        yield f"  what {name} shows isn't known, from the command at {offset} on"


class Pictures:
    """Collects pictures of a test, which fails at its end if one isn't portable: the fixture `sixel_pictures`."""

    def __init__(self) -> None:
        self._failures: List[str] = []
        self._count = 0

    def add(self, data: Source, name: str = "", *, on: Names = "all", wide: bool = False) -> Outcome:
        """Checks a picture at once, and gives the outcome. The name is for the failure."""
        self._count += 1
        outcome, said = failure(bytes_of(data), on, wide)
        if said:
            self._failures.append(f"{name or f'picture {self._count}'}: {said}")
        return outcome

    def verify(self) -> None:
        """Fails if one that was added since the last call isn't portable."""
        __tracebackhide__ = True
        failures, count = self._failures, self._count
        self._failures, self._count = [], 0
        if failures:
            raise AssertionError(f"{len(failures)} of {count} pictures aren't portable\n" + "\n".join(failures))
