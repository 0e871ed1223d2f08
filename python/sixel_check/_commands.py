"""The commands of a string around one of its bytes."""

from __future__ import annotations

from dataclasses import dataclass
from typing import List

from ._program import SECONDS, run

# How many commands are shown before and after the one that is meant.
BEFORE, AFTER = 3, 2
NAMES = {0x1B: "ESC ", 0x0A: " LF ", 0x0D: " CR ", 0x09: " TAB "}


@dataclass(frozen=True)
class Command:
    """A command with its bytes."""

    offset: int
    #: Its name and numbers, as `sixel list` prints them; or `no command`.
    words: str
    piece: bytes
    #: Whether it starts where the rule is broken, or where the reader can't go on.
    is_meant: bool


def listing_of(text: bytes) -> bytes:
    """A line for each command. A refusal is left out."""
    return run(["list"], text, SECONDS).output


def commands_around(text: bytes, listing: bytes, offset: int) -> List[Command]:
    """The command at an offset, and some before and after it.

    If none starts there, the reader stopped there, behind the commands of the listing.
    """
    # A large picture has a million lines, so only the few that are needed are cut out.
    listing = b"\n" + listing
    at = listing.find(b"\n%d " % offset)
    if at < 0:
        at, listing = len(listing) - 1, listing + b"%d no command\n" % offset
    before = listing[:at].rsplit(b"\n", BEFORE)[1:]
    # One more, which tells where the last one ends.
    after = listing[at + 1 :].split(b"\n", AFTER + 2)[:-1]
    parts = [line.partition(b" ") for line in before + after]
    offsets = [*(int(part[0]) for part in parts), len(text)]
    return [
        Command(start, part[2].decode(), text[start:end], start == offset)
        for part, start, end in zip(parts[: len(before) + 1 + AFTER], offsets, offsets[1:])
    ]


def printable(piece: bytes, most: int) -> str:
    """So many bytes of a string in one line, with controls by their names."""
    more = " .." if len(piece) > most else ""
    named = (NAMES.get(byte) or (chr(byte) if 0x20 <= byte < 0x7F else f"\\x{byte:02X}") for byte in piece[:most])
    return "".join(named).strip() + more
