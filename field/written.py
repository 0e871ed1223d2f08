"""Reads a sixel string as it is written. It knows nothing of the program, and `field/models` compares the two.

A terminal tells more apart than what a command means: an empty number from a 0, and `05` from `5`. So an event keeps
the digits.
"""
import re
from dataclasses import dataclass

START = re.compile(rb"[\t\n\r ]*(\x90|\x1bP)([0-9;]*)q")
COMMAND = re.compile(rb'!(?P<count>\d*)(?P<data>[?-~])|(?P<single>[?-~])|#(?P<colour>[\d;]*)|"(?P<raster>[\d;]*)'
                     rb"|(?P<return>\$)|(?P<newline>-)|(?P<end>\x1b\\|\x9c)|(?P<filler>[\t\n\r ])")
# What mlterm takes with the byte after it if no number is there, and a byte that it passes over.
SWALLOWED = re.compile(rb'[!"#](?![\d;])(?P<byte>[\s\S])')
STRAY = re.compile(rb"[\d;]")


@dataclass(frozen=True)
class Event:
    """The start, a command or the end."""
    place: int                  # its offset
    kind: str                   # start, raster, define, select, sixel, return, newline or end
    words: tuple = ()           # its numbers as they are written: digits, perhaps none
    bits: int = 0               # those of a sixel. If it is repeated, its number is the count
    eight: bool = False         # whether the start or the end is a control of eight bits
    after: bytes = b""          # what follows the end

    @property
    def numbers(self):
        """What they mean: a missing one is 0."""
        least = {"raster": 4, "start": 2}.get(self.kind, 0)
        words = self.words + (b"",) * (least - len(self.words))
        return tuple(int(word or b"0") for word in words)

    @property
    def count(self):
        """How many columns a sixel has."""
        return self.numbers[0] if self.words else 1


def read(data, swallows=False):
    """The events of a string; if `swallows`, as mlterm sees it, which takes a command without a number and the byte
    after it for nothing. ValueError if it is no string, or if nothing ends it."""
    start = START.match(data)
    if not start:
        raise ValueError("no introducer")
    words = start[2].split(b";")
    if len(words) == 4 and not words[3]:
        words.pop()
    events, place = [Event(start.start(1), "start", tuple(words), eight=start[1] == b"\x90")], start.end()
    while True:
        past = swallows and (SWALLOWED.match(data, place) or STRAY.match(data, place))
        found = past or COMMAND.match(data, place)
        if not found:
            raise ValueError(f"no command at {place}")
        if not past and found.lastgroup != "filler":
            events.append(command(found, data))
            if events[-1].kind == "end":
                return events
        place = found.end()


def command(found, data):
    """The event of a command's match."""
    place = found.start()
    if found["data"]:
        return Event(place, "sixel", (found["count"],), found["data"][0] - 63)
    if found["single"]:
        return Event(place, "sixel", (), found["single"][0] - 63)
    if found["colour"] is not None:
        words = tuple(found["colour"].split(b";"))
        if len(words) not in (1, 5):
            raise ValueError(f"{len(words)} numbers at {place}")
        return Event(place, "select" if len(words) == 1 else "define", words)
    if found["raster"] is not None:
        words = tuple(found["raster"].split(b";"))
        if len(words) > 4:
            raise ValueError(f"{len(words)} numbers at {place}")
        return Event(place, "raster", words)
    if found["end"]:
        return Event(place, "end", eight=found["end"] == b"\x9c", after=data[found.end():])
    return Event(place, "return" if found["return"] else "newline")
