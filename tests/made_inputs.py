#!/usr/bin/env python3
"""Tries `sixel check` and `sixel encode` on inputs that are too many or too long for rows.

    tests/made_inputs.py              # tries the program that SIXEL_PROGRAM names, or else dist/sixel

- Each byte value after each thing that can be open in a document, against a table of what may follow.
- A document of the most bytes that there may be, and one of a byte more.
- Long headers and long numbers of PPM files, and the end of a long file.

The results are worked out from the formats. A line tells of each wrong one; the last line is `N passed, N failed`, and
the exit status is 1 if something failed.
"""

import os
import pathlib
import re
import subprocess
import sys
import tempfile
from typing import NamedTuple

ROOT = pathlib.Path(__file__).resolve().parent.parent
PROGRAM = os.path.abspath(os.environ.get("SIXEL_PROGRAM", ROOT / "dist/sixel"))
MOST_BYTES = 268_435_456

FILLER = b"\t\n\r "
DIGITS = b"0123456789"
# The last digits of the numbers from 65530 to 65535.
LOW_DIGITS = b"012345"
DATA = bytes(range(ord("?"), ord("~") + 1))
# What may come while no command is open.
BODY = FILLER + DATA + b'\x1b\x9c!"#$-'


class Open(NamedTuple):
    """Something open in a document, by the bytes that open it."""

    prefix: bytes
    # The bytes that may follow.
    allowed: bytes
    # Why all others can't, but for those with a reason of their own.
    reason: str
    apart: "tuple[tuple[bytes, str], ...]" = ()

    def fault_of(self, byte: int) -> str:
        """Why the byte can't follow, or nothing."""
        if byte in self.allowed:
            return ""
        return next((reason for others, reason in self.apart if byte in others), self.reason)


LARGE = (DIGITS, "NumberTooLarge")
FIELD_TOO_MANY = (b";", "FieldCount")
FIELDS_TOO_FEW = (BODY, "FieldCount")
OPEN = [
    # Before the picture data.
    Open(b"", FILLER + b"\x1b\x90", "NotSixel"),
    Open(b" \n", FILLER + b"\x1b\x90", "NotSixel"),
    Open(b"\x1b", b"P", "NotSixel"),
    Open(b"\x1bP", DIGITS + b";q", "NotSixel"),
    Open(b"\x90", DIGITS + b";q", "NotSixel"),
    Open(b"\x1bP1;", DIGITS + b";q", "NotSixel"),
    Open(b"\x901;2;3", DIGITS + b";q", "NotSixel"),
    Open(b"\x1bP;;;", b"q", "NotSixel", (FIELD_TOO_MANY, (DIGITS, "FieldCount"))),
    Open(b"\x1bP6553", LOW_DIGITS + b";q", "NotSixel", (LARGE,)),
    Open(b"\x90;65535", b";q", "NotSixel", (LARGE,)),
    # Within the picture data.
    Open(b"\x1bPq", BODY, "BadByte"),
    Open(b"\x1bPq ~$", BODY, "BadByte"),
    Open(b"\x1bPq!", DIGITS + DATA, "BadRepeat"),
    Open(b"\x1bPq!7", DIGITS + DATA, "BadRepeat"),
    Open(b'\x1bPq"', DIGITS + b";" + BODY, "BadByte"),
    Open(b'\x1bPq"1;', DIGITS + b";" + BODY, "BadByte"),
    Open(b'\x1bPq"1;2;3', DIGITS + b";" + BODY, "BadByte"),
    Open(b'\x1bPq"1;2;3;', DIGITS + BODY, "BadByte", (FIELD_TOO_MANY,)),
    Open(b"\x1bPq#", DIGITS + b";" + BODY, "BadByte"),
    Open(b"\x1bPq#12", DIGITS + b";" + BODY, "BadByte"),
    Open(b"\x1bPq#1;", DIGITS + b";", "BadByte", (FIELDS_TOO_FEW,)),
    Open(b"\x1bPq#1;2;", DIGITS + b";", "BadByte", (FIELDS_TOO_FEW,)),
    Open(b"\x1bPq#1;2;3;4", DIGITS + b";", "BadByte", (FIELDS_TOO_FEW,)),
    Open(b"\x1bPq#1;2;3;4;", DIGITS + BODY, "BadByte", (FIELD_TOO_MANY,)),
    # Large numbers there.
    Open(b"\x1bPq!6553", LOW_DIGITS + DATA, "BadRepeat", (LARGE,)),
    Open(b'\x1bPq"1;6553', LOW_DIGITS + b";" + BODY, "BadByte", (LARGE,)),
    Open(b"\x1bPq#6553", LOW_DIGITS + b";" + BODY, "BadByte", (LARGE,)),
    Open(b"\x1bPq#1;6553", LOW_DIGITS + b";", "BadByte", (LARGE, FIELDS_TOO_FEW)),
    # After the picture data.
    Open(b"\x1bPq\x1b", b"\\", "BadTerminator"),
    Open(b"\x1bPq#1\x1b", b"\\", "BadTerminator"),
    Open(b"\x1bPq\x1b\\", FILLER, "Trailing"),
    Open(b"\x90q\x9c\t", FILLER, "Trailing"),
]


class File(NamedTuple):
    """A PPM file: a prefix, bytes many times, the rest, and what the first line on standard error says of it, if it is
    refused."""

    prefix: bytes
    part: bytes
    count: int
    rest: bytes
    fault: str


# The longest header, and 2,048 by 16 pixels without the last one, in 16 colours: 163,837 bytes.
WIDE = b"P6" + b" " * 65_524 + b"2048 16 2\n" + b"".join(bytes((n // 9, n // 3 % 3, n % 3)) for n in range(16))
FILES = [
    # A header has at most 65,536 bytes.
    File(b"P6", b" ", 65_526, b"1 1 100\n\0\0\0", ""),
    File(b"P6", b" ", 65_527, b"1 1 100\n\0\0\0", "Header at 65536"),
    File(b"P6", b" ", 65_527, b"1 1 256\n\0\0\0", "Header at 65536"),
    File(b"P6", b" ", 65_534, b"", "Short at 65536"),
    File(b"P6", b" ", 65_535, b"", "Header at 65536"),
    File(b"P6", b"#", 65_534, b"", "Short at 65536"),
    File(b"P6", b"#", 65_534, b"\n1 1 100\n", "Header at 65536"),
    File(b"P6", b" ", 65_532, b"0 1 100\n", "Size at 65534"),
    File(b"P6", b" ", 65_530, b"1 0 1", "Size at 65534"),
    File(b"P6", b" ", 65_528, b"1 1 0\n", "Maxval at 65534"),
    File(b"P6", b" ", 65_529, b"1 1 0\n", "Header at 65536"),
    # Numbers of many digits.
    File(b"P6 ", b"9", 1_000, b" 1 100\n", "Size at 3"),
    File(b"P6 ", b"9", 60_000, b" 1 100\n", "Size at 3"),
    File(b"P6 ", b"9", 60_000, b"x", "Header at 60003"),
    File(b"P6 ", b"0", 60_000, b"1 1 1\n\0\0\0", ""),
    File(b"P6 ", b"0", 60_000, b" 1 1\n\0\0\0", "Size at 3"),
    # The end of a long file.
    File(WIDE, b"\0", 163_837 - len(WIDE), b"\0\0\0", ""),
    File(WIDE, b"\0", 163_837 - len(WIDE), b"\0\0", "Short at 163839"),
    File(WIDE, b"\0", 163_837 - len(WIDE), b"\0\0\3", "Sample at 163839"),
    File(WIDE, b"\0", 163_837 - len(WIDE), b"\0\0\0\0", "Trailing at 163840"),
    File(WIDE, b"\0", 163_837 - len(WIDE), b"\2\2\2", "TooManyColours at 163837"),
]


def faults_after(opened: Open) -> "list[str]":
    """What is wrong with the refusals of the 256 files that have a byte after what opens something."""
    # Each time a new folder, since some file systems are slow to write a file anew.
    with tempfile.TemporaryDirectory() as folder:
        for byte in range(256):
            pathlib.Path(folder, str(byte)).write_bytes(opened.prefix + bytes([byte]))
        argv = [PROGRAM, "check", *map(str, range(256))]
        got = subprocess.run(argv, cwd=folder, capture_output=True, text=True, timeout=60)
    refused = {}
    for number, reason, place in re.findall(r"^sixel: (\d+): (\w+) at (\d+)$", got.stderr, re.MULTILINE):
        refused[int(number)] = (reason, int(place))
    told = {int(number) for number in re.findall(r"^(\d+): ", got.stdout, re.MULTILINE)}
    place = len(opened.prefix)
    faults = []
    for byte in range(256):
        reason = opened.fault_of(byte)
        found = refused.get(byte)
        # A document that goes on is refused at its end, and a whole one is judged.
        is_taken = byte in told or found == ("Truncated", place + 1)
        if found != (reason, place) if reason else not is_taken:
            faults.append(f"{bytes([byte])!r} after {opened.prefix!r}: {found} instead of {reason or 'no fault'}")
    return faults


def check_filled(count: int) -> "tuple[str, str]":
    """What `check` writes and says of one black pixel with so many blank columns that it has this many bytes."""
    begins, ends = b'\x1bPq"1;1;1;1#0;2;0;0;0#0@', b"\x1b\\"
    pieces, rest = divmod(count - len(begins) - len(ends), 65_536)
    streams = {"stdin": subprocess.PIPE, "stdout": subprocess.PIPE, "stderr": subprocess.PIPE}
    with subprocess.Popen([PROGRAM, "check"], **streams) as got:
        try:
            for part in [begins + b"?" * rest, *[b"?" * 65_536] * pieces, ends]:
                got.stdin.write(part)
        except BrokenPipeError:
            pass
        output, said = got.communicate(timeout=60)
    return output.decode(), said.decode().split("\n")[0]


def fault_of(file: File) -> str:
    """What is wrong with the end of `encode` on a file, or nothing."""
    source = file.prefix + file.part * file.count + file.rest
    got = subprocess.run([PROGRAM, "encode"], input=source, capture_output=True, timeout=60)
    said = got.stderr.decode().split("\n")[0] if got.returncode else ""
    expected = f"sixel: {file.fault}" if file.fault else ""
    if said == expected and got.returncode == (2 if file.fault else 0):
        return ""
    return f"{file.count} times {file.part!r}, then {file.rest!r}: {said!r} instead of {expected!r}"


def main() -> int:
    faults, count = [], 256 * len(OPEN) + len(FILES) + 2
    for opened in OPEN:
        faults += faults_after(opened)
    faults += filter(None, map(fault_of, FILES))
    for filled, expected in [
        (MOST_BYTES, ("portable 1 1\n", "")),
        (MOST_BYTES + 1, ("", f"sixel: TooLong at {MOST_BYTES}")),
    ]:
        found = check_filled(filled)
        if found != expected:
            faults.append(f"a document of {filled} bytes: {found} instead of {expected}")
    print("".join(f"{fault}\n" for fault in faults) + f"{count - len(faults)} passed, {len(faults)} failed")
    return 1 if faults else 0


if __name__ == "__main__":
    sys.exit(main())
