#!/usr/bin/env python3
"""Inputs, outputs and arguments that are too large for a row. They are made here, and so is what must come of them.

The program is the one that the variable SIXEL_PROGRAM names, or dist/sixel. The last line is `N passed, N failed`, and
the exit status 1 if something failed.
"""

import os
import pathlib
import random
import resource
import socket
import subprocess
import sys
import tempfile
from typing import Callable, Iterator, NamedTuple

PROGRAM = os.environ.get("SIXEL_PROGRAM", str(pathlib.Path(__file__).resolve().parent.parent / "dist/sixel"))

# A black pixel, in a box of one pixel.
PIXEL = b'\x1bPq"1;1;1;1#0;2;0;0;0#0@\x1b\\'
BLACK, WHITE, VIOLET = b"\0\0\0", b"ddd", b"\x32\x01\x32"


class Ended(NamedTuple):
    """The exit status, and what is on standard output and on standard error."""

    status: int
    output: bytes
    said: bytes


def run(words: "list[str]", text: bytes = b"", folder: "str | None" = None) -> Ended:
    got = subprocess.run([PROGRAM, *words], input=text, capture_output=True, cwd=folder)
    return Ended(got.returncode, got.stdout, got.stderr)


def done(output: bytes) -> Ended:
    return Ended(0, output, b"")


def ppm(width: int, height: int, samples: bytes) -> bytes:
    return b"P6\n%d %d\n100\n" % (width, height) + samples


def with_first(width: int, height: int, pixel: bytes, ground: bytes) -> bytes:
    """A screen of one colour, but for its first pixel."""
    return ppm(width, height, pixel + ground * (width * height - 1))


# ---- screens


def screens() -> "Iterator[tuple[str, Ended, Ended]]":
    """The sides that nobody gives, and the greatest ones."""
    for words, width, height in [
        ("show", 800, 480),
        ("show --width=4096", 4096, 480),
        ("show --height 0007", 800, 7),
        ("show --width 1 --height 4096", 1, 4096),
        ("show --on mlterm", 800, 480),
        ("show --on mlterm --width 4096", 4096, 480),
        ("show --on xterm --width 4096", 4096, 480),
        ("show --on foot --width 4096", 4096, 480),
    ]:
        yield words, run(words.split(), PIXEL), done(with_first(width, height, BLACK, WHITE))
    # konsole fills the rows below the box, up to a multiple of six.
    words = "show --on konsole --width 4096"
    wanted = done(ppm(4096, 480, (BLACK + WHITE * 4095) * 6 + WHITE * (4096 * 474)))
    yield words, run(words.split(), PIXEL), wanted
    words = "show --on mlterm --background=#80027f --height 4096"
    yield words, run(words.split(), PIXEL), done(with_first(800, 4096, BLACK, VIOLET))
    # In the band that reaches past row 1,000 xterm paints one column, of four rows here. The second sixel ends the
    # string.
    words = "show --on xterm --width 2 --height 1002"
    text = b'\x1bP0;1q"1;1;2;1000#1;2;100;0;0#1' + b"~~-" * 166 + b"NN\x1b\\"
    wanted = done(ppm(2, 1002, b"d\0\0" * (2 * 996) + (b"d\0\0" + WHITE) * 4 + WHITE * (2 * 2)))
    yield words, run(words.split(), text), wanted
    # So a box may have 996 rows, whole bands.
    for height, data, wanted in [
        (996, b"~-" * 165 + b"~", done(b"portable 1 996\n")),
        (997, b"~-" * 166 + b"@", Ended(1, b"broken Large 3\n", b"")),
    ]:
        text = b'\x1bPq"1;1;1;%d#0;2;0;0;0#0%s\x1b\\' % (height, data)
        yield f"check of {height} rows", run(["check", "--on", "xterm"], text), wanted
    # A definition selects its register, the box is filled with register 0, and that has its last colour.
    words = "show --height 4096 --define-selects --fill --width 1 --showing"
    text = b'\x1bPq"1;1;1;2#0;2;100;0;0#1;2;0;100;0@\x1b\\'
    yield words, run(words.split(), text), done(ppm(1, 4096, b"\0d\0" + b"d\0\0" + WHITE * 4094))
    for width, height in [(4096, 1), (1, 4096)]:
        text = b'\x1bPq"1;1;%d;%d\x1b\\' % (width, height)
        wanted = done(ppm(width, height, WHITE * 4096))
        yield f"show --box of {width} by {height}", run(["show", "--box"], text), wanted


# ---- long texts


def texts() -> "Iterator[tuple[str, Ended, Ended]]":
    many = b"$" * 1_000_000
    got = run("show --width 1100 --height 1000".split(), b"\x1bPq" + many + b"@\x1b\\")
    yield "show of a long text", got, done(with_first(1100, 1000, BLACK, WHITE))
    mended = b'\x1bP0;1q"1;1;1;1#0;2;0;0;0#0@\x1b\\'
    yield "mend of a long text", run(["mend", "-q"], PIXEL[:-2] + many + PIXEL[-2:]), done(mended)
    # The 3 is at 100,004.
    lines = b"0 start 7bit 0\n3 repeat 3 63\n100006 end 7bit\n"
    yield "a number with many zeros", run(["list"], b"\x1bPq!" + b"0" * 100_000 + b"3~\x1b\\"), done(lines)
    # A header must end before 65,536 bytes.
    for blanks, rest, wanted in [
        (65_526, b"1 1 100\n\0\0\0", done(mended)),
        (65_527, b"1 1 100\n\0\0\0", Ended(2, b"", b"sixel: Header at 65536\n")),
        (65_534, b"", Ended(2, b"", b"sixel: Short at 65536\n")),
    ]:
        yield f"a header with {blanks} blanks", run(["encode"], b"P6" + b" " * blanks + rest), wanted


# ---- round trips


def colour(number: int) -> bytes:
    """The pixel with this colour, one of 10,000."""
    return bytes([number % 100, number // 100, 0])


def drawn(width: int, height: int, colours: int) -> bytes:
    """Pseudo-random runs in so many colours, always the same ones."""
    source = random.Random(width)
    samples, number = b"", 0
    for _ in range(width * height):
        if source.randrange(4) == 0:
            number = source.randrange(colours)
        samples += colour(number)
    return ppm(width, height, samples)


def returned(options: "list[str]", width: int, height: int, picture: bytes) -> "tuple[str, Ended, Ended]":
    """A PPM that is encoded, checked and rendered: it must come back after the line of the check."""
    text = run(["encode", *options], picture)
    checked, rendered = run(["check", *options], text.output), run(["render", *options], text.output)
    got = Ended(
        max(text.status, checked.status, rendered.status),
        checked.output + rendered.output,
        text.said + checked.said + rendered.said,
    )
    name = f"{width} by {height} {' '.join(options)}"
    return name, got, done(b"portable %d %d\n" % (width, height) + picture)


def round_trips() -> "Iterator[tuple[str, Ended, Ended]]":
    for width in range(1, 71):
        height = width % 13 + 1
        yield returned([], width, height, drawn(width, height, 16))
        yield returned(["--wide"], width, height, drawn(width, height, 256))
    # The largest picture: its first and its last row have all 256 colours, and the others only the first of them.
    colours = b"".join(colour(x % 256) for x in range(2048))
    largest = ppm(2048, 2048, colours + colour(0) * (2048 * 2046) + colours)
    yield returned(["--wide"], 2048, 2048, largest)


# ---- arguments


def arguments() -> "Iterator[tuple[str, Ended, Ended]]":
    """Many arguments, and long ones. A name of more than 255 bytes is none that a file can have."""
    with tempfile.TemporaryDirectory() as folder:
        pathlib.Path(folder, "pixel").write_bytes(PIXEL)
        got = run(["check", "--failed", *["pixel"] * 70_000], b"", folder)
        yield "70,000 files", got, Ended(0, b"", b"sixel: 0 of 70000 files aren't portable\n")
        for length in [255, 256, 257, 512, 100_000]:
            name = "a" * length
            why = "no such file" if length == 255 else "file name too long: read failed"
            wanted = Ended(2, b"", f"sixel: {name}: {why}\n".encode())
            yield f"a name of {length} bytes", run(["check", name], b"", folder), wanted


# ---- memory


def limited(words: "list[str]", text: bytes, kibibytes: int) -> Ended:
    """A run that gets no more memory than this."""
    limit = kibibytes * 1024
    got = subprocess.run(
        [PROGRAM, *words],
        input=text,
        capture_output=True,
        preexec_fn=lambda: resource.setrlimit(resource.RLIMIT_AS, (limit, limit)),
    )
    return Ended(got.returncode, got.stdout, got.stderr)


def least() -> int:
    """With how much memory the program starts and checks a pixel: with less its stack may not grow."""
    return next(limit for limit in range(1_000, 100_000, 100) if limited(["check"], PIXEL, limit).status == 0)


def memory() -> "Iterator[tuple[str, object, object]]":
    """With little memory a task says that it has too little, and with more it ends as ever.

    A scan has nothing to write before the end of its only string.
    """
    start = least()
    limits = [start + more for more in [200, 400, 800, 1_600, 6_400, 25_600, 100_000, 250_000]]
    picture = ppm(2048, 2048, BLACK * 2048 * 2048)
    text = run(["encode"], picture).output
    refused = Ended(2, b"", b"sixel: out of memory\n")
    for words, given in [
        ("check", text),
        ("survey", text),
        ("scan", text),
        ("render", text),
        ("mend -q", text),
        ("show --width 4096 --height 4096", text),
        ("show --on foot --box", text),
        ("encode --wide", picture),
    ]:
        ample = run(words.split(), given)
        ends = [limited(words.split(), given, limit) for limit in limits]
        count = sum(end == refused for end in ends)
        wanted = [refused] * count + [ample] * (len(ends) - count)
        yield words, (ample.status, ends, 0 < count < len(ends)), (0, wanted, True)


def bounds() -> "Iterator[tuple[str, Ended, Ended]]":
    """So many KiB suffice, beside those with which a pixel is checked.

    They are less than what a task would take that keeps 17 MiB of text, or, of `mend` and `differ`, keeps them twice:
    the bytes are in room that grows to 32 MiB. Of the largest picture, less than a byte for each pixel.
    """
    start = least()
    long = PIXEL[:-2] + b"\n" * (17 << 20) + PIXEL[-2:]
    portable, pixel = done(b"portable 1 1\n"), done(ppm(1, 1, BLACK))
    mended = done(b'\x1bP0;1q"1;1;1;1#0;2;0;0;0#0@\x1b\\')
    for words, more, wanted in [
        ("check", 1_000, portable),
        ("check --on xterm,mlterm,foot", 1_000, portable),
        ("check --on konsole", 1_000, Ended(1, b"broken Rows 3\n", b"")),
        ("survey", 1_000, portable),
        ("survey --on all", 1_000, Ended(1, b"Rows 1 3\n", b"")),
        ("scan", 1_000, done(b"0 portable 1 1\n")),
        ("render", 1_000, pixel),
        ("mend -q", 40_000, mended),
        ("show --width 1 --height 1", 1_000, pixel),
        ("show --box", 1_000, pixel),
        ("show --on xterm --box", 1_000, pixel),
        ("show --on mlterm --box", 1_000, pixel),
        ("show --on foot --box", 1_000, pixel),
        ("show --on konsole --box", 1_000, pixel),
        ("differ", 40_000, Ended(1, b"xterm mlterm foot\nkonsole 0 1\n", b"")),
    ]:
        yield f"{words} of 17 MiB", limited(words.split(), long, start + more), wanted
    largest = run(["encode"], ppm(2048, 2048, BLACK * 2048 * 2048)).output
    for words, wanted in [
        ("check", done(b"portable 2048 2048\n")),
        ("check --on mlterm,foot", done(b"portable 2048 2048\n")),
        ("check --on all", Ended(1, b"broken Large 6\n", b"")),
        ("survey", done(b"portable 2048 2048\n")),
        ("survey --on all", Ended(1, b"Large 1 6\nRows 1 6\n", b"")),
        ("scan", done(b"0 portable 2048 2048\n")),
    ]:
        yield f"{words} of 2,048 by 2,048 pixels", limited(words.split(), largest, start + 2_000), wanted


# ---- writes


def messages(words: "list[str]", stream: str, folder: str) -> "list[bytes]":
    """What the program gives to each of its writes to this stream: on such a socket each is a message."""
    ours, theirs = socket.socketpair(socket.AF_UNIX, socket.SOCK_SEQPACKET)
    streams = {"stdin": subprocess.DEVNULL, "stdout": subprocess.DEVNULL, "stderr": subprocess.DEVNULL}
    with ours, subprocess.Popen([PROGRAM, *words], cwd=folder, **{**streams, stream: theirs}):
        theirs.close()
        return list(iter(lambda: ours.recv(1_000_000), b""))


def writes() -> "Iterator[tuple[str, object, object]]":
    """A line goes out in one write, also with the longest name that a file can have, of 4,095 bytes."""
    with tempfile.TemporaryDirectory() as folder:
        pathlib.Path(folder, "pixel").write_bytes(PIXEL)
        longest = "./" * 2045 + "pixel"
        for name in ["pixel", longest]:
            line = f"{name}: portable 1 1\n".encode()
            yield f"the line of {len(name)} bytes", messages(["check", name], "stdout", folder), [line]
        printed = b"\\x01" * 4095
        line = b"sixel: " + printed + b": file name too long: read failed\n"
        yield "a line of controls", messages(["check", "\x01" * 4095], "stderr", folder), [line]
        # With a longer name it goes out in few.
        got = messages(["check", "\x01" * 9000], "stderr", folder)
        line = b"sixel: " + b"\\x01" * 9000 + b": file name too long: read failed\n"
        yield "a line of 36,000 bytes", (b"".join(got), len(got) <= 6), (line, True)


PARTS: "list[Callable[[], Iterator[tuple]]]" = [screens, texts, round_trips, arguments, memory, bounds, writes]


def main() -> int:
    passed, faults = 0, []
    for part in PARTS:
        for name, got, wanted in part():
            if got == wanted:
                passed += 1
            else:
                faults.append(f"{part.__name__}, {name}: {got!r:.300} instead of {wanted!r:.300}")
    print("".join(f"{fault}\n" for fault in faults), end="")
    print(f"{passed} passed, {len(faults)} failed")
    return 1 if faults else 0


if __name__ == "__main__":
    sys.exit(main())
