#!/usr/bin/env python3
"""Streams that a row can't hold: with little room, with calls that fail after some bytes, and that stay open.

The program is the one that the variable SIXEL_PROGRAM names, or dist/sixel. The last line is `N passed, N failed`, and
`, 1 skipped` if strace isn't there or may not trace; the exit status is 1 if something failed.
"""

import os
import pathlib
import pty
import resource
import shutil
import signal
import socket
import subprocess
import sys
import tempfile
import tty
from typing import Callable, Iterator, NamedTuple

ROOT = pathlib.Path(__file__).resolve().parent.parent
PROGRAM = os.environ.get("SIXEL_PROGRAM", str(ROOT / "dist/sixel"))
# After so many seconds a program that waits for input is ended.
SECONDS = 60

# A black pixel.
PIXEL = b'\x1bPq"1;1;1;1#0;2;0;0;0#0@\x1b\\'
FILES = {
    "pixel": PIXEL,
    "ratio": b'\x1bPq"2;1;1;1\x1b\\',
    "three": b'\x1bPq"1;1;4;2#17;2;0;0;0#17@@#0@\x1b\\',
    "half": b'\x1bPq"1;1;2;6#0;2;0;0;0#0~\x1b\\',
    "log": b'ab\x1bPq"1;1;1;1#0;2;0;0;0#0@\x1b\\cd\x1bPq"2;1;1;1#0;2;0;0;0#0@\x1b\\',
    "text": b"x",
    "png": b"\x89PNG\r\n\x1a\n",
}
READ_FAILED, WRITE_FAILED = b"sixel: read failed\n", b"sixel: write failed\n"
WAITING = b"sixel: waiting for sixel text on standard input\n"


class Ended(NamedTuple):
    """The exit status, and what is on standard output and on standard error."""

    status: "int | None"
    output: bytes
    said: bytes


def waited(process: "subprocess.Popen") -> Ended:
    """How it ends. One that doesn't, since it waits for input, has no status."""
    try:
        output, said = process.communicate(timeout=SECONDS)
        return Ended(process.returncode, output or b"", said or b"")
    except subprocess.TimeoutExpired:
        process.kill()
        return Ended(None, *process.communicate())


def held_open(words: str, given: bytes, folder: str, **more: object) -> Ended:
    """Standard input gives these bytes, one a read, and then neither more nor its end. There may be 16 of them."""
    read, write = os.pipe2(os.O_DIRECT)
    with os.fdopen(read), os.fdopen(write, "wb", buffering=0) as keys:
        for byte in given:
            keys.write(bytes([byte]))
        streams = {"stdin": read, "stdout": subprocess.PIPE, "stderr": subprocess.PIPE, "cwd": folder}
        with subprocess.Popen([PROGRAM, *words.split()], **{**streams, **more}) as process:
            return waited(process)


# ---- little room


def in_room(words: str, given: bytes, stream: str, room: int, folder: str) -> Ended:
    """The stream takes so many bytes, and then fails. Standard input stays open."""

    def limit() -> None:
        signal.signal(signal.SIGXFSZ, signal.SIG_IGN)
        resource.setrlimit(resource.RLIMIT_FSIZE, (room, room))

    with tempfile.TemporaryFile() as file:
        got = held_open(words, given, folder, preexec_fn=limit, **{stream: file})
        file.seek(0)
        written = file.read()
    return got._replace(**{"output" if stream == "stdout" else "said": written})


def outputs(folder: str) -> "Iterator[tuple[str, Ended, Ended]]":
    """What fits is written, and no further input is opened or read: a reader of `fifo` waits without end."""
    two = b"sixel: text: NotSixel at 0\nsixel: none: no such file\n"
    for words, text, said in [
        ("check pixel - text", b"pixel: portable 1 1\n", b""),
        ("check pixel fifo", b"pixel: portable 1 1\n", b""),
        ("check text pixel none ratio -", b"pixel: portable 1 1\nratio: broken Ratio 3\n", two),
        ("survey three -", b"three: Register 2 11\nthree: Undefined 1 29\n", b""),
        ("differ half fifo", b"half: xterm konsole\nhalf: mlterm foot 1 0\n", b""),
        ("scan log -", b"log: 2 portable 1 1\nlog: 30 broken Ratio 33\n", b""),
        ("check --json text -", b'{"file":"text","result":"refused","reason":"NotSixel"', b""),
        ("render pixel", b"P6\n1 1\n100\n\0\0\0", b""),
        ("list pixel", b"0 start 7bit 0\n3 raster 1 1 1 1\n11 define 0 2 0 0 0\n", b""),
    ]:
        for room in range(len(text)):
            # What is said of an input comes after the lines of those before it.
            before = said if b"\n" in text[:room] else said[: said.find(b"\n") + 1]
            wanted = Ended(2, text[:room], before + WRITE_FAILED)
            yield f"{words}, {room} bytes", in_room(words, b"", "stdout", room, folder), wanted
    yield "a quiet check", in_room("check -q ratio", b"", "stdout", 0, folder), Ended(1, b"", b"")
    explanations = {name: held_open(f"explain {name}", b"", folder).output for name in ["NoBox", "Maxval"]}
    text = b"\n".join([explanations["NoBox"], explanations["Maxval"], explanations["NoBox"]])
    words = "explain NoBox Maxval NoBox"
    for room in range(0, len(text), 7):
        wanted = Ended(2, text[:room], WRITE_FAILED)
        yield f"{words}, {room} bytes", in_room(words, b"", "stdout", room, folder), wanted
    # Help doesn't say that it fails.
    text = (ROOT / "tests/rows/help/list.txt").read_bytes()
    for room in [0, 1, 20]:
        wanted = Ended(0, text[:room], b"")
        yield f"list --help, {room} bytes", in_room("list --help", b"", "stdout", room, folder), wanted


def errors(folder: str) -> "Iterator[tuple[str, Ended, Ended]]":
    """What standard error can't take is left out, and the program ends as before."""
    twice = b"sixel: standard input is named twice\n"
    uncovered = b'\x1bPq"1;1;2;1#0;2;0;0;0#0@\x1b\\'
    hue = b'\x1bPq"1;1;1;1#0;1;360;50;100#0@\x1b\\'
    for words, text, output, status, said in [
        ("check text ratio none pixel", b"", b"ratio: broken Ratio 3\npixel: portable 1 1\n", 2,
         b"sixel: text: NotSixel at 0\nsixel: none: no such file\n"),
        ("check - -", b"", b"", 3, twice),
        ("view", b"", b"", 3, b"sixel: unrecognized subcommand 'view'\n"),
        ("render ratio", b"", b"", 1, b"ratio: broken Ratio 3\n"),
        ("encode png", b"", b"", 2, b"sixel: png: Header at 0\nsixel: this is a PNG;"),
        ("encode", b"P6 1 1 256\n", b"", 2, b"sixel: Maxval at 7\n"),
        ("list", b"\x1bPq!65536~", b"0 start 7bit 0\n", 2, b"sixel: NumberTooLarge at 8\n"),
    ]:
        for room in [0, 1, 9, 20]:
            wanted = Ended(status, output, said[:room])
            yield f"{words}, {room} bytes", in_room(words, text, "stderr", room, folder), wanted
    # These read their input to its end.
    pathlib.Path(folder, "uncovered").write_bytes(uncovered)
    pathlib.Path(folder, "hue").write_bytes(hue)
    for words, status, said in [
        ("render uncovered", 1, b"uncovered: broken Uncovered 24 1 0\n"),
        ("render hue", 2, b"sixel: hue: NotRgb\n"),
        ("show --width 1 --height 1 hue", 2, b"sixel: hue: NotRgb\n"),
        ("show --on xterm --box text", 2, b"sixel: text: NotSixel at 0\n"),
    ]:
        for room in [0, 1, 9]:
            wanted = Ended(status, b"", said[:room])
            yield f"{words}, {room} bytes", in_room(words, b"", "stderr", room, folder), wanted


# ---- reads


def cut(words: str, given: bytes, folder: str) -> Ended:
    """The read after these bytes fails: the other end is closed with something that it hasn't read."""
    ours, theirs = socket.socketpair(socket.AF_UNIX, socket.SOCK_STREAM)
    with theirs:
        theirs.send(b"unread")
        ours.send(given)
        ours.close()
        streams = {"stdin": theirs, "stdout": subprocess.PIPE, "stderr": subprocess.PIPE, "cwd": folder}
        with subprocess.Popen([PROGRAM, *words.split()], **streams) as process:
            return waited(process)


def failing_reads(folder: str) -> "Iterator[tuple[str, Ended, Ended]]":
    """A failed read is neither made again nor forgotten, and what was read before is answered where it can be."""
    start = b'\x1bPq"1;1;1;1#0;2'
    for words, given, output, said in [
        ("check", b"\x1b", b"", READ_FAILED),
        ("check", start, b"", READ_FAILED),
        ("render", start, b"", READ_FAILED),
        ("encode", b"P", b"", READ_FAILED),
        ("encode", b"P6 1 1 100\n", b"", READ_FAILED),
        # It may be a GIF, and is no sixel text.
        ("check", b"GI", b"", b"sixel: NotSixel at 0\n"),
        ("list", start, b"0 start 7bit 0\n3 raster 1 1 1 1\n", READ_FAILED),
        ("scan", PIXEL + b'\x1bPq"1', b"0 portable 1 1\n", READ_FAILED),
        ("check - pixel", start, b"pixel: portable 1 1\n", b"sixel: -: read failed\n"),
        ("scan - pixel", PIXEL + start, b"-: 0 portable 1 1\npixel: 0 portable 1 1\n", b"sixel: -: read failed\n"),
    ]:
        yield f"{words}, {given!r}", cut(words, given, folder), Ended(2, output, said)


def traced(words: str, folder: str, calls: str, *more: str) -> "tuple[Ended, list[str]]":
    """A run whose input is a pixel, and its calls of this kind, as strace writes them."""
    log = pathlib.Path(folder, "calls")
    argv = ["strace", "-o", str(log), "-e", f"trace={calls}", *more, PROGRAM, *words.split()]
    with open(os.path.join(folder, "pixel"), "rb") as text:
        streams = {"stdin": text, "stdout": subprocess.PIPE, "stderr": subprocess.PIPE, "cwd": folder}
        with subprocess.Popen(argv, **streams) as process:
            got = waited(process)
    return got, [line for line in log.read_text(errors="replace").splitlines() if line.startswith(f"{calls}(")]


def may_trace(folder: str) -> bool:
    return bool(shutil.which("strace")) and traced("check", folder, "read")[0].status == 0


def failing_calls(folder: str) -> "Iterator[tuple[str, object, object]]":
    """Whatever the reason, a read that fails isn't the end, also after the last byte; and a write that fails is told.

    A file is opened once.
    """
    if not may_trace(folder):
        return
    for words, said in [("check", READ_FAILED), ("mend", READ_FAILED), ("check pixel", b"sixel: pixel: read failed\n")]:
        last = len(traced(words, folder, "read")[1])
        for error in ["EIO", "EAGAIN", "EINTR"]:
            for call in [last - 1, last]:
                got, _ = traced(words, folder, "read", "-e", f"inject=read:error={error}:when={call}")
                yield f"{words}, {error} at read {call} of {last}", got, Ended(2, b"", said)
    for words in ["check", "survey pixel", "list", "render", "mend", "show --box", "explain NoBox"]:
        for error in ["ENOSPC", "EIO", "EAGAIN", "EINTR"]:
            got, _ = traced(words, folder, "write", "-e", f"inject=write:error={error}:when=1")
            yield f"{words}, {error} at the first write", got, Ended(2, b"", WRITE_FAILED)
    calls = traced("check pixel ratio pixel", folder, "openat")[1]
    yield "files opened", [sum(f'"{name}"' in call for call in calls) for name in ["pixel", "ratio"]], [2, 1]


def early_answers(folder: str) -> "Iterator[tuple[str, Ended, Ended]]":
    """An answer that no further byte can change doesn't wait for one. As many reads are made as tell the format."""
    ppm = b"makes a PPM (P6) of it\n"
    for words, given, said in [
        ("check", b"x", b"sixel: NotSixel at 0\n"),
        ("encode", b"\x89PNG", b"sixel: Header at 0\nsixel: this is a PNG; `pngtopnm -mix | pnmdepth 255 | ppmtoppm | pnmquant 16` " + ppm),
        ("encode", b"RIFF\x24\0\0\0WEBP", b"sixel: Header at 0\nsixel: this is a WebP; `dwebp -ppm - -o - | pnmquant 16` " + ppm),
        ("check", b"GIF8", b"sixel: NotSixel at 0\nsixel: this is a GIF; `giftopnm | ppmtoppm | pnmquant 16 | sixel encode` "
         b"makes sixel text of it\n"),
    ]:
        yield f"{words}, {given!r}", held_open(words, given, folder), Ended(2, b"", said)


def early_lines(folder: str) -> "Iterator[tuple[str, object, object]]":
    """What the bytes so far complete is written before more is read. The rest is given only after it has come."""
    for words, given, rest, line, status, more in [
        ("list", b"\x1bPq", b"\x1b\\", b"0 start 7bit 0\n", 0, b"3 end 7bit\n"),
        ("scan", b"\x1b[H\x1bPq\x1b\\", b"\x1b[H", b"3 broken RasterFirst 6\n", 1, b""),
        ("scan -", b"\x1b[H\x1bPq\x1b\\", b"\x1b[H", b"-: 3 broken RasterFirst 6\n", 1, b""),
        # It begins as a WebP may, and the string is cancelled.
        ("scan", b"RIFF\x1bPq\x18", b"WEBP", b"4 refused BadByte 7\n", 1, b""),
    ]:
        read, write = os.pipe()
        with os.fdopen(read), os.fdopen(write, "wb", buffering=0) as keys:
            streams = {"stdin": read, "stdout": subprocess.PIPE, "stderr": subprocess.PIPE, "cwd": folder}
            with subprocess.Popen([PROGRAM, *words.split()], **streams) as process:
                keys.write(given)
                first = process.stdout.readline()
                keys.write(rest)
                keys.close()
                yield f"{words}, {given!r}", (first, waited(process)), (line, Ended(status, more, b""))


def notices(folder: str) -> "Iterator[tuple[str, object, object]]":
    """The notice that a task waits for a terminal is there before anything is typed. Then the terminal is gone."""
    for words, notice in [
        ("list", WAITING),
        ("check pixel -", WAITING),
        ("render", WAITING),
        ("encode", WAITING.replace(b"sixel text", b"a PPM")),
    ]:
        keys, terminal = pty.openpty()
        tty.setraw(terminal)
        streams = {"stdin": terminal, "stdout": subprocess.DEVNULL, "stderr": subprocess.PIPE, "cwd": folder}
        with subprocess.Popen([PROGRAM, *words.split()], **streams) as process:
            os.close(terminal)
            first = process.stderr.readline()
            os.close(keys)
            waited(process)
        yield words, first, notice


PARTS: "list[Callable[[str], Iterator[tuple]]]" = [
    outputs,
    errors,
    failing_reads,
    failing_calls,
    early_answers,
    early_lines,
    notices,
]


def main() -> int:
    passed, faults, skipped = 0, [], ""
    with tempfile.TemporaryDirectory() as folder:
        for name, text in FILES.items():
            pathlib.Path(folder, name).write_bytes(text)
        os.mkfifo(os.path.join(folder, "fifo"))
        if not may_trace(folder):
            print("skipped 1: strace isn't on the PATH, or may not trace, so no call was failed by it")
            skipped = ", 1 skipped"
        for part in PARTS:
            for name, got, wanted in part(folder):
                if got == wanted:
                    passed += 1
                else:
                    faults.append(f"{part.__name__}, {name}: {got!r:.300} instead of {wanted!r:.300}")
    print("".join(f"{fault}\n" for fault in faults), end="")
    print(f"{passed} passed, {len(faults)} failed{skipped}")
    return 1 if faults else 0


if __name__ == "__main__":
    sys.exit(main())
