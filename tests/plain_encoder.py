#!/usr/bin/env python3
"""Compares the texts that `sixel encode` writes with those of a plain encoder.

    tests/plain_encoder.py            # tries the program that SIXEL_PROGRAM names, or else dist/sixel

The plain encoder does what crates/sixel_encode/specs/Canon.antt defines, without regard to time. The pictures are made,
always the same ones: rows of each width, long runs, gaps between columns with ink, noise, full rows, and the largest
pictures, for both profiles.

A line tells of each wrong text; the last line is `N passed, N failed`, and the exit status is 1 if something failed.
"""

import concurrent.futures
import functools
import itertools
import os
import pathlib
import subprocess
import sys
from typing import Iterator, NamedTuple

ROOT = pathlib.Path(__file__).resolve().parent.parent
PROGRAM = os.environ.get("SIXEL_PROGRAM", str(ROOT / "dist/sixel"))
BAND_ROWS = 6
HEIGHTS = (1, 5, 6, 7, 13)

# A row of a picture: the number of a colour for each pixel.
Row = bytes


class Picture(NamedTuple):
    """A picture with a name. All rows have the same length."""

    name: str
    is_wide: bool
    rows: "list[Row]"


def colour_of(number: int) -> "tuple[int, int, int]":
    """The percentages of red, green and blue of a colour; 256 numbers have different ones."""
    return number % 16, number // 16, 100 - number % 16


@functools.cache
def run_text(column: str, count: int) -> str:
    """The text of equal columns: up to three one by one, more as a repeat."""
    return f"!{count}{column}" if count > 3 else column * count


@functools.cache
def band_text(rows: "tuple[Row, ...]", registers: "tuple[int, ...]") -> str:
    """The text of a band: its registers in increasing order, each with its columns up to the last one that has ink."""
    inks: "dict[int, list[int]]" = {}
    for y, row in enumerate(rows):
        for x, number in enumerate(row):
            inks.setdefault(registers[number], [0] * len(row))[x] |= 1 << y
    lines = []
    for register in sorted(inks):
        columns = "".join(chr(ord("?") + bits) for bits in inks[register]).rstrip("?")
        runs = (run_text(column, len(list(run))) for column, run in itertools.groupby(columns))
        lines.append(f"#{register}" + "".join(runs))
    return "$".join(lines)


def plain_text(rows: "list[Row]") -> bytes:
    """The text of a picture. Colours have registers in the order in which they first appear, row by row."""
    numbers = list(dict.fromkeys(itertools.chain.from_iterable(dict.fromkeys(rows))))
    registers = tuple(numbers.index(number) if number in numbers else -1 for number in range(256))
    opening = f'\x1bP0;1q"1;1;{len(rows[0])};{len(rows)}'
    for register, number in enumerate(numbers):
        opening += "#{};2;{};{};{}".format(register, *colour_of(number))
    bands = [tuple(rows[top : top + BAND_ROWS]) for top in range(0, len(rows), BAND_ROWS)]
    return (opening + "-".join(band_text(band, registers) for band in bands) + "\x1b\\").encode()


def file_of(rows: "list[Row]") -> bytes:
    """The PPM file of a picture, with percentages as samples."""
    samples = [bytes(colour_of(number)) for number in range(256)]

    @functools.cache
    def row_samples(row: Row) -> bytes:
        return b"".join(samples[number] for number in row)

    return b"P6 %d %d 100\n" % (len(rows[0]), len(rows)) + b"".join(map(row_samples, rows))


def numbers_in_runs(seed: int, colours: int, longest: int) -> "Iterator[int]":
    """Numbers of colours without end, in runs of at most this length, from a linear congruential generator."""
    state = seed
    while True:
        state = (state * 6_364_136_223_846_793_005 + 1_442_695_040_888_963_407) % 2**64
        for _ in range((state >> 40) % longest + 1):
            yield (state >> 50) % colours


def in_runs(kind: str, is_wide: bool, longest: int, width: int, height: int) -> Picture:
    """A picture of runs, which go on from row to row."""
    numbers = numbers_in_runs(1000 * width + height, 256 if is_wide else 16, longest)
    rows = [bytes(itertools.islice(numbers, width)) for _ in range(height)]
    return Picture(f"{kind}: {width} by {height} pixels in runs of up to {longest}", is_wide, rows)


def with_gap(width: int, height: int, left: int, gap: int) -> Picture:
    """A row of colour 0, with colour 1 in two columns, and below it rows with colour 2 in the left one."""
    first, other = bytearray(width), bytearray(width)
    for column in (left, left + gap):
        if column < width:
            first[column] = 1
    if left < width:
        other[left] = 2
    name = f"gaps: {width} by {height} pixels with ink in columns {left} and {left + gap}"
    return Picture(name, False, [bytes(first)] + [bytes(other)] * (height - 1))


def largest(is_wide: bool) -> Picture:
    """2,048 rows of 2,048 pixels. Sixteen colours take turns in each row: in each band the next sixteen of the profile,
    and after the last ones the first again."""
    colours = 256 if is_wide else 16
    bands = [bytes(band * 16 % colours + x % 16 for x in range(2048)) for band in range(342)]
    return Picture("the largest", is_wide, [bands[y // BAND_ROWS] for y in range(2048)])


def pictures() -> "Iterator[Picture]":
    """All the pictures."""
    for width, height in itertools.product(range(1, 71), HEIGHTS):
        yield in_runs("rows of each width", False, 8, width, height)
    for width, height in itertools.product(range(1, 31), HEIGHTS):
        yield in_runs("rows of each width", True, 8, width, height)
    # Groups of columns of the same register, and repeats that are longer than a group of 32.
    for width in (32, 35, 36, 63, 64, 65, 67, 68, 96, 97, 200):
        for longest, height in itertools.product((40, 200), HEIGHTS):
            yield in_runs("long runs", False, longest, width, height)
    # Ink at both sides of the borders of groups, with gaps of less than a group, of one and of more.
    for width, left in itertools.product((33, 64, 97, 128), (0, 31, 32, 40)):
        for gap, height in itertools.product((1, 4, 31, 32, 33, 64, 65), (1, 8)):
            yield with_gap(width, height, left, gap)
    # Noise, in which neighbours mostly differ, and rows of one colour, whose repeats have up to four digits.
    for width, longest in itertools.product((9, 10, 99, 100, 999, 1000, 2048), (1, 5000)):
        yield in_runs("noise and full rows", False, longest, width, 7)
        yield in_runs("noise and full rows", True, longest, width, 7)
    # Texts of more than the 65,536 bytes that go out at once.
    for width, longest in itertools.product((301, 302, 305, 308), (2, 3, 6)):
        yield in_runs("long texts", False, longest, width, 200)
    yield largest(False)
    yield largest(True)


def fault_of(picture: Picture) -> str:
    """What is wrong with the text that the program writes, or nothing."""
    options = ["--wide"] if picture.is_wide else []
    argv = [PROGRAM, "encode", *options]
    got = subprocess.run(argv, input=file_of(picture.rows), capture_output=True, timeout=60)
    expected = plain_text(picture.rows)
    if got.returncode != 0:
        return f"status {got.returncode}: {got.stderr[:100]!r}"
    if got.stdout == expected:
        return ""
    both = zip(got.stdout, expected)
    shared = next((at for at, (one, other) in enumerate(both) if one != other), min(len(got.stdout), len(expected)))
    part = slice(max(shared - 20, 0), shared + 20)
    return f"byte {shared}: {got.stdout[part]!r} instead of {expected[part]!r}"


def main() -> int:
    passed = failed = 0
    with concurrent.futures.ThreadPoolExecutor(2) as pool:
        made = list(pictures())
        for picture, fault in zip(made, pool.map(fault_of, made)):
            passed, failed = passed + (not fault), failed + bool(fault)
            if fault:
                print(f"{picture.name}{', wide' * picture.is_wide}: {fault}")
    print(f"{passed} passed, {failed} failed")
    return 1 if failed else 0


if __name__ == "__main__":
    sys.exit(main())
