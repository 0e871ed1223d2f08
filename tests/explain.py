#!/usr/bin/env python3
"""What `sixel explain` is asked for: names in any case of letters, or one line that contains a name.

`examples/run` compares what the program says of each name with the pages. So here only the names count: of a question
with several, their explanations come in this order, with an empty line between two.

The program is the one that the variable SIXEL_PROGRAM names, or dist/sixel. The last line is `N passed, N failed`, and
the exit status 1 if something failed.
"""

import functools
import os
import pathlib
import subprocess
import sys

PROGRAM = os.environ.get("SIXEL_PROGRAM", str(pathlib.Path(__file__).resolve().parent.parent / "dist/sixel"))

# What comes after `sixel explain`, and the names that it asks for.
QUESTIONS = [
    # A name.
    ("EightBit", "EightBit"),
    ("RasterLate", "RasterLate"),
    ("introducer", "Introducer"),
    ("bare", "Bare"),
    ("spaceAfter", "SpaceAfter"),
    ("uncovered", "Uncovered"),
    ("MAXVAL", "Maxval"),
    ("tooManyColours", "TooManyColours"),
    ("unmodelled", "Unmodelled"),
    # A line of a check, a survey, a scan or a comparison, perhaps with a file's name.
    ("broken Register 227", "Register"),
    ("rows.six: broken Past 24", "Past"),
    ("hi.six: broken Outside 12 3 4", "Outside"),
    ("a ratio plot.six: broken Uncovered 24 1 0", "Uncovered"),
    ("log: 30 broken Uncovered 54 1 0", "Uncovered"),
    ("Ratio Uncovered: broken BoxSize 3", "BoxSize"),
    ("Rows 2 3", "Rows"),
    ("Uncovered 5 30 3 0", "Uncovered"),
    ("empty.six: Uncovered 5 30 3 0", "Uncovered"),
    ("0 refused Truncated 11", "Truncated"),
    # A line of a refusal.
    ("sixel: BadByte at 17", "BadByte"),
    ("sixel: a.six: Truncated at 4", "Truncated"),
    ("sixel: NoBox", "NoBox"),
    ("sixel: Unmodelled at 5", "Unmodelled"),
    ("sixel: a.six: TooLarge", "TooLarge"),
    ("sixel: TooManyColours", "TooManyColours"),
    # Refusals whose lines have no name.
    ("read failed", "Read"),
    ("Ratio read failed", "Read"),
    ("permission denied", "Read"),
    ("sixel: size a.six: no such file", "Read"),
    ("sixel: plots: is a folder", "Read"),
    ("sixel: a: name is not valid UTF-8", "Read"),
    ("sixel: write failed", "Write"),
    ("out of memory", "OutOfMemory"),
    ("sixel: Size.six: out of memory", "OutOfMemory"),
    # Several names, also one that comes again.
    ("Ratio Uncovered", "Ratio Uncovered"),
    ("uncovered Short RATIO", "Uncovered Short Ratio"),
    ("Hue Ratio far", "Hue Ratio Far"),
    ("NoBox Empty NoBox", "NoBox Empty NoBox"),
]


def explain(words: str) -> "tuple[int, bytes, bytes]":
    """The status and both outputs of the program that is asked so."""
    got = subprocess.run([PROGRAM, "explain", *words.split()], stdin=subprocess.DEVNULL, capture_output=True)
    return got.returncode, got.stdout, got.stderr


@functools.lru_cache(maxsize=None)
def explanation(name: str) -> bytes:
    """The explanation of one name, whose first line begins with it."""
    status, text, said = explain(name)
    if status or said or not text.startswith(name.encode() + b": "):
        raise ValueError(f"explain {name}: {status}, {text!r}, {said!r}")
    return text


def main() -> int:
    faults = []
    for words, names in QUESTIONS:
        try:
            wanted = (0, b"\n".join(map(explanation, names.split())), b"")
        except ValueError as wrong:
            faults.append(str(wrong))
            continue
        got = explain(words)
        if got != wanted:
            faults.append(f"explain {words}: {got!r:.300} instead of {wanted!r:.300}")
    print("".join(f"{fault}\n" for fault in faults), end="")
    print(f"{len(QUESTIONS) - len(faults)} passed, {len(faults)} failed")
    return 1 if faults else 0


if __name__ == "__main__":
    sys.exit(main())
