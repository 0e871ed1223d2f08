#!/usr/bin/env python3
"""Writes the picture of wide/rainbow.six, a column for each of 256 colours:

    examples/make_rainbow.py > examples/wide/rainbow.six

Each column has a register of its own, so the picture is for terminals with 256 of them. Like make_moon.py this writes
sixel text by itself, and not through `sixel encode`.
"""

import sys

REGISTERS, BANDS = 256, 2
# Red, yellow, green, cyan, blue, magenta, and red again: between two of them the colours go over.
CORNERS = [(100, 0, 0), (100, 100, 0), (0, 100, 0), (0, 100, 100), (0, 0, 100), (100, 0, 100), (100, 0, 0)]


def colour(register):
    """The percentages of a register's colour. From one corner to the next there are 43 steps of more than 2 percent."""
    corner, step = divmod(register, 43)
    return tuple(first + (last - first) * step // 43 for first, last in zip(CORNERS[corner], CORNERS[corner + 1]))


def main():
    lines = [f'\x1bPq"1;1;{REGISTERS};{6 * BANDS}']
    lines += ["#%d;2;%d;%d;%d" % (register, *colour(register)) for register in range(REGISTERS)]
    # A data byte moves on by a column, so no return is wanted between two registers.
    band = "".join(f"#{register}~" for register in range(REGISTERS))
    lines += ["-\n".join([band] * BANDS) + "\x1b\\"]
    sys.stdout.write("\n".join(lines) + "\n")


main()
