#!/usr/bin/env python3
"""Writes the picture of moon.six, a moon over water in 16 colours:

    examples/make_moon.py > examples/moon.six

It writes sixel text by itself, and not through `sixel encode`, so that `check` is tried on what another program wrote.
"""

import random
import sys

WIDTH, HEIGHT, HORIZON = 240, 160, 104
# Registers 0 to 5 are the sky from the top down, 6 to 9 the moon, 10 to 14 the water, 15 the stars.
COLOURS = [
    (2, 3, 12), (4, 6, 19), (8, 11, 27), (14, 17, 35), (23, 24, 42), (36, 32, 46),
    (97, 95, 84), (88, 86, 76), (77, 75, 67), (66, 64, 59),
    (3, 7, 16), (6, 12, 24), (12, 20, 34), (45, 49, 54), (82, 82, 74), (100, 100, 92),
]
MOON, RADIUS = (150, 52), 30
CRATERS = [(140, 42, 7, 8), (162, 58, 9, 8), (147, 66, 5, 9), (158, 38, 4, 9), (136, 58, 4, 9)]


def is_near(x, y, middle, radius):
    return (x - middle[0]) ** 2 + (y - middle[1]) ** 2 <= radius**2


def moon(x, y):
    """The register of a pixel of the moon, and none beside it."""
    if not is_near(x, y, MOON, RADIUS):
        return None
    for column, row, radius, register in CRATERS:
        if is_near(x, y, (column, row), radius):
            return register
    return 6 if is_near(x, y, (MOON[0] - 9, MOON[1] - 7), 27) else 7


def sky(y, chance):
    if y < HORIZON - 12 and chance.random() < 0.004:
        return 15
    return min(5, (y * 6 + chance.randrange(HORIZON // 5)) // HORIZON)


def water(x, y, chance):
    depth = y - HORIZON
    if abs(x - MOON[0]) < 8 + depth // 2 + chance.randrange(6) and (y + x // 9) % 3 != 0:
        return 14 if chance.random() < 0.6 else 13
    return 12 - min(2, (depth * 3 + chance.randrange(30)) // (HEIGHT - HORIZON))


def picture():
    chance = random.Random(160)
    # What chance gives holds for a few columns of a row, which keeps the text short.
    rows = []
    for y in range(HEIGHT):
        row = []
        while len(row) < WIDTH:
            register = sky(y, chance) if y < HORIZON else water(len(row), y, chance)
            row += [register] * (1 if register == 15 else chance.randrange(3, 12))
        rows.append([row[x] if moon(x, y) is None else moon(x, y) for x in range(WIDTH)])
    return rows


def sixels(rows, register):
    """The columns of one register in a band, as runs of a count and a byte."""
    runs = []
    for x in range(WIDTH):
        byte = 63 + sum(1 << k for k, row in enumerate(rows) if row[x] == register)
        if runs and runs[-1][1] == byte:
            runs[-1][0] += 1
        else:
            runs.append([1, byte])
    while runs and runs[-1][1] == 63:
        runs.pop()
    return "".join(f"!{count}{chr(byte)}" if count > 3 else chr(byte) * count for count, byte in runs)


def main():
    rows = picture()
    lines = [f'\x1bPq"1;1;{WIDTH};{HEIGHT}']
    lines += [f"#{register};2;{red};{green};{blue}" for register, (red, green, blue) in enumerate(COLOURS)]
    for top in range(0, HEIGHT, 6):
        band = rows[top : top + 6]
        used = sorted({register for row in band for register in row})
        lines.append("$\n".join(f"#{register}{sixels(band, register)}" for register in used) + "-")
    lines[-1] = lines[-1][:-1] + "\x1b\\"
    sys.stdout.write("\n".join(lines) + "\n")


main()
