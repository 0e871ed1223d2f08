"""The inputs of bench/times, the same bytes every time: pictures of 2,048 by 2,048 pixels, and long documents.

    noisy.ppm   gradients with noise in 14 colours, and a plain square: in most columns of a band a register has
                other bits than in the column before
    flat.ppm    boxes and lines in 16 colours: long runs
    blank-*     a box of one pixel, and then blank data: single sixels, or repeats of nine bytes each, so that as many
                bytes make a ninth of the events
    each-*      a box of one pixel, and then one command or filler again and again
    few-*       the same with fewer of them, and with blank sixels, for the tasks for named terminals
    stream-*    100 MB of text without a control, and 100 MB of random bytes
"""

import math
import random
from pathlib import Path

SIDE = 2048
# What each long document is made of, and how many million bytes it has.
BLANKS = {f"blank-{len(item)}-{size}.six": (item, size) for item in (b"?", b"!0000001?") for size in (10, 40)}
# The commands and the filler of which such a document can have most, and how many million bytes each document has.
EACH_SIZE = 4
EACH = {
    f"each-{name}.six": item
    for name, item in {
        "return": b"$",
        "next-line": b"-",
        "line-feed": b"\n",
        "select": b"#0",
        "definition": b"#0;2;0;0;0",
        "repeat": b"!1?",
        "select-return": b"#0$",
    }.items()
}

# The same for named terminals: so many, and each command or filler.
FEW_COUNT = 200_000
FEW = {f"few-{name}.six": item for name, item in {
    "none": b"", "next-line": b"-", "return": b"$", "blank": b"?", "repeat": b"!1?", "select": b"#0",
    "select-blank": b"#0?",
}.items()}

# The streams, which have this many million bytes, and a line of the text.
STREAM_SIZE = 100
STREAMS = {"stream-text.log": "text", "stream-random": "random bytes"}
LINE = b"test 123 of 456: parser::reads_a_long_document ... ok (0.25 s)\n"

# The colours of noisy.ppm: of the gradients from one end to the other, and of the square.
GRADIENT = [bytes((20 + 15 * place, 240 - 15 * place, 130)) for place in range(14)]
PLAIN = bytes((250, 250, 200))
SQUARE_ROWS, SQUARE_COLUMNS = range(300, 630), slice(1350, 1680)
# How many colours the noise reaches, and how many pixels side by side share a place in the gradient.
NOISE = 0.96
TILE = 128

# The colours of flat.ppm: the ground, and what stands on it.
INKS = [bytes((255 - 17 * ink, 17 * (7 * ink % 16), 17 * (11 * ink % 16))) for ink in range(16)]
BOXES, BOX_SIDES = 300, (10, 300)
LINES, LINE_WIDTHS = 46, (2, 4)
# So many rows stay blank above.
MARGIN = 32


def ppm(rows):
    return b"P6\n%d %d\n255\n" % (SIDE, SIDE) + b"".join(rows)


def noisy_row(choose, y):
    """A pixel's colour falls by a bell curve around its tile's place, later in lower tiles and in outer ones."""
    row = []
    for left in range(0, SIDE, TILE):
        place = (len(GRADIENT) - 1) * (y + 0.4 * abs(left - SIDE / 2)) / (1.2 * SIDE)
        weights = [math.exp(-(((colour - place) / NOISE) ** 2)) for colour in range(len(GRADIENT))]
        row += choose.choices(GRADIENT, weights, k=TILE)
    if y in SQUARE_ROWS:
        row[SQUARE_COLUMNS] = [PLAIN] * len(SQUARE_ROWS)
    return b"".join(row)


def noisy():
    choose = random.Random("noisy")
    return ppm(noisy_row(choose, y) for y in range(SIDE))


def draw_box(choose, rows):
    left, top = choose.randrange(SIDE), choose.randrange(MARGIN, SIDE)
    width, height = choose.randint(*BOX_SIDES), choose.randint(*BOX_SIDES)
    right, ink = min(left + width, SIDE), choose.choice(INKS[1:])
    for row in rows[top : top + height]:
        row[left:right] = [ink] * (right - left)


def draw_line(choose, rows):
    width, ink = choose.randint(*LINE_WIDTHS), choose.choice(INKS)
    left, right = (choose.randrange(SIDE - width) for _ in range(2))
    top, bottom = (choose.randrange(MARGIN, SIDE) for _ in range(2))
    steps = max(abs(right - left), abs(bottom - top), 1)
    for step in range(steps):
        x = left + (right - left) * step // steps
        rows[top + (bottom - top) * step // steps][x : x + width] = [ink] * width


def flat():
    choose = random.Random("flat")
    rows = [[INKS[0]] * SIDE for _ in range(SIDE)]
    for _ in range(BOXES):
        draw_box(choose, rows)
    for _ in range(LINES):
        draw_line(choose, rows)
    return ppm(b"".join(row) for row in rows)


def times(item, count):
    return b'\x1bPq"1;1;1;1#0;2;0;0;0#0@' + item * count + b"\x1b\\"


def again(item, size):
    return times(item, size * 1_000_000 // len(item))


def stream(kind):
    size = STREAM_SIZE * 1_000_000
    return random.Random(kind).randbytes(size) if kind != "text" else LINE * (size // len(LINE))


def make(folder):
    folder = Path(folder)
    folder.mkdir(parents=True, exist_ok=True)
    (folder / "noisy.ppm").write_bytes(noisy())
    (folder / "flat.ppm").write_bytes(flat())
    for name, (item, size) in BLANKS.items():
        (folder / name).write_bytes(again(item, size))
    for name, item in EACH.items():
        (folder / name).write_bytes(again(item, EACH_SIZE))
    for name, item in FEW.items():
        (folder / name).write_bytes(times(item, FEW_COUNT))
    for name, kind in STREAMS.items():
        (folder / name).write_bytes(stream(kind))
