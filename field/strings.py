"""Sixel strings from a seed, with all commands, for `field/models`. They go beyond each limit that a model has.

A third of them keep the rules: all four terminals show the same picture, however oddly it is spelled. The others are of
FAMILIES. A string is a list of pieces, each a command or some, a filler, the introducer or the terminator, so that a
piece can be left out.
"""
import random

# Around the counts of registers that terminals have.
REGISTERS = [0, 1, 2, 3, 14, 15, 16, 17, 254, 255, 256, 257, 1022, 1023, 1024, 1025, 1279, 1280]
FEW = [number for number in REGISTERS if number < 256]
RATIOS = [(1, 1), (2, 1), (3, 1), (2, 2), (1, 2), (3, 2), (0, 2), (2, 0), (0, 0), (2, 3), (5, 3)]
WIDTHS = [1, 2, 5, 6, 7, 8, 12, 13, 29, 30, 31, 60, 100, 290]
HEIGHTS = [1, 2, 5, 6, 7, 8, 12, 13, 18, 19, 31, 40, 60, 190]
# Around the greatest sides and ratios. The larger heights would scroll a screen.
LARGE_WIDTHS = [996, 999, 1000, 1001, 1002, 2100, 9999, 10000, 10001, 32767, 32768, 65535]
LARGE_HEIGHTS = [990, 995, 996, 997, 998, 999, 1000, 1001, 1002, 2100]
LARGE_NUMBERS = [10, 99, 255, 999, 1000, 1001, 32767, 32768, 65535]
COLUMN_LIMITS, BAND_LIMITS = [512, 1000, 2100], [166, 166, 166, 350]
FILLERS = [b"\n", b"\r\n", b" ", b"\t"]
AFTER = [b"\n", b"\r\n", b" ", b"\r ", b"\t", b"  ", b"\n "]
WIDEST, BANDS = 280, 14
ESCAPE_P, ESCAPE_END = b"\x1bP", b"\x1b\\"


def strings(seed, count):
    """The strings of a seed. A greater count only adds some."""
    return [string(random.Random(f"{seed} {number}"), number) for number in range(count)]


def string(chance, number):
    family = portable if number % 3 == 0 else chance.choices(*zip(*FAMILIES))[0]
    writer = Writer(chance)
    start = b"\x90" if writer.one_in(60) else ESCAPE_P
    writer.pieces = [start + introducer(writer, family is portable) + b"q"]
    family(writer)
    after = chance.choice(AFTER) if writer.one_in(25) else b""
    return writer.pieces + [(b"\x9c" if writer.one_in(60) else ESCAPE_END) + after]


def introducer(writer, plain):
    """The numbers of the introducer. A plain one does no harm: its first is at most 9, and mlterm doesn't mix."""
    numbers = [writer.chance.randrange(10) for _ in range(writer.chance.choice([0, 0, 0, 1, 2, 2, 3]))]
    if numbers and not plain and writer.one_in(4):
        numbers[writer.chance.randrange(len(numbers))] = writer.chance.choice([*range(10, 100, 5), *LARGE_NUMBERS])
    words = writer.spelled(numbers) + b";" * (len(numbers) == 3 and writer.one_in(4))
    return words.replace(b"5", b"6") if plain else words


class Writer:
    """Writes one string, command by command."""

    def __init__(self, chance):
        self.chance, self.pieces, self.x, self.band = chance, [], 0, 0
        # What the whole string has is chosen once, so that many strings have none of it.
        self.registers = chance.sample(REGISTERS if self.one_in(3) else FEW, chance.choice([1, 2, 2, 3, 4]))
        self.registers += [chance.choice([32768, 65535])] * self.one_in(60)
        self.odd_colours = self.one_in(8)
        self.odd_repeats = self.one_in(20)
        self.odd_ratios = self.one_in(4)
        self.bare = self.one_in(10)
        self.missing = self.one_in(2)
        self.zeros = self.one_in(3)
        self.hues = self.one_in(6)
        self.fillers = self.one_in(5)

    def one_in(self, many):
        return self.chance.random() < 1 / many

    def add(self, piece):
        self.pieces += [self.chance.choice(FILLERS)] * (self.fillers and self.one_in(4)) + [piece]

    def number(self, number):
        """A number, which may have zeros before it."""
        return b"%0*d" % (self.chance.choice([1, 1, 2, 4, 12]) if self.zeros else 1, number)

    def spelled(self, numbers):
        """Numbers with semicolons. One that is 0 may be missing."""
        return b";".join(b"" if self.missing and not number and self.one_in(2) else self.number(number)
                         for number in numbers)

    def raster(self, width=None, height=None):
        """Raster attributes, of this size or any."""
        ratio = self.chance.choice(RATIOS) if self.odd_ratios else (1, 1)
        sides = width or self.chance.choice(WIDTHS), height or self.chance.choice(HEIGHTS)
        self.add(b'"' + self.spelled([*ratio, *sides]))

    def define(self, register=None):
        if register is None:
            register = self.chance.choice(self.registers)
        system = 1 if self.hues and self.one_in(2) else 2
        colour = [self.chance.choice([0, 100, self.chance.randint(0, 100)]) for _ in range(3)]
        if system == 1:
            colour = [self.chance.randint(0, 360), self.chance.choice([0, 100, *range(20, 81)]), *colour[:1]]
        if self.odd_colours and self.one_in(4):
            colour[self.chance.randrange(3)] = self.chance.choice([101, 150, 255, 361, 400, 40960, 65535])
        if self.odd_colours and self.one_in(4):
            system = self.chance.choice([*range(13), 65535])
        self.add(b"#" + self.spelled([register, system, *colour]))

    def select(self, register=None):
        if register is None:
            register = self.chance.choice(self.registers)
        self.add(b"#" + (b"" if self.bare and self.one_in(4) else self.number(register)))

    def column(self):
        """The byte of a sixel."""
        return bytes([63 + self.chance.choice([0, 1, 63, self.chance.randrange(64)])])

    def sixel(self):
        """A sixel, or a repeat. What gets too wide begins at the left again."""
        count, byte = 1, self.column()
        if self.one_in(2):
            count = self.chance.choice([1, 2, 5, 6, 12, 31, self.chance.randint(1, 60)])
            byte = self.repeated(count, byte)
        if self.odd_repeats and self.one_in(6):
            byte = self.chance.choice([b"!0", b"!", b"!00"]) + byte[-1:]
        if self.x + count > WIDEST:
            self.move(b"$")
        self.x += count
        self.add(byte)

    def repeated(self, count, byte):
        return b"!" + self.number(count) + byte

    def move(self, command):
        if command == b"-" and self.band == BANDS:
            command = b"$"
        self.x, self.band = 0, self.band + (command == b"-")
        self.add(command)


def tidy(writer):
    """What a program could write: raster attributes, definitions, and lines of sixels. Some have a piece at a wrong
    place."""
    if not writer.one_in(6):
        writer.raster()
    for register in writer.registers:
        if not writer.one_in(8):
            writer.define(register)
    for _ in range(writer.chance.randint(1, 4)):
        for _ in range(writer.chance.randint(1, 3)):
            writer.select()
            for _ in range(writer.chance.randint(1, 4)):
                writer.sixel()
            writer.move(b"$")
        if not writer.one_in(6):
            writer.move(b"-")
    if writer.one_in(3):
        extra = Writer(writer.chance)
        any_order(extra, 1)
        writer.pieces[writer.chance.randint(1, len(writer.pieces)):0] = extra.pieces


def any_order(writer, most=25):
    rasters = writer.chance.choice([1, 2, 8])
    works = [(writer.sixel, 9), (writer.select, 5), (writer.define, 5), (writer.raster, rasters),
             (lambda: writer.move(b"$"), 3), (lambda: writer.move(b"-"), 3)]
    for work in writer.chance.choices(*zip(*works), k=writer.chance.randint(min(most, 2), most)):
        work()


def few_numbers(writer):
    """Raster attributes with fewer than four numbers, or with sides of 0, among other commands."""
    any_order(writer, 8)
    for _ in range(writer.chance.randint(1, 3)):
        sides = writer.chance.choice([0, *WIDTHS]), writer.chance.choice([0, *HEIGHTS])
        numbers = [*writer.chance.choice(RATIOS), *sides]
        piece = b'"' + writer.spelled(numbers[:writer.chance.randint(0, 4)])
        place = writer.chance.choice([1, writer.chance.randint(1, len(writer.pieces))])
        writer.pieces.insert(place, piece)
    any_order(writer, 8)


def large_numbers(writer):
    """A ratio or a side around a limit."""
    ratio, sides = [1, 1], [writer.chance.choice(WIDTHS), writer.chance.choice(HEIGHTS)]
    if writer.one_in(2):
        ratio = [writer.chance.choice(LARGE_NUMBERS)] * 2
        ratio[writer.chance.randrange(2)] = writer.chance.choice([1, *LARGE_NUMBERS])
    if writer.one_in(3):
        sides[1] = writer.chance.choice(LARGE_HEIGHTS)
    elif not writer.one_in(3):
        sides[0] = writer.chance.choice(LARGE_WIDTHS)
    any_order(writer, 2)
    writer.add(b'"' + writer.spelled([*ratio, *sides]))
    for register in writer.registers:
        writer.define(register)
    any_order(writer, 12)


def wide(writer):
    """Sixels up to and past a limit of columns."""
    limit = writer.chance.choice(COLUMN_LIMITS)
    if not writer.one_in(4):
        writer.raster(limit + writer.chance.randint(-2, 2), writer.chance.choice(HEIGHTS))
    for register in writer.registers:
        writer.define(register)
    for _ in range(writer.chance.randint(1, 4)):
        writer.select()
        up_to(writer, limit)
        writer.move(writer.chance.choice([b"$", b"-"]))


def up_to(writer, limit):
    """Columns to somewhere around a limit, and some more."""
    start = writer.chance.choice([0, writer.chance.randint(0, 9)])
    writer.add(writer.repeated(limit - start + writer.chance.randint(-3, 3), writer.column()))
    for _ in range(writer.chance.randint(0, 4)):
        if writer.one_in(4):
            writer.select()
        count = writer.chance.choice([1, 2, 3, 9, 60])
        writer.add(writer.column() if writer.one_in(2) else writer.repeated(count, writer.column()))


def tall(writer):
    """Sixels up to and past a limit of rows."""
    limit = writer.chance.choice(BAND_LIMITS)
    if not writer.one_in(4):
        writer.raster(writer.chance.choice(WIDTHS), 6 * limit + writer.chance.randint(-6, 7))
    for register in writer.registers:
        writer.define(register)
    start = writer.chance.randint(1, 3)
    above = [start, limit - start + writer.chance.randint(-1, 1), *[1] * writer.chance.randint(0, 1)]
    for bands in above:
        line(writer)
        writer.add(b"-" * bands)
    line(writer)
    writer.define()


def line(writer):
    """Some columns of one band."""
    for _ in range(writer.chance.randint(1, 2)):
        writer.select()
        for _ in range(writer.chance.randint(1, 3)):
            writer.sixel()
        writer.move(b"$")


def full(writer):
    """A picture of a size around a limit, in which each pixel is painted."""
    width, height = writer.chance.choice([(999, 12), (1000, 6), (1001, 6), (2, 996), (3, 997), (2, 1000), (2, 1002)])
    writer.raster(width, height)
    cover(writer, width, height)


def cover(writer, width, height):
    """Each pixel of a box in some colour, and some in another one besides."""
    for register in writer.registers:
        writer.define(register)
    for top in range(0, height, 6):
        bits = bytes([63 + (1 << min(6, height - top)) - 1])
        colour(writer, width, bits)
        if height < 60 and writer.one_in(2):
            writer.add(b"$")
            colour(writer, writer.chance.randint(1, width), bits)
        if top + 6 < height or writer.one_in(4):
            writer.add(b"-")


def colour(writer, width, bits):
    """A register, and so many columns of these bits in it, as repeats or single sixels."""
    writer.add(b"#" + writer.number(writer.chance.choice(writer.registers)))
    while width:
        count = writer.chance.choice([width, width, min(width, 3), writer.chance.randint(1, width)])
        writer.add(bits * count if count <= 3 and writer.one_in(2) else writer.repeated(count, bits))
        width -= count


def portable(writer):
    """A picture that all four terminals show, and show the same."""
    writer.registers = [register for register in writer.registers if register < 256] or [0, 1]
    writer.odd_colours = writer.odd_ratios = False
    writer.hues = False
    width = writer.chance.choice([*WIDTHS, *WIDTHS, 999, 1000])
    height = writer.chance.choice([6, 6, 12, 18, 24, 60, 120] if width > 100 else [6, 12, 18, 30, 60, 120, 990, 996])
    writer.raster(width, height)
    cover(writer, width, height)


FAMILIES = [(tidy, 6), (any_order, 6), (few_numbers, 4), (large_numbers, 3), (wide, 3), (tall, 2), (full, 1)]
