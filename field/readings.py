"""What four real terminals show of a sixel string: a model of each, as a reading and a setting. `field/models` compares
them with the terminals.

A reading turns a string into the events for a plain terminal, or says at which offset it ends (Unsaid): what the
terminal shows from there on isn't in the model. A setting says what the plain terminal is. That one knows four things
only: a box that it fills with register 0, registers with colours, sixels of six bits, and a place.

The events of the string are those of written.py. An event for the plain terminal is a tuple: ("box", width, height),
("define", register, system, x, y, z), ("select", register), ("sixel", count, bits), ("return",), ("newline",), and
("clear", left, top, right, bottom), which takes pixels of the picture away.

A colour is a tuple of a system and its numbers: HUE and RGB as in a definition, SAMPLES of 255 where no percentage says
it.
"""
import re
from dataclasses import dataclass, replace
from typing import Callable

import written

HUE, RGB, SAMPLES = 1, 2, 3
BACKGROUND, TEXT, BLACK = (RGB, 20, 40, 60), (RGB, 0, 0, 0), (RGB, 0, 0, 0)
NAMING = "select", "define"
MOVING = "return", "newline"


class Unsaid(Exception):
    """The model ends at this offset."""

    def __init__(self, place, why):
        self.place, self.why = place, why


@dataclass
class Setting:
    """A plain terminal."""
    start: Callable             # the colour that a register has at the start
    at_end: bool                # whether a pixel has its register's colour of the end, or the one when it was painted
    selected: int = 0           # the register that is selected at the start
    ratio: tuple = (1, 1)       # so many rows become so many: the picture is stretched
    mixes: bool = False         # whether a pixel gets the bits of its old register's number, too
    rows: int = 0               # so many rows it takes, even if fewer are painted


def shown(setting, events, width, height):
    """The colours of a screen, row by row, as a plain terminal shows these events. None is a pixel that stays."""
    rows = height if setting.ratio == (1, 1) else extent(events)[1]
    blank = [None] * width
    screen = [blank] * rows
    colours = {}
    register, x, y = setting.selected, 0, 0

    def colour(number):
        return colours.get(number) or setting.start(number)

    def paint(left, top, right, bottom, number):
        seen = number if setting.at_end or number is None else colour(number)
        for line in range(top, min(bottom, rows)):
            if screen[line] is blank:
                screen[line] = blank[:]
            row = screen[line]
            if setting.mixes:
                row[left:right] = [(old or 0) | number for old in row[left:right]]
            else:
                row[left:right] = [seen] * len(row[left:right])
    for kind, *numbers in events:
        if kind == "box":
            paint(0, 0, *numbers, 0)
        elif kind == "clear":
            paint(*numbers, None)
        elif kind == "define":
            number, *given = numbers
            colours[number] = tuple(given)
        elif kind == "select":
            register, = numbers
        elif kind == "sixel":
            count, bits = numbers
            for bit in range(6):
                if bits >> bit & 1:
                    paint(x, y + bit, x + count, y + bit + 1, register)
            x += count
        elif kind in MOVING:
            x, y = 0, y + 6 * (kind == "newline")
    if setting.at_end:
        for line, row in enumerate(screen):
            if row is not blank:
                screen[line] = [None if number is None else colour(number) for number in row]
    return screen if setting.ratio == (1, 1) else stretched(setting.ratio, screen, blank, height)


def stretched(ratio, screen, blank, height):
    """The rows of a picture on a screen that shows `height` rows. A row of the screen shows the picture's row at its
    middle, and between two rows the upper one."""
    many, few = ratio
    rows = len(screen)
    high = rows * many // few
    return [screen[((2 * y + 1) * rows - 1) // (2 * high)] if y < high else blank for y in range(height)]


def extent(events):
    """How many columns and rows of the picture are touched."""
    width = height = x = y = 0
    for kind, *numbers in events:
        if kind == "box":
            width, height = max(width, numbers[0]), max(height, numbers[1])
        elif kind == "sixel":
            x += numbers[0]
            width, height = max(width, x), max(height, y + 6)
        elif kind in MOVING:
            x, y = 0, y + 6 * (kind == "newline")
    return width, height


def size(setting, events):
    """How many columns and rows of the screen the picture takes, with those to which it only moves."""
    width, height = extent(events)
    many, few = setting.ratio
    moved = 6 + 6 * sum(1 for kind, *_ in events if kind == "newline")
    return width, max(height * many // few, moved, setting.rows)


def second(events):
    """The second parameter of the introducer."""
    return events[0].numbers[1]


def refuse_eight(events):
    """Ends a model at a control of eight bits, also behind what ends the string."""
    for event in events[0], events[-1]:
        if event.eight:
            raise Unsaid(event.place, "an 8-bit control")


def nearest(define):
    """The numbers of a definition, each in its range, by the nearest one; None if its colour system isn't 1 or 2."""
    register, system, x, y, z = define
    if system not in (HUE, RGB):
        return None
    return register, system, min(x, 360 if system == HUE else 100), min(y, 100), min(z, 100)


def counted(event):
    """How many numbers xterm counts: an empty one at the end is none."""
    return len(event.words) - (not event.words[-1])


# xterm 379, as a VT340.
XTERM_LARGEST, XTERM_NUMBER = 1000, 32767
# A cell of the font with which screens.py starts it.
XTERM_CELL = 6, 13
XTERM_START = """000000 3333cc cc2121 33cc33 cc33cc 33cccc cccc33 878787 424242 545499 994242 549954 995499 549999
999954 cccccc""".split()


def xterm(data):
    """A definition doesn't select. What it takes for a mistake ends the string: what was drawn before stays, and the
    rest isn't drawn. A first number above 9 in the introducer is such a mistake, too."""
    events = written.read(data)
    refuse_eight(events)
    reading = Xterm(fills=second(events) != 1)
    if events[0].numbers[0] <= 9:
        for event in events[1:-1]:
            if not reading.take(event):
                break
    # The last ratio is that of the whole picture. Numbers above the greatest are negative.
    negative = [number > XTERM_NUMBER for number in reading.ratio]
    if all(negative):
        raise Unsaid(reading.place, "a ratio of two numbers above 32,767")
    rows = max(painted(reading.given), reading.box[1])
    given = [] if any(negative) else reading.given + xterm_after(events[-1].after, rows)
    return Setting(palette(XTERM_START), at_end=True, selected=3, rows=rows), given


class Xterm:
    """What it has read so far. `take` and what it calls say whether the string goes on."""

    def __init__(self, fills):
        self.given, self.fills = [], fills
        self.box, self.ratio, self.place = (0, 0), (1, 1), 0
        self.x = self.band = 0

    def take(self, event):
        if event.kind in MOVING:
            self.x, self.band = 0, self.band + (event.kind == "newline")
            self.given.append((event.kind,))
            return True
        works = {"raster": self.raster, "define": self.define, "select": self.select, "sixel": self.sixel}
        return works[event.kind](event)

    def raster(self, event):
        """Fewer than four numbers only set the ratio; fewer than two, a 0 and a large side end the string."""
        numbers, count = event.numbers, counted(event)
        if count < 2 or 0 in numbers[:2]:
            return False
        self.ratio, self.place = numbers[:2], event.place
        if count < 4:
            return True
        width, height = numbers[2:]
        if not 0 < width <= XTERM_LARGEST or not 0 < height <= XTERM_LARGEST:
            return False
        self.box = max(self.box[0], width), max(self.box[1], height)
        return True

    def define(self, event):
        """A colour out of range or an unknown system ends the string. A hue is taken down to a multiple of 60."""
        register, system, first, *rest = event.numbers
        if system in (HUE, RGB) and max(register, first, *rest) > XTERM_NUMBER:
            raise Unsaid(event.place, "a number above 32,767")
        if nearest(event.numbers) != event.numbers:
            return False
        self.given.append(("define", register % 1024, system, first // 60 * 60 if system == HUE else first, *rest))
        return True

    def select(self, event):
        register, = event.numbers
        if register > XTERM_NUMBER:
            raise Unsaid(event.place, "a number above 32,767")
        self.given.append(("select", register % 1024))
        return event.words[0] != b""

    def sixel(self, event):
        """The first one fills the box, of the largest width and the largest height before it. What has no room ends the
        string, or goes to column 0 if it is a repeat."""
        if event.words == (b"",):
            return False
        self.given += [("box", *self.box)] * self.fills
        self.fills = False
        columns, bits, fits = self.room(event.count, event.bits)
        self.given.append(("sixel", columns, bits))
        self.x += columns
        if not fits and event.words:
            self.x = 0
            self.given.append(("return",))
        return fits or bool(event.words)

    def room(self, count, bits):
        """How many columns of a sixel it takes, with which bits, and whether that is all. Blanks always have room. Else
        a column above 999 has none, and one in a band that reaches past row 999 has none once it is painted."""
        if not bits:
            return count, 0, True
        top = 6 * self.band
        bits &= (1 << max(0, min(6, XTERM_LARGEST - top))) - 1
        columns = min(count, max(0, XTERM_LARGEST - self.x))
        if top + 6 > XTERM_LARGEST:
            return min(columns, 1), bits, count == 0
        return columns, bits, columns == count


def painted(events):
    """How many rows there are down to the lowest pixel that is painted."""
    rows = y = 0
    for kind, *numbers in events:
        if kind == "sixel" and all(numbers):
            rows = max(rows, y + numbers[1].bit_length())
        y += 6 * (kind == "newline")
    return rows


def xterm_after(after, rows):
    """What follows the end. A blank clears a cell: the cursor is at the left, in the last line of text that the
    picture's rows reach."""
    given, (wide, high) = [], XTERM_CELL
    column, line = 0, max(0, rows - 1) // high
    for byte in after:
        if byte == ord(" "):
            given.append(("clear", column * wide, line * high, (column + 1) * wide, (line + 1) * high))
            column += 1
        elif byte == ord("\t"):
            column = column // 8 * 8 + 8
        elif byte == ord("\r"):
            column = 0
        else:
            line += 1
    return given


def palette(words):
    """The colours that registers start with, by the samples of the first ones; the others are black."""
    return lambda register: (SAMPLES, *bytes.fromhex(words[register])) if register < len(words) else BLACK


# mlterm 3.9.0. The machine code of its decoder says how its buffer grows, and when it copies past it.
MOST, RIGHT, DOWN = 32767, 512, 516
# This comes after each string.
MLTERM_END = b"\x1b\\"


class Buffer:
    """The pixels of mlterm's picture: so wide and so high, in a block of memory that has room for so many. `reach` is
    the greatest column at which a data command ended."""

    def __init__(self):
        self.width = self.height = self.room = self.reach = self.x = self.y = 0
        self.cut = False

    def resize(self, width, height):
        """No less wide. Whether it copies rows from past its block, or past the new one."""
        rows, more = self.y + 6, width * height > self.width * self.height
        past = more and 0 < self.width < width and (rows * self.width > self.room or rows > height)
        if more:
            self.room = width * height
        self.width, self.height = width, height
        return past

    def raster(self, width, height):
        if width and height:
            return self.resize(max(width, self.width), max((height + 5) // 6 * 6, self.height))
        return False

    def data(self, count, bits):
        """Whether what it does isn't known."""
        end, rows = self.x + count, self.y + 6
        if end > MOST or rows > MOST:
            return True
        width, height = self.width, self.height if rows <= self.height else self.height + DOWN
        if end > width:
            fits = self.width * self.height // (self.width + RIGHT)
            width, height = self.width + RIGHT, fits // 6 * 6 if rows + 5 <= fits else height
        past = self.resize(width, height)
        self.x, self.reach = end, max(self.reach, end)
        return past or rows > height or bool(bits) and end > width

    def newline(self):
        """The first one that finds columns past the reach cuts them off."""
        if not self.cut and self.width > self.reach > 0:
            self.width, self.cut = self.reach, True
        self.x, self.y = 0, self.y + 6


def mixes(start):
    """Whether it mixes: it skips one digit and one semicolon, if they are there, and then looks for a 5."""
    return re.match(rb"\d?+;?+5", b";".join(start.words)) is not None


def mlterm(data):
    """A definition selects. The box is never filled. Register 0 starts as the text's colour, others as the background;
    but those from 448 on have colours of chance. Colour system 3 gives samples, and 9 percentages.

    If it mixes, a pixel is kept as the number of its register, and blanks are in register 0: so is all from the origin
    to the last column and the last row that is painted. Of a blank, and of a sixel in register 0, one row is."""
    try:
        events = written.read(data, swallows=True)
    except ValueError:
        # It has swallowed the terminator. What ends the string is another one.
        events = written.read(data + MLTERM_END, swallows=True)
    mixed = mixes(events[0])
    given, defined, register, rows, low, buffer = [], set(), 0, 0, 0, Buffer()
    for event in events:
        kind, numbers = event.kind, event.numbers
        if kind == "raster":
            if buffer.raster(*numbers[2:]):
                raise Unsaid(event.place, "raster attributes at which it copies past its memory")
            rows = max(rows, numbers[3])
        elif kind in NAMING:
            register = numbers[0] if numbers[0] < 1024 else 0
            if mixed and register > 255:
                raise Unsaid(event.place, "a register above 255 where it mixes")
            colour = mlterm_colour(*numbers[1:]) if kind == "define" else None
            if colour:
                given.append((kind, register, *colour))
                defined.add(register)
            given.append(("select", register))
        elif kind == "sixel":
            count = event.count or 1
            if buffer.data(count, event.bits):
                raise Unsaid(event.place, "a sixel that is past its memory, or past column or row 32,767")
            if event.bits and register > 255 and register not in defined:
                raise Unsaid(event.place, "paint in a register above 255 that isn't defined")
            bits = 0 if mixed and not register else event.bits
            low = max(low, buffer.y + max(1, bits.bit_length()))
            given.append((kind, count, bits))
        elif kind in MOVING:
            if kind == "newline":
                buffer.newline()
            buffer.x = 0
            given.append((kind,))
    setting = Setting(lambda register: BACKGROUND if register else TEXT, at_end=mixed, mixes=mixed, rows=rows)
    return setting, [("box", extent(given)[0], low)] * mixed + given


def mlterm_colour(system, *numbers):
    """The colour that a definition gives, if it gives one."""
    if system == SAMPLES:
        return SAMPLES, *[min(number, 255) for number in numbers]
    plain = nearest((0, RGB if system == 9 else system, *numbers))
    return plain and plain[1:]


# foot 1.13.1. Its pen is one more register, and so is the colour of a register that was never defined.
FOOT_PEN, FOOT_UNDEFINED = 1024, 1025
FOOT_LARGEST = 10000


def foot(data):
    """A select takes the register's colour as it is then: the pen. The box is filled with the background, which on a
    screen of one colour is kept. The picture has a size; of a band that ends below its height, the rows below it are
    lost."""
    events = written.read(data)
    if events[0].eight:
        raise Unsaid(events[0].place, "an 8-bit introducer")
    given, colours, wide, high, x, y, painted = [], {}, 0, 6, 0, 0, False
    for event, follower in zip(events, [*events[1:], None]):
        kind, numbers = event.kind, event.numbers
        if kind == "raster":
            width, height = numbers[2:]
            # This is how it compares: the width with the height. At the end they don't count.
            fits = width >= high and height >= max(1, wide) and max(width, height) <= FOOT_LARGEST
            if fits and follower.kind != "end":
                if (width < wide or height < high) and (painted or y):
                    raise Unsaid(event.place, "raster attributes that cut off what is painted")
                wide, high = width, height
        elif kind == "define":
            plain = nearest(numbers)
            if plain:
                colours[min(numbers[0], 1023)] = plain[1:]
        elif kind == "select":
            colour = colours.get(min(numbers[0], 1023))
            if colour:
                given.append(("define", FOOT_PEN, *colour))
            given.append((kind, FOOT_PEN if colour else FOOT_UNDEFINED))
        elif kind == "sixel":
            count = event.count or 1
            x += count
            wide, painted = max(wide, x), painted or event.bits > 0
            given.append((kind, count, event.bits & (1 << max(0, min(6, high - y))) - 1))
        elif kind in MOVING:
            x = 0
            if kind == "newline":
                y += 6
                high = y + 6 if y >= high else high
            given.append((kind,))
    undefined = BACKGROUND if second(events) == 1 else BLACK
    return Setting(lambda _: undefined, at_end=False, selected=FOOT_UNDEFINED, rows=high), given


# konsole 22.12.3. It makes a greater number this one.
KONSOLE_NUMBER = 40960
KONSOLE_START = """000000 3333cc cc2323 33cc33 cc33cc 33cccc cccc33 777777 444444 565699 994444 569956 995699 569999
999956 cccccc""".split()


def konsole(data):
    """A definition selects. The picture is one rectangle from the origin, filled with register 0: as wide and as high
    as the box and as all that is touched, zero bits too, down to a whole band. It is 30 by 6 if no raster attributes
    counted. At the end it is stretched by their ratio."""
    events = written.read(data)
    refuse_eight(events)
    reading = Konsole()
    for event, follower in zip(events[1:], [*events[2:], None]):
        reading.take(event, follower)
    width, height = reading.box or (30, 6)
    filled = [("box", max(reading.wide, width), max(reading.high, height))] * reading.begun
    return Setting(palette(KONSOLE_START), at_end=True, selected=3, ratio=reading.ratio), filled + reading.given


class Konsole:
    """What it has read so far."""

    def __init__(self):
        self.given, self.box, self.ratio = [], None, (1, 1)
        self.begun = self.named = self.touched = False
        self.x = self.band = self.wide = self.high = 0
        # The numbers of raster attributes that wait for the next command.
        self.waiting = None
        # Whether all is dropped up to the next move, after an unknown colour system.
        self.stuck = False

    def take(self, event, follower):
        """A select, a definition or raster attributes wait for the next command. A move drops them, and so does the
        end."""
        if event.kind in (*MOVING, "end"):
            self.waiting, self.stuck = None, False
            self.move(event)
            return
        if self.waiting is not None:
            event = self.rest(event)
        if not event or self.stuck:
            return
        if event.kind == "raster":
            self.waiting = list(event.words) if event.words != (b"",) else []
        elif event.kind == "sixel":
            self.sixel(event)
        else:
            self.begun = self.named = True
            if follower.kind not in (*MOVING, "end"):
                self.name(event)

    def move(self, event):
        if self.begun and event.kind != "end":
            self.x, self.band = 0, self.band + (event.kind == "newline")
            self.given.append((event.kind,))

    def rest(self, event):
        """Raster attributes with two or four numbers count now. To others the command gives its numbers, and is lost:
        of a repeat the count is one command, and the sixel the next."""
        if len(self.waiting) in (2, 4):
            self.raster(*[min(int(word or b"0"), KONSOLE_NUMBER) for word in self.waiting])
            self.waiting = None
            return event
        self.waiting += event.words or (b"",)
        return self.rest(replace(event, words=())) if event.kind == "sixel" and event.words else None

    def raster(self, many, few, width=8, height=6):
        if not width or not height:
            return
        if not (self.box or self.named or self.touched):
            self.box = width, height
            self.ratio = (many, few) if many and few else (1, 1)
        self.begun = True

    def name(self, event):
        register, *colour = event.numbers
        self.stuck = bool(colour) and colour[0] not in (HUE, RGB)
        if register > 255 or self.stuck:
            return
        if colour:
            self.given.append(("define", register, *konsole_colour(*colour)))
        self.given.append(("select", register))

    def sixel(self, event):
        count = min(event.count, KONSOLE_NUMBER) or 1
        self.begun = self.touched = True
        self.x += count
        self.wide, self.high = max(self.wide, self.x), max(self.high, 6 * (self.band + 1))
        self.given.append(("sixel", count, event.bits))


def konsole_colour(system, *numbers):
    """A percentage above 100 wraps, as a sample."""
    if system == RGB and max(numbers) > 100:
        return SAMPLES, *[255 * min(number, KONSOLE_NUMBER) // 100 % 256 for number in numbers]
    return nearest((0, system, *numbers))[1:]


def plain(data):
    """What each terminal of the class shows of a portable string."""
    given = [(event.kind, event.count, event.bits) if event.kind == "sixel" else (event.kind, *event.numbers)
             for event in written.read(data) if event.kind not in ("start", "raster", "end")]
    return Setting(lambda _: BLACK, at_end=True), given


READINGS = {"xterm": xterm, "mlterm": mlterm, "foot": foot, "konsole": konsole}


def normal(colour):
    """A colour, the same for the same grey: a hue of no saturation, or of no or full lightness, is one."""
    system, _, lightness, saturation = colour
    grey = system == HUE and (not saturation or lightness in (0, 100))
    return (RGB, lightness, lightness, lightness) if grey else colour
