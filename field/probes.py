"""The strings by which `field/terminals` finds out how a terminal makes each choice of the class.

A probe is a string, and how its answer is read from what is seen then. Columns and rows count from the picture's top
left.
"""
import re
from dataclasses import dataclass, field
from typing import Callable

HOME = b"\x1b[H"
NOTHING = "nothing is drawn"
BOX = '"1;1;12;6'
RED, GREEN, BLUE = "#1;2;100;0;0", "#2;2;0;100;0", "#1;2;0;0;100"
COLOURS = {(255, 0, 0): "red", (0, 255, 0): "green", (0, 0, 255): "blue", (0, 0, 0): "black", (255, 255, 255): "white",
           (255, 0, 255): "magenta"}


def picture(body, parameters="", start="\x1bP", end="\x1b\\"):
    return f"{start}{parameters}q{body}{end}".encode("latin-1")


class Seen:
    """The screen after a string, what the terminal answered, and its status if it ended."""

    def __init__(self, screen, background, heard, status):
        self.screen, self.background, self.heard, self.status = screen, bytes.fromhex(background), heard, status

    def sample(self, x, y):
        return self.screen.getpixel((x, y))

    def colour(self, x, y):
        """The name of a pixel's colour. 254 counts as 255, since konsole shows it for a hue."""
        pixel = self.sample(x, y)
        near = tuple(255 if sample == 254 else sample for sample in pixel)
        return "background" if bytes(pixel) == self.background else COLOURS.get(near) or bytes(pixel).hex()


@dataclass
class Probe:
    group: str
    name: str
    data: bytes
    read: Callable
    options: dict = field(default_factory=dict)


def at(points, answers):
    """The answer by the colours at these points; else the colours."""
    def read(seen):
        colours = tuple(seen.colour(x, y) for x, y in points)
        plain = NOTHING if set(colours) == {"background"} else ", ".join(dict.fromkeys(colours))
        return answers.get(colours, plain)
    return read


def first(**answers):
    """The answer by the colour of column 3, row 3."""
    return at([(3, 3)], {(colour,): answer for colour, answer in answers.items()})


def rows(seen):
    """How many rows a sixel pixel is tall: a sixel of six set bits is six of them."""
    count = next((row for row in range(60) if seen.colour(3, row) != "red"), 60)
    return f"{count / 6:g}" if count else NOTHING


def columns(seen):
    """How many columns of the first row are changed."""
    return str(next((x for x in range(99, -1, -1) if seen.colour(x, 0) != "background"), -1) + 1)


# Colours that can be told apart whatever the formula: of each sample none, half or all.
PALETTE = [(50 * (i // 9), 50 * (i // 3 % 3), 50 * (i % 3)) for i in range(27)]


def define(register, colour):
    return "#{};2;{};{};{}".format(register, *PALETTE[colour])


def which(seen, x, y):
    """Which colour of PALETTE a pixel has."""
    samples = seen.sample(x, y)
    near = tuple(50 * round(sample / 127.5) for sample in samples)
    return PALETTE.index(near) if max(abs(a - b * 2.55) for a, b in zip(samples, near)) < 3 else None


NUMBERS = [0, 1, 15, 16, 17, 255, 256, 257, 1023, 1024, 1025]
MANY = picture('"1;1;66;6' + "".join(define(n, i + 1) for i, n in enumerate(NUMBERS))
               + "".join(f"#{n}!6~" for n in NUMBERS))
MEANINGS = {"modulo that": lambda n, count: n % count,
            "the last one": lambda n, count: min(n, count - 1),
            "register 0": lambda n, count: n if n < count else 0,
            "ignored": lambda n, count: n if n < count else None}


def registers(seen):
    """How many there are, and what a greater number means: each of NUMBERS is defined, and then each is painted."""
    def shown(count, meaning):
        """The colours of the blocks, if so many registers are there."""
        latest, selected = {}, None
        for i, n in enumerate(NUMBERS):
            latest[meaning(n, count)] = i + 1
        for n in NUMBERS:
            register = meaning(n, count)
            selected = selected if register is None else register
            yield latest[selected]
    blocks = [which(seen, 6 * i + 3, 3) for i in range(len(NUMBERS))]
    answers = [f"{count}; a greater number is {name}" for count in (16, 256, 1024) for name, meaning in MEANINGS.items()
               if blocks == list(shown(count, meaning))]
    return answers[0] if answers else str(blocks)


SIXTEEN = "".join(define(n, n + 1) for n in range(16))
START = (picture('"1;1;1;1' + SIXTEEN + "#9@") + HOME
         + picture('"1;1;102;6!6~' + "".join(f"#{n}!6~" for n in range(16)) + SIXTEEN))


def selected(seen):
    """The register with the colour of what is painted first. Each has a colour of its own: by a string before, where
    that lasts, or by the end of this one, where that counts."""
    same = [n for n in range(16) if seen.sample(6 * n + 9, 3) == seen.sample(3, 3)]
    if len(same) == 1:
        return str(same[0])
    return "none: the colour selected last by the string before" if which(seen, 3, 3) == 10 else seen.colour(3, 3)


def told(seen):
    """What it answers to the question how many registers it has."""
    answer = re.search(rb"\?1;0;(\d+)S", seen.heard)
    return answer[1].decode() if answer else "no answer"


def ends(seen):
    """Whether the terminal ends; and what it shows."""
    if seen.status is not None:
        return f"the terminal ends, status {seen.status}"
    return "drawn" if seen.colour(0, 0) == "red" else NOTHING


OVER = BOX + RED + GREEN + "#3;2;0;0;100#1!6~$#2!6~"
UNDER = picture('"1;1;24;12#5;2;0;100;0#5!24~-!24~') + HOME
GROUND = '"1;1;24;12#0;2;100;0;100#1;2;100;0;0#1!6~-?'
IS_GROUND = at([(15, 3), (15, 9)], {
    ("green", "green"): "kept", ("magenta", "magenta"): "register 0", ("background", "background"): "its background",
    ("black", "black"): "register 0, without its definition"})
RANGE = {"red": "no colour", "blue": "the nearest", "background": NOTHING}
BIG = {"xterm": ("-xrm", "XTerm*maxGraphicSize: 2048x2048")}

CHOICES = "The choices of the class"
OUTSIDE = "Outside the class, and of concern to portable strings"
BEYOND = "Outside the class, in strings that break a rule"
BINDING = CHOICES, "colour of a pixel whose register is redefined later"
AT_END = "the one at the end"
SELECTS = CHOICES, "a definition also selects its register"


def ground(second):
    """The question what is where nothing is painted, by the second parameter."""
    return CHOICES, f"unpainted pixels of the box, second parameter {second or 'missing'}"


PROBES = [
    Probe(*BINDING, picture(BOX + RED + "#1!6~" + BLUE + "!6~"),
          at([(3, 3), (9, 3)], {("blue", "blue"): AT_END, ("red", "blue"): "the one when it was painted",
                                ("red", "red"): "the one when the register was selected"})),
    Probe(*SELECTS, picture(BOX + RED + GREEN + "#1!6~" + GREEN + "!6~"),
          at([(9, 3)], {("red",): "no", ("green",): "yes"})),
    *[Probe(*ground(second), UNDER + picture(GROUND, f"0;{second}"), IS_GROUND) for second in ["", "0", "1", "2", "5"]],
    Probe(CHOICES, "registers", MANY, registers),
    Probe(CHOICES, "registers, by its own answer", b"\x1b[?1;1;0S", told),
    Probe(CHOICES, "register selected at the start", START, selected),
    Probe(CHOICES, "columns of a repeat of 0", picture(BOX + RED + GREEN + "#1!0~#2!3~"),
          at([(0, 3)], {("green",): "0", ("red",): "1"})),
    Probe(CHOICES, "columns of a repeat without a count", picture(BOX + RED + GREEN + "#1!~#2!3~"),
          at([(0, 3)], {("green",): "0", ("red",): "1"})),
    Probe(CHOICES, "blue of 150 percent", picture(BOX + RED + "#1;2;0;0;150#1!6~"), first(**RANGE)),
    Probe(CHOICES, "blue of 300 percent", picture(BOX + RED + "#1;2;0;0;300#1!6~"), first(**RANGE)),
    Probe(CHOICES, "hue of 400", picture(BOX + RED + "#1;1;400;50;100#1!6~"), first(**RANGE)),
    Probe(CHOICES, "lightness of 150", picture(BOX + RED + "#1;1;0;150;100#1!6~"),
          first(**{**RANGE, "white": "the nearest", "blue": "blue"})),
    Probe(CHOICES, "saturation of 150", picture(BOX + RED + "#1;1;0;50;150#1!6~"), first(**RANGE)),
    Probe(CHOICES, "colour system 3, 0;0;100", picture(BOX + RED + "#1;3;0;0;100#1!6~"), first(**RANGE)),
    Probe(CHOICES, "colour system 0, 0;0;100", picture(BOX + RED + "#1;0;0;0;100#1!6~"), first(**RANGE)),
    *[Probe(CHOICES, f"rows of a sixel pixel, no raster attributes, first parameter {p or 'missing'}",
            picture(RED + "#1!6~", p), rows) for p in ["", "0", "1", "2", "5", "7", "9"]],
    *[Probe(CHOICES, f"rows of a sixel pixel, raster attributes of {pan};{pad}",
            picture(f'"{pan};{pad};12;24' + RED + "#1!6~"), rows) for pan, pad in [(1, 1), (2, 1), (3, 2), (1, 2)]],
    Probe(CHOICES, "a set bit right of the box, and one below it", picture('"1;1;6;6' + RED + "#1!12~-!12~"),
          at([(9, 3), (3, 9)], {("red", "red"): "painted", ("background", "background"): "clipped"})),
    Probe(CHOICES, "the byte 90 as the introducer, in UTF-8", picture(BOX + RED + "#1!6~", start="\x90"),
          first(red="taken", background="not taken")),
    Probe(CHOICES, "the byte 9C as the terminator, in UTF-8",
          picture(BOX + RED + GREEN + "#1!6~", end="\x9c$#2!6~\x1b\\"), first(red="taken", green="not taken")),
    Probe(CHOICES, "a zero bit over a set one", picture(BOX + RED + GREEN + "#1!6~$#2!6?"),
          first(red="leaves it", green="paints")),
    Probe(CHOICES, "a set bit over a set one", picture(OVER), first(green="replaces it")),
    Probe(CHOICES, "raster attributes after painting", picture(BOX + RED + "#1!6~" + BOX), first(red="wipe nothing")),

    Probe(OUTSIDE, "a definition between selection and painting", picture(BOX + "#1;2;0;100;0#1" + RED + "!6~"),
          first(red="counts", green="the colour at the selection is painted")),
    Probe(OUTSIDE, "the same without a colour before", picture(BOX + "#1" + RED + "!6~"),
          first(red="counts", black="the colour at the selection is painted")),
    *[Probe(OUTSIDE, f"a box of {width} by {height}{', maxGraphicSize: 2048x2048' if options else ''}",
            picture(f'"1;1;{width};{height}{RED}#1!12~'), first(red="drawn"), options)
      for width, height in [(1000, 6), (1001, 6), (2048, 6), (12, 1000), (12, 1001), (12, 2048)]
      for options in ([{}, BIG] if max(width, height) > 1000 else [{}])],
    *[Probe(OUTSIDE, f"a run of {count} columns without a set bit, in a box of 1 by 1",
            picture(f'"1;1;1;1{RED}#1@!{count}?'), ends) for count in (1000, 32000, 32766, 32767, 32800, 65535)],
    *[Probe(OUTSIDE, f"columns filled in a box of 1 by 1, {text}", picture(body + "#1@"), columns)
      for text, body in [("raster attributes first", '"1;1;1;1' + RED),
                         ("a definition before the raster attributes", RED + '"1;1;1;1'),
                         ("a selection before them", '#1"1;1;1;1' + RED),
                         ("a return right after them", '"1;1;1;1$' + RED),
                         ("a line feed and a return after them", '"1;1;1;1\n$' + RED),
                         ("a selection and a return after them", '"1;1;1;1#1$' + RED)]],
    *[Probe(OUTSIDE, f"a definition with {text} right after it", picture(BOX + RED + body + "#1!6~" + "-#1!6~"),
            at([(3, 9)], {("red",): "counts", ("3333cc",): "is lost"}))
      for text, body in [("a return", "$"), ("a new line", "-"), ("a line feed and a return", "\n$"),
                         ("a selection and a return", "#1$")]],
    Probe(OUTSIDE, "below a box of 12 by 1", picture('"1;1;12;1' + RED + "#1!12@"), at([(3, 3)], {
        ("background",): "left alone", ("black",): "filled with register 0"})),

    Probe(OUTSIDE, "a set bit over a set one, second parameter 5", picture(OVER, "7;5"),
          first(green="replaces it", blue="register 1 and then 2 gives 3")),

    Probe(BEYOND, "unpainted pixels of the box, if there is no sixel",
          UNDER + picture('"1;1;24;12#0;2;100;0;100'), IS_GROUND),
    Probe(BEYOND, "box of 0 by 0", picture('"1;1;0;0' + RED + "#1!6~"), first(red="drawn")),
    Probe(BEYOND, "a definition just before the terminator", picture(BOX + RED + "#1!12~" + BLUE),
          first(blue="counts", red="doesn't count")),
    *[Probe(BEYOND, f"{count} painted columns in a box of 6", picture(f'"1;1;6;6{RED}#1!{count}~'), ends)
      for count in (512, 800)],
]

# Percentages: the three samples of a colour are different ones, so that each is tried with each percentage.
PERCENTS = [(p, 100 - p, p * 37 % 101) for p in range(101)]
PERCENT = picture('"1;1;101;6' + "".join("#{};2;{};{};{}".format(p, *PERCENTS[p]) for p in range(101))
                  + "".join(f"#{p}~" for p in range(101)))
FORMULAS = {"⌊255p / 100⌋": lambda p: 255 * p // 100, "⌊(255p + 50) / 100⌋": lambda p: (255 * p + 50) // 100,
            "⌊⌊65535p / 100⌋ / 256⌋": lambda p: 65535 * p // 100 >> 8}

# Hue, lightness and saturation.
HUES = [(0, 50, 100), (30, 50, 100), (59, 50, 100), (60, 50, 100), (61, 50, 100), (120, 50, 100), (180, 50, 100),
        (240, 50, 100), (300, 50, 100), (330, 50, 100), (360, 50, 100),
        (0, 50, 50), (60, 50, 50), (120, 25, 60), (210, 19, 16), (30, 75, 40), (90, 80, 80), (270, 30, 90), (0, 0, 0),
        (0, 50, 0), (0, 100, 100)]
HUE = picture(f'"1;1;{len(HUES)};6' + "".join("#{};1;{};{};{}".format(i, *hue) for i, hue in enumerate(HUES))
              + "".join(f"#{i}~" for i in range(len(HUES))))
