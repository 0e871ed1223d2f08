"""What the scripts of this folder share: the program, the versions of packages, and pictures."""
import os
import pathlib
import re
import subprocess
import textwrap

from PIL import Image, ImageChops

HERE = pathlib.Path(__file__).resolve().parent
SIXEL = pathlib.Path(os.environ.get("SIXEL", HERE.parent / "sixel")).resolve()


def sixel(*words):
    """Runs the program, and returns what `subprocess.run` does."""
    return subprocess.run([SIXEL, *map(str, words)], capture_output=True, timeout=600)


def answer(run):
    """The words of a run's first line, without the name of the file."""
    return (run.stdout + run.stderr).decode().partition("\n")[0].rpartition(": ")[2].split()


def version(package):
    return subprocess.run(["dpkg-query", "-W", "-f", "${Version}", package], capture_output=True, text=True).stdout


def light(data, samples):
    """The picture of a PPM whose samples are percentages, where each becomes one of these samples of 255."""
    head = re.match(rb"P6\s+(\d+)\s+(\d+)\s+100\s", data)
    picture = Image.frombytes("RGB", (int(head[1]), int(head[2])), data[head.end():])
    return picture.point((samples + [0] * 155) * 3)


def unlike(one, other, tolerance=0):
    """How many pixels differ by more than that in one of their samples."""
    red, green, blue = ImageChops.difference(one, other).split()
    return sum(ImageChops.lighter(ImageChops.lighter(red, green), blue).histogram()[tolerance + 1:])


# A picture of one colour, 24 by 12.
MARK = b'\x1bPq"1;1;24;12#1;2;100;0;100#1!24~-!24~\x1b\\'


def find_mark(name, picture):
    """Where the top left of MARK is on a terminal's screen."""
    same = ImageChops.difference(picture, Image.new("RGB", picture.size, (255, 0, 255))).convert("L").point(
        lambda sample: 255 if sample < 3 else 0)
    box = same.getbbox()
    # Each pixel is counted: what lies over some of these, as a pointer, would lie over each picture.
    if not box or (box[2] - box[0], box[3] - box[1]) != (24, 12) or same.histogram()[255] != 24 * 12:
        raise RuntimeError(f"{name} shows no whole sixel picture: {box}")
    return box[:2]


def cells(*words):
    return "| " + " | ".join(str(word).replace("|", r"\|") for word in words) + " |"


def rule(columns):
    return "|" + "---|" * columns


def text(words):
    return textwrap.fill(words, 120, break_long_words=False, break_on_hyphens=False)
