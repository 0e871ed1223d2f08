"""The program's tasks, as calls. Each runs the program once."""

from __future__ import annotations

import io
import sys
from typing import TYPE_CHECKING, Any, Iterable, List, Optional, Tuple, Union

from ._explain import explain
from ._outcomes import (
    Broken,
    Difference,
    Event,
    Group,
    InputRefused,
    Listing,
    NotPortable,
    Outcome,
    Refused,
    Scanned,
    Survey,
    finding_of,
    outcome_of,
    refused_of,
)
from ._picture import Picture, columns_of, picture_of
from ._program import SECONDS, Ended, Source, bytes_of, run, warn

if TYPE_CHECKING:
    import PIL.Image

Names = Union[str, Iterable[str]]
"""Named terminals: `"all"`, or some of `TERMINALS`, as `"xterm,foot"` or `["xterm", "foot"]`."""

TERMINALS = ("xterm", "mlterm", "foot", "konsole")
# The grey columns between two screens of a sheet.
GAP = 8


def _options(on: Names = (), **values: Union[bool, int, str, None]) -> List[str]:
    """Options of the program. One that is false or None is left out."""
    names = on if isinstance(on, str) else ",".join(on)
    options = [f"--on={names}"] if names else []
    for name, value in values.items():
        if value is not None and value is not False:
            option = "--" + name.replace("_", "-")
            options.append(option if value is True else f"{option}={value}")
    return options


def _refusal(ended: Ended) -> InputRefused:
    return InputRefused(refused_of(ended.reason), "\n".join(ended.lines[1:]))


def _written(words: List[str], source: Source, timeout: Optional[float]) -> bytes:
    """What a task writes. If it is refused, that is raised."""
    ended = run(words, source, timeout)
    if ended.status == 2:
        raise _refusal(ended)
    warn(ended, 2)
    return ended.output


def check(source: Source, *, wide: bool = False, on: Names = (), timeout: Optional[float] = SECONDS) -> Outcome:
    """Says whether a picture is portable, or which rule it breaks first, or why it is refused.

    With `wide` it may use 256 colour registers instead of 16. With `on` the rules of named terminals count, too.
    """
    ended = run(["check", "--json", *_options(on, wide=wide)], source, timeout)
    return outcome_of(ended.objects[0])


def survey(source: Source, *, wide: bool = False, on: Names = (), timeout: Optional[float] = SECONDS) -> Survey:
    """Says which rules a picture breaks, how often, and where first. The options are those of `check`."""
    answers = run(["survey", "--json", *_options(on, wide=wide)], source, timeout).objects
    if answers[0]["result"] != "broken":
        return Survey(outcome_of(answers[0]), ())
    # The one with the least offset, and of these the first, is the one that a check names.
    return Survey(outcome_of(min(answers, key=lambda answer: int(answer["offset"]))), tuple(map(finding_of, answers)))


def scan(
    source: Source, *, wide: bool = False, eight_bit: bool = False, timeout: Optional[float] = SECONDS
) -> Tuple[Scanned, ...]:
    """Checks each picture in what a program writes to a terminal.

    With `eight_bit` the bytes 90 and 9C start and end a picture, too.
    """
    answers = run(["scan", "--json", *_options(wide=wide, eight_bit=eight_bit)], source, timeout).objects
    if answers[-1].get("reason") == "NoString":
        return ()
    return tuple(
        Scanned(answer.get("string", 0), outcome_of(answer), answer.get("wrapped", False)) for answer in answers
    )


def events(source: Source, *, timeout: Optional[float] = SECONDS) -> Listing:
    """Lists the commands of a picture, each with its offset, up to the first fault."""
    ended = run(["list"], source, timeout)
    refused = refused_of(ended.reason) if ended.status == 2 else None
    return Listing(tuple(map(_event, ended.output.decode().splitlines())), refused)


def _event(line: str) -> Event:
    offset, name, *words = line.split()
    control = words.pop(0) if words and words[0].endswith("bit") else ""
    return Event(int(offset), name, tuple(map(int, words)), control)


def differ(
    source: Source, *, background: Optional[str] = None, timeout: Optional[float] = SECONDS
) -> Union[Difference, Refused]:
    """Says which of xterm, mlterm, foot and konsole show a picture differently, by models of them.

    The background is that of the screens: three percentages, as in `"100,50,0"`, or `"#ff8000"`; white if left out.
    """
    ended = run(["differ", *_options(background=background)], source, timeout)
    if ended.status == 2:
        return refused_of(ended.reason)
    lines = [line.split() for line in ended.output.decode().splitlines()]
    if lines and lines[0][0] == "same":
        return Difference((Group(TERMINALS),), (int(lines[0][1]), int(lines[0][2])))
    return Difference(tuple(map(_group, lines)))


def _group(words: List[str]) -> Group:
    names = tuple(word for word in words if word in TERMINALS)
    *told, last = words[len(names) :] or [""]
    if told == ["unmodelled"]:
        return Group(names, unmodelled=int(last))
    return Group(names, (int(told[0]), int(last)) if told else None)


def sheet(source: Source, *, background: Optional[str] = None, timeout: Optional[float] = SECONDS) -> Picture:
    """The screens of xterm, mlterm, foot and konsole side by side, with eight grey columns between them.

    One that the model doesn't say is grey. The background is that of `differ`.
    """
    return picture_of(_written(["differ", "--sheet", *_options(background=background)], source, timeout))


def screens_of(sheet: Picture) -> List[Picture]:
    """The four screens of a sheet."""
    width = (sheet.width - 3 * GAP) // 4
    return [columns_of(sheet, start, width) for start in range(0, sheet.width, width + GAP)]


def render(source: Source, *, wide: bool = False, timeout: Optional[float] = SECONDS) -> Picture:
    """The picture that every terminal shows. One that isn't portable raises `NotPortable`."""
    ended = run(["render", *_options(wide=wide)], source, timeout)
    if ended.status == 1:
        _, rule, offset, *pixel = ended.said.split()
        place = (int(pixel[0]), int(pixel[1])) if pixel else None
        raise NotPortable(Broken(rule, int(offset), place, explain(rule).summary))
    if ended.status == 2:
        raise _refusal(ended)
    return picture_of(ended.output)


def show(
    source: Source,
    *,
    on: Optional[str] = None,
    background: Optional[str] = None,
    width: Optional[int] = None,
    height: Optional[int] = None,
    box: bool = False,
    wide: bool = False,
    showing: bool = False,
    fill: bool = False,
    define_selects: bool = False,
    timeout: Optional[float] = SECONDS,
) -> Picture:
    """The screen of one terminal: of `on`, one of `TERMINALS`, by a model; or of one that the other options describe.

    docs/USING.md says what the options mean. Without a size the screen has 800 by 480 pixels.
    """
    options = _options(
        on or (),
        background=background,
        width=width,
        height=height,
        box=box,
        wide=wide,
        showing=showing,
        fill=fill,
        define_selects=define_selects,
    )
    return picture_of(_written(["show", *options], source, timeout))


def mend(
    source: Source,
    *,
    wide: bool = False,
    background: Optional[str] = None,
    showing: bool = False,
    define_selects: bool = False,
    on: Names = (),
    pad: Optional[str] = None,
    timeout: Optional[float] = SECONDS,
) -> bytes:
    """A portable picture of what one terminal shows of this one.

    The background is the colour of pixels that aren't painted: black if left out. With `on` the picture is one that
    these terminals show, perhaps with rows of `pad` below it: the background's colour if left out.
    """
    options = _options(on, pad=pad, wide=wide, background=background, showing=showing, define_selects=define_selects)
    return _written(["mend", *options], source, timeout)


def encode(
    picture: Union[Picture, PIL.Image.Image, Source],
    *,
    wide: bool = False,
    quantize: bool = False,
    on: Names = (),
    pad: Optional[str] = None,
    timeout: Optional[float] = SECONDS,
) -> bytes:
    """Portable sixel text of a picture, an image of Pillow, or a PPM (bytes, a path or a binary file).

    With `on` the picture is one that these terminals show, perhaps with rows of `pad` below it: black if left out.

    It may have 16 colours, or with `wide` 256, counted as percentages. If it has more, `quantize` lets Pillow reduce
    them, which changes colours; without it the picture is refused as `TooManyColours`.
    """
    ppm = _ppm_of(picture)
    try:
        return _written(["encode", *_options(on, pad=pad, wide=wide)], ppm, timeout)
    except InputRefused as refusal:
        if refusal.outcome.reason != "TooManyColours" or not quantize:
            raise
    # The rows below may need a register.
    colours = (256 if wide else 16) - bool(on)
    return _written(["encode", *_options(on, pad=pad, wide=wide)], _reduced(ppm, colours), timeout)


def _ppm_of(picture: Any) -> bytes:
    if isinstance(picture, Picture):
        return picture.ppm()
    # Who has an image of Pillow has imported it.
    pillow: Any = sys.modules.get("PIL.Image")
    if pillow and isinstance(picture, pillow.Image):
        return _opaque(picture).ppm()
    return bytes_of(picture)


def _opaque(image: Any) -> Picture:
    """The picture of an image that no pixel shines through."""
    if "transparency" in image.info or image.mode in ("LA", "La", "PA", "RGBA", "RGBa"):
        image = image.convert("RGBA")
        if image.getextrema()[3][0] < 255:
            raise ValueError("the image has transparent pixels; Image.alpha_composite puts it on a background")
    width, height = image.size
    return Picture(width, height, image.convert("RGB").tobytes())


def _reduced(ppm: bytes, colours: int) -> bytes:
    """A PPM in fewer colours."""
    try:
        import PIL.Image
    except ImportError as fault:
        raise ImportError("quantize=True needs Pillow") from fault
    image = PIL.Image.open(io.BytesIO(ppm))
    return _opaque(image.quantize(colours)).ppm()
