"""The screens of a string on the page of a report, side by side."""

from __future__ import annotations

from typing import Dict, Iterator, Optional, Sequence

from ._calls import TERMINALS
from ._inspect import Shown
from ._markup import Markup, data_uri, element, listed
from ._outcomes import Group, Pixel, Refused
from ._picture import Picture
from ._png import small_png_of

# A picture with no longer side is enlarged with sharp pixels.
SMALL = 200


def screens_of(name: str, shown: Shown, pixel: Optional[Pixel]) -> Markup:
    """The four screens, with marks, and sentences on them. The name begins their ids; the pixel is that of the rule."""
    sentences = [element("p", sentence) for sentence in sentences_on(shown)]
    if isinstance(shown.pictures, Refused):
        return element("div", *sentences, class_="shown")
    # Where the first group is compared: with the first that differs.
    compared = next((group.pixel for group in shown.groups if group.pixel), None)
    figures = _figures(name, shown.groups, shown.pictures, compared, pixel)
    return element("div", element("div", *figures, class_="screens"), *sentences, _key(compared, pixel), class_="shown")


def _figures(
    name: str,
    groups: Sequence[Group],
    pictures: Sequence[Picture],
    compared: Optional[Pixel],
    pixel: Optional[Pixel],
) -> Iterator[Markup]:
    group_of = {terminal: group for group in groups for terminal in group.terminals}
    # Terminals that show the same share one PNG.
    ids: Dict[Group, str] = {}
    for terminal, picture in zip(TERMINALS, pictures):
        group = group_of[terminal]
        if group.unmodelled is not None:
            yield _unknown(terminal, group.unmodelled)
            continue
        if group in ids:
            inside = element("use", href=f"#{ids[group]}")
        else:
            ids[group] = f"{name}-{terminal}"
            inside = _image(ids[group], picture)
        differs = group.pixel or compared
        marks = [_mark("differs" if group.pixel else "differs first", picture, differs), _mark("pixel", picture, pixel)]
        yield element("figure", _glass(terminal, picture, inside, marks), _caption(terminal, picture, differs))


def _unknown(terminal: str, offset: int) -> Markup:
    caption = element("figcaption", element("strong", terminal), element("span", f"not known from offset {offset} on"))
    return element("figure", element("div", "?", class_="unknown", aria_hidden="true"), caption)


def _image(name: str, picture: Picture) -> Markup:
    png = data_uri("image/png", small_png_of(picture.width, picture.height, picture.rgb))
    return element("image", id=name, width=picture.width, height=picture.height, href=png)


def _glass(terminal: str, picture: Picture, inside: Markup, marks: Sequence[Markup]) -> Markup:
    label = f"The screen of {terminal}, {picture.width} by {picture.height} pixels"
    box = f"0 0 {picture.width} {picture.height}"
    drawing = element("svg", inside, viewBox=box, role="img", aria_label=label)
    kind = "glass small" if max(picture.width, picture.height) <= SMALL else "glass"
    size = f"--width: {picture.width}; --height: {picture.height}"
    return element("div", element("div", drawing, *marks, class_=kind, style=size), class_="frame")


def _mark(kind: str, picture: Picture, pixel: Optional[Pixel]) -> Markup:
    if not pixel or pixel[0] >= picture.width or pixel[1] >= picture.height:
        return Markup()
    left, top = ((at + 0.5) / size for at, size in zip(pixel, (picture.width, picture.height)))
    return element("i", class_=f"mark {kind}", style=f"left: {left:.3%}; top: {top:.3%}")


def _caption(terminal: str, picture: Picture, differs: Optional[Pixel]) -> Markup:
    parts = [element("strong", terminal)]
    if differs:
        parts.append(element("span", _colour(picture, differs), class_="colour"))
        parts.append(element("i", class_="swatch", style=f"background: {_colour(picture, differs)}"))
    return element("figcaption", *parts)


def _colour(picture: Picture, pixel: Pixel) -> str:
    return "#%02x%02x%02x" % picture.pixel(*pixel)


def _key(differs: Optional[Pixel], pixel: Optional[Pixel]) -> Markup:
    """What the marks mean."""
    kinds = (
        ("differs", differs, "the first pixel that differs"),
        ("differs first", differs, "that pixel on the screens that it differs from"),
        ("pixel", pixel, "the pixel of the broken rule"),
    )
    keys = [element("span", element("i", class_=f"mark {kind}"), f" {words}") for kind, at, words in kinds if at]
    return element("p", *keys, class_="keys") if keys else Markup()


def sentences_on(shown: Shown) -> Iterator[str]:
    """Which terminals show the same, and where the others differ."""
    known = [group for group in shown.groups if group.unmodelled is None]
    if len(known) == 1 and len(known[0].terminals) == len(TERMINALS):
        yield "All four show the same."
    elif len(known) == 1 and len(known[0].terminals) > 1:
        yield f"{_names(known[0])} show the same."
    for group in known[1:]:
        assert group.pixel
        differ = "differs" if len(group.terminals) == 1 else "differ"
        place = f"in column {group.pixel[0]}, row {group.pixel[1]}"
        yield f"{_names(group)} {differ} from {_names(known[0])}, first {place}{_colours(shown, group, known[0])}."
    for group in shown.groups:
        if group.unmodelled is not None:
            yield (
                f"What {_names(group)} shows isn't known: its model doesn't cover the command at offset "
                f"{group.unmodelled}."
            )


def _names(group: Group) -> str:
    return listed(group.terminals)


def _colours(shown: Shown, group: Group, first: Group) -> str:
    if isinstance(shown.pictures, Refused) or not group.pixel:
        return ""
    pictures = dict(zip(TERMINALS, shown.pictures))
    here, there = (_colour(pictures[each.terminals[0]], group.pixel) for each in (group, first))
    return f": {here} instead of {there}"
