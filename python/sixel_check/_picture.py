"""Pictures in memory."""

from __future__ import annotations

import os
from dataclasses import dataclass, field
from pathlib import Path
from typing import TYPE_CHECKING, Any, Tuple, Union

from ._png import png_of
from ._program import ProgramDied

if TYPE_CHECKING:
    import numpy
    import PIL.Image

# Sixel has percentages, and screens have 256 levels. Percentage p is level (255p + 50) / 100, rounded down: the nearest
# one, and the higher of two. `encode` makes the same percentage of that level.
LEVELS = bytes((255 * percentage + 50) // 100 for percentage in range(101)).ljust(256, b"\0")


@dataclass(frozen=True)
class Picture:
    """A picture: three bytes a pixel, red, green and blue, row by row from the top left."""

    width: int
    height: int
    rgb: bytes = field(repr=False)

    def __post_init__(self) -> None:
        if min(self.width, self.height) < 1 or len(self.rgb) != 3 * self.width * self.height:
            raise ValueError(f"{len(self.rgb)} bytes aren't a picture of {self.width} by {self.height} pixels")

    def pixel(self, column: int, row: int) -> Tuple[int, int, int]:
        """The red, green and blue of a pixel."""
        if not (0 <= column < self.width and 0 <= row < self.height):
            raise IndexError(f"the picture has no pixel in column {column}, row {row}")
        start = 3 * (row * self.width + column)
        red, green, blue = self.rgb[start : start + 3]
        return red, green, blue

    def ppm(self) -> bytes:
        """The picture as a PPM."""
        return b"P6\n%d %d\n255\n" % (self.width, self.height) + self.rgb

    def png(self) -> bytes:
        """The picture as a PNG."""
        return png_of(self.width, self.height, self.rgb)

    def save(self, path: Union[str, os.PathLike[str]]) -> None:
        """Writes a PNG file."""
        Path(path).write_bytes(self.png())

    def to_pil(self) -> PIL.Image.Image:
        """The picture as an image of Pillow."""
        import PIL.Image

        return PIL.Image.frombytes("RGB", (self.width, self.height), self.rgb)

    def to_numpy(self) -> numpy.ndarray[Any, numpy.dtype[numpy.uint8]]:
        """The picture as an array of numpy: rows, columns and colours."""
        import numpy

        return numpy.frombuffer(self.rgb, numpy.uint8).reshape(self.height, self.width, 3)


def picture_of(ppm: bytes) -> Picture:
    """The picture of a PPM that the program wrote."""
    try:
        kind, size, most, samples = ppm.split(b"\n", 3)
        width, height = map(int, size.split())
        if (kind, most) == (b"P6", b"100"):
            return Picture(width, height, samples.translate(LEVELS))
    except ValueError:
        pass
    raise ProgramDied("the program wrote no picture, as the program sixel does")


def columns_of(picture: Picture, start: int, width: int) -> Picture:
    """The picture's columns from one on."""
    step = 3 * picture.width
    firsts = range(3 * start, len(picture.rgb), step)
    return Picture(width, picture.height, b"".join(picture.rgb[first : first + 3 * width] for first in firsts))
