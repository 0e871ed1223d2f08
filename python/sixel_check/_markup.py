"""HTML in which all that isn't markup is escaped."""

from __future__ import annotations

import base64
import html
import os
from typing import Sequence, Union


class Markup(str):
    """Text that is HTML already."""


Content = Union[Markup, str, int]
# Elements without an end.
VOID = ("input", "link", "meta")


def element(tag: str, /, *contents: Content, **attributes: Union[str, int, None]) -> Markup:
    """An element. An attribute that is None is left out; `data_rule` is written `data-rule`, and `class_` `class`."""
    written = "".join(
        f' {key.rstrip("_").replace("_", "-")}="{html.escape(str(value))}"'
        for key, value in attributes.items()
        if value is not None
    )
    end = "" if tag in VOID else f"</{tag}>"
    return Markup(f"<{tag}{written}>{joined(*contents)}{end}")


def joined(*contents: Content) -> Markup:
    """Contents one after the other."""
    return Markup("".join(each if isinstance(each, Markup) else html.escape(str(each)) for each in contents))


def data_uri(kind: str, data: bytes) -> str:
    return f"data:{kind};base64,{base64.b64encode(data).decode()}"


def readable(name: str) -> str:
    """The name of a file in one line: what can't be printed is written as its number."""
    return "".join(each if each.isprintable() else _number(ord(each)) for each in _decoded(name))


def _decoded(name: str) -> str:
    """A byte that isn't UTF-8 becomes a surrogate, whatever the system's encoding is."""
    return os.fsencode(name).decode(errors="surrogateescape")


def _number(code: int) -> str:
    if 0xDC80 <= code <= 0xDCFF:
        code -= 0xDC00
    return f"\\x{code:02X}" if code < 0x100 else f"\\u{code:04X}"


def listed(names: Sequence[str]) -> str:
    """Names in a sentence, as in `xterm, mlterm and foot`."""
    *first, last = names
    return f"{', '.join(first)} and {last}" if first else last
