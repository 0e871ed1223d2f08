"""The answers of the program."""

from __future__ import annotations

from dataclasses import dataclass, field, replace
from typing import Any, Mapping, Optional, Tuple, Union

from ._explain import explain
from ._program import ProgramDied, SixelError

Pixel = Tuple[int, int]
"""A column and a row, from 0, from the top left."""


@dataclass(frozen=True)
class Portable:
    """Every terminal of the class, and each that was named, shows the same picture."""

    width: int
    height: int

    @property
    def is_portable(self) -> bool:
        return True

    def __str__(self) -> str:
        return f"portable {self.width} {self.height}"


@dataclass(frozen=True)
class Broken:
    """A rule is broken."""

    rule: str
    #: Where the command that breaks it starts, in bytes from 0.
    offset: int
    #: For `Outside` and `Uncovered` the pixel.
    pixel: Optional[Pixel]
    message: str

    @property
    def is_portable(self) -> bool:
        return False

    @property
    def fix(self) -> str:
        """How to fix it. The first time the program is asked."""
        return explain(self.rule).fix

    def __str__(self) -> str:
        return " ".join(map(str, ("broken", self.rule, self.offset, *(self.pixel or ()))))


@dataclass(frozen=True)
class Finding(Broken):
    """A broken rule, and how often it is broken. The offset is that of the first time."""

    count: int

    def __str__(self) -> str:
        return " ".join(map(str, (self.rule, self.count, self.offset, *(self.pixel or ()))))


@dataclass(frozen=True)
class Refused:
    """The input is no sixel picture, or nothing can be made of it."""

    reason: str
    #: Where it can't go on, in bytes from 0, if the reason has a place.
    offset: Optional[int]
    message: str
    #: The width and the height, in pixels, if the picture is too large for a named terminal.
    sides: Optional[Tuple[int, int]] = field(default=None, repr=False)

    @property
    def is_portable(self) -> bool:
        return False

    @property
    def fix(self) -> str:
        """How to fix it. The first time the program is asked."""
        return explain(self.reason).fix

    def __str__(self) -> str:
        where = () if self.offset is None else (self.offset,)
        return " ".join(map(str, ("refused", self.reason, *where, *(self.sides or ()))))


Outcome = Union[Portable, Broken, Refused]


@dataclass(frozen=True)
class Survey:
    """Every broken rule of a picture."""

    #: What `check` says.
    outcome: Outcome
    #: In the order of the rules; none if the picture is portable or refused.
    findings: Tuple[Finding, ...]

    @property
    def is_portable(self) -> bool:
        return self.outcome.is_portable


@dataclass(frozen=True)
class Scanned:
    """A sixel string in other text."""

    #: Where it starts. This offset and the one of the outcome are counted from the start of the text.
    offset: int
    outcome: Outcome
    #: Whether it is wrapped for tmux or GNU Screen; RECIPES.md tells how to unwrap it.
    wrapped: bool = False

    def __str__(self) -> str:
        return f"{self.offset} {self.outcome}"


@dataclass(frozen=True)
class Event:
    """A command of a sixel string, or its start or end."""

    offset: int
    name: str
    numbers: Tuple[int, ...]
    #: Of a start or an end `7bit` or `8bit`, else empty.
    control: str = ""

    def __str__(self) -> str:
        return " ".join(map(str, (self.offset, self.name, *filter(None, [self.control]), *self.numbers)))


@dataclass(frozen=True)
class Listing:
    """The events of a sixel string, up to the first fault if there is one."""

    events: Tuple[Event, ...]
    refused: Optional[Refused]


@dataclass(frozen=True)
class Group:
    """Named terminals that show the same, or one whose model doesn't say what it shows."""

    terminals: Tuple[str, ...]
    #: From the second group on the first pixel that differs from the first group's.
    pixel: Optional[Pixel] = None
    #: The offset of the command at which the model doesn't say what the terminal does.
    unmodelled: Optional[int] = None

    def __str__(self) -> str:
        place = ("unmodelled", self.unmodelled) if self.unmodelled is not None else self.pixel or ()
        return " ".join(map(str, (*self.terminals, *place)))


@dataclass(frozen=True)
class Difference:
    """Which named terminals show a string differently."""

    groups: Tuple[Group, ...]
    #: The width and the height of the screens, if all four show the same.
    size: Optional[Tuple[int, int]] = None

    @property
    def is_same(self) -> bool:
        return self.size is not None

    def __str__(self) -> str:
        return "same {} {}".format(*self.size) if self.size else "\n".join(map(str, self.groups))


class NotPortable(SixelError):
    """A picture can't be rendered, because it is broken."""

    def __init__(self, outcome: Broken) -> None:
        super().__init__(outcome)
        self.outcome = outcome

    def __str__(self) -> str:
        return f"{self.outcome}: {self.outcome.message}"


class InputRefused(SixelError):
    """Nothing is written, because the input is refused."""

    def __init__(self, outcome: Refused, hint: str = "") -> None:
        super().__init__(outcome, hint)
        self.outcome = outcome
        #: What else the program says, such as how to make sixel text of a PNG.
        self.hint = hint

    def __str__(self) -> str:
        return f"{self.outcome}: {self.outcome.message}" + (f"\n{self.hint}" if self.hint else "")


def pixel_of(answer: Mapping[str, Any]) -> Optional[Pixel]:
    return (answer["x"], answer["y"]) if "x" in answer else None


def outcome_of(answer: Mapping[str, Any]) -> Outcome:
    """The outcome that an object of the program tells."""
    result = answer["result"]
    if result == "portable":
        return Portable(answer["width"], answer["height"])
    if result == "broken":
        return Broken(answer["rule"], answer["offset"], pixel_of(answer), answer["message"])
    if result == "refused" and answer["reason"] != "OutOfMemory":
        return Refused(answer["reason"], answer.get("offset"), answer["message"])
    raise ProgramDied(f"the program failed: {answer['reason']}: {answer['message']}")


def finding_of(answer: Mapping[str, Any]) -> Finding:
    return Finding(answer["rule"], answer["offset"], pixel_of(answer), answer["message"], answer["count"])


def refused_of(line: str) -> Refused:
    """The refusal of a line such as `FieldCount at 7`, or `Large 1200 800`, which has a width and a height."""
    named, _, offset = line.partition(" at ")
    reason, *sides = named.split(" ")
    if not reason.isalpha() or not all(side.isdigit() for side in sides):
        raise ProgramDied(f"the program failed: {line}")
    width_and_height = (int(sides[0]), int(sides[1])) if len(sides) == 2 else None
    return Refused(reason, int(offset) if offset else None, explain(reason).summary, width_and_height)


def moved(outcome: Outcome, distance: int) -> Outcome:
    """The outcome with its offset so many bytes further on."""
    if isinstance(outcome, Portable) or outcome.offset is None:
        return outcome
    return replace(outcome, offset=outcome.offset + distance)
