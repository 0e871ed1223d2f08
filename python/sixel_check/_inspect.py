"""What a report says of one string."""

from __future__ import annotations

from dataclasses import dataclass, field
from typing import Mapping, Optional, Sequence, Tuple, Union

from . import _calls
from ._calls import TERMINALS
from ._commands import Command, commands_around
from ._outcomes import Broken, Difference, Finding, Group, InputRefused, Outcome, Portable, Refused
from ._picture import Picture
from ._program import SECONDS, ProgramMissing, SixelError, run

# The program refuses a string of more bytes, so no more are read.
MOST = 1 << 28


@dataclass(frozen=True)
class Options:
    """How strings are checked, and on which background they are shown and mended."""

    on: Tuple[str, ...] = TERMINALS
    wide: bool = False
    background: str = "100,100,100"


@dataclass(frozen=True)
class Unread:
    """A file that couldn't be read, or a string that the program gave no answer on."""

    reason: str

    def __str__(self) -> str:
        return f"unread: {self.reason}"


@dataclass(frozen=True)
class Shown:
    """What the four terminals show: which of them the same, and the screen of each, in the order of `TERMINALS`.

    There are no screens if a colour isn't one of red, green and blue.
    """

    groups: Tuple[Group, ...]
    pictures: Union[Tuple[Picture, ...], Refused]


@dataclass(frozen=True)
class Mended:
    """A string that `mend` wrote, and what a check says of it."""

    text: bytes
    outcome: Outcome


@dataclass(frozen=True)
class Inspected:
    """A string with all that a report says of it."""

    name: str
    #: How many bytes it has.
    size: int
    outcome: Union[Outcome, Unread]
    #: The broken rules, that of the outcome first.
    findings: Tuple[Finding, ...] = ()
    #: The commands at and around each offset of the outcome and the findings.
    commands: Mapping[int, Sequence[Command]] = field(default_factory=dict)
    #: For a refused one what the program says besides, such as how to make sixel text of a PNG; or empty.
    hint: str = ""
    #: None if the string is refused. It may be refused only here, such as one that paints nothing.
    shown: Union[Shown, Refused, None] = None
    #: For a broken one. It may be refused.
    mended: Union[Mended, Refused, None] = None

    def commands_at(self, offset: Optional[int]) -> Sequence[Command]:
        return () if offset is None else self.commands.get(offset, ())


def inspect(name: str, source: Union[bytes, str], options: Options) -> Inspected:
    """Inspects bytes, or the file of a path. Only a missing program is raised."""
    text = b""
    try:
        text = source if isinstance(source, bytes) else _read(source)
        return _inspect(name, text, options)
    except ProgramMissing:
        raise
    except (SixelError, OSError) as fault:
        return Inspected(name, len(text), Unread(reason_of(fault)))


def reason_of(fault: Exception) -> str:
    """Why a file couldn't be read, as the program says it."""
    known = {FileNotFoundError: "no such file", PermissionError: "permission denied", IsADirectoryError: "is a folder"}
    return known.get(type(fault), "read failed") if isinstance(fault, OSError) else str(fault)


def _read(path: str) -> bytes:
    with open(path, "rb") as file:
        return file.read(MOST + 1)


def _inspect(name: str, text: bytes, options: Options) -> Inspected:
    survey = _calls.survey(text, on=options.on, wide=options.wide)
    outcome = survey.outcome
    if isinstance(outcome, Portable):
        return Inspected(name, len(text), outcome, shown=_shown(text, options))
    findings = tuple(sorted(survey.findings, key=lambda finding: (not _is_of(finding, outcome), finding.offset)))
    offsets = {outcome.offset, *(finding.offset for finding in findings)}
    listing = run(["list"], text, SECONDS)
    commands = {offset: commands_around(text, listing.output, offset) for offset in offsets if offset is not None}
    if isinstance(outcome, Refused):
        return Inspected(name, len(text), outcome, commands=commands, hint=" ".join(listing.lines[1:]))
    shown, mended = _shown(text, options), _mended(text, options)
    return Inspected(name, len(text), outcome, findings, commands, shown=shown, mended=mended)


def _is_of(finding: Finding, outcome: Outcome) -> bool:
    return isinstance(outcome, Broken) and finding.rule == outcome.rule


def _shown(text: bytes, options: Options) -> Union[Shown, Refused]:
    difference = _calls.differ(text, background=options.background)
    if isinstance(difference, Refused):
        return difference
    try:
        return Shown(difference.groups, _pictures(text, difference, options.background))
    except InputRefused as refusal:
        return Shown(difference.groups, refusal.outcome)


def _pictures(text: bytes, difference: Difference, background: str) -> Tuple[Picture, ...]:
    if not difference.size:
        return tuple(_calls.screens_of(_calls.sheet(text, background=background)))
    # One screen is drawn sooner than four.
    width, height = difference.size
    return (_calls.show(text, on=TERMINALS[0], background=background, width=width, height=height),) * len(TERMINALS)


def _mended(text: bytes, options: Options) -> Union[Mended, Refused]:
    try:
        mended = _calls.mend(text, wide=options.wide, background=options.background)
    except InputRefused as refusal:
        return refusal.outcome
    return Mended(mended, _calls.check(mended, on=options.on, wide=options.wide))
