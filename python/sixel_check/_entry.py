"""The part of a report for one string."""

from __future__ import annotations

import os
import re
from dataclasses import dataclass
from typing import Dict, List, Optional, Sequence, Union

from ._calls import TERMINALS
from ._commands import Command, printable
from ._inspect import Inspected, Mended, Options, Shown, Unread
from ._markup import Content, Markup, data_uri, element, listed, readable
from ._outcomes import Broken, Finding, Outcome, Pixel, Portable, Refused
from ._screens import screens_of

# How many bytes of a command are shown.
MOST_BYTES = 16
# Each verdict with its word and its sign, in the order in which they are counted.
VERDICTS = {
    "portable": ("Portable", "\N{CHECK MARK}"),
    "broken": ("Broken", "\N{MULTIPLICATION X}"),
    "refused": ("Refused", "!"),
    "unread": ("Not read", "?"),
}


@dataclass(frozen=True)
class Entry:
    """What the page has of one string, and what its summary needs."""

    number: int
    title: str
    verdict: str
    #: For each broken rule how often it is broken; or the reason of a refusal, once.
    counts: Dict[str, int]
    markup: Markup


def entry_of(number: int, inspected: Inspected, options: Options) -> Entry:
    """The part for the string of this number."""
    outcome, title, name = inspected.outcome, readable(inspected.name), f"string-{number}"
    verdict = verdict_of(outcome)
    parts = [
        element("h2", element("a", element("bdi", title), href=f"#{name}")),
        chip(verdict),
        element("p", *_verdict_words(outcome, options), class_="verdict"),
        element("p", element("code", str(outcome)), f", {amount(inspected.size, 'byte')}", class_="line"),
        *_screens(number, inspected, options),
        *_faults(inspected),
    ]
    if inspected.mended:
        parts.append(_mended(inspected.name, inspected.mended))
    markup = element("article", *parts, id=name, class_=f"entry {verdict}", data_result=verdict)
    return Entry(number, title, verdict, _counts(inspected), markup)


def verdict_of(outcome: Union[Outcome, Unread]) -> str:
    return {Portable: "portable", Broken: "broken", Refused: "refused", Unread: "unread"}[type(outcome)]


def chip(verdict: str) -> Markup:
    """A verdict as a small label."""
    word, sign = VERDICTS[verdict]
    return element("span", element("span", sign, aria_hidden="true"), f" {word}", class_=f"chip {verdict}")


def amount(count: int, what: str) -> str:
    return f"{count:,} {what}{'' if count == 1 else 's'}"


def _counts(inspected: Inspected) -> Dict[str, int]:
    if isinstance(inspected.outcome, Refused):
        return {inspected.outcome.reason: 1}
    return {finding.rule: finding.count for finding in inspected.findings}


def _sentence(words: str) -> str:
    """Words with a capital and a full stop."""
    return words[:1].upper() + words[1:] + ("" if words.endswith(".") else ".")


def _place(offset: Optional[int], pixel: Optional[Pixel] = None) -> str:
    where = "" if offset is None else f"at offset {offset}"
    return f"{where}, in column {pixel[0]}, row {pixel[1]}" if pixel else where


def _verdict_words(outcome: Union[Outcome, Unread], options: Options) -> List[Content]:
    if isinstance(outcome, Portable):
        named = f", and each of {listed(options.on)}," if options.on else ""
        return [f"Every terminal of the class{named} shows the same {outcome.width:,} by {outcome.height:,} pixels."]
    if isinstance(outcome, Unread):
        return [_sentence(outcome.reason)]
    if isinstance(outcome, Broken):
        place = _place(outcome.offset, outcome.pixel)
        return [_sentence(outcome.message), " The rule is ", element("code", outcome.rule), f", broken {place}."]
    place = "" if outcome.offset is None else f", {_place(outcome.offset)}"
    return [_sentence(outcome.message), " The reason is ", element("code", outcome.reason), f"{place}."]


def _refused(what: str, refused: Refused) -> Markup:
    return element("p", f"{what}: {refused.message} (", element("code", str(refused)), "). ", _sentence(refused.fix))


def _screens(number: int, inspected: Inspected, options: Options) -> List[Markup]:
    shown, outcome = inspected.shown, inspected.outcome
    parts = []
    no_screens = shown.pictures if isinstance(shown, Shown) else shown
    if isinstance(no_screens, Refused):
        parts.append(_refused("There are no screens", no_screens))
    if isinstance(shown, Shown):
        pixel = outcome.pixel if isinstance(outcome, Broken) else None
        parts.append(screens_of(f"screen-{number}", shown, pixel))
        if isinstance(outcome, Portable) and len(shown.groups) > 1 and len(options.on) < len(TERMINALS):
            words = "They may differ, though the string is portable: each is outside the class in something. "
            parts.append(element("p", words, element("code", "--on all"), " counts their rules, too.", class_="note"))
    return parts


def _faults(inspected: Inspected) -> List[Markup]:
    """Each broken rule, or the refusal, with its fix and the commands there. Only the first one is open."""
    outcome = inspected.outcome
    if isinstance(outcome, Refused):
        data: Dict[str, Union[str, int, None]] = {"data_reason": outcome.reason, "data_offset": outcome.offset}
        return [_fault(outcome, outcome.reason, _place(outcome.offset), data, inspected)]
    return [
        _fault(finding, finding.rule, _times(finding), _data_of(finding), inspected) for finding in inspected.findings
    ]


def _times(finding: Finding) -> str:
    often = "" if finding.count == 1 else f"{finding.count:,} times, first "
    return often + _place(finding.offset, finding.pixel)


def _data_of(finding: Finding) -> Dict[str, Union[str, int, None]]:
    column, row = finding.pixel or (None, None)
    numbers = {"data_count": finding.count, "data_offset": finding.offset, "data_x": column, "data_y": row}
    return {"data_rule": finding.rule, **numbers}


def _fault(
    fault: Union[Finding, Refused],
    name: str,
    times: str,
    data: Dict[str, Union[str, int, None]],
    inspected: Inspected,
) -> Markup:
    message = element("span", fault.message, class_="message")
    summary = element("summary", element("code", name), " ", message, " ", element("span", times, class_="times"))
    fix = [element("p", element("strong", "Fix:"), f" {fault.fix}", class_="fix")]
    if inspected.hint:
        # Commands are in backquotes.
        pieces = _sentence(inspected.hint).split("`")
        fix.append(element("p", *(element("code", it) if at % 2 else it for at, it in enumerate(pieces)), class_="fix"))
    commands = _commands(inspected.commands_at(fault.offset), fault.offset)
    is_first = fault in (inspected.outcome, *inspected.findings[:1])
    return element("details", summary, *fix, commands, class_="fault", open="" if is_first else None, **data)


def _commands(commands: Sequence[Command], offset: Optional[int]) -> Markup:
    if not commands:
        return Markup()
    titles = [element("th", title, scope="col") for title in ("Offset", "Command", "Bytes", "Hexadecimal")]
    table = element("table", element("thead", element("tr", *titles)), element("tbody", *map(_command, commands)))
    label = f"The commands around offset {offset}"
    return element("div", table, class_="commands", tabindex=0, role="region", aria_label=label)


def _command(command: Command) -> Markup:
    shown = command.piece[:MOST_BYTES]
    more = len(command.piece) - len(shown)
    rest = element("span", f" and {amount(more, 'byte')} more", class_="more") if more else ""
    cells = [
        element("th", command.offset, scope="row"),
        element("td", command.words),
        element("td", element("code", printable(shown, MOST_BYTES)), rest),
        element("td", element("code", shown.hex(" "))),
    ]
    return element("tr", *cells, class_="meant" if command.is_meant else None)


def _mended(name: str, mended: Union[Mended, Refused]) -> Markup:
    if isinstance(mended, Refused):
        return _refused("There is no mended string", mended)
    uri = data_uri("application/octet-stream", mended.text)
    link = element("a", "Download the mended string", class_="download", download=mended_name(name), href=uri)
    outcome = mended.outcome
    told = "" if isinstance(outcome, Portable) else f": still not portable, {outcome.message}"
    said = element("span", f"{amount(len(mended.text), 'byte')}, ", element("code", str(outcome)), told)
    return element("p", link, " ", said, class_="mended")


def mended_name(name: str) -> str:
    """A plain name for the file of a mended string."""
    stem = re.sub(r"[^A-Za-z0-9._-]+", "_", os.path.splitext(os.path.basename(name))[0]).lstrip("._-")
    return f"{stem or 'picture'}-mended.six"
