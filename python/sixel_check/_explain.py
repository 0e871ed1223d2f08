"""What rules and refusals mean, as the program explains them."""

from __future__ import annotations

import functools
from dataclasses import dataclass

from ._program import SECONDS, run


@dataclass(frozen=True)
class Explanation:
    """What a rule or a refusal means, and how to fix what breaks it."""

    name: str
    summary: str
    #: How to fix it, in one line.
    fix: str
    #: How common programs avoid it, in one line; empty if nothing is known.
    programs: str
    #: All that the program says.
    text: str


@functools.lru_cache(maxsize=None)
def explain(name: str) -> Explanation:
    """Explains a rule or a refusal by its name, in any case, or by a line of the program that has one."""
    text = run(["explain", "--", name], b"", SECONDS).output.decode()
    first, *others = [" ".join(part.split()) for part in text.split("\n\n")]
    exact, _, summary = first.partition(": ")

    def labelled(label: str) -> str:
        return "".join(part[len(label) :] for part in others if part.startswith(label))

    return Explanation(exact, summary, labelled("Fix: "), labelled("Programs: "), text)
