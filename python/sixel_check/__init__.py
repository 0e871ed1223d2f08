"""Checks whether sixel pictures look the same on every terminal, draws them, and writes them.

Each call runs the program `sixel`, which comes with this package. docs/PYTHON.md shows how to use it.
"""

from ._calls import (
    TERMINALS,
    Names,
    check,
    differ,
    encode,
    events,
    mend,
    render,
    scan,
    sheet,
    show,
    survey,
)
from ._explain import Explanation, explain
from ._outcomes import (
    Broken,
    Difference,
    Event,
    Finding,
    Group,
    InputRefused,
    Listing,
    NotPortable,
    Outcome,
    Pixel,
    Portable,
    Refused,
    Scanned,
    Survey,
)
from ._picture import Picture
from ._program import ProgramDied, ProgramHung, ProgramMissing, SixelError, SixelWarning, Source
from ._scanner import Scanner

__all__ = [
    "TERMINALS",
    "Broken",
    "Difference",
    "Event",
    "Explanation",
    "Finding",
    "Group",
    "InputRefused",
    "Listing",
    "Names",
    "NotPortable",
    "Outcome",
    "Picture",
    "Pixel",
    "Portable",
    "ProgramDied",
    "ProgramHung",
    "ProgramMissing",
    "Refused",
    "Scanned",
    "Scanner",
    "SixelError",
    "SixelWarning",
    "Source",
    "Survey",
    "check",
    "differ",
    "encode",
    "events",
    "explain",
    "mend",
    "render",
    "scan",
    "sheet",
    "show",
    "survey",
]
