"""The program: where it is, one run of it, and how a run can fail."""

from __future__ import annotations

import json
import os
import signal
import subprocess
import sysconfig
import warnings
from pathlib import Path
from typing import Any, BinaryIO, Dict, List, NamedTuple, Optional, Sequence, Union

Source = Union[bytes, bytearray, memoryview, str, "os.PathLike[str]", BinaryIO]
"""What is read: bytes, the path of a file, or a file that was opened in binary mode."""

SECONDS = 60.0
"""How long a call waits for the program, unless it says otherwise."""


class SixelError(Exception):
    """What this package raises of its own."""


class ProgramMissing(SixelError):
    """The program isn't there, or can't be started on this machine."""


class ProgramDied(SixelError):
    """The program ended without an answer: a signal ended it, or memory or a read failed."""


class ProgramHung(SixelError):
    """The program didn't answer in time. It was killed."""


class SixelWarning(UserWarning):
    """A note of the program on what it did, such as that a mended picture has pixels in the background's colour."""


class Ended(NamedTuple):
    """How a run ended: its exit status, and what it wrote to both streams."""

    status: int
    output: bytes
    said: str

    @property
    def lines(self) -> List[str]:
        """The lines on standard error, without the program's name."""
        return [line[len("sixel: ") :] if line.startswith("sixel: ") else line for line in self.said.splitlines()]

    @property
    def reason(self) -> str:
        """The first of these lines, why nothing was done."""
        if not self.lines:
            raise ProgramDied(ending(self.status))
        return self.lines[0]

    @property
    def objects(self) -> List[Dict[str, Any]]:
        """The JSON lines on standard output."""
        try:
            found: List[Dict[str, Any]] = [json.loads(line) for line in self.output.splitlines()]
        except ValueError:
            found = []
        if not found:
            raise ProgramDied(f"{ending(self.status, self.said)}, and answered nothing that the program sixel does")
        return found


def find_program() -> str:
    """The program of the variable SIXEL_PROGRAM, or else the one that was installed with this package."""
    named = os.environ.get("SIXEL_PROGRAM")
    if named:
        return named
    here = Path(__file__).resolve().parent
    # PREFIX/lib/pythonX.Y/site-packages/sixel_check, what `pip install --target` makes, and any other layout.
    tops = [*list(here.parents)[3:4], here.parent]
    folders = [*(top / "bin" for top in tops), Path(sysconfig.get_path("scripts"))]
    for folder in folders:
        if os.access(folder / "sixel", os.X_OK):
            return str(folder / "sixel")
    looked = ", ".join(str(folder) for folder in folders)
    raise ProgramMissing(f"the program sixel is missing: it is neither in {looked}, nor named by SIXEL_PROGRAM")


def not_started(program: str, fault: OSError) -> ProgramMissing:
    return ProgramMissing(f"the program {program} can't be started: {fault.strerror or fault}")


def ending(status: int, said: str = "") -> str:
    """What a run died of, in words."""
    try:
        how = f"was ended by {signal.Signals(-status).name}" if status < 0 else f"ended with status {status}"
    except ValueError:
        how = f"was ended by signal {-status}"
    first = said.strip().splitlines()
    return f"the program {how}" + (f": {first[0]}" if first else "")


def bytes_of(source: Source) -> bytes:
    """All bytes of a source."""
    if isinstance(source, (str, os.PathLike)):
        return Path(source).read_bytes()
    if isinstance(source, (bytes, bytearray, memoryview)):
        return bytes(source)
    if hasattr(source, "read"):
        text = source.read()
        if isinstance(text, bytes):
            return text
        raise TypeError("the file isn't opened in binary mode, as by open(path, 'rb')")
    raise TypeError(f"bytes, a path or a binary file is expected, and not {type(source).__name__}")


def run(words: Sequence[str], source: Source, timeout: Optional[float]) -> Ended:
    """One run of the program. A path is opened here, so that any name will do."""
    if isinstance(source, (str, os.PathLike)):
        with open(source, "rb", buffering=0) as file:
            return _run(words, timeout, stdin=file)
    return _run(words, timeout, input=bytes_of(source))


def _run(words: Sequence[str], timeout: Optional[float], **source: Any) -> Ended:
    program = find_program()
    try:
        ended = subprocess.run([program, *words], capture_output=True, timeout=timeout, **source)
    except subprocess.TimeoutExpired as fault:
        raise ProgramHung(f"the program didn't answer within {timeout:g} seconds") from fault
    except OSError as fault:
        raise not_started(program, fault) from fault
    said = ended.stderr.decode(errors="replace")
    if ended.returncode == 3:
        # A usage error: what the caller passed on is wrong.
        raise ValueError(Ended(3, b"", said).reason)
    if ended.returncode not in (0, 1, 2):
        raise ProgramDied(ending(ended.returncode, said))
    return Ended(ended.returncode, ended.stdout, said)


def warn(ended: Ended, depth: int) -> None:
    """Passes on the notes of a task that was done, as warnings of the caller so many calls above."""
    for line in ended.lines:
        warnings.warn(line, SixelWarning, stacklevel=depth + 2)
