"""One running program that checks picture after picture."""

from __future__ import annotations

import json
import os
import re
import select
import subprocess
import threading
import time
from subprocess import PIPE
from types import TracebackType
from typing import Any, Dict, Optional, Tuple, Type

from . import _calls
from ._outcomes import Outcome, moved, outcome_of
from ._program import SECONDS, ProgramDied, ProgramHung, Source, bytes_of, ending, find_program, not_started

BLANKS = b"\t\n\r "
START = re.compile(rb"([\t\n\r ]*)\x1bP[0-9;]*q")
# A longer text may be too long for a check and not for a scan, which doesn't count the blanks around it.
MOST = 1 << 28
# How many seconds a program may take to end when its input has ended.
PATIENCE = 2


def start_of(text: bytes) -> Optional[int]:
    """Where the string of a text starts, if a scan finds just one that ends with the text but for blanks.

    Then the scan writes one line as soon as it has read the text.
    """
    found = START.match(text)
    if not found or len(text) > MOST:
        return None
    end = text.find(b"\x1b", found.end())
    if end < 0 or text[end + 1 : end + 2] != b"\\" or text[end + 2 :].strip(BLANKS):
        return None
    # A scan ends a string after these two.
    if text.find(b"\x18", found.end(), end) >= 0 or text.find(b"\x1a", found.end(), end) >= 0:
        return None
    return found.end(1)


class Scanner:
    """Checks one picture after another with one running program, much faster than calls of `check`.

    Use it in a `with` statement, or call `close`. Threads may share it. If the program dies or hangs, that is raised,
    and the next check starts a new one.
    """

    def __init__(self, *, wide: bool = False, timeout: Optional[float] = SECONDS) -> None:
        self._wide = wide
        self._timeout = timeout
        self._lock = threading.Lock()
        self._process: Optional[subprocess.Popen[bytes]] = None
        self._owner = 0
        # How many bytes the program was given.
        self._given = 0

    def check(self, source: Source) -> Outcome:
        """What `check` says of a picture.

        A scan finds where a picture starts and ends by itself. So the running program is given only what is one whole
        string, with blanks around it or not. Anything else has a program of its own.
        """
        text = bytes_of(source)
        start = start_of(text)
        if start is None:
            return _calls.check(text, wide=self._wide, timeout=self._timeout)
        with self._lock:
            try:
                before, answer = self._ask(text)
                if answer.get("string") != before + start:
                    outcome_of(answer)
                    raise ProgramDied("the program answered of another string")
                return moved(outcome_of(answer), -before)
            except BaseException:
                # What it may still answer belongs to no later picture.
                self._end(0)
                raise

    def close(self) -> None:
        """Ends the program."""
        with self._lock:
            self._end(PATIENCE)

    def __enter__(self) -> Scanner:
        return self

    def __exit__(
        self, kind: Optional[Type[BaseException]], fault: Optional[BaseException], trace: Optional[TracebackType]
    ) -> None:
        self.close()

    def _start(self) -> subprocess.Popen[bytes]:
        if self._process and self._owner != os.getpid():
            # A fork has copied it. The program belongs to the other process.
            self._process.returncode = 0
            self._end(0)
        if self._process:
            return self._process
        program = find_program()
        words = [program, "scan", "--json", "--quiet", *(["--wide"] if self._wide else [])]
        try:
            process = subprocess.Popen(words, bufsize=0, stdin=PIPE, stdout=PIPE, stderr=PIPE)
        except OSError as fault:
            raise not_started(program, fault) from fault
        assert process.stdin and process.stdout and process.stderr
        for stream in (process.stdin, process.stdout, process.stderr):
            os.set_blocking(stream.fileno(), False)
        self._answers, self._both = select.poll(), select.poll()
        self._answers.register(process.stdout, select.POLLIN)
        self._both.register(process.stdout, select.POLLIN)
        self._both.register(process.stdin, select.POLLOUT)
        self._owner, self._given, self._process = os.getpid(), 0, process
        return process

    def _ask(self, text: bytes) -> Tuple[int, Dict[str, Any]]:
        """Writes a text, and reads a line. Gives how many bytes were written before, and what the line says."""
        process = self._start()
        assert process.stdin and process.stdout
        source, sink = process.stdout.fileno(), process.stdin.fileno()
        limit = None if self._timeout is None else time.monotonic() + self._timeout
        before = self._given
        self._given += len(text)
        rest, line = memoryview(text), b""
        while True:
            try:
                rest = rest[os.write(sink, rest) :] if rest else rest
            except BlockingIOError:
                pass
            except BrokenPipeError:
                raise self._died(process) from None
            # It may be there before the blanks at the end are written.
            if not rest and line.endswith(b"\n"):
                break
            left = None if limit is None else max(0, int(1000 * (limit - time.monotonic())))
            ready = (self._both if rest else self._answers).poll(left)
            if not ready:
                raise ProgramHung(f"the program didn't answer within {self._timeout:g} seconds")
            if any(stream == source for stream, _ in ready):
                piece = os.read(source, 65536)
                if not piece:
                    raise self._died(process)
                line += piece
        answer: Dict[str, Any] = json.loads(line)
        return before, answer

    def _died(self, process: subprocess.Popen[bytes]) -> ProgramDied:
        try:
            status = process.wait(PATIENCE)
        except subprocess.TimeoutExpired:
            return ProgramDied("the program closed its streams")
        assert process.stderr
        said = process.stderr.read() or b""
        return ProgramDied(ending(status, said.decode(errors="replace")))

    def _end(self, patience: float) -> None:
        """Ends the program, after so many seconds by force."""
        process, self._process = self._process, None
        if process is None:
            return
        assert process.stdin and process.stdout and process.stderr
        process.stdin.close()
        try:
            if not patience:
                process.kill()
            process.wait(patience or None)
        except subprocess.TimeoutExpired:
            process.kill()
            process.wait()
        finally:
            process.stdout.close()
            process.stderr.close()
