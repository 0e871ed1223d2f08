"""The command `sixel-report`, which writes a page on what terminals show of strings."""

from __future__ import annotations

import argparse
import concurrent.futures.process
import contextlib
import ctypes
import multiprocessing
import os
import secrets
import signal
import stat
import sys
import warnings
from typing import Callable, Iterator, List, NoReturn, Optional, Sequence, Union

from . import _calls
from ._calls import TERMINALS
from ._entry import Entry, entry_of
from ._inspect import MOST, Options, inspect
from ._markup import readable
from ._page import BEGINNING, heading_of, page_of
from ._program import SECONDS, SixelError, SixelWarning, run

NAME = "sixel-report"
# The exit statuses are those of `sixel check`.
STATUSES = {"portable": 0, "broken": 1, "refused": 2, "unread": 2}
FAILED, USAGE, INTERRUPTED = 2, 3, 130
# Of prctl(2): the signal that a process gets when its parent ends.
PR_SET_PDEATHSIG = 1

EPILOG = """\
The exit status is 0 if all strings are portable, 1 if one breaks a rule, 2 if one is refused or can't be read or the
report can't be written, and 3 for a usage error; the highest counts.
"""


class Parser(argparse.ArgumentParser):
    """Ends with the status of the program's usage errors."""

    def error(self, message: str) -> NoReturn:
        self.exit(USAGE, f"{NAME}: {message}\n{self.format_usage()}")


def parser() -> Parser:
    made = Parser(
        prog=NAME,
        description="Writes a page on sixel strings: what terminals show of each, and how to fix what isn't portable.",
        epilog=EPILOG,
        allow_abbrev=False,
    )
    made.add_argument("files", nargs="+", metavar="FILE", help="a file with one sixel string; - for standard input")
    made.add_argument("-o", "--output", required=True, metavar="REPORT", help="the page to write, such as report.html")
    made.add_argument(
        "--on",
        default="all",
        metavar="NAMES",
        help=f"count the rules of these terminals, too: some of {','.join(TERMINALS)}; all, if left out; or none",
    )
    made.add_argument("--wide", action="store_true", help="allow 256 colour registers instead of 16")
    made.add_argument(
        "--background",
        default="100,100,100",
        metavar="COLOUR",
        help="what is behind a picture, on screens and in mended strings: 100,50,0 or #ff8000; white if left out",
    )
    made.add_argument("-q", "--quiet", action="store_true", help="show no progress, and no last line")
    return made


def main(words: Optional[Sequence[str]] = None) -> int:
    """Runs the command, by default with the words of the command line, and gives its exit status."""
    asking = parser()
    asked = asking.parse_args(words)
    options = Options(names_of(asked.on), asked.wide, asked.background)
    try:
        fault = fault_of(asked.output, asked.files) or fault_of_options(asked.on, asked.background)
        if fault:
            asking.error(fault)
        with progress(len(asked.files), not asked.quiet) as tell:
            entries = entries_of(asked.files, options, tell)
        version = run(["--version"], b"", SECONDS).output.decode().split()[-1]
        page = page_of(entries, options, version).encode()
    except concurrent.futures.process.BrokenProcessPool:
        return failed("a process of the report was killed; memory may have run out")
    except (SixelError, OSError, MemoryError) as failure:
        return failed(str(failure) or "out of memory")
    except KeyboardInterrupt:
        return INTERRUPTED
    try:
        write(asked.output, page)
    except OSError as failure:
        return failed(f"{readable(asked.output)}: write failed: {failure.strerror}")
    except KeyboardInterrupt:
        return INTERRUPTED
    if not asked.quiet:
        say(f"wrote {readable(asked.output)}: {heading_of(entries)}")
    return max(STATUSES[entry.verdict] for entry in entries)


def say(words: str) -> None:
    print(f"{NAME}: {words}", file=sys.stderr)


def failed(words: str) -> int:
    say(words)
    return FAILED


def names_of(on: str) -> "tuple[str, ...]":
    """The terminals that `--on` names, in their order."""
    names = {"all": ",".join(TERMINALS), "none": ""}.get(on, on).split(",")
    return tuple(name for name in TERMINALS if name in names)


def fault_of(output: str, files: Sequence[str]) -> str:
    """What is wrong with the names of the files, or nothing."""
    target = os.path.realpath(output)
    if files.count("-") > 1:
        return "standard input is named twice"
    if os.path.isdir(target):
        return f"the report {readable(output)} is a folder"
    if not os.path.isdir(os.path.dirname(target)):
        return f"no such folder: {readable(os.path.dirname(target))}"
    with contextlib.suppress(OSError):
        if os.path.isfile(target) and os.path.getsize(target):
            with open(target, "rb") as old:
                if old.read(len(BEGINNING)) != BEGINNING.encode():
                    return f"{readable(output)} is no report; it isn't overwritten"
    return ""


def fault_of_options(on: str, background: str) -> str:
    """What the program says is wrong with two options, or nothing."""
    try:
        _calls.check(b"", on="" if on == "none" else on)
        _calls.differ(b"", background=background)
    except ValueError as fault:
        return str(fault)
    return ""


@contextlib.contextmanager
def progress(whole: int, is_wanted: bool) -> Iterator[Callable[[int], None]]:
    """Gives what tells how many are done. It tells only a terminal, and clears its line at the end."""
    is_shown = is_wanted and whole > 1 and sys.stderr.isatty()

    def tell(done: int) -> None:
        if is_shown:
            sys.stderr.write(f"\r{NAME}: {done} of {whole}")
            sys.stderr.flush()

    tell(0)
    try:
        yield tell
    finally:
        if is_shown:
            sys.stderr.write("\r\033[K")
            sys.stderr.flush()


def entries_of(files: Sequence[str], options: Options, tell: Callable[[int], None]) -> List[Entry]:
    """The part of each file, in their order. As many are made side by side as there are processors."""
    count = min(len(files), len(os.sched_getaffinity(0)))
    with concurrent.futures.ProcessPoolExecutor(count, multiprocessing.get_context("fork"), prepare) as pool:
        try:
            tasks = [pool.submit(entry, number, *named(name), options) for number, name in enumerate(files, 1)]
            for done, _ in enumerate(concurrent.futures.as_completed(tasks), 1):
                tell(done)
            return [task.result() for task in tasks]
        except BaseException:
            pool.shutdown(wait=False, cancel_futures=True)
            raise


def prepare() -> None:
    """In a process of the pool: an interrupt is for its parent, and it ends with that, also if that is killed."""
    signal.signal(signal.SIGINT, signal.SIG_IGN)
    ctypes.CDLL(None).prctl(PR_SET_PDEATHSIG, signal.SIGKILL)
    # The notes of the program on mended strings.
    warnings.simplefilter("ignore", SixelWarning)


def entry(number: int, name: str, source: Union[bytes, str], options: Options) -> Entry:
    return entry_of(number, inspect(name, source, options), options)


def named(name: str) -> "tuple[str, bytes | str]":
    """The name that is shown, and what is read."""
    if name != "-":
        return name, name
    if sys.stdin.isatty():
        say("waiting for sixel text on standard input")
    return "standard input", sys.stdin.buffer.read(MOST + 1)


def write(output: str, page: bytes) -> None:
    """Writes a file whole or not at all: an old one stays until the new one is there."""
    if os.path.exists(output) and not os.path.isfile(output):
        # Such as a pipe, which nothing can take the place of.
        with open(output, "wb") as stream:
            stream.write(page)
        return
    target = os.path.realpath(output)
    new = os.path.join(os.path.dirname(target), f".{NAME}-{secrets.token_hex(6)}")
    try:
        with open(new, "xb") as file:
            file.write(page)
            file.flush()
            os.fsync(file.fileno())
        if os.path.exists(target):
            os.chmod(new, stat.S_IMODE(os.stat(target).st_mode))
        os.replace(new, target)
    except BaseException:
        with contextlib.suppress(OSError):
            os.unlink(new)
        raise
