"""What the tests share: strings, stand-ins for the program, and what tests/run makes of rows."""

import contextlib
import importlib.machinery
import importlib.util
import os
import pathlib
import tempfile
import unittest.mock

ROOT = pathlib.Path(__file__).resolve().parent.parent.parent

# A black pixel, and a box of two pixels of which one is painted.
PIXEL = b'\x1bPq"1;1;1;1#0;2;0;0;0#0@\x1b\\'
UNCOVERED = b'\x1bPq"1;1;2;1#0;2;0;0;0#0@\x1b\\'
# On all terminals the same: red, six pixels high.
RED = b'\x1bPq"1;1;1;6#0;2;100;0;0#0~\x1b\\'
# foot paints it black, and other terminals red.
PEN = b'\x1bPq"1;1;1;6#1#1;2;100;0;0~\x1b\\'
WIDE = b'\x1bPq"1;1;2;1#16;2;0;0;0#16!2@\x1b\\'


def load_script(name, path):
    """A script as a module."""
    loader = importlib.machinery.SourceFileLoader(name, str(path))
    module = importlib.util.module_from_spec(importlib.util.spec_from_loader(name, loader))
    loader.exec_module(module)
    return module


# It reads the files of rows, and makes the files that rows name.
test_command = load_script("test_command", ROOT / "tests/run")


@contextlib.contextmanager
def stand_in(text):
    """In place of the program there is a shell script."""
    with tempfile.TemporaryDirectory() as folder:
        path = pathlib.Path(folder) / "sixel"
        path.write_text(f"#!/bin/sh\n{text}\n")
        path.chmod(0o755)
        with program(path):
            yield


def program(path):
    """In place of the program there is this path."""
    return unittest.mock.patch.dict(os.environ, SIXEL_PROGRAM=str(path))


def open_files():
    return len(os.listdir("/proc/self/fd"))


def has_children():
    """Whether this process has a child that runs, or one that nobody waited for."""
    try:
        os.waitid(os.P_ALL, 0, os.WEXITED | os.WNOHANG | os.WNOWAIT)
    except ChildProcessError:
        return False
    return True
