"""The plugin of pytest, which loads it where this package is installed."""

from __future__ import annotations

from pathlib import Path
from typing import Iterator

import pytest

from . import testing
from .testing import Pictures, assert_portable, assert_same_picture

__all__ = ["assert_portable", "assert_same_picture", "sixel_pictures"]


def pytest_addoption(parser: pytest.Parser) -> None:
    group = parser.getgroup("sixel", "sixel pictures")
    group.addoption(
        "--sixel-pictures",
        metavar="FOLDER",
        help="where failures put what terminals show, one folder a test (without it pytest's temporary folder)",
    )


@pytest.fixture(scope="session", autouse=True)
def _sixel_folder(request: pytest.FixtureRequest) -> Iterator[None]:
    """Sets where failures put pictures."""
    before = testing.kept_folder, testing.new_folder
    named = request.config.getoption("--sixel-pictures")
    testing.kept_folder = Path(named).absolute() if named else None
    # It may be turned off.
    if request.config.pluginmanager.hasplugin("tmpdir"):
        temporary: pytest.TempPathFactory = request.getfixturevalue("tmp_path_factory")
        testing.new_folder = lambda: temporary.mktemp("sixel")
    yield
    testing.kept_folder, testing.new_folder = before


@pytest.fixture
def sixel_pictures() -> Pictures:
    """Collects pictures by `add(data, name)`. The test fails at its end if one of them isn't portable."""
    return Pictures()


@pytest.hookimpl(trylast=True)
def pytest_runtest_call(item: pytest.Item) -> None:
    """After the test, if it passed, fails it for what was collected."""
    pictures = getattr(item, "funcargs", {}).get("sixel_pictures")
    if isinstance(pictures, Pictures):
        try:
            pictures.verify()
        except AssertionError as fault:
            # A trace would show only this plugin.
            pytest.fail(str(fault), pytrace=False)
