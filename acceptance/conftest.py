"""What all tests share: the built program, folders for stores, and what a test does without on this machine.

    pytest acceptance [--program PROGRAM] [-n WORKERS] [-k WORDS] [-m "not slow"]

A test says by `@pytest.mark.needs("nginx", "chromium")` what it cannot do without. Where that is missing, it is skipped
and says so; in CI (the variable CI is set) it fails."""

import os
import shutil
import tempfile
from collections.abc import Iterator
from pathlib import Path

import pytest

from acceptance import client

MODULES = {"readers": ("babel", "jinja2", "snowballstemmer", "waitress")}  # what the readers' service needs of Python


def pytest_addoption(parser: pytest.Parser) -> None:
    group = parser.getgroup("record_office")
    group.addoption("--program", type=Path, default=client.BUILT, help="the built program; else that of `rt ci`")
    group.addoption("--thorough", action="store_true", help="plays also what takes many minutes and seldom finds something")
    group.addoption("--shots", type=Path, help="a folder that gets pictures of the pages; else none are kept")
    group.addoption("--slower", type=float, default=1, help="makes pages so many times slower")
    group.addoption("--patience", type=float, default=60, help="seconds that anything is waited for, where a machine is slow")
    group.addoption("--steps", type=int, help="so many random questions in place of what a test has")
    group.addoption("--seed", type=int, help="where random questions begin")
    group.addoption("--approve", action="store_true", help="keep what is compared with acceptance/front/approved as approved")


def pytest_configure(config: pytest.Config) -> None:
    """With -n, one worker plays all tests of a file, which share an office."""
    if getattr(config.option, "dist", "no") == "load":
        config.option.dist = "loadfile"


def pytest_collection_modifyitems(config: pytest.Config, items: list[pytest.Item]) -> None:
    """Leaves out what only --thorough plays."""
    if not config.getoption("--thorough"):
        left_out = [it for it in items if it.get_closest_marker("thorough")]
        items[:] = [it for it in items if it not in left_out]
        config.hook.pytest_deselected(items=left_out)


def is_here(name: str) -> bool:
    """Whether this machine has a program, or the modules of Python that go by this name."""
    if name in MODULES:
        return all(shutil.which("python3") and _has_module(module) for module in MODULES[name])
    return shutil.which(name, path=os.environ["PATH"] + ":/usr/sbin:/usr/local/sbin") is not None


def _has_module(name: str) -> bool:
    import importlib.util
    return importlib.util.find_spec(name) is not None


def do_without(what: str) -> None:
    """Ends a test that lacks something: in CI it fails, elsewhere it is skipped."""
    if os.environ.get("CI"):
        pytest.fail(f"{what} is not here", pytrace=False)
    pytest.skip(f"{what} is not here")


def pytest_runtest_setup(item: pytest.Item) -> None:
    """Ends a test whose needs are not met."""
    for mark in item.iter_markers("needs"):
        for name in mark.args:
            if not is_here(name):
                do_without(name)


@pytest.fixture(scope="session")
def program(request: pytest.FixtureRequest) -> client.Program:
    path = request.config.getoption("--program")
    if not path.exists():
        do_without(f"the program {path} (`rt ci` builds it)")
    return client.Program(path)


def _folder() -> Iterator[Path]:
    """A new folder, where no sync waits for a disk if the machine has such a place; it is removed afterwards."""
    with tempfile.TemporaryDirectory(dir=client.usual_room(True)) as folder:
        yield Path(folder)


room = pytest.fixture(_folder, name="room")
module_room = pytest.fixture(_folder, scope="module", name="module_room")
session_room = pytest.fixture(_folder, scope="session", name="session_room")
