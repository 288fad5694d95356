"""What the tests of the front share: offices with their front servers, texts that somebody has approved, and a browser."""

import difflib
import itertools
import re
import sys
from collections.abc import Callable, Iterable, Iterator
from pathlib import Path
from typing import Any

import pytest

from acceptance import client
from acceptance.conftest import is_here, do_without
from acceptance.front import waits
from acceptance.front.asks import Asks
from acceptance.front.browser import Browser, Page
from acceptance.front.desk_state import DeskState
from acceptance.front.office import FRONT, SIGNED_IN, TOP, Office

SERVERS = ("nginx", "haproxy", "openssl", "readers")
APPROVED = TOP / "acceptance/front/approved"
SHOWN = 12  # lines of a difference
sys.path[:0] = [str(FRONT / name) for name in ("readers", "look", "my")]  # which may be those of a copy: FRONT_FILES


def pytest_configure(config: pytest.Config) -> None:
    """Takes over how much slower pages are to be, and how long anything is waited for."""
    waits.settings.slower, waits.settings.patience = config.getoption("--slower"), config.getoption("--patience")


@pytest.fixture(scope="session")
def stores() -> dict[Any, bytes]:
    """The stores of offices just after their imports: what has been imported once is copied."""
    return {}


@pytest.fixture(scope="module")
def new_office(program: client.Program, module_room: Path, stores: dict[Any, bytes]) -> Iterator[Callable[..., Office]]:
    """A function that makes an office with its front, running, in a folder of its own: `new_office()`; the words are those
    of `Office.create`, `kind` is its class, and `readers=True` begins the readers' service, or `readers=SELDOM` with these
    words of its command line, `tries=True` the one that looks at files. All are ended after the last test of the module."""
    for name in SERVERS:
        if not is_here(name):
            do_without(name)
    made: list[Office] = []
    numbers = itertools.count()

    def make(readers: bool | tuple[str, ...] = False, tries: bool = False, files: Iterable[tuple[str, Path]] = (),
             kind: type[Office] = Office, **how: Any) -> Office:
        """Makes one; `files`: sources with the files that are imported before it runs."""
        office, files = kind.create(program, module_room / f"office{next(numbers)}", **how), list(files)
        known = (kind, repr(how.get("settings")), *((source, path.read_bytes()) for source, path in files))
        if known in stores:
            office.store.write_bytes(stores[known])
        else:
            for source, path in files:
                office.import_file(source, path, timeout=10 * waits.settings.patience).expect_success()
            stores[known] = office.store.read_bytes()
        made.append(office.begin())
        if readers:
            office.serve_readers(*(readers if isinstance(readers, tuple) else ()))
        if tries:
            office.serve_tries()
        return office

    yield make
    for office in made:
        office.end()


@pytest.fixture(scope="module")
def office(new_office: Callable[..., Office]) -> Office:
    """An office that all tests of a module share. A module that wants another one has a fixture of this name."""
    return new_office(readers=True)


@pytest.fixture(scope="module")
def asks(office: Office) -> Asks:
    """Asks both sites of the module's office."""
    return Asks(office)


@pytest.fixture
def approved(request: pytest.FixtureRequest) -> Callable[[str, Iterable[str]], None]:
    """A function that compares lines with the file of this name in approved/, such as `readers/unit`, as somebody has read it.
    With --approve the lines become the file: read `git diff acceptance/front/approved` before a commit. What differs from run
    to run (ports, days, times) has to be put in one form before."""
    def same(name: str, lines: Iterable[str]) -> None:
        path, found = APPROVED / f"{name}.txt", [line.rstrip() for line in lines]
        if request.config.getoption("--approve"):
            path.parent.mkdir(parents=True, exist_ok=True)
            path.write_text("".join(f"{line}\n" for line in found), "utf-8")
        wanted = path.read_text("utf-8").splitlines() if path.exists() else []
        differs = list(difflib.unified_diff(wanted, found, "approved", "now", lineterm="", n=0))[2:]
        if differs or not found:
            lines = [one for line in differs[:SHOWN] for one in in_words(line, wanted, found)]
            told = "\n".join(lines) or "nothing was found"
            pytest.fail(f"approved/{name}.txt says otherwise (kept by --approve, if the new text is right):\n{told}", False)
    return same


def in_words(line: str, wanted: list[str], found: list[str]) -> list[str]:
    """A line of a difference, with the answer in which it stands; of one that says no more than `as 15` how answer 15 ends."""
    if place := re.match(r"@@ -(\d+)", line):
        return [" ".join([line, *[one for one in wanted[:int(place[1])] if one.startswith("=== ")][-1:]])]
    lines, named = wanted if line[0] == "-" else found, re.match(r".as (\d+)", line)
    begins = [at for at, one in enumerate(lines) if named and one.startswith(f"=== {named[1]}. ")]
    ends = [at for at, one in enumerate([*lines, "=== "]) if one.startswith("=== ") and begins and at > begins[0]]
    return [line, *(f"    {one}" for one in lines[begins[0] + 1:ends[0]][-2:])] if begins else [line]


@pytest.fixture(scope="session")
def browser(session_room: Path) -> Iterator[Browser]:
    if not is_here("chromium"):
        do_without("chromium")
    running = Browser(session_room / "profile")
    yield running
    running.end()


@pytest.fixture
def hall(browser: Browser, office: Office) -> Iterator[Page]:
    """A reader's tab: `hall.visit("/help")`."""
    with browser.tab(office.public) as page:
        yield page


@pytest.fixture
def desk(browser: Browser, office: Office) -> Iterator[Page]:
    """A tab of somebody of the staff, who is signed in: `desk.at("/counter")`."""
    with browser.tab(office.staff, SIGNED_IN) as page:
        yield page


@pytest.fixture
def state(asks: Asks) -> DeskState:
    """The readers, orders and descriptions of the module's office."""
    return DeskState(asks)


@pytest.fixture(scope="session")
def shot(request: pytest.FixtureRequest) -> Callable[..., None]:
    """A function that keeps a picture of a page under a name, if the option --shots names a folder."""
    folder = request.config.getoption("--shots")

    def keep(page: Page, name: str, full: bool = True, printed: bool = False) -> None:
        """Keeps what the page shows, what the window shows of it (full=False), or what would be printed."""
        if folder is None:
            return
        folder.mkdir(parents=True, exist_ok=True)
        if printed:
            page.pdf(folder / f"{name}.pdf")
        else:
            page.shot(folder / f"{name}.png", full)

    return keep
