"""With ample memory nothing is out of memory, as far as the limits go. A file of 8,388,608 bytes has 20,000 rows, and each of
its units lies in five containers of its own, 100,000 in all. The finding aid of its top is computed here from the rules.

No contract names a cause of `Memory` or 503, so a program that gives up at some size would keep them all."""

import contextlib
import shutil
import sqlite3
from functools import cache
from pathlib import Path

import pytest

from acceptance import client
from acceptance.client import Ended, Office, Program, expect_end
from acceptance.reference_model.limits import LAST_ROW, LONGEST_BODY, MOST_CONTAINERS

SECONDS = 1200  # that a program without proof may take
UNITS, IN_EACH = LAST_ROW - 1, 5
VERSION_1 = Path(__file__).with_name("version1.db")
PREVIEW = ["preview", "--country", client.SETTINGS["country"], "--repo", client.SETTINGS["repo"]]


def boxes(unit):
    """The numbers of the containers of a unit. Names are in the order of the numbers."""
    return range(IN_EACH * (unit - 1) + 1, IN_EACH * unit + 1)


@cache
def file():
    """A top, and below it all other units; a column that is not read fills the file up."""
    lines = ["legacyId,parentId,identifier,title,publicationStatus,physicalObjectName,other"]
    for unit in range(1, UNITS + 1):
        held = "|".join(f"Box {box:06}" for box in boxes(unit))
        lines.append(f"{unit},{1 if unit > 1 else ''},I{unit},T{unit},Published,{held},")
    text = "\n".join(lines)
    return (text + "x" * (LONGEST_BODY - len(text) - 1) + "\n").encode()


def held(unit, margin):
    return "".join(f"{margin}  Container {box}: Box {box:06}\n" for box in boxes(unit))


@cache
def aid():
    lines = ["GB 0999 I1 [-] T1\n", held(1, "")]
    lines += [f"  GB 0999 I1/I{unit} [-] T{unit}\n{held(unit, '  ')}" for unit in range(2, UNITS + 1)]
    return "".join(lines).encode()


def page(unit):
    return f"GB 0999 I1/I{unit} [-] T{unit}\n{held(unit, '')}".encode()


def imported():
    """The reply to the import. Of units that lack elements, tops alone get a remark."""
    told = f'{{"changed":0,"new":{UNITS},"remarks":[{{"kind":2,"row":2}}],"same":0,"translations":0}}'
    return client.reply(200, told.encode(), client.JSON)


QUESTIONS = [client.get("/public/aid/1"), client.get(f"/public/units/{UNITS}")]


def answers():
    return client.reply(200, aid(), client.TEXT) + client.reply(200, page(UNITS), client.TEXT)


def test_the_file_has_as_many_containers_as_there_may_be() -> None:
    assert boxes(UNITS)[-1] == MOST_CONTAINERS


def test_preview(program: Program) -> None:
    expect_end(program.run(*PREVIEW, said=file(), timeout=SECONDS), Ended(0, aid(), b""), "the preview")


def test_import_of_the_largest_body(program: Program, room: Path) -> None:
    office = Office.create(program, room / "body.db")
    expect_end(office.talk(client.post("/desk/import/a", file()), timeout=SECONDS), Ended(0, imported(), b""), "the import")


@pytest.fixture(scope="module")
def filled(program: Program, module_room: Path) -> Office:
    """An office with all units of the file."""
    (module_room / "units.csv").write_bytes(file())
    office = Office.create(program, module_room / "filled.db")
    office.import_file("a", module_room / "units.csv", timeout=SECONDS).expect_success()
    return office


def test_aid_and_page(filled: Office) -> None:
    expect_end(filled.talk(*QUESTIONS, timeout=SECONDS), Ended(0, answers(), b""), "the aid and a page")


def test_migrate(filled: Office, room: Path) -> None:
    """An office of version 1, which has links where the filled one has nested sets."""
    office = Office(filled.program, room / "old.db")
    shutil.copyfile(filled.store, office.store)
    with contextlib.closing(sqlite3.connect(office.store)) as store, contextlib.closing(sqlite3.connect(VERSION_1)) as old:
        store.execute("DROP TABLE span")
        for (text,) in old.execute("SELECT sql FROM sqlite_schema WHERE tbl_name = 'link' ORDER BY rowid"):
            store.execute(text)
        store.execute("INSERT INTO link SELECT id, iif(id > 1, 1, NULL), max(id - 1, 1) FROM unit")
        store.execute("UPDATE office SET version = 1")
        store.commit()
    assert office.check(timeout=SECONDS) == Ended(1, b"old version\n", b"")
    assert office.perform("migrate", timeout=SECONDS) == Ended(0, b"migrated\n", b"")
    assert office.check(timeout=SECONDS) == client.SOUND
    expect_end(office.talk(*QUESTIONS, timeout=SECONDS), Ended(0, answers(), b""), "the aid and a page once it is migrated")


def test_all_of_it_in_memory(program: Program) -> None:
    ended = program.trial(client.post("/desk/import/a", file()) + b"".join(QUESTIONS), timeout=SECONDS)
    expect_end(ended, Ended(0, imported() + answers(), b""), "import, aid and page")
