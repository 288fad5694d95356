"""Offices that SQLite's own tool has written again: by VACUUM, VACUUM INTO, .dump into a new file, .backup and REINDEX.

ANALYZE adds the table sqlite_stat1, which no office has: that is a `store fault` until it is dropped."""

import shutil
import subprocess
from pathlib import Path

import pytest

from acceptance import client
from acceptance.client import SOUND, Ended, Office, Program, get, post

pytestmark = pytest.mark.needs("sqlite3")
VERSION_1 = Path(__file__).resolve().parent / "version1.db"
MIGRATED = Ended(0, b"migrated\n", b"")
STORE_FAULT = Ended(3, b"", b"store fault\n")
HEADER = "legacyId,parentId,identifier,title,publicationStatus,physicalObjectName\n"
FIRST = HEADER + (
    "1,,A,Docks,Published,Box 1\n2,1,1,Minutes,Published,Box 2\n3,,C,Maps,Published,Box 2\n"
    "4,3,1,Plans,Published,Box 3\n6,,F,Letters,Published,Box 4\n"
)
SECOND = HEADER + "3,,C,Maps and charts,Published,Box 3\n5,,E,Ledgers,Published,Box 1|Box 6\n"
PATHS = ["/public/fonds", "/public/aid/5", "/public/units/1", "/desk/readers/1", "/desk/queue/1", "/desk/issued"]
ASKED = [
    *map(get, PATHS),
    post("/desk/register", '{"name":"Cid","until":"2024-12-31"}'),
    post("/public/orders", '{"ticket":2,"container":2}'),
]


def sqlite3(store, *statements):
    """What SQLite's own tool prints when it performs statements on a store; raises CalledProcessError if it fails."""
    return subprocess.run(["sqlite3", store, *statements], check=True, capture_output=True).stdout


def dump(old, new):
    """Writes a store as SQL, and reads that into a new one."""
    subprocess.run(["sqlite3", new], input=sqlite3(old, ".dump"), check=True)


def copy_and(statement):
    """A way to write a file again: a statement on a copy of it."""

    def way(old, new):
        shutil.copyfile(old, new)
        sqlite3(new, statement)

    return way


# the ways to write a file again: each makes a new one from an old one
WAYS = {
    "vacuum": copy_and("VACUUM"),
    "vacuum into": lambda old, new: sqlite3(old, f"VACUUM INTO '{new}'"),
    "dump": dump,
    "backup": lambda old, new: sqlite3(old, f".backup '{new}'"),
    "reindex": copy_and("REINDEX"),
}


def contents_of(store):
    """The schema and the rows of a file, in the order of the schema."""
    return sqlite3(store, ".dump"), sqlite3(store, "SELECT type, name, tbl_name, sql FROM sqlite_schema ORDER BY rowid")


@pytest.fixture(scope="module")
def migrated(program: Program, module_room: Path) -> Office:
    """An office with rows in each table: the kept one of version 1, migrated."""
    office = Office(program, module_room / "migrated.db")
    shutil.copyfile(VERSION_1, office.store)
    assert office.perform("migrate") == MIGRATED
    assert office.check() == SOUND
    return office


@pytest.fixture(scope="module")
def new(program: Program, module_room: Path) -> Office:
    """A new office with units in boxes and one reader."""
    office, file = Office.create(program, module_room / "new.db"), module_room / "first.csv"
    file.write_text(FIRST)
    assert office.import_file("a", file).expect_success().startswith(b'{"changed":0,"new":5')
    office.talk(post("/desk/register", '{"name":"Ann","until":"2024-12-31"}')).expect_success()
    assert office.check() == SOUND
    return office


@pytest.fixture
def second(room: Path) -> Path:
    """A file with a unit that has changed, and a new one."""
    (room / "second.csv").write_text(SECOND)
    return room / "second.csv"


def use(office: Office, second: Path) -> tuple[Ended, Ended]:
    """How an office answers, and what it tells of the second file."""
    told = office.talk(*ASKED), office.import_file("a", second)
    assert [it.status for it in client.replies(told[0].output)] == [200] * len(ASKED)
    assert told[1].expect_success().startswith(b'{"changed":1,"new":1')
    return told


@pytest.mark.parametrize("way", WAYS)
@pytest.mark.parametrize("name", ["migrated", "new"])
def test_written_again_and_used(name: str, way: str, room: Path, second: Path, request: pytest.FixtureRequest) -> None:
    office: Office = request.getfixturevalue(name)
    untouched, again = (Office(office.program, room / it) for it in ("untouched.db", "again.db"))
    shutil.copyfile(office.store, untouched.store)
    WAYS[way](office.store, again.store)
    assert contents_of(again.store) == contents_of(office.store)
    assert again.check() == SOUND
    assert use(again, second) == use(untouched, second)
    assert again.check() == SOUND
    sqlite3(again.store, "VACUUM")
    assert again.check() == SOUND


def test_analyzed(migrated: Office, room: Path, second: Path) -> None:
    again = Office(migrated.program, room / "analyzed.db")
    shutil.copyfile(migrated.store, again.store)
    sqlite3(again.store, "ANALYZE")
    assert again.check() == again.talk(*ASKED) == again.import_file("a", second) == STORE_FAULT
    sqlite3(again.store, "DROP TABLE sqlite_stat1")
    assert again.check() == SOUND
    assert contents_of(again.store) == contents_of(migrated.store)
