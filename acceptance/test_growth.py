"""How what is asked grows with what lies beside it, in instructions; and that each text of SQL finds its rows by a key.

An office with n, 2n and 4n of something is made without counting. callgrind counts a session in it, answer by answer."""

import re
import sqlite3
import subprocess
from collections.abc import Callable, Iterable, Iterator
from contextlib import closing
from functools import cache
from pathlib import Path

import pytest

from acceptance import client
from acceptance.client import Office, Program, get, post

SIZES = 25, 50, 100  # a run takes at most 100
FLAT, LINEAR, SQUARE = 0, 2.3, 4.6
READERS = [post("/desk/register", {"name": "Ann", "until": "2029-12-31"})] * 30
SEATS = [post("/desk/seat", {"ticket": it}) for it in range(1, 31)]
FONDS, RUN = get("/public/fonds"), post("/desk/run")
CLOSED, HIDDEN = {"until": "2030-01-01"}, {"status": "draft", "branch": False}
Setup = Callable[[int], Iterator[bytes]]


def import_of(source: str, rows: Iterable[tuple[object, str, str]]) -> bytes:
    """A file of units: of each the unit above, the status and the boxes. In a new office they get the numbers from 1."""
    lines = [f"{n},{above},{n},T{n},{status},{boxes}" for n, (above, status, boxes) in enumerate(rows, 1)]
    header = "legacyId,parentId,identifier,title,publicationStatus,physicalObjectName"
    return post(f"/desk/import/{source}", "\n".join([header, *lines, ""]))


def loan(path: str, box: int, ticket: int | None = None) -> bytes:
    """What asks for a box, usually for a ticket that has ten."""
    return post(path, {"ticket": ticket or 2 + box // 10, "container": box})


def lent(boxes: range) -> list[bytes]:
    """Boxes are ordered, fetched and issued."""
    return [*(loan("/public/orders", it) for it in boxes), RUN, *(loan("/desk/issue", it) for it in boxes)]


def over_days(orders: Iterable[tuple[bytes, ...]]) -> Iterator[bytes]:
    """Orders with what follows each, 25 on each of so many days, and another day."""
    for place, requests in enumerate([*orders, ()]):
        yield from (*([post("/desk/day", {"day": f"2024-03-{2 + place // 25:02}"})] if place % 25 == 0 else []), *requests)


def units_file(n: int) -> bytes:
    """Below unit 1 are unit 5 and n drafts, below 2 n items with a box each, below 3 n in box 2, below 4 three levels for five
    of n with a box each; n drafts are tops."""
    rows: list[tuple[object, str, str]] = [*[("", "Published", "")] * 4, (1, "Published", "")]
    for it in range(n):
        rows += [(1, "Draft", ""), ("", "Draft", ""), (2, "Published", f"Box {it}"), (3, "Published", "Shared")]
    return import_of("a", [*rows, *((4 * n + 5 + it if it else 4, "Published", f"Level {it}") for it in range(n * 3 // 5))])


def units(n: int) -> Iterator[bytes]:
    """The units of the file, with box 2, a box of an item below 2 and those of all levels out."""
    yield from (units_file(n), *READERS, *SEATS, *lent(range(2, 3)), *lent(range(n + 1, n * 8 // 5 + 2)))


def desk(n: int) -> Iterator[bytes]:
    """n boxes are out, for each an order waits, and for nine others; n are at the desk. Ticket 1 has 4n cancelled orders."""
    yield import_of("a", [("", "Published", ""), *((1, "Published", f"Box {it}") for it in range(2 * n + 12))])
    ended = ((loan("/public/orders", 1, 1), post("/desk/cancel", {"order": it})) for it in range(1, 4 * n + 1))
    yield from (*READERS, *over_days(ended), *SEATS, *lent(range(1, n + 1)))
    yield from (loan("/public/orders", 2 * n + 1, 30), *(loan("/public/orders", it) for it in range(n + 1, 2 * n)), RUN)
    yield from (loan("/public/orders", it, 2 + (n + it) // 10) for it in range(1, n + 1))
    yield from (loan("/public/orders", 2 * n + it, 29) for it in range(4, 13))  # up to 32 boxes are sought one by one


def permits(n: int) -> Iterator[bytes]:
    """A unit has n boxes and a closed unit below. Ticket 1 has orders for all boxes, and permits for half as many units."""
    yield import_of("a", [("", "Published", "|".join(f"Box {it}" for it in range(n))), *[(1, "Published", "")] * n])
    yield from (*READERS, *over_days((loan("/public/orders", it, 1),) for it in range(1, n + 1)))
    yield post("/desk/closure", {"unit": 2, **CLOSED})
    yield from (post("/desk/permit", {"ticket": 1, "unit": it, **CLOSED}) for it in range(2, n // 2 + 2))


# What somebody waits for: in which office, how it may grow, and how it is asked: in one session, in this order
SHAPES: dict[str, tuple[Setup, float, Callable[[int], bytes]]] = {
    "a page above n drafts": (units, FLAT, lambda n: get("/public/units/1")),
    "a finding aid above n drafts": (units, FLAT, lambda n: get("/public/aid/1")),
    "the list of fonds among n drafts": (units, FLAT, lambda n: FONDS),
    "a page of an item among n siblings": (units, FLAT, lambda n: get(f"/public/units/{4 * n + 4}")),
    "a page n levels deep": (units, LINEAR, lambda n: get(f"/public/units/{4 * n + 5 + n * 3 // 5}")),
    "an order of an item among n siblings": (units, FLAT, lambda n: loan("/public/orders", n, 1)),
    # a removal asks after it has removed, and an import reads all marks if anything is out (DECISIONS)
    "a removal that is refused, with n below": (units, LINEAR, lambda n: post("/desk/remove", {"unit": 2})),
    "a file of one row beside n units in a box out": (units, LINEAR, lambda n: import_of("b", [("", "Published", "")])),
    "a move of n levels whose boxes are out": (units, LINEAR, lambda n: post("/desk/move", {"unit": 4 * n + 6, "parent": 2})),
    "a file of n rows again": (units, LINEAR, units_file),
    "an order for a ticket with n ended orders": (desk, FLAT, lambda n: loan("/public/orders", 2 * n + 2, 1)),
    "the card of a ticket with n ended orders": (desk, FLAT, lambda n: get("/desk/readers/1")),
    "a run beside n orders that wait": (desk, LINEAR, lambda n: RUN),  # it reads all of them (DECISIONS)
    "an issue beside n boxes at the desk": (desk, FLAT, lambda n: loan("/desk/issue", 2 * n + 1, 30)),
    # the path of the unit is sought among n siblings (RESULTS)
    "a closure beside n boxes out": (desk, LINEAR, lambda n: post("/desk/closure", {"unit": 2 * n + 4, **CLOSED})),
    "a status beside n boxes out": (desk, LINEAR, lambda n: post("/desk/status", {"unit": 2 * n + 4, **HIDDEN})),
    "a run of n boxes of a unit for n permits": (permits, SQUARE, lambda n: RUN),  # permits are read for each box (RESULTS)
}


@cache
def counted(program: Program, room: Path, setup: Setup, n: int) -> dict[str, int]:
    """The instructions of each request in an office of this size."""
    office, part = Office.create(program, room / f"{setup.__name__}{n}", client.LARGE), f"{setup.__name__}{n}.part"
    assert {it.status for it in client.replies(office.talk(*setup(n)).expect_success())} == {200}
    shapes = {who: ask(n) for who, (of, _, ask) in SHAPES.items() if of is setup}
    # A session's first change costs more, and a question after a change may read all marks: neither is counted. The first that
    # is counted comes right after an opening, which has read them.
    asked = READERS[0] + FONDS.join(shapes.values())
    tool = ["valgrind", "--tool=callgrind", "--dump-after=write", f"--callgrind-out-file={room / part}"]
    ended = subprocess.run([*tool, program.path, "talk", "--store", office.store], input=asked, capture_output=True)
    answered, parts = client.replies(ended.stdout), sorted(room.glob(f"{part}.*"), key=lambda it: int(it.suffix[1:]))
    assert [it.status for it in answered[1::2]] == [409 if "refused" in who else 200 for who in shapes]
    assert len(parts) - len(answered) in (0, 1), "an answer is one write, but a long one, the last, is two"
    counts = [int(it.read_text().partition("\nsummary: ")[2].split()[0]) for it in parts]
    return dict(zip(shapes, [*counts[1:len(answered) - 1:2], sum(counts[len(answered) - 1:])]))


@pytest.mark.needs("valgrind")
@pytest.mark.parametrize("who", SHAPES)
def test_growth(program: Program, module_room: Path, who: str) -> None:
    setup, growth, _ = SHAPES[who]
    once, twice, four_times = (counted(program, module_room, setup, n)[who] for n in SIZES)
    assert four_times <= (twice + growth * (twice - once) if growth else 1.2 * once), (once, twice, four_times)


OPENING = {"adoption", "integrity_checks", "row_decoding"}  # crates that read whole tables
SMALL = re.compile(r"(FROM|INTO|UPDATE) (office|seat|link) ?")  # one row; those of today; read by a migration alone


def is_slow(tables: sqlite3.Connection, text: str) -> bool:
    """Whether SQLite finds rows without a key, or the engine may: by IN, OR, IS, or a range after an equality."""
    values = [1] * max([0, *map(int, re.findall(r"\?(\d)", text))])
    scans = any(step.startswith("SCAN") for *_, step in tables.execute(f"EXPLAIN QUERY PLAN {text}", values))
    where = text.partition(" WHERE ")[2].partition(" ORDER ")[0]
    weak = re.search(r"\b(IN|OR|IS)\b|(?= = ).* [<>]=? | [<>]=? .* = ", where)
    return bool(weak) or scans and not re.search(r"FROM \w+ ORDER BY \w+ DESC LIMIT 1$", text)


def test_texts_use_their_keys(program: Program, room: Path) -> None:
    sources = [it for it in (client.TOP / "crates").glob("*/src/**/*.rt") if not re.search(r"/crates/\w+_tests/", str(it))]
    texts = {text for it in sources if it.relative_to(client.TOP).parts[1] not in OPENING
             for text in re.findall(r'"((?:SELECT|INSERT INTO|UPDATE|DELETE FROM) [^"]+)"', it.read_text())
             if not SMALL.search(text)}
    with closing(sqlite3.connect(Office.create(program, room / "office.db").store)) as tables:
        slow = {text for text in texts if is_slow(tables, text)}
    assert slow == {text for text, _ in client.table(Path(__file__).with_name("whole_reads.txt"))}
