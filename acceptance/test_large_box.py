"""A scenario around a box of 4,000 items, within a minute.

Each row of the file names its box. Box 2 holds 4,000 items that lie side by side in a series, and six more behind a
series of 2,500 items without a box; every hundredth of its items lies in box 3 too. Box 1 is that of a series whose
items name none, save some that lie in boxes of their own. The scenario orders, fetches, issues and returns these boxes, and
closes, withdraws, moves, removes and imports units in them, above them and beside them."""

import time
from pathlib import Path

from acceptance import client, reference_model
from acceptance.random_sessions import answer
from acceptance.scenarios import commands

SECONDS = 60
SETTINGS = client.SETTINGS | {"seats": "3", "daily": "20", "hands": "3", "run": "3"}
FONDS, LARGE, APART, LATER, HOUSE = 1, 2, 3, 4, 5
ITEMS, BESIDE, LAST, BELOW = 4000, 2500, 6, 300
FIRST_ITEM = HOUSE + 1
FIRST_BESIDE = FIRST_ITEM + ITEMS
FIRST_LAST = FIRST_BESIDE + BESIDE
FIRST_BELOW = FIRST_LAST + LAST
END = FIRST_BELOW + BELOW


def rows():
    """Unit, parent and boxes of each row; the units get these numbers."""
    yield FONDS, "", ""
    yield from ((it, FONDS, "Box 1" if it == HOUSE else "") for it in range(LARGE, HOUSE + 1))
    for it in range(FIRST_ITEM, FIRST_BESIDE):
        yield it, LARGE, "Box 2" if it % 100 else "Box 2|Box 3"
    yield from ((it, APART, "") for it in range(FIRST_BESIDE, FIRST_LAST))
    yield from ((it, LATER, "Box 2") for it in range(FIRST_LAST, FIRST_BELOW))
    yield from ((it, HOUSE, "" if it % 3 else f"Roll {it}") for it in range(FIRST_BELOW, END))


WHOLE = reference_model.text(["legacyId,parentId,publicationStatus,physicalObjectName",
                              *(f"{unit},{parent},Published,{boxes}" for unit, parent, boxes in rows())])


def exchanges():
    """The requests of the scenario, each with the answer of the reference model, which must refuse or accept as large_box.txt
    says."""
    office = reference_model.Office(**SETTINGS)
    for code, word, body in commands(Path(__file__).with_name("large_box.txt").read_text(encoding="utf-8")):
        path, body = client.path_of(word), WHOLE if body == "WHOLE" else body
        status, told = office.post(path, body.encode())
        assert told.get("code", 0) == int(code or 0), (path, body[:100])
        yield client.post(path, body), answer(status, told)
        yield client.get("/desk/issued"), answer(*office.get("/desk/issued"))
    last_item = f"/public/units/{FIRST_BESIDE - 1}"
    for path in ("/desk/readers/1", "/desk/queue/2", "/desk/runs/1", last_item, "/public/fonds"):
        yield client.get(path), answer(*office.get(path))


def test_box_of_4000_items(program: client.Program, room: Path) -> None:
    pairs = list(exchanges())
    begun = time.monotonic()
    office = client.Office.create(program, room / "office.db", SETTINGS, timeout=SECONDS)
    ended = office.talk(*(request for request, _ in pairs), timeout=SECONDS)
    taken = time.monotonic() - begun
    client.expect_answers(ended, pairs, "around a large box")
    assert office.check(timeout=SECONDS) == client.SOUND
    assert taken < SECONDS
