"""What never ends by itself, and who was here: the desk's page of old orders over the lists of the night, and the log from
which the register is made."""

import contextlib
import json
import sqlite3
import subprocess

import pytest

from acceptance.front.asks import Asks
from acceptance.front.files import csv_text, unit
from acceptance.front.office import TOP

LISTS = TOP / "packaging/lists"
BOXES = 4
FILE = csv_text(unit("1", title="Docks", identifier="HUL"),
                *(unit(str(box + 1), "1", f"Papers {box}", physicalObjectName=f"Box {box}") for box in range(1, BOXES + 1)))
ROWS = "[...document.querySelectorAll('.card')].map((card) => [...card.querySelectorAll('tbody tr')]" \
       ".map((row) => row.cells[0].innerText.trim().split(' ')[1]))"


@pytest.fixture(scope="module")
def new_desk(new_office, module_room):
    """A function that makes an office with four boxes."""
    (module_room / "file.csv").write_text(FILE)
    return lambda: new_office(files=[("catalogue", module_room / "file.csv")])


def make_lists(office):
    """The lists of a copy that is made now, with the register of what the desk's log has, as the nightly backup makes them."""
    lists, copy, register = (office.folder / name for name in ("cache/lists", "copy.db", "register.db"))
    lists.mkdir(parents=True, exist_ok=True)
    office.copy_store(copy)
    log = office.folder / "log-desk.log"
    with log.open("rb") as lines:
        subprocess.run([LISTS / "record-office-register", register], stdin=lines, check=True, capture_output=True)
    command = [LISTS / "record-office-lists", copy, lists, "--sql", LISTS / "lists.sql", "--register", register]
    subprocess.run(command, check=True, capture_output=True)
    return register


@pytest.mark.needs("sqlite3")
def test_who_was_here_is_what_the_desks_site_logs(new_desk):
    """Of seats, issues and returns, by whom; nothing that was refused, and no name of a reader."""
    office = new_desk()
    asks = Asks(office)
    asks.command("/desk/register", name="Ann Reader", until="2030-12-31")
    asks.command("/public/orders", ticket=1, container=1)
    asks.command("/desk/run")
    for path, members in (("/desk/seat", {"ticket": 1}), ("/desk/issue", {"container": 1, "ticket": 1}),
                          ("/desk/return", {"container": 1}), ("/desk/leave", {"ticket": 1})):
        asks.command(path, **members)
    assert asks.try_command("/desk/seat", {"ticket": 77})[0] == 409, "a seat that is refused"
    asks.text("/desk/readers/1", True)
    with contextlib.closing(sqlite3.connect(make_lists(office))) as register:
        rows = register.execute("SELECT what, ticket, container, staff, is_sure FROM event").fetchall()
    # Two may be of one millisecond.
    assert sorted(rows, key=str) == [("issue", 1, 1, "desk", 1), ("leave", 1, None, "desk", 1), ("return", None, 1, "desk", 1),
                                     ("seat", 1, None, "desk", 1)], "the register"
    log = (office.folder / "log-desk.log").read_text()
    assert "Ann" not in log, "no reader's name is logged"
    told = [json.loads(line)["path"] for line in log.splitlines()]
    assert set(told) == {"/desk/seat", "/desk/issue", "/desk/return", "/desk/leave"}, "nothing else is logged there"
    page = asks.text("/lists/visits.html", True)
    assert "Ann Reader" in page and ">desk<" in page, "the desk's site shows who was here"


@pytest.fixture(scope="module")
def office(new_desk):
    office = new_desk()
    make_old(office)
    return office


@pytest.mark.needs("sqlite3")
@pytest.mark.browser
def test_what_is_ticked_of_old_orders_is_cancelled_or_goes_back(office, asks, desk, shot):
    desk.at("/orders/old").see("Orders that wait long")
    desk.see("This list is not there yet.")
    make_lists(office)
    asks.command("/public/orders", ticket=3, container=3)  # since the night
    desk.at("/orders").press("Orders that wait long, and boxes that nobody has asked for")
    desk.see("Orders that wait long: 4")
    assert desk.js(ROWS) == [["1", "2", "3", "4"], ["1", "2", "3"]], "what is old"
    who = "document.querySelector('.card tbody tr:nth-child(4) a[href^=\"#/readers/\"]').textContent"
    assert desk.js(who) == "=Ben, ticket 2", "a name is as the reader gave it"
    shot(desk, "desk-old-orders")
    cancel_some(desk, asks)
    take_back_some(desk, asks)


def make_old(office):
    """Three boxes at the desk for readers who do not come, and an order that waits for a fourth; forty days ago."""
    asks = Asks(office)
    for name in ("Ann", "=Ben", "Eva"):  # the list has an apostrophe before what a spreadsheet would calculate
        asks.command("/desk/register", name=name, until="2030-12-31")
    for box in (1, 2, 3):
        asks.command("/public/orders", ticket=1, container=box)
    asks.command("/desk/run")
    asks.command("/public/orders", ticket=2, container=4)
    asks.command("/desk/day", day="2024-04-10")


def waiting(asks):
    return {box: [one["order"] for one in asks.read(f"/desk/queue/{box}")["waiting"]] for box in range(1, BOXES + 1)}


def cancel_some(tab, asks):
    """Nothing without a tick; a question first; then the ticked order alone. One that ended meanwhile is told so."""
    tab.press("Cancel what is ticked")
    tab.see("Nothing is ticked.")
    tab.fill("Waiting for at least so many days", "41", "Orders that wait long")
    tab.js("document.activeElement.dispatchEvent(new Event('input', { bubbles: true }))")
    assert tab.js(ROWS)[0] == [], "none is so old"
    tab.fill("Waiting for at least so many days", "40", "Orders that wait long")
    tab.js("document.activeElement.dispatchEvent(new Event('input', { bubbles: true }))")
    asks.command("/desk/cancel", order=1)
    for order in (1, 4):
        tab.choose(f"Order {order}")
    tab.press("Cancel what is ticked")
    tab.see("Cancel what is ticked: 2 orders?", "dialog")
    assert waiting(asks)[4] == [4], "nothing is cancelled before the answer"
    tab.press("Yes, 2 orders", "dialog")
    tab.see("Order 4 is cancelled.")
    tab.see("Order 1: This order is no longer waiting")
    assert waiting(asks) == {1: [], 2: [2], 3: [3, 5], 4: []}, "the others wait still"
    assert tab.js(ROWS)[0] == ["2", "3"], "what has ended is not listed again"


def take_back_some(tab, asks):
    """The orders of a ticked box are cancelled, and it goes back; a box that was ordered since the night stays."""
    for box in (2, 3):
        tab.choose(f"Container {box}")
    tab.press("Take back what is ticked")
    tab.see("Take back what is ticked: 2 boxes?", "dialog")
    tab.press("Yes, 2 boxes", "dialog")
    tab.see("Container 3 stays: it was ordered since the night.")
    tab.see("Take these back to their shelves:")
    assert waiting(asks) == {1: [], 2: [], 3: [3, 5], 4: []}, "one has no order any more"
    places = [asks.read(f"/desk/queue/{box}")["place"] for box in (1, 2, 3)]
    assert places == ["shelf", "shelf", "desk"], "and is back, with what nobody waited for"
