"""A day at the desk from names and reference codes, by keys and with a barcode reader; and for which unit an order was."""

import contextlib
import itertools
import json
import socket
import sqlite3

import pytest

from acceptance.front.asks import Asks
from acceptance.front.desk_state import FAR
from acceptance.front.files import csv_text, unit
from acceptance.front.office import MANY_ORDERS, MANY_PAGES, SELDOM
from acceptance.front.waits import until

pytestmark = pytest.mark.needs("sqlite3")

SYKES = csv_text(
    unit("1", "", "Sykes family", identifier="DDSY", levelOfDescription="Fonds"), unit("2", "1", "Letters", identifier="9"),
    unit("3", "2", "Letters to him", identifier="1", physicalObjectName="Letters 1", physicalObjectLocation="Strongroom 2"),
    unit("4", "3", "First year", identifier="1"), unit("5", "3", "Second year", identifier="2", eventDates="1802"),
    unit("6", "1", "Maps", identifier="10", physicalObjectName="Map 1|Map 2", physicalObjectLocation="Chest|Chest"),
    unit("7", "1", "Secret diaries", identifier="11", publicationStatus="Draft", physicalObjectName="Diary"),
    unit("8", "1", "Rentals", identifier="12", physicalObjectName="Rental 1", physicalObjectLocation="Strongroom 1"))
LETTERS, MAP_1, MAP_2, RENTAL = 1, 2, 3, 5
AGENT, SECOND, MAPS, SECRET, RENTALS, NEWER = 3, 5, 6, 7, 8, 77
WANTED = "Wanted: GB 0999 DDSY/9/1/2, Second year"
ZOE, BEN = 1, 2
REFUSED = b'{"taken": [], "refused": [[1, "Full"]]}'


@pytest.fixture(scope="module")
def office(new_office, module_room):
    """An office with an archive and two readers, and the night's copy of it."""
    (module_room / "sykes.csv").write_text(SYKES)
    office = new_office(readers=SELDOM, tries=True, files=[("sykes", module_room / "sykes.csv")],
                        changes=MANY_PAGES + MANY_ORDERS)
    for name in ("Zo\u00eb \u0141ukasz", "Ben O'Neill"):
        Asks(office).command("/desk/register", name=name, until=FAR)
    office.copy_store("office-2024-03-01.db")
    office.serve_my()
    return office


def kept(office, select):
    """Rows of what the desk's service keeps."""
    with contextlib.closing(sqlite3.connect(office.kept / "ordered.db")) as it:
        return it.execute(select).fetchall()


def order_on(asks, way, unit, box):
    """Sends a reader's order for a unit: from its page, or on My orders."""
    secret = asks.read(f"/my/{BEN}")["address"].rpartition("/")[2]
    path, form = {"page": (f"/unit/{unit}/order", f"ticket={BEN}&container={box}"),
                  "my": ("/my/order", f"container={unit}-{box}")}[way]
    assert asks.send("POST", path, form, fields={"Cookie": f"my={secret}"})[0] == 200


@pytest.mark.parametrize("way", ["page", "my"])
@pytest.mark.parametrize("number, box, told", [
    (SECOND, LETTERS, [(SECOND, "Second year")]), (AGENT, LETTERS, [(AGENT, "Letters to him")]),
    (MAPS, MAP_2, [(MAPS, "Maps")]), (MAPS, LETTERS, []), (SECRET, LETTERS, []), (NEWER, LETTERS, [(NEWER, None)])])
def test_staff_are_told_which_unit_in_the_box_a_reader_wanted_and_no_other(asks, state, office, way, number, box, told):
    """Whoever names a draft on the way learns nothing: a slip may come into a reader's hands. The order is for the box."""
    def wanted(*order):
        units = json.loads(asks.send("POST", "/try/wanted", json.dumps([order]), True)[1])["orders"]
        return [(one["unit"], one.get("title")) for one in units]
    state.empty()
    order_on(asks, way, number, box)
    [order] = state.orders_of(BEN)
    until(lambda: kept(office, f"SELECT 1 FROM wanted WHERE number = {order}"), "the order's unit is kept")
    assert wanted(order, BEN, box) == told
    assert wanted(order, ZOE, box) == wanted(order, BEN, RENTAL) == [], "after a restore another order may have its number"
    assert [one["order"] for one in asks.read(f"/desk/queue/{box}")["waiting"]] == [order]
    assert asks.send("POST", "/try/wanted", "[]")[0] == 404, "readers do not reach it"


@pytest.mark.parametrize("said", [
    b"", b"{}", b"[]", b"\xff", b'{"taken": [[1, 2]], "refused": []}', b'{"taken": [], "refused": [[1]]}',
    b'{"taken": [["1", 1, 1, 1], [true, 1, 1, 1], [0, 1, 1, 1]], "refused": [[1, "a b"], [-1, "Full"]]}'])
def test_what_nobody_tells_so_is_not_kept_and_ends_nothing(office, asks, said):
    both = "SELECT (SELECT total(unit) FROM wanted), total(many) FROM refused"
    asks.send("POST", "/try/ordered", REFUSED, True)
    [(units, refused)] = kept(office, both)
    asks.send("POST", "/try/ordered", said, True)
    with socket.socket(socket.AF_UNIX, socket.SOCK_DGRAM) as it:
        for message, name in itertools.product((said, REFUSED), ("ordered", "my")):
            it.sendto(message, str(office.folder / f"{name}.sock"))
    until(lambda: kept(office, both) == [(units, refused + 2)], "what comes behind is kept, and nothing else")


def test_why_orders_were_refused_is_kept_without_whom(asks, office, state):
    state.empty()
    asks.send("POST", "/ordered/order", f"ticket=99&container={SECOND}-{LETTERS}&container={MAPS}-{MAP_1}")
    unknown = "SELECT container, many FROM refused WHERE why = 'UnknownTicket' ORDER BY 1"
    until(lambda: kept(office, unknown) == [(LETTERS, 1), (MAP_1, 1)], "both are kept")
    for _ in range(2):
        order_on(asks, "my", MAPS, MAP_1)
    again = "SELECT container, many FROM refused WHERE why = 'AlreadyOrdered'"
    until(lambda: kept(office, again) == [(MAP_1, 1)], "and that of My orders")
    assert [name for _, name, *_ in kept(office, "PRAGMA table_info(refused)")] == ["day", "why", "container", "many"]


def find(desk, typed, address):
    """Types what one has in hand into the field in the head of a page, and goes where it leads."""
    desk.at("/").tab_to_field("what")
    desk.type(typed)
    desk.key("Enter")
    desk.wait(f"location.hash === '{address}' && document.activeElement.tagName === 'H1'")


def type_in(desk, field, typed, card):
    desk.tab_until(f"document.activeElement.name === '{field}' && "
                   f"document.activeElement.closest('.card').querySelector('h2').innerText === '{card}'", f"{field} of {card}")
    desk.type(typed)


def press(desk, words, seen, place="main"):
    """Goes to a button or a link by Tab, presses Enter, and waits for what it leads to."""
    desk.tab_to(words)
    desk.key("Enter")
    desk.see(seen, place)


@pytest.mark.browser
@pytest.mark.needs("chromium")
def test_a_day_from_names_and_reference_codes_alone(desk, asks, state, shot):
    state.empty()
    desk.at("/").tab_to_field("day")
    desk.scan("03022024")
    desk.see("A day that has been opened cannot be taken back", "dialog")
    press(desk, "Open 2024-03-02", "2024-03-02 is open")
    find(desk, "lukasz", f"#/readers/{ZOE}")
    type_in(desk, "container", "ddsy/9/1/2", "Order a container")
    desk.key("Tab")
    desk.see("GB 0999 DDSY/9/1/2, Second year, 1802")
    desk.key("Enter")
    desk.see("for Letters 1, container 1.")
    desk.see(WANTED)
    type_in(desk, "container", "Ddsy/10", "Order a container")
    desk.key("Enter")
    desk.see("It is in several containers. Type the number of one:")
    desk.see("There is no container with this number.")
    desk.fill("Container", "", "Order a container")
    desk.scan(f"b{MAP_2}")
    desk.see("for Map 2, container 3.")
    second = max(state.orders_of(ZOE))
    desk.at("/orders")
    type_in(desk, "ticket", f"T{BEN}", "Place an order")
    type_in(desk, "container", f"{MAP_2}", "Place an order")
    desk.key("Enter")
    desk.see(f"Order {second + 1}:", ".outcome")
    desk.at("/orders").see("on its shelf, for another reader first")
    desk.see("Wanted: GB 0999 DDSY/10, Maps")
    press(desk, f"Cancel order {second}", f"Order {second} is cancelled.")
    desk.wait(f"document.activeElement.innerText.includes('Order {second} is cancelled.')")
    desk.see("2 orders wait.")
    assert "for another reader first" not in desk.text(), "who waits next is told anew"
    desk.go("#/out")
    desk.see("Nothing is out.")
    desk.go("#/orders")
    desk.see("2 orders wait.")
    assert f"order {second}" not in desk.text()
    type_in(desk, "order", f"{second + 1}", "Cancel an order")
    desk.key("Enter")
    desk.see(f"Order {second + 1} is cancelled.")
    assert state.orders_of(BEN) == {}
    desk.at("/runs")
    press(desk, "Begin a run", WANTED, ".beside")
    shot(desk, "desk-slip-wanted")
    press(desk, "Call slips to cut", WANTED, ".call-slip")
    desk.at("/counter").scan(f"T{ZOE}")
    desk.wait("document.activeElement.name === 'container'")
    desk.scan(f"B{LETTERS}")
    desk.wait("document.activeElement.innerText.startsWith('Give ticket')")
    desk.pass_pause()
    desk.key("Enter")
    desk.see("Issued: Letters 1, container 1")
    type_in(desk, "container", "", "Take back")
    desk.scan(f"B{LETTERS}")
    desk.see("Back: Letters 1, container", ".back")
    desk.at("/out")
    press(desk, "Reshelve", "Strongroom 2", ".shelf-list")
    assert state.orders_of(ZOE) == {} and asks.read(f"/desk/queue/{LETTERS}")["place"] == "shelf"


@pytest.mark.browser
@pytest.mark.needs("chromium")
def test_a_unit_is_closed_and_opened_to_a_reader_by_its_code_and_its_call_slip_has_the_number_alone(desk, asks, office, state):
    """And a draft is moved by its code."""
    state.empty()
    find(desk, "DDSY/12", f"#/units/{RENTALS}")
    desk.tab_to_field("until")
    desk.scan("01012030")
    desk.see("Closed until 2030-01-01.")
    desk.at("/readers").tab_to_field("who")
    desk.scan(f"{ZOE}")
    desk.wait(f"location.hash === '#/readers/{ZOE}'")
    desk.see("Give a permit")
    for typed in ("DDSY/99", "letters"):  # of several units that have a word, a colleague may mean another than the first
        desk.fill("Unit", typed, "Give a permit")
        desk.fill("Last day of the permit", "2029-01-01", "Give a permit")
        desk.key("Enter")
        desk.see("There is no unit with this number")
    desk.fill("Unit", "ddsy/12", "Give a permit")
    desk.tab_to_field("until")
    desk.see("GB 0999 DDSY/12, Rentals As of the copy of")
    desk.scan("06302029")
    desk.see(f"Permit for unit {RENTALS} until 2029-06-30.")
    type_in(desk, "container", "ddsy/12", "Order a container")
    desk.key("Enter")
    desk.see("for Rental 1")
    desk.at(f"/counter/{RENTAL}").fill("Ticket", f"{ZOE}", "Order it for a reader")
    desk.press("Order", "Order it for a reader")
    desk.see("The reader has ordered this container already.")
    until(lambda: kept(office, f"SELECT 1 FROM refused WHERE why = 'AlreadyOrdered' AND container = {RENTAL}"), "why is kept")
    office.copy_store("office-2024-03-02.db")
    run = asks.command("/desk/run")["run"]
    desk.at(f"/runs/{run}").see("Wanted: GB 0999 DDSY/12, Rentals Closed until 2030-01-01.")
    desk.at(f"/runs/{run}/slips").see(f"Wanted: unit {RENTALS}")
    assert "Rentals" not in desk.text()
    desk.at(f"/units/{SECRET}").see("GB 0999 DDSY/11, Secret diaries Draft")
    type_in(desk, "parent", "ddsy/9", "Move")
    desk.key("Enter")
    desk.see("It is now the last below unit 2.")
