"""What a colleague has in hand: the field in the head of each page of the desk, and fields that take reference codes."""

import json

import pytest

from acceptance.front.asks import Asks
from acceptance.front.catalogue import dock_company
from acceptance.front.desk_state import FAR
from acceptance.front.files import csv_text, unit
from acceptance.front.office import MANY_PAGES

pytestmark = pytest.mark.needs("sqlite3")

READERS = ("Nuala Ó Súilleabháin", "Γιώργος Παπαδόπουλος", "Антон Чехов", "Łukasz Wójcik", "Ann Smith", "Ann Smithers")
DOCKS, MINUTES, PLANS, LETTERS, BOARD = "GB 0999 HUL", "GB 0999 HUL/1", "GB 0999 HUL/2", "GB 0999 HUL/3", "GB 0999 HUL/1/1"
CLOSED = "2030-01-01"


@pytest.fixture(scope="module")
def office(new_office, module_room):
    """An office with an archive, of which unit 3 is closed, with readers, and with the night's copy of all that."""
    (module_room / "docks.csv").write_text(dock_company())
    (module_room / "shelves.csv").write_text(shelved("Tall|Low", "Shelf 10|Shelf 9"))
    (module_room / "hidden.csv").write_text(csv_text(unit("1", "", "Pending", identifier="HID", publicationStatus="Draft"),
                                                     unit("2", "1", identifier="1", physicalObjectName="Sealed")))
    files = [(source, module_room / f"{source}.csv") for source in ("docks", "shelves", "hidden")]
    office = new_office(tries=True, files=files, changes=MANY_PAGES)
    asks = Asks(office)
    for name in READERS:
        asks.command("/desk/register", name=name, until=FAR)
    asks.command("/desk/closure", unit=3, until=CLOSED)
    office.copy_store("office-2024-03-01.db")
    return office


def shelved(names, locations):
    """A fonds with these boxes."""
    return csv_text(unit(names, "", "Ledgers", identifier="LED", levelOfDescription="Fonds", physicalObjectName=names,
                         physicalObjectLocation=locations))


@pytest.fixture
def find(asks):
    """A function that gives what the service finds: the codes of units, and the names of boxes and readers."""
    def found(typed):
        status, told = asks.send("POST", "/try/find", typed, True)
        assert status == 200, told
        told = json.loads(told)
        return [one["code"] for one in told["units"]], [one["name"] for one in told["boxes"] + told["readers"]]
    return found


@pytest.mark.parametrize("typed, units", [
    ("HUL/3", [LETTERS]), ("GB 0999 HUL/3", [LETTERS]), ("gb0999hul/3", [LETTERS]), (" hul / 1 ", [MINUTES]), ("HUL", [DOCKS]),
    ("1/1", [BOARD]), ("secretary letters", [LETTERS]), ("4", [LETTERS]), ("HUL/9", []), ("GB 0999", []), ("", [])])
def test_a_unit_is_found_by_its_reference_code_its_number_or_its_title_also_a_draft(find, typed, units):
    assert find(typed)[0][:max(1, len(units))] == units, "what has the whole code comes first"


@pytest.mark.parametrize("typed, names", [
    ("Smith", READERS[4:]), ("smithers", READERS[5:]), ("ann smith", READERS[4:]), ("suilleabhain", READERS[:1]),
    ("sullivan", READERS[:1]),
    ("papadopoulos", READERS[1:2]), ("ΠΑΠΑΔΟΠΟΥΛΟΣ", READERS[1:2]), ("chekhov", READERS[2:3]), ("Lukasz wojcik", READERS[3:4]),
    ("roll 7", ["Roll 7"]), ("2", ["Box 2", READERS[1]]), ("nobody", []), ("", [])])
def test_readers_and_boxes_are_found_in_any_script_with_and_without_accents(find, typed, names):
    assert find(typed)[1] == list(names)


def test_staff_see_what_the_public_does_not(asks):
    told = [json.loads(asks.send("POST", "/try/find", code, True)[1])["units"][0]
            for code in ("HUL/3", "HUL/2", "HUL/2/1", "HUL/1")]
    assert [(one["draft"], one["belowDraft"], one["until"]) for one in told] == [
        (True, False, None), (False, False, CLOSED), (False, False, CLOSED), (False, False, None)]
    assert (told[1]["title"], told[1]["level"], told[1]["dates"]) == ("Plans of the locks", "Series", "1803-1829")
    assert asks.send("POST", "/try/find", "HUL") == asks.send("POST", "/try/none", "HUL"), "readers reach nothing of it"


@pytest.mark.browser
@pytest.mark.needs("chromium")
def test_the_field_in_the_head_leads_to_what_one_has_in_hand(desk):
    """To its page if it is one thing; else what there may be is listed."""
    for typed, address in (("T5", "#/readers/5"), ("b2", "#/counter/2"), ("hul/3", "#/units/4"), ("sullivan", "#/readers/1"),
                           ("roll 7", "#/counter/3")):
        desk.at("/runs").fill("Reference code, barcode, number, name or words", typed)
        desk.press("Open")
        desk.wait(f"location.hash === '{address}'")
    desk.at("/find/2")
    desk.see("ticket 2")
    desk.see("Plans")
    desk.at("/find/ann%20smith").see("Ann Smithers")
    desk.at("/find/HUL%2F9%2F9").see("Nothing has this code, number or name: HUL/9/9.")


@pytest.mark.browser
@pytest.mark.needs("chromium")
def test_a_reader_of_today_is_found_though_the_copy_is_of_last_night(desk, asks):
    ticket = asks.command("/desk/register", name="Zita Neumann", until=FAR)["ticket"]
    desk.at("/counter").fill("Reference code, barcode, number, name or words", "neumann")
    desk.press("Open")
    desk.wait(f"location.hash === '#/readers/{ticket}'")


@pytest.mark.browser
@pytest.mark.needs("chromium")
def test_without_the_service_scanned_codes_and_numbers_still_lead_to_their_pages(desk, office):
    with office.without_tries():
        desk.at("/find/T5").wait("location.hash === '#/readers/5'")
        desk.at("/find/HUL").see("The service that finds units, boxes and readers is not running.")
        desk.at("/find/2").see("ticket 2")


def test_boxes_are_told_with_their_places_and_what_in_them_is_not_open_to_all(asks):
    told = json.loads(asks.send("POST", "/try/boxes", "[1, 2, 4, 999]", True)[1])["boxes"]
    assert [(one["name"], one["location"], [unit["code"] for unit in one["withheld"]]) for one in told] == [
        ("Box 1", "Strongroom 2", []), ("Box 2", "Strongroom 1", ["GB 0999 HUL/2", "GB 0999 HUL/2/1"]),
        ("Box 3", "Strongroom 1", [LETTERS])]
    sealed, = json.loads(asks.send("POST", "/try/find", "Sealed", True)[1])["boxes"]
    told, = json.loads(asks.send("POST", "/try/boxes", f"[{sealed['container']}]", True)[1])["boxes"]
    assert [(one["code"], one["belowDraft"]) for one in told["withheld"]] == [("GB 0999 HID/1", True)], "what is below a draft"


@pytest.mark.browser
@pytest.mark.needs("chromium")
def test_what_goes_back_is_listed_in_the_order_of_the_shelves(desk, asks, state):
    """A box that is newer than the copy comes last."""
    asks.import_text("new", shelved("Newest", "Shelf 1"))
    state.empty()
    tall = json.loads(asks.send("POST", "/try/find", "Tall", True)[1])["boxes"][0]["container"]
    low, newest = tall + 1, tall + 3  # the box of drafts has the number between
    for order in state.fetch((5, tall), (5, newest), (5, low)):
        asks.command("/desk/cancel", order=order)
    desk.at("/out").press("Reshelve")
    desk.see("Take these back to their shelves:")
    desk.see("The last ones are newer than the copy of")
    rows = "[...document.querySelectorAll('.shelf-list tbody tr')]"
    assert desk.js(f"{rows}.map((row) => [row.cells[0].innerText, row.querySelector('a').hash])") == [
        ["Shelf 9", f"#/counter/{low}"], ["Shelf 10", f"#/counter/{tall}"], ["not known", f"#/counter/{newest}"]]


@pytest.mark.browser
@pytest.mark.needs("chromium")
def test_a_draft_in_a_box_is_told_before_the_box_is_ordered(desk):
    for address, card in (("/orders", "Place an order"), ("/readers/5", "Order a container")):
        desk.at(address).fill("Container", "", card)
        desk.type("B4")
        desk.key("Tab")
        desk.see("Not open to everybody in this box:")
        desk.see("GB 0999 HUL/3, Letters of the secretary, Series Draft")
    desk.at("/counter/2").see("GB 0999 HUL/2, Plans of the locks, 1803-1829, Series Closed until 2030-01-01.")
    desk.see("Strongroom 1")


@pytest.mark.browser
@pytest.mark.needs("chromium")
def test_a_drafts_page_has_its_boxes_and_a_name_that_the_copy_has_is_asked_about(desk):
    """Also if the readers' cards cannot be read, as where there are thousands."""
    desk.at("/units/4").see("GB 0999 HUL/3, Letters of the secretary, Series Draft As of the copy of")
    desk.see("Box 3, Strongroom 1 container 4")
    desk.at("/readers").answer_with("*/desk/readers/*", 503, b"{}")
    desk.fill("Name", "ann smith", "Register a reader")
    desk.fill("Last day of the ticket", FAR, "Register a reader")
    desk.press("Register", "Register a reader")
    desk.see("There is a reader of this name", "dialog")
    desk.see("ticket 5", "dialog")
