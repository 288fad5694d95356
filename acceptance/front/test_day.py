"""A day at the desk: readers, orders, runs, slips, the counter and its scans, reshelving and the next day."""

import json
import os
import shutil
import subprocess
import time

import pytest

from acceptance.front.catalogue import ODD, archives, dock_company
from acceptance.front.desk_state import ANN, BEN, FAR
from acceptance.front.office import MANY_PAGES, SELDOM

pytestmark = [pytest.mark.browser, pytest.mark.needs("chromium")]

NEW = ("Dora <i>Quay</i>", "Hugh O'Hara", "Chlo\u00eb \u0141o\u015b", "\u202ehguH")
DAYS = iter([f"2024-03-{day:02}" for day in range(2, 32)])
SUBMIT_TWICE = """(() => { const form = [...document.querySelectorAll('.card')].at(-1).querySelector('form');
  form.requestSubmit(); form.requestSubmit(); })()"""
COUNT_SENDING = """window.sent = 0;
  for (const kind of ['submit', 'invalid']) document.addEventListener(kind, () => window.sent++, true)"""
FOCUS_TAKE_BACK = "[...document.querySelectorAll('.card')][1].querySelector('input').focus()"
WIDTHS = """import('/barcode.js')
  .then((codes) => ['T1', 'B20', 'T3456789'].map((code) => [code, codes.widthsOf(code)]))"""
CODE_39 = {"nnnwwnwnn": "0", "wnnwnnnnw": "1", "nnwwnnnnw": "2", "wnwwnnnnn": "3", "nnnwwnnnw": "4", "wnnwwnnnn": "5",
           "nnwwwnnnn": "6", "nnnwnnwnw": "7", "wnnwnnwnn": "8", "nnwwnnwnn": "9", "nnwnnwnnw": "B", "nnnnwnwwn": "T",
           "nwnnwnwnn": "*"}


@pytest.fixture(scope="module")
def office(new_office, module_room):
    """An office with archives, whose readers' service asks it for nothing unasked."""
    return new_office(readers=SELDOM, files=archives(module_room, catalogue=dock_company()), changes=MANY_PAGES)


# Readers

def test_two_presses_register_a_reader_once_under_the_name_that_was_typed(desk, asks):
    """Names that try to be markup or are written from right to left stay as they are."""
    first = asks.next_ticket()
    desk.at("/readers")
    for name in NEW:
        desk.fill("Name", name, "Register a reader")
        desk.fill("Last day of the ticket", FAR, "Register a reader")
        desk.js(SUBMIT_TWICE)
        desk.see(f"Registered: {name}, ticket", ".outcome")
    assert asks.next_ticket() == first + len(NEW)
    assert [asks.read(f"/desk/readers/{first + place}")["name"] for place in range(len(NEW))] == list(NEW)


def test_a_known_name_a_past_day_and_spaces_are_not_registered_unasked(desk, state, asks):
    ann, *_ = state.readers()
    first = asks.next_ticket()
    desk.at("/readers")
    for name, last, *questions in ((" ANN  <b>smith</b> ", FAR, "There is a reader of this name", f"{ANN}, ticket {ann}"),
                                   ("Dora", "2001-01-01", "2001-01-01 is past")):
        desk.fill("Name", name, "Register a reader")
        desk.fill("Last day of the ticket", last, "Register a reader")
        desk.press("Register", "Register a reader")
        for question in questions:
            desk.see(question, "dialog")
        desk.press("Go back", "dialog")
        desk.see("Nothing was done.")
    assert asks.next_ticket() == first
    desk.fill("Name", "  Eve   Black ", "Register a reader")
    desk.fill("Last day of the ticket", FAR, "Register a reader")
    desk.press("Register", "Register a reader")
    desk.see("Registered: Eve Black, ticket", ".outcome")


def test_readers_are_registered_one_after_the_other_by_names_alone(desk, office, asks):
    """The last day is suggested as the operator has set it, in months or as a day of the year."""
    ticket, this_year = asks.next_ticket(), desk.at("/readers").js("new Date().getFullYear()")
    last = [desk.js(f"import('/new_ticket.js').then((it) => it.lastDayBy({setting}, {today}))") for setting, today in (
        ("12", "'2023-02-01'"), ("1", "'2024-01-31'"), ("'12-31'", "'2024-12-31'"), ("'06-30'", "'2024-12-31'"),
        ("0", "'2024-12-31'"), ("12", "new Date().toLocaleDateString('sv')"))]
    assert last[:5] == ["2024-02-01", "2024-02-29", "2024-12-31", "2025-06-30", ""]
    assert desk.js("document.querySelector('input[type=date]').value") == last[5], "a year later, if nothing is set"
    (office.folder / "office.json").write_text('{"ticket": "12-31"}')
    desk.at("/readers").fill("Name", "Nora Quist", "Register a reader")
    desk.key("Enter")
    desk.see(f"Registered: Nora Quist, ticket {ticket}, good until {this_year}-12-31.")
    desk.wait("document.activeElement.name === 'name' && document.activeElement.value === ''")
    desk.pass_pause()
    desk.type("Olaf Quist")
    desk.key("Enter")
    desk.see("Registered: Olaf Quist, ticket")
    assert asks.read(f"/desk/readers/{ticket + 1}")["until"] == f"{this_year}-12-31"


def test_a_ticket_is_renewed_by_keys_alone(desk, state, asks):
    """From the top of the page, only with Tab, letters and Enter."""
    zoe = state.start()[2]
    desk.at("/")
    desk.tab_to("Readers")
    desk.key("Enter")
    desk.wait("document.activeElement.name === 'who'")
    desk.type("zoe")
    desk.key("Enter")
    desk.see("1 reader with", ".told")
    desk.tab_to("Zo\u00eb")
    desk.key("Enter")
    desk.wait(f"location.hash === '#/readers/{zoe}' && document.activeElement.tagName === 'H1'")
    desk.tab_to_field("until")
    desk.digits("12312032")
    desk.key("Enter")
    desk.see("Ticket good until 2032-12-31.")
    assert asks.read(f"/desk/readers/{zoe}")["until"] == "2032-12-31"


# Orders and runs

def test_the_slip_of_a_run_is_the_programs_with_reader_place_and_code_beside_it(desk, state, asks):
    ann, ben, zoe, _ = state.start()
    box = state.container("Box 1")
    for ticket, container in ((ann, box), (ben, box), (zoe, state.container(ODD["markup"]))):
        state.order(ticket, container)
    desk.at("/runs").press("Begin a run")
    desk.wait("location.hash.startsWith('#/runs/') && document.querySelector('.slip')")
    run = desk.js("location.hash").split("/")[-1]
    desk.see("What to fetch, and for whom")
    slip = asks.text(f"/desk/runs/{run}", True)
    assert desk.js("document.querySelector('.slip').textContent") == slip
    assert ODD["markup"] in slip
    desk.see(f"{ANN}, ticket {ann}")
    places = desk.js("[...document.querySelectorAll('.beside tbody tr')].map((row) => row.cells[0].textContent)")
    assert places and all(place and place in slip for place in places), places
    assert desk.focus_name() == "Print the slip"
    desk.see("A reference code was found for every container.")
    assert "GB 0999 HUL/1\n" in desk.text(".beside")
    desk.at("/runs").see(f"run {run}")
    desk.press("Begin a run")
    desk.see("There is nothing to fetch")


def test_call_slips_tickets_and_labels_have_codes_that_a_barcode_reader_reads(desk, state, room):
    ann, ben, *_ = state.start()
    box, roll = state.container("Box 2"), state.container("Roll 7")
    orders = [state.order(ann, box), state.order(ben, roll)]
    desk.at("/runs").press("Begin a run")
    desk.see("Call slips to cut")
    run = desk.js("location.hash").split("/")[-1]
    desk.press("Call slips to cut")
    desk.wait("document.querySelectorAll('.call-slip').length === 2")
    desk.see(f"{ANN}, ticket {ann}", ".call-slips")
    told = desk.text(".call-slips")
    for part in ("Strongroom 1", "Box 2", "Plan chest", f"Order {orders[0]}, run {run}, 2024-03-"):
        assert part in told
    for code, widths in desk.js(WIDTHS):
        kinds = "".join("w" if width > 1 else "n" for width in widths)  # nine for each character, and a narrow space
        assert "".join(CODE_39.get(kinds[at:at + 9], "?") for at in range(0, len(kinds), 10)) == f"*{code}*"
    if shutil.which("zbarimg"):
        desk.size(1200, 850, 3)
        desk.shot(room / "codes.png")
        read = subprocess.run(["zbarimg", "-q", "--raw", "-Sdisable", "-Scode39.enable", room / "codes.png"],
                              capture_output=True, text=True, check=False).stdout
        assert set(read.split()) == {f"T{ann}", f"T{ben}", f"B{box}", f"B{roll}"}
        desk.size(1200, 850)
    for hash_, code in ((f"/readers/{ann}/ticket", f"T{ann}"), (f"/counter/{box}/label", f"B{box}")):
        desk.at(hash_).see(code, ".coded")


def test_the_desk_says_why_a_run_passed_an_order_over(desk, state, asks):
    zoe = state.start()[2]
    unit = state.unit(ODD["accents"])
    state.order(zoe, state.container(ODD["accents"]))
    desk.at("/orders").see("on its shelf: a run fetches it if it is open to this reader")
    desk.see("As of ", ".told")
    asks.command("/desk/closure", unit=unit, until="2031-01-01")
    state.fetch((zoe, state.container(ODD["quotes"])))
    desk.press("Show what waits now")
    desk.see("passed it over. Probably it is not open to this reader")
    desk.go("#/out")
    desk.see("Nothing is out.")
    desk.go("#/orders")
    desk.see("passed it over")
    asks.command("/desk/closure", unit=unit, until=None)


# The counter, by keyboard and barcode reader alone

def test_a_container_is_issued_by_scans_and_keys(desk, state, asks):
    """A refused scan leads to the seat that the reader lacks; a seat of which nothing is known may be asked for again."""
    ann, ben, zoe, _ = state.start()
    box = state.container("Box 1")
    order, _ = state.fetch((ann, box), (ben, box))
    desk.at("/counter")
    assert desk.focus_name() == "ticket"
    desk.js(COUNT_SENDING)
    desk.scan(f"{ann:04}")
    desk.wait("document.activeElement.name === 'container'")
    assert desk.js("window.sent") == 0, "a ticket alone is not sent"
    desk.see("no seat yet", ".about")
    desk.see("Ready at the desk: Box 1", ".about")
    assert ANN in desk.text(".about")
    desk.scan(str(box))
    desk.see("The reader has no seat. Give the reader a seat first.")
    seat = f"Give ticket {ann} a seat and issue"
    desk.wait(f"document.activeElement.innerText === '{seat}'")
    desk.scan(f"{zoe:04}")
    assert desk.js("[document.querySelector('form.command input[name=ticket]').value, document.activeElement.name]") == [
        f"{zoe:04}", "container"], "a number that is scanned while a button has the focus goes to the field"
    assert asks.read(f"/desk/readers/{ann}")["seat"] is None, "and presses no button"
    give_a_seat_by_keys(desk, ann, seat)
    desk.see(f"Issued: Box 1, container {box} to {ANN}, ticket {ann}. Order {order}.")
    assert asks.read("/desk/issued") == [{"container": box, "order": order, "ticket": ann}]
    assert desk.js("[...document.querySelector('form.command').querySelectorAll('input')].map((one) => one.value)") == ["", ""]
    desk.scan(str(ben))
    desk.wait("document.activeElement.name === 'container'")
    desk.scan(str(box))
    desk.see("The container is not at the desk")
    assert desk.focus_name() == "container", "the field that is wrong has the focus"
    assert desk.js("[...document.querySelectorAll('[aria-invalid=true]')].map((field) => field.name).join()") == "container"


def give_a_seat_by_keys(desk, ticket, seat):
    """Gives the seat and issues by Enter alone, also after an answer that says nothing and with a key held down."""
    desk.fill("Ticket", ticket, "Issue")
    desk.key_in("Container", "Enter", "Issue")
    desk.wait(f"document.activeElement.innerText === '{seat}'")
    desk.key("Enter", repeat=True)
    desk.answer_with("*/desk/seat", 503, b'{"error":"busy"}')
    desk.key("Enter")
    desk.see("Press the button again, which does no harm: nobody gets two seats.")
    desk.answer_with(None, 0, b"")
    assert desk.focus_name() == seat
    desk.key("Enter")
    desk.see("Issued: Box 1, container")
    desk.wait("document.activeElement.name === 'ticket'")


def test_a_code_of_a_container_is_not_taken_for_a_ticket_nor_the_other_way_round(desk, state, asks):
    ann, *_ = state.start()
    box = state.container("Box 2")
    state.fetch((ann, box))
    desk.at("/counter").scan(f"B{box}")
    desk.see("This is the code of a container. Scan a ticket.", ".wrong")
    assert desk.js("document.querySelector('[aria-invalid=true]').name") == "ticket"
    desk.scan(f"t{ann:04}")
    desk.wait("document.activeElement.name === 'container'")
    assert desk.js("document.querySelectorAll('[aria-invalid=true]').length") == 0, "the mark ends"
    desk.see("Ready at the desk: Box 2", ".about")
    desk.scan(f"T{ann}")
    desk.see("This is the code of a ticket. Scan a container.", "form.command")
    assert asks.read("/desk/issued") == []
    asks.command("/desk/seat", ticket=ann)
    desk.scan(f"B{box}")
    desk.see("Issued: Box 2, container")
    desk.js(FOCUS_TAKE_BACK)
    desk.scan(f"b{box}")
    desk.see("Back: Box 2, container", ".back")


def test_containers_come_back_by_scans_alone_and_are_reshelved_once(desk, state):
    """A second scan and a second press of the button, in the moment in which its outcome is shown, do no harm."""
    ann, ben, *_ = state.start()
    box = state.container("Box 1")
    _, order = state.fetch((ann, box), (ben, box))
    state.issue(ann, box)
    desk.at("/counter").js(FOCUS_TAKE_BACK)
    desk.scan(str(box))
    desk.see(f"Keep it at the desk for {BEN}, ticket {ben}.", ".back")
    desk.wait("document.activeElement.name === 'container'")
    desk.scan("999")
    desk.see("There is no container with this number.")
    desk.scan(str(box))
    desk.see("The container is not out with a reader.")
    desk.at(f"/readers/{ben}").press(f"Cancel order {order}")
    desk.see(f"Order {order} is cancelled.")
    desk.at("/out").js("""new MutationObserver((_, seen) => {
        if (!document.querySelector('.outcome').innerText.includes('Take these back')) return;
        seen.disconnect(); document.querySelector('form.command button').click(); window.isPressedAgain = true;
      }).observe(document.querySelector('main'), { childList: true, subtree: true })""")
    desk.press("Reshelve")
    desk.see("Take these back to their shelves:")
    desk.see("Box 1, container", ".outcome")
    desk.wait("window.isPressedAgain")
    desk.js("fetch('/desk/issued').then((answer) => answer.text())")  # behind what may have been sent
    assert desk.count_sent("POST", "/desk/reshelve") == 1


def test_of_a_trolley_of_containers_the_one_that_came_back_last_stands_first(desk):
    """What is to be done with it is told there, however many came back before; a dozen stay in the list."""
    desk.at("/counter").answer_with("*/desk/return", 200, b'{"order":1}')
    desk.js(FOCUS_TAKE_BACK)
    for container in range(901, 915):
        desk.scan(str(container))
        desk.wait(f"document.querySelector('.back li a')?.hash === '#/counter/{container}'")
        desk.wait("document.activeElement.name === 'container'")
    assert desk.js("document.querySelectorAll('.back li').length") == 12


# Another day

def test_the_next_day_is_opened_once_the_question_is_answered(desk, state):
    """The clock's date is suggested, and no other day once one is open."""
    state.start()
    day = next(DAYS)
    desk.at("/")
    suggested = "document.querySelector('input[type=date]').value"
    assert desk.js(suggested) == desk.js("new Date().toLocaleDateString('sv')")
    desk.fill("The new day", day)
    desk.press("Open the day")
    desk.see("A day that has been opened cannot be taken back", "dialog")
    desk.press("Open no day", "dialog")
    desk.see("No day was opened.")
    desk.pass_pause()
    open_day(desk, day)
    desk.see(f"{day} is open.")
    assert desk.js(suggested) == ""
    desk.see(f"{day} is open.", ".which-day")


def test_each_page_says_which_day_is_open_whoever_opened_it(desk, state, asks, office):
    """The answer to the last opening that was not refused counts, if it came within the same second as the one before too."""
    kept = office.folder / "desk/proxy/open-day.json"
    state.empty()
    first, second = next(DAYS), next(DAYS)
    asks.command("/desk/day", day=first)
    desk.at("/counter").see(f"{first} is open, which is not today.", "header")
    second_of_first = kept.stat().st_mtime
    asks.command("/desk/day", day=second)
    os.utime(kept, (second_of_first, second_of_first))
    assert asks.try_command("/desk/day", {"day": first})[0] == 409
    desk.go("#/runs")
    desk.see(f"{second} is open, which is not today.", "header")
    desk.press(f"{second} is open, which is not today.")
    desk.see(f"{second} is open.", ".which-day")


def test_a_day_after_tomorrow_asks_how_much_later_it_is_and_one_after_a_week_asks_twice(desk):
    later = [desk.js(f"new Date(Date.now() + {days} * 86400000).toLocaleDateString('sv')") for days in (2, 60)]
    for day, words in zip(later, ("2 days later.", "60 days later.")):
        desk.at("/").fill("The new day", day)
        desk.press("Open the day")
        desk.see(f"{day} is {words}", "dialog")
        if day == later[1]:
            desk.pass_pause()
            desk.press(f"Open {day}", "dialog")
            desk.see(f"No day before {day} can be opened then", "dialog")
        desk.press("Open no day", "dialog")
        desk.see("No day was opened.")
    assert desk.count_sent("POST", "/desk/day") == 0


def open_day(desk, day):
    desk.press("Open the day")
    desk.see("A day that has been opened cannot be taken back", "dialog")
    desk.press(f"Open {day}", "dialog")


def test_today_shows_what_is_red_on_the_machine_and_that_nobody_has_looked_for_long(desk, office):
    folder = office.folder / "cache/lists"
    folder.mkdir(parents=True, exist_ok=True)
    status = folder / "status.json"
    lines = [{"level": 0, "name": "queue", "text": "runs"},
             {"level": 2, "name": "copy", "text": "<i>office</i> is 60 hours old"}]
    seconds = iter(range(3))

    def shown(age, many):
        status.write_text(json.dumps({"at": time.time() - age, "made": "2024-03-01 07:00", "lines": lines[:many]}), "utf-8")
        second = next(seconds)
        os.utime(status, (second, second))  # browsers know a file by its second and its size
        desk.at("/").see("Still out")
        desk.wait("!document.querySelector('.waiting')")
        return desk.text()

    told = shown(0, 2)
    assert "copy: <i>office</i> is 60 hours old" in told and "As of 2024-03-01 07:00." in told, told
    assert "Nobody has looked" not in told and "queue: runs" not in told, told
    assert "Nobody has looked since." in shown(7200, 2)
    assert "Red on the machine" not in shown(0, 1)
    status.unlink()
