"""What the desk prints, and what stays in view: nine boxes with long names, nine readers with longer ones, a unit with sixty
below it."""

import pytest

from acceptance.front.files import csv_text, unit

pytestmark = [pytest.mark.browser, pytest.mark.needs("chromium")]

BOXES, BELOW = 9, 60
PAPER = 718  # the width of A4 without its margins, in the pixels of a browser
NAME = "Wilhelmina Featherstonehaugh-Cholmondeley of {} Quay"
WIDE = """[...document.querySelectorAll('main, .call-slip, main td, main th, main p')]
  .filter((one) => one.getClientRects().length)
  .filter((one) => one.scrollWidth > one.clientWidth + 1 && getComputedStyle(one).display !== 'inline')
  .map((one) => one.outerHTML.slice(0, 90))"""
# Codes that do not stand below their bars, and on their slip.
CODES = """[...document.querySelectorAll('.coded')].filter((one) => {
    const [slip, bars, code] = [one.closest('.call-slip'), one.querySelector('svg'), one.querySelector('figcaption')]
      .map((part) => part?.getBoundingClientRect());
    return code.top < bars.bottom || (slip && code.bottom > slip.bottom - 4)
      || Math.abs(code.left + code.right - bars.left - bars.right) > 2;
  }).map((one) => one.innerText)"""
UNIT_LINKS = """[...document.querySelectorAll('main a')].map((one) => one.getAttribute('href'))
  .filter((one) => one.startsWith('#/units/'))"""
BOTTOMS = """[...document.querySelectorAll('.card button')]
  .map((one) => [one.innerText, one.getBoundingClientRect().bottom])"""
TOPS = "[...document.querySelectorAll('.card')].map((one) => Math.round(one.getBoundingClientRect().top + scrollY))"
BUTTONS = """[...document.querySelectorAll('dialog button')].map((one) => one.getBoundingClientRect())
  .every((box) => box.top >= 0 && box.bottom <= innerHeight)"""


@pytest.fixture(scope="module")
def office(new_office, module_room):
    boxes = [unit(str(2 + box), "1", f"Registers of incoming letters, part {box}", identifier=str(box),
                  levelOfDescription="Series", physicalObjectName=f"Deed box with iron bands, number {box}",
                  physicalObjectLocation=f"Strongroom below the north tower, bay {box}") for box in range(1, BOXES + 1)]
    below = [unit(str(100 + file), "3", f"Letter {file}", identifier=str(file), levelOfDescription="Item")
             for file in range(BELOW)]
    path = module_room / "catalogue.csv"
    top = unit("1", identifier="HUL", title="Hull Dock Company", levelOfDescription="Fonds")
    path.write_text(csv_text(top, *boxes, *below), encoding="utf-8")
    return new_office(files=[("catalogue", path)])


@pytest.fixture(scope="module", autouse=True)
def run(asks):
    """A run that fetches an order of each of nine readers."""
    for ticket in range(1, BOXES + 1):
        asks.command("/desk/register", name=NAME.format(ticket), until="2030-12-31")
        asks.command("/public/orders", ticket=ticket, container=ticket)
    asks.command("/desk/run")


@pytest.mark.parametrize("hash_, words, most", [
    ("/runs/1", [NAME.format(9), "What to fetch, and for whom"], 1),
    ("/runs/1/slips", [NAME.format(9), "Call slips of run 1", "GB 0999 HUL/9"], 2),
    ("/readers/3/ticket", ["Wilhelmina"], 1), ("/counter/3/label", ["Deed box"], 1)])
def test_what_is_printed_fits_on_its_sheets(desk, room, hash_, words, most):
    """Slip, nine call slips, a ticket and a label; nothing runs over, and each code stands below its bars."""
    desk.at(hash_)
    for one in words:
        desk.see(one)
    assert desk.js(CODES) == []
    desk.size(PAPER, 1000)
    desk.call("Emulation.setEmulatedMedia", media="print")
    assert desk.js(WIDE) == []
    desk.call("Emulation.setEmulatedMedia", media="")
    desk.size(1200, 850)
    desk.pdf(room / "printed.pdf")
    assert 1 <= (room / "printed.pdf").read_bytes().count(b"/Type /Page\n") <= most


def test_each_unit_below_is_there_once_and_what_can_be_done_stands_before_them(desk):
    desk.at("/units/2").see("What the public sees")
    shown = desk.js(UNIT_LINKS)
    assert (len(shown), len(set(shown))) == (BELOW, BELOW)
    early = ("Set the status", "Set the closure", "Move", "Remove …")
    assert [words for words, bottom in desk.js(BOTTOMS) if words in early and bottom > 850] == []


def test_the_question_of_a_removal_is_in_view_on_a_small_screen(desk):
    desk.at("/units/2").see("What the public sees")
    desk.size(800, 420)
    desk.js("scrollTo(0, document.documentElement.scrollHeight)")
    desk.press("Remove …", "Remove")
    desk.see(f"The public sees {BELOW} units there:", "dialog")
    assert desk.js(BUTTONS)
    desk.press("Keep it", "dialog")


def test_the_counters_cards_stay_where_they_are_when_a_note_comes(desk):
    desk.at("/counter").see("Issue")
    before = desk.js(TOPS)
    desk.fill("Ticket", "1", "Issue")
    desk.fill("Container", "2", "Issue")
    desk.press("Issue", "Issue")
    desk.see("This reader is not the first")
    assert desk.js(TOPS) == before
