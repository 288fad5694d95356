"""Units at the desk: closures, permits, drafts, moves and removals."""

import pytest

from acceptance.front.catalogue import archives, dock_company
from acceptance.front.desk_state import ANN
from acceptance.front.office import MANY_PAGES, SELDOM
from acceptance.front.waits import until

pytestmark = [pytest.mark.browser, pytest.mark.needs("chromium")]

# From now on the page keeps how many of its requests were under way at a time.
COUNTED = """(() => { const send = window.fetch; let now = 0; window.most = 0;
  window.fetch = (...given) => { now += 1; window.most = Math.max(now, window.most);
    return send(...given).finally(() => { now -= 1; }); }; })()"""


@pytest.fixture(scope="module")
def office(new_office, module_room):
    return new_office(readers=SELDOM, files=archives(module_room, catalogue=dock_company()), changes=MANY_PAGES)


def test_a_closed_unit_is_closed_on_both_sites_and_a_permit_opens_it_to_one_reader(desk, hall, state, asks):
    """Its container can be ordered with a permit, and not without."""
    ann, *_ = state.start()
    archive = state.import_archive("PERM")
    desk.at(f"/units/{archive.series}").fill("Closed until", "2030-01-01", "Closure")
    desk.press("Set the closure", "Closure")
    desk.see("Closed until 2030-01-01.")
    desk.see("closed until 1 January 2030", "main .head")  # in words, so that no clerk takes it for a part of the title
    assert desk.js("document.querySelector('pre.page').textContent") == asks.text(f"/public/units/{archive.series}")
    hall.visit(f"/unit/{archive.series}").see("closed until 1 January 2030", "h1")
    hall.see("This unit is closed until 1 January 2030.")
    order_at_the_card(desk, ann, archive.box)
    desk.see("The container is not open to this reader today")
    desk.at(f"/units/{archive.series}").fill("Ticket", ann, "Permits")
    desk.fill("Last day of the permit", "2030-06-30", "Permits")
    desk.press("Give a permit", "Permits")
    desk.see(f"Permit for {ANN}, ticket {ann} until 2030-06-30.")
    desk.press("Who has a permit for it?")
    desk.see("1 permit.")
    order_at_the_card(desk, ann, archive.box)
    [order] = until(lambda: state.orders_of(ann), "the order is placed")
    desk.see(f"Order {order} for Volume PERM")
    desk.press(f"Cancel order {order}")
    desk.see(f"Order {order} is cancelled.")
    desk.at(f"/readers/{ann}").press(f"Take away the permit for unit {archive.series}")
    desk.see(f"The permit for unit {archive.series} is taken away.")
    desk.fill("New last day", "2031-01-01", "Renew")
    desk.press("Renew", "Renew")
    desk.see("Good until 2031-01-01.")
    assert "Ticket good until 2031-01-01." in desk.text()


def order_at_the_card(desk, ticket, container):
    desk.at(f"/readers/{ticket}").fill("Container", container, "Order a container")
    desk.press("Order", "Order a container")


def test_an_empty_day_sets_no_closure_and_ends_none(desk, state, asks):
    archive = state.import_archive("EMP")
    asks.command("/desk/closure", unit=archive.series, until="2030-01-01")
    desk.at(f"/units/{archive.series}").press("Set the closure", "Closure")
    desk.js("fetch('/public/fonds').then((answer) => answer.text())")  # behind what the form may have sent
    assert desk.count_sent("POST", "/desk/closure") == 0, "a field that was left empty opens what is closed"
    desk.press("End the closure", "Closure")
    desk.see("No longer closed.")
    assert "Minutes" in desk.text("pre.page")


def test_a_draft_is_published_and_moved_and_no_unit_comes_below_itself(desk, state, asks):
    archive = state.import_archive("UNIT")
    desk.at(f"/units/{archive.draft}").see("Nothing: it is a draft")
    desk.choose("Published", "Status")
    desk.press("Set the status", "Status")
    desk.see("1 unit was set to published.")
    move_below(desk, archive.series)
    desk.see(f"It is now the last below unit {archive.series}.")
    assert "Letters UNIT" in asks.text(f"/public/units/{archive.series}")
    desk.press("Make it a top unit", "Move")
    desk.see("It is now the last of the top units.")
    assert asks.text("/public/fonds").endswith("Letters UNIT\n")
    move_below(desk.at(f"/units/{archive.draft}"), archive.series)
    desk.see(f"It is now the last below unit {archive.series}.")
    move_below(desk.at(f"/units/{archive.fonds}"), archive.series)
    desk.see("A unit cannot be put below itself or below one of its own lower units.")


def move_below(desk, unit):
    """Moves the unit that the page shows below another one."""
    desk.fill("Below which unit", unit, "Move")
    desk.press("Move", "Move")


def test_a_removal_says_what_goes_and_is_done_once_the_question_is_answered(desk, state, asks):
    archive = state.import_archive("REM")
    asks.command("/desk/status", unit=archive.draft, status="published", branch=False)
    asks.command("/desk/move", unit=archive.draft, parent=archive.series)
    desk.at(f"/units/{archive.series}").press("Remove …", "Remove")
    for words in ("GB 0999 REM/1 [Series] Minutes", "The public sees 2 units there:", "Board, first volume"):
        desk.see(words, "dialog")
    assert desk.focus_name() == "Keep it"
    desk.key("Escape")
    desk.see("Nothing was removed.")
    desk.insist("Remove …", "for good?", "dialog", "Remove")
    desk.press(f"Remove unit {archive.series}", "dialog")
    desk.see(f"Unit {archive.series} is removed: 3 units in all.")
    assert asks.question(f"/public/units/{archive.series}")[0] == 404


def test_a_draft_is_removed(desk, state):
    """Though the public sees nothing of it."""
    draft = state.import_archive("HID").draft
    desk.at(f"/units/{draft}").press("Remove …", "Remove")
    desk.see("The public sees nothing of this unit", "dialog")
    desk.press(f"Remove unit {draft}", "dialog")
    desk.see(f"Unit {draft} is removed: 1 unit in all.")


@pytest.mark.parametrize("hash_, card, label, button, question", [
    ("/units/{unit}", "Closure", "Closed until", "Set the closure", "A unit that is closed until a past day is open."),
    ("/readers/{ann}", "Renew", "New last day", "Renew", "2001-01-01 is past")])
def test_a_past_day_is_asked_about(desk, state, hash_, card, label, button, question):
    """It would close nothing; one wrong digit of the year would have the reader turned away."""
    desk.at(hash_.format(unit=state.unit("Plans of the locks"), ann=state.readers()[0])).fill(label, "2001-01-01", card)
    desk.press(button, card)
    desk.see(question, "dialog")
    desk.press("Go back", "dialog")
    desk.see("Nothing was done.")
    assert desk.count_sent("POST", "/desk/closure") == desk.count_sent("POST", "/desk/renew") == 0


def test_cards_are_asked_for_four_at_a_time(desk, state):
    """By two clicks too: other desks wait behind them."""
    for place in range(2 * len(state.readers())):
        state.register(f"Reader {place}")
    desk.at(f"/units/{state.unit('Plans of the locks')}").see("Nobody has a permit")  # few cards are asked for unasked
    desk.js(COUNTED)
    desk.press("Who has a permit for it?")
    desk.press("Who has a permit for it?")
    desk.see("Nobody has a permit")
    assert desk.js("window.most") == 4, "other desks wait behind more"


def test_who_comes_back_to_a_long_page_finds_the_place_again(desk):
    """A clerk who goes through a long list unit by unit does not begin at its top each time."""
    desk.size(800, 400)
    desk.at("/import").js("scrollTo(0, 200)")
    desk.js("document.querySelector('header nav a[href=\"#/runs\"]').click()")
    desk.see("Fetch from the shelves")
    desk.js("history.back()")
    desk.see("Import a file")
    desk.wait("scrollY === 200")
