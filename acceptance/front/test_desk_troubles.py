"""What goes wrong at the desk: answers that say nothing, second clicks, an office that is slow or away, a page that fails.
What nobody knows of is never sent again before somebody has looked."""

import pytest

from acceptance.front.catalogue import archives, dock_company
from acceptance.front.desk_state import BEN, FAR
from acceptance.front.office import MANY_PAGES, SELDOM

pytestmark = [pytest.mark.browser, pytest.mark.needs("chromium")]

SUBMIT = "[...document.querySelectorAll('.card')].at(-1).querySelector('form').requestSubmit()"
TYPED = "[...document.querySelectorAll('.card')].at(-1).querySelector('input').value"
WAITING_FORMS = "document.querySelectorAll('form [aria-disabled=true]').length"
LOOK_FIRST = "Look before you repeat it."
BUSY = b'{"error":"busy"}'


@pytest.fixture(scope="module")
def office(new_office, module_room):
    return new_office(readers=SELDOM, files=archives(module_room, catalogue=dock_company()), changes=MANY_PAGES)


def register(desk, name):
    """Fills in the form for a new reader, and presses its button."""
    desk.fill("Name", name, "Register a reader")
    desk.fill("Last day of the ticket", FAR, "Register a reader")
    desk.press("Register", "Register a reader")


@pytest.mark.parametrize("status, body", [(503, BUSY), (502, b'{"error":"not answered"}'), (504, b"")])
def test_a_reader_of_whom_nobody_knows_is_not_registered_twice(desk, state, asks, status, body):
    """The form is shut until somebody has looked, also after another page and after it is loaded again."""
    _, ben, *_ = state.start()
    ticket = asks.next_ticket()
    desk.at("/readers").answer_with("*/desk/register", status, body)
    register(desk, "Cid")
    desk.see(f"The office did not say whether it was done. {LOOK_FIRST}")
    desk.answer_with(None, 0, b"")
    assert desk.count_sent("POST", "/desk/register") == 1
    assert desk.focus_name() == "Look now"
    for way in ("at once", "after another page", "after loading again"):
        if way == "after another page":
            desk.go("#/orders")
            desk.see("Place an order")
            desk.go("#/readers")
        if way == "after loading again":
            desk.at("/readers")
        desk.see(LOOK_FIRST)
        desk.pass_pause()
        desk.js(SUBMIT)
        desk.js("fetch('/public/fonds').then((answer) => answer.text())")  # behind what the form may have sent
        assert asks.next_ticket() == ticket, f"the form is shut {way}"
    desk.press("Look now")
    desk.see("The newest tickets:")
    desk.see(f"{BEN}, ticket {ben}, good until")
    desk.press("It was done" if status == 504 else "It was not done: open the form")
    assert LOOK_FIRST[:-1] not in desk.text()
    assert desk.js(TYPED) == ("" if status == 504 else "Cid")


def test_what_was_not_passed_on_may_be_sent_again_and_is_done_once(desk, asks):
    ticket = asks.next_ticket()
    desk.at("/readers").answer_with("*/desk/register", 503, b'{"error":"not reached"}')
    register(desk, "Cid")
    desk.see("Your request was not passed on, and nothing was changed.")
    desk.answer_with(None, 0, b"")
    desk.insist("Register", "Registered: Cid, ticket", ".outcome", "Register a reader")
    assert asks.next_ticket() == ticket + 1


@pytest.mark.parametrize("hash_, card, fields, button, route", [
    ("/counter", "Issue", {"Ticket": "{ann}", "Container": "{box}"}, "Issue", "issue"),
    ("/counter", "Take back", {"Container": "{box}"}, "Take back", "return"),
    ("/counter", "A reader arrives", {"Ticket": "{ann}"}, "Give a seat", "seat"),
    ("/counter", "A reader leaves", {"Ticket": "{ann}"}, "Free the seat", "leave"),
    ("/counter/{box}", "Order it for a reader", {"Ticket": "{ann}"}, "Order", "orders"),
    ("/orders", "Place an order", {"Ticket": "{ann}", "Container": "{box}"}, "Order", "orders"),
    ("/orders", "Cancel an order", {"Order": "1"}, "Cancel the order", "cancel"),
    ("/runs", "Fetch from the shelves", {}, "Begin a run", "run"),
    ("/out", "Reshelve", {}, "Reshelve", "reshelve"),
    ("/readers/{ann}", "Renew", {"New last day": FAR}, "Renew", "renew"),
    ("/readers/{ann}", "Give a permit", {"Unit": "{unit}", "Last day of the permit": FAR}, "Give a permit", "permit"),
    ("/units/{unit}", "Closure", {"Closed until": FAR}, "Set the closure", "closure"),
    ("/units/{unit}", "Closure", {}, "End the closure", "closure"),
    ("/units/{unit}", "Move", {"Below which unit": "1"}, "Move", "move"),
    ("/units/{unit}", "Move", {}, "Make it a top unit", "move"),
])
def test_a_form_that_was_not_answered_is_shut_until_somebody_has_looked(desk, state, hash_, card, fields, button, route):
    names = {"ann": state.readers()[0], "unit": state.unit("Plans of the locks"), "box": state.container("Box 2")}
    desk.at(hash_.format(**names)).answer_with(f"*/{route}", 503, BUSY)
    for label, value in fields.items():
        desk.fill(label, value.format(**names), card)
    desk.press(button, card)
    desk.see(LOOK_FIRST)
    assert desk.count_sent("POST", f"/{route}") == 1, "a command of which nobody knows is not sent a second time"
    desk.answer_with(None, 0, b"")
    desk.press("Look now", card)
    desk.wait("document.querySelector('.seen')?.innerText.length > 10")
    desk.press("It was done", card)
    assert LOOK_FIRST not in desk.text()


def hold(desk, card, button, route, **fields):
    """Sends the form on this card, and is not told whether the command was done."""
    desk.answer_with(f"*/{route}", 503, BUSY)
    for label, value in fields.items():
        desk.fill(label.replace("_", " "), value, card)
    desk.press(button, card)
    desk.see(LOOK_FIRST)
    desk.answer_with(None, 0, b"")


def test_who_looks_whether_an_order_was_taken_sees_the_orders_of_the_reader(desk, state):
    ann, *_ = state.start()
    roll = state.container("Roll 7")
    order = state.order(ann, roll)
    desk.at("/orders")
    hold(desk, "Place an order", "Order", "public/orders", Ticket=ann, Container=state.container("Box 2"))
    desk.press("Look now", "Place an order")
    desk.see(f"Orders: {order} (container {roll}, waiting).", ".seen")


def test_a_form_stays_shut_while_nobody_can_see_whether_its_command_was_done(desk, state):
    """An office that does not answer is not told as a ticket that there is not."""
    ann, *_ = state.start()
    desk.at("/counter")
    hold(desk, "A reader arrives", "Give a seat", "desk/seat", Ticket=ann)
    desk.answer_with("*/desk/readers/*", 503, BUSY)
    desk.press("Look now", "A reader arrives")
    desk.see("This cannot be seen now, so the form stays shut.")


def test_who_looks_for_the_permit_of_a_ticket_that_there_is_not_is_told_so(desk, state):
    desk.at(f"/units/{state.unit('Plans of the locks')}")
    hold(desk, "Permits", "Give a permit", "desk/permit", Ticket="999", Last_day_of_the_permit=FAR)
    desk.press("Look now", "Permits")
    desk.see("There is no ticket with this number.", ".seen")


@pytest.mark.parametrize("status, words", [
    (403, "The front server did not let the request through. Nothing was changed. Load this page again and sign in."),
    (413, "The file is larger than 8 MiB. Nothing was changed."),
    (429, "Too many requests came from here at once. This one was not passed on. Wait a moment and try again."),
    (501, "The office could not read the request. Nothing was changed. Check what was typed."),
], ids=["barred", "large", "often", "unread"])
def test_a_command_that_was_turned_away_is_not_told_as_one_of_which_nobody_knows(desk, status, words):
    desk.at("/orders").answer_with("*/desk/cancel", status, b"")
    desk.fill("Order", "1", "Cancel an order")
    desk.press("Cancel the order")
    desk.see(words)
    assert desk.js(WAITING_FORMS) == 0


def test_a_clerk_whom_the_office_does_not_answer_is_told_what_to_do(desk):
    desk.at("/readers").answer_with("*/desk/issued", 503, BUSY)
    desk.go("#/out")
    desk.see("The office did not answer. Try again in a minute.")


def test_a_page_says_that_it_waits_for_the_office(desk, office):
    desk.at("/readers")
    with office.without_program():
        desk.go("#/out")
        desk.see("Waiting for the office …")
        assert "Find a reader" not in desk.text()


def test_the_second_of_two_clicks_gives_no_command_though_another_button_is_below_it(desk, state):
    _, ben, *_ = state.start()
    first, second = (state.order(ben, state.container(name)) for name in ("Box 2", "Roll 7"))
    desk.at(f"/readers/{ben}").press(f"Cancel order {first}")
    desk.see(f"Order {first} is cancelled.")
    desk.second_click(f"Cancel order {second}")
    assert desk.js(WAITING_FORMS) == 0
    assert state.orders_of(ben) == {second: "waiting"}
    plans = state.unit("Plans of the locks")
    desk.at(f"/units/{plans}").press("Remove …", "Remove")
    desk.see("for good?", "dialog")
    desk.second_click(f"Remove unit {plans}")
    assert desk.js("document.querySelector('dialog').open")
    desk.press("Keep it", "dialog")
    desk.see("Nothing was removed.")


def test_what_is_scanned_while_the_office_is_slow_is_not_taken_and_the_clerk_is_told(desk, office):
    desk.at("/counter").js("[...document.querySelectorAll('.card')][1].querySelector('input').focus()")
    with office.without_program():
        desk.scan("998")
        desk.see("Waiting for the office …")
        desk.scan("997")
        assert desk.js("document.activeElement.value") == "998"
    desk.see("There is no container with this number.")
    desk.see("was not taken: please do it again")


def test_a_list_of_what_waits_that_lacks_a_card_is_not_shown_as_one(desk, state):
    _, ben, *_ = state.start()
    desk.at("/orders").see("As of ", ".told")
    desk.answer_with(f"*/desk/readers/{ben}", 502, b'{"error":"not answered"}')
    desk.press("Read every card again")
    desk.see("The office stopped answering. Try again in a minute.", ".told")


def test_a_page_that_fails_says_what_to_do(desk):
    """And not “Waiting” for ever."""
    desk.at("/readers").answer_with("*/desk/issued", 200, b'{"no":"list"}')
    desk.go("#/out")
    desk.see("Load it again. If it fails again, tell whoever runs the office")


def test_with_the_queue_away_nothing_is_sent_and_the_form_stays_open(desk, state, asks, office):
    ann, *_ = state.start()
    desk.at("/readers")
    with office.without_queue():
        assert asks.try_command("/desk/register", {"name": "No", "until": FAR}) == (503, '{"error":"not reached"}')
        desk.go("#/counter")
        desk.fill("Ticket", ann, "A reader arrives")
        desk.press("Give a seat")
        desk.see("Your request was not passed on, and nothing was changed.")
    assert desk.js(WAITING_FORMS) == 0
