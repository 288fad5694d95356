"""A desk with many readers: what a search by name and the list of what waits ask for. Two thirds of the tickets expire before
the newest run."""

import pytest

from acceptance.front.asks import Asks
from acceptance.front.catalogue import archives

pytestmark = [pytest.mark.browser, pytest.mark.needs("chromium")]

MANY = 260
LAST_DAY = 3  # a ticket that is good until the day of the newest run
HOOK = """window.asked = []; if (!window.plain) { window.plain = window.fetch;
  window.fetch = (path, how) => { window.asked.push(path); return window.plain(path, how); }; }"""
CARDS = "window.asked.filter((path) => path.startsWith('/desk/readers/')).length"
SEARCHED = "document.querySelector('.told').innerText.includes('As of')"
ROWS = "document.querySelectorAll('main table tbody tr').length"
GATHERED = "[...document.querySelectorAll('.told')].some((one) => /waits?\\..* As of/.test(one.innerText))"


@pytest.fixture(scope="module")
def office(new_office, module_room):
    """Readers, of whom one in a hundred has an order; a run; then a day on which two thirds of the tickets have expired."""
    office = new_office(files=archives(module_room))
    asks, days = Asks(office), ("2024-03-20", "2024-03-20", "2030-12-31")
    for ticket in range(1, MANY + 1):
        asks.command("/desk/register", name=f"Reader {ticket:04} {'North' if ticket % 2 else 'South'}", until=days[ticket % 3])
    for ticket in (one for one in range(98, MANY, 99) if one % 3 == 2):
        asks.command("/public/orders", ticket=ticket, container=1 + ticket // 100 % 3)
    asks.command("/desk/run")
    asks.command("/desk/renew", ticket=LAST_DAY, until="2024-04-01")
    asks.command("/desk/day", day="2024-04-01")
    asks.command("/public/orders", ticket=2, container=4)
    asks.command("/desk/run")
    return office


def at(desk, hash_):
    """Loads a page of the desk, which then counts what it asks for."""
    desk.at(hash_).js(HOOK)


def cards(desk, press, end):
    """How many cards are asked for from the press of a button to its end."""
    desk.js("window.asked = []; document.querySelectorAll('.told').forEach((one) => { one.textContent = ''; })")
    desk.press(press)
    desk.wait(end, minutes=5)
    return desk.js(CARDS)


def test_a_search_by_name_reads_each_card_once(desk):
    """Also after the page is loaded again; and none before somebody searches."""
    at(desk, "/readers")
    assert desk.js(CARDS) == 0
    for name, least, most in ((f"reader {MANY // 2:04}", MANY, MANY + 40), (f"reader {MANY // 3:04}", 0, 2), (None, 0, 0),
                              (f"reader {MANY // 4:04}", 0, 2)):
        if name is None:
            at(desk, "/readers")
            continue
        desk.fill("Name or ticket number", name)
        assert least <= cards(desk, "Find", SEARCHED) <= most, name
        assert desk.js("document.querySelectorAll('.find td a').length") > 0


def test_a_search_that_lists_fifty_readers_says_how_many_more_there_are(desk):
    at(desk, "/readers")
    for name, more in (("reader", f"And {MANY - 50} more: type more of the name."), (f"reader {MANY}", None)):
        desk.fill("Name or ticket number", name)
        cards(desk, "Find", SEARCHED)
        desk.see(more or "Reader", ".find")
        assert ("more of the name" in desk.text(".find")) == bool(more), name


def test_what_waits_is_gathered_when_somebody_asks_for_it(desk, asks):
    """Then only cards that can have changed are read again, unless every card is asked for; who signs out leaves none."""
    at(desk, "/orders")
    desk.see("cards to ask for")
    assert desk.js(CARDS) < 40, "a long list is not gathered by itself"
    assert MANY - 30 <= cards(desk, "Show what waits now", GATHERED) <= MANY + 30, "every card is read once"
    rows = desk.js(ROWS)
    desk.js("window.asked = []")
    desk.go("#/out")
    desk.see("Nothing is out.")
    desk.go("#/orders")
    desk.wait(GATHERED)
    assert desk.js(CARDS) == 0, "it is shown again without asking"
    at(desk, "/orders")
    desk.wait(GATHERED)
    assert desk.js(ROWS) == rows, "also after the page is loaded again"
    asks.command("/public/orders", ticket=LAST_DAY, container=5)
    valid = MANY // 3 + 1
    assert valid <= cards(desk, "Show what waits now", GATHERED) <= valid + 40, "expired tickets without orders are not read"
    assert desk.js(ROWS) == rows + 1, "the order of a reader whose ticket is good until that day is not missed"
    asks.command("/desk/renew", ticket=1, until="2030-12-31")
    asks.command("/public/orders", ticket=1, container=5)
    assert cards(desk, "Read every card again", GATHERED) >= MANY
    assert desk.js(ROWS) == rows + 2, "the order of a ticket that was renewed elsewhere"
    desk.js("document.querySelector('a[href=\"/sign-out\"]').addEventListener('click', (event) => event.preventDefault())")
    desk.js("document.querySelector('a[href=\"/sign-out\"]').click()")
    assert desk.js("Object.keys(sessionStorage).filter((name) => name.includes('readers'))") == []
