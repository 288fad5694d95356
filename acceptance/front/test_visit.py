"""A reader's visit: no text of an archive is markup, and the ways from page to page, by keys and without scripts."""

import pytest

from acceptance.front.catalogue import ODD, archives, dock_company
from acceptance.front.office import MANY_PAGES

pytestmark = [pytest.mark.browser, pytest.mark.needs("chromium")]

# What is below the unit, as the program would have written it: its lines, and where they lead.
LINKS = """(() => { const text = (node) => { const copy = node.cloneNode(true);
  copy.querySelectorAll('time').forEach((day) => day.replaceWith(day.dateTime)); return copy.textContent; };
  return [...document.querySelectorAll('.contents [data-shown] > ul > li > a')].map((a) => [text(a), a.pathname]);
})()"""
MADE = "document.querySelectorAll('main :is(img, b, i, script, style, title, [onmouseover])').length"
# How far the text ends to the right of its element.
RIGHT_SIDE = """(() => { const dd = document.querySelector('[data-element="3.3.1"] dd');
  const text = document.createRange(); text.selectNodeContents(dd);
  return text.getBoundingClientRect().right - dd.getBoundingClientRect().right; })()"""
CURRENT = "[...document.querySelectorAll('nav [aria-current=page]')].map((link) => link.textContent.trim()).join()"
WAY = "[...document.querySelectorAll('nav.way a')].map((a) => [a.pathname, a.textContent])"
NO_TICKET = "There is no reader’s ticket with this number."


@pytest.fixture(scope="module")
def office(new_office, module_room):
    """An office with archives, whose index proposes what is above a unit."""
    office = new_office(readers=True, files=archives(module_room, catalogue=dock_company()), changes=MANY_PAGES)
    office.await_rounds()
    return office


@pytest.fixture
def top(state):
    return state.fonds()


@pytest.mark.parametrize("name, text", ODD.items(), ids=list(ODD))
def test_an_odd_text_stands_as_it_is_and_is_no_markup(hall, top, shot, name, text):
    links = hall.visit(f"/unit/{top}").js(LINKS)
    hall.visit(next(address for line, address in links if line.endswith(f"] {text}")))
    seen = hall.js("document.querySelector('main').textContent")
    assert seen.count(text) >= 3, seen
    assert hall.js(MADE) == 0
    assert hall.js("document.title") != "broken"
    if name == "closed":
        assert not hall.js("!!document.querySelector('h1 time')"), "a title like that of a closed unit is no day"
    if name == "hebrew":
        assert abs(hall.js(RIGHT_SIDE)) < 2, "Hebrew begins at the right side"
    shot(hall, f"reader-odd-{name}")


def test_the_units_above_lead_up_and_what_is_found_there_is_marked(hall, top):
    hall.visit(f"/unit/{top + 4}").see("Weekly meetings (from GB 0999 HUL) and yearly accounts.")
    assert hall.js(WAY) == [["/", "Archives"], [f"/unit/{top}", "Hull Dock Company"], [f"/unit/{top + 1}", "Minutes"]]
    hall.press("Minutes")
    hall.await_page(f"location.pathname === '/unit/{top + 1}'")
    hall.see("Box 1")
    assert hall.js("document.querySelector('[data-element=\"3.2.1\"] .from').textContent").strip() == "(from GB 0999 HUL)"
    hall.js("history.back()")
    hall.await_page(f"location.pathname === '/unit/{top + 4}'")
    hall.see("Weekly meetings")


@pytest.mark.parametrize("old, new", [("/#/unit/{}", "/unit/{}"), ("/#/aid/{}", "/aid/{}"), ("/#/help", "/help")])
def test_an_address_of_former_days_leads_to_its_page(hall, top, old, new):
    new = new.format(top)
    hall.visit("/help" if new != "/help" else "/")
    hall.js(f"location.assign({hall.quote(old.format(top))})")
    hall.wait(f"location.pathname === {hall.quote(new)} && document.readyState === 'complete'")
    assert hall.js("location.pathname + location.hash") == new


def test_a_first_visit_takes_six_requests(hall, top):
    assert hall.visit(f"/unit/{top}").js("performance.getEntriesByType('resource').length + 1") <= 6


@pytest.mark.parametrize("address, name", [("/", "Archives"), ("/help", "How to order"), ("/ordered", "Your list"),
                                           ("/unit/1", "")])
def test_the_page_that_is_shown_is_marked_in_the_list_of_pages(hall, address, name):
    assert hall.visit(address).js(CURRENT) == name


def test_a_reader_comes_to_an_order_by_tab_and_enter_alone(hall):
    hall.visit("/").key("Tab")
    assert hall.focus_name() == "Skip to the text"
    hall.key("Enter")
    hall.wait("location.hash === '#main'")
    hall.key("Tab")
    assert hall.js("document.activeElement.closest('main') !== null")
    go_to_the_form(hall)
    hall.wait("document.activeElement.name === 'ticket'")
    order_with_no_ticket(hall)


def test_a_reader_without_scripts_comes_to_an_order(hall):
    hall.call("Emulation.setScriptExecutionDisabled", value=True)
    hall.visit("/")
    go_to_the_form(hall)
    assert hall.js("document.querySelector('[data-print]').hidden"), "no script has run"
    hall.tab_to_field("ticket")
    order_with_no_ticket(hall)
    hall.visit("/ordered").see("Your browser keeps this list only with JavaScript.")


def go_to_the_form(hall):
    """By keys from the list of archives to the order form of a unit."""
    for words, seen in (("GB 0999 HUL [Fonds] Hull Dock Company", "Contents:"), ("GB 0999 HUL/1 [Series] Minutes", "Box 1")):
        hall.tab_to(words)
        hall.key("Enter")
        hall.see(seen)
    hall.tab_to("Order container")
    hall.key("Enter")


def order_with_no_ticket(hall):
    """Orders with a ticket that nobody has; the focus is in its field."""
    hall.type("999")
    hall.key("Enter")
    hall.see(NO_TICKET)
    hall.wait("document.activeElement.id === 'outcome'")
