"""The search in all archives, as a reader uses it."""

import urllib.parse

import pytest

from acceptance.front.catalogue import ODD, archives, dock_company, many
from acceptance.front.office import MANY_PAGES
from acceptance.front.waits import until

pytestmark = [pytest.mark.browser, pytest.mark.needs("chromium")]

TOLD = ".told"
MARKS = """[...new Set([...document.querySelectorAll('.found mark')].map((mark) => mark.textContent.toLowerCase()))]
  .sort().join()"""
FIELDS = "[...document.querySelectorAll('form.find :is(select, input)')].map((field) => field.value).join()"
LABELLED = "[...document.querySelectorAll('form.find :is(select, input)')].every((field) => field.labels.length === 1)"
MADE = "document.querySelectorAll('.found :is(img, b, i, script, style, title, [onmouseover])').length"


@pytest.fixture(scope="module")
def office(new_office, module_room):
    """An office with three archives, of which one has 45 units with the same word."""
    files = archives(module_room, dock=dock_company(), many=many(45))
    office = new_office(readers=True, files=files, changes=[("searches:2m rate=2r/s", "searches:2m rate=30r/s"), *MANY_PAGES])
    office.await_rounds(1)
    return office


def search(hall, words, more=""):
    return hall.visit(f"/search?q={urllib.parse.quote(words)}{more}")


def test_a_reader_searches_by_keys_and_goes_to_a_unit_and_back(hall):
    """The address has the question; what was found is announced, and stands before the rules of words."""
    hall.visit("/").js("document.querySelector('form.find input').focus()")
    hall.type("minutes dock")
    hall.key("Enter")
    hall.see("8 units.", TOLD)
    assert hall.js("location.href").endswith("/search?q=minutes+dock")
    assert hall.js("document.querySelector('form.find input').value") == "minutes dock"
    assert hall.js("document.title").startswith("Search: minutes dock")
    assert hall.js(MARKS) == "dock,docks,minute,minutes", "other forms of the words are marked too"
    assert hall.text().index("8 units.") < hall.text().index("Every word must occur.")
    assert hall.js(f"document.querySelector('{TOLD}').getAttribute('role')") == "status"
    assert hall.js(LABELLED)
    hall.tab_until("document.activeElement.closest('.hit') !== null", "a hit")
    head = hall.js("document.activeElement.textContent")
    hall.key("Enter")
    hall.wait(f"document.querySelector('main h1').textContent === {hall.quote(head)}")
    hall.js("history.back()")
    hall.see("8 units.", TOLD)


@pytest.mark.parametrize("typed, told", [
    ("cafe", "1 unit."), ("CAFE\u0301", "1 unit."), ("zzz", "Nothing found."), ("", "Please type a word."),
    ("\u2018\u2019 -", "Please type a word."),
    ("\u201cdock company\u201d zzz", "Nothing has all of these words. Without zzz:")])
def test_what_is_told_of_words_odd_signs_and_nothing(hall, typed, told):
    search(hall, typed).see(told, TOLD)


def test_whole_letters_are_marked_with_their_accents(hall):
    search(hall, "cafe").see("1 unit.", TOLD)
    assert hall.js(MARKS) == "cafe\u0301,caf\u00e9"
    search(hall, "brittle").wait("document.querySelectorAll('.found li').length > 0")
    assert hall.js("document.querySelectorAll('.found .words mark').length") > 0


def test_the_next_twenty_units_are_others(hall):
    """The first answer says how many there are, or that it had no time to count them all."""
    hits = "[...document.querySelectorAll('.found .hit a')].map((a) => +a.href.split('/').pop())"
    search(hall, "unit").wait(f"/^(46|More than [0-9]+) units[.]$/.test(document.querySelector('{TOLD}').textContent)")
    shown = hall.js(hits)
    hall.press("More")
    hall.wait("location.search.includes('after=') && document.readyState === 'complete'")
    counted = "/^(21 to 40 of (46|more than [0-9]+) units|20 units, and more)[.]$/"
    hall.wait(f"{counted}.test(document.querySelector('{TOLD}').textContent)")
    assert len({*shown, *hall.js(hits)}) == 40


def test_the_archive_and_the_years_of_a_search_come_from_its_address(hall):
    search(hall, "company", "&in=1&from=1800&to=1810&order=date").wait("document.querySelectorAll('.found li').length > 0")
    assert hall.js(FIELDS) == "company,1,1800,1810,date"
    search(hall, "company", "&from=1200&to=1300").see("Nothing found.", TOLD)


@pytest.mark.parametrize("name", [name for name in ODD if name != "long"])  # one word, longer than what may be typed
def test_an_odd_text_is_found_and_is_no_markup(hall, name):
    """And has its own direction."""
    search(hall, '"' + ODD[name].replace('"', " ")[:150] + '"').wait("document.querySelector('.told').textContent")
    assert ODD[name][:60] in hall.js("document.querySelector('main').textContent")
    assert hall.js(MADE) == 0
    assert hall.js("[...document.querySelectorAll('.found .words:not(:has([dir]))')].every((text) => text.dir === 'auto' || "
                   "text.tagName === 'BDI')")


def test_an_office_that_is_away_is_not_told_as_nothing_found(hall, office):
    with office.without_program():
        search(hall, "away").see("Please try again in a minute.", TOLD)
        assert "Nothing found." not in hall.text(TOLD)
    hall.press("Try again")
    # A slow machine looks at few units in its time. Each question waits for its page, so none is one of too many.
    until(lambda: "Nothing found." in search(hall, "away").text(TOLD), "what is not there is not found")
