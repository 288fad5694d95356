"""Each page of the desk once, filled and in an empty office, as text that somebody has read: files in approved/desk.

    pytest acceptance/front/test_desk_pages.py --approve    # keeps what there is now; read `git diff` before a commit"""

import re
import textwrap
from pathlib import Path

import pytest

from acceptance.front.catalogue import archives, dock_company
from acceptance.front.office import MANY_PAGES, SELDOM, SIGNED_IN
from acceptance.front.page_states import STATES, settle

pytestmark = [pytest.mark.browser, pytest.mark.needs("chromium")]

# `asking` is how many requests of the page are under way, or just ended: names come last, by requests of their own.
COUNT_ASKING = """window.asking = 0; const send = window.fetch;
  window.fetch = (...given) => { window.asking += 1;
    return send(...given).finally(() => setTimeout(() => { window.asking -= 1; }, 100)); };"""
SHOWN = (Path(__file__).parent / "shown.js").read_text("utf-8")
PAGES = [state for state in STATES if state.site == "desk"]
FIRST = {state.address: state for state in reversed(PAGES)}  # of those at an address
BARE = ("/", "/counter", "/orders", "/runs", "/out", "/units", "/orders/old")  # what there is without anything


@pytest.fixture(scope="module")
def office(new_office, module_room):
    return new_office(readers=SELDOM, tries=True, files=archives(module_room, catalogue=dock_company()), changes=MANY_PAGES)


@pytest.fixture(scope="module")
def numbers(asks):
    """What is where in the office, in which each page has something to show."""
    return settle(asks)


@pytest.fixture(scope="module")
def empty(new_office):
    return new_office()


@pytest.fixture
def desk(desk):
    desk.call("Page.addScriptToEvaluateOnNewDocument", source=COUNT_ASKING)
    return desk


@pytest.fixture
def bare(browser, empty):
    """One of the empty office's desk."""
    with browser.tab(empty.staff, SIGNED_IN) as page:
        page.call("Page.addScriptToEvaluateOnNewDocument", source=COUNT_ASKING)
        yield page


def shown(page, selector="main"):
    """The lines that a page shows once all is read, without times, the days of this machine's clock, and secrets."""
    page.wait("window.asking === 0")
    today = page.js("new Date().toLocaleDateString('sv')")
    text = page.js(f"({SHOWN})({page.quote(selector)})").replace(today, "TODAY")
    lines = re.sub(r"(/my/\d+-)\w{26}", r"\1SECRET", re.sub(r"\b\d\d:\d\d\b(:\d\d)?", "00:00", text)).splitlines()
    return [part for line in lines for part in textwrap.wrap(line, 120, subsequent_indent="      ", drop_whitespace=False)]


@pytest.mark.parametrize("state", FIRST.values(), ids=lambda state: state.name)
def test_a_page_of_the_desk_says_what_somebody_has_approved(request, desk, numbers, approved, state):
    state.show(desk, numbers)
    lines = shown(desk)
    if state.address in BARE:
        bare = request.getfixturevalue("bare")
        state._replace(steps=()).show(bare, numbers)
        lines += ["", "---- In an empty office ----", "", *shown(bare)]
    approved(f"desk/{state.name.replace(' ', '_')}", lines)


@pytest.mark.parametrize("state", [state for state in PAGES if state not in FIRST.values()], ids=lambda state: state.name)
def test_another_state_of_a_page_says_more(desk, numbers, approved, state):
    """Only that is compared."""
    FIRST[state.address].show(desk, numbers)
    known = {re.sub("{.*?}", "{}", line) for line in shown(desk, "body")}
    desk.js("sessionStorage.clear()")
    state.show(desk, numbers)
    more = [line for line in shown(desk, "body") if re.sub("{.*?}", "{}", line) not in known]
    approved(f"desk/{state.name.replace(' ', '_')}", more)


def test_what_stands_around_each_page_is_approved(desk, approved):
    desk.at("/out").see("Reshelve")
    approved("desk/around", [desk.js("document.title"), *shown(desk, "header"), "----", *shown(desk, "footer")])
