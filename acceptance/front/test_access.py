"""Access by the rules of WCAG 2.2, level AA, that a script can judge, on every kind of page of both sites; front/README.md
says what only a person can. The numbers are those of the success criteria; measures.js does the measuring."""

import pytest

from acceptance.front.catalogue import archives, dock_company
from acceptance.front.measured import ZOOMED, Measured
from acceptance.front.office import FRONT, MANY_PAGES
from acceptance.front.page_states import DESK, STATES, settle

pytestmark = [pytest.mark.browser, pytest.mark.needs("chromium")]

UNSCRIPTED = [one for one in STATES if one.site == "readers" and all(name == "js" for name, *_ in one.steps)]


@pytest.fixture(scope="module")
def office(new_office, module_room):
    office = new_office(readers=True, tries=True, files=archives(module_room, catalogue=dock_company()), changes=MANY_PAGES)
    office.await_rounds(1)
    return office


@pytest.fixture(scope="module")
def numbers(asks):
    """What is where in the office, in which each page has something to show."""
    return settle(asks)


@pytest.mark.parametrize("state", STATES, ids=str)
def test_a_page_can_be_used_without_seeing_hearing_or_a_mouse(request, numbers, shot, state):
    """By keys, by a screen reader, enlarged, in other colours and on paper."""
    page = request.getfixturevalue("hall" if state.site == "readers" else "desk")
    state.show(page, numbers)
    measured = Measured(page)
    measured.structure()
    measured.sizes(("1.4.12 what is cut off when letters are wider apart", "spaced"))
    measured.colours(state.site)
    if state.name != "question":  # nobody prints a dialog
        measured.paper()
    page.call("Emulation.setEmulatedMedia", media="", features=[])
    measured.measure("2.3.3 what moves", "moving")
    for size in (DESK, ZOOMED):
        page.size(*size)
        measured.walk(f"{size[0]} wide")
    shot(page, f"phone-{state}")
    assert not measured.broken


@pytest.mark.parametrize("state", UNSCRIPTED, ids=str)
def test_a_page_can_be_used_so_without_scripts_too(hall, numbers, state):
    hall.call("Emulation.setScriptExecutionDisabled", value=True)
    state._replace(steps=()).show(hall, numbers)
    measured = Measured(hall)
    measured.structure()
    for measure in ("contrast", "edges"):
        measured.measure(measure, measure)
    hall.call("Emulation.setEmulatedMedia", media="print")
    measured.measure("what is printed", "printed")
    hall.call("Emulation.setEmulatedMedia", media="")
    measured.sizes()
    measured.walk("without scripts")
    assert not measured.broken


def test_the_page_that_is_shown_after_signing_out_can_be_read(desk):
    desk.at("/").answer_with("*/sign-out", 200, (FRONT / "desk/signed-out.html").read_bytes())
    desk.visit("/sign-out", "document.querySelector('h1')")
    measured = Measured(desk)
    measured.measure("1.4.3 contrast", "contrast")
    assert not measured.broken
    assert desk.js("document.documentElement.scrollWidth - innerWidth") == 0
    assert desk.js("[document.documentElement.lang, document.title]") == ["en", "Signed out \u2013 The desk"]
