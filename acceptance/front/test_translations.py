"""Both sites in each language: nothing is said without a key, no word is too long for its place on a phone, and what
chooses the language.

What has no key is found in a language of its own, Hebrew by name: each text of its catalog is the English one in brackets, and
the pages are laid out from right to left."""

import json
import re
import shutil

import pytest

from acceptance.front import catalogs
from acceptance.front import office as offices
from acceptance.front.catalogue import archives, dock_company
from acceptance.front.measured import Measured
from acceptance.front.office import FRONT, MANY_PAGES
from acceptance.front.page_states import DESK, STATES, settle
from acceptance.front.spoken import BRACKETS, Spoken, Texts

pytestmark = [pytest.mark.browser, pytest.mark.needs("chromium")]

CODES = sorted(path.stem for path in (FRONT / "readers/po").glob("*.po"))
PHONE, TABLET = (320, 800, 1, True), (768, 800, 1, False)
NAMES = {"en": "Hull Record Office", "de": "Archiv Hull"}  # of the office
# The texts of the archive that are said to be in some language.
OWN = """[...document.querySelectorAll('main .words:not(.from)')].flatMap((one) => {
  const walker = document.createTreeWalker(one, NodeFilter.SHOW_TEXT);
  const found = [];
  for (let text = walker.nextNode(); text; text = walker.nextNode()) {
    const isWords = /\\p{L}/u.test(text.data) && !one.querySelector('time');
    if (isWords && text.parentElement.closest('[lang]').lang !== '') found.push(text.data);
  }
  return found;
})"""
UNSCRIPTED = """[...document.querySelectorAll('noscript')].map((one) => one.textContent)
  .filter((text) => !text.includes('⟦'))"""
STATIC = ("public/away.html", "public/often.html", "public/not-from-here.html", "desk/signed-out.html")
LANGUAGE = "document.documentElement.lang"


@pytest.fixture(scope="module")
def office(new_office, module_room):
    """An office with archives and a name in two languages, whose service has the language in brackets, too."""
    for name in ("readers", "shared"):  # the service reads its tables of letters there
        shutil.copytree(FRONT / name, module_room / "front" / name, ignore=shutil.ignore_patterns("__pycache__"))
    catalogs.write_brackets(module_room / f"front/readers/po/{BRACKETS}.po", catalogs.texts_of_pages())
    (module_room / "office.json").write_text(json.dumps({"name": NAMES, "hours": "9 to 5"}))
    with pytest.MonkeyPatch.context() as patched:
        patched.setattr(offices, "READERS", module_room / "front/readers")
        office = new_office(tries=True, files=archives(module_room, catalogue=dock_company()), changes=MANY_PAGES)
        office.words = module_room / "office.json"
        office.serve_readers()
        yield office


@pytest.fixture(scope="module")
def numbers(asks):
    return settle(asks)


@pytest.fixture
def speak(hall, desk, office):
    """A function that gives both tabs, in a language: a reader's and the desk's."""

    def both(code):
        texts = Texts(office, code)
        return Spoken(hall, texts), Spoken(desk, texts)

    return both


@pytest.mark.parametrize("state", [one for one in STATES if one.name != "no orders"], ids=str)  # wrong secrets are limited
def test_a_page_has_room_for_its_words_in_each_language_and_a_key_for_each_text(request, office, numbers, shot, state):
    """On a phone and a tablet. Brackets make words longer than a language does."""
    tab, broken = request.getfixturevalue("hall" if state.site == "readers" else "desk"), {}
    for code in (*CODES, BRACKETS):
        page = Spoken(tab, Texts(office, code))
        state.show(page, numbers)
        measured = Measured(tab)
        direction = tab.js(f"[{LANGUAGE}, document.documentElement.dir]")
        measured.note("3.1.1 another language", direction != [code, "rtl" if code == BRACKETS else "ltr"] and direction)
        measured.note("3.1.2 a text of the archive in a language", tab.js(OWN))
        for size in (TABLET, PHONE):
            tab.size(*size)
            tab.wait(f"innerWidth === {size[0]}")
            over = tab.js("document.documentElement.scrollWidth - innerWidth")
            measured.note(f"1.4.10 pixels that run over at {size[0]}", over)
            measured.measure(f"days that go on in the next line at {size[0]}", "parted")
            if code != BRACKETS:
                measured.measure(f"tables that scroll sideways at {size[0]}", "scrolled")
                measured.measure(f"words too long for their places at {size[0]}", "long")
                shot(tab, f"{code}-{state}-{size[0]}")
        if code == BRACKETS:
            measured.measure("texts without a key", "unkeyed")
            if state.site == "desk":
                measured.note("a title without a key", re.sub("⟦[^⟦⟧]*⟧|[–0-9 ]", "", tab.js("document.title")))
            else:
                measured.note("what is said without scripts has no key", tab.js(UNSCRIPTED))
        measured.measure("marks that stand twice", "doubled")
        if code == "fr":
            measured.measure("marks without their space", "unspaced")
        broken |= {f"{code}: {rule}": found for rule, found in measured.broken.items()}
        tab.size(*DESK)
        tab.answer_with(None, 0, b"")
        tab.js("sessionStorage.clear()")
    assert not broken


@pytest.mark.parametrize("code", CODES)
def test_elements_have_their_names_and_days_are_written_as_the_language_writes_them(speak, asks, numbers, code):
    hall, desk = speak(code)
    names = hall.page.visit(f"/unit/{numbers.fonds}").js(
        "[...document.querySelectorAll('[data-element]')].map((one) => [one.dataset.element, "
        "one.querySelector('dt').firstChild.data.trim()])")
    english = dict(re.findall(r"^  (\d\.\d\.\d) ([^:]+): ", asks.text(f"/public/units/{numbers.fonds}"), re.M))
    assert names == [[number, hall.texts.say(english[number])] for number, _ in names] and len(names) > 5
    wanted = {"en": "1 January 2040", "fr": "1er janvier 2040"}.get(code, "2040")
    hall.page.visit(f"/unit/{numbers.closed}").see(wanted, "h1")
    desk.page.at(f"/units/{numbers.closed}").see(wanted, "main .head")


@pytest.mark.parametrize("code, direction", [("en", "ltr"), (BRACKETS, "rtl")])
def test_titles_stand_in_their_own_direction(hall, numbers, code, direction):
    """Those from right to left in an English page, and English ones in a page from right to left."""
    hall.visit(f"/?lang={code}")
    for unit, wanted in ((numbers.hebrew, "rtl"), (numbers.minutes, "ltr")):
        told = hall.visit(f"/unit/{unit}").js("[document.body, document.querySelector('h1 .title')]"
                                              ".map((one) => getComputedStyle(one).direction)")
        assert told == [direction, wanted]


def test_the_desk_keeps_the_language_that_was_chosen(desk):
    """By the address or a link; one that there is not is the browser's."""
    desk.visit("/?lang=es#/units")
    assert desk.js(f"[{LANGUAGE}, location.search, location.hash]") == ["es", "", "#/units"]
    assert desk.at("/units").js(LANGUAGE) == "es"
    desk.js("document.querySelector('.languages [lang=fr]').click()")
    desk.wait(f"{LANGUAGE} === 'fr' && document.querySelector('main h1')?.innerText === 'Unités'")
    assert desk.js("location.hash") == "#/units"
    assert desk.visit("/?lang=xx").js(LANGUAGE) == "en"


def test_the_desk_stays_in_its_language_without_the_readers_service(desk, office):
    """And is English without its files, or with one that is broken."""
    texts = office.folder / "texts"
    desk.visit("/?lang=de")
    with office.without_readers():
        desk.at("/units").see("Einheiten", "main h1")
        for path in texts.glob("*.json"):
            path.unlink()
        desk.at("/units").see("Units", "main h1")
        assert desk.js("document.querySelectorAll('.languages a').length") == 0, "there is nothing to choose"
        (texts / "de.json").write_text("{")
        desk.at("/units").see("Units", "main h1")


@pytest.mark.parametrize("name", STATIC)
def test_a_page_that_nginx_sends_by_itself_has_each_language(name):
    """And each as much."""
    found = re.findall('<section lang="(..)">(.*?)</section>', (FRONT / name).read_text("utf-8"), re.S)
    assert sorted(["en", *(code for code, _ in found)]) == CODES
    assert len({tuple(re.findall("<[^>]+>", text)) for _, text in found}) == 1
