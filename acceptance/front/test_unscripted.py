"""The readers' pages without scripts and without a browser: to the letter of what the program answers, and what vanishes at
once."""

import re
import urllib.parse

import pytest

from acceptance.front.asks import ask_once, fields_of, status
from acceptance.front.catalogue import archives, dock_company, harbour, wide
from acceptance.front.office import MANY_PAGES, READERS, SELDOM
from acceptance.front.site_pages import Tree, aid_of, elements_of
from acceptance.front.waits import until

CHANGES = [*MANY_PAGES, ("zone=record_office_readers burst=200", "zone=record_office_readers burst=6000")]


@pytest.fixture(scope="module")
def office(new_office, module_room):
    """An office with archives of several kinds; the index has read all of it."""
    files = archives(module_room, dock=dock_company(), harbour=harbour(), wide=wide(1100))
    office = new_office(changes=CHANGES, files=files, readers=SELDOM)
    until(office.count_rounds, "the only round is over", 5)
    return office


@pytest.fixture(scope="module")
def units(asks):
    """The text of each unit that is there, by its number."""
    asked = ((number, *asks.question(f"/public/units/{number}")) for number in range(1, 70))
    return {number: text for number, status, text in asked if status == 200}


def leads_to(office, path):
    """The status of an answer, and the address of the page to which it leads."""
    answer = ask_once(office.ports["8080"], "GET", path)
    return status(answer), urllib.parse.urlsplit(fields_of(answer).get("location", [""])[0]).path


def requests_and_bytes(office):
    """How many requests the queue has had from the service, and how many bytes it has answered."""
    told = office.queue_state("service", "FRONTEND")
    return int(told["req_tot"]), int(told["bout"])


def test_each_unit_has_what_the_program_tells_and_no_markup(asks, units):
    """Its head, its elements, its containers, what is below it, and nothing that came from the archive as markup."""
    for number in range(1, max(units) + 1):
        if number in units:
            unit(number, units[number], asks.text(f"/unit/{number}"))
        else:
            assert asks.question(f"/unit/{number}")[0] == 404


def unit(number, text, page):
    head, *lines = text.split("\n")[:-1]
    assert Tree(page).text("h1") == head, f"the head of unit {number}"
    told = {line[2:7]: line[2:] for line in lines if re.match(r"  3\.\d\.\d ", line)}
    elements = elements_of(page)
    for element, inner in elements:
        name, value = told[element].split(": ", 1)
        assert inner.replace(element, "", 1).split() == (name[6:] + " " + value).split(), f"{element} of {number}"
    assert sorted(element for element, _ in elements) == sorted(told), f"elements of {number}"
    boxes = [re.sub(r"\s+", " ", one[2]) for one in Tree(page).found if "data-box" in one[1]]
    assert boxes == [re.sub(r"\s+", " ", line[2:].replace(": ", " ", 1)) for line in lines
                     if line.startswith("  Cont")], f"containers of {number}"
    below = [f"  Unit {address[6:]}: {inner}" for address, inner in
             Tree(page[page.find('id="contents"'):]).links("/unit/[0-9]+")] if 'id="contents"' in page else []
    assert below == [line for line in lines if line.startswith("  Unit")][:100], f"contents of {number}"
    assert Tree(page).odd == [], f"nothing of {number} is markup"


def test_each_finding_aid_as_a_page_and_as_plain_text(asks, units):
    for number in units:
        page = asks.text(f"/aid/{number}")
        assert aid_of(page) == asks.text(f"/public/aid/{number}"), f"the finding aid of unit {number} to the letter"
        assert Tree(page).odd == [], f"nothing of aid {number} is markup"
    for path in ("/public/aid/1", "/public/aid/999999"):
        assert asks.question(path) == asks.question(path, True), f"{path} as the program answers it at the desk"


@pytest.mark.parametrize("path, kept", [("/search?q=plans&from=1800", "q=plans&from=1800&"), ("/fr/unit/1", "")])
def test_in_another_language_what_was_asked_for_stays(asks, office, path, kept):
    links = Tree(asks.text(path)).links(r"\?.*lang=.*")
    codes = [path.stem for path in (READERS / "po").glob("*.po")]
    assert sorted(address for address, _ in links) == sorted(f"?{kept}lang={code}" for code in codes)
    path = path.split("?")[0]
    assert leads_to(office, f"{path}?{kept}lang=de") == (302, f"/de{path.removeprefix('/fr')}")


@pytest.mark.parametrize("path", ["/", "/unit/1", "/unit/3", "/unit/9999", "/aid/1", "/aid/1/9?head=0", "/search?q=dock",
                                  "/search?q=zzz", "/help", "/ordered"])
def test_a_page_by_an_address_with_a_language_has_it_and_leads_to_none_in_another(asks, path):
    """Whatever the browser wishes, and was chosen before."""
    page = asks.send("GET", f"/de{path}", fields={"Cookie": "lang=fr", "Accept-Language": "es"})[1]
    ways = re.findall('<(?:a|form)[^>]* (?:href|action)="(/[^"]*)"', page)
    assert '<html lang="de"' in page and "/de/" in ways
    assert [way for way in ways if not way.startswith(("/de/", "/public/aid/"))] == []


def test_a_large_fonds_is_shown_without_its_finding_aid(asks, office):
    """And a unit of it with what it is part of, among more than a thousand."""
    top = next(int(line.split()[0]) for line in asks.text("/public/fonds").splitlines() if "WIDE [" in line)
    before, first = requests_and_bytes(office)
    page = [asks.text(f"/unit/{number}") for number in (top, top + 700)][1]
    asked, size = requests_and_bytes(office)
    assert asked - before <= 5, "two questions for the one, three for the other"
    assert size - first < len(asks.text(f"/public/aid/{top}")) / 2, "no finding aid was asked for"
    for part in ("Customs House", f'href="/unit/{top + 699}" rel="prev"', f'href="/unit/{top + 701}" rel="next"'):
        assert part in page, "what it is part of, and what is beside it"
    assert leads_to(office, f"/unit/{top + 700}/above") == (302, f"/unit/{top}")


def test_what_is_closed_or_withdrawn_is_gone_from_the_very_next_answer(asks, units):
    number, word = next((n, found[1]) for n, text in [*units.items()][1:]
                        if (found := re.search(r"\] (\w{6,})", text.split("\n")[0])))
    search = f"/search?q={urllib.parse.quote(word)}"
    until(lambda: f'/unit/{number}"' in asks.text(search), "the search has read it")
    for command, members, wanted in (("closure", {"until": "2099-12-31"}, 200),
                                     ("status", {"status": "draft", "branch": False}, 404)):
        asks.command(f"/desk/{command}", unit=number, **members)
        for path in (f"/unit/{number}", f"/de/unit/{number}", f"/unit/%3{str(number)[0]}{str(number)[1:]}"):
            found, text = asks.question(path)
            assert found == wanted and word not in text and 'content="noindex"' in text, (command, path, text[:900])
        assert f'/unit/{number}"' not in asks.text(search), f"{command}: the search"
        for other in units:
            if asks.question(f"/public/units/{other}")[0] == 404:
                continue
            text = re.sub("<title>.*", "", asks.text(f"/unit/{other}"))
            linked = set(map(int, re.findall(r'href="/unit/(\d+)"', text))) - {number}
            known = any(word in asks.text(f"/public/units/{n}") for n in {other, *linked})
            assert word not in text or known, f"{command}: unit {other} names something of it: {text[:300]}"
    asks.command("/desk/status", unit=number, status="published", branch=False)
    asks.command("/desk/closure", unit=number, until=None)
