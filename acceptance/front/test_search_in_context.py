"""Readers who type words of the fonds with words of the file, whole questions, a minus or OR."""

import json
from collections.abc import Iterator
from pathlib import Path
from typing import Any
from urllib.parse import urlencode

import pytest

from acceptance import client
from acceptance.front.asks import Asks
from acceptance.front.office import QUICK
from acceptance.front.searched import Searched
from acceptance.front.waits import until

pytestmark = pytest.mark.needs("nginx", "haproxy", "readers")

FILE = """legacyId,parentId,identifier,title,levelOfDescription,publicationStatus,eventDates,eventActors,scopeAndContent
1,,HAY,Haywood family papers,Fonds,Published,1790-1890,Edward Thackeray,
2,1,1,Photographs,Series,Published,,,
3,2,1,Wedding at St Mary,Item,Published,1871,,bride and groom
4,2,2,The old mill,Item,Published,1850,,
5,1,2,Diaries,Series,Draft,,,
6,5,1,Wedding diary,Item,Published,1872,,
7,1,3,Letters,Series,Published,,,
8,7,1,Wedding letters,Item,Published,1869,,
9,1,4,Notes on trout,Item,Published,,Jane Haywood,
10,1,5,Trout fishing,Item,Published,late 19th century,Jane Haywood,
11,1,6,Trout and salmon,File,Published,1893-96,,
20,,INF,Hull Royal Infirmary,Fonds,Published,1782-1948,,
21,20,1,Minute books of the board,Series,Published,,,
22,21,1,1832,File,Published,1832,,cholera in Hull
23,21,2,1849,File,Published,1849,,cholera; records of the dead
24,20,2,Plans,Series,Published,,,
25,24,1,Wedding gift to the matron,Item,Published,1901,,a Haywood clock
"""


@pytest.fixture(scope="module")
def office(program: client.Program, module_room: Path) -> Iterator[Searched]:
    """An office of two archives, in which unit 8 was closed before the round that the index has, and unit 4 after it."""
    file = module_room / "archives.csv"
    file.write_text(FILE)
    made = Searched.create(program, module_room / "office")
    made.import_file("a", file).expect_success()
    with made:
        made.tell("/desk/closure", {"unit": 7, "until": "2999-12-31"})
        made.serve_readers(*QUICK)
        made.await_rounds()
        yield made


def found(office: Searched, typed: str, **more: str) -> list[str]:
    """The ends of the codes of what has all that was typed, in order."""
    told = answer(office, typed, **more)
    heads = ["".join(unit["head"]) for unit in told["units"] if "lacking" not in told]
    return [head.split(" [")[0].removeprefix("GB 0999 ") for head in heads]


def answer(office: Searched, typed: str, **more: str) -> dict[str, Any]:
    status, body = office.ask_service(urlencode({"q": typed, "lang": "en", **more}))
    assert status == 200, body
    told: dict[str, Any] = json.loads(body)
    return told


@pytest.mark.parametrize(("typed", "wanted"), [
    ("Haywood wedding", ["INF/2/1", "HAY/1/1"]),  # its own text has both; then the fonds has one of them
    ("haywood mill", ["HAY/1/2"]),
    ("Infirmary minute book", ["INF/1"]),
    ("infirmary board 1832", ["INF/1/1"]),
    ("infirmary cholera", ["INF/1/1", "INF/1/2"]),
    ('"royal infirmary" cholera', ["INF/1/1", "INF/1/2"]),
    ("Haywood photographs bride", ["HAY/1/1"]),
    ("photographs", ["HAY/1"]),
], ids=str)
def test_words_of_the_fonds_and_of_the_file_find_the_file(office: Searched, typed: str, wanted: list[str]) -> None:
    """Who remembers the archive and a word of the file finds the file."""
    assert found(office, typed) == wanted


def test_the_creator_of_a_fonds_alone_does_not_bring_its_files(office: Searched) -> None:
    """A reader who types a creator and a word is not shown every file below."""
    assert found(office, "Thackeray") == ["HAY"]
    assert "lacking" in answer(office, "Thackeray wedding")


def test_nothing_below_a_draft_or_a_closed_unit_is_found_by_the_words_above_it(office: Searched) -> None:
    """What is closed stays closed, also to whom knows the archive."""
    assert found(office, "Haywood diary") == [] and found(office, "Haywood letters") == []


def test_what_was_closed_after_the_round_is_gone_from_the_very_next_answer(office: Searched) -> None:
    mill = answer(office, "haywood mill")["units"][0]["unit"]
    office.tell("/desk/closure", {"unit": mill, "until": "2999-12-31"})
    assert found(office, "haywood mill") == []
    office.tell("/desk/closure", {"unit": mill, "until": None})
    office.await_rounds()
    assert found(office, "haywood mill") == ["HAY/1/2"]


def test_a_question_in_words_finds_what_its_words_find(office: Searched) -> None:
    """"records about the cholera in Hull": about, the, in say nothing."""
    assert found(office, "the cholera in Hull") == found(office, "cholera Hull") == ["INF/1/1", "INF/1/2"]
    assert found(office, "the") == found(office, '"the"') != []


def test_if_nothing_has_all_words_the_units_that_have_most_are_shown(office: Searched) -> None:
    told = until(lambda: [it for it in [answer(office, "accounts about the cholera in Hull")] if "lacking" in it],
                 "there was time to look for it")[0]
    assert told["lacking"] == ["accounts"] and len(told["units"]) == 2
    assert "lacking" not in answer(office, "cholera") and "lacking" not in answer(office, "accounts")
    told = answer(office, "Edward Thackeray wedding")  # who made the fonds; what is closed there is not told
    assert (told["lacking"], len(told["units"])) == (["Edward", "Thackeray"], 1)


@pytest.mark.parametrize(("typed", "more", "wanted", "undated"), [
    ("trout 1890s", {}, ["HAY/5", "HAY/6"], 1),
    ("trout", {"from": "1894", "to": "1895"}, ["HAY/5", "HAY/6"], 1),
    ("trout", {"from": "1910s"}, [], 1),
    ("trout 1894", {"level": "File"}, ["HAY/6"], 0),
    ("photographs 1870s", {}, ["HAY/1/1"], 1),  # the year is the file's, the word that of the series
    ("trout 1890s", {"undated": "1"}, ["HAY/4"], None),
    ("", {"from": "1899", "to": "1899", "level": "Item"}, ["HAY/5"], None),
    ("trout", {"creator": "Jane Haywood"}, ["HAY/4", "HAY/5"], None),
    ("haywood wedding", {"order": "date"}, ["INF/2/1", "HAY/1/1"], None),  # what stands in context comes after the others
    ("haywood wedding", {"in": "1"}, ["HAY/1/1"], None),  # words above count inside the archive that was chosen
], ids=str)
def test_years_levels_and_creators(office: Searched, typed: str, more: dict[str, str], wanted: list[str],
                                   undated: int | None) -> None:
    """Years in texts or dates; and how many have no year is told, one click away."""
    assert found(office, typed, **more) == wanted and answer(office, typed, **more).get("undated") == undated


def test_what_the_units_have_is_counted_and_leads_to_them(office: Searched) -> None:
    facets = answer(office, "trout")["facets"]
    assert facets["level"] == [["Item", 2], ["File", 1]]
    assert facets["creator"] == [["Jane Haywood", 2], ["Edward Thackeray", 1]]
    assert facets["decade"] == [[year, 1 + (year == 1890)] for year in range(1860, 1910, 10)], facets
    cut = answer(office, "trout", **{"from": "1865", "to": "1905"})["facets"]  # a link to a decade finds as many as it says
    assert [year for year, _ in cut["decade"]] == [1870, 1880, 1890], cut
    page = Asks(office).send("GET", "/search?q=trout", fields={"Accept-Language": "en"})[1]
    assert "q=trout&amp;from=1890&amp;to=1899" in page and "q=trout&amp;level=File" in page


def test_a_minus_leaves_out_and_or_means_either(office: Searched) -> None:
    assert found(office, "wedding -clock") == ["HAY/1/1"]
    assert found(office, "mill OR clock") == ["HAY/1/2", "INF/2/1"]
    assert found(office, "cholera -dead") == ["INF/1/1"]
    assert found(office, "1832 -1849") == found(office, "1832-1849") != [], "a hyphen before a number is none"
