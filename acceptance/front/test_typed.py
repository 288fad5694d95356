"""What people type finds the titles that they mean: the table of typed.txt, by the service's words, by its index and, for
names, by the desk's pages. And the examples of folding.json."""

import json
import re
import sqlite3
from pathlib import Path

import folding
import index
import pytest
import questions
import spellings
import years
from answers import Query

HERE = Path(__file__).parent
EXAMPLES = json.loads((HERE / "folding.json").read_text("utf-8"))
IN_A_PAGE = """import('/shared/folding.js').then(({ partsOf, isSameName }) => JSON.stringify(TABLE.map(([typed, title]) =>
  [partsOf(typed)(title), isSameName(title, title)])))"""


def pairs():
    """The table: language, what is typed, title, and whether it is found."""
    language = None
    for line in (HERE / "typed.txt").read_text("utf-8").splitlines():
        line = re.sub(r"\\u([0-9a-f]{4})", lambda found: chr(int(found[1], 16)), line)
        heading = re.match(r"\[(..)\]", line)
        found = re.fullmatch("(.*) (=/?>) (.*)", line)
        if heading:
            language = heading[1]
        elif found and not line.startswith("#"):
            yield language, found[1], found[3], found[2] == "=>"


TABLE = list(pairs())


DATES = re.findall("(?m)^([^#].*) => (.*)$", (HERE / "years.txt").read_text("utf-8"))


@pytest.mark.parametrize("text, wanted", DATES, ids=repr)
def test_years_as_archives_write_them(text, wanted):
    assert years.bounds_of(text) == (tuple(map(int, wanted.split())) if wanted != "-" else (None, None))


@pytest.mark.parametrize("typed, texts, span", [
    ("wedding 1890s", ["wedding", "1890s"], (1890, 1899)), ("Karte um 1850 Köln", ["Karte", "um 1850", "Köln"], (1845, 1855)),
    ("plans since 1850", ["plans", "since 1850"], (1850, 9999)), ("letters of 1850", ["letters", "of", "1850"], (1850, 1850)),
    ("between 1850 and 1860", ["between 1850 and 1860"], (1850, 1860)),
    ("naissances an V", ["naissances", "an V"], (1796, 1797)),
    ("Belgian refugees First World War", ["Belgian", "refugees", "First World War"], (1914, 1918)),
    ("Glocken im 1. Weltkrieg", ["Glocken", "im", "1. Weltkrieg"], (1914, 1918)), ("HDC/1850/3", ["HDC/1850/3"], None),
    ('"1890s" dock', ['"1890s"', "dock"], None), ("GB 0999", ["GB", "0999"], None), ("dock 12", ["dock", "12"], None)])
def test_years_among_the_words_that_were_typed(typed, texts, span):
    read = questions.read(typed)
    assert read.texts == texts
    assert [phrase.years for phrase in read.phrases if phrase.years] == ([span] if span else [])


def by_words(language, typed, title):
    """Whether the words that were typed stand in the title."""
    readings = folding.readings_of(title)
    return all(folding.occurs(phrase, readings) for phrase in folding.read_typed(typed, language))


def test_the_table_is_large_and_a_third_of_it_is_not_english():
    assert len(TABLE) >= 300
    assert sum(language != "en" for language, *_ in TABLE) * 3 >= len(TABLE)


@pytest.mark.parametrize("language, typed, title, found", TABLE, ids=[f"{row[0]}:{row[1]}" for row in TABLE])
def test_what_a_reader_types_finds_the_title_or_does_not(language, typed, title, found):
    assert by_words(language, typed, title) == found
    assert by_words(language, typed, title) or not by_words(None, typed, title)


def test_a_minus_leaves_out_the_word_that_was_typed_and_no_other_form_of_it():
    out, = questions.read("dock -letter", "en").without
    assert [folding.occurs(out, folding.readings_of(title)) for title in ("A letter", "Letters")] == [True, False]


def test_the_ways_in_which_a_word_is_written_begin_alike():
    """Else, as where a semicolon is lost between two of them, Samuel would be another Joseph."""
    ways = [group.split() for text in spellings.WAYS.values() for group in text.split(";")]
    odd = [" ".join(group) for group in ways if all(len({begin(way) for way in group}) > 1 for begin in (
        lambda way: way[0], lambda way: spellings.sound(way)[:1]))]
    assert odd == ["geoffrey jeffrey", "gaol jail"]


def test_the_index_proposes_each_title_that_is_found():
    db = sqlite3.connect(":memory:", isolation_level=None)
    db.executescript(index.TABLES)
    for number, (*_, title, _) in enumerate(TABLE, 1):
        db.execute("INSERT INTO unit(n, top) VALUES (?, 1)", (number,))
        db.execute("INSERT INTO words(rowid, head, body) VALUES (?, ?, '')", (index.row_of(1, number), index.words(title)))
    db.execute("UPDATE round SET changed = 1")
    for when in ("while the first round goes on", "after it"):
        lost = [(typed, title) for number, (language, typed, title, found) in enumerate(TABLE, 1) if found
                and number not in {one for _, one in index.propose(db, Query(folding.read_typed(typed, language)))}]
        assert lost == [], when
        index.finish(db)


@pytest.mark.browser
@pytest.mark.needs("chromium")
def test_a_clerk_finds_the_names_that_a_reader_finds(desk):
    wanted = [(typed, title) for language, typed, title, found in TABLE
              if found and by_words(None, typed, title) and not re.search(r"[\d½¼¾№*\"&]", typed)]
    assert len(wanted) > 150
    found = json.loads(desk.at("/").js(IN_A_PAGE.replace("TABLE", json.dumps(wanted))))
    assert [pair for pair, answer in zip(wanted, found) if answer != [True, True]] == []


@pytest.mark.parametrize("text, words", EXAMPLES["words"], ids=repr)
def test_the_words_of_a_text(text, words):
    assert folding.folded_words(text) == words


@pytest.mark.parametrize("typed, phrases", EXAMPLES["typed"], ids=repr)
def test_the_phrases_that_were_typed(typed, phrases):
    assert [[[list(words) for words in phrase.readings], phrase.begins] for phrase in folding.read_typed(typed)] == phrases


@pytest.mark.parametrize("typed, text, places", EXAMPLES["places"], ids=repr)
def test_the_places_in_a_text_that_are_marked(typed, text, places):
    """Whole letters, with their accents."""
    assert [text[begin:end] for begin, end in folding.places_of(folding.read_typed(typed), text)] == places
