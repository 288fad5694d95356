"""Every refusal of the program's own list has its words; all that can be reached are met through the desk's pages.

The office has the SETTINGS of acceptance/client.py: 2 seats, 3 orders of a ticket in a day, one container in hand, and runs of
two. Its units and containers have the numbers from 1 on, each unit one container."""

import re
from collections.abc import Iterable
from typing import Any

import orders as readers_words
import pytest
from wording import read_rules

from acceptance import client
from acceptance.front import catalogue
from acceptance.front.office import TOP
from acceptance.reference_model import limits as most

pytestmark = [pytest.mark.browser, pytest.mark.needs("chromium")]

# What the text of each refusal must say, so that no text stands at another's name.
TELLING = {1: "no unit", 2: "no ticket", 3: "no container", 4: "expired", 5: "not open", 6: "already", 7: "all the orders",
           8: "Every seat", 9: "has a seat already", 10: "has no seat", 11: "still has containers", 12: "no order",
           13: "no longer waiting", 14: "not at the desk", 15: "not the first", 16: "as many containers", 17: "not out",
           18: "not later", 19: "still out", 20: "below itself", 21: "would close", 22: "not imported", 23: "limits",
           24: "nothing to move", 25: f"{most.DEEPEST} levels", 26: "no run", 27: "name cannot be used", 28: "no permit"}
TOLD_READERS = {"UnknownTicket": "no reader’s ticket", "TicketExpired": "expired", "NotAvailable": "closed or not yet",
                "AlreadyOrdered": "already", "DailyLimit": "all the orders", "Full": "no more"}
RULES = read_rules()
BOXES = most.MOST_PERMITS + 5  # units with permits, one more and some others; then the deepest branch that there may be
UNREACHED = {26}  # the program answers an unknown run with 404, which has words of its own


def read_list():
    text = (TOP / "docs/RULES.md").read_text().split("### Refusals\n", 1)[1].split("\n### ", 1)[0]
    return {int(number): name for number, name in re.findall(r"^\| (\d+) \| ([A-Z][A-Za-z]+) \|", text, re.M)}


NAMES = read_list()


@pytest.fixture(scope="module")
def office(new_office, module_room):
    """An office with many units, a deep branch, and few seats."""
    files = catalogue.archives(module_room, boxes=catalogue.many(BOXES), deep=catalogue.deep(most.DEEPEST))
    return new_office(tries=True, files=list(files)[1:], settings=client.SETTINGS)


# The lists

def test_the_desk_has_two_sentences_for_each_refusal_of_the_program_and_for_no_other(desk):
    table = desk.at("/").js("import('/shared/refusals.js').then((told) => told.DESK)")
    assert sorted(NAMES) == list(range(1, 29))
    assert sorted(table) == sorted(NAMES.values())
    for means, todo in table.values():
        assert re.fullmatch(r"[A-Z“].*[.]", means, re.S) and re.fullmatch(r"[A-Z“].*[.]", todo, re.S), (means, todo)
    assert [number for number, words in TELLING.items() if words not in table[NAMES[number]][0]] == []
    assert len({means for means, _ in table.values()}) == 28


def test_the_limits_of_the_pages_and_of_a_file_are_those_of_the_rules(desk):
    shown = desk.at("/").js("import('/shared/limits.js').then((told) => ({...told}))")
    assert shown == {name: most.LONGEST_BODY if name == "LARGEST_FILE" else getattr(most, name) for name in shown}
    assert {name: RULES["limits"][name] for name in ("rows", "field", "depth")} == {
        "rows": most.LAST_ROW - 1, "field": most.MOST_BYTES, "depth": most.DEEPEST}
    assert list(RULES["causes"]) == [*map(str, range(1, 8)), "7 equal", *map(str, range(8, 13))]


def test_a_reader_never_sees_the_number_of_a_refusal():
    told = {**readers_words.REFUSALS, "": readers_words.OTHER}
    assert [text for text in told.values() if not re.fullmatch(r"[A-Z][^0-9{}]+\.", text)] == []
    assert [name for name, words in TOLD_READERS.items() if words not in told[name]] == []
    assert set(told) - set(NAMES.values()) == {""}


# Refusals that are met through the pages

Command = tuple[str, dict[str, Any]]


def order(who: str, container: int) -> Command:
    return "/public/orders", {"ticket": who, "container": container}


def seat(who: str) -> Command:
    return "/desk/seat", {"ticket": who}


RUN: Command = ("/desk/run", {})
OUT = (order("a", 1), RUN, seat("a"), ("/desk/issue", {"ticket": "a", "container": 1}))  # a has container 1 in hand
PERMITS = [("/desk/permit", {"ticket": "a", "unit": unit, "until": "2030-01-01"}) for unit in range(1, most.MOST_PERMITS + 1)]
# Its number, what is done before, and where: page, card, fields and button. {a}, {b} and {c} are new readers' tickets, {old}
# has expired, and {order} is the number that was given last.
CASES: list[tuple[int, Iterable[Command], str, str | None, dict[str, Any], str]] = [
    (1, (), "/units/9999", "Status", {"Published": True}, "Set the status"),
    (2, (), "/counter", "A reader arrives", {"Ticket": "9999"}, "Give a seat"),
    (3, (), "/counter", "Take back", {"Container": "9999"}, "Take back"),
    (4, (), "/counter", "A reader arrives", {"Ticket": "{old}"}, "Give a seat"),
    (5, (), "/orders", "Place an order", {"Ticket": "{a}", "Container": "999"}, "Order"),
    (6, (order("a", 1),), "/orders", "Place an order", {"Ticket": "{a}", "Container": "1"}, "Order"),
    (7, (order("a", 1), order("a", 2), order("a", 3)), "/orders", "Place an order", {"Ticket": "{a}", "Container": "4"},
     "Order"),
    (8, (seat("a"), seat("b")), "/readers/{c}", "Seat", {}, "Give a seat"),
    (9, (seat("a"),), "/readers/{a}", "Seat", {}, "Give a seat"),
    (10, (), "/readers/{c}", "Seat", {}, "Free the seat"),
    (11, OUT, "/counter", "A reader leaves", {"Ticket": "{a}"}, "Free the seat"),
    (12, (), "/orders", "Cancel an order", {"Order": "9999"}, "Cancel the order"),
    (13, (order("a", 1), ("/desk/cancel", {"order": "order"})), "/orders", "Cancel an order", {"Order": "{order}"},
     "Cancel the order"),
    (14, (order("a", 1), seat("a")), "/counter", "Issue", {"Ticket": "{a}", "Container": "1"}, "Issue"),
    (15, (order("a", 1), order("b", 1), RUN, seat("b")), "/counter", "Issue", {"Ticket": "{b}", "Container": "1"}, "Issue"),
    (16, (order("a", 2), *OUT), "/counter", "Issue", {"Ticket": "{a}", "Container": "2"}, "Issue"),
    (17, (), "/counter", "Take back", {"Container": "2"}, "Take back"),
    (18, (), "/", "Open a new day", {"The new day": "2024-03-01"}, "Open the day"),
    (19, OUT, "/", "Open a new day", {"The new day": "2024-03-05"}, "Open the day"),
    (20, (), f"/units/{BOXES + 1}", "Move", {"Below which unit": str(BOXES + 2)}, "Move"),
    (21, OUT, "/units/1", "Closure", {"Closed until": "2030-01-01"}, "Set the closure"),
    (23, PERMITS, "/readers/{a}", "Give a permit",
     {"Unit": str(most.MOST_PERMITS + 1), "Last day of the permit": "2030-01-01"}, "Give a permit"),
    (24, (), "/runs", None, {}, "Begin a run"),
    (25, (), "/units/1", "Move", {"Below which unit": str(BOXES + most.DEEPEST)}, "Move"),
    (27, (), "/readers", "Register a reader", {"Name": "   ", "Last day of the ticket": "2030-01-01"}, "Register"),
]
# What is said in place of the words of the list, where the page knows more.
MORE = {21: ("A reader has a container in hand that this would close to that reader. It is container 1.",
             "Take the container back first"),
        23: (f"The reader has {most.MOST_PERMITS} permits", "Take a permit away on the reader’s card first."),
        24: ("There is nothing to fetch", "There is nothing to do now.")}


@pytest.fixture
def names(state):
    """The tickets of three new readers and of one whose ticket has expired; the desk is empty."""
    state.empty()
    return {who: state.register(who.upper()) for who in "abc"} | {
        "old": state.asks.command("/desk/register", name="Old", until="2024-02-01")["ticket"]}


def sees_refusal(desk, code, note=".note.refused"):
    """Waits for a note, which must have the words of this refusal."""
    desk.wait(f"document.querySelector('{note} strong')")
    words = MORE.get(code) or desk.js(f"import('/shared/refusals.js').then((told) => told.DESK.{NAMES[code]})")
    seen = " ".join(desk.text(note).split())
    assert words[0] in seen and words[1] in seen, (NAMES[code], seen)


@pytest.mark.parametrize("code, given, hash_, card, fields, button", CASES, ids=[NAMES[case[0]] for case in CASES])
def test_a_refusal_is_told_at_the_desk(desk, asks, names, code, given, hash_, card, fields, button):
    for path, members in given:
        names |= asks.command(path, **{name: names.get(value, value) for name, value in members.items()})
    desk.at(hash_.format(**names))
    for label, value in fields.items():
        if value is True:
            desk.choose(label, card)
        else:
            desk.fill(label, value.format(**names), card)
    desk.press(button, card)
    if button == "Open the day":
        desk.see("cannot be taken back", "dialog")
        desk.press(f"Open {fields['The new day']}", "dialog")
    sees_refusal(desk, code)


def test_a_bad_file_is_refused_by_its_row_and_cause(desk, room):
    (room / "bad.csv").write_text(catalogue.BAD_FILE)
    desk.at("/import").file(room / "bad.csv")
    desk.see("In 1 row, the parent is not in this file")
    desk.choose("Take it in all the same")
    desk.press("Import the file")
    desk.see("The file was not imported, and nothing of it was used. Row 3 (3 in the spreadsheet), legacyId 2")
    desk.see(RULES["causes"]["11"][1], ".outcome .note.refused")


def test_a_permit_that_somebody_else_took_away_is_no_permit(desk, asks, names):
    asks.command("/desk/permit", ticket=names["a"], unit=1, until="2030-01-01")
    desk.at(f"/readers/{names['a']}")
    asks.command("/desk/revoke", ticket=names["a"], unit=1)
    desk.press("Take away the permit for unit 1")
    sees_refusal(desk, 28)


def test_all_refusals_that_can_be_met_are_met_here():
    assert set(NAMES) - {case[0] for case in CASES} - {22, 28} == UNREACHED


@pytest.mark.parametrize("hash_, ways", [("/runs/99", ["All runs"]), ("/readers/99999", ["Find a reader"]),
                                         ("/counter/999", ["Back to the counter"])])
def test_a_page_of_what_there_is_not_has_nothing_but_a_way_on(desk, hash_, ways):
    desk.at(hash_).see("There is nothing with this number.")
    assert desk.js("[...document.querySelectorAll('main :is(a, button)')].map((one) => one.innerText)") == ways
