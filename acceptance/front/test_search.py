"""The search in all archives where random sessions do not go: its bounds, hostile questions, kills, a damaged index."""

import collections
import contextlib
import json
import os
import pathlib
import random
import sqlite3
import threading
import time
from types import SimpleNamespace
from urllib.parse import quote, urlencode

import answers
import index
import offers
import pytest
import turns
from answers import Finder, Query
from asking import Asking, Unreached
from folding import read_typed
from turns import Late, Turns

from acceptance import client
from acceptance.front.office import ARCHIVES, QUICK
from acceptance.front.searched import Searched
from acceptance.front.stand_in import StandIn
from acceptance.front.waits import until

HEADER = "legacyId,parentId,identifier,title,levelOfDescription,publicationStatus,eventDates,scopeAndContent\n"
HOSTILE = ['"', '""', "*", "dock*", "AND", "OR NOT", "NEAR(dock plans)", "head:dock", "{head body}:dock", "^dock",
           "-dock", "dock + plans", "(", "')--",
           "dock\0plans", "\0", "\u202edock", "\u05d3\u05d5\u05e7", "e\u0301\u0301\u0301", "\u0301", "\ufb01",
           "\U0001f4dc", "\ue000", "a" * 5000, "a " * 2000,
           '"' * 999, "* " * 99, "\u2028", "1e309", "%", "dock\n", ";dock", "&q=dock", "a* b* c* d* e* f* g* h*",
           "\ufdfa", "\u0130"]
RAW = ["q=%ff%fe", "q=%", "q", "=", "", "q=dock&q=plans", "in=0&from=1&to=2&after=0-99999999999&q=dock",
       "&".join("x=1" for _ in range(50)),
       "q=" + "%00" * 2000, "after=1-1&q=dock", "after=0-9999999999&q=dock", "after=2-1&q=dock",
       "in=999&q=dock", "q=dock&" + "&".join(f"utm_{n}=x" for n in range(20)),
       "q=%ed%a0%80dock"]
UNREAD = {"from=x&q=dock": ["from"], "from=1900&to=1800s&q=dock": ["years"], "in=x&to=-1&q=dock": ["in", "to"],
          "after=%D9%A1-1&q=dock": ["after"],
          "order=x&q=dock": ["order"], "after=0-99999999999999999999&q=dock": ["after"]}


@pytest.fixture(autouse=True)
def patience(monkeypatch):
    """What is counted is the same, and nobody waits too long, however slow the machine is."""
    monkeypatch.setattr(answers, "COUNTING", 100)
    monkeypatch.setattr(turns, "PATIENCE", 100)


class Deliberate(StandIn):
    """Takes a while for an answer, of which a round rests four times as long."""

    def reply_to(self, head, body):
        time.sleep(.05)
        return super().reply_to(head, body)


def turns_taken(who, each, begin=0):
    """So many searches of an address at once, each of which takes a while: when each began, once all are over."""
    began = []

    def search():
        with who[0].turn(*who[1:]):
            began.append(time.monotonic() - begin)
            time.sleep(.2)
    threads = [threading.Thread(target=search) for _ in range(each)]
    for thread in threads:
        thread.start()
    return threads, began


def test_who_searches_much_keeps_only_itself_waiting():
    it, begin = Turns(), time.monotonic()
    threads, stranger = turns_taken((it, "192.0.2.1"), 12, begin)
    until(lambda: len(stranger) >= 2, "the first two search")
    waited = []
    for n in range(8):
        asked = time.monotonic() - begin
        mine, began = turns_taken((it, f"192.0.2.{n + 2}"), 1, begin)
        mine[0].join()
        waited.append(began[0] - asked)
    for thread in threads:
        thread.join()
    assert max(waited) < .5, ("eight readers beside it wait for one search at most", waited)
    assert sorted(stranger)[2] > .15 and sorted(stranger)[-1] > .9, ("two of its own at a time", stranger)


def taken(it, who, costly, order):
    """Waits for a turn, and keeps whose it was for a while, so that the next one comes after it."""
    with it.turn(who, costly=costly):
        order.append(who)
        it.busy += 3
        time.sleep(.1)
        it.busy -= 3


def test_who_has_taken_most_goes_last():
    it = Turns()
    for thread in turns_taken((it, "192.0.2.1"), 10)[0]:
        thread.join()
    order, hurried = [], []
    with (it.turn("198.51.100.1") as is_awaited, it.turn("198.51.100.2"), it.turn("198.51.100.3"),
          it.turn("198.51.100.4")):
        threads = [threading.Thread(target=taken, args=(it, who, costly, order))
                   for who, costly in (("192.0.2.1", False), ("203.0.113.1", True), ("203.0.113.2", False))]
        for thread in threads:
            thread.start()
            until(lambda: len(it.waiting) == len(hurried) + 1, "it waits")
            hurried.append(is_awaited())
    for thread in threads:
        thread.join()
    assert order == ["203.0.113.2", "203.0.113.1", "192.0.2.1"], "the cheap one first, whoever has taken most last"
    assert hurried == [False, True, True], "whoever has taken much hurries nobody"


@contextlib.contextmanager
def all_places(it):
    """A context in which four others search."""
    with it.turn("198.51.100.1"), it.turn("198.51.100.2"), it.turn("198.51.100.3"), it.turn("198.51.100.4"):
        yield


def test_who_searches_in_a_reading_room_has_taken_an_eighth():
    """Else one of its readers would wait for all others."""
    it = Turns()
    for address, is_room in (("192.0.2.1", True), ("192.0.2.2", False)):
        with it.turn(address, is_room):
            time.sleep(.2)
    assert it.spent["192.0.2.1"][0] * 4 < it.spent["192.0.2.2"][0]


def test_who_asks_once_at_a_time_waits_for_one_search_at_most_beside_twenty_addresses_at_their_limit(monkeypatch):
    """Also who has taken more than any of these, since its searches take longer."""
    it, now, waits, goes, mine, came, again = Turns(), 0.0, [], {}, None, 0.0, 1.0
    monkeypatch.setattr(turns, "time", SimpleNamespace(monotonic=lambda: now))
    for step in range(800):
        now = step / 10
        with it.lock:
            for search in [search for search, end in goes.items() if now >= end]:
                it.end(search)
                del goes[search]
            many = collections.Counter(search.who[0] for search in (*it.waiting, *goes))
            for n in range(step % 5, 20, 5):  # each twice a second
                for _ in range(4 - many[str(n)]):
                    it.enter(str(n))
            if mine is None and now >= again:
                mine, came = it.enter("mine"), now
            while search := it.next():
                it.begin(search)
                goes[search] = now + (1.6 if search is mine else .8 + search.number % 7 / 10)
                waits += [now - came] * (search is mine)
        if mine and mine not in it.waiting and mine not in goes:
            mine, again = None, now + .5
    assert len(waits) > 30 and max(waits) <= 1.4, waits


def test_of_ipv6_a_house_is_one_and_its_networks_are_within_it():
    it, order = Turns(), []
    with it.turn("2001:db8:0:1::1"):
        time.sleep(.3)
    with all_places(it):
        threads = [threading.Thread(target=taken, args=(it, who, False, order))
                   for who in ("2001:db8:0:1::2", "2001:db8:0:ff::1", "2001:db8:0:100::1")]
        for many, thread in enumerate(threads):
            thread.start()
            until(lambda many=many: len(it.waiting) == many + 1, "it waits")
    for thread in threads:
        thread.join()
    assert order == ["2001:db8:0:100::1", "2001:db8:0:ff::1", "2001:db8:0:1::2"], "another house, another network, the same"


def test_if_too_many_wait_one_of_whom_has_most_of_them_is_refused():
    it, refused, answered = Turns(), [], []

    def search(who):
        try:
            with it.turn(who):
                answered.append(who)
        except Late:
            refused.append(who)
    with all_places(it):
        readers = [f"203.0.113.{n}" for n in range(1, 7)]
        for who in [f"192.0.2.{n % 20}" for n in range(60)] + readers:
            threading.Thread(target=search, args=(who,)).start()
        until(lambda: len(refused) == 26, "those that are too many are refused at once")
    until(lambda: len(answered) == 40, "the others are answered")
    assert set(readers) <= set(answered), "who searches once is, however many others search"


def test_how_the_office_is_asked(room):
    """Rounds after everybody else, at rest for four fifths of the time; readers for so long only."""
    odd = {"/shut": client.reply(404, b""), "/broken": client.reply(502, b""), "/busy": client.BUSY}
    with Deliberate(room / "office.sock", b"lines", lambda head: "/gone" in head, at_once=2, answers=odd) as office:
        ask, began = Asking(room / "office.sock", 4), time.monotonic()
        assert [ask("/one"), ask("/shut")] == ["lines", None], "what is shown, and what is not"
        assert time.monotonic() - began > 4.5 * ask.busy > .4, ("a round rests", (time.monotonic() - began, ask.busy))
        assert all("Record-Office-For: round" in head for head, _ in office.requests), "a round asks after everybody else"
        for path, raised in (("/broken", "Unreached"), ("/gone", "Unreached"), ("/busy", "Busy")):
            assert failure(ask, path) == raised, f"{path} is no answer"
        reader = Asking(room / "office.sock")
        reader.until = time.monotonic() + 30
        assert reader("/reader") == "lines", "a reader's question"
        assert "Record-Office-For: search" in office.requests[-1][0], "pages go before it, and it before rounds"
        reader.until = time.monotonic()
        assert failure(reader, "/late") == "Slow", "a reader's time is over"


def failure(ask, path):
    """The answer to a question, or the name of what it raised."""
    try:
        return ask(path)
    except Unreached as lost:
        return type(lost).__name__


def make_bounded(new_office, folder):
    """An office with 420 letters, and an index of them."""
    rows = "".join(
        f"{n},{1 if n > 1 else ''},{n},dock letters {n},{'File' if n > 1 else 'Fonds'},Published,{1700 + n % 300},\n"
        for n in range(1, 420))
    (folder / "units.csv").write_text(HEADER + rows)
    words = f"dock letters {'word ' * 100}lighthouse keepers {'word ' * 100}"
    (folder / "long.csv").write_text(f"{HEADER}1,,L,Long,Fonds,Published,,{words}\n")
    office = new_office(kind=Searched, files=[("a", folder / "units.csv"), ("b", folder / "long.csv")])
    office.round()
    return office


@pytest.fixture(scope="module")
def bounded(new_office, module_room):
    """That office, which no test changes."""
    return make_bounded(new_office, module_room)


def test_the_socket_of_the_search_has_no_other_route(bounded):
    paths = ("/desk/issued", "/public/orders", "/public/units/01", "/public/units/1/")
    assert [bounded.ask(path) for path in paths] == [None] * 4


def test_how_much_an_answer_shows_and_how_it_goes_on(bounded, monkeypatch):
    office = bounded
    before, mark, after = office.find("lighthouse").units[0]["lines"][0]["text"]
    short = len(before + after) < 250
    assert short and (before[:6], mark, after[:9], after[-2:]) == ("… word", "lighthouse", " keepers ",
                                                                   " …"), ("an excerpt is short, and has what was found",
                                                                           (before, mark, after))
    found = office.find("letters")
    assert ((found.units[0]["way"], found.units[1]["way"])
            == ([], [{"unit": 1, "head": "GB 0999 1 [Fonds] dock letters 1"}])), "the way to a unit"
    assert numbers_of(found) == list(range(1, 21)), "twenty are shown, by number"
    assert (found.count, found.exact) == (300, False), "and more than so many are counted"
    assert (found.more, found.after) == (True, (0, row(20))), "and there are more"
    monkeypatch.setattr(answers, "HURRIED", 0)
    with contextlib.closing(index.open_index(office.index)) as db:
        counted = Finder(db, Asking(office.queue), Query(read_typed("letters")), is_awaited=lambda: True).find()
    monkeypatch.undo()
    assert (counted.count, counted.exact) == (20, False), "while others wait no more are counted than are shown"
    assert find_numbers(office, "letters", after=found.after) == list(range(21, 41)), "they go on"
    last = office.find("letters", after=(0, row(410)))
    assert (numbers_of(last), last.more) == (list(range(411, 421)), False), "to the end"
    dated = sorted(range(1, 420), key=lambda n: (n % 300, n))
    by_date = office.find("letters", by_date=True)
    assert numbers_of(by_date) == dated[:20], "by date"
    assert numbers_of(office.find("letters", by_date=True, after=by_date.after)) == dated[20:40], "and on"
    assert find_numbers(office, "letters", first=1750, last=1752) == [50, 51, 52, 350, 351, 352], "years"


def test_how_many_units_that_are_gone_an_answer_looks_at(new_office, room, monkeypatch):
    """Until the next round forgets them. And nobody waits for the finding aid of a large archive."""
    office = make_bounded(new_office, room)
    for n in (*range(2, 400), 420):
        office.tell("/desk/status", {"unit": n, "status": "draft", "branch": False})
    last = office.find("letters", after=(0, row(399)))
    assert (len(last.units), last.more, last.after) == (20, False, (0, row(419))), "no more is told but what was verified"
    left = [1, *range(400, 420)]
    found = office.find("dock")
    assert (found.state, numbers_of(found), found.count, found.exact) == ("done", left[:20], 21,
                                                                          True), "what was closed leaves no trace in an answer"
    assert found.gone == {*range(2, 400), 420}, "but is told to the rounds"
    with monkeypatch.context() as fewer:
        fewer.setattr(answers, "LOOKS", 50)
        late = office.find("dock")
    assert (late.state, numbers_of(late), late.looked) == ("late", [1], 50), "it gives up after so many looks"
    office.round()
    assert find_numbers(office, "dock") == left[:20], "and the next round mends that"
    office.index.unlink()
    paths = office.round(large=10)
    assert "/public/aid/1" not in paths and "/public/aid/400" in paths, "nobody waits for the aid of a large archive"
    assert "/public/aid/1" not in office.round(large=10), "nor in a round without changes"
    assert find_numbers(office, "dock") == left[:20], "all is found in it"


def row(number):
    """The row of the index for a unit of the first archive."""
    return index.row_of(1, number)


def find_numbers(office, typed, **how):
    return numbers_of(office.find(typed, **how))


def numbers_of(finder):
    return [unit["unit"] for unit in finder.units]


def with_sql(*statements):
    def harmed(path):
        with contextlib.closing(sqlite3.connect(path, isolation_level=None)) as db:
            for statement in statements:
                db.execute(statement)
    return harmed


DAMAGED_WORDS = with_sql("UPDATE words_data SET block = zeroblob(9) WHERE id > 10")  # neither answers nor rounds see it
HARMS = {
    "deleted": pathlib.Path.unlink,
    "no database": lambda path: path.write_bytes(b"dock letters " * 999),
    "empty": lambda path: path.write_bytes(b""),
    "of another version": with_sql("PRAGMA user_version = 77", "DELETE FROM unit", "DROP TABLE part"),
    "damaged in its words": DAMAGED_WORDS,
    "another program's": lambda path: path.unlink() or with_sql("CREATE TABLE unit(n)")(path),
}


@pytest.fixture(scope="module")
def small(new_office, module_room):
    """An office with a few units and an index of them. Each test imports units of its own."""
    (module_room / "small.csv").write_text(HEADER + "1,,A,Dock,Fonds,Published,,\n2,1,1,dock letters,File,Published,,\n")
    office = new_office(kind=Searched, files=[("a", module_room / "small.csv")])
    office.round()
    return office


def import_rows(office, source, *rows, header=HEADER):
    """Imports these rows, and lets a round read them."""
    status, told = office.tell(f"/desk/import/{source}", "\n".join([header.strip(), *rows, ""]).encode())
    assert status == 200, told
    office.round()


@pytest.mark.parametrize("how", HARMS)
def test_an_index_that_is_harmed_is_made_anew(small, how):
    wanted = find_numbers(small, "dock")
    HARMS[how](small.index)
    index.open_or_make(str(small.index), True).close()
    assert find_numbers(small, "dock") in ([], wanted)
    small.round()
    assert find_numbers(small, "dock") == wanted, "all is found again"


def test_a_number_that_changed_below_equal_bytes(small):
    rows = ("1,,Q,Quays,Fonds,Published,,", "2,1,1,quayside accounts,File,Published,,")
    import_rows(small, "q", *rows)
    small.round()  # by now the aid is read as one, and known
    [top], [gone] = find_numbers(small, "quays"), find_numbers(small, "quayside")
    before = small.ask(f"/public/aid/{top}")
    small.tell("/desk/remove", {"unit": gone})
    small.tell("/desk/import/q", "\n".join([HEADER.strip(), *rows, ""]).encode())
    assert small.ask(f"/public/aid/{top}") == before, "the same bytes"
    found = small.find("quayside")
    assert (found.units, found.gone) == ([], {gone}), "a number that is gone is not found, and told"
    small.round(sweep=20)
    [number] = find_numbers(small, "quayside")
    assert number > gone, "the new number is found"


def test_the_words_of_what_was_closed_leave_the_index_and_its_log(small):
    """With the round that forgets them; and what an answer finds gone leaves the index before that."""
    import_rows(small, "z", "1,,Z,zebracrossing,Fonds,Published,,", "2,1,1,quaggamire,File,Published,,")
    [top], [gone] = find_numbers(small, "zebracrossing"), find_numbers(small, "quaggamire")
    assert words_in(small) == {b"zebracrossing", b"quaggamire"}, "its words are in the file"
    small.tell("/desk/status", {"unit": gone, "status": "draft", "branch": False})
    found = small.find("quaggamire")
    assert (found.units, found.gone) == ([], {gone}), "a unit that is gone is told"
    with contextlib.closing(index.open_index(str(small.index))) as db:
        index.forget_at_once(db, found.gone)
    assert small.find("quaggamire").looked == 0, "and then not looked at any more"
    small.tell("/desk/closure", {"unit": top, "until": "2999-01-01"})
    with contextlib.closing(index.open_index(str(small.index))) as answering:  # which keeps the log
        answering.execute("SELECT * FROM round").fetchall()
        small.round()
        assert words_in(small) == set(), "no word of it is left in the file or its log"


def test_what_is_offered_for_a_word_that_finds_nothing(small):
    """Words of the office that find something now, as they are written."""
    import_rows(small, "o", "1,,O,H\u00e4rbour plans,Fonds,Published,,", "2,1,1,Harbinger plans,File,Published,,",
                "3,1,2,Harbours and docks,File,Published,,")
    [draft] = find_numbers(small, "harbinger")
    small.tell("/desk/status", {"unit": draft, "status": "draft", "branch": False})

    def offered(typed, language=None):
        """What is offered in place of what was typed."""
        with contextlib.closing(index.open_index(str(small.index))) as db:
            answer = Finder(db, Asking(small.queue), Query(read_typed(typed, language))).find()
            return offers.offers(answer, typed, language)
    for typed, wanted in (("harb", ["harb*", "h\u00e4rbour", "harbours"]),
                          ("harbuor plans", ["h\u00e4rbour plans", "harbours plans"]),
                          ("hrbour plans", ["h\u00e4rbour plans", "harbours plans"]),
                          ("harrbour plans", ["h\u00e4rbour plans", "harbours plans"]),
                          ("Plans harbuor 12a", ["h\u00e4rbour", "harbours"]), ("docks plans", ["docks* plans*"]),
                          ("harbinger", []), ("zzz", []), ('"h\u00e4rbuor plans"', [])):
        assert offered(typed) == wanted, typed
    import_rows(small, "w", "1,,W,Stadtrat,Fonds,Published,,", "2,1,1,Juden: Schutzbriefe,File,Published,,",
                "3,1,2,Tramcar at the depot,File,Published,,", "4,1,3,Glasplattennegative,File,Published,,",
                "5,1,4,Trauungsbuch; Забастовки,File,Published,,")
    for typed, wanted in (("Judenschutzbrief", ["juden schutzbrief", "juden"]), ("tram car", ["tramcar"]),
                          ("Glasnegative", ["glasplattennegative"]),
                          ("zabastovka", ["забастовки"]), ("Heiratsbuch", ["trauungsbuch"]),
                          ("Stadtratschutzbriefe 1750", ["stadtrat schutzbriefe", "schutzbriefe"])):
        assert offered(typed, "de") == wanted, typed


def test_a_unit_is_found_by_values_that_look_as_if_they_came_from_above(small):
    import_rows(small, "k", "1,,K,Keelmen,Fonds,Published,,",
                "2,1,1,Ledgers,File,Published,quarterdeck (from GB 0999 K),forecastle (from GB 0999 K)",
                header="legacyId,parentId,identifier,title,levelOfDescription,publicationStatus,archivalHistory,acquisition")
    found = [["".join(unit["head"]) for unit in small.find(word).units] for word in ("quarterdeck", "forecastle")]
    assert found == [["GB 0999 K/1 [File] Ledgers"]] * 2


def words_in(office):
    """Which of these words the files of the index have."""
    held = b"".join(path.read_bytes() for path in office.folder.glob("index.db*"))
    return {word for word in (b"zebracrossing", b"quaggamire") if word in held}


@pytest.fixture(scope="module")
def served(new_office):
    """An office with archives and its service, which has found something."""
    office = new_office(kind=Searched, readers=QUICK, files=[("catalogue", ARCHIVES)])
    until(lambda: find_units(office), "a first round has found something")
    return office


def ask_patiently(office, args):
    """The answer; if nginx says that this address asks too often, it asks again."""
    return until(lambda: (got := office.ask_service(args))[0] != 429 and got, "the search is let through")


def find_units(office):
    """The numbers that are found for a word, or None if the answer is not whole."""
    status, body = ask_patiently(office, urlencode({"q": "dock"}))
    answer = json.loads(body) if status == 200 else {}
    return {unit["unit"] for unit in answer["units"]} if answer.get("state") == "done" else None


def is_found(office, wanted, minutes=1):
    """Whether these numbers are found within so many minutes."""
    try:
        return until(lambda: find_units(office) == wanted, "all is found again", minutes)
    except AssertionError:
        return False


@pytest.mark.parametrize("text", HOSTILE, ids=lambda text: ascii(text[:20]))
def test_whatever_is_typed_is_answered(served, text):
    """Or refused by the front if it is too long."""
    status, body = ask_patiently(served, "q=" + quote(text.encode("utf-8", "replace")))
    assert status == 414 or status == 200 and json.loads(body)["state"] == "done", body[:200]


@pytest.mark.parametrize("raw", RAW, ids=lambda raw: raw[:40])
def test_whatever_an_address_says_is_answered(served, raw):
    status, body = ask_patiently(served, raw)
    assert status == 200 and json.loads(body)["state"] == "done", body[:200]


@pytest.mark.parametrize("raw, names", UNREAD.items())
def test_what_cannot_be_read_is_told(served, raw, names):
    answer = json.loads(ask_patiently(served, raw)[1])
    assert (answer["state"], answer["unread"]) == ("unread", names)


@pytest.mark.parametrize("typed, cut", [
    ("a " * 64, False), ("word " * 65, True), ('"' + "long title " * 30 + '"', False), ("x" * 1001, True)],
    ids=["64 words", "65 words", "a long title", "1,001 letters"])
def test_that_more_was_typed_than_is_read_is_told(served, typed, cut):
    assert json.loads(ask_patiently(served, "q=" + quote(typed))[1])["cut"] == cut


def test_a_question_of_100_kb_is_refused(served):
    assert ask_patiently(served, "q=" + "a" * 100_000)[0] == 414


def test_after_kills_and_harm_all_is_found_again_and_never_anything_else(served):
    """kill -9 of service, rounds and program at random; the index damaged, cut, foreign or deleted, at rest and in use."""
    office = served
    chance = random.Random(3)
    wanted = until(lambda: find_units(office), "something is found")
    for turn in range(12):
        what = chance.choice(["service", "rounds", "program", "both", "delete", "damage", "cut", "foreign", "other"])
        harm(office, what, chance)
        if office.service.poll() is not None:
            office.serve_readers(*QUICK)
        time.sleep(chance.random())  # the question comes at a moment that nothing else chooses
        now = find_units(office)
        assert now is None or now <= wanted, (f"never anything else after {what}, turn {turn}", now)
        if turn % 3 == 2:
            assert is_found(office, wanted), (f"found again after {what}, turn {turn}", (find_units(office), wanted))
    office.await_rounds()  # the first has checked the index
    DAMAGED_WORDS(office.index)
    assert is_found(office, wanted, 3), ("found again after words were damaged", find_units(office))
    assert oct(os.stat(office.index).st_mode & 0o777) == "0o600", "the index is private"


def harm(office, what, chance):
    """Kills, damages or replaces what the word names."""
    path = pathlib.Path(office.index)
    if what in ("service", "both", "damage", "cut", "foreign", "other"):
        office.kill_readers()
    if what == "rounds":
        pid = office.service.pid
        for child in pathlib.Path(f"/proc/{pid}/task/{pid}/children").read_text().split():
            os.kill(int(child), 9)
    if what in ("program", "both"):
        office.kill_program()
    if what == "delete":
        path.unlink(missing_ok=True)
    if what == "foreign":
        path.write_bytes(b"SQLite format 3\0" + b"no database " * 999)
    if what == "other" and path.exists():  # the index of another office: every text and number is another
        with contextlib.suppress(sqlite3.Error), contextlib.closing(sqlite3.connect(path, isolation_level=None)) as db:
            db.execute("UPDATE unit SET own = NULL, branch = NULL, parent = (parent * 7) % 30 + 1")
            db.execute("UPDATE words SET head = body, body = head")
    if what in ("damage", "cut") and path.exists():
        data = bytearray(path.read_bytes())
        for _ in range(40):
            data[chance.randrange(len(data))] ^= 1 << chance.randrange(8)
        path.write_bytes(data[:chance.randrange(len(data))] if what == "cut" else data)


def test_without_the_office_or_without_the_service_a_search_says_so(served):
    with served.without_program():
        begun = time.time()
        status, body = ask_patiently(served, "q=dock")
        assert json.loads(body)["state"] in ("late", "unreached") and time.time() - begun < 12, (status, body)
    with served.without_readers(*QUICK):
        assert ask_patiently(served, "q=dock")[0] == 503
        assert b"[Fonds]" in served.wait_for(served.public + "/public/fonds"), "the pages are as they were"
