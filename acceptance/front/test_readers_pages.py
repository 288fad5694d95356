"""The readers' pages as they were approved: each kind of address over one office, with what its service says besides, and
what the office is asked for it. `outline.py` says how a page is written down, `stage.py` how the service is played."""

import html
import json
import os
import pickle
import re

import alphabet
import asking
import cards
import languages
import my_orders
import pages as module
import pytest
import service
import turns

from acceptance import client, reference_model
from acceptance.front import catalogue
from acceptance.front.office import ARCHIVES
from acceptance.front.stage import Pages, Stage

pytestmark = pytest.mark.needs("readers")

SETTINGS = client.SETTINGS | {"seats": "12", "daily": "6", "hands": "2", "run": "20"}
DEEP, FAR = 40, "2030-01-01"  # levels of one archive; a day far off
LONGEST = 65_536  # bytes of a form that is read
PHO, HUL, HAR, D = 34, 41, 64, 189  # the first numbers of the archives
TIN = 159  # the first of the two containers of the first notebook
LETTERS = HAR + 1
MORE = """legacyId,parentId,identifier,title,levelOfDescription,publicationStatus,eventDates,extentAndMedium,scopeAndContent,\
archivalHistory,acquisition,physicalObjectName,physicalObjectLocation
1,,NOTE,Notebooks of surveyors,Fonds,Published,1850-1860|1910,3 notebooks,Levels and soundings,Kept by the family.,,Case A,East
2,1,1,First notebook,File,Published,1850,1 notebook,"{long}",,,Tin 1|Tin 2,West|West
3,1,2,Second notebook,File,Published,1851,,,quarterdeck (from GB 0999 NOTE),Bought (from GB 0999 NOTE),,
4,1,3,closed until 2030-01-01,File,Published,1852,,A title that looks like that of a closed unit.,,,,
5,1,4,Secret notebook,File,Published,1853,1 notebook,Hidden words.,,,Tin 3,West
6,5,1,Secret page,Item,Published,1853,,,,,Tin 3,West
7,1,5,Draft notebook,File,Draft,1854,,,,,Tin 4,West
8,,EMPTY,-,Fonds,Published,,,,,,,
10,,ODD,Odd [x] names,Fonds,Published,,,,,,,
11,10,1,Below the odd one,File,Published,1701,,,,,Tin 5,West
12,,TALL,A title of which only the beginning is shown where it says where a unit stands,Fonds,Published,,,,,,,
13,12,1,Below the tall one,File,Published,1702,,,,,Tin 6,West
9,8,1,Müller’s Notebook of the Zürich docks,File,Published,1700,,Straße “und” Brücke,,,,
"""
LETTERED = """legacyId,identifier,title,levelOfDescription,publicationStatus,eventActors
1,YA,Letters,Fonds,Published,Яков Петров
2,KU,Letters,Fonds,Published,ქუთაისის გამგეობა
"""
LONG = "Levels, soundings and the names of all who held the staff, with sketches of piles and sills. " * 4
BUSY = client.reply(503, asking.BUSY)
UNREACHED = client.reply(503, b'{"error":"not reached"}')
GATEWAY = client.reply(502, b"{}").replace(b"502 Bad Gateway", b"504 Gateway Timeout")
LANGUAGES = ("de", "fr", "es", "el")


def full():
    """A unit that has something of each element."""
    columns = [column for _, _, columns in reference_model.ELEMENTS for column in columns]
    rows = [["legacyId", "publicationStatus", *columns], ["1", "Published", *(f"its {column}" for column in columns)],
            ["2", "Published", "FULL/2", "It has nothing"]]
    return "".join(",".join(row + [""] * (len(rows[0]) - len(row))) + "\n" for row in rows).replace("its levelOfDescription",
                                                                                                    "Fonds")


def make_office():
    """An office with archives of many kinds: wide and deep ones, odd texts, closed units and drafts, readers."""
    office = reference_model.Office(**SETTINGS)
    for name, text in (("archives", ARCHIVES.read_text("utf-8")),
                       ("dock", catalogue.dock_company()), ("harbour", catalogue.harbour()),
                       ("deep", catalogue.deep(DEEP)), ("more", MORE.replace("{long}", LONG)), ("full", full())):
        status, told = office.post(f"/desk/import/{name}", text.encode())
        assert status == 200, told
    return office


@pytest.fixture(scope="module")
def played(module_room):
    """The service before that office, and what the office is before any test."""
    with pytest.MonkeyPatch.context() as patch:
        stage = Stage(module_room, make_office(), patch)
        stage.note = next(n for n, unit in stage.played.office.units.items() if "NOTE" in str(vars(unit)))
        stage.command("closure", unit=stage.note + 4, until=FAR)
        for name, until in (("Ann", FAR), ("Ben", FAR), ("Cy", FAR), ("Old", "2024-03-01")):
            stage.command("register", name=name, until=until)
        stage.command("day", day="2024-03-02")
        stage.round()
        yield stage, pickle.dumps(vars(stage.played.office))


@pytest.fixture
def stage(played):
    """The service before an office that no test has changed."""
    stage, kept = played
    vars(stage.played.office).update(pickle.loads(kept))
    stage.begin_anew()
    return stage


def test_pages_of_units(stage, approved):
    pages, note = Pages(stage), stage.note
    pages.add(stage.ask(f"/unit/{PHO}", whole=True))
    for target in (f"/unit/{HUL}", *(f"/unit/{HUL + n}" for n in (1, 9, 17)), f"/unit/{LETTERS}",
                   f"/unit/{LETTERS}?from=x&only=contents", f"/unit/{LETTERS}?has=CAFE+ank",
                   f"/unit/{LETTERS}?has=captain&from=101", f"/unit/{LETTERS}?only=contents",
                   f"/unit/{LETTERS}?only=contents&has=captain+1",
                   *(f"/unit/{note + n}" for n in (0, 1, 2, 3, 4, 5, 6, 7, 9, 11, 13)),
                   f"/unit/{D + 33}", "/unit/4711", "/unit/0", "/unit/01"):
        pages.ask(target)
    approved("readers/units", pages.lines)


def test_units_whose_index_says_otherwise_than_the_office(stage, approved):
    """Units whose index, aid or page says otherwise than the office, or that cannot be asked for."""
    pages = Pages(stage, f"/unit/{stage.note + 1}", f"/unit/{stage.note}", "/search?q=plans+dock")
    answers, note = stage.played.answers, stage.note
    unit, above = f"/unit/{note + 1}", f"/unit/{LETTERS + 5}"
    pages.ask(unit)
    for path in (f"/public/units/{note + 1}", f"/public/units/{note}", "/public/fonds", f"/public/aid/{note + 1}"):
        for answer in (BUSY, UNREACHED, client.reply(404, b"{}"), None, client.reply(502, b"")):
            answers[path] = answer
            pages.ask(unit)
        del answers[path]
    answers[f"/public/aid/{note}"] = client.reply(200, b"GB 0999 NOTE [Fonds] Notebooks\n  GB 0999 NOTE/9 [File] x\n",
                                                  client.TEXT)
    pages.ask(f"/unit/{note}")
    answers[f"/public/units/{note}"] = client.reply(200, b"GB 0999 NOTE [Fonds] Notebooks of surveyors\n", client.TEXT)
    pages.ask(f"/unit/{note}")
    pages.ask(unit)
    pages.ask(f"{unit}/above")
    answers[f"/public/units/{note}"] = client.reply(
        200, f"GB 0999 NOTE [Fonds] Odd\n  3.3.1 Other name: x\n  Container x: y\n  Odd line\n  Unit {note + 1}: -\n".encode(),
        client.TEXT)
    pages.ask(f"/unit/{note}")
    pages.ask(unit)
    answers.clear()
    answers["/public/fonds"] = client.reply(200, b"1 GB 0999 HDC [Fonds] Another\n2 GB x\n", client.TEXT)
    pages.ask(unit)
    answers.clear()
    for address in (f"{unit}/above", f"/unit/{note}/above", "/unit/4711/above", f"/unit/{note + 6}/above"):
        pages.ask(address)
    answers[f"/public/units/{note}"] = UNREACHED
    pages.ask(f"{unit}/above")
    answers.clear()
    wide_levels(stage, pages, unit, above)
    approved("readers/found_late", pages.lines)


def wide_levels(stage, pages, unit, above):
    """Levels and contents as wide as they are shown, and by one wider; and no index at all."""
    more_units(pages, 2000 - 121, HAR, LETTERS, above, f"{above}/above")  # a level of two thousand, and of one more
    more_units(pages, 1, HAR, LETTERS, above, f"{above}/above")
    stage.sql("DELETE FROM unit WHERE n >= 500000")
    more_units(pages, 500 - DEEP, D, D, f"/unit/{D}?only=contents")  # contents of five hundred, and of one more
    more_units(pages, 1, D, D, f"/unit/{D}?only=contents")
    stage.sql("DELETE FROM unit WHERE n >= 500000")
    stage.path.rename(stage.folder / "kept.db")
    for target in (unit, f"{unit}/above", "/search?q=dock", "/public/search?q=dock", "/sitemap.xml", "/sitemap/1.xml"):
        pages.ask(target)
    (stage.folder / "kept.db").rename(stage.path)


def more_units(pages, many, top, parent, *targets):
    """So many more units in the index alone; then pages."""
    pages.stage.sql("WITH RECURSIVE more(n) AS (SELECT 1 + max(500000, (SELECT max(n) FROM unit)) "
                    f"UNION ALL SELECT n + 1 FROM more LIMIT {many}) INSERT INTO unit(n, top, parent, pos) "
                    f"SELECT n, {top}, {parent}, 900 FROM more")
    for target in targets:
        pages.ask(target)


def test_orders_by_forms(stage, approved):
    """Orders by forms, each refusal, and lists."""
    pages, answers, note = Pages(stage, f"/unit/{stage.note + 1}"), stage.played.answers, stage.note
    office = stage.played.office
    boxes = {number: [place + 1 for place in range(len(office.containers))] for number in (note,)}
    first, last = boxes[note][-3], boxes[note][-1]
    unit = f"/unit/{note + 1}/order"
    for form in ([("ticket", 1), ("container", first)], [("ticket", 1), ("container", first)],
                 [("ticket", "x"), ("container", 1)], [("ticket", 1)], [],
                 [("ticket", 999), ("container", first), ("container", 2)],
                 [("ticket", 4), ("container", first), ("container", 2)], [("ticket", " 02 "), ("container", first)],
                 [("ticket", 2), ("container", last), ("container", 2)],
                 [("ticket", 2), ("container", f"{note}-3"), ("container", "0"), ("container", "x")],
                 [("ticket", "2\u00b2"), ("container", 3)], [("ticket", "12345678901"), ("container", 3)],
                 [("ticket", 3), *(("container", n) for n in range(1, 9))]):
        pages.ask(unit, form)
    stage.clock.now += 25
    pages.ask(unit, [("ticket", 3), ("container", 9), ("container", 10), ("container", 11), ("container", 12)])
    stage.clock.now += 1000
    for answer in (BUSY, UNREACHED, None, client.reply(502, b"x"), client.reply(502, b"{}"), GATEWAY,
                   client.reply(503, b"{}"), client.reply(404, b"{}"),
                   client.reply(409, b'{"code":23,"refused":"Full"}'),
                   client.reply(409, b'{"code":5,"refused":"NotAvailable"}'),
                   client.reply(409, b'{"code":99,"refused":"New"}'), client.reply(409, b"{}"),
                   client.reply(200, b'{"order":77}')):
        answers["/public/orders"] = answer
        pages.ask(unit, [("ticket", 3), ("container", 20), ("container", 21)])
        stage.clock.now += 100
    answers.clear()
    pages.ask(unit)
    pages.ask("/unit/4711/order", [("ticket", 3), ("container", 30)])
    pages.ask(f"/unit/{note + 4}/order", [("ticket", 3), ("container", last)])
    orders_of_list(stage, pages, note, first)
    answers.clear()
    stage.clock.now += 1000
    pages.ask(unit, b"ticket=2&container=%ff" + b"&x=1" * 17000)
    pages.ask(unit, b"ticket=2&container=\xff3")
    stage.words.write_text(json.dumps({"name": "Town archive", "ordered": "At <once>."}), "utf-8")
    pages.ask(unit, [("ticket", 3), ("container", 14)])
    stage.words.unlink()
    approved("readers/orders", pages.lines)


def orders_of_list(stage, pages, note, first):
    """Orders of what was collected: lists with odd containers, without a ticket, too long ones."""
    stage.clock.now += 1000
    pages.ask("/ordered")
    pages.ask("/ordered/order", [("ticket", 3), ("container", f"{note + 1}-{first}"), ("container", f"{note + 1}-999999"),
                                 ("container", f"999999-{first + 1}"), ("container", "odd"), ("container", f"{note}-{first}"),
                                 ("container", f"{HUL + 1}-7"), ("box", f"{note}-4"), ("container", "5")])
    stage.clock.now += 1000
    pages.ask("/ordered/order", [("ticket", ""), ("container", f"{note}-{first}")])
    pages.ask("/ordered/order", [("ticket", 2)])
    pages.ask("/ordered/order")
    stage.played.answers["/public/orders"] = client.reply(200, b'{"order":78}')
    pages.ask("/ordered/order", [("ticket", 2), *(("container", f"999-{n}") for n in range(1, 53))])
    pages.ask("/ordered/order", [("ticket", 2), *(("container", f"{note}-{n}") for n in range(1, 3))] * 70)


def test_my_orders(stage, approved, room, monkeypatch):
    """Nothing yet; what came of orders and of cancelling; what waits, is ready and is out; without the office or a secret."""
    (room / "key").write_bytes(bytes(32))  # so that secrets are the same each time
    mine = my_orders.MyOrders(stage.folder / "office.sock", None, cards.Cards(room), stage.service.pages.layouts, 6, True)
    monkeypatch.setattr(my_orders, "time", stage.clock)
    monkeypatch.setattr(stage, "service", service.Answering(mine))
    pages, answers, secret, unit = Pages(stage), stage.played.answers, mine.cards.secret(1), stage.note + 1

    def my(path="", *form, ticket=1, **headers):
        pages.ask(f"/my{path}", *form, record_office_secret=mine.cards.secret(ticket), **headers)

    pages.ask("/my")
    pages.ask(f"/my/{secret}")
    pages.ask(f"/my/{secret[:-1]}")
    my()
    assert stage.played.office.post("/public/orders", f'{{"ticket": 2, "container": {TIN + 1}}}'.encode())[0] == 200
    my("/order", [("container", f"{unit}-{TIN}")])
    my("/order", [("container", f"{unit}-{box}") for box in (TIN, TIN + 1, 14)])
    stage.command("run")
    my(accept_language="fr")
    stage.command("seat", ticket=1)
    stage.command("issue", ticket=1, container=TIN)
    my()
    my("/order", [("container", f"{unit}-14")])
    my("/order", [])
    my("/message", [("wanted", "1")])
    my("/cancel", [("order", "1")])  # another reader's
    answers["/desk/cancel"] = GATEWAY
    my("/cancel", [("order", "3")])
    answers.clear()
    answers[f"/desk/queue/{TIN}"] = UNREACHED
    my("/cancel", [("order", "3")])
    my()
    answers.clear()
    my("/cancel", [("order", "3")])
    my("/leave", [])
    my(ticket=4)  # which has ended
    approved("readers/my_orders", pages.lines)


def test_pages_that_are_not_of_a_unit(stage, approved):
    """The pages that are not of a unit, what is no page, and languages."""
    pages, words = Pages(stage, "/search?q=plans+dock"), stage.words
    words.with_name("old-addresses.csv").write_text("/hull-dock,GB 0999 HUL\n/index.php/odd,x\n", "utf-8")
    for target in ("/hull-dock", "/index.php/odd", "/ref/GB/0999/HUL", "/ref/GB/0999/HUL/1", "/ref/GB/0999/HULL",
                   "/unit/41/?x=1", "/", "/index.html", "/help", "/ordered", "/sitemap.xml", "/sitemap/1.xml",
                   "/sitemap/2.xml", "/sitemap/0.xml", "/robots.txt", "/?lang=de",
                   "/?lang=xx",
                   "/?lang=en&a=%26&b=", "/?" + "&".join(f"a{n}=1" for n in range(9)), "/?q=%ff", "/?q=\u00c3\u00bc",
                   "/no/such/page", "/unit/1/", "/help/", "/search/", "/public/aid/4711", "/public/unit/1", "/de",
                   "/de/hull-dock", "/de/unit/41/?x=1", "/de/ref/GB/0999/HUL", "/de/unit/42/order", "/de/de/help", "/xx/help",
                   "/de/public/aid/41", "/de/unit/41?lang=fr&from=2", "/de/%3Cb%3E\u00c3\u00bc?lang=es",
                   "/public/aid/4711?lang=de", "/a-z", "/a-z?from=H", "/de/a-z?from=p", "/a-z?from=zzz",
                   f"/unit/{LETTERS}/dates", f"/de/unit/{LETTERS}/dates?has=captain+11&from=1", "/unit/4711/dates",
                   f"/unit/{LETTERS + 1}/dates"):
        pages.ask(target)
    pages.add(stage.ask("/de/unit/34", whole=True, accept_language="fr", host="evil.example.org"))
    for method, target in (("POST", "/unit/1"), ("POST", "/"), ("PUT", "/unit/1"), ("DELETE", "/ordered/order"),
                           ("HEAD", "/help"), ("PUT", "/no"), ("POST", "/public/search")):
        pages.add(stage.ask(target, [], method))
    for wish in ("de", "de-AT, en;q=0.9", "pl, fr;q=0.5, es;q=0.7", "EL", "xx", "de;q=0", "de;q=x, es", "*", "fr;q=.4,de;q=.4",
                 ", ".join(f"x{n}" for n in range(19)) + ", de", ", ".join(f"x{n}" for n in range(20)) + ", de", " es ;q=1"):
        pages.add(stage.ask("/ordered", accept_language=wish)[:6])
    for text in ("{", "[]", "3", json.dumps({"name": "Town archive", "address": "1 Quay\nHull", "hours": "Mo\u2013Fr",
                                             "ordered": "At once."}), json.dumps({"name": {"de": "Stadtarchiv",
                                                                                           "en": "Town & <archive>"},
                                                                                  "hours": {"de": "Mo"}, "address": {},
                                                                                  "ordered": 5})):
        words.write_text(text, "utf-8")
        pages.ask("/help")
    pages.ask("/help", accept_language="de")
    pages.ask("/help", accept_language="fr")
    words.write_text(json.dumps({"language": "fr", "site": "https://example.org/"}))
    for wish in (None, "de", "xx"):
        pages.ask("/help", accept_language=wish)
    words.unlink()
    stage.played.answers["/public/units/41"] = client.reply(404, b"")
    pages.ask("/ref/GB/0999/HUL")
    pages.ask("/", record_office_crawler="1")
    pages.ask("/robots.txt", host=None)
    for target in ("/sitemap.xml", "/sitemap/1.xml", "/robots.txt"):  # of a site that nothing names
        pages.ask(target, record_office_site="")
    pages.ask("/search?q=quarterdeck", record_office_crawler="1", record_office_room="1")
    for path in ("/public/fonds",):
        for answer in (UNREACHED, BUSY, client.reply(404, b"{}"), client.reply(200, b"", client.TEXT)):
            stage.played.answers[path] = answer
            for target in ("/", "/sitemap/1.xml", "/search?q=sills", "/public/search?q=sills"):
                pages.ask(target)
    stage.played.answers.clear()
    pages.ask("/help", host="evil.example.org")
    approved("readers/others", pages.lines)


def test_a_creator_stands_in_the_alphabet_as_long_as_the_public_sees_a_unit_of_its(stage):
    """Also while the index still has it; each hundred leads on."""
    assert "Crowe, Thomas" in stage.text("/a-z?from=c") and "Rennie, John" in stage.text("/a-z?from=r")
    stage.command("status", unit=PHO + 1, status="draft", branch=False)
    assert "Crowe, Thomas" not in stage.text("/a-z?from=c")
    with pytest.MonkeyPatch.context() as patch:
        patch.setattr(alphabet, "SHOWN", 3)
        seen, way = [], "/a-z"
        while way:
            page = stage.text(way)
            seen += map(html.unescape, re.findall('<li><a (?:href="/unit|rel="nofollow)[^>]*><span[^>]*>([^<]*)', page))
            way = next(iter(re.findall('rel="next" href="([^"]*)', page)), None)
    assert seen == sorted(set(seen), key=alphabet.key_of) and len(seen) > 20


def test_creators_have_letters_of_their_own_as_long_as_a_page_names_them(stage):
    stage.played.office.post("/desk/import/letters", LETTERED.encode())
    stage.round()
    for letter in ("Я", "ქ"):  # in Georgian without a capital
        assert f">{letter}</a>" in stage.text("/a-z")
        stage.command("status", unit=max(stage.played.office.units) - (letter == "Я"), status="draft", branch=False)
        assert f">{letter}</a>" not in stage.text("/a-z")
    stage.round()


@pytest.mark.parametrize("query, own", [("?from=101", "?from=101"), ("?from=2", ""), ("?from=101&has=captain", ""), ("", "")])
def test_each_hundred_of_a_list_has_its_own_canonical_address(stage, query, own):
    assert f'rel="canonical" href="https://archive.example.org/unit/{LETTERS}{own}">' in stage.text(f"/unit/{LETTERS}{query}")


def test_a_search_engine_is_led_to_each_unit_that_is_open_and_to_no_other(stage, monkeypatch):
    """By sitemaps of fifty numbers each: to a withdrawn archive at once no more, to what was closed after a round."""
    monkeypatch.setattr(module, "MAPPED", 50)
    office = stage.played.office

    def places(target, pattern):
        """What the addresses of a sitemap have there."""
        return re.findall(f"<loc>https://archive.example.org{pattern}</loc>", stage.text(target))

    def led_to():
        """The units in all sitemaps."""
        return [int(n) for part in places("/sitemap.xml", "(/sitemap/[0-9]+.xml)") for n in places(part, "/unit/([0-9]+)")]

    def are_open():
        """The units that have a page which does not say that they are closed, by the model."""
        texts = {n: stage.ask_plainly(f"/public/units/{n}") for n in sorted(office.units)}
        return [n for n, text in texts.items() if text and not re.fullmatch(r".*\] closed until [0-9-]+\n", text)]
    assert led_to() == are_open() and len(led_to()) > 200
    stage.command("status", unit=HUL, status="draft", branch=False)
    assert led_to() == are_open() and HUL + 1 not in led_to()
    stage.command("closure", unit=LETTERS + 1, until=FAR)
    stage.round()
    assert led_to() == are_open() and LETTERS + 1 not in led_to()
    stage.command("status", unit=HUL, status="published", branch=False)
    stage.command("closure", unit=LETTERS + 1, until=None)
    stage.round()


def test_finding_aids(stage, approved):
    """Finding aids, as pages and as text, and the ways from their lines."""
    pages, note, answers = Pages(stage), stage.note, stage.played.answers
    for target in (f"/aid/{note}", f"/aid/{note + 1}", f"/aid/{HUL + 5}", f"/aid/{LETTERS}", f"/aid/{D + 30}",
                   f"/aid/{note + 4}", "/aid/4711", f"/aid/{note + 6}", f"/public/aid/{note}", f"/public/aid/{note + 4}",
                   f"/public/aid/{D + 36}", f"/aid/{note}/1", f"/aid/{note}/2?head=0", f"/aid/{note}/9", f"/aid/{note}/0",
                   f"/aid/{note}/1.1", f"/aid/{D}/1.1.1", f"/aid/{D}/1.1.1.", f"/aid/{D}/1.2", f"/aid/{note}/1?head=",
                   f"/aid/{D}/" + "1." * 64, f"/aid/{D}/" + "1." * 65, f"/aid/{note}/1?lang=de"):
        pages.ask(target)
    for answer in (BUSY, UNREACHED, None, client.reply(404, b"{}")):
        answers[f"/public/aid/{note}"] = answers[f"/public/units/{note}"] = answer
        for target in (f"/aid/{note}", f"/public/aid/{note}", f"/aid/{note}/1"):
            pages.ask(target)
    answers.clear()
    large = "".join(["GB 0999 NOTE [Fonds] Large\n", *(
        f"  GB 0999 NOTE/{n} [File] Of {n}\n    3.3.1 Scope and content: x\n" for n in range(1, 140)),
        "  GB 0999 NOTE/140 [File] Long\n    3.3.1 Scope and content: "])
    for size in (1_000_000, 1_000_001):
        text = large + "y" * (size - len(large) - 1) + "\n"
        answers[f"/public/aid/{note}"] = client.reply(200, text.encode(), client.TEXT)
        pages.add([line[:300] for line in stage.ask(f"/aid/{note}")])
    answers[f"/public/aid/{note}"] = client.reply(200, b"-\n  odd\n GB x [y] z\n  Container 3: c\n\xff\n", client.TEXT)
    pages.ask(f"/aid/{note}")
    answers.clear()
    stage.clock.step = 1.5
    for target in (f"/aid/{note}", f"/public/aid/{note + 1}", f"/aid/{note + 1}"):
        pages.ask(target)
    stage.clock.step = 0
    approved("readers/finding_aids", pages.lines)


def test_searches(stage, approved):
    """Searches, as pages and as JSON."""
    pages, note = Pages(stage), stage.note
    for args in ("q=plans+dock", "q=dock+plans&in=41&from=1800&to=1850&order=date", "q=captain",
                 "q=captain&after=0-640000000084", "q=captain&order=date&after=1820-640000000086", "q=", "q=%2B", "",
                 "q=dock&from=x", "q=dock&in=x&to=-1", "q=dock&order=x", "q=dock&after=x", f"q=notebook&in={note + 1}",
                 "q=notebook&in=4711", "q=zzz", "q=harbuor+board", "q=notebok&in=41", f"q=secret&in={note}", "q=level*&in=34",
                 'q="Zürich+docks"', "q=mueller", "q=" + "zinc+" * 300, "q=container&in=64", "q=%3Cimg", "q=quarterdeck",
                 "q=blank", "q=looks+like", "q=tall", "q=dock+linear+minutes+deposited", "q=Anker&from=1877",
                 "q=notebook&to=0", "q=tin", "q=odd", "q=captain&in=64&from=1801&to=1950&order=date",
                 "q=captian&in=64&from=1801&to=1950&order=date&x=1"):
        pages.ask(f"/search?{args}")
    for args in ("q=dock", "q=captain&order=date", "q=notebok", "q=zzz&from=x", "q=dock&lang=de", "q=Müller",
                 "q=M\u00c3\u00bcller"):
        pages.ask(f"/public/search?{args}")
    stage.clock.step = .7
    for args in ("q=captain", "q=notebok", "q=notebook"):
        pages.ask(f"/search?{args}")
        pages.ask(f"/public/search?{args}")
    stage.clock.step = 0
    stage.sql("UPDATE round SET finished = 0, done = 3, tops = 9")
    for args in ("q=notebook", "q=zzz"):
        pages.ask(f"/search?{args}")
        pages.ask(f"/public/search?{args}&lang=en")
    stage.sql("UPDATE round SET finished = 1")
    answers = stage.played.answers
    for answer in (BUSY, UNREACHED, client.reply(404, b"{}")):
        answers[f"/public/units/{note + 1}"] = answer
        for target in ("/search?q=notebook", "/public/search?q=notebook"):
            pages.ask(target)
    answers.clear()
    approved("readers/searches", pages.lines)


def test_nginx_can_read_the_texts_of_the_desk_though_the_service_keeps_its_files_to_itself(room):
    """Else the desk is in English for everybody."""
    before = os.umask(0o077)  # as the unit of the service has it
    languages.write(languages.load(), room / "texts")
    os.umask(before)
    assert {path.name for path in room.rglob("*") if path.stat().st_mode & 0o444 != 0o444} == set()


@pytest.mark.parametrize("name, value", [("undated", "1"), ("level", "File"), ("creator", "Ada Stone")])
def test_whoever_turns_a_page_or_changes_a_word_of_a_search_stays_within_what_was_chosen(stage, name, value):
    """Else the next page has other units than the first one has counted."""
    page = stage.text(f"/search?q=captain&{name}={value.replace(' ', '+')}")
    assert f'<input type="hidden" name="{name}" value="{value}">' in page, "the form has it"
    links = re.findall(r'href="/search[?]([^"]*)"', page)
    assert [link for link in links if "after=" in link and f"{name}=" not in link] == [], "the next page has it"
    assert [link for link in links if "q=captain" in link and f"{name}=" not in link] != [], "one may search without it"


def late(*_):
    """Stands in for the turn of a search that never comes."""
    raise turns.Late


def test_the_longest_that_is_read_and_what_is_beyond(stage, approved):
    """The longest that is read, the greatest numbers, the first and last of a list, and what is beyond each."""
    note = stage.note
    pages = Pages(stage, f"/unit/{LETTERS}", f"/unit/{note}", f"/unit/{note + 1}", "/search?q=captain")
    for place in (51, 52):  # of 121 units of a level
        pages.ask(f"/unit/{LETTERS + 1 + place}")
    for args in ("from=0", "from=100", "from=121", "from=122", "from=9999999999", "from=10000000000",
                 "has=captain&from=20", "only=contents&from=102"):
        pages.ask(f"/unit/{LETTERS}?{args}")
    for many in (1, 20, 21, 100, 101, 201):
        lines = ["GB 0999 NOTE [Fonds] Many\n", *(f"  Unit {n}: GB 0999 NOTE/{n} [File] x\n" for n in range(900, 900 + many))]
        stage.played.answers[f"/public/units/{note}"] = client.reply(200, "".join(lines).encode(), client.TEXT)
        for query in ("", *(("?from=101", "?from=102&has=GB") if many > 200 else ())):
            pages.ask(f"/unit/{note}{query}")
    stage.played.answers.clear()
    pages.ask("/ordered/order", [("ticket", 2)] + [("container", f"{note + 1}-{n}") for n in range(49, 101)])
    stage.clock.now += 1000
    for box, longer in ((14, 0), (15, 0), (16, 1)):
        form = f"ticket=3&container={box}&x="
        pages.ask(f"/unit/{note + 1}/order", f"{form}{'x' * (LONGEST + longer - len(form))}".encode())
    for tins in ((TIN,), (TIN, TIN + 1)):  # of this unit, so that they are told by name
        pages.ask(f"/unit/{note + 1}/order", [("ticket", 3), *(("container", tin) for tin in tins)])
    text = f"GB 0999 NOTE [Fonds] closed until {FAR}\n  Unit {note + 1}: GB 0999 NOTE/1 [File] First notebook\n"
    stage.played.answers[f"/public/units/{note}"] = client.reply(200, text.encode(), client.TEXT)
    pages.ask(f"/unit/{note + 1}", accept_language="fr")
    stage.played.answers.clear()
    for args in ("q=captain&after=0-9223372036854775807", "q=captain&after=0-9999999999999999999", "q=captain&after=0-0",
                 "q=captain&after=999999-1", "q=captain&after=1000000-1", "q=captain&after=1-", "q=notebook&in=9999999999",
                 "q=notebook&in=10000000000", f"q=notebook&in={note}&from=%201850%20", "q=captain&from=1900&to=1900",
                 "q=captain&from=1900&to=1899&lang=de"):
        pages.ask(f"/public/search?{args}")
    pages.ask("/search?q=notebok")  # two offers
    kept, stage.turn = stage.turn, late
    for target in ("/search?q=captain", "/public/search?q=captain&after=0-640000000084", "/public/search?q=captain"):
        pages.ask(target)
    stage.turn = kept
    approved("readers/at_borders", pages.lines)


def test_pages_in_other_languages(stage, approved):
    pages, note = Pages(stage), stage.note
    for code in LANGUAGES:
        pages.ask(f"/unit/{note + 4}" if code in ("de", "fr") else "/no", accept_language=code)
    pages.ask(f"/unit/{HUL + 1}", accept_language="de")
    for args in ("q=anker&from=1800", "q=anker&from=1900&to=1800", "q=index"):  # what begins like the last finds more
        pages.ask(f"/search?{args}", accept_language="de")
    pages.ask(f"/unit/{note + 1}/order", [("ticket", 1), ("container", 33), ("container", 34)], accept_language="fr")
    approved("readers/in_languages", pages.lines)
