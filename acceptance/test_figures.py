"""The figures of a year of 250 days, with orders, events and refusals at random: each number counted by another way, row by
row, and drawn; and no name of a reader in any. And a year that the program plays, with what OPERATING has an answer for."""

import contextlib
import csv
import datetime
import random
import re
import sqlite3
import xml.etree.ElementTree as ET
from collections import Counter
from pathlib import Path

import pytest

from acceptance import client, operating
from acceptance.test_lists import make_lists

SVG = "{http://www.w3.org/2000/svg}"
FILE = """legacyId,parentId,identifier,title,levelOfDescription,publicationStatus,physicalObjectName,physicalObjectLocation
1,,A,Harbour & <Docks>,Fonds,Published,,
2,,B,"Town council, of which the title is longer than its room is",Fonds,Published,,
""" + "".join(f"{box},{1 + box % 2},{box},File {box},File,Published,Box {box},Room 1\n" for box in range(3, 43))
EPOCH, FIRST = datetime.date(1970, 1, 1), datetime.date(2023, 1, 20)  # a Friday
# The last of them are in the next year.
DAYS = [day for day in (FIRST + datetime.timedelta(past) for past in range(355)) if day.weekday() < 5][:250]
YEARS = (2024, 2023)
MONTHS = [datetime.date(2023, month, 1).strftime("%B") for month in range(1, 13)]
WEEKDAYS = [(datetime.date(2024, 1, 1) + datetime.timedelta(past)).strftime("%A") for past in range(7)]  # from a Monday on
NAMES = ("Ann Reader", "Ben Reader")
SPANS = {"issued on the same day": range(1), "on the next day": range(1, 2), "2 to 3 days later": range(2, 4),
         "4 to 7 days later": range(4, 8), "later": range(8, 1000), "not known": [None]}
ODD, EVEN = FILE.splitlines()[2].split('"')[1], "Harbour & <Docks>"  # whose boxes these are
WHY = {"TicketExpired": "ticket expired", "NotAvailable": "not open, or no such box", "New": "New"}
EVENTS = ("Visits", "Orders", "Issues")


def fill(path, table, columns, rows):
    with contextlib.closing(sqlite3.connect(path, isolation_level=None)) as db:
        db.execute(f"CREATE TABLE IF NOT EXISTS {table} ({columns})")
        db.executemany(f"INSERT INTO {table} ({columns}) VALUES ({', '.join('?' * len(rows[0]))})", rows)


@pytest.fixture(scope="module")
def made(program, module_room):
    """The folder of the lists, and what was there: orders (day, ticket, box, state), events (day, what, ticket, box), refusals
    (day, why, box)."""
    office, dice = client.Office.create(program, module_room / "office.db"), random.Random(7)
    (module_room / "file.csv").write_text(FILE)
    office.import_file("a", module_room / "file.csv").expect_success()
    orders = [(day, dice.randint(1, 2), min(dice.randint(1, 40), dice.randint(1, 40)), dice.choice((1, 3, 3, 3, 4)))
              for day in DAYS for _ in range(dice.randint(0, 6))]
    events = [(day + datetime.timedelta(dice.choice((0, 0, 0, 1, 2, 5, 9))), "issue", ticket, box)
              for day, ticket, box, state in orders if state == 3 and dice.random() < .9]
    events += [(dice.choice(DAYS), what, 1, None) for what in ("seat", "leave", "day") * 90]
    refused = [(dice.choice(DAYS), dice.choice([*WHY]), dice.choice((3, 4, 99))) for _ in range(200)]
    fill(office.store, "reader", "ticket, name, until", [(ticket, name, 30000) for ticket, name in enumerate(NAMES, 1)])
    fill(office.store, "orders", "day, ticket, container, state", [((day - EPOCH).days, *rest) for day, *rest in orders])
    fill(module_room / "register.db", "event", "at, time, staff, what, ticket, container, is_sure", [
        ((day - EPOCH).days * 86400 + number, f"{day}T10:00:00+00:00", "ann", what, ticket, box, number % 20 > 0)
        for number, (day, what, ticket, box) in enumerate(events)])
    fill(module_room / "ordered.db", "refused", "day, why, container, many", [
        (f"{day}", why, box, many) for (day, why, box), many in Counter(refused).items()])
    folder = module_room / "lists"
    folder.mkdir()
    make_lists(office.store, folder, "--register", module_room / "register.db", "--files", module_room)
    return folder, orders, [event for number, event in enumerate(events) if number % 20 > 0], refused


def by_time(labels, of):
    """A function that counts visits, orders and issues by a part of their days."""
    def counted(orders, events, _):
        found = Counter((day.year, of(day), "Orders") for day, *_ in orders)
        found.update((day.year, of(day), {"seat": "Visits", "issue": "Issues"}.get(what)) for day, what, *_ in events)
        return [[year, label, *(found[year, place, what] for what in EVENTS)]
                for year in YEARS for place, label in enumerate(labels)]
    return counted


def by_waiting(orders, events, _):
    found = Counter()
    for day, ticket, box, state in orders:
        later = [(at - day).days for at, what, *whose in events if (what, whose) == ("issue", [ticket, box]) and at >= day]
        past = min(later, default=None)
        found.update([(day.year, next(name for name, span in SPANS.items() if past in span))] * (state == 3))
    return [[year, name, found[year, name]] for year in YEARS for name in SPANS]


def by_box(orders, *_):
    found = Counter((day.year, box) for day, _, box, _ in orders)
    most = [sorted((-many, box) for (one, box), many in found.items() if one == year)[:20] for year in YEARS]
    return [[year, f"Box {box + 2}", -many, sum((day.year, one, state) == (year, box, 4) for day, _, one, state in orders)]
            for year, boxes in zip(YEARS, most) for many, box in boxes]


def by_reason(_, __, refused):
    found = Counter((-day.year, WHY[why]) for day, why, _ in refused)
    return [[-year, why, many] for (year, why), many in sorted(found.items(), key=lambda one: (one[0][0], -one[1], one[0][1]))]


def by_reason_and_archive(_, __, refused):
    titles = {4: EVEN, 3: ODD, 99: "without an archive"}  # in the order of the catalogue
    found = Counter((-day.year, WHY[why], [*titles].index(box), f"{WHY[why]}: {titles[box]}") for day, why, box in refused)
    return [[-year, name, many] for (year, _, _, name), many in sorted(found.items())]


def by_archive(orders, events, refused):
    titles = [ODD, EVEN]
    found = Counter((day.year, titles[1 - box % 2], what)
                    for day, _, box, state in orders for what in [1] + [3] * (state == 4))
    found.update((day.year, titles[1 - box % 2], 2) for day, what, _, box in events if what == "issue")
    found.update((day.year, "without an archive" if box == 99 else titles[1 - box % 2], 4) for day, _, box in refused)
    whats = range(1, 5)
    return [[year, title, *(found[year, title, what] for what in whats)] for year in YEARS
            for title in (*titles[::-1], "without an archive") if any((year, title, what) in found for what in whats)]


@pytest.mark.parametrize("name, label, drawn, counted", [
    ("months", "Month", EVENTS, by_time(MONTHS, lambda day: day.month - 1)),
    ("weekdays", "Weekday", EVENTS, by_time(WEEKDAYS, datetime.date.weekday)), ("waiting", "Waited", ("Orders",), by_waiting),
    ("boxes", "Name", ("Orders", "Cancelled"), by_box), ("refused", "Why", ("Orders",), by_reason),
    ("refusals", "Why, Title", ("Orders",), by_reason_and_archive),
    ("archives", "Title", ("Orders", "Issues", "Cancelled", "Refused"), by_archive)])
def test_each_number_of_a_year_is_right_and_drawn(made, name, label, drawn, counted):
    folder, *what = made
    page = (folder / f"year-{name}.html").read_text("utf-8")
    with (folder / f"year-{name}.csv").open(encoding="utf-8-sig", newline="") as lines:
        rows = [[int(row["Year"]), ": ".join(row[one] for one in label.split(", ")), *(int(row[one]) for one in drawn)]
                for row in csv.DictReader(lines)]
    assert rows == counted(*what) and len({row[0] for row in rows}) == 2
    assert not any(one in page for one in NAMES)
    for year in YEARS:
        text, own = (folder / f"year-{name}-{year}.svg").read_text("utf-8"), [row[1:] for row in rows if row[0] == year]
        picture, numbers = ET.fromstring(text), [number for _, *numbers in own for number in numbers]
        assert text in page and f'href="year-{name}-{year}.svg"' in page and page.index(text) < page.index("<table>")
        assert picture.get("role") == "img" and picture.find(f"{SVG}title").text.endswith(f", {year}")
        assert all(f"{what}: {sum(row[place] for row in own)}" in picture.find(f"{SVG}desc").text
                   for place, what in enumerate(drawn, 1))
        widths = [float(one.get("width")) for one in picture.iter(f"{SVG}rect")][len(drawn) if len(drawn) > 1 else 0:]
        assert widths == pytest.approx([number / max(numbers) * max(widths) for number in numbers], abs=1)
        shown = [one.text for one in picture.iter(f"{SVG}text")]
        assert all({title, f"{title[:35]}…"} & {*shown} for title, *_ in own), "each has its label"


HAPPENS = dict(client.table(Path(__file__).with_name("happens.txt")))


class Desk:
    """A desk where the steps of happens.txt are taken. past: days since the first; done: how often each command was done."""

    def __init__(self, office):
        self.office, self.session, self.past, self.done, self.numbers = office, office.session(), 0, Counter(), {}

    def take(self, steps):
        for what, who, box, refused in re.findall(r"(\w+)(?: ([A-C]))?(?: (\d))?(?: (\w{3,}))?(?:, +|$)", steps):
            if what == "mend":  # the day, by SQL, with the program stopped
                self.session.process.communicate()
                with contextlib.closing(sqlite3.connect(self.office.store, isolation_level=None)) as db:
                    db.execute("UPDATE office SET day = unixepoch(?, ?) / 86400", (f"{FIRST}", f"{self.past} days"))
                self.session = self.office.session()
                continue
            number, day = int(box or 1), FIRST + datetime.timedelta(self.past + int(box or 1))
            body = {"ticket": self.numbers.get((who, ""), 0), "order": self.numbers.get((who, box), 0), "container": number,
                    "unit": number + 2, "name": who, "day": f"{day}", "until": f"{2020 if what == 'renew' else 2030}-12-31"}
            told = self.session.ask(client.post(client.path_of(what), body)).json()
            assert told.get("refused", "") == refused, (day, steps, what, who, box, told)
            self.done[what] += not refused
            self.past += (what, box, refused) == ("day", "", "")
            self.numbers |= {(who, box): told[kind] for kind in ("ticket", "order") if kind in told}
        self.numbers["A", ""] = self.numbers.pop(("C", ""), self.numbers["A", ""])


def test_each_day_has_an_answer_for_what_happens(program, room):
    settings = client.SETTINGS | {"daily": "50", "run": "50", "day": f"{FIRST}"}
    office = client.Office.create(program, room / "office.db", settings)
    (room / "file.csv").write_text(FILE)
    office.import_file("a", room / "file.csv").expect_success()
    desk, dice = Desk(office), random.Random(7)
    desk.take("register A, register B, closure 4, permit A 4")
    while desk.past < 250:
        happens, box = dice.choice([*HAPPENS]), dice.choice("789")
        desk.take(f"day, seat A, seat B, orders B {box}, run, issue B {box}, return {box}")
        desk.take(f"{HAPPENS[happens]}, reshelve")
        desk.done[happens] += 1
    desk.session.process.communicate()
    assert office.check() == client.SOUND and min(desk.done[happens] for happens in HAPPENS) > 9
    with contextlib.closing(sqlite3.connect(office.store)) as db:
        ended = dict(db.execute("SELECT state, count(*) FROM orders GROUP BY state"))
    assert ended == {3: desk.done["return"], 4: desk.done["cancel"]}, "each order ended as somebody meant it"
    answers = operating.DOCUMENT.read_text("utf-8").partition("**Otherwise:**")[2]
    assert re.findall(r"^- \*(.*):\* ", answers, re.M)[:len(HAPPENS)] == [*HAPPENS]
