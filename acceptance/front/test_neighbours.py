"""An office whose neighbours differ, so that a mistake between two of them shows: numbers of seven digits, a source with _, a
draft below a draft, two who wait for one box, clocks on both sides of midnight, a reader's address that somebody claims."""

import json
import re
import sqlite3
import urllib.parse

import pytest

from acceptance import client
from acceptance.front.asks import exchange, statuses
from acceptance.front.files import csv_text, unit
from acceptance.front.office import Office
from acceptance.front.waits import until

FIRST = 1_234_567  # the number of the first unit
SERIES = FIRST + 1
ZONES = ("America/New_York", "Asia/Tokyo", "Etc/GMT+12", "Pacific/Kiritimati")  # of the last two one has another day than UTC
HELD = {"physicalObjectName": "Box 1", "physicalObjectLocation": "Strongroom 3"}
UNITS = csv_text(
    unit("1", identifier="HUL", title="Dock Company", levelOfDescription="Fonds"),
    unit("2", "1", "Minutes", identifier="1", levelOfDescription="Series", **HELD),
    unit("3", "2", "First volume", identifier="1", levelOfDescription="File"),
    unit("4", "1", "Letters", identifier="2", levelOfDescription="Series", publicationStatus="Draft"),
    unit("5", "4", "A letter", identifier="1", levelOfDescription="File", publicationStatus="Draft"),
    unit("6", "1", "Bills", identifier="3", levelOfDescription="Series", physicalObjectName="Box 2"))


class Numbered(Office):
    """An office whose units are numbered from FIRST on."""

    @classmethod
    def create(cls, program, folder, settings=None, **how):
        office = super().create(program, folder, settings, **how)
        with sqlite3.connect(office.store) as db:
            db.execute("UPDATE office SET next_unit = ?", (FIRST,))
        db.close()
        return office


@pytest.fixture(scope="module")
def office(new_office, module_room):
    (module_room / "units.csv").write_text(UNITS, "utf-8")
    return new_office(kind=Numbered, readers=True, tries=True, files=[("catalogue", module_room / "units.csv")])


def readers_page(asks, path):
    """A page of the readers' site without its tags."""
    return " ".join(re.sub(r"<[^>]*>", " ", asks.text(path)).split())


def search(asks, args):
    """What the search answers; if this address asks too often, it asks again."""
    return until(lambda: (got := asks.question(f"/public/search?{args}"))[0] != 429 and got, "the search is let through")[1]


@pytest.mark.parametrize("path, status, text", [
    *((f"{place}/{SERIES}", 200, "Minutes") for place in ("/public/units", "/public/aid", "/unit")),
    (f"/aid/{SERIES}", 200, ""), (f"/aid/{FIRST}/1", 302, "")])
def test_numbers_of_seven_digits_lead_everywhere(asks, path, status, text):
    told, page = asks.question(path)
    assert told == status and text in page


def test_a_unit_of_seven_digits_is_found_within_its_archive_and_ordered(asks):
    until(lambda: f'"unit": {SERIES}' in search(asks, "q=minutes"), "the search has read it")
    assert [one["unit"] for one in json.loads(search(asks, f"q=minutes&in={FIRST}"))["units"]] == [SERIES]
    ticket = asks.command("/desk/register", name="Ann", until="2030-12-31")["ticket"]
    form = urllib.parse.urlencode({"ticket": ticket, "container": f"1-{SERIES}"})
    assert asks.send("POST", f"/unit/{SERIES}/order", form)[0] == 200
    foreign, _ = asks.send("POST", f"/unit/{SERIES}/order", form, fields={"Sec-Fetch-Site": "cross-site"})
    assert foreign == 403, "but not by another site's page"


@pytest.mark.parametrize("name", ["my_source", "my.source-2"])
def test_a_source_may_have_other_signs(asks, name):
    """Also that of a file of some size."""
    rows = [unit(str(n), "1" if n > 1 else "", title=f"Of {name}", levelOfDescription="File" if n > 1 else "Fonds",
                 scopeAndContent="word " * 400) for n in range(1, 50)]
    asks.import_text(name, csv_text(*rows))
    assert f"Of {name}" in asks.text("/public/fonds")


@pytest.fixture
def closed(asks):
    """The series is closed until a day, and opened afterwards."""
    asks.command("/desk/closure", unit=SERIES, until="2030-01-01")
    yield
    asks.command("/desk/closure", unit=SERIES, until=None)


@pytest.mark.parametrize("zone", ZONES)
def test_a_day_is_that_day_wherever_the_server_is(asks, office, closed, zone):
    office.kill_readers()
    office.serve_readers(zone=zone)
    assert "closed until 1 January 2030" in readers_page(asks, f"/unit/{SERIES}")


@pytest.mark.browser
@pytest.mark.parametrize("zone", ZONES)
def test_a_day_is_that_day_wherever_the_desks_computer_is(desk, closed, zone):
    desk.call("Emulation.setTimezoneOverride", timezoneId=zone)
    desk.at(f"/units/{SERIES}").see("Published, and closed until 2030-01-01.", ".state")
    desk.see("closed until 1 January 2030", "main .head")
    told = desk.js("import('./days.js').then(({ dayOfThisComputer }) => dayOfThisComputer())")
    assert told == desk.js("new Intl.DateTimeFormat('sv').format(new Date())")


def test_nobody_is_another_address_by_saying_so(office):
    sent = b"".join(client.request("GET", "/public/search?q=x", fields={
        "X-Forwarded-For": f"198.51.100.{n}", "X-Real-IP": f"198.51.100.{n}", "Forwarded": f"for=198.51.100.{n}",
        **({"Connection": "close"} if n == 59 else {})}) for n in range(60))
    answered = statuses(exchange(office.ports["8080"], sent, "127.0.0.9"))
    assert 429 in answered and len(answered) == 60, "sixty searches are those of one address"
    assert "198.51.100" not in (office.folder / "access.log").read_text(), "and the log has no claimed address"


@pytest.mark.browser
def test_a_status_is_set_for_one_unit_alone(asks, desk):
    """And for all below only if somebody wants that."""
    draft, below = FIRST + 3, FIRST + 4
    desk.at(f"/units/{draft}").choose("Published", "Status")
    desk.press("Set the status", "Status")
    desk.see("1 unit was set to published.")
    assert [asks.question(f"/public/units/{n}")[0] for n in (draft, below)] == [200, 404], "what is below stays a draft"


@pytest.mark.browser
def test_the_first_who_waits_for_a_box_gets_it(asks, desk):
    """Whoever came after."""
    tickets = [asks.command("/desk/register", name=name, until="2030-12-31")["ticket"] for name in ("Ben", "Cy", "Di")]
    box = 2
    for ticket in tickets:
        asks.command("/public/orders", ticket=ticket, container=box)
        asks.command("/desk/seat", ticket=ticket)
    asks.command("/desk/run")
    asks.command("/desk/issue", ticket=tickets[0], container=box)
    desk.at("/counter").fill("Container", box, "Take back")
    desk.press("Take back", "Take back")
    desk.see(f"Keep it at the desk for Cy, ticket {tickets[1]}.", ".back")
    desk.at("/orders").see("orders wait.")
    rows = [row for row in desk.js("[...document.querySelectorAll('main tbody tr')].map((row) => row.textContent)")
            if "Cy" in row or "Di" in row]
    told = [("ready" in row, "for another reader first" in row) for row in rows]
    assert told == [(True, False), (False, True)], f"it is ready for the first alone: {rows}"
    desk.at(f"/counter/{box}").press(f"Issue to ticket {tickets[1]}, the first who waits")
    desk.see(f"Issued to ticket {tickets[1]}")
    assert [one["ticket"] for one in asks.read("/desk/issued")] == [tickets[1]], "and is issued to the first"
    is_plain = ("[...document.querySelectorAll('main button')].find((button) => button.textContent === 'Give a seat')"
                ".matches('.plain')")
    desk.at(f"/readers/{tickets[1]}").wait(is_plain)  # who has a seat is offered no other
    asks.command("/desk/leave", ticket=tickets[2])
    desk.at(f"/readers/{tickets[2]}").see("No seat.")
    assert desk.js(is_plain) is False, "who has none is"
