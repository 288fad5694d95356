"""What an import would change: the service and the page that try a file on the copy of the night, and record-office-try."""

import csv
import hashlib
import io
import json
import os
import pathlib
import subprocess
from types import SimpleNamespace

import pytest

from acceptance.front.asks import Asks
from acceptance.front.files import COLUMNS, csv_text, unit
from acceptance.front.office import FRONT, MANY_PAGES

pytestmark = pytest.mark.needs("sqlite3")

SOURCE = "catalogue"
NIGHT = "office-2024-03-01.db"
ROWS = "document.querySelectorAll('.differences tbody tr').length"
# What the service or nginx may say instead: the status, the answer, and what the page then tells.
TROUBLES = (
    (409, '{"error":"no copy"}', "Nothing was tried: there is no copy of the office yet. The next backup makes one."),
    (503, '{"error":"not reached"}',
     "Nothing was tried: the service for it is not running. The file can be imported all the same."),
    (500, '{"error":"failed"}', "This file could not be tried. Tell whoever runs the office: its journal says why."))
BOX = {"physicalObjectName": "Box 1", "physicalObjectLocation": "Room 2", "physicalObjectType": "Box"}
SPLIT = ("eventDates", "eventActors", "eventActorHistories", "language")
TOP = unit("1", title="Docks", identifier="HUL", levelOfDescription="Fonds", culture="en", scopeAndContent="Of the docks.",
           archivalHistory="Kept.", script="Latn", **BOX)
SERIES = unit("2", "1", "Minutes", identifier="1", levelOfDescription="Series", culture="en", eventDates="1774|1803",
              eventActors="Hull|Ann", language="English|Latin", **{**BOX, "physicalObjectName": "Box 1|Box 2",
                                                                   "physicalObjectLocation": "Room 2|Room 3"})
DRAFT = unit("3", "2", "Letters", identifier="2", culture="en", publicationStatus="Draft")
DEEP = unit("4", "3", "One letter", identifier="a", culture="en")
OTHER = unit("5", "1", "Plans", identifier="2", culture="en", physicalObjectName="Box 9")
LAST_TOP = unit("6", title="Harbour", identifier="HAR", culture="fr")
BASE = (TOP, SERIES, DRAFT, DEEP, OTHER, LAST_TOP)
NEIGHBOURS = (unit("1", title="Elsewhere", identifier="ELS"), unit("9", "1", "Below it"))


def changed(number, **values):
    """The base with other values in the row of this legacyId."""
    return [{**row, **values} if row["legacyId"] == number else row for row in BASE]


def files():
    """Files by their names: each is told against an office with BASE, and NEIGHBOURS from another source."""
    yield "the same", csv_text(*BASE)
    yield "the same with a mark", "\ufeff" + csv_text(*BASE)
    yield "the header alone", csv_text()
    yield "empty rows", csv_text(*BASE[:2], "\r\n", "," * (len(COLUMNS) - 1) + "\r\n", *BASE[2:])
    yield "turned round", csv_text(TOP, OTHER, SERIES, DRAFT, DEEP, LAST_TOP)
    yield "the tops alone", csv_text(TOP, LAST_TOP)
    named = [name for name in COLUMNS if name not in ("legacyId", "parentId", "qubitParentSlug", "publicationStatus")]
    new = {name: "New|text" if name in SPLIT else "New  text" for name in named}
    for name in (*named[:5], "physicalObjectType"):
        yield f"a new {name}", csv_text(*changed("2", **{name: new[name]}))
    yield "all is new", csv_text(*changed("2", **new))
    again = [{**row, "title": f"{row['title']} again"} for row in reversed(BASE)]
    yield "changed and turned round", csv_text(*again)
    yield "some changed and turned round", csv_text(*again[1:4])
    yield "all is emptied", csv_text(*(unit(row["legacyId"], row["parentId"], "", publicationStatus="") for row in BASE))
    yield "three columns", csv_text(*BASE, columns=("legacyId", "parentId", "title"))
    yield "without parents and statuses", csv_text(*BASE, columns=("legacyId", "title", "identifier", "culture"))
    for number, parent in (("2", ""), ("3", "1"), ("4", "2"), ("6", "1"), ("5", "77"), ("1", "9")):
        yield f"{number} below {parent or 'nothing'}", csv_text(*changed(number, parentId=parent))
    for status in ("Published", "Draft", "", "PUBLISHED"):
        yield f"status {status!r}", csv_text(*changed("3", publicationStatus=status))
    for boxes in ({"physicalObjectName": "Box 2|Box 1", "physicalObjectLocation": "Room 3|Room 2"},
                  {"physicalObjectName": "Box 1|Box 2|Box 3"}, {"physicalObjectName": ""}, {"physicalObjectType": "Crate"},
                  {"physicalObjectName": "NULL|Box 2"}, {"physicalObjectLocation": ""}):
        yield f"boxes {list(boxes.values())}", csv_text(*changed("2", **boxes))
    yield "other codes", csv_text(*({**row, "identifier": f"{row['identifier']}x"} for row in BASE))
    yield "new units", csv_text(*BASE, unit("7", "1", "New", levelOfDescription="File", identifier="3"), unit("8", "7", ""),
                                *(unit(f"1{place}", title=f"{mark}1+1", publicationStatus="Draft")
                                  for place, mark in enumerate("=+-@'")))
    yield from languages()
    for name, rows in (("a parent that is nowhere", [unit("9", "77")]), ("no number", [unit("")]), ("twice", [TOP, TOP])):
        yield f"refused: {name}", csv_text(*rows)
    yield "refused: no header", "a,b\r\n1,2\r\n"


def languages():
    """Files whose rows are in other languages, alone, behind others and before them."""
    french = {**TOP, "title": "Quais", "scopeAndContent": "Des quais.", "culture": "fr"}
    german = {**TOP, "title": "Hafen", "scopeAndContent": "", "archivalHistory": "", "culture": "de"}
    yield "French alone", csv_text(french, *BASE[1:])
    yield "French first", csv_text(french, *BASE)
    yield "French last", csv_text(*BASE, french)
    yield "German and French first", csv_text(german, french, *BASE)
    yield "a translation that has less", csv_text(french, {**TOP, "scopeAndContent": "Other."}, *BASE[1:])
    yield "no culture", csv_text(*changed("1", culture=""))
    yield "no culture, French behind it", csv_text(*changed("1", culture=""), french)


# The first in French, a new text, dates that are gone, another box, another place, another status, a new unit that looks like
# a formula; 4 to 6 are not there
MUCH = csv_text({**TOP, "title": "Quais", "scopeAndContent": "Des quais.", "culture": "fr"}, TOP,
                {**SERIES, "title": "Minutes, bound", "eventDates": "", "physicalObjectName": "Box 9"},
                {**DRAFT, "parentId": "1", "publicationStatus": "Published"}, unit("7", "1", "=1+1", culture="en"))


@pytest.fixture(scope="module")
def office(new_office, module_room):
    """An office with BASE in it, and with NEIGHBOURS from another source."""
    files = []
    for source, rows in (("others", NEIGHBOURS), (SOURCE, BASE)):
        files.append((source, module_room / f"{source}.csv"))
        files[-1][1].write_text(csv_text(*rows))
    return new_office(tries=True, files=files, changes=MANY_PAGES)


@pytest.fixture
def copy(office):
    """The copy of the night, and no other; and no file was imported since."""
    for path in (*office.copies.iterdir(), *office.kept.iterdir()):
        path.unlink()
    office.copy_store(NIGHT)
    return office.copies / NIGHT


@pytest.fixture
def post(asks):
    """A function that posts a file to the service: the status, and what it tells."""
    def send(path, data, **fields):
        """Posts it at the desk, or where `desk` says; fields: of the request."""
        status, told = asks.send("POST", path, data, fields.pop("desk", True), fields)
        return status, json.loads(told) if told.startswith("{") else told
    return send


@pytest.fixture
def differences(post):
    """A function that tells what a file would change, as the service does."""
    def tell(text, source=SOURCE):
        status, told = post(f"/try/differences/{source}", text)
        assert status == 200, told
        return told
    return tell


def test_what_each_file_would_change(office, copy, differences, post, approved):
    """In the order of its weight. Some of them again with another file that was imported last, or from another source."""
    text, lines = dict(files()), []
    tried = [(name, SOURCE, None) for name in text] + [
        (name, SOURCE, last) for name, last in (
            ("the same", "French alone"), ("French alone", "the same"), ("French first", "French alone"),
            ("no culture", "the same"), ("the same", "no culture, French behind it"), ("the tops alone", "the header alone"),
            ("German and French first", "French last"))] + [
        ("the same", "others", None), ("1 below 9", "others", None), ("the same", "new", None)]
    for name, source, last in tried:
        if last:
            assert post(f"/try/imported/{SOURCE}", text[last]) == (200, {"kept": SOURCE})
            assert (office.kept / f"{SOURCE}.csv").read_bytes() == text[last].encode()
        told = differences(text[name], source)
        answer = ", ".join(f"{what} {number}" for what, number in sorted(told["answer"].items()) if what != "remarks")
        lines += [f"== {name}" + f", {source}" * (source != SOURCE) + (f", last: {last}" if last else ""),
                  f"refused {told['refused']}" if told["refused"] else answer,
                  *(" | ".join(repr(str(one))[1:-1] for one in difference) for difference in told["differences"])]
    approved("try/differences", lines)


def test_a_try_changes_neither_office_nor_copy(office, asks, copy, differences):
    before, seen = hashlib.sha256(copy.read_bytes()).digest(), asks.text("/public/aid/1", True)
    differences(MUCH)
    assert hashlib.sha256(copy.read_bytes()).digest() == before
    assert asks.text("/public/aid/1", True) == seen
    assert [path.name for path in office.copies.iterdir()] == [copy.name], "a try leaves nothing beside the copy"


def test_a_file_that_is_no_text_is_refused_and_not_kept(office, copy, post):
    assert post(f"/try/differences/{SOURCE}", b"\xff\xfe")[1]["refused"] == [22, 0, 1]
    assert post(f"/try/imported/{SOURCE}", b"\xff")[0] == 500 and list(office.kept.iterdir()) == []


@pytest.mark.parametrize("path, status", [
    ("/try/differences/..", 403), ("/try/differences/a%2fb", 403), ("/try/other/x", 403), ("/try/look/x", 403),
    ("/try/differences/...", 200), ("/try/differences/A.b_c-9", 200), ("/try/differences/" + "x" * 64, 200),
    ("/try/differences/" + "x" * 65, 404), ("/try/differences/caf%C3%A9", 403), ("/try/differences/a%20b", 403)])
def test_which_sources_there_may_be(copy, post, path, status):
    assert post(path, b"legacyId\r\n1\r\n")[0] == status


@pytest.mark.parametrize("path", [f"/try/differences/{SOURCE}", "/try/look"])
def test_who_may_not_try(office, copy, post, path):
    assert post(path, b"x", Origin="http://example.org")[0] == 403, "a page of another site"
    assert post(path, bytes(8 * 1024**2 + 1))[0] == 413, "a file over 8 MiB"
    assert post(path, b"x", Authorization="")[0] == 401, "a password is needed"
    with office.without_tries():
        assert post(path, b"x") == (503, {"error": "not reached"}), "without the service the desk is told so"
        readers = post(path, b"x", desk=False)
    assert post(path, b"x", desk=False) == readers, "readers do not reach it, whether it is there or not"


def test_the_newest_copy_is_tried_or_none(office, copy, differences, post):
    (office.copies / "office-2024-03-02.db").write_bytes(b"no office")
    assert differences(csv_text(*BASE))["refused"] == [0, 0, 0]
    for path in office.copies.iterdir():
        path.unlink()
    assert post(f"/try/differences/{SOURCE}", csv_text(*BASE)) == (409, {"error": "no copy"})


@pytest.mark.parametrize("path", ["/none", "/dev/null", "/bin/true"])
def test_where_the_program_cannot_be_run_the_desk_is_told_that_the_try_failed(office, copy, post, monkeypatch, path):
    with monkeypatch.context() as patched, office.without_tries():
        patched.setattr(office, "program", SimpleNamespace(path=path))
        office.serve_tries()
        assert post(f"/try/differences/{SOURCE}", csv_text(*BASE)) == (500, {"error": "failed"})
        office.kill_tries()
        patched.undo()


def run_shell(*words, **how):
    """record-office-try: its status and what it printed."""
    done = subprocess.run([str(word) for word in (FRONT / "try/record-office-try", *words)], capture_output=True, text=True,
                          check=False, **how)
    assert "Traceback" not in done.stderr
    return done.returncode, done.stdout + done.stderr


def test_record_office_try_tells_the_same(office, copy, differences, room):
    """Also for a file with semicolons; and in a CSV file without formulas."""
    file, kept = room / "second.csv", room / "out.csv"
    with file.open("w", newline="") as text:
        csv.writer(text, delimiter=";").writerows(csv.reader(io.StringIO(MUCH, newline="")))
    words = (file, "--source", SOURCE, "--program", office.program.path, "--copy", copy)
    status, told = run_shell(*words, "--csv", kept)
    assert status == 0 and told.startswith("taken for UTF-8 with semicolons"), told
    assert "row 4, legacyId 2, unit 4, Minutes, bound: Title Minutes -> Minutes, bound" in told
    with kept.open(encoding="utf-8-sig", newline="") as lines:
        found = [(one["kind"], one["legacyId"], one["what"], one["old"], one["new"]) for one in csv.DictReader(lines)]
    assert found == [(kind, legacy, what, old, unread_formula(new))
                     for kind, _, legacy, _, _, what, old, new, _ in differences(MUCH)["differences"]]
    file.write_text(csv_text(unit("9", "77")))
    status, told = run_shell(*words)
    assert status == 1 and "refused 22 BadFile row 2 cause 11" in told, "a file that would be refused"


def unread_formula(text):
    """A text as a spreadsheet shows it, which would calculate a formula."""
    return f"'{text}" if text.startswith("=") else text


@pytest.mark.parametrize("words, status, told", [
    ([], 2, "required: FILE, --source"), (["FILE"], 2, "required: --source"),
    (["FILE", "--source", "a b"], 2, "a source is 1 to 64 of ASCII letters"),
    (["FILE", "--source", ".."], 2, "a source is 1 to 64 of ASCII letters"),
    (["none.csv", "--source", "x"], 1, "none.csv: No such file"),
    (["FILE", "--source", "x", "--copy", "none.db"], 1, "No such file"),
    (["FILE", "--source", "x", "--last", "none"], 1, "none: No such"),
    (["FILE", "--source", "x", "--csv", "none/x"], 1, "none/x: No such"),
    (["FILE", "--source", "x", "--program", "/none"], 1, "/none: No such")], ids=str)
def test_what_record_office_try_cannot_do_is_said_in_a_sentence(office, copy, room, words, status, told):
    (room / "file.csv").write_text(csv_text(*BASE))
    words = [room / "file.csv" if word == "FILE" else word for word in words]
    found, said = run_shell("--copy", copy, "--program", office.program.path, *words, cwd=room)
    assert found == status and told in said


def test_a_file_of_an_added_office_is_tried_on_a_copy_of_that_office(room):
    (room / "file.csv").write_text(csv_text(*BASE))
    found, said = run_shell(room / "file.csv", "--source", "x", "--office", "harbour")
    assert (found, said) == (1, "record-office-try: /var/backups/record-office-harbour: there is no copy of the office\n")


@pytest.mark.slow
def test_20000_changes_are_told_within_a_minute_of_the_processor(new_office, module_room):
    rows = [unit(str(number), "1" if number > 1 else "", f"Title {number}", identifier=str(number), scopeAndContent="x" * 200)
            for number in range(1, 20001)]
    (module_room / "large.csv").write_text(csv_text(*rows))
    office = new_office(tries=True, files=[(SOURCE, module_room / "large.csv")])
    office.copy_store(NIGHT)
    again = csv_text(*({**row, "title": f"{row['title']} again"} for row in rows))
    told = json.loads(Asks(office).send("POST", f"/try/differences/{SOURCE}", again, True)[1])
    assert len(told["differences"]) == 20000
    fields = pathlib.Path(f"/proc/{office.trying.pid}/stat").read_text().rsplit(")", 1)[1].split()
    used = sum(map(int, fields[11:15])) / os.sysconf("SC_CLK_TCK")  # also by those that it waited for
    assert used < 60, f"{used:.1f} s"


@pytest.mark.browser
def test_the_page_lists_what_would_change_and_keeps_the_last_file(office, copy, differences, desk, room, shot):
    wanted = differences(MUCH)["differences"]
    desk.at("/import").press("Show what would change")
    desk.see("Choose a file, and name its source, first.")
    (room / "second.csv").write_bytes(MUCH.encode())
    desk.file(room / "second.csv")
    desk.wait("document.querySelector('.seen-in-file table')")
    for status, body, told in TROUBLES:
        desk.answer_with("*/try/differences/*", status, body.encode())
        desk.press("Show what would change")
        desk.see(told)
        desk.answer_with(None, 0, b"")
    desk.press("Show what would change")
    desk.see(f"New units: 1, changed: 2, unchanged: 1. {len(wanted)} differences:")
    desk.see("The first row is in another language than the office has: 1", ".differences")
    shot(desk, "desk-differences")
    assert desk.js(ROWS) == len(wanted), "all are listed"
    desk.js("URL.createObjectURL = (blob) => { window.saved = blob.text(); return '#'; }; 0")
    desk.press("Keep as CSV")
    head, *rows = csv.reader(io.StringIO(desk.js("window.saved").removeprefix("\ufeff"), newline=""))
    assert head == ["Kind", "Row", "legacyId", "Unit", "Title", "What", "In the office", "In the file"], "the columns"
    assert sorted((row[1], row[2], row[6], row[7]) for row in rows) == sorted(
        (str(row), legacy, old, unread_formula(new)) for _, row, legacy, _, _, _, old, new, _ in wanted), "what differs"
    desk.js("(() => { const one = document.querySelector('.differences select'); one.value = 'status';"
            " one.dispatchEvent(new Event('input')); })()")
    assert desk.js(ROWS) == 1, "the filter by kind"
    desk.see("The status in the file is another", ".differences")
    desk.fill("With these letters", "nothing so")
    desk.js("document.activeElement.dispatchEvent(new Event('input'))")
    desk.see("Nothing of this kind.", ".differences")
    if desk.js("document.querySelector('#confirmed') !== null"):
        desk.choose("Take it in all the same")
    desk.press("Import the file")
    desk.see("second.csv was imported from the source catalogue.")
    assert (office.kept / f"{SOURCE}.csv").read_bytes() == MUCH.encode(), "the imported file is kept as the last"
