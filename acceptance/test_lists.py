"""The lists for the staff, over the offices of listed.txt, with titles and names that try to be markup or formulas. In each
office numbers of units, numbers in a source and the order of the catalogue differ; whatever a list leaves out is there beside
what it has: a day sooner or later, of another archive, source, reader or state.
Each list must be to the letter as in lists.txt, and what is not there has no rows."""

import csv
import html
import html.parser
import json
import os
import pathlib
import re
import shutil
import subprocess

import pytest

from acceptance import client
from acceptance.scenarios import commands, text_of

LISTS = client.TOP / "packaging" / "lists"
SETTINGS = client.SETTINGS | {"seats": "12", "daily": "12", "hands": "2", "run": "20"}
WITH_NAMES = {"permits", "waiting", "readers", "long-waiting", "visits", "handed", "cancelled"}
MOST_SHOWN = 1000  # rows of a page
TAKEN_IN = 26  # lines of the log, by the register
NAMES = ("Ann", "Ben", "Cid")  # of readers, whatever stands around them
OWN = f"""-- list: long
-- title: Long
-- about: Numbers.
WITH RECURSIVE n (i) AS (SELECT 1 UNION ALL SELECT i + 1 FROM n WHERE i <= {MOST_SHOWN}) SELECT i AS "N" FROM n;

-- list: places
-- title: Places
-- about: What lists.sql may use besides the tables of the office.
SELECT number AS "Number", unit AS "Unit", archive AS "Archive", parent AS "Parent", code AS "Code", draft AS "Draft",
    iif(closed, day(closed), 0) AS "Closed", home AS "Home", (SELECT group_concat(higher, ' ') FROM (
        SELECT higher FROM above WHERE above.unit = place.unit ORDER BY higher)) AS "Above"
FROM place ORDER BY number;
"""


class Shown(html.parser.HTMLParser):
    """The cells of a page's body, row by row, and the names of its elements."""

    def __init__(self, text):
        super().__init__()
        self.rows, self.elements = [], set()
        self.feed(text)

    def handle_starttag(self, name, _):
        """Notes the name of an element; a row or a cell of a table begins a new entry of `rows`."""
        self.elements.add(name)
        if name == "tr":
            self.rows.append([])
        elif name in ("td", "th"):
            self.rows[-1].append("")

    def handle_data(self, text):
        if self.rows and self.rows[-1]:
            self.rows[-1][-1] += text.strip("\n")


def sections(name):
    """The parts of a text of this folder by their names, without comments."""
    text = re.sub("^#.*\n", "", pathlib.Path(__file__).with_name(name).read_text(encoding="utf-8"), flags=re.M)
    parts = re.split(r"^== (.*)\n", text, flags=re.M)[1:]
    return dict(zip(parts[::2], parts[1::2]))


GIVEN, WANTED = sections("listed.txt"), sections("lists.txt")


NEWEST = text_of(GIVEN["newest"])


def play(office, name):
    """Gives an office the commands of a section, each of which must be done, or refused where it says so."""
    given = commands(GIVEN[name])
    asked = [client.post(client.path_of(word), body) for _, word, body in given]
    found = [reply.status for reply in client.replies(office.talk(*asked).output)]
    wanted = [409 if refused else 200 for refused, *_ in given]
    assert [(one, status) for one, status, right in zip(given, found, wanted, strict=True) if status != right] == []
    assert office.check() == client.SOUND


@pytest.fixture(scope="module")
def first(program, module_room):
    office = client.Office.create(program, module_room / "first.db", SETTINGS | {"day": "2024-01-31"})
    play(office, "first")
    return office


@pytest.fixture(scope="module")
def newest(module_room):
    """The newest file of a source of the first office."""
    file = module_room / "newest.csv"
    file.write_text(NEWEST, encoding="utf-8-sig")
    return file


@pytest.fixture(scope="module")
def folder(first, newest, module_room):
    """The lists of the first office, made with that file and then again without."""
    folder, before = module_room / "lists", sorted(module_room.iterdir())
    folder.mkdir()
    make_lists(first.store, folder, "--source", "a", "--file", newest)
    make_lists(first.store, folder)
    assert sorted(module_room.iterdir()) == sorted([*before, folder]), "nothing is made beside the copy"
    return folder


@pytest.fixture(scope="module")
def old_folder(program, module_room):
    """The lists of the second office, with the last files of its sources and its register."""
    office = client.Office.create(program, module_room / "old.db", SETTINGS)
    folder, files = module_room / "old", module_room / "files"
    play(office, "old")
    take_in_log(module_room / "register.db", office.store)
    folder.mkdir()
    files.mkdir()
    for source in "abc":
        (files / f"{source}.csv").write_text(text_of(GIVEN[f"last {source}"]))
    (files / ".d.new").write_bytes(b"\xff")  # no file of a source, and not whole
    make_lists(office.store, folder, "--files", files, "--register", module_room / "register.db")
    return folder


def take_in_log(register, copy):
    """The register takes in each line of the log once, and no line that is of no command that was done."""
    lines = [json.dumps({"id": f"{number:032x}", "at": f"{1709000000 + number}.5", "time": f"{time}:00+00:00", "staff": staff,
                         "path": f"/{'' if '/' in command else 'desk/'}{command}", "asked": asked, "status": status})
             for number, (time, command, asked, status, staff) in enumerate(
                 line.split(" | ") for line in GIVEN["log"].splitlines())]
    wrong = [lines[0].replace(f"{0:032x}", "0"), lines[0][:50], "", "no JSON", "[]"]
    said = "\n".join([*lines, *wrong]).encode()
    for wanted in (f"{TAKEN_IN} new\n", "0 new\n"):
        ended = subprocess.run([LISTS / "record-office-register", register, "--copy", copy], input=said, capture_output=True,
                               check=True)
        assert ended.stdout.decode() == wanted


def run_lists(copy, folder, *words, stdout=subprocess.PIPE):
    """How record-office-lists ended over a copy of an office, and what it printed."""
    command = [LISTS / "record-office-lists", copy, folder, "--sql", LISTS / "lists.sql", *words]
    return subprocess.run(command, stdout=stdout, stderr=subprocess.PIPE, check=False)


def make_lists(copy, folder, *words):
    """Writes the lists of a copy of an office; raises CalledProcessError if record-office-lists fails."""
    run_lists(copy, folder, *words).check_returncode()


def rows_of(path):
    """The rows of a CSV file, each by the names of its columns."""
    with path.open(encoding="utf-8-sig", newline="") as lines:
        return list(csv.DictReader(lines))


def check_lists(office, folder):
    """Each list of an office to the letter. Those of which nothing is written have no rows."""
    wanted = {name.split("/")[1]: text for name, text in WANTED.items() if name.startswith(f"{office}/")}
    for path in sorted(folder.glob("[!y]*.csv")):  # figures of a year have a test of their own
        found, text = path.read_bytes().decode(), wanted.pop(path.stem, None)
        if text is None:
            assert found.count("\n") == 1, f"the rows of {path.stem}"
        else:
            assert found == "\ufeff" + text.replace("\n", "\r\n"), path.stem
        assert oct(path.stat().st_mode & 0o777) == "0o640", f"who may read {path.name}"
    assert not wanted, "lists that were not made"
    assert not [path.name for path in folder.iterdir() if path.suffix not in (".csv", ".html", ".svg")], "what else is there"


def test_lists_of_the_first_office(folder):
    check_lists("first", folder)


def test_lists_of_the_second_office(old_folder):
    check_lists("old", old_folder)


def test_orders_that_no_run_can_fetch_are_those_that_runs_leave(first, folder, room):
    later = client.Office(first.program, room / "later.db")
    for end in ("", "-wal"):
        shutil.copy(f"{first.store}{end}", f"{later.store}{end}")
    play(later, "rest")
    ended = later.talk(*(client.get(f"/desk/queue/{container}") for container in range(1, 13)))
    waiting = sorted(line["order"] for queue in client.replies(ended.output) for line in queue.json()["waiting"])
    assert [int(row["Order"]) for row in rows_of(folder / "waiting.csv")] == waiting


@pytest.mark.parametrize("made", ["folder", "old_folder"])
def test_a_page_shows_the_rows_of_its_csv_file_as_text_and_names_no_reader_without_need(made, request):
    """It has no element but its own, whatever titles and names try."""
    own = set("html head meta title link body main h1 p a table thead tbody tr th td ul li".split())
    drawn = own | set("figure figcaption svg desc text rect".split())
    for page in sorted(request.getfixturevalue(made).glob("*.html")):
        text = page.read_text(encoding="utf-8")
        shown = Shown(text)
        assert not shown.elements - (drawn if page.stem.startswith("year-") else own), page.name
        if not page.name.startswith("index"):
            rows = [list(row.values()) for row in rows_of(page.with_suffix(".csv"))]
            marked = [[cell.removeprefix("'") if cell[1:2] in ("=", "+") else cell for cell in row] for row in rows]
            assert shown.rows[1:] == marked, page.name
        assert "As of the copy of " in text, page.name
        if page.stem not in WITH_NAMES:
            assert not [name for name in NAMES if re.search(f"{name}[<&]", text)], page.name


def test_the_index_has_how_many_rows_each_list_has_and_what_was_made_by_hand(folder):
    index = (folder / "index.html").read_text(encoding="utf-8")
    linked = dict(re.findall(r'<li><a href="([^"]*)\.html">.*</a>: (\d+)</li>', index))
    assert linked == {path.stem: str(len(rows_of(path))) for path in folder.glob("*.csv") if "-without-row-" not in path.stem}
    by_hand = re.findall(r"[a-z]*-without-row-a(?=\.html)", index)
    assert by_hand == ["boxes-without-row-a", "units-without-row-a"]
    parts = dict(re.findall(r"^-- list: (.*)\n-- title: .*\n-- part: (.*)", (LISTS / "lists.sql").read_text("utf-8"), re.M))
    for part, others in (("counter", {"counter"}), ("archivist", {"counter", "archivist"})):
        found = re.findall(r'href="([^"]*)\.html"', (folder / f"index-{part}.html").read_text("utf-8"))
        assert {name.removesuffix("-a") for name in found} == {name for name, one in parts.items() if one in others}, part


def test_each_page_has_the_title_and_the_words_of_its_list(folder):
    told = (LISTS / "lists.sql").read_text(encoding="utf-8")
    for name, title, about in re.findall(r"^-- list: (.*)\n-- title: (.*)\n(?:-- part: .*\n)?-- about: (.*)", told, re.M):
        [path] = list(folder.glob(f"{name}.html")) + list(folder.glob(f"{name}-a.html"))
        text = path.read_text(encoding="utf-8")
        assert f"<h1>{html.escape(title)}</h1>" in text and html.escape(about) in text, name


NO_OFFICE = "{room}/{copy} is no copy of an office, or it is damaged: "


@pytest.mark.parametrize("copy, source, file, sentence", [
    ("first.db", "c", "newest.csv", "the office has no source c; it has: a, b"),
    ("first.db", "a", "none.csv", "{room}/none.csv: No such file or directory"),
    ("first.db", "a", "utf16.csv", "{room}/utf16.csv is no CSV file in UTF-8: "),
    ("first.db", "a", "other.csv", "{room}/other.csv: there is no column legacyId"),
    ("text.db", "a", "newest.csv", NO_OFFICE),
    ("empty.db", "a", "newest.csv", NO_OFFICE),
    ("none.db", "a", "newest.csv", NO_OFFICE),
])
def test_what_cannot_be_read_is_told_in_a_sentence(copy, source, file, sentence, first, room):
    for name, content in {"utf16.csv": NEWEST.encode("utf-16"), "other.csv": b"a,b\n1,2\n",
                          "newest.csv": NEWEST.encode(), "text.db": b"no office " * 500, "empty.db": b""}.items():
        (room / name).write_bytes(content)
    store = first.store if copy == "first.db" else room / copy
    ended = run_lists(store, room, "--source", source, "--file", room / file)
    [line] = ended.stderr.decode().splitlines()
    assert ended.returncode == 1 and line.startswith(sentence.format(room=room, copy=copy)), line


def test_nothing_is_told_to_a_pipe_that_is_closed(first, room):
    reads, writes = os.pipe()
    os.close(reads)
    assert run_lists(first.store, room, stdout=writes).stderr == b""
    os.close(writes)


def test_lists_of_ones_own_find_what_lists_sql_tells_of_the_tables_that_it_may_use(first, room):
    """Of a long one the page shows the first thousand rows, and the CSV file has all."""
    folder, own = room / "own", room / "own.sql"
    folder.mkdir()
    own.write_text(OWN)
    make_lists(first.store, folder, "--sql", own)
    text, rows = (folder / "long.html").read_text(encoding="utf-8"), rows_of(folder / "long.csv")
    assert Shown(text).rows[-1] == [str(MOST_SHOWN)]
    assert f"{len(rows)} rows, of which these are the first {MOST_SHOWN}" in text
    assert rows[-1] == {"N": str(MOST_SHOWN + 1)}
    (folder / "long.csv").unlink()
    check_lists("own", folder)
