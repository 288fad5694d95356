"""The look at a file before its import, and what an import then does: the files of odd_files.py, and record-office-look."""

import contextlib
import json
import re
import shutil
import sqlite3
import subprocess

import pytest
from convert import convert
from look_at_file import Look
from wording import advice, in_english, read_rules

from acceptance import client
from acceptance.front import odd_files
from acceptance.front.files import COLUMNS, GOOD, SHORT, csv_text, unit
from acceptance.front.office import FRONT, PYTHON, TOP

RULES = read_rules()
# Advice that foretells that an office which knows none of the units refuses the file, for its row's parent or depth.
REFUSED_IF_NEW = {name for name in RULES["advice"] if name.startswith("parents_")} | {"deep"}
LONGEST = 70  # letters of a value that a line has

each_group = pytest.mark.parametrize("group", odd_files.GROUPS)


@pytest.fixture(scope="module")
def new_store(program, module_room):
    """The file of a new office, which tests copy."""
    return client.Office.create(program, module_room / "office.db").store


@each_group
def test_an_import_does_what_was_foretold(program, new_store, room, group):
    """A file that was stopped, or of which a parent lacks, is refused, for the row and cause that were told; of another what
    was counted comes in."""
    wrong = {}
    for name, data in odd_files.GROUPS[group]():
        told, came = foretold(data), imported(client.Office(program, shutil.copy(new_store, room / "office.db")), data)
        if told != came and not (told == "refused" and came[0] == "refused"):
            wrong[name] = told, came
    assert wrong == {}


def foretold(data):
    """What an office that knows none of its units does with a file: the row and cause of its refusal, that it refuses it, or
    how many units, drafts, translations and containers come in."""
    seen = Look(RULES).at(data)
    told = dict(seen.advice)
    if "fault" in told and not ({name for name in told if RULES["advice"][name][0] == "stop"} - {"fault", "unclosed"}):
        return "refused", told["fault"]["row"], int(told["fault"]["number"])
    if any(RULES["advice"][name][0] == "stop" or name in REFUSED_IF_NEW for name in told):
        return "refused"
    return tuple(seen.counts[name] for name in ("units", "drafts", "translations", "containers"))


def imported(office, data):
    """What came of the import of a file: the row and cause of its refusal, or those counts."""
    (office.store.parent / "file.csv").write_bytes(data)
    ended = office.import_file("catalogue", office.store.parent / "file.csv")
    if ended.status:
        said = ended.message.decode().split()
        return "refused", int(said[4]), int(said[6])
    rows = json.loads(ended.output)
    with contextlib.closing(sqlite3.connect(office.store)) as store:
        drafts, containers = store.execute("SELECT (SELECT count(*) FROM unit WHERE draft), (SELECT count(*) FROM container)"
                                           ).fetchone()
    return rows["new"], drafts, rows["translations"], containers


@pytest.mark.parametrize("name", [name for name, data in odd_files.ways() if convert(data, RULES) and not
                                  re.search("colons|Mac", name)])  # which are converted to something else
def test_a_converted_file_is_read_as_if_it_had_been_saved_rightly(program, name):
    ways = dict(odd_files.ways())
    found = convert(ways[name], RULES).data
    assert convert(found, RULES) is None
    assert preview(program, found) == preview(program, ways["UTF-8, commas"])


def preview(program, data):
    ended = program.run("preview", "--country", "GB", "--repo", "0999", said=data)
    return ended.output, ended.message


def test_each_advice_says_in_words_what_to_do(approved):
    """Of one row, and of several; of a row that would be refused by each cause."""
    said = {name: {} for name in RULES["advice"]}
    for group in odd_files.GROUPS:
        for name, values in (one for _, data in odd_files.GROUPS[group]() for one in Look(RULES).at(data).advice):
            level, says, todo = advice(RULES, name, values)
            text = printable(f"{in_english(says)} {in_english(todo)}")
            kind = values["number"] if name == "fault" else re.search(" [1-9][0-9]* [a-z]+s ", text) is None
            said[name].setdefault(kind, f"{name}, {level}: {text}")
    assert [name for name, texts in said.items() if not texts] == ["converted"], "each is given for a file"
    approved("look/advice", (text for texts in said.values() for text in texts.values()))


def test_elements_are_named_as_in_the_rules():
    rows = [line.strip("| ").split(" | ") for line in (TOP / "docs/RULES.md").read_text().splitlines()
            if line.startswith("| 3.")]
    wanted = {row[2]: row[1] for row in rows if "," not in row[2]}
    assert {name: RULES["elements"][name] for name in wanted} == wanted


@pytest.mark.parametrize("left_out", COLUMNS[1:])
def test_a_column_that_lacks_is_told(left_out):
    """An element is emptied; without the others no unit has a place or a status."""
    seen = dict(Look(RULES).at(csv_text(unit("1"), columns=[name for name in COLUMNS if name != left_out]).encode()).advice)
    elements = [in_english(one) for one in seen.get("emptied", {"columns": []})["columns"]]
    assert elements == [f"{label} ({name})" for name, label in RULES["elements"].items() if name == left_out]
    others = {"parentId": {"no_parents"}, "publicationStatus": {"no_status"}}
    assert set(seen) - {"emptied"} == others.get(left_out, set())


@pytest.mark.parametrize("also, name", RULES["also"].items())
def test_another_name_of_a_column_is_known(also, name):
    """In any letters, if the column itself is not there."""
    assert meant(also.upper(), [one for one in COLUMNS if one != name]) == [(also.upper(), name)]
    assert meant(also, COLUMNS) == []


def meant(other, columns):
    """Which columns that are not read are taken for which, in a file with these columns and another one."""
    seen = Look(RULES).at(csv_text(unit("1"), columns=[*columns, other]).encode())
    return [(values["found"], values["column"]) for name, values in seen.advice if name == "similar"]


# As approved

@each_group
def test_odd_files_are_told_as_approved(approved, group):
    """A line for each file: what is said of it, by names and values. What lacks of its header is left out, and whether nothing
    is published then, which is said of nearly all."""
    lines = []
    for name, data in odd_files.GROUPS[group]():
        lines.append(f"{name}: {'; '.join(parts_of(data)) or 'nothing'}")
    approved(f"look/{group}", lines)


def parts_of(data):
    """What is seen of a file, and what it becomes, in a few words each."""
    seen, found = Look(RULES).at(data), convert(data, RULES)
    for name, values in seen.advice:
        if name not in ("emptied", "no_parents", "no_status"):
            yield " ".join([name, *(fault_parts(values) if name == "fault" else value_parts(values))])
    if seen.counts:
        yield ", ".join(f"{number} {name}" for name, number in seen.counts.items() if number) or "nothing in it"
    if found:
        lost = f", lost {found.lost['found']!r}" if found.lost else ""
        yield (f"becomes {plain(found.data.decode())} from {found.encoding}, {in_english(found.separator)}, "
               f"first {' | '.join(map(plain, found.values))}, letters {' '.join(map(plain, found.letters))}{lost}")


def value_parts(values):
    """The values of an advice by their names; of a list the first three, and the row of a spreadsheet if it is another."""
    for name, told in values.items():
        if isinstance(told, list):
            more = f" and {len(told) - 3} more" if len(told) > 3 else ""
            yield f"{name} [{', '.join(plain(in_english(one)) for one in told[:3])}{more}]"
        elif told != "" and (name != "sheet" or told != values.get("row")):
            yield f"{name} {plain(in_english(told))}"


def fault_parts(values):
    """The first row that the office would refuse: its cause, the unit, and how many more there are."""
    cause, todo = values["cause"], values["todo"]
    is_equal = cause.get("text") == RULES["causes"]["7 equal"][0]
    yield f"{values['number']}{' equal' * is_equal}{plain(in_english(values['unit']))}, row {values['row']}"
    if values["sheet"] != values["row"]:
        yield f"({values['sheet']})"
    if "parts" in cause:
        yield in_english(cause["parts"][-1])
    if "parts" in todo:
        yield f"and {todo['parts'][-1]['number']} more"


def printable(text):
    return "".join(letter if letter.isprintable() else repr(letter)[1:-1] for letter in str(text))


def plain(text):
    """The same, cut if it is long."""
    line = printable(text)
    return line if len(line) <= LONGEST else f"{line[:LONGEST]}…"


# The command

@pytest.fixture
def command(room):
    """A function that runs record-office-look over files of a folder: its status, and what it printed."""
    def run(*words, **how):
        done = subprocess.run([PYTHON, FRONT / "look/record_office_look.py", *words], cwd=room, capture_output=True, text=True,
                              check=False, **how)
        return done.returncode, done.stdout + done.stderr

    for name, data in (("good.csv", GOOD.encode()), ("bars.csv", GOOD.replace(",", "|").encode()),
                       ("old.csv", csv_text(unit("1", title='"12" plan é'), delimiter=";", quotechar="'").encode("cp1252")),
                       ("odd.csv", csv_text(unit("1", culture="EN", title="Caf\ufffd"), unit("2", "77")).encode())):
        (room / name).write_bytes(data)
    return run


def test_the_shell_is_told_the_gravest_first(command):
    """Each advice on a line, and the status of the worst file."""
    assert command("good.csv") == (0, "good.csv:\n  rows: 2, units: 2, drafts: 0, translations: 0, tops: 1, containers: 0\n")
    status, told = command("odd.csv", "good.csv")
    assert status == 1 and [line[:10] for line in told.splitlines()] == [
        "odd.csv:", "  look fir", "  look fir", "  note: In", "  rows: 2,", "good.csv:", "  rows: 2,"]
    status, told = command("bars.csv")
    assert (status, told.splitlines()[1][:58]) == (1, "  refused: The columns are separated by vertical bars. Con")


def test_a_file_that_cannot_be_read_is_told_and_the_others_are_looked_at(command, room):
    words = [PYTHON, FRONT / "look/record_office_look.py", "none.csv"]
    done = subprocess.run(words, cwd=room, capture_output=True, text=True, check=False)
    assert (done.stdout, "none.csv" in done.stderr) == ("", True), "what cannot be read is no advice, which a pipe takes"
    status, told = command("none.csv", "good.csv")
    assert status == 3 and "none.csv: No such file or directory\n" in told and "rows: 2" in told
    assert command(".")[0] == 3 and command()[0] == 2 and command("--convert", "new.csv", "good.csv", "bars.csv")[0] == 2


def test_what_a_file_is_taken_for_is_told_before_it_is_converted(command, room):
    before = (room / "old.csv").read_bytes()
    status, told = command("--convert", "new.csv", "old.csv")
    assert status == 1
    parts = ("is taken for Windows-1252 with semicolons between the columns", "é", "look first: In row 2", "csv is written")
    places = [told.find(part) for part in parts]
    assert -1 < min(places) and places == sorted(places), told
    assert (room / "new.csv").read_bytes() == convert(before, RULES).data
    status, told = command("--convert", "new.csv", "old.csv")
    assert (status, "new.csv: File exists" in told, (room / "old.csv").read_bytes()) == (3, True, before)
    status, told = command("--convert", "other.csv", "good.csv")
    assert (status, "there is nothing to convert" in told, (room / "other.csv").exists()) == (0, True, False)


def test_an_encoding_is_chosen_and_dates_are_filled_in(command, room):
    """Dates in a column that is there, or is added; a row that has its own keeps them, as does one of too few fields."""
    told = command("--convert", "greek.csv", "--encoding", "Windows-1253", "old.csv")[1]
    assert "is taken for Windows-1253 with semicolons" in told
    assert "12 plan ι".encode() in (room / "greek.csv").read_bytes()
    for name, header, rows, wanted in (
            ("one", "legacyId,eventDates,eventStartDates,eventEndDates",
             ("1,,1774-01-01,1893-12-31", "2,1800,1774,", "3,", "4,,,"),
             ("1,1774-1893,1774-01-01,1893-12-31", "2,1800,1774,", "3,", "4,,,")),
            ("other", "legacyId,eventStartDates", ("1,1774|NULL", "2"), ("1,1774|NULL,1774-|", "2"))):
        (room / f"{name}.csv").write_text("\n".join((header, *rows)))
        assert command(f"{name}.csv")[1].count("eventDates is blank") == 1
        command("--convert", f"{name}-new.csv", "--dates", f"{name}.csv")
        found = (room / f"{name}-new.csv").read_text().splitlines()
        assert (found[0], found[1:]) == (header if "eventDates" in header else f"{header},eventDates", list(wanted))


def test_whoever_has_read_enough_ends_the_command(room):
    (room / "many.csv").write_text(SHORT)
    words = f"{PYTHON} {FRONT}/look/record_office_look.py {'many.csv ' * 3000} | head -1"
    done = subprocess.run(["bash", "-c", words], cwd=room, capture_output=True, text=True, check=False)
    assert (done.stdout, done.stderr) == ("many.csv:\n", "")
