"""The commands of the program as their users call them: words, exit statuses and messages, settings, previews, stores that are
none, `serve` with curl and with connections that break, SQLite's own tool, the kept file of version 1."""

import os
import shutil
import socket
import struct
import subprocess
import threading
import time
from collections.abc import Callable, Iterator
from pathlib import Path

import pytest

from acceptance import client
from acceptance.client import HOST, SOUND, Ended, Office, Program, Server
from acceptance.reference_model.limits import HIGHEST
from acceptance.scenarios import Scenario

HERE = Path(__file__).resolve().parent
HEADER = "legacyId,parentId,identifier,title,levelOfDescription,publicationStatus\n"
FONDS = HEADER + "1,,HUL,Hull Dock Company,Fonds,Published\n2,1,1,Minutes,Series,Published\n"
TWO_UNITS = "GB 0999 HUL [Fonds] Hull Dock Company\n  GB 0999 HUL/1 [Series] Minutes\n"
BOXES = "legacyId,title,publicationStatus,physicalObjectName\n1,Plans,Published,Box 1\n2,Maps,Published,Box 2\n"
TAKEN = '{"changed":0,"new":2,"remarks":[{"kind":2,"row":2}],"same":0,"translations":0}'
AGAIN = '{"changed":0,"new":0,"remarks":[{"kind":2,"row":2}],"same":2,"translations":0}'
TOP = "1 GB 0999 HUL [Fonds] Hull Dock Company\n"
FILE_FAULT, STORE_FAULT, NET_FAULT = (Ended(3, b"", f"{it} fault\n".encode()) for it in ("file", "store", "net"))
# the bytes of a log that has nothing, and the fewest of a store
EMPTY_LOG, SHORTEST_STORE = 41, 512
DONE, OLD = Ended(0, b"", b""), Ended(1, b"old version\n", b"")
BEYOND = {name: (0, most + 1) for name, most in HIGHEST.items()}
BAD_SETTINGS, BAD_DATE = Ended(2, b"", b"bad settings\n"), Ended(2, b"", b"bad date\n")
ANN = client.post("/desk/register", '{"name":"Ann","until":"2024-12-31"}')
PREVIEW = ["preview", "--country", "GB", "--repo", "0999"]
# settings that differ from the usual ones, and how they are refused; the day is judged first
SETTINGS_SAID = [
    *(({name: value}, BAD_SETTINGS) for name, values in BEYOND.items() for value in values),
    ({"country": "gb"}, BAD_SETTINGS),
    ({"day": "2024-02-30"}, BAD_DATE),
    ({"country": "gb", "seats": 0, "day": "today"}, BAD_DATE),
    (client.LARGE | {"day": "9999-12-31"}, DONE),
    ({"repo": "r", "seats": "+1", "daily": "01", "run": "001", "day": "1900-01-01"}, DONE),
]
# words that are refused, with the message; `error` is what clap says of words that it does not take
REFUSED_WORDS = client.table(HERE / "command_lines.txt")
FIRST_FAULTS = {"bad settings": BAD_SETTINGS, "bad date": BAD_DATE, "file fault": FILE_FAULT}
needs_sqlite3 = pytest.mark.needs("sqlite3")
Unread = Callable[..., Ended]


def refused(message: str, status: int = 2) -> Ended:
    """The end of a command that prints nothing but a message."""
    return Ended(status, b"", f"{message}\n".encode())


def printed(text: str) -> Ended:
    """The end of a command that does what it should."""
    return Ended(0, text.encode(), b"")


def sqlite3(store: Path, *words: str) -> str:
    return subprocess.run(["sqlite3", store, *words], check=True, capture_output=True, text=True).stdout


def curl(*words: str) -> str:
    """What curl prints when it is called with these words."""
    return subprocess.run(["curl", "-s", "-S", "-m", "10", *words], capture_output=True, text=True).stdout


@pytest.fixture
def fonds(room: Path) -> Path:
    file = room / "fonds.csv"
    file.write_text(FONDS)
    return file


@pytest.fixture
def office(program: Program, room: Path) -> Office:
    return Office.create(program, room / "office.db")


@pytest.fixture
def filled(office: Office, fonds: Path) -> Office:
    assert office.import_file("a", fonds) == printed(f"{TAKEN}\n")
    return office


@pytest.fixture
def unread(program: Program, room: Path) -> Iterator[Unread]:
    """Runs a command whose standard input is a directory: what does not need it must not read it."""
    directory = os.open(room, os.O_RDONLY)
    yield lambda words, **how: program.run(*(words.split() if isinstance(words, str) else words), said=directory, **how)
    os.close(directory)


def copy_office(office: Office, store: Path, name: str) -> Office:
    """An office of this name beside another, on a copy of a store."""
    copy = Office(office.program, office.store.parent / name)
    shutil.copyfile(store, copy.store)
    return copy


# ---- the words of the command line


@pytest.mark.parametrize("word", ["--help", "-h"])
@pytest.mark.parametrize("file", sorted((HERE / "help").iterdir()), ids=lambda it: it.stem)
def test_help(file: Path, word: str, unread: Unread) -> None:
    command = [] if file.stem == "record_office" else [file.stem]
    assert unread([*command, word]) == Ended(2, b"", file.read_bytes())


@pytest.mark.parametrize("words", [
    *(words for words, message in REFUSED_WORDS if message == "error"), "", [b"preview", b"\xff"]])
def test_words_that_are_refused(words: str | list[bytes], unread: Unread) -> None:
    status, output, message = unread(words)
    assert (status, output, message[:7], message[-1:]) == (2, b"", b"error: ", b"\n")


@pytest.mark.parametrize("changed, wanted", SETTINGS_SAID, ids=str)
def test_settings_at_limits_and_beyond(changed: client.Settings, wanted: Ended, program: Program, unread: Unread) -> None:
    words = ["trial", *client.option_words(client.SETTINGS | dict(changed))]
    assert (program.run(*words) if wanted == DONE else unread(words)) == wanted


@pytest.mark.parametrize("words, message", [row for row in REFUSED_WORDS if row[1] != "error"])
def test_settings_are_judged_before_a_file_is_read_and_that_before_a_store_is_opened(
        words: str, message: str, unread: Unread) -> None:
    assert unread(words) == FIRST_FAULTS[message]


@pytest.mark.parametrize("said, wanted", [
    (FONDS, printed(TWO_UNITS)),
    ("", refused("refused 22 BadFile row 1 cause 2", 1)),
    (HEADER, DONE),
    ("legacyId,parentId,title\n1,,Top\n3,2,Low\n2,1,Mid\n", refused("refused 22 BadFile row 3 cause 11", 1)),
], ids=["two units", "empty", "no rows", "a unit before its parent"])
def test_preview_of_a_file_and_of_what_is_sent(said: str, wanted: Ended, room: Path, program: Program, unread: Unread) -> None:
    (room / "a.csv").write_text(said)
    assert program.run(*PREVIEW, said=said.encode()) == wanted
    assert unread([*PREVIEW, str(room / "a.csv")]) == wanted
    for file in (room / "none.csv", room):
        assert unread([*PREVIEW, str(file)]) == FILE_FAULT


def test_a_file_is_read_to_its_end_from_a_pipe_that_is_written_in_pieces(program: Program, office: Office, room: Path) -> None:
    os.mkfifo(pipe := room / "pipe")

    def write() -> None:
        with open(pipe, "wb", buffering=0) as it:
            for begin in range(0, len(FONDS), 20):
                it.write(FONDS[begin:begin + 20].encode())
                time.sleep(0.01)

    for read, wanted in ((lambda: program.run(*PREVIEW, pipe), TWO_UNITS),
                         (lambda: office.import_file("a", pipe), f"{TAKEN}\n")):
        writer = threading.Thread(target=write)
        writer.start()
        assert read() == printed(wanted)
        writer.join()


# ---- offices of this version


def test_how_each_command_on_a_store_ends(filled: Office, fonds: Path, room: Path) -> None:
    assert filled.init() == FILE_FAULT, "a store that is there"
    assert filled.import_file("a,b", fonds) == refused("refused 27 BadName", 1)
    assert filled.import_file("a", fonds) == printed(f"{AGAIN}\n")
    assert filled.import_file("a", room / "none.csv") == FILE_FAULT
    assert filled.import_file("a", os.devnull) == refused("refused 22 BadFile row 1 cause 2", 1)
    assert filled.check() == SOUND
    assert filled.perform("migrate") == STORE_FAULT, "version 2 already"
    answer = client.reply(200, TOP.encode(), client.TEXT)
    assert filled.talk(client.get("/public/fonds"), b"GET") == Ended(3, answer, b"cut\n")


def test_of_two_faults_the_first_is_told_file_then_store_then_port(filled: Office, fonds: Path, room: Path) -> None:
    none, zeros = (Office(filled.program, room / name) for name in ("none.db", "zeros.db"))
    zeros.store.write_bytes(bytes(4096))
    assert none.check() == FILE_FAULT
    assert zeros.check() == zeros.talk() == STORE_FAULT
    assert zeros.import_file("a", room / "none.csv") == FILE_FAULT
    assert zeros.import_file("a", fonds) == zeros.import_file("a", os.devnull) == STORE_FAULT
    assert none.import_file("a", fonds) == FILE_FAULT
    with socket.create_server((HOST, 0)) as taken:
        words = "serve", "--port", str(taken.getsockname()[1]), "--connections", "1"
        assert [it.perform(*words) for it in (filled, zeros, none)] == [NET_FAULT, STORE_FAULT, FILE_FAULT]


def sizes_left(store: Path) -> tuple[int, int | None]:
    """How many bytes a store has, and its log; None if there is no log."""
    log = Path(f"{store}-wal")
    return store.stat().st_size, log.stat().st_size if log.exists() else None


@pytest.mark.parametrize("content", [b"", b"\0", b"x", bytes(2), b"text\n", bytes(511), bytes(512), bytes(4096)],
                         ids=lambda it: f"{len(it)} bytes {it[:1].hex()}")
def test_a_file_that_is_no_store_stays_with_an_empty_log(content: bytes, program: Program, room: Path, fonds: Path) -> None:
    for words in (["check"], ["talk"], ["migrate"], ["import", "--source", "a", str(fonds)],
                  ["serve", "--port", "1", "--connections", "1"]):
        office = Office(program, room / f"{words[0]}.db")
        office.store.write_bytes(content)
        assert office.perform(*words) == STORE_FAULT, words
        assert sizes_left(office.store) == (len(content), None if len(content) < SHORTEST_STORE else 0), words
    assert office.init() == FILE_FAULT
    assert office.store.read_bytes() == content


@pytest.mark.parametrize("length", [248, 251, 252, 255, 256])
def test_no_office_is_made_whose_files_would_have_too_long_names(length: int, program: Program, room: Path) -> None:
    assert Office(program, room / ("a" * 247)).init() == DONE
    assert Office(program, room / ("b" * length)).init() == FILE_FAULT
    assert [it.name[0] for it in room.iterdir()] == ["a", "a"]


def test_a_directory_is_no_store(program: Program, room: Path) -> None:
    office = Office(program, room)
    assert office.init() == FILE_FAULT
    assert [office.perform(it) for it in ("check", "talk", "migrate")] == [STORE_FAULT] * 3


def test_no_office_is_made_beside_a_log_that_is_there(program: Program, room: Path) -> None:
    office, log = Office(program, room / "office.db"), room / "office.db-wal"
    log.write_bytes(b"x")
    assert office.init() == FILE_FAULT
    assert (office.store.exists(), log.read_bytes()) == (False, b"x")


def test_a_session_that_ends_leaves_an_empty_log(office: Office) -> None:
    office.talk(ANN).expect_success()
    assert sizes_left(office.store)[1] == EMPTY_LOG


def test_a_log_with_changes_stays_if_the_store_beside_it_was_cut(office: Office) -> None:
    log = Path(f"{office.store}-wal")
    with office.session() as session:
        session.ask(ANN)
    whole, changes = office.store.read_bytes(), log.read_bytes()
    assert len(changes) > EMPTY_LOG
    for size in (0, 1, 2, 511, 4096):
        office.store.write_bytes(whole[:size])
        log.write_bytes(changes)
        assert office.check() == STORE_FAULT, size
        assert sizes_left(office.store) == (size, len(changes))


# ---- servers


def expect_served(server: Server) -> str:
    """The URL of a server, which must have told that it listens."""
    assert server.said.decode() == f"listening {server.port}\n"
    return f"http://{HOST}:{server.port}"


@pytest.mark.needs("curl")
def test_served_by_curl_beside_connections_that_break(filled: Office) -> None:
    """Two break, and three are kept alive, ask for a HEAD, and send a body after 100 Continue. What the broken ones began is
    not carried out: the next ticket is the first. Then another server begins on the same port at once."""
    with filled.serve(5) as server:
        url = expect_served(server)
        for is_reset in (False, True):
            with server.connect() as it:
                it.sendall(ANN[:-22])
                if is_reset:
                    it.setsockopt(socket.SOL_SOCKET, socket.SO_LINGER, struct.pack("ii", 1, 0))
        top, series = "GB 0999 HUL [Fonds] Hull Dock Company\n", "GB 0999 HUL/1 [Series] Minutes\n"
        assert curl(f"{url}/public/aid/1", f"{url}/public/units/2") == f"{top}  {series}{series}"
        head = [it for it in curl("-I", f"{url}/public/fonds").splitlines() if "HTTP" in it or "Length" in it]
        assert head == ["HTTP/1.1 405 Method Not Allowed", "Content-Length: 30"]
        told, ann = ["-s", "-S", "-m", "10", "-w", " %{http_code}\n"], '{"name":"Ann","until":"2024-12-31"}'
        answers = curl(*told, "-H", "Expect: 100-continue", "-d", ann, f"{url}/desk/register",
                       "--next", *told, f"{url}/public/units/9",
                       "--next", *told, "-d", '{"ticket":1,"container":7}', f"{url}/public/orders")
        assert answers.splitlines() == [
            '{"ticket":1} 200', '{"error":"not found"} 404', '{"code":5,"refused":"NotAvailable"} 409']
        assert server.wait_for_end() == DONE
    with filled.serve(1, server.port) as again:
        assert curl(f"{expect_served(again)}/public/fonds") == TOP
        assert again.wait_for_end() == DONE


# ---- SQLite's own tool


@needs_sqlite3
def test_sqlite3_finds_nothing_wrong_and_reads_a_branch_by_its_numbers(filled: Office) -> None:
    filled.talk(ANN)
    assert sqlite3(filled.store, "PRAGMA integrity_check; PRAGMA foreign_key_check") == "ok\n"
    branch = """SELECT below.id, below.lft, below.rgt FROM span AS top, span AS below
        WHERE top.id = 1 AND below.lft BETWEEN top.lft AND top.rgt ORDER BY below.lft"""
    assert sqlite3(filled.store, branch) == "1|1|4\n2|2|3\n"


@needs_sqlite3
def test_no_command_takes_tables_of_another(program: Program, room: Path, fonds: Path) -> None:
    other = Office(program, room / "other.db")
    sqlite3(other.store, "CREATE TABLE unit (id INTEGER PRIMARY KEY); INSERT INTO unit VALUES (1)")
    before = sqlite3(other.store, ".dump")
    assert other.check() == other.import_file("a", fonds) == other.talk() == other.perform("migrate") == STORE_FAULT
    assert sqlite3(other.store, ".dump") == before


@pytest.fixture(scope="module")
def with_a_reader(program: Program, module_room: Path) -> Office:
    """An office in which a reader has a container."""
    office = Office.create(program, module_room / "with_a_reader.db")
    Scenario.of("with_a_reader").play_on(office)
    return office


@needs_sqlite3
@pytest.mark.parametrize("line", (HERE / "changed.txt").read_text().splitlines(), ids=lambda it: it.partition("|")[2])
def test_verdict_of_check_after_a_statement_of_sqlite3(line: str, with_a_reader: Office, room: Path) -> None:
    verdict, _, statement = line.partition("|")
    changed = Office(with_a_reader.program, room / "changed.db")
    shutil.copyfile(with_a_reader.store, changed.store)
    sqlite3(changed.store, statement)
    told = STORE_FAULT if verdict == "store fault" else Ended(0 if verdict == "sound" else 1, f"{verdict}\n".encode(), b"")
    assert changed.check() == told
    assert changed.talk() == (DONE if verdict == "sound" else STORE_FAULT)


LAST_ROW = 2**63 - 1
WRITES = {"element": (client.post("/desk/import/b", FONDS),), "housing": (client.post("/desk/import/b", BOXES),),
          "permit": (client.post("/desk/permit", '{"ticket":1,"unit":2,"until":"2024-12-31"}'),),
          "run_line": (client.post("/public/orders", '{"ticket":1,"container":2}'), client.post("/desk/run"))}


@needs_sqlite3
@pytest.mark.parametrize("table", WRITES)
def test_no_row_comes_after_the_last_number_until_somebody_lowers_it(table: str, office: Office) -> None:
    permit, order = '{"ticket":1,"unit":1,"until":"2024-12-31"}', '{"ticket":1,"container":1}'
    office.talk(client.post("/desk/import/a", BOXES), ANN, client.post("/desk/permit", permit),
                client.post("/desk/seat", '{"ticket":1}'), client.post("/public/orders", order), client.post("/desk/run"))
    highest = f"(SELECT max(rowid) FROM {table} WHERE rowid < {LAST_ROW})"
    sqlite3(office.store, f"UPDATE {table} SET rowid = {LAST_ROW} WHERE rowid = {highest}")
    assert office.check() == SOUND
    assert client.replies(office.talk(*WRITES[table]).output)[-1].status == 503
    sqlite3(office.store, f"UPDATE {table} SET rowid = ifnull({highest}, 0) + 1 WHERE rowid = {LAST_ROW}")
    assert office.check() == SOUND
    assert client.replies(office.talk(WRITES[table][-1]).output)[-1].status == 200


# ---- the kept file of version 1


@pytest.fixture
def old(program: Program, room: Path) -> Office:
    shutil.copyfile(HERE / "version1.db", room / "old.db")
    return Office(program, room / "old.db")


def test_no_command_takes_version_1_but_migrate_once(old: Office, fonds: Path) -> None:
    assert old.init() == FILE_FAULT
    assert old.check() == OLD
    assert old.import_file("a", fonds) == old.talk() == STORE_FAULT
    assert old.check() == OLD
    assert old.perform("migrate") == printed("migrated\n")
    assert old.check() == SOUND
    assert old.perform("migrate") == STORE_FAULT
    Scenario.of("version1", HERE).play_on(old)


@needs_sqlite3
def test_a_migrated_file_has_spans_for_its_links_and_all_other_rows(old: Office) -> None:
    was = copy_office(old, old.store, "version1.db").store
    assert old.perform("migrate") == printed("migrated\n")
    new = copy_office(old, old.store, "new.db").store
    assert sqlite3(new, "PRAGMA integrity_check; PRAGMA foreign_key_check") == "ok\n"
    assert sqlite3(new, "SELECT * FROM span ORDER BY lft").split() == ["2|1|2", "3|3|4", "4|5|6", "1|7|8", "5|9|12", "6|10|11"]
    assert sqlite3(new, "SELECT * FROM office") == "1|2|GB|0999|2|3|1|2|19783|7\n"
    names = "SELECT name FROM sqlite_schema WHERE type = 'table' AND name NOT IN ('office', 'link', 'span') ORDER BY name"
    tables = sqlite3(was, names).split()
    assert sqlite3(new, names).split() == tables
    for table in tables:
        assert sqlite3(new, f".dump {table}") == sqlite3(was, f".dump {table}"), table


@needs_sqlite3
def test_migrate_leaves_a_file_as_it_is_if_its_office_is_not_sound(old: Office) -> None:
    sqlite3(old.store, "DELETE FROM seat")
    was = sqlite3(old.store, ".dump")
    assert old.check() == OLD
    assert old.perform("migrate") == STORE_FAULT
    assert sqlite3(old.store, ".dump") == was
