"""Memory refused to the program: to previews, `init`, `check`, `import`, `migrate`, `trial`, `talk` and `serve`.

Each is performed again and again on copies of the same files. Each twentieth of its requests for memory, from a random one
on, is refused alone, and then with all requests after it. Of the short ones each request is refused alone in turn: of
previews, of `init` and `check`, and of an import, of two registrations in one piece and of four scenarios after the office
was opened.

The program must end by itself in one of three ways. A command ends with `no memory` and 3, has printed nothing, and has
not been done. A session ends with 503 in place of an answer, or after the last one, since the program takes memory
before it knows whether a request follows; a server then goes on, and answers the next connection, or each later one
with 503 as long as there is no memory. Or all is as if nothing had been refused. Afterwards the office must be sound,
with the tables that it has after all that was answered as done, and after nothing else. On a copy of what is left the same
is performed once more, with ample memory, and must end as it does on such an office: as if nothing had been refused. What
differs in no more than a log's salts is looked at once. A failed `init` leaves no file, but its log, if even the memory for
the log's name is refused; no other `init` takes that name."""

import contextlib
import os
import random
import re
import shutil
import sqlite3
from collections import Counter
from concurrent.futures import ThreadPoolExecutor
from pathlib import Path

import pytest

from acceptance import client, disks, test_failing
from acceptance.client import BUSY, NO_MEMORY, Ended, Office
from acceptance.disks import ANN, BEN, copy_office
from acceptance.scenarios import Scenario

pytestmark = pytest.mark.needs("sqlite3", "cc")
shim = disks.compiled(disks.REFUSE)
HERE = Path(__file__).resolve().parent
SCENARIOS = {"issues": "first_come", "runs": "runs", "moves": "moves", "questions": "two_questions"}
NAMES = ["preview", "file", "init", "check", "import", "migrate", "trial", "talk", "refusals", "serve", *SCENARIOS]
EACH = 20
UNTOLD, TOLD, LOG_LEFT = "as if none was refused", "no memory", "no memory, and the log is left"
ALONE: dict[str, str] = {}
LASTING = {"LASTS": "1"}
FILE_FAULT = Ended(3, b"", b"file fault\n")
PORTS = 20  # ports in a row that are tried; offices of the front's tests have many beside each other
LONGEST = 1000  # characters of a wrong end that are shown
FONDS = """legacyId,parentId,identifier,title,levelOfDescription,publicationStatus,physicalObjectName
1,,HUL,Hull Dock Company,Fonds,Published,
2,1,1,Minutes,Series,Published,Box 1
"""


def look(office):
    """The names of an office's files and, if there is a store, what `check` says of it, and its tables."""
    verdict = office.check() if office.store.exists() else None
    names = tuple(sorted(os.listdir(office.store.parent)))
    if not verdict:
        return (names,)
    with contextlib.closing(sqlite3.connect(office.store)) as tables:
        return names, verdict, tuple(tables.iterdump())


def read(file):
    """The bytes of a file; of a log without what differs each time, its salts and the sums that begin with them."""
    whole = file.read_bytes()
    if file.suffix != ".db-wal":
        return whole
    size = 24 + int.from_bytes(whole[8:12], "big")  # of a page with its head, of which the first eight bytes are kept
    return whole[:16] + b"".join(whole[at : at + 8] + whole[at + 24 : at + size] for at in range(32, len(whole), size))


class Tries:
    """A command on copies of the files of an office. `ends` has the ways in which it may end if one request for memory
    is refused, and `lasting` those if all later ones are refused too: in words, by the end and a look at the office."""

    def __init__(self, name, room, before, perform):
        self.name, self.room, self.before, self.perform = name, room, before, perform
        self.looks, self.begin = {}, None
        whole, left = self.run_on_copy(perform)
        if (whole.status, whole.message) != (0, b""):
            raise RuntimeError(f"{name}: {whole}")
        self.ends = {(NO_MEMORY, self.run_on_copy(lambda _: NO_MEMORY)[1]): TOLD, (whole, left): UNTOLD}
        self.lasting = dict(self.ends)

    def run_on_copy(self, perform, **memory):
        """How something ends on a copy of the office; and a look at it, with how the command ends on what is left."""
        office = copy_office(self.before, self.room)
        ended = perform(office, **memory)
        files = tuple((it.name, read(it)) for it in sorted(office.store.parent.iterdir()))
        if files not in self.looks:
            left = copy_office(office, self.room)
            self.looks[files] = look(office), self.perform(left)
            shutil.rmtree(left.store.parent)
        shutil.rmtree(office.store.parent)
        return ended, self.looks[files]

    def requests(self, shim, perform=None):
        """How many requests for memory it makes, or something else on the same files."""
        ended, _ = self.run_on_copy(perform or self.perform, LD_PRELOAD=shim, SHOW="1")
        return int(re.search(rb"allocs=(\d+)", ended.message)[1])

    def in_turn(self, shim):
        """The requests that are refused alone in turn: none, or those after the ones that `begin` counts."""
        return range(self.begin(shim) + 1, self.requests(shim) + 1) if self.begin else range(0)

    def ending(self, shim, number, how):
        """How it ends without that request, in words, or what is wrong."""
        ended, seen = self.run_on_copy(self.perform, LD_PRELOAD=shim, FA=str(number), **how)
        words = (self.lasting if how else self.ends).get((ended, seen))
        (seen, again), lasting = seen, ", lasting" if how else ""
        return words or f"WRONG {self.name}, request {number}{lasting}: {ended}, {seen[:2]}, then {again}"


# ---- sessions


def run_talk(office, sessions, **memory):
    """How `talk` ends. The output is a list with the answers of its one session."""
    ended = office.talk(*sessions[0], **memory)
    return ended._replace(output=[ended.output])


def run_trial(office, sessions, **memory):
    words = client.option_words(client.SETTINGS)
    ended = office.program.run("trial", *words, said=b"".join(sessions[0]), **memory)
    return ended._replace(output=[ended.output])


def run_serve(office, sessions, **memory):
    """How `serve` ends, and the answers of each session, which is a connection of its own. If the port is taken, it is
    tried again on the next ones."""
    for _ in range(PORTS):
        with office.serve(len(sessions), **memory) as server:
            listens = server.said == b"listening %d\n" % server.port
            answers = [test_failing.ask(server, b"".join(it)) for it in sessions] if listens else []
            ended = server.wait_for_end()
        if ended.message != test_failing.TAKEN:
            break
    return Ended(ended.status, answers, ended.message)


def join_answers(ended):
    """How sessions ended, with all answers in one text."""
    return ended._replace(output=b"---- the next connection\n".join(ended.output))


class Sessions(Tries):
    """Sessions one after the other on copies of an office. `play` holds them."""

    def __init__(self, name, room, before, play, *sessions):
        super().__init__(name, room, before, lambda office, **memory: join_answers(play(office, sessions, **memory)))
        for number, asked in enumerate(sessions):
            for done in range(len(asked) + 1):
                cut = [*sessions[:number], asked[:done]]
                later, none = sessions[number + 1 :], [[]] * (len(sessions) - number - 1)
                self.ends[self.end_with_503(play, [*cut, *later], [number])] = "503"
                self.lasting[self.end_with_503(play, [*cut, *none], range(number, len(sessions)))] = "503"

    def end_with_503(self, play, sessions, numbers):
        """How these sessions end, and a look at the office, if the sessions of these numbers also have a 503."""
        ended, left = self.run_on_copy(lambda office: play(office, sessions))
        for number in numbers:
            ended.output[number] += BUSY
        return join_answers(ended), left


# ---- what is tried


class Kinds:
    """Makes what is tried."""

    def __init__(self, program, room):
        self.program, self.room, self.units = program, room, room / "units.csv"
        self.units.write_text(FONDS)
        self.none, self.new = Office(program, room / "none.db"), Office.create(program, room / "new.db")
        self.old = Office(program, HERE / "version1.db")

    def make(self, name):
        each = Scenario.of("every_request").requests
        sessions = {
            "trial": (self.none, run_trial, [ANN, BEN]),
            "talk": (self.new, run_talk, each),
            "refusals": (self.new, run_talk, Scenario.of("first_refusal").requests),
            "serve": (self.new, run_serve, each[:6], each[6:19], each[19:]),
            **{it: (self.new, run_talk, Scenario.of(file).requests) for it, file in SCENARIOS.items()},
        }
        if name not in sessions:
            return self.make_command(name)
        before, play, *asked = sessions[name]
        made = Sessions(name, self.room, before, play, *asked)
        if name in ("trial", *SCENARIOS):
            made.begin = lambda shim: made.requests(shim, lambda office, **memory: play(office, [[]], **memory))
        return made

    def make_command(self, name):
        preview, program = ["preview", "--country", "GB", "--repo", "0999"], self.program
        commands = {
            "preview": (self.none, lambda _, **memory: program.run(*preview, said=FONDS.encode(), **memory)),
            "file": (self.none, lambda _, **memory: program.run(*preview, str(self.units), **memory)),
            "init": (self.none, lambda office, **memory: office.init(**memory)),
            "check": (self.new, lambda office, **memory: office.check(**memory)),
            "import": (self.new, lambda office, **memory: office.import_file("a", self.units, **memory)),
            "migrate": (self.old, lambda office, **memory: office.perform("migrate", **memory)),
        }
        made = Tries(name, self.room, *commands[name])
        if name == "init":
            made.lasting[NO_MEMORY, ((("office.db-wal",),), FILE_FAULT)] = LOG_LEFT
        if name in ("preview", "file", "init", "check"):
            made.begin = lambda _: 0
        if name == "import":
            made.begin = lambda shim: made.requests(shim, commands["check"][1])
        return made


def refuse(it, shim, each=EACH, offset=0):
    """Refuses each of these requests of a command or a session; returns how often it ended in which way, or the wrong end."""
    last, in_turn = it.requests(shim), it.in_turn(shim)
    runs = [(number, how) for number in range(offset + 1, last + 1, each) for how in (ALONE, LASTING)]
    runs += [(number, ALONE) for number in in_turn if (number, ALONE) not in runs]
    with ThreadPoolExecutor(os.cpu_count()) as pool:
        return Counter(pool.map(lambda run: it.ending(shim, *run)[:LONGEST], runs))


@pytest.fixture(scope="module")
def kinds(program: client.Program, module_room: Path) -> Kinds:
    return Kinds(program, module_room)


@pytest.mark.slow
@pytest.mark.parametrize("each", [EACH, pytest.param(1, marks=pytest.mark.thorough)])
@pytest.mark.parametrize("name", NAMES)
def test_refused(name: str, each: int, kinds: Kinds, shim: str) -> None:
    ends = refuse(kinds.make(name), shim, each, random.randrange(each))
    assert not [it for it in ends if it.startswith("WRONG")]
    assert set(ends) - {UNTOLD}, "no run was told of a refusal"
