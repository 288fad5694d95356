"""A disk that fails while the program goes on.

A new office, an import, a session of every command, a migration, a server with three connections, and a check and a session
on a store whose long log is written into the file are each run with a disk that fails at the first, second, .. call by which
the program changes its files, until a run meets no failure. stop.c makes the failures and explains HOW and KEPT.

The program must end by itself: as without a failure; with `store fault` and 3; or, in a session, with 503 after the
same answers as an undisturbed session gives. Then `check` and `talk` open the store on a disk that works. It must be
sound, and show the office after all commands that were answered as done, and after at most the one more that was
reported as failed. An `init` that failed leaves no file, and succeeds when it is called again."""

import contextlib
import itertools
import os
import shutil
import socket
from functools import cache
from pathlib import Path

import pytest

from acceptance import client, disks
from acceptance.client import BUSY, Office, get
from acceptance.disks import ANN, BEN, FAULT, KEPT, LONGEST, READER, copy_office
from acceptance.scenarios import Scenario

pytestmark = pytest.mark.needs("sqlite3", "cc")
shim = disks.compiled(disks.STOP)
USUAL = ["broken:all", "once:none", "full:odd"]
PAIRS = [f"{how}:{kept}" for how in ("broken", "once", "late", "full") for kept in KEPT] + ["unread:all"]
TAKEN = b"net fault\n"
SOUND = client.SOUND[:2]
QUESTIONS = get("/public/fonds") + get("/public/units/2") + get("/desk/queue/8") + READER


def talk(office, asked, **disk):
    """Runs a session of these requests, with the variables of a disk that fails."""
    return office.talk(*asked, timeout=LONGEST, **disk)


def look(office):
    """What `check` says of an office, its tables as sqlite3 reads them, and answers to questions."""
    return disks.look(office), talk(office, [QUESTIONS])


class Tries:
    """Runs of one kind on copies of an office, with a disk that fails."""

    def __init__(self, name, before, room):
        self.name, self.before, self.room = name, before, room

    def look_after(self, *asked):
        """A look at a copy of the office after these requests, and their answers."""
        office = copy_office(self.before, self.room)
        answers = talk(office, asked).output if asked else b""
        return look(office), answers

    def run(self, office, **disk):
        """How a run ended, and what the office may show then; first what it is after all that was answered as done."""
        raise NotImplementedError

    def is_left_well(self, office, ended):
        """Always true; a kind of run may check here more of what a failure leaves than a look shows."""
        return True

    def fail(self, shim, number, how, kept):
        """Makes the disk fail at this call, and looks at the office. False if there was no such call."""
        office = copy_office(self.before, self.room)
        mark = office.store.parent / "failed"
        disk = {"LD_PRELOAD": shim, "FAIL": str(number), "HOW": how, "KEPT": kept, "FAILED": str(mark)}
        ended, may_show = self.run(office, **disk)
        has_failed, seen = mark.exists(), look(office)
        assert seen in may_show, f"it failed at call {number}: {ended}, {seen[0][:2]}"
        assert self.is_left_well(office, ended), f"it failed at call {number}: {ended}, and init fails again"
        shutil.rmtree(office.store.parent)
        return has_failed

    def try_all_failures(self, shim, how, kept):
        """Makes the disk fail at the first, second, .. call, until a run has no such call. Returns how many failed."""
        return next(number for number in itertools.count() if not self.fail(shim, number + 1, how, kept))


class Commands(Tries):
    """A command of the program, from its start to its end."""

    def __init__(self, name, before, room, *words):
        super().__init__(name, before, room)
        self.words, self.after = words, copy_office(before, room)
        self.whole = self.perform(self.after)
        self.found, self.left = self.look_after()[0], look(copy_office(self.after, room))
        assert self.whole.status == 0 and self.left[0][:2] == SOUND, (name, self.whole, self.left)

    def perform(self, office, **disk):
        return office.perform(self.name, *self.words, timeout=LONGEST, **disk)

    def run(self, office, **disk):
        """Runs the command; returns how it ended, and what the office may show then."""
        ended = self.perform(office, **disk)
        if ended == self.whole:
            return ended, [self.left]
        if ended != FAULT:
            return ended, []
        return ended, [self.found] if self.name == "init" else [self.found, self.left]

    def is_left_well(self, office, ended):
        """Whether `init` succeeds when it is called again after a failure; true of other commands."""
        return self.name != "init" or ended != FAULT or self.perform(office) == self.whole


class Sessions(Tries):
    """A session of several requests, all of which are carried out."""

    def __init__(self, name, before, room, asked):
        super().__init__(name, before, room)
        self.asked = asked
        self.looks, self.answers = zip(*(self.look_after(*asked[:count]) for count in range(len(asked) + 1)))
        assert all(it[0][:2] == SOUND for it in self.looks), name
        assert self.answers[-1].count(b"HTTP/1.1 200 OK") == len(asked), self.answers

    def run(self, office, **disk):
        """Runs the session; returns how it ended, and what the office may show after its answers."""
        ended = talk(office, self.asked, **disk)
        if ended == FAULT:
            return ended, self.looks[:1]
        if ended == (0, self.answers[-1], b""):
            return ended, self.looks[-1:]
        for count, answers in enumerate(self.answers[:-1]):
            if ended == (0, answers + BUSY, b""):
                return ended, self.looks[count : count + 2]
        return ended, []


def ask(server, asked):
    """Asks on a new connection; returns the answer, or nothing if the connection breaks."""
    with contextlib.suppress(OSError), server.connect(20) as it:
        it.sendall(asked)
        it.shutdown(socket.SHUT_WR)
        return b"".join(iter(lambda: it.recv(4096), b""))
    return b""


def serve(office, asked, **disk):
    """Asks a server, each request on its own connection; returns its status, answers and message."""
    with office.serve(len(asked), **disk) as server:
        listens = server.said == b"listening %d\n" % server.port
        answers = [ask(server, it) for it in asked] if listens else []
        ended = server.wait_for_end(LONGEST)
    return serve(office, asked, **disk) if ended.message == TAKEN else (ended.status, answers, ended.message)


class Servers(Tries):
    """A server of three connections: a reader is registered and asked for, and another is registered."""

    ASKED = [ANN, READER, BEN]

    def __init__(self, before, room):
        super().__init__("serve", before, room)
        self.looks, self.answers = {}, {}
        for there in ((), (ANN,), (BEN,), (ANN, BEN)):
            self.looks[there], said = self.look_after(*there)
            self.answers |= {(there, it): self.look_after(*there, it)[1][len(said) :] for it in self.ASKED}

    def run(self, office, **disk):
        """Runs the server; returns how it ended, and what the office may show after its answers."""
        status, answers, told = ended = serve(office, self.ASKED, **disk)
        if (status, told) == (0, b"") or (status, answers, told) == (3, [], FAULT.message):
            return ended, [self.looks[it] for it in self.possible_readers(answers)]
        return ended, []

    def possible_readers(self, answers):
        """The readers who may be registered then, as a list of possibilities. The first has those who were answered.
        After a registration that got 503 there is a second, with that reader; a later answer rules it out.
        A question that gets 503 shows that the store is shut: no later request may be answered."""
        there, maybe, is_shut = (), [], False
        for asked, answer in zip(self.ASKED, answers):
            after = there if asked == READER else (*there, asked)
            if answer == BUSY:
                maybe += [] if is_shut else [after]
                is_shut |= asked == READER
            elif is_shut or answer != self.answers[there, asked]:
                return []
            else:
                there, maybe = after, []
        return [there, *maybe]


def register_readers(office, most):
    """Registers up to this many readers, kills the program, and returns their number. It stops early when the log is
    written into the file."""
    with office.session() as session:
        made, written = 0, set()
        while made < most and len(written) < 2:
            session.ask(ANN)
            written.add(os.stat(office.store).st_mtime_ns)
            made += 1
    return made


def long_log(before, room):
    """An office whose program was killed, with a log that the next command writes into the file."""
    most = 5000
    made = register_readers(copy_office(before, room), most)
    assert made < most
    office = copy_office(before, room)
    register_readers(office, made - 1)
    return office


# ---- what is tried


class Kinds:
    """Makes the kinds of runs, each when it is first asked for. A long log takes many reads."""

    def __init__(self, program, room):
        self.program, self.room, self.units = program, room, room / "units.csv"
        self.units.write_text(disks.file_of_units())

    @cache
    def make(self, name):
        if name == "init":
            settings = client.option_words(client.SETTINGS)
            return Commands(name, Office(self.program, self.room / "none.db"), self.room, *settings)
        if name == "migrate":
            return Commands(name, Office(self.program, Path(__file__).with_name("version1.db")), self.room)
        if name == "import":
            return Commands(name, self.make("init").after, self.room, "--source", "a", str(self.units))
        taken = self.make("import").after
        if name == "talk":
            return Sessions(name, taken, self.room, Scenario.of("every_request").requests)
        if name == "serve":
            return Servers(taken, self.room)
        if name == "long log":
            return long_log(taken, self.room)
        if name == "check":
            return Commands(name, self.make("long log"), self.room)
        return Sessions(name, self.make("long log"), self.room, [ANN, READER, BEN])


SHORT, LONG = ["init", "import", "talk", "migrate", "serve"], ["check", "talk over a long log"]
RUNS = [(name, pair) for pair in PAIRS for name in SHORT + LONG if name in SHORT or pair != "unread:all"]


@pytest.fixture(scope="module")
def kinds(program: client.Program, module_room: Path) -> Kinds:
    return Kinds(program, module_room)


@pytest.mark.parametrize("name, pair", [
    pytest.param(name, pair, id=f"{name}-{pair}", marks=[] if pair in USUAL else pytest.mark.thorough) for name, pair in RUNS])
def test_failing(name: str, pair: str, kinds: Kinds, shim: str) -> None:
    assert kinds.make(name).try_all_failures(shim, *pair.split(":")), "it met no failure"
