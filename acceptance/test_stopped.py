"""The program stopped after each call by which a command changes its files: after the first, second, .. such call, until a run
ends by itself. stop.c stops it and leaves the files as KEPT says: whole, as when the program is killed, or without some of the
unsynced data, as when the power fails. Then the tables must be those before the command or those after it; if the command was
answered, those after it. What a stopped `init` leaves may also be no office, which `check` reports as a store fault."""

import shutil
from collections import Counter
from pathlib import Path

import pytest

from acceptance import client, disks
from acceptance.client import Ended, Office, post
from acceptance.disks import KEPT, LONGEST, copy_office, look

pytestmark = pytest.mark.needs("sqlite3", "cc")
shim = disks.compiled(disks.STOP)
VERSION_1 = Path(__file__).with_name("version1.db")
KILLED = -9
UNMADE = 3, b"store fault\n", None


def session_of(path: str, body: str = "") -> tuple[list[str], bytes]:
    return ["talk"], post(path, body)


# Each on the store that the one before has left: words without the store, and input. The others only lead on.
STEPS = {
    "init": (["init", *client.option_words(client.SETTINGS)], b""),
    "import": (["import", "--source", "a", "units.csv"], b""),
    "closure": session_of("/desk/closure", '{"unit":2,"until":"2030-01-01"}'),
    "move": session_of("/desk/move", '{"unit":3,"parent":2}'),
    "register": session_of("/desk/register", '{"name":"Ann","until":"2024-12-31"}'),
    "order": session_of("/public/orders", '{"ticket":1,"container":9}'),
    "run": session_of("/desk/run"),
    "seat": session_of("/desk/seat", '{"ticket":1}'),
    "issue": session_of("/desk/issue", '{"container":9,"ticket":1}'),
    "return": session_of("/desk/return", '{"container":9}'),
    "migrate": (["migrate"], b""),
}
STOPPED = ["init", "import", "closure", "move", "order", "run", "issue", "return", "migrate"]


class Stops:
    """A command that is stopped on copies of an office."""

    def __init__(self, name: str, before: Office, room: Path) -> None:
        self.name, self.before, self.room = name, before, room
        self.after = copy_office(before, room)
        self.whole = self.perform(self.after)
        assert self.whole.status == 0, (name, self.whole)

    def perform(self, office: Office, **environment: str) -> Ended:
        words, said = STEPS[self.name]
        return office.perform(*words, said=said, timeout=LONGEST, room=self.room, **environment)

    def stop_everywhere(self, shim: str, kept: str) -> Counter[str]:
        """Stops it after the first, second, .. call, until it ends by itself. Returns in which states it left the office."""
        before, after = (look(copy_office(it, self.room)) for it in (self.before, self.after))
        states: Counter[str] = Counter()
        number = 0
        while True:
            number += 1
            office = copy_office(self.before, self.room)
            ended = self.perform(office, LD_PRELOAD=shim, STOP=str(number), KEPT=kept)
            seen = look(office)
            shutil.rmtree(office.store.parent)
            allowed = {"after": after}
            if ended.status == KILLED and not ended.output:
                allowed |= {"before": before} | ({"no office": UNMADE} if self.name == "init" else {})
            state = next((it for it, left in allowed.items() if left == seen), "")
            assert state, f"stopped after call {number}: {ended}, {seen[:2]}"
            if ended.status != KILLED:
                assert ended == self.whole
                return states
            states[state] += 1


@pytest.fixture(scope="module")
def stops(program: client.Program, module_room: Path) -> dict[str, Stops]:
    (module_room / "units.csv").write_text(disks.file_of_units())
    made: dict[str, Stops] = {}
    office = Office(program, module_room / "none.db")
    for name in STEPS:
        made[name] = Stops(name, Office(program, VERSION_1) if name == "migrate" else office, module_room)
        office = made[name].after
    return made


@pytest.mark.parametrize("kept", [*KEPT[:2], *(pytest.param(it, marks=pytest.mark.thorough) for it in KEPT[2:])])
@pytest.mark.parametrize("name", STOPPED)
def test_stopped(name: str, kept: str, stops: dict[str, Stops], shim: str) -> None:
    states = stops[name].stop_everywhere(shim, kept)
    assert states["before"] + states["no office"] and states["after"], states
