"""What rounds and answers ask the office for, and when, so that nobody waits for what nobody wants to know; and what they do
beside units that the office cannot answer for, as those whose page takes more memory than there is: an index beside an office
that is a table of head lines."""

import contextlib
import io
import socket
import time
from types import SimpleNamespace

import asking
import index
import pytest
import service
from answers import COUNTED, SHOWN, Finder, Query
from asking import Busy, Unreached
from folding import read_typed
from rounds import Keeper, Round

HEADS = {1: "GB 0999 A [Fonds] Docks", 2: "GB 0999 A/1 [Series] Anchors", 3: "GB 0999 A/1/1 [File] Buoys",
         4: "GB 0999 A/2 [Series] Cranes", 5: "GB 0999 A/2/1 [File] Derricks", 6: "GB 0999 B [Fonds] Ebb"}
BELOW = {1: (2, 4), 2: (3,), 4: (5,)}


class Office:
    """Called with a path as `Asking` is. gone: paths that show nothing; lost: what is raised for a path; paths: what was asked
    for; is_late: it answers when a reader's time is over."""

    def __init__(self):
        self.heads, self.below, self.tops, self.gone = dict(HEADS), dict(BELOW), (6, 1), set()
        self.lost, self.paths, self.until, self.is_late = {}, [], 0.0, False

    def __call__(self, path):
        self.paths.append(path)
        time.sleep(max(0, self.until - time.monotonic()) * self.is_late)
        kind, _, number = path.removeprefix("/public/").partition("/")
        if path in self.lost:
            raise self.lost[path](path)
        if path in self.gone:
            return None
        lines = {"fonds": lambda _: [f"{top} {self.heads[top]}" for top in self.tops], "aid": self.aid, "units": self.page}
        return "".join(f"{line}\n" for line in lines[kind](int(number or 0)))

    def page(self, number):
        head = self.heads.get(number, f"GB 0999 A/{number} [File] Dock")
        return [head, *(f"  Unit {one}: {self.heads[one]}" for one in self.below.get(number, ()))]

    def aid(self, number, indent=""):
        below = [line for one in self.below.get(number, ()) for line in self.aid(one, indent + "  ")]
        return [indent + self.heads[number], *below]


@pytest.fixture
def db(room):
    with contextlib.closing(index.open_or_make(str(room / "index.db"), check=False)) as made:
        yield made


def known(db):
    return [number for number, in db.execute("SELECT n FROM unit ORDER BY n")]


def find(db, office, seconds=100, typed="dock", **how):
    return Finder(db, office, Query(read_typed(typed), **how)).find(seconds)


def find_words(db, word):
    """How many units the index would propose for a word."""
    return len(list(index.propose(db, Query(read_typed(word)))))


def fill(db, many):
    """So many units have the word in the index."""
    with index.transaction(db):
        for number in range(1, many + 1):
            db.execute("INSERT INTO unit(n, top) VALUES (?, 1)", (number,))
            db.execute("INSERT INTO words(rowid, head, body) VALUES (?, 'dock', '')", (index.row_of(1, number),))


def test_an_index_that_is_sound_stays_when_it_is_checked(db, room):
    """Else readers would find a part of the archives for as long as a round takes, hour by hour."""
    Round(db, Office()).run()
    with contextlib.closing(index.open_or_make(str(room / "index.db"), check=True)) as checked:
        assert known(checked) == [1, 2, 3, 4, 5, 6]


def read(db, office):
    """Two rounds: the first reads by parts what it does not know."""
    for _ in range(2):
        Round(db, office).run()


def test_a_round_goes_on_where_a_unit_goes_between_its_finding_aid_and_its_page(db):
    """What has changed in other archives is found, and the operator sees no error in the journal."""
    office = Office()
    read(db, office)
    office.heads |= {3: "GB 0999 A/1/1 [File] Boats", 6: "GB 0999 B [Fonds] Dock"}
    office.gone = {"/public/units/1"}
    Round(db, office, sweep=0).run()
    assert [unit["unit"] for unit in find(db, office).units] == [6]


def test_a_unit_that_was_written_anew_is_found_by_what_it_says_now(db):
    """Not by the words and the years that the index still has: a reader would look for them in vain."""
    office, now = Office(), ["GB 0999 A/1 [File] Dock", "  3.1.3 Date(s): 1774"]
    office.page = office.aid = lambda number, indent="": [indent + one for one in now]
    office.tops, office.heads = (1,), {1: now[0]}
    read(db, office)
    bounds = ({}, {"first": 1700}, {"last": 1800}, {"first": 1700, "last": 1800})
    assert [len(find(db, office, **one).units) for one in bounds] == [1] * 4
    now[1] = "  3.1.3 Date(s): 1650 to 1690, copied in 1850"
    assert [len(find(db, office, **one).units) for one in bounds] == [1] * 4, "these meet its years still"
    now[1] = "  3.1.3 Date(s): 1850"
    assert [len(find(db, office, **one).units) for one in bounds] == [1, 1, 0, 0], "it is of another year now"
    now[1] = "  3.1.3 Date(s): 1650"
    assert [len(find(db, office, **one).units) for one in bounds] == [1, 0, 1, 0], "it is of another year now"
    now[0] = "GB 0999 A/1 [File] Quay"
    assert find(db, office).units == [], "it has no word of dock any more"


def test_a_file_is_not_found_by_the_name_that_its_archive_had(db):
    """Though the archive has the other word now: a reader would look for the first in vain."""
    office = Office()
    read(db, office)
    assert [unit["unit"] for unit in find(db, office, typed="docks buoys").units] == [3]
    office.heads[1] = "GB 0999 A [Fonds] Buoys and beacons"
    assert find(db, office, typed="docks buoys").units == []


def test_the_way_to_a_unit_that_has_moved_is_that_of_now_or_none(db):
    office = Office()
    read(db, office)
    [before] = find(db, office, typed="buoys").units
    office.below = {6: (2,), 2: (3,), 1: (4,), 4: (5,)}
    [after] = find(db, office, typed="buoys").units
    assert [step["unit"] for step in before["way"]] == [1, 2] and after["way"] is None


def test_of_an_archive_only_the_pages_of_what_changed_are_asked_for(db):
    """One unit with another title does not make the office print all the others, round by round."""
    office = Office()
    read(db, office)
    office.heads[3], office.paths = "GB 0999 A/1/1 [File] Boats", []
    Round(db, office, sweep=0).run()
    assert [path for path in office.paths if "units" in path] == ["/public/units/1", "/public/units/2"], "4 has not changed"


def test_what_went_from_below_a_unit_that_has_moved_leaves_the_index(db):
    office = Office()
    read(db, office)
    office.below = {6: (2,), 1: (4,), 4: (5,)}
    Round(db, office, sweep=0).run()
    assert known(db) == [1, 2, 4, 5, 6]


def test_rounds_rest_until_an_answer_has_found_something_late():
    answers, told = socket.socketpair(socket.AF_UNIX, socket.SOCK_SEQPACKET)
    keeper, began = Keeper("", None, told, 1), time.monotonic()
    keeper.damaged = False
    keeper.listen(.5, 1)
    assert time.monotonic() - began >= .5, "the rest is over before its time"
    answers.send(b"7")
    keeper.listen(60, 1)
    assert keeper.doubts == {7}


def test_what_an_answer_finds_withdrawn_leaves_the_index_before_all_else(db):
    read(db, Office())
    answers, told = socket.socketpair(socket.AF_UNIX, socket.SOCK_SEQPACKET)
    keeper = Keeper("", None, told, 1)
    keeper.damaged = False
    answers.send(b"5")
    answers.send(b"-3")
    keeper.listen(60, 2)
    assert (keeper.doubts, keeper.gone) == ({3, 5}, {3}), "5 is only to be read anew"
    index.forget_at_once(db, keeper.gone)
    assert find_words(db, "buoys") == 0 and find_words(db, "derricks") == 1


def test_a_reader_whose_time_is_over_is_not_told_that_the_index_is_being_made(db):
    fill(db, 3000)
    office = Office()
    office.is_late, office.page = True, lambda number: [f"GB 0999 A/{number} [File] Quay"]
    assert find(db, office, .1).state == "late"


def test_a_reader_who_goes_on_to_more_units_makes_the_office_print_no_more_than_are_counted(db, monkeypatch):
    monkeypatch.setattr("answers.COUNTING", 100)  # however slow the machine is
    fill(db, 1000)
    more = find(db, Office(), after=(0, index.row_of(1, 20)))
    assert (len(more.units), more.count, more.looked) == (SHOWN, COUNTED, COUNTED + 1)
    assert more.units[0]["unit"] == 21, "nor is the last one shown again"


def test_a_unit_that_has_moved_is_found_within_its_new_archive(db):
    office = Office()
    Round(db, office).run()
    office.below = {1: (2,), 2: (3,), 6: (4,), 4: (5,)}
    read(db, office)
    assert [number for _, number in index.propose(db, Query(read_typed("cranes"), 6))] == [4]
    assert list(index.propose(db, Query(read_typed("cranes"), 1))) == [], "nor in the one before"


@pytest.mark.parametrize("told, seconds", [("250", .75), (None, 10.5)])
def test_a_round_rests_by_what_the_office_took_and_not_by_how_long_it_waited(monkeypatch, told, seconds):
    """Else one question that waited behind others would stop rounds and finding aids for minutes."""
    now = iter((0, 10, 10.5))  # asked; the answer begins, by the gate after 250 of the office's milliseconds; it has come
    monkeypatch.setattr(asking, "time", SimpleNamespace(monotonic=lambda: next(now)))
    clock = asking.Clock()
    clock.note_head(SimpleNamespace(getheader={asking.TOOK: told}.get))
    assert clock.took() == seconds


@pytest.mark.parametrize("waited, left", [(0, 3.5), (2, 1.5), (9, 0)])
def test_a_reader_is_told_within_five_seconds_also_of_who_waited_before_the_service(waited, left):
    assert service.left({"HTTP_RECORD_OFFICE_SINCE": f"{time.time() - waited:.3f}"}) == pytest.approx(left, abs=.5)


# Beside what the office cannot answer for

TOLD = "round: the office cannot answer for these units, and will be asked again: 4\n"


@pytest.fixture
def keeper(room):
    return Keeper(str(room / "index.db"), Office(), None, 1)


def round_beside(keeper, *busy):
    """One round while the office is busy for these paths: what is said, which units are known then, and which finding aids
    were asked for."""
    keeper.ask.lost, keeper.ask.paths, said = dict.fromkeys(busy, Busy), [], io.StringIO()
    with contextlib.redirect_stdout(said):
        keeper.round()
    aids = [int(path.rpartition("/")[2]) for path in keeper.ask.paths if "/aid/" in path]
    with contextlib.closing(index.open_index(keeper.path)) as db:
        return said.getvalue(), known(db), aids


def test_a_round_goes_on_past_what_the_office_cannot_answer_for(keeper):
    fourth, all_units = ("/public/units/4", "/public/aid/4"), [1, 2, 3, 4, 5, 6]
    assert round_beside(keeper, *fourth) == (TOLD, [1, 2, 3, 6], [2, 4]), "all is read but that, and what is below it"
    assert round_beside(keeper, *fourth) == ("", [1, 2, 3, 6], [6, 2]), "it is said once, and its aid is asked for once"
    assert round_beside(keeper, "/public/aid/4")[1] == all_units, "what cannot be answered as one is read by parts"
    round_beside(keeper)
    assert round_beside(keeper) == ("", all_units, [6, 1]), "what can be again is read as one"
    told = round_beside(keeper, *fourth, "/public/aid/1")
    assert told == (TOLD, all_units, [6, 1]), "it is said again if it could be read before; what is above it is read by pages"


def test_what_is_shown_no_more_goes_beside_what_cannot_be_answered(keeper):
    round_beside(keeper)
    keeper.ask.tops = (1,)
    told = round_beside(keeper, "/public/aid/1", "/public/units/1")
    assert told[1] == [1, 2, 3, 4, 5], "what cannot be answered stays, and what is shown no more goes"
    keeper.ask.below = {}
    assert round_beside(keeper)[1] == [1], "what is answered again is taken in"


@pytest.mark.parametrize("path, lost", [("/public/fonds", Busy), ("/public/units/1", Unreached)], ids=["busy", "away"])
def test_a_round_ends_where_it_cannot_go_on(keeper, path, lost):
    keeper.ask.lost = {path: lost}
    with pytest.raises(Unreached):
        keeper.round()


def test_an_answer_has_what_the_office_can_answer_for(db):
    office = Office()
    read(db, office)
    for busy, wanted in (("", [1, 2, 3, 4, 5, 6]), ("/public/units/4", [1, 2, 3, 5, 6]), ("", [1, 2, 3, 4, 5, 6])):
        office.lost = {busy: Busy}
        found = find(db, office, typed="gb")
        assert found.state == "done" and not found.gone, "a unit that cannot be answered stays in the index"
        assert [unit["unit"] for unit in found.units] == wanted, "all but that one has the word"
    office.lost = {"/public/fonds": Busy}
    assert find(db, office, typed="gb").state == "unreached", "nothing while the list of fonds is not answered"
