"""Pairs of offices that differ only in what is closed or draft: random questions are answered by both to the same byte,
and both ask the same for it.

A pair is asked at three times. First nothing that is hidden was ever public. Then more was public, with texts of its own
in each office, when one index was made, or both; it is hidden by now. Then a round has seen that.

What an answer costs is what the office is asked for it, in order, since a page takes as long in both. That is the same,
too. While an index is late it is the same but for pages of what was hidden meanwhile, each once for what is looked for, and
never again once its words were forgotten."""

import collections
import contextlib
import json
import random
import time
from typing import NamedTuple

import answers
import counts
import fewer
import index
import offers
import pytest
from service import Service

from acceptance.front.searched import Searched

QUESTIONS, EACH = 1000, 1500  # all questions, unless --steps says more, and about those of one pair
UNITS, TOPS, FAR = 150, 2, "2999-01-01"
WORDS = ["dock", "plans", "minute", "letters", "harbour", "surveyor", "accounts", "mueller", "O'Brien"]
HEADER = "legacyId,parentId,identifier,title,levelOfDescription,publicationStatus,eventDates,scopeAndContent,eventActors\n"
DATES = ["1774-1893", "1850", "late 19th century", "1893-96", ""]
PATIENT = 1000  # seconds: however slow the machine is, no answer is late for its time
NO_LIMIT = 2000  # looks: more than a pair has units


class Unit(NamedTuple):
    """A unit of a pair: its number; that of the unit above, or nothing; the unit that hides it, at or above it, if any."""

    number: int
    parent: int | str
    hidden: int | None


class Plan:
    """What both offices of a pair have. closed: units that are closed, not draft; once: those of what is hidden that
    were public once."""

    def __init__(self, seed):
        self.seed, chance = seed, random.Random(seed)
        hidden, self.units = {}, []
        for n in range(1, UNITS + 1):
            parent = chance.randint(1, n - 1) if n > TOPS else ""
            hides = n > TOPS and chance.random() < .3
            hidden[n] = hidden.get(parent) or (n if hides else None)
            self.units.append(Unit(n, parent, hidden[n]))
        self.roots = sorted({unit.hidden for unit in self.units if unit.hidden})
        self.closed = {n for n in self.roots if chance.random() < .4}
        self.once = {n for n in self.roots if chance.random() < .6}

    def members(self, roots):
        """The numbers of all that these units hide, themselves included."""
        return {unit.number for unit in self.units if unit.hidden in roots}

    def rows(self, which):
        """The file of one of the two offices, in which all that will be hidden is a draft. Texts and places of that are
        others in each; of a closed unit the public has its code and its level."""
        yield HEADER
        branch = collections.defaultdict(list)
        for number, parent, hidden in self.units:
            draw = random.Random(f"{self.seed}/{number}/{which if hidden else ''}")
            below = draw.choice(branch[hidden]) if branch[hidden] and hidden else parent
            branch[hidden].append(number)
            status = "Draft" if number == hidden or hidden and draw.random() < .5 else "Published"
            title, scope = (" ".join(word(draw) for _ in range(draw.randint(1, 6))) for _ in range(2))
            dates = "" if number in self.closed else draw.choice(DATES)
            level, creator = ["File", "Item"][number % 2], draw.choice(["", "", *WORDS[:3]])
            yield f"{number},{below},{number % 7},{title},{level},{status},{dates},{scope},{creator}\n"


def word(draw):
    """A word of the offices, another form of it, or one that is spelled much like it."""
    one = draw.choice(WORDS)
    if draw.random() < .5:
        return one
    at = draw.randrange(1, len(one))
    return draw.choice([one + draw.choice(["s", "ed", "ing", "er"]), one[:at] + one[at + 1:],
                        one[:at] + draw.choice("aeiou") + one[at:]])


class Remembering:
    """Stands between a service and an office that does not change: asks everything once. paths: what was asked for."""

    def __init__(self, ask):
        self.ask, self.known, self.paths, self.until = ask, {}, [], None

    def __call__(self, path):
        self.paths.append(path)
        if path not in self.known:
            self.known[path] = self.ask(path)
        return self.known[path]


class Side:
    """One office of a pair, with the service that answers for it. gone: the units that answers found gone."""

    def __init__(self, program, folder, plan, which):
        self.plan, self.gone, self.ask = plan, set(), None
        self.office = Searched.create(program, folder)
        path = self.office.folder / "units.csv"
        path.write_text("".join(plan.rows(which)))
        self.office.import_file("a", path).expect_success()

    def begin(self):
        self.office.begin()
        self.service = Service(self.office.queue, self.office.index, self.hear)
        self.forget_answers()

    def hear(self, number):
        """What the service tells the rounds."""
        self.gone |= {-number} if number < 0 else set()

    def forget_answers(self):
        """The office has changed."""
        self.ask = self.service.mine.ask = Remembering(self.office.ask)

    def publish(self, roots):
        for n in sorted(roots):
            self.tell("/desk/status", unit=n, status="published", branch=True)

    def close(self, roots):
        for n in sorted(roots):
            self.tell("/desk/closure", unit=n, until=FAR)

    def withdraw(self, roots):
        for n in sorted(roots):
            self.tell("/desk/status", unit=n, status="draft", branch=False)

    def tell(self, path, **members):
        """A command of the desk that is carried out."""
        status, told = self.office.tell(path, members)
        if status != 200:
            raise RuntimeError(f"{path} {members}: {status} {told}")

    def answer(self, values, language):
        """An answer as bytes, and what the office was asked for it."""
        self.ask.paths = []
        told = self.service.find(values, language, "192.0.2.1", time.monotonic() + PATIENT)[0]
        return json.dumps(told).encode(), self.ask.paths

    def indexed(self):
        """All that answers take from the index."""
        with contextlib.closing(index.open_index(self.office.index)) as db:
            return {name: db.execute(statement).fetchall() for name, statement in {
                "units": "SELECT n, top, parent, own, first, last, odd FROM unit ORDER BY n",
                "words": "SELECT rowid, head, body FROM words ORDER BY rowid",
                "vocabulary": "SELECT word FROM vocabulary ORDER BY word"}.items()}


class Pair:
    """Two such offices. late: how many of the two have an index of what was public once."""

    def __init__(self, program, folder, seed):
        self.plan, self.chance, self.late = Plan(seed), random.Random(-seed), 1 + seed % 2
        self.sides = [Side(program, folder / f"pair{which}", self.plan, which) for which in (0, 1)]
        self.count, self.after, self.last = collections.Counter(), None, None

    def play(self, many):
        """Asks so many questions at each of the three times."""
        plan = self.plan
        with contextlib.ExitStack() as running:
            for side in self.sides:
                side.begin()
                running.callback(side.office.end)
                side.close(plan.closed - plan.once)
                side.publish(plan.closed - plan.once)
                side.office.round()
            self.ask_alike("never public", many)
            for which, side in enumerate(self.sides):
                side.publish(plan.once)
                if which < self.late:
                    side.office.round()
                side.close(plan.once & plan.closed)
                side.withdraw(plan.once - plan.closed)
                if which >= self.late:
                    side.office.round()
                side.forget_answers()
            self.ask_late(many)
            for side in self.sides:
                side.office.round()
            self.ask_alike("public once", many)

    def ask_alike(self, when, many):
        """Whatever is asked, at whatever limit: the same answers for the same questions to the office."""
        was, now = (side.indexed() for side in self.sides)
        for name, rows in was.items():
            assert rows == now[name], f"{when}: {name} of the index"
        for _ in range(many):
            looks = self.chance.choice([3, 12, NO_LIMIT])
            asked, was, now = self.ask(looks)
            assert was == now, f"{when}: {asked}, {looks} looks"

    def ask_late(self, many):
        """The same answers; and what the office was asked more for them were pages of what has been hidden, each once.
        Halfway the words of what answers found gone are forgotten, as at the beginning of a round."""
        hidden, forgotten = pages_of(self.plan.members(self.plan.once)), [set(), set()]
        for turn in range(many):
            if turn == many // 2:
                forgotten = [side_forgets(side) for side in self.sides]
            asked, was, now = self.ask(NO_LIMIT)
            assert was[0] == now[0], f"late: {asked}"
            asked_both = [[path for path in paths if path not in hidden] for _, paths in (was, now)]
            assert asked_both[0] == asked_both[1], f"late, what the office is asked: {asked}"
            for (answer, paths), out in zip((was, now), forgotten):
                more = [path for path in paths if path in hidden]
                assert set(more) & out == set(), f"late, forgotten: {asked}"
                if b'"offers"' not in answer:
                    assert len(more) == len(set(more)), f"late, once: {asked}"
                self.count["pages of what was hidden"] += len(more)

    def ask(self, looks):
        """What is asked, and what both answer and ask for it, within limits that are the same for both. A question whose
        answer had more than is shown is asked again now and then so that only the last unit is not counted."""
        again = self.last if self.chance.random() < .5 else None
        asked, limit = again or (self.question(), self.chance.randint(20, 60))
        answers.LOOKS, answers.COUNTED = looks, limit
        told = [side.answer(*asked) for side in self.sides]
        self.note(json.loads(told[0][0]), asked)
        return asked, *told

    def note(self, told, asked):
        """Counts what was answered, and keeps where it goes on, or how it is asked again."""
        self.after = told.get("after")
        again = told["more"] and told.get("exact") and "first" not in told
        self.last = (asked, told["count"] - 1) if again else None
        for name, holds in (("found", told["units"]), ("more", told["more"]), (told["state"], True), ("just too many", again),
                            ("more than are counted", not told.get("exact", True)), ("offers", told.get("offers")),
                            ("facets", told.get("facets")), ("undated", told.get("undated")), ("first", told.get("first"))):
            self.count[name] += bool(holds)

    def question(self):
        """A random question, as an address has it, and the reader's language."""
        chance = self.chance
        pieces = [chance.choice([word(chance), word(chance), word(chance)[:3] + "*", "1850", "1890s", "file", "GB", "0999"])
                  for _ in range(chance.choice([1, 1, 1, 2, 3]))]
        typed = " ".join(pieces)
        values = {"q": f'"{typed}"' if chance.random() < .1 else typed}
        for name, part, value in (("in", .2, str(chance.randint(1, UNITS))), ("from", .15, chance.choice(["1800", "1850"])),
                                  ("to", .15, chance.choice(["1800", "19th century"])), ("order", .3, "date"),
                                  ("level", .1, "File"), ("creator", .1, chance.choice(WORDS[:3])), ("undated", .1, "1")):
            if chance.random() < part:
                values[name] = value
        if chance.random() < .2:
            place = f"{chance.choice([0, 1, 1774, 1850])}-{index.row_of(1, chance.randint(1, UNITS))}"
            values["after"] = chance.choice([self.after or place, place])
        return values, chance.choice([None, "en", "de"])


def pages_of(numbers):
    return {f"/public/units/{n}" for n in numbers}


def side_forgets(side):
    """The words of what answers of an office found gone leave its index; the paths of these units."""
    with contextlib.closing(index.open_index(side.office.index)) as db:
        index.forget_at_once(db, side.gone)
    return pages_of(side.gone)


@pytest.fixture
def without_haste(monkeypatch):
    """No answer is late for its time; what questions set is as it was afterwards."""
    for name in ("LOOKS", "COUNTED"):
        monkeypatch.setattr(answers, name, getattr(answers, name))
    monkeypatch.setattr(answers, "COUNTING", PATIENT)
    monkeypatch.setattr(offers, "SECONDS", PATIENT)
    monkeypatch.setattr(fewer, "SECONDS", PATIENT)
    monkeypatch.setattr(counts, "SECONDS", PATIENT)


@pytest.mark.needs("nginx", "haproxy", "readers")
def test_what_is_hidden_changes_no_answer_and_no_cost(program, room, without_haste, request):
    questions, seed = request.config.getoption("--steps") or QUESTIONS, request.config.getoption("--seed") or 1
    pairs, count = max(2, -(-questions // EACH)), collections.Counter()
    for turn in range(pairs):
        pair = Pair(program, room / str(turn), seed + turn)
        pair.play(-(-questions // (3 * pairs)))
        count += pair.count
    kinds = ("found", "more", "more than are counted", "done", "late", "offers", "facets", "undated", "first",
             "pages of what was hidden")
    lacking = [name for name in kinds if not count[name]]
    assert not lacking, f"among the questions is nothing of this kind: {lacking}"
