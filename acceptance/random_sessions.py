"""Random sessions of an office, each made from a seed, with the answers of the reference model.

A seed chooses the settings, what rows may say, and how often each command comes. A session has seventy commands, chosen so
that many are accepted and most refusals come, and three questions after each. Some sessions begin with a chain of units, with
a ticket that has all its permits, or with a file that is not text."""

import json
import random
from collections.abc import Callable
from pathlib import Path

from acceptance import client, reference_model
from acceptance.reference_model.limits import DEEPEST, HIGHEST, MOST_PERMITS

DAYS = ["2024-02-28", "2024-02-29", "2024-03-01", "2024-03-02", "2024-03-03", "2024-03-04", "2024-03-05", "2030-01-01"]
LATE = ["2030-01-01"] * 6 + DAYS[2:]
LEVELS = ["Fonds", "fonds", "Collection", "Subfonds", "Sub-series", "Series", "File", "-F-ile", "Item", "Bundle", ""]
TITLES = ["Plans", "Minutes", "Maps", "", "NULL", "a|b", 'say "so"', "Deeds", "two\nlines", " Letters "]
STATUSES = ["Published", "Published", "Published", "Published", "published", "PUBLISHED", "Draft", ""]
NAMES = ["Box 1", "Box 2", "Box 3", "Box 4", "NULL", "", " Box 1 "]
RARE = {"qubitParentSlug", "culture", "accessionNumber", "physicalObjectType"}
COLUMNS = {
    "legacyId": None,
    "parentId": None,
    "qubitParentSlug": [""] * 30 + ["slug"] * 2,
    "identifier": ["A", "B", "C", "7", "", "", " X "],
    "title": TITLES,
    "eventDates": ["1774|1893", "NULL", "", "1901"],
    "levelOfDescription": LEVELS,
    "extentAndMedium": ["3 boxes", ""],
    "eventActors": ["Smith", "Smith|NULL|Jones", "", "", "NULL"],
    "language": ["en|fr", "", ""],
    "scopeAndContent": ["Ships", ""],
    "publicationStatus": STATUSES,
    "culture": ["en", "fr", "de", "en", "fr", ""],
    "physicalObjectName": NAMES,
    "physicalObjectLocation": ["East", "West", ""],
    "physicalObjectType": ["Folder", ""],
    "accessionNumber": ["", "x"],
}
COMMANDS = 70
FEW = {"seats": [1, 1, 2, 3], "daily": [1, 2, 3, 3], "hands": [1, 1, 2, 3], "run": [1, 2, 2, 3]}
SEATS, DAILY, HANDS, RUN = ([*few, HIGHEST[name]] for name, few in FEW.items())
# The seeds that once found what few seeds find.
KEPT = [int(it.split()[0]) for it in Path(__file__).with_name("seeds.txt").read_text().splitlines() if it[0] != "#"]
Asked = tuple[str, bytes | None]  # a path, and the body of a command


def answer(status, told):
    """The bytes of an answer with this status: text for a text, JSON for all else."""
    if isinstance(told, str):
        return client.reply(status, told.encode(), client.TEXT)
    return client.reply(status, reference_model.as_json(told).encode())


def answer_of(office, asked):
    """The bytes of a request, and of its answer by an office of the reference model."""
    path, body = asked
    if body is None:
        return client.get(path), answer(*office.get(path))
    return client.post(path, body), answer(*office.post(path, body))


class Session:
    """The requests of a session, and `pairs`: their bytes, each with the answer of the reference model."""

    def __init__(self, seed):
        self.seed, self.random = seed, random.Random(seed)
        self.settings = self.some_settings()
        self.office = reference_model.Office(**self.settings)
        self.numbers = self.random.choice([8, 25, 25, 60])
        self.pools = {name: pool and self.part_of(pool) for name, pool in COLUMNS.items()}
        self.weights = [often * self.random.choice([0.5, 1, 1, 2]) for often in self.OFTEN.values()]
        self.first = list(self.beginning())
        self.asked, self.pairs = [], []
        for _ in range(COMMANDS + len(self.first)):
            self.exchange()

    def some_settings(self):
        """The usual settings in one session of three, random ones in the others."""
        if self.happens(0.35):
            return dict(client.SETTINGS)
        chosen = {"seats": SEATS, "daily": DAILY, "hands": HANDS, "run": RUN}
        chosen |= {"country": ["GB", "DE"], "repo": ["0999", "x/1"]}
        return client.SETTINGS | {name: str(self.random.choice(pool)) for name, pool in chosen.items()}

    def part_of(self, pool):
        return self.random.sample(pool, self.random.randint((len(pool) + 1) // 2, len(pool)))

    # ---- how a session may begin

    def beginning(self):
        """The first commands of the session; seven of ten seeds have none."""
        return self.BEGINNINGS.get(self.seed % 10, lambda _: ())(self)

    def a_chain(self):
        """Yields commands that make a chain of units as deep as it may be, try to make it deeper, and move in it."""
        rows = "".join(f"{n},{n - 1 if n > 1 else ''},Published\n" for n in range(1, DEEPEST + 1))
        yield "/desk/import/chain", f"legacyId,parentId,publicationStatus\n{rows}"
        yield "/desk/import/chain", f"legacyId,parentId\n{DEEPEST + 1},{DEEPEST}\n"
        yield "/desk/import/a", "legacyId,publicationStatus,physicalObjectName\n1,Published,Box 1\n2,Published,Box 2\n"
        yield "/desk/move", f'{{"unit":1,"parent":{DEEPEST + 1}}}'
        yield "/desk/move", f'{{"unit":{DEEPEST + 1},"parent":{self.random.randint(DEEPEST - 1, DEEPEST)}}}'

    def all_permits(self):
        """Yields commands that give a ticket as many permits as it may have, and two more."""
        rows = "".join(f"{n},Published\n" for n in range(1, MOST_PERMITS + 3))
        yield "/desk/import/b", f"legacyId,publicationStatus\n{rows}"
        yield "/desk/register", '{"name":"Ann","until":"2030-01-01"}'
        for unit in range(1, MOST_PERMITS + 3):
            yield "/desk/permit", json.dumps({"ticket": 1, "unit": unit, "until": self.random.choice(LATE)})

    def no_file(self):
        """Yields imports that are refused: bytes that are no text, nothing, and a column twice."""
        yield "/desk/import/a", b"legacyId\n\xff\n"
        yield "/desk/import/a", ""
        yield "/desk/import/a", "legacyId,title,title\n1,,\n"

    BEGINNINGS = {3: a_chain, 5: all_permits, 7: no_file}

    def happens(self, chance):
        """Whether something of this chance, from 0 to 1, happens."""
        return self.random.random() < chance

    def one_of(self, pool, among):
        """One of a pool; sometimes any other number."""
        pool = list(pool)
        return self.random.choice(pool) if pool and self.happens(0.9) else self.random.randint(0, among + 1)

    def exchange(self):
        """Adds a command and three questions."""
        path, body = self.first.pop(0) if self.first else self.command()
        self.ask(path, body if isinstance(body, bytes) else body.encode())
        for path in self.random.sample(self.questions(), 3):
            self.ask(path, None)

    def ask(self, path, body):
        self.asked.append((path, body))
        self.pairs.append(answer_of(self.office, self.asked[-1]))

    # ---- files

    def cell(self, column, known):
        """A random cell of a column; an identifier is often one of the units that are known."""
        if column == "legacyId":
            if known and self.happens(0.4):
                return self.random.choice(known)
            is_right = self.happens(0.99)
            return str(self.random.randint(1, self.numbers)) if is_right else self.random.choice(["", " ", "\t"])
        if column == "parentId":
            if known and self.happens(0.53):
                return self.random.choice(known)
            return str(self.random.randint(1, self.numbers)) if self.happens(0.04) else ""
        if column.startswith("physicalObject"):
            number = self.random.choice([0, 0, 1, 1, 2, 3])
            return "|".join(self.random.choice(self.pools[column]) for _ in range(number))
        return self.random.choice(self.pools[column])

    def quote(self, cell):
        """A cell as CSV writes it, sometimes in quotes that it does not need."""
        return '"' + cell.replace('"', '""') + '"' if set(cell) & set(',"\n') or self.happens(0.1) else cell

    def file(self, source):
        """A file of random columns and up to seven rows, some of them wrong or blank."""
        known = [it.legacy for it in self.office.units.values() if it.source == source]
        columns = [it for it in COLUMNS if self.happens(0.35 if it in RARE else 0.96 if it == "legacyId" else 0.8)]
        if self.happens(0.01):
            columns.append(self.random.choice(columns))
        self.random.shuffle(columns)
        lines = [",".join(columns)]
        for _ in range(self.random.randint(0, 7)):
            cells = [self.quote(self.cell(it, known)) for it in columns]
            if self.happens(0.015):
                cells.pop()
            blank = self.random.choice(["", "," * self.random.randint(1, 5)])
            lines.append(blank if self.happens(0.05) else ",".join(cells))
        return "".join(line + self.random.choice(["\n", "\r\n"]) for line in lines)

    def unchanged_file(self, source):
        """A file with units as they are, sometimes with their boxes in the reverse order."""
        units = [it for it in self.office.units.values() if it.source == source]
        elements = {columns[0]: number for number, _, columns in reference_model.ELEMENTS if columns[0] in COLUMNS}
        lines = [",".join([*elements, "legacyId", *reference_model.BOX])]
        for it in self.random.sample(units, min(len(units), 5)):
            boxes = [self.office.containers[n - 1] for n in it.boxes][:: self.random.choice([1, 1, -1])]
            cells = [it.texts.get(number, "") for number in elements.values()]
            cells += [it.legacy, *("|".join(box[n] for box in boxes) for n in range(3))]
            lines.append(",".join(map(self.quote, cells)))
        return reference_model.text(lines)

    # ---- commands

    def ticket(self):
        """The number of a ticket, mostly one that was given."""
        return self.one_of(self.office.readers, len(self.office.readers))

    def container(self):
        """The number of a container, mostly one that there is."""
        return self.one_of(range(1, len(self.office.containers) + 1), len(self.office.containers))

    def unit(self):
        """A unit; often one above something that lies in a container that is out."""
        out = self.office.out()
        lying = self.office.contents(self.random.choice(list(out))) if out and self.happens(0.5) else []
        if lying:
            return self.random.choice(self.office.path(self.random.choice(lying)))
        return self.one_of(self.office.units, self.office.next)

    def withheld_unit(self):
        """A unit; a draft or a closed one if there is any."""
        units = [n for n, it in self.office.units.items() if it.draft or self.office.is_closed(n)]
        return self.one_of(units or self.office.units, self.office.next)

    def day(self):
        """The next day, or sometimes any other."""
        later = [it for it in DAYS[:-1] if it > self.office.day]
        return later[0] if later and self.happens(0.8) else self.random.choice(DAYS[:-1])

    def import_file(self):
        """An import, sometimes of units as they are, and rarely from a source with a bad name."""
        source = self.random.choice(["a", "a", "b"]) if self.happens(0.98) else "c,d"
        return f"import/{source}", (self.unchanged_file if self.happens(0.2) else self.file)(source)

    def order(self):
        """An order, mostly for a container that the reader may have."""
        ticket = self.ticket()
        able = [it for it in range(1, len(self.office.containers) + 1) if self.office.is_open(it, ticket)]
        if not able and self.happens(0.5):
            return self.status()
        container = self.random.choice(able) if able and self.happens(0.8) else self.container()
        return "orders", {"ticket": ticket, "container": container}

    def issue(self):
        """An issue to the first reader who waits for a container at the desk; or what that reader lacks for it; or, if
        no such container is there, what brings one."""
        office = self.office
        ready = [it for it, place in office.places.items() if place == "desk" and office.queue(it)]
        if not ready and self.happens(0.9):
            is_due = any(office.orders[it].container not in office.places for it in office.waiting)
            return self.run() if is_due and self.happens(0.7) else self.order()
        if not ready or self.happens(0.05):
            return "issue", {"container": self.container(), "ticket": self.ticket()}
        container = self.random.choice(ready)
        ticket = office.orders[office.queue(container)[0]].ticket
        if office.seat_of(ticket) is None and self.happens(0.8):
            return "seat", {"ticket": ticket}
        if office.has_expired(ticket) and self.happens(0.5):
            return "renew", {"ticket": ticket, "until": "2030-01-01"}
        if not office.is_open(container, ticket) and self.happens(0.5):
            return "permit", {"ticket": ticket, "unit": self.unit(), "until": self.random.choice(LATE)}
        return "issue", {"container": container, "ticket": ticket if self.happens(0.8) else self.ticket()}

    def leave(self):
        """A reader leaves; mostly one who has a seat."""
        return "leave", {"ticket": self.one_of(self.office.seated.values(), len(self.office.readers))}

    def status(self):
        """A change of status, more often to published than to draft, of a unit or of its branch."""
        unit, status = (self.withheld_unit(), "published") if self.happens(0.6) else (self.unit(), "draft")
        branch = {"branch": self.happens(0.7)} if self.happens(0.7) else {}
        return "status", {"unit": unit, "status": status, **branch}

    def closure(self):
        """A closure until a random day, or in more than half of the cases the end of one."""
        if self.happens(0.5):
            return "closure", {"unit": self.withheld_unit(), "until": None}
        return "closure", {"unit": self.unit(), "until": self.random.choice([None, *DAYS])}

    def move(self):
        """A move of a unit below another, or to the tops."""
        parent = None if self.happens(0.25) else self.one_of(self.office.units, self.office.next)
        return "move", {"unit": self.unit(), "parent": parent}

    def cancel(self):
        """The cancelling of an order, mostly of one that waits."""
        return "cancel", {"order": self.one_of(self.office.waiting, len(self.office.orders))}

    def give_back(self):
        """The return of a container, mostly of one that is out."""
        return "return", {"container": self.one_of(self.office.out(), len(self.office.containers))}

    def register(self):
        """The registration of a reader; some names are bad."""
        name = self.random.choice(["Ann", "Ben", "Cay", "é", " "])
        return "register", {"name": name, "until": self.random.choice(LATE)}

    def renew(self):
        return "renew", {"ticket": self.ticket(), "until": self.random.choice(LATE)}

    def seat(self):
        return "seat", {"ticket": self.ticket()}

    def run(self):
        return "run", {}

    def reshelve(self):
        return "reshelve", {}

    def next_day(self):
        return "day", {"day": self.day()}

    def remove(self):
        return "remove", {"unit": self.unit()}

    def permit(self):
        """A permit, often for a unit that is closed."""
        office = self.office
        closed = [it for it in office.units if any(map(office.is_closed, office.path(it)))]
        unit = self.random.choice(closed) if closed and self.happens(0.4) else self.unit()
        return "permit", {"ticket": self.ticket(), "unit": unit, "until": self.random.choice(LATE)}

    def revoke(self):
        """The end of a permit, mostly for a unit for which there is one."""
        granted = [unit for _, unit in self.office.permits]
        return "revoke", {"ticket": self.ticket(), "unit": self.one_of(granted, self.office.next)}

    # out of a hundred commands
    OFTEN = {
        import_file: 5, register: 2, renew: 2, seat: 5, leave: 2, order: 13, cancel: 2, run: 3, reshelve: 1, issue: 20,
        give_back: 3, next_day: 3, status: 10, closure: 6, move: 10, remove: 2, permit: 9, revoke: 5,
    }

    def command(self):
        """The path and body of a command: imports until there are units, then registrations until a reader is there."""
        first = Session.import_file if not self.office.units else Session.register if not self.office.readers else None
        word, members = (first or self.random.choices(list(self.OFTEN), self.weights)[0])(self)
        return client.path_of(word), members if isinstance(members, str) else json.dumps(members)

    def questions(self):
        """The paths of questions that may be asked now, for random units, tickets, containers and runs."""
        office = self.office
        paths = ["/public/fonds", "/desk/issued"]
        for _ in range(3):
            paths += [f"/public/{it}/{self.one_of(office.units, office.next) or 1}" for it in ("aid", "units")]
        for ticket in office.readers:
            paths.append(self.random.choice([f"/desk/readers/{ticket}", f"/desk/permits/{ticket}"]))
        paths.append(f"/desk/queue/{self.random.randint(1, len(office.containers) + 1)}")
        return [*paths, f"/desk/runs/{self.random.randint(1, len(office.runs) + 1)}"]

    # ---- with the program

    def difference(self, program: client.Program, pairs: list[tuple[bytes, bytes]]) -> str:
        """How the program answers these requests otherwise, or nothing."""
        ended = program.trial(b"".join(request for request, _ in pairs), self.settings)
        try:
            client.expect_answers(ended, pairs, type(self).__name__)
        except AssertionError as it:
            return str(it)
        return ""

    def play(self, program: client.Program) -> None:
        """Raises AssertionError with the few requests that the program answers otherwise, if there are such."""
        if not self.difference(program, self.pairs):
            return

        def pairs_of(asked: list[Asked]) -> list[tuple[bytes, bytes]]:
            office = reference_model.Office(**self.settings)
            return [answer_of(office, it) for it in asked]

        few = pairs_of(fewest(self.asked, lambda asked: bool(self.difference(program, pairs_of(asked)))))
        shown = "\n\n".join((request.decode(errors="replace") for request, _ in few))
        raise AssertionError(f"seed {self.seed}: {self.difference(program, few)}\n\nits requests, {self.settings}:\n\n{shown}")


def fewest(asked: list[Asked], fails: Callable[[list[Asked]], bool]) -> list[Asked]:
    """A few of these requests that still fail: a half of them, a quarter, .. is left out as long as the rest fails."""
    size = len(asked) // 2
    while size:
        at = 0
        while at < len(asked):
            rest = asked[:at] + asked[at + size:]
            if fails(rest):
                asked = rest
            else:
                at += size
        size //= 2
    return asked
