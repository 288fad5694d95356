"""What the measurements share: a catalogue of so many units, a program with an office in a file and a session, and what its
answers take.

Files have 340 bytes a row, five elements, a box for two units, and nine units below each unit that has any. Each request waits
for the answer to the one before; one with another status than is wanted ends the script with 1."""

import os
import sys
import time
from pathlib import Path
from typing import NamedTuple

from acceptance import client

SETTINGS = client.LARGE | {"run": "1"}
HEADER = (
    "legacyId,parentId,identifier,title,levelOfDescription,publicationStatus,eventDates,extentAndMedium,"
    "scopeAndContent,physicalObjectName,physicalObjectLocation\n"
)
SCOPE = (
    "Attendance, correspondence read, tenders for stone and timber, wages of the lock keepers, "
    "the dredging of the basin, and petitions of the owners of ships"
)
FILE_ROWS = 20000
TOPS = 100
BELOW = 9
IN_HANDS = 10
OK, REFUSED = 200, 409


class Archive:
    """The catalogue of an office of this many units: files of at most 20,000 rows, and at most a hundred tops in all.

    The places of a file count from 0. Its tops come first. The children of the unit at place p are at the nine places
    from tops + 9p on. Units get their numbers in the order of the rows, and two neighbours share a box.
    """

    def __init__(self, units):
        self.units = units
        self.rows = min(units, FILE_ROWS)
        self.files = units // self.rows
        self.tops = min(TOPS, units // 20) // self.files
        self.with_some_below = -(-(self.rows - self.tops) // BELOW)
        self.requests = min(1000, units // 20)
        self.boxes_apart = units // 2 // self.requests

    def row(self, file, place):
        """The line of a unit in the CSV file, by the file's number and the unit's place in it."""
        unit = place + 1
        top = place < self.tops
        parent = "" if top else (place - self.tops) // BELOW + 1
        level = "Fonds" if top else "File"
        return (
            f'{unit},{parent},{unit},"Minutes of the board of directors of the dock company, volume {unit}",{level},'
            f'Published,1774-1893,1 volume of 412 leaves in a binding of half calf,"{SCOPE}",'
            f"Box {file}-{place // 2 + 1},Strongroom {file}\n"
        )

    def write(self, file, name):
        """Writes the file of this number to a path."""
        with open(name, "w", encoding="utf-8") as it:
            it.write(HEADER)
            it.writelines(self.row(file, place) for place in range(self.rows))

    def spread(self, nth, count, first, end):
        """The nth of `count` units, spread over the places from `first` to `end` of all files."""
        each = end - first
        file, place = divmod(nth * self.files * each // count, each)
        return file * self.rows + first + place + 1

    def unit(self, nth, count):
        return self.spread(nth, count, 0, self.rows)

    def unit_with_nine_below(self, nth, count):
        """A unit with nine children, which have none."""
        first = -(-(self.with_some_below - self.tops) // BELOW)
        return self.spread(nth, count, first, (self.rows - self.tops) // BELOW)

    def leaf(self, nth, count):
        """The nth of `count` units without children, spread over all."""
        return self.spread(nth, count, self.with_some_below, self.rows)

    def leaf_on_the_shelf(self, nth, count):
        """A unit without children, in a box that nobody orders."""
        unit = self.leaf(nth, count)
        return unit if self.box_of(unit) % self.boxes_apart != 1 else unit - 2

    def box_of(self, unit):
        return (unit + 1) // 2

    def ordered_box(self, nth):
        return nth * self.boxes_apart + 1


class Took(NamedTuple):
    """The mean of what something took: seconds of the processor and by the clock."""

    processor: float
    wall: float


class Side:
    """A program with an office in a file and its session, which `cpu` binds to a processor."""

    def __init__(self, program, room, settings=SETTINGS, cpu=None):
        room.mkdir()
        self.office, self.cpu = client.Office.create(program, room / "office.db", settings), cpu
        self.open()

    def open(self):
        """Starts the session; what it takes to the first answer."""
        start = time.perf_counter()
        self.session = self.office.session()
        if self.cpu is not None:
            os.sched_setaffinity(self.session.process.pid, {self.cpu})
        self.session.ask(client.get("/desk/issued"))
        return Took(self.processor(), time.perf_counter() - start)

    def end(self):
        """Ends the session, which must end well."""
        self.session.process.communicate()
        if self.session.process.returncode:
            sys.exit(f"WRONG end of a session: {self.session.process.returncode}")

    def reopen(self):
        """Ends the session and starts another; what it takes to the first answer."""
        self.end()
        return self.open()

    def processor(self):
        """Seconds of the processor that the session has taken."""
        return int(Path(f"/proc/{self.session.process.pid}/schedstat").read_text(encoding="utf-8").split()[0]) / 1e9

    def ask(self, requests, wanted=OK):
        """The mean of an answer, which must have this status."""
        before, start = self.processor(), time.perf_counter()
        for request in requests:
            reply = self.session.ask(request)
            if reply.status != wanted:
                sys.exit(f"WRONG answer to {request[:200]!r}: {reply.line!r} {reply.body[:200]!r}")
        wall = time.perf_counter() - start
        return Took((self.processor() - before) / len(requests), wall / len(requests))


def post(path, **members):
    return client.post(path, members)


def milliseconds(seconds):
    return f"{1000 * seconds:.2f} ms"


def say(*cells):
    print("| " + " | ".join(cells) + " |", flush=True)


def say_titles(*cells):
    say(*cells)
    say(*["---"] * len(cells))
