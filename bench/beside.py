"""Runs the same load on the built program and on another program with the same command line, each by `talk` on a file
of its own, and prints tables of markdown with the ratios of their times:

    ./run bench.beside [--program PROGRAM] [--room FOLDER] [--cpu N] OTHER [UNITS ..]

UNITS is 2000 or a number of 20,000; by default 20000, 60000 and 200000. Offices are made as real ones are: from files of
20,000 rows that come by POST, parents first, so that numbers do not rise along the walk, and then some branches are
moved. Requests go to one program, then the same to the other; each request waits for the answer to the one before.
Times are means for one answer, of the processor and by the clock. The ratios and the growth are of processor time,
which says most on a busy machine; the last column has the ratio by the clock. --cpu binds both programs to one
processor. With several sizes, a last table says how many times as long an answer takes in the largest office as in the
smallest.
"""

import datetime
import os
import sys
import time

from acceptance.client import get
from bench.measure import IN_HANDS, Archive, Side, client, milliseconds, post, say, say_titles

SIZES = [20000, 60000, 200000]
EACH_DAY = 50
PAST = 1000
FIRST_DAY = datetime.date(2024, 3, 1)


class Bench:
    """Both sides, and what each stage took."""

    def __init__(self, ours, other):
        self.ours, self.other, self.took = ours, other, {}

    def say(self, stage, wanted, ours, other):
        """Prints the line of a stage: our time, the other's, their ratio, what is wanted, and the same by the clock."""
        self.took[stage] = ours
        said = milliseconds(ours.processor), milliseconds(other.processor), f"{ours.processor / other.processor:.1f}"
        by_clock = milliseconds(ours.wall), milliseconds(other.wall), f"{ours.wall / other.wall:.1f}"
        say(stage, *said, "" if wanted is None else f"{wanted}", *by_clock)

    def ask_unmeasured(self, requests):
        """Sends requests to both programs; their times are not printed."""
        for side in (self.ours, self.other):
            side.ask(requests)

    def stage(self, name, wanted, requests):
        """Sends requests to one program and then to the other, and prints what they took."""
        self.say(name, wanted, self.ours.ask(requests), self.other.ask(requests))

    def measure_opening(self, wanted):
        """Starts both sessions anew, and prints what that took."""
        self.say("opening", wanted, self.ours.reopen(), self.other.reopen())


def file_of(archive, file, room):
    name = room / "rows.csv"
    archive.write(file, name)
    return client.post(f"/desk/import/s{file}", name.read_bytes())


def take_in(bench, archive, room):
    """Sends all files, the first one again at the end, and moves some branches to tops of other files."""
    names = {0: "a file into nothing", 2: "the third file"}
    for file in range(archive.files):
        request = [file_of(archive, file, room)]
        if file in names:
            bench.stage(f"{names[file]}, {archive.rows:,} rows", 2.5, request)
        else:
            bench.ask_unmeasured(request)
    bench.stage("the first file again", 3, [file_of(archive, 0, room)])
    bench.ask_unmeasured([move_to_a_file(archive, n, 20) for n in range(20)])


def move_to_a_file(archive, nth, count):
    """The move of a branch of ten units to a top of the next file."""
    unit = archive.unit_with_nine_below(nth, count)
    file = (unit - 1) // archive.rows
    return post("/desk/move", unit=unit, parent=(file + 1) % archive.files * archive.rows + archive.tops)


def questions(bench, archive):
    """Prints what pages, finding aids and lists of fonds take."""
    count = archive.requests
    bench.stage("a page", 2, [get(f"/public/units/{archive.unit(n, count)}") for n in range(count)])
    aids = [get(f"/public/aid/{archive.unit_with_nine_below(n, count)}") for n in range(count)]
    bench.stage("an aid of 10 units", 2.5, aids)
    bench.stage(f"the list of {archive.tops * archive.files} fonds", 2, [get("/public/fonds")] * (count // 10))


def past_orders(archive):
    """A thousand orders of the first ticket, each cancelled, fifty a day."""
    for nth in range(PAST):
        if nth % EACH_DAY == 0 and nth:
            yield post("/desk/day", day=f"{FIRST_DAY + datetime.timedelta(nth // EACH_DAY)}")
        yield post("/public/orders", ticket=1, container=archive.ordered_box(nth % EACH_DAY))
        yield post("/desk/cancel", order=nth + 1)


def desk(bench, archive):
    """A reading room's day, with changes of the catalogue while boxes are out."""
    count = archive.requests
    readers = range(1, count // IN_HANDS + 2)
    bench.ask_unmeasured([post("/desk/register", name=f"Reader {n}", until="2024-12-31") for n in readers])
    bench.ask_unmeasured(list(past_orders(archive)))
    bench.stage(f"a reader with {PAST:,} past orders", None, [get("/desk/readers/1")] * 100)
    bench.ask_unmeasured([post("/desk/seat", ticket=n) for n in readers])
    # the first ticket has placed all orders of its day
    loans = [{"ticket": n // IN_HANDS + 2, "container": archive.ordered_box(n)} for n in range(count)]
    bench.stage("an order", 1.5, [post("/public/orders", **loan) for loan in loans])
    bench.stage("a run", 1.5, [post("/desk/run")] * count)
    bench.stage("an issue", 1.5, [post("/desk/issue", **loan) for loan in loans])
    units = [archive.leaf_on_the_shelf(n, 200) for n in range(200)]
    drafts = [post("/desk/status", unit=unit, status="draft", branch=False) for unit in units[::2]]
    bench.stage(f"a status beside {count:,} containers out", 2, drafts)
    closures = [post("/desk/closure", unit=unit, until="2030-01-01") for unit in units[1::2]]
    bench.stage(f"a closure beside {count:,} containers out", 2, closures)
    bench.ask_unmeasured([post("/desk/return", container=archive.ordered_box(n)) for n in range(count)])


def placings(bench, archive):
    """Prints what moves and removals of branches take."""
    branches = [archive.unit_with_nine_below(2 * n + 1, 40) for n in range(20)]
    bench.stage("a move of ten units to the tops", 3, [post("/desk/move", unit=unit, parent=None) for unit in branches])
    if archive.files > 1:
        moves = [move_to_a_file(archive, 3 * n + 1, 60) for n in range(20)]
        bench.stage("a move of ten units to another file", 3, moves)
    units = [archive.leaf(3 * n + 1, 60) for n in range(20)]
    bench.stage("a removal", 3, [post("/desk/remove", unit=unit) for unit in units])


def compare(programs, room, units, cpu):
    """Both programs with offices of this many units, and what ours took."""
    archive = Archive(units)
    print(f"\n### {units:,} units, {time.strftime('%Y-%m-%d %H:%M')}, load {os.getloadavg()[0]:.1f}\n")
    with client.temporary(room) as folder:
        bench = Bench(*(Side(program, folder / name, cpu=cpu) for program, name in zip(programs, ("ours", "other"))))
        by_clock = "Ours by the clock", "Other by the clock", "Ratio by the clock"
        say_titles("What", "Ours", "Other", "Ratio", "Wanted", *by_clock)
        take_in(bench, archive, folder)
        bench.measure_opening(0.5)
        questions(bench, archive)
        desk(bench, archive)
        placings(bench, archive)
        for side in (bench.ours, bench.other):
            side.end()
        if bench.ours.office.check() != client.SOUND:
            sys.exit("WRONG the office is not sound")
        print(f"\n{time.strftime('%H:%M')}, load {os.getloadavg()[0]:.1f}")
    return bench.took


def print_growth(first, last, few, many):
    """Prints, for each stage, how many times as long it takes in the largest office as in the smallest."""
    print(f"\n### Growth: {many / few:g} times the units\n")
    say_titles("What", f"{few:,}", f"{many:,}", "Times")
    for stage in [it for it in first if it in last]:
        ours = [it[stage].processor for it in (first, last)]
        say(stage, *map(milliseconds, ours), f"{ours[1] / ours[0]:.1f}")


def main():
    """Measures both programs with offices of each size, and prints the tables."""
    words = client.options(__doc__, in_memory=False)
    words.add_argument("--cpu", type=int, metavar="N", help="the processor to which both programs are bound")
    words.add_argument("other", type=client.Program, metavar="OTHER")
    words.add_argument("units", nargs="*", type=int, metavar="UNITS", help="how many units the offices have")
    given = words.parse_args()
    sizes = sorted(given.units) or SIZES
    took = [compare((given.program, given.other), given.room, units, given.cpu) for units in sizes]
    if len(sizes) > 1:
        print_growth(took[0], took[-1], sizes[0], sizes[-1])


if __name__ == "__main__":
    main()
