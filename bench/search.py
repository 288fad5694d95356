"""Measures the search in all archives over a large office:

    ./run bench.search [--program PROGRAM] [--room DIRECTORY] [--units N] [--fonds N] [--rest TIMES]

The office has N units in fonds of so many. It prints rows of markdown: how long a first round, a round without changes
and one after a change take, what a desk command and a reader's page wait beside them, how large index and memory are,
and how long questions of a reader of English take, without nginx and the service, by themselves and beside the worst
one. With --rest 0, rounds ask without a pause."""

import concurrent.futures
import contextlib
import http.client
import itertools
import json
import multiprocessing
import random
import resource
import threading
import time

import index
import offers
from answers import Finder, Query
from asking import Asking
from folding import read_typed
from rounds import Round
from turns import Late, Turns, is_costly

from acceptance import client
from acceptance.front.searched import Searched

SYLLABLES = (("har", "doc", "min", "let", "sto", "bri"), ("a", "e", "o", "u"),
             ("ter", "kin", "ham", "ley", "mond", "sby", "wick", "ton"))
WORDS = [a + b + c for a in SYLLABLES[0] for b in SYLLABLES[1] for c in SYLLABLES[2]]
HEADER = ("legacyId,parentId,identifier,title,levelOfDescription,publicationStatus,eventDates,eventActors,"
          "scopeAndContent,physicalObjectName\n")
QUESTIONS = 60
LANGUAGE = "en"
WORST = "a* b* c* d* e* f* g* h* i* j"  # 28 letters


def rare(number):
    """A word of letters that one unit alone has."""
    return "".join("bcdfghjklm"[int(digit)] for digit in reversed(f"{number:06}")) + "ing"


def rows(units, fonds):
    """Of each fonds a hundredth are series, a tenth files, the rest items. Words are as uneven as in real texts, and each
    unit has one of its own."""
    chance = random.Random(1)

    def text(many):
        """So many words, of which the first are the most frequent."""
        return " ".join(WORDS[min(int(chance.paretovariate(0.6)) - 1, len(WORDS) - 1)] for _ in range(many))

    series = file = 0
    for number in range(1, units + 1):
        place = (number - 1) % fonds
        if place == 0:
            level, parent, top = "Fonds", "", number
        elif place % 100 == 1:
            level, parent, series = "Series", top, number
        elif place % 10 == 2:
            level, parent, file = "File", series, number
        else:
            level, parent = "Item", file if file > series else series
        creator = text(3) if place % 7 == 0 else ""
        yield (
            f"{number},{parent},{place},{text(4)} "
            f"n{number},{level},Published,{1600 + number % 350}-{1620 + number % 350},"
            f"{creator},{text(25)} {rare(number)},Box {number // 9}\n")


def probe(port, path, body, stop, out):
    """How long each of many small requests waits, one every 20 ms."""
    connection, waits = http.client.HTTPConnection("127.0.0.1", port, timeout=200), []
    while not stop.is_set():
        began = time.perf_counter()
        try:
            connection.request("POST" if body else "GET", path, body)
            connection.getresponse().read()
            waits.append(time.perf_counter() - began)
        except OSError:
            connection.close()
        time.sleep(0.02)
    out.put(waits)


def spread(values):
    """p50, p99 and the most, in milliseconds."""
    values = sorted(values)
    return " / ".join(f"{value * 1000:.1f}"
                      for value in (values[len(values) // 2], values[int(len(values) * 0.99)], values[-1]))


def beside(office, work):
    """Does the work while a clerk and a reader ask: how long it took, and what each of the two waited."""
    stop, probes = multiprocessing.Event(), []
    for port, path, body in (("8092", "/desk/renew", json.dumps({"ticket": 1, "until": "2099-12-31"})),
                             ("8091", "/public/units/2", None)):
        out = multiprocessing.Queue()
        process = multiprocessing.Process(target=probe, args=(office.ports[port], path, body, stop, out))
        process.start()
        probes.append((process, out))
    began = time.perf_counter()
    work()
    took = time.perf_counter() - began
    stop.set()
    waits = [spread(out.get()) for _, out in probes]
    for process, _ in probes:
        process.join()
    return took, waits


def rounds(office, ask, db, units):
    """Prints a row for each kind of round."""
    def row(name, work):
        ask.asked, ask.busy = 0, 0
        took, (desk, reader) = beside(office, work)
        print(f"| {name} | {took:.2f} | {ask.asked} | {ask.busy:.2f} | {desk} | {reader} |", flush=True)
    print(
        "| | s | requests | s in the office | a desk command waits, ms: p50 / p99 / most | a page waits, ms "
        "|\n|---|---|---|---|---|---|")
    row("nothing, for five seconds", lambda: time.sleep(5))
    row("first round", lambda: Round(db, ask).run())
    row("second round", lambda: Round(db, ask).run())
    row("round without changes", lambda: Round(db, ask).run())
    office.tell("/desk/closure", {"unit": units - 1, "until": "2090-01-01"})
    row("round after one change", lambda: Round(db, ask).run())
    size = sum(path.stat().st_size for path in office.folder.glob("index.db*"))
    print(
        f"\n{size / 1e6:.0f} MB in the index, "
        f"{resource.getrusage(resource.RUSAGE_SELF).ru_maxrss / 1024:.0f} MB in memory\n", flush=True)


def questions(office, db, units):
    """Prints a row for each kind of question, with what is offered where nothing was found."""
    chance, ask = random.Random(2), Asking(office.queue)
    kinds = {"rare word": lambda: rare(chance.randrange(units)),
             "rare letter and number": lambda: f"n{chance.randrange(units)}", "word of nearly all units": lambda: WORDS[0],
             "two common words": lambda: " ".join(chance.sample(WORDS[:40], 2)),
             "begin*": lambda: WORDS[chance.randrange(99)][:3] + "*", "b*": lambda: "b*",
             "28 letters, the worst": lambda: WORST, "nothing found": lambda: "zzz",
             "nothing found, with offers": lambda: "hartermont",
             "two words, and the first is nowhere": lambda: f"hartermont {WORDS[0]}"}
    print("| a question, ms: p50 / p99 / most | | requests of each |\n|---|---|---|")
    for name, typed in kinds.items():
        times, ask.asked = [], 0
        for _ in range(QUESTIONS):
            began = time.perf_counter()
            word = typed()
            answer = Finder(db, ask, Query(read_typed(word, LANGUAGE))).find()
            if answer.state == "done" and not answer.units:
                offers.offers(answer, word, LANGUAGE)
            times.append(time.perf_counter() - began)
        print(f"| {name} | {spread(times)} | {ask.asked / QUESTIONS:.0f} |", flush=True)


def search(office, turns, address, typed):
    """How long a search takes, from the moment at which it is asked for; also one whose turn does not come in time."""
    began, query = time.perf_counter(), Query(read_typed(typed, LANGUAGE))
    with contextlib.suppress(Late):
        with (turns.turn(address, costly=is_costly(query.phrases)) as is_awaited,
              contextlib.closing(index.open_index(office.index)) as db):
            Finder(db, Asking(office.queue), query, is_awaited=is_awaited).find()
    return time.perf_counter() - began


def crowd(office, units, pause):
    """Prints a row: how long eight readers' searches take while somebody asks the worst question without a pause, if each
    asks again so many seconds after an answer."""
    turns, over, chance = Turns(), threading.Event(), random.Random(3)

    def worst():
        while not over.is_set():
            search(office, turns, "192.0.2.1", WORST)

    def reader(number):
        """How long each of twenty searches of a reader takes, of which every second is for a rare word."""
        took = []
        for n in range(20):
            time.sleep(pause * chance.uniform(.5, 1.5))
            typed = rare(chance.randrange(units)) if n % 2 else WORDS[n * 2 % 40]
            took.append(search(office, turns, f"192.0.2.{number}", typed))
        return took
    strangers = [threading.Thread(target=worst) for _ in range(4)]
    for stranger in strangers:
        stranger.start()
    with concurrent.futures.ThreadPoolExecutor(8) as readers:
        times = sorted(itertools.chain.from_iterable(readers.map(reader, range(2, 10))))
    over.set()
    for stranger in strangers:
        stranger.join()
    told = " / ".join(f"{times[int(len(times) * part)] * 1000:.0f}" for part in (.5, .95, .99))
    print(f"| {f'each {pause} s after an answer' if pause else 'without a pause'} | {told} |", flush=True)


def measure(given, office):
    lines = list(rows(given.units, given.fonds))
    for at in range(0, given.units, 20_000):
        (office.folder / "part.csv").write_text(HEADER + "".join(lines[at:at + 20_000]))
        office.import_file("a", office.folder / "part.csv", timeout=600).expect_success()
    with office:
        office.tell("/desk/register", {"name": "A reader", "until": "2099-12-31"})
        ask, db = Asking(office.queue, given.rest), index.open_or_make(str(office.index), True)
        print(f"{given.units} units in fonds of {given.fonds}")
        rounds(office, ask, db, given.units)
        questions(office, db, given.units)
        print("\n| eight readers beside the worst question, ms: p50 / p95 / p99 | |\n|---|---|")
        for pause in (0, 1):
            crowd(office, given.units, pause)


def main():
    words = client.options(__doc__)
    words.add_argument("--units", type=int, default=20_000, metavar="N")
    words.add_argument("--fonds", type=int, default=2_000, metavar="N", help="units of a fonds")
    words.add_argument("--rest", type=float, default=0, metavar="TIMES")
    given = words.parse_args()
    with client.temporary(given.room) as room:
        measure(given, Searched.create(given.program, room / "office"))


if __name__ == "__main__":
    main()
