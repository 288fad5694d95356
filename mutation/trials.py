"""What the scripts that try mistakes share: which mistakes cannot be tried, what came of each, tests, and a few at a time."""

import collections
import concurrent.futures
import functools
import os
import queue
import re
import subprocess
from collections.abc import Callable, Iterable, Iterator
from pathlib import Path
from typing import Any, TypeVar

TOP = Path(__file__).resolve().parents[1]
Thing = TypeVar("Thing")


class Verdicts:
    """What came of mistakes: how many have each verdict. `good` are those of a mistake that was noticed."""

    def __init__(self, *good: str) -> None:
        self.good, self.counts = good, collections.Counter(dict.fromkeys(good, 0))

    def add(self, verdict: str) -> str:
        self.counts[verdict] += 1
        return verdict

    def line(self) -> str:
        return ", ".join(f"{number} {verdict}" for verdict, number in self.counts.items())

    def status(self) -> int:
        """The exit status: 1 if a mistake was not noticed, or if none was tried."""
        return 0 if self.counts and set(+self.counts) <= set(self.good) and self.counts.total() else 1


def cannot_be_tried(mistakes: Iterable[Thing], why_not: Callable[[Thing], str], name: Callable[[Thing], str]) -> int:
    """Prints the mistakes that cannot be tried, each with the reason; returns how many there are."""
    number = 0
    for mistake in mistakes:
        if why := why_not(mistake):
            number += 1
            print(f"cannot be tried: {name(mistake)}: {why}", flush=True)
    return number


# ---- tests of acceptance, as pytest takes them: FILE, FILE::NAME or FILE -k WORD

def run_test(test: str, program: Path, seconds: float, *more: str, **around: str) -> str:
    """Plays a test up to its first failure. What failed; nothing if it passed. Raises Late if pytest could not play it."""
    words = ["pytest", *test.split(), "-x", "-q", "--program", str(program), "-p", "no:cacheprovider", *more]
    # what a test needs and does not find is a failure, and not skipped
    environment = {**os.environ, "CI": "1", **around}
    try:
        done = subprocess.run(words, cwd=TOP, env=environment, timeout=seconds, capture_output=True, text=True, check=False)
    except subprocess.TimeoutExpired:
        return f"more than {seconds:.0f} s"
    if done.returncode not in (0, 1):
        raise Late(f"{test}: pytest ended with {done.returncode}: {(done.stdout + done.stderr)[-300:]}")
    found = re.search(r"^(?:FAILED|ERROR) (.*)$", done.stdout, re.M)
    return (found[1] if found else done.stdout[-300:]) if done.returncode else ""


@functools.cache
def names_of_tests() -> list[str]:
    words = ["pytest", "acceptance", "--collect-only", "-q", "-p", "no:cacheprovider"]
    done = subprocess.run(words, cwd=TOP, capture_output=True, text=True, check=False)
    return [line for line in done.stdout.splitlines() if "::" in line]


def is_test(test: str) -> bool:
    place, *more = test.split(" -k ")
    return any(name.startswith(place) and all(word in name for word in more) for name in names_of_tests())


# ---- a few at a time

class Late(Exception):
    """It took too long, and nothing is known."""


class Jobs:
    """Does something with several things, a few at a time, each with ports of its own: a thousand from the first on."""

    def __init__(self, many: int, first: int) -> None:
        self.pool, self.ports = concurrent.futures.ThreadPoolExecutor(many), queue.Queue[int]()
        for job in range(many):
            self.ports.put(first + 1000 * job)

    def outcomes(self, what: Callable[[Thing, int], Any], things: Iterable[Thing]) -> Iterator[tuple[Thing, Any]]:
        """Yields each thing, and what came of it: a value, or what was raised."""
        def do(thing: Thing) -> tuple[Thing, Any]:
            ports = self.ports.get()
            try:
                return thing, what(thing, ports)
            except (OSError, subprocess.SubprocessError, Late) as broken:
                return thing, broken
            finally:
                self.ports.put(ports)
        for task in concurrent.futures.as_completed([self.pool.submit(do, thing) for thing in things]):
            yield task.result()
