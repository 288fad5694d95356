"""The program stands still, as one that is stopped or busy: whoever needs it is told soon, in the language of who reads, and
all else goes on."""

import contextlib
import http.client
import os
import signal
import time

import pytest
from aids import Aids
from asking import Unreached

from acceptance.front.office import ARCHIVES, SELDOM
from acceptance.front.waits import until

SOON, AT_ONCE = 5, 3  # seconds in which a reader is told, and in which help comes
AWAY, AGAIN = "Das Archiv antwortet nicht", "Bitte versuchen Sie es in einer Minute noch einmal."
TOLD = {"/unit/1": AWAY, "/": AWAY, "/search?q=dock": AGAIN}
ALONE = ("/help", "/accessibility", "/ordered", "/search", "/robots.txt")  # for these nobody asks the office
MANY = 30 * (os.cpu_count() or 1)  # readers, more than there are threads for pages
SEARCHES = 45


@pytest.fixture(scope="module")
def office(new_office):
    """An office whose program stands still."""
    office = new_office(files=[("archives", ARCHIVES)], readers=SELDOM, changes=[
        ("log_format record_office_log '", "log_format record_office_log '$status $request_time "), ("access_log off;", "")])
    until(office.count_rounds, "the only round is over")
    stopped = office.stop_program()
    yield office
    os.kill(stopped.pid, signal.SIGCONT)


class Reader:
    """A reader with an address of its own, who has asked for a page."""

    def __init__(self, office, number, path, form=None):
        source = f"127.1.{number // 254}.{number % 254 + 1}"
        self.connection = http.client.HTTPConnection("127.0.0.1", office.ports["8080"], 60, (source, 0))
        self.began = time.monotonic()
        kind = {"Content-Type": "application/x-www-form-urlencoded"} if form else {}
        self.connection.request("POST" if form else "GET", path, form, {"Accept-Language": "de", **kind})

    def told(self):
        """Status, when to come again, the text, and how long it took until it was read."""
        with contextlib.closing(self.connection):
            answer = self.connection.getresponse()
            text = answer.read().decode()
            return answer.status, answer.getheader("Retry-After"), text, time.monotonic() - self.began


def longest(office, many):
    """The longest time that nginx took for one of so many answers that told of it: who asks here may read them late."""
    log = office.folder / "access.log"
    lines = until(lambda: [found for found in [[line for line in log.read_text().splitlines() if line.startswith("503 ")]]
                           if len(found) >= many], "the log has them")[0]
    return max(float(line.split()[1]) for line in lines[-many:])


def test_readers_are_told_soon_and_what_needs_no_office_comes_at_once(office):
    asked = ["/unit/1", "/"] * (MANY // 2) + ["/search?q=dock"] * SEARCHES + ["/aid/1"] * 6
    readers = [(path, Reader(office, number, path)) for number, path in enumerate(asked)]
    time.sleep(1)  # they wait
    for path in ALONE:
        status, _, _, took = Reader(office, 254 * 200, path).told()
        assert status == 200 and took < AT_ONCE, (path, status, took)
    for path, reader in readers:
        status, again, text, _ = reader.told()
        assert (status, again) == (503, "60") and TOLD.get(path, AWAY) in text, (path, status, again)
    assert longest(office, len(asked)) < SOON


def test_who_wants_a_large_finding_aid_is_told_as_soon(office, room):
    began = time.monotonic()
    with pytest.raises(Unreached):
        Aids(office.queue, room, 0).spool(1, 200_000)
    assert time.monotonic() - began < SOON


def test_who_orders_is_told_that_nobody_knows(office):
    status, again, text, _ = Reader(office, 1, "/unit/3/order", "ticket=1&container=1").told()
    assert (status, again) == (503, "60") and longest(office, 1) < SOON, (status, again)
    assert "Wir wissen nicht, ob Ihre Bestellung angenommen wurde." in text and 'href="/unit/3"' in text
