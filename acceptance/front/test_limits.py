"""How much one address may ask, how much may be under way at once, and how long a client may take: one limit of each kind.
The numbers of all stand in settings.txt, and what each site answers beyond them in test_answers.py."""

import collections
import select
import socket
import threading
import time

import pytest

from acceptance import client
from acceptance.front.asks import Asks, ask_once, exchange, statuses
from acceptance.front.office import ARCHIVES
from acceptance.front.stand_in import in_place_of_program, in_place_of_service
from acceptance.front.waits import until

LARGE = 24_000_000  # more bytes than sockets hold


@pytest.fixture
def office(new_office):
    """An office for each test: what was asked before counts too."""
    office = new_office(files=[("archives", ARCHIVES)])
    yield office
    office.end()


# How many in a row

class Row:
    """Requests one behind the other on one connection, from an address that asked nothing before: how many of them were
    let through, and from when to when."""

    def __init__(self, office, asked, many, source="127.0.0.2"):
        self.began = time.monotonic()
        last = client.request(*asked, fields={"Connection": "close"})
        got = exchange(office.ports["8080"], client.request(*asked) * (many - 1) + last, source)
        self.ended = time.monotonic()
        answered = statuses(got)
        self.through = sum(one != 429 for one in answered)
        self.many, self.whole = many, len(answered) == many


def test_questions_in_a_row(office):
    """Two hundred questions and one more at once, and then fifty a second. With the queue away nginx answers all itself:
    faster than any machine's program would."""
    asked, burst, rate = ("GET", "/public/units/1"), 200, 50
    with office.without_queue():
        first = Row(office, asked, burst + 760)  # more than can come through in 15 seconds
        assert first.whole and first.through < first.many, "all are answered, and some of them by 429 and not later"
        most = burst + 1 + rate * (first.ended - first.began)
        assert burst + 1 <= first.through <= most + 1, (f"{burst + 1} at once, and no more", (first.through, most))
        assert Row(office, asked, burst, "127.0.0.3").through == burst, "another address has its own"
        time.sleep(1.5)  # how many are let through after a time is what is measured
        second = Row(office, asked, int(rate * (time.monotonic() - first.ended)) + 40)
    least = rate * (second.began - first.ended)
    most = burst + 1 + rate * (second.ended - first.began) - first.through
    assert min(least - 1, burst) <= second.through <= most + 1, (f"and then {rate} a second", (second.through, least, most))


def test_of_however_many_forms_a_dozen_orders_are_passed_on(office):
    office.serve_readers("--every", "100", "--rest", "0")
    Asks(office).command("/desk/register", name="Ann", until="2030-01-01")
    for place, wanted in ((0, 12), (1, 0)):
        form = "ticket=1&" + "&".join(f"container=1-{900_000 + place * 20 + box}" for box in range(1, 21))
        told = ask_once(office.ports["8080"], "POST", "/ordered/order", form).decode()
        assert 20 - told.count("Too many orders came") == wanted, f"orders of form {place} that are passed on"
    told = exchange(office.ports["8080"], client.request("POST", "/ordered/order", form, fields={"Connection": "close"}),
                    "127.0.0.2").decode()
    assert 20 - told.count("Too many orders came") == 12, "another address has its own"


# How many at once

class Crowd:
    """Clients who each send the same bytes, and wait for an answer."""

    def __init__(self, port, sent, many, source=client.HOST):
        self.sockets = [socket.create_connection((client.HOST, port), 90, (source, 0)) for _ in range(many)]
        for one in self.sockets:
            one.sendall(sent)

    def count_answered(self):
        return len(select.select(self.sockets, [], [], 0)[0])

    def statuses(self):
        """How many got each status, once all have theirs."""
        statuses = [int(one.recv(65536).split(b" ", 2)[1]) for one in self.sockets]
        for one in self.sockets:  # not before: a connection that is closed makes room for another
            one.close()
        return dict(collections.Counter(statuses))


def test_pages_at_once(office):
    """Clients who have not sent what they announced count, though they are answered."""
    crowd = Crowd(office.ports["8080"], client.post("/public.css", b"x" * 4000)[:-4000], 115)
    assert crowd.statuses() == {403: 100, 429: 15}, "a hundred at once from one address"


def test_searches_at_once(office):
    """So many clients search, from one address and from many, while the service answers none of them."""
    with in_place_of_service(office, silent=True, at_once=90) as service:
        crowd = Crowd(office.ports["8080"], client.get("/public/search?q=x"), 6)
        until(lambda: crowd.count_answered() >= 2 and len(service.requests) >= 4, "those over the limit are answered")
        assert (crowd.count_answered(), len(service.requests)) == (2, 4), "four at once from one address"
        others = [Crowd(office.ports["8080"], client.get("/public/search?q=x"), 4, f"127.0.0.{n}") for n in range(2, 22)]
        until(lambda: len(service.requests) >= 84, "however many others search, the service decides whom it refuses")
        assert sum(one.count_answered() for one in others) == 0
    assert crowd.statuses() == {503: 4, 429: 2}, "the others are told that there is none"


def test_a_reading_room_has_limits_eight_times_as_high(office):
    with office.change_file("rooms.conf", "default 0;", "default 0; 127.0.0.4 1;"):
        row = Row(office, ("GET", "/unit/1"), 480 + 400, "127.0.0.4")
        assert 480 + 1 <= row.through < row.many, row.through


# How slowly

class Slow(threading.Thread):
    """A client who begins a request and then does nothing: after how many seconds it is left, and how."""

    def __init__(self, port, sent):
        super().__init__(daemon=True)
        self.port, self.sent, self.took, self.how = port, sent, None, None

    def run(self):
        """Sends the beginning, and waits for a minute at most until the front leaves."""
        with socket.socket() as it:
            it.setsockopt(socket.SOL_SOCKET, socket.SO_RCVBUF, 4096)
            it.connect((client.HOST, self.port))
            it.sendall(self.sent)
            began, watch = time.monotonic(), select.poll()
            watch.register(it, select.POLLHUP | select.POLLERR | select.POLLRDHUP)
            seen = watch.poll(60_000)
            self.took = time.monotonic() - began
            self.how = "reset" if seen and seen[0][1] & select.POLLERR else "closed" if seen else "kept"


# what a client sends before it stops, and the seconds after which it is left
SLOW = {"head": (client.get("/")[:20], 10), "body": (client.post("/public/orders", b"{" * 20)[:-19], 10),
        "answer": (client.get("/public/units/1"), 20)}


def test_who_sends_or_takes_no_more_is_left_after_a_time(office):
    with in_place_of_program(office, body=b"x" * LARGE):
        clients = {what: Slow(office.ports["8080"], sent) for what, (sent, _) in SLOW.items()}
        for one in clients.values():
            one.start()
        for what, one in clients.items():
            one.join(90)
            wanted = SLOW[what][1]
            told = f"who does not go on with the {what} is left after {wanted} s: {one.how}, {one.took}"
            assert one.how == "reset" and wanted - 1 < one.took < wanted + 6, told
