"""What the queue and nginx pass on, in which order, over which connections, and what they say when nothing answers.
Where the order of requests or their bytes matter, a stand-in has the program's place."""

import contextlib
import http.client
import os
import signal
import socket
import stat
import time

import pytest
from asking import Connection

from acceptance import client
from acceptance.front.asks import Asks, ask_once, assert_policy, body_of, status
from acceptance.front.office import ARCHIVES, FRONT, KINDS, MANY_PAGES, SELDOM, SIGNED_IN
from acceptance.front.senders import UNANSWERED, Sender, count_unread, registration
from acceptance.front.stand_in import StandIn, in_place_of_program
from acceptance.front.waits import until

ROUND, AID, CRAWLER, SEARCH, PAGE = ({"Record-Office-For": name} for name in ("round", "aid", "crawler", "search", "page"))
HALF = client.post("/desk/run", b" " * 100)[:-100]  # without its body
QUESTION = client.request("GET", "/public/fonds", fields={"Connection": "close"})
SHORT = (("timeout queue 120s", "timeout queue 2s"), ("timeout server 120s", "timeout server 5s"),
         ("retries 110", "retries 2"))
NOT_REACHED = (503, b'{"error":"not reached"}')
SEARCHES = ("/search", "/public/search")
LARGE = 24_000_000  # more bytes than sockets hold
IDLE = 9  # seconds after which the program is about to close an idle connection


@pytest.fixture(scope="module")
def office(new_office):
    """An office whose service has made its only round."""
    office = new_office(files=[("archives", ARCHIVES)], changes=MANY_PAGES)
    office.serve_readers(*SELDOM)
    until(office.count_rounds, "the only round is over")
    return office


class Way:
    """A way into the queue, and what is asked there. Each request has a connection of its own, and ends in `got`."""

    def __init__(self, office, side, method, path, heads=None):
        self.sender = Sender(office.ports["8092" if side == "desk" else "8091"],
                             [(method, path, "{}" if method == "POST" else None, heads or {})])
        if side == "service":
            self.sender.run = lambda: self.ask_socket(office, method, path, heads or {})
        self.path = path

    def ask_socket(self, office, method, path, heads):
        """Asks at the service's socket, and keeps the status of the answer."""
        with contextlib.closing(Connection(office.queue, 200)) as connection:
            connection.request(method, path, "{}" if method == "POST" else None, heads)
            self.sender.got.append((connection.getresponse().status, b""))


def test_who_waits_longest_does_not_go_first(office):
    """But the desk, then pages, orders, searches, crawlers, finding aids, rounds."""
    asked = [("readers", "GET", "/public/units/1"), ("service", "GET", "/public/fonds", ROUND),
             ("service", "GET", "/public/aid/1", AID), ("service", "GET", "/public/units/4", CRAWLER),
             ("service", "GET", "/public/units/2", SEARCH), ("readers", "POST", "/public/orders"),
             ("service", "GET", "/public/units/3", PAGE), ("desk", "POST", "/desk/run"), ("readers", "GET", "/public/aid/7"),
             ("service", "POST", "/public/orders?s"), ("service", "GET", "/public/units/5"), ("desk", "GET", "/public/aid/9")]
    ways = [Way(office, *one) for one in asked]
    with office.without_program():
        for many, way in enumerate(ways):
            way.sender.start()
            # The first is given to the gate, which waits for the program; each other one waits in the queue.
            until(lambda: office.count_queued() == many and office.queue_state()["scur"] == "1", f"{many} requests wait")
        with StandIn(office.ports["8090"]) as program:
            for way in ways:
                way.sender.join(60)
            wanted = ["/public/units/1", "/desk/run", "/public/aid/9", "/public/units/3", "/public/units/5", "/public/orders",
                      "/public/orders?s", "/public/units/2", "/public/units/4", "/public/aid/1", "/public/aid/7",
                      "/public/fonds"]
            assert program.paths == wanted, "each waits behind those that go first"
    assert [way.sender.got[0][0] for way in ways] == [200] * len(ways), "each is answered"


def ask(office, path, port="8080", headers=None):
    """The answer to a question; its body is not read yet."""
    connection = http.client.HTTPConnection("127.0.0.1", office.ports[port], timeout=60)
    connection.request("GET", path, headers=headers or {})
    return connection.getresponse()


def send(office, port, request):
    connection = socket.create_connection((client.HOST, office.ports[port]), 90)
    connection.sendall(request)
    return connection


def test_who_has_not_sent_all_of_a_command_keeps_nobody_waiting(office):
    body = b'{"ticket":1,"container":1}'
    command = client.request("POST", "/public/orders", body, fields={"Connection": "close"})
    with in_place_of_program(office) as program, send(office, "8080", command[:9 - len(body)]) as slow:
        got = ask(office, "/public/fonds")
        assert (got.status, program.paths) == (200, ["/public/fonds"]), "another client is answered meanwhile"
        slow.sendall(command[9 - len(body):])
        assert b"200 OK" in slow.recv(4096), "and then the command"
        assert program.requests[-1][1] == body, "which comes whole"


def test_who_takes_nothing_of_a_large_answer_keeps_nobody_waiting(office):
    """nginx has taken it from the queue."""
    with in_place_of_program(office, body=b"x" * LARGE) as program:
        slow = ask(office, "/public/aid/1")
        until(lambda: program.requests, "the aid is asked for")
        program.body = b"[]"
        assert ask(office, "/desk/issued", "8092").read() == b"[]", "the desk is answered meanwhile"
        assert len(slow.read()) == LARGE, "and the slow reader gets all of it"


def test_the_program_gets_all_requests_over_one_connection(office):
    with in_place_of_program(office) as program:
        senders = [Sender(office.ports[port], [("GET", path, None, SIGNED_IN)] * 20) for port, path in
                   [("8080", "/public/units/1"), ("8081", "/desk/issued"), ("8080", "/public/aid/1")] * 4]
        before, kept = office.count_connections(), connections_of_nginx(office)
        for sender in senders:
            sender.start()
        for sender in senders:
            sender.join(60)
        assert [got[0] for sender in senders for got in sender.got] == [200] * 240, "all are answered"
        assert program.connections == 1, "connections to the program"
        assert office.count_connections() - before <= 1, ("and to the gate", office.count_connections() - before)
        assert connections_of_nginx(office) - kept <= 24, ("nginx keeps its own to the queue",
                                                           connections_of_nginx(office) - kept)


def connections_of_nginx(office):
    """How many connections nginx has made to the queue so far."""
    return sum(int(office.queue_state(side, "FRONTEND")["conn_tot"]) for side in ("readers", "desk"))


def test_an_idle_connection_is_closed_before_the_program_does(office):
    with in_place_of_program(office) as program:
        ask(office, "/public/fonds").read()
        began = time.monotonic()
        until(lambda: program.closed, "the idle connection is closed")
        took = program.closed[0] - began
        assert 1 < took < IDLE, (f"an idle connection is closed after one second and before {IDLE}", took)


def test_nginx_sends_no_command_twice(office):
    with office.without_queue(), StandIn(office.ports["8092"], at_once=4, drops=lambda head: "/desk/run" in head) as queue:
        ask(office, "/desk/issued", "8081", SIGNED_IN).read()  # now there is a connection that is kept
        command = Sender(office.ports["8081"], [("POST", "/desk/run", "{}", SIGNED_IN)])
        command.start()
        command.join(60)
        assert command.got == [UNANSWERED], "the command is not answered"
        assert queue.paths == ["/desk/issued", "/desk/run"], "and was sent once"
        question = Sender(office.ports["8081"], [("GET", "/desk/run", None, SIGNED_IN)])
        question.start()
        question.join(60)
        assert queue.paths.count("/desk/run") == 2, "a question too is put again by the queue alone"


def test_who_leaves_while_the_program_is_away_keeps_nobody_waiting(office):
    """The backup leaves half a request and a question behind, readers others."""
    for leave in range(4):
        senders = [send(office, "8092", HALF), send(office, "8093", QUESTION),
                   *(send(office, "8091", QUESTION) for _ in range(3))]
        with office.without_program():
            for sender in senders[leave % 2:] + senders[:leave % 2]:
                time.sleep(0.3)  # the gate tries once a second, and is to be left at several moments
                sender.close()
        assert Asks(office).question("/public/fonds")[0] == 200, f"a question after senders left, {leave}"


def test_what_each_way_into_the_queue_lets_through(office):
    for port, path, wanted in (("8091", "/desk/issued", 404), ("8091", "/public/fonds", 200), ("8092", "/desk/issued", 200)):
        assert status(ask_once(office.ports[port], "GET", path)) == wanted, f"{path} at {port}"
    for method, path, wanted in (("GET", "/public/fonds", 200), ("GET", "/public/units/1", 200),
                                 ("GET", "/public/aid/1", 200), ("POST", "/public/fonds", 404),
                                 ("GET", "/public/orders", 404), ("POST", "/public/orders", 400),
                                 ("GET", "/desk/issued", 404)):
        with socket.socket(socket.AF_UNIX) as it:
            it.connect(str(office.queue))
            it.sendall(client.request(method, path, {}))
            assert status(it.recv(65536)) == wanted, f"{method} {path} at the service's socket"
    for port, side, path in (("8080", "readers", "/public/fonds"), ("8081", "desk", "/public/fonds"),
                             ("8081", "desk", "/desk/issued")):
        before = int(office.queue_state(side, "FRONTEND")["req_tot"])
        ask(office, path, port, SIGNED_IN).read()
        assert int(office.queue_state(side,
                                      "FRONTEND")["req_tot"]) - before == 1, f"{path} at {port} comes by the way of the {side}"
    for path in (office.queue, *(office.folder / f"{kind}.sock" for kind in KINDS)):
        assert stat.S_IMODE(path.stat().st_mode) == 0o660, f"its user and its group may use {path}"
    assert "group record-office-readers" in (FRONT / "server/haproxy.cfg").read_text(), "which is the service's"
    with office.without_queue():
        for path in ("/public/fonds", "/public/units/1"):
            got = ask_once(office.ports["8080"], "GET", path)
            assert (status(got), body_of(got)) == NOT_REACHED, f"{path} without the queue"
            assert_policy(f"{path} without the queue", got, "application/json", None, forms="'self'")


def test_what_readers_look_for_stands_in_no_log(office):
    with office.without_readers(*SELDOM):
        statuses = {ask(office, f"{path}?q=nobodyelsesbusiness").status for _ in range(15) for path in SEARCHES}
    for path in SEARCHES:
        statuses.add(until(lambda: (got := ask(office, f"{path}?q=nobodyelsesbusiness").status) == 200 and got,
                           "the search answers"))
    assert statuses == {503, 429, 200}, "searches without and with their service, and too many"
    ask(office, "/public/units/1?seen").read()
    until(lambda: "/public/units/1?seen" in (office.folder / "access.log").read_text(), "other questions are logged by nginx")
    seen = [line for line in (office.folder / "access.log").read_text().splitlines() if "/public/units/1?seen" in line]
    assert {line.split()[0] for line in seen} == {"127.0.0.0"}, "of an address the log has the network"
    for name in ("access.log", "nginx.log", "readers.told", "haproxy.told"):
        told = (office.folder / name).read_text()
        assert "nobodyelsesbusiness" not in told, (f"no searches in {name}", told[-300:])
    assert " 200 " not in told, ("the queue logs nothing of what went well", told[-300:])


@pytest.fixture(scope="module")
def hasty(new_office):
    """An office whose front waits for seconds only."""
    return new_office(changes=SHORT)


def test_a_program_that_is_away_or_does_not_answer(hasty):
    with hasty.without_program():
        sender = registration(hasty, "Nobody")
        sender.start()
        sender.join(60)
        assert sender.got == [NOT_REACHED], "the program is away"
    hasty.wait_for(hasty.public + "/public/fonds")
    stopped = hasty.stop_program()
    asks, waits = Sender(hasty.ports["8080"], [("GET", "/public/fonds", None, {})]), registration(hasty, "Nobody")
    asks.start()
    until(lambda: count_unread(hasty.ports["8090"]), "the program has a question before it")
    waits.start()
    waits.join(60)
    assert waits.got == [NOT_REACHED], "what waited too long in the queue"
    asks.join(60)
    assert asks.got == [UNANSWERED], "what the program did not answer"
    got = ask_once(hasty.ports["8080"], "GET", "/public/fonds")
    assert_policy("a program that does not answer", got, "application/json", "no-store", forms="'self'")
    os.kill(stopped.pid, signal.SIGCONT)
    assert Asks(hasty).question("/desk/readers/1", True)[0] == 404, "nobody was registered"
