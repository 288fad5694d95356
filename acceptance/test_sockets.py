"""A server over its sockets: many requests on one connection, whom it waits for and how long, and who can connect."""

import contextlib
import re
import socket
import threading
import time
from collections.abc import Callable, Iterator
from contextlib import AbstractContextManager
from pathlib import Path

import pytest

from acceptance import client
from acceptance.client import HOST, Ended, Office, Program, Reply, Server
from acceptance.reference_model.limits import LONGEST_BODY

PATIENCE = 10
LATE = 5
LAST = 30
LAST_SILENCE = 4
FONDS, AID = client.get("/public/fonds"), client.get("/public/aid/1")
REGISTERED = client.post("/desk/register", '{"name":"Ann","until":"2024-12-31"}')
REFUSED = b"POST /desk/register HTTP/1.1\r\nHost: x\r\nContent-Length: +5\r\n\r\n"
OK, BAD = b"HTTP/1.1 200 OK", b"HTTP/1.1 400 Bad Request"
BROKEN = Reply(0, b"", b"")


def rows(count):
    """A file of one fonds and units below it; the aid has some 1,000 bytes for each unit."""
    head = "legacyId,parentId,identifier,title,levelOfDescription,publicationStatus\n"
    first = "1,,HUL,Hull Dock Company,Fonds,Published\n"
    return head + first + "".join(f"{it},1,{it},{'Minutes ' * 120},Series,Published\n" for it in range(2, count + 2))


class Talk:
    """A client of a server: a connection whose answers are read one by one."""

    def __init__(self, connection):
        self.connection, self.answers = connection, connection.makefile("rb")

    def __enter__(self):
        return self

    def __exit__(self, *_):
        self.answers.close()
        self.connection.close()

    def send(self, said):
        self.connection.sendall(said)

    def ask(self, request):
        self.send(request)
        return client.read_reply(self.answers)


Serve = Callable[..., AbstractContextManager[Server]]


@pytest.fixture
def serve(program: Program, room: Path) -> Serve:
    """Serves a new office for so many connections."""

    @contextlib.contextmanager
    def serving(connections: int, units: int = 1) -> Iterator[Server]:
        office, file = Office.create(program, room / "office.db"), room / "file.csv"
        file.write_text(rows(units))
        office.import_file("a", file).expect_success()
        with office.serve(connections) as server:
            assert server.said == b"listening %d\n" % server.port
            yield server

    return serving


def expect_end(server: Server) -> None:
    assert server.wait_for_end() == Ended(0, b"", b"")


def ask_next(server: Server, request: bytes = FONDS) -> tuple[float, Reply]:
    """Asks with a new client, which must be answered; returns the seconds that it took and the answer."""
    with Talk(server.connect(PATIENCE * 12)) as it:
        begun = time.monotonic()
        answer = it.ask(request)
        assert answer.line == OK, "the next client"
        return time.monotonic() - begun, answer


def trickle(it, over):
    """Sends a byte forty times a second, until `over` is set or the connection breaks."""
    with contextlib.suppress(OSError):
        while not over.wait(0.025):
            it.send(b"x")


# ---- many requests on one connection


def test_1000_requests_on_one_connection_within_10_seconds(serve: Serve) -> None:
    with serve(9) as server, Talk(server.connect()) as it:
        it.ask(FONDS)
        begun = time.monotonic()
        for _ in range(1000):
            it.ask(FONDS)
        assert time.monotonic() - begun < 10


def test_200_000_requests_keep_no_memory(serve: Serve) -> None:
    """Sent in lots over twenty connections, after one that fills what is kept: questions, a body, a refusal."""
    round = FONDS + AID + client.get("/public/units/9") + client.post("/desk/seat", '{"ticket":9}')
    resident = []
    with serve(22) as server:
        for _ in range(21):
            with Talk(server.connect()) as it:
                for _ in range(100):
                    it.send(round * 25)
                    statuses = [client.read_reply(it.answers).status for _ in range(100)]
                    assert statuses == [200, 200, 404, 409] * 25
            status = Path(f"/proc/{server.process.pid}/status").read_text()
            resident += [int(it) for it in re.findall(r"VmRSS:\s*(\d+) kB", status)]
    assert max(resident) - resident[0] < 1024, f"KiB after each connection: {resident}"


# ---- answers that close


def test_an_answer_that_closes_reaches_a_client_that_has_sent_more(serve: Serve) -> None:
    with serve(6) as server:
        for more in (0, 1, 100_000, 4_000_000, LONGEST_BODY):
            answer, rest = ask_refused(server, more)
            assert (answer.line, answer.body, rest) == (BAD, b'{"error":"bad request"}', b""), f"{more} bytes more"
        _, answer = ask_next(server)
        assert answer.body == b"1 GB 0999 HUL [Fonds] Hull Dock Company\n"
        expect_end(server)


@pytest.mark.parametrize("sends, longest", [(lambda *_: None, LAST_SILENCE), (trickle, LAST)], ids=["is silent", "trickles"])
def test_a_client_that_stays_after_an_answer_that_closes_delays_nobody_for_long(
        sends: Callable[..., None], longest: int, serve: Serve) -> None:
    with serve(2) as server:
        with Talk(server.connect()) as it:
            assert it.ask(REFUSED).line == BAD
            over = threading.Event()
            sender = threading.Thread(target=sends, args=(it, over))
            sender.start()
            taken, _ = ask_next(server)
            over.set()
            sender.join()
            assert taken < longest
        expect_end(server)


# ---- clients that the server leaves


@pytest.mark.parametrize("said", [b"", REGISTERED[:-5], REGISTERED], ids=["nothing", "a part of a message", "one message"])
def test_a_silent_client_is_left_after_10_seconds_and_what_it_began_is_not_done(said: bytes, serve: Serve) -> None:
    with serve(3) as server:
        with Talk(server.connect()) as it:
            it.send(said)
            if said == REGISTERED:
                assert client.read_reply(it.answers).body == b'{"ticket":1}'
            taken, _ = ask_next(server)
            assert PATIENCE - 1 < taken < PATIENCE + LATE
        _, answer = ask_next(server, REGISTERED)
        assert answer.body == (b'{"ticket":2}' if said == REGISTERED else b'{"ticket":1}')
        expect_end(server)


def test_a_client_that_reads_nothing_is_left(serve: Serve) -> None:
    """After a write that moved some bytes in its time there is another write, so more than one may time out."""
    with serve(2, 500) as server:
        with socket.socket() as it:
            it.setsockopt(socket.SOL_SOCKET, socket.SO_RCVBUF, 4096)
            it.connect((HOST, server.port))
            it.sendall(AID * 20)
            taken, _ = ask_next(server)
        assert PATIENCE - 1 < taken < 10 * PATIENCE
        expect_end(server)


# ---- who can connect


def test_nobody_connects_to_another_address_nor_once_the_last_is_taken(serve: Serve) -> None:
    with serve(1) as server:
        for address in ("127.0.0.2", *other_addresses()):
            assert is_refused(address, server.port), address
        with Talk(server.connect()) as it:
            it.ask(FONDS)
            assert is_refused(HOST, server.port)
        expect_end(server)


def ask_refused(server, more):
    """Sends a request that is refused, and this many bytes more; returns the reply, and what follows, or the error."""
    answer, rest = BROKEN, b""
    with Talk(server.connect()) as it:
        with contextlib.suppress(ConnectionError):
            it.send(REFUSED + b"x" * more)
        try:
            answer = client.read_reply(it.answers)
            rest = it.answers.read()
        except ConnectionError as error:
            rest = str(error).encode()
    return answer, rest


def is_refused(address, port):
    """Whether nobody accepts a connection at this address and port."""
    try:
        with socket.create_connection((address, port), 5):
            return False
    except ConnectionRefusedError:
        return True


def other_addresses():
    """The machine's other addresses, if it has a network card."""
    with contextlib.suppress(OSError):
        found = {it[4][0] for it in socket.getaddrinfo(socket.gethostname(), None, socket.AF_INET)}
        return sorted(it for it in found if not it.startswith("127."))
    return []
