"""Stops the program of an office between two requests, and starts it again, also if the tool that stopped it is killed."""

import contextlib
import pathlib
import re
import socket
import time

from offices import PROGRAM, TO_DESK, TO_GATE


def sleeps(process):
    """How often a process has gone to sleep; None if it is awake."""
    fields = dict(re.findall(r"^(\w+):\s*(\S+)", pathlib.Path(f"/proc/{process}/status").read_text(), re.M))
    return fields["voluntary_ctxt_switches"] if fields["State"] == "S" else None


# A request without its body, which never comes: nothing is done, and the program waits for it for ten seconds.
HALF = b"POST /desk/run HTTP/1.1\r\nHost: office\r\nContent-Length: 100\r\n\r\n"
QUESTION = b"GET /public/fonds HTTP/1.1\r\nHost: office\r\nConnection: close\r\n\r\n"


def sent(port, request):
    """A connection on which a request was sent."""
    connection = socket.create_connection(("127.0.0.1", port), 5)
    connection.sendall(request)
    return connection


@contextlib.contextmanager
def queue_held(office, port):
    """A context in which the program answers nobody, and may be stopped.

    It waits for half a request of ours, and all other requests wait in the queue. A question of ours waits at the gate, so
    that nobody else's request reaches the program in the moment in which it ends.
    """
    try:
        half = sent(port - PROGRAM + TO_DESK, HALF) if office.state() == "active" else None
    except OSError:
        half = None
    if half is None:
        yield  # no program or no queue is running, so nobody's request is on its way
        return
    with half:
        wait_until_idle(office.process())
        with contextlib.ExitStack() as held:
            with contextlib.suppress(OSError):  # the queue has ended meanwhile, and with it all requests
                held.enter_context(sent(port - PROGRAM + TO_GATE, QUESTION))
            yield


def wait_until_idle(process, seconds=60):
    """Waits until a process has slept for half a second: then it has our request. After a minute it is stopped all the
    same."""
    end = time.monotonic() + seconds
    with contextlib.suppress(OSError):
        same, before = 0, None
        while same < 5 and time.monotonic() < end:
            time.sleep(0.1)
            now = sleeps(process)
            same = same + 1 if now and now == before else 0
            before = now


@contextlib.contextmanager
def stopped(office, port=None):
    """A context in which the program is stopped. If somebody else has stopped it, it stays stopped."""
    was_running = office.state() != "inactive"
    if was_running:
        with queue_held(office, port or office.port + PROGRAM):
            office.resume.parent.mkdir(exist_ok=True)
            office.resume.touch()
            office.tell_systemd("stop")
    try:
        yield was_running
    finally:
        if was_running:
            office.tell_systemd("start")
            office.resume.unlink(missing_ok=True)
