"""Stands in for a process behind the front: takes connections as that one would, answers each request alike, and keeps
what came."""

import contextlib
import re
import socket
import threading
import time

from acceptance import client
from acceptance.front.office import KINDS


class StandIn:
    """One connection after the other, at a port of 127.0.0.1 or at a socket in the file system. It answers each request
    with `body`, or with what `answers` has for its path, but with none the one that `drops(head)` names: then it closes
    the connection. With `silent` it answers nothing."""

    def __init__(self, place, body=b"[]", drops=lambda head: False, silent=False, at_once=1, answers=()):
        self.body, self.drops, self.silent, self.answers = body, drops, silent, dict(answers)
        self.requests, self.connections, self.closed = [], 0, []
        family = socket.AF_INET if isinstance(place, int) else socket.AF_UNIX
        if family == socket.AF_UNIX:
            place.unlink(missing_ok=True)
        self.listener = socket.socket(family)
        self.listener.setsockopt(socket.SOL_SOCKET, socket.SO_REUSEADDR, 1)
        self.listener.bind(("127.0.0.1", place) if isinstance(place, int) else str(place))
        self.listener.listen(64)
        self.open, self.over = set(), False
        self.threads = [threading.Thread(target=self.run, daemon=True) for _ in range(at_once)]
        for thread in self.threads:
            thread.start()

    @property
    def paths(self):
        return [head.split(" ", 2)[1] for head, _ in self.requests]

    def run(self):
        """Serves one connection after the other."""
        while not self.over:
            try:
                connection, _ = self.listener.accept()
            except OSError:
                return
            self.connections += 1
            self.open.add(connection)
            with contextlib.suppress(OSError), connection:
                self.serve(connection)
            self.open.discard(connection)
            self.closed.append(time.monotonic())

    def serve(self, connection):
        """Answers the requests of one connection, until the other side closes it."""
        stream = connection.makefile("rb")
        while head := read_head(stream):
            size = int((re.search(r"(?im)^content-length: *(\d+)", head) or ["", 0])[1])
            body = stream.read(size)
            if len(body) < size:
                return
            self.requests.append((head, body))
            if self.drops(head):
                return
            if not self.silent:
                connection.sendall(self.reply_to(head, body))

    def reply_to(self, head, _):
        """The bytes of the answer to a request, whose head and body these are."""
        return self.answers.get(head.split(" ", 2)[1]) or client.reply(200, self.body, client.TEXT)

    def end(self):
        self.over = True
        with contextlib.suppress(OSError):
            self.listener.shutdown(socket.SHUT_RDWR)
        self.listener.close()
        for connection in list(self.open):
            with contextlib.suppress(OSError):
                connection.shutdown(socket.SHUT_RDWR)
        for thread in self.threads:
            thread.join(20)

    def __enter__(self):
        return self

    def __exit__(self, *_):
        self.end()


def read_head(stream):
    """The head of the next request; nothing once the other side has closed the connection."""
    lines = []
    while (line := stream.readline()) not in (b"", b"\r\n"):
        lines.append(line)
    return b"".join(lines).decode("latin-1").removesuffix("\r\n") if line else ""


def in_place_of_service(office, **values):
    """A stand-in at all sockets of the readers' service."""
    first, *others = (office.folder / f"{kind}.sock" for kind in KINDS)
    for other in others:
        other.unlink(missing_ok=True)
        other.symlink_to(first)
    return StandIn(first, **values)


@contextlib.contextmanager
def in_place_of_program(office, **values):
    """A context in which a stand-in has the program's port."""
    with office.without_program(), StandIn(office.ports["8090"], **values) as program:
        yield program
