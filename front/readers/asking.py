"""Asks the office through the queue's socket, which puts pages before searches, these before crawlers and finding aids,
and rounds last."""

import collections
import http.client
import json
import shutil
import socket
import tempfile
import time

TOOK = "Record-Office-Took"  # the milliseconds that the office took to begin its answer; the gate tells them
SOON = 3.5  # seconds after which a reader is told that the office does not answer, and has read it within five
BUSY = b'{"error":"busy"}'  # the program's own 503, as of an answer that needs too much memory; the queue has another


class Unreached(Exception):
    """The office did not answer this question."""


class Busy(Unreached):
    """The program was asked and could not answer this question. It may answer others."""


class Slow(Unreached):
    """The time for this answer is over."""


class Connection(http.client.HTTPConnection):
    """HTTP over a socket in the file system."""

    def __init__(self, path, timeout=None):
        super().__init__("office")
        self.path, self.timeout = str(path), timeout

    def connect(self):
        """Connects to the socket."""
        self.sock = socket.socket(socket.AF_UNIX)
        self.sock.settimeout(self.timeout)
        self.sock.connect(self.path)

    def wait_for(self, seconds):
        """From now on nothing is waited for longer."""
        self.timeout = seconds
        if self.sock:
            self.sock.settimeout(seconds)

    def ask(self, path, kind):
        """Puts a question. kind: whom or what it is for."""
        self.clock = Clock()
        self.request("GET", path, headers={"Record-Office-For": kind})

    def take(self):
        """Status and body of the answer, and the office's seconds."""
        answer = self.getresponse()
        self.clock.note_head(answer)
        return answer.status, answer.read(), self.clock.took()


class Idle:
    """Connections that are kept, which the threads of a process may share: the queue lets so many in."""

    def __init__(self, path, most=1):
        self.path, self.most, self.kept = str(path), most, collections.deque()

    def take(self):
        """A connection, which may have been closed meanwhile."""
        try:
            return self.kept.pop()
        except IndexError:
            return Connection(self.path)

    def give(self, connection):
        """Keeps a connection whose answer has come whole."""
        if len(self.kept) < self.most:
            self.kept.append(connection)
        else:
            connection.close()


class Clock:
    """How long the office took for an answer, without the time for which the question waited."""

    def __init__(self):
        self.began = self.come = time.monotonic()
        self.told = None

    def note_head(self, answer):
        """The head of the answer has come."""
        self.come, self.told = time.monotonic(), answer.getheader(TOOK)

    def took(self):
        """Seconds, once the answer has come whole."""
        waited = self.come - self.began
        first = min(int(self.told) / 1000, waited) if (self.told or "").isdecimal() else waited
        return first + time.monotonic() - self.come


class Asking:
    """Called with a path: the text, or None if it is not shown. kind: what it is for, such as `page`; else a search or a
    round. `asked` and `busy` count questions and the office's seconds.

    For a reader, `until` is when the time is over. Without it this is a round, which rests `rest` times as long as the
    office took for each of its questions, so that the office is busy with rounds for one part in `rest + 1` of the time
    at most."""

    PATIENCE = 130  # seconds that a round waits for an answer: longer than the queue does

    def __init__(self, path, rest=0, kind=None, idle=None):
        self.idle, self.rest, self.until, self.asked, self.busy = idle or Idle(path), rest, None, 0, 0.0
        self.path, self.kind, self.known = str(path), kind, {}

    def __call__(self, path):
        try:
            status, body, took = self.known.pop(path, None) or self._take(path, self._put(path))
        except (OSError, http.client.HTTPException) as lost:
            raise (Slow if isinstance(lost, TimeoutError) and self.until else Unreached)(path) from lost
        self.asked, self.busy = self.asked + 1, self.busy + took
        if self.rest:
            time.sleep(took * self.rest)
        if status == 503 and body == BUSY:
            raise Busy(path)
        if status not in (200, 404):
            raise Unreached(f"{path}: {status}")
        return body.decode("utf-8", "replace") if status == 200 else None

    def ahead(self, paths):
        """Puts some questions at once, so that no finding aid comes between them; the calls that follow take the
        answers. The queue answers them in this order."""
        put = {}
        try:
            for path in paths:
                put[path] = self._put(path)
            while put:
                path = next(iter(put))
                self.known[path] = self._take(path, put.pop(path))
        except (OSError, http.client.HTTPException) as lost:
            raise Unreached(paths) from lost
        finally:
            for connection in put.values():
                connection.close()

    def _put(self, path, connection=None):
        """Puts a question; its connection. One that was kept may have been closed meanwhile. Raises Slow if the time is
        over."""
        left = self.PATIENCE if self.until is None else self.until - time.monotonic()
        if left <= 0:
            raise Slow(path)
        connection = connection or self.idle.take()
        was_kept = connection.sock is not None
        try:
            connection.wait_for(left)
            connection.ask(path, self.kind or ("search" if self.until else "round"))
        except OSError as lost:
            connection.close()
            if was_kept and isinstance(lost, ConnectionError):
                return self._put(path, connection)
            raise
        return connection

    def _take(self, path, connection):
        """The answer to a question that was put; if its connection was closed meanwhile, to the same put once more."""
        try:
            return self._read(connection)
        except (ConnectionError, http.client.BadStatusLine):
            return self._read(self._put(path, connection))

    def _read(self, connection):
        """Status and body of an answer, and the office's seconds."""
        try:
            connection.wait_for(max(self.until - time.monotonic(), .001) if self.until else self.PATIENCE)
            answer = connection.take()
        except BaseException:
            connection.close()
            raise
        self.idle.give(connection)
        return answer


def spool(path, question, folder, soon, patience):
    """A finding aid in a file without a name, or None, and the office's seconds. The office has done its part when this
    returns, however slowly the reader takes the rest, and nobody holds the aid in memory. soon: seconds until the answer
    begins at the latest."""
    connection = Connection(path, soon)
    try:
        connection.ask(question, "aid")
        answer = connection.getresponse()
        connection.wait_for(patience)
        connection.clock.note_head(answer)
        if answer.status == 404:
            return None, connection.clock.took()
        if answer.status != 200:
            raise Unreached(f"{question}: {answer.status}")
        file = tempfile.TemporaryFile(dir=folder)
        shutil.copyfileobj(answer, file, 1 << 18)
    except (OSError, http.client.HTTPException) as lost:
        raise Unreached(question) from lost
    finally:
        connection.close()
    file.seek(0)
    return file, connection.clock.took()


def give_order(path, ticket, container, patience):
    """Gives an order, as `command` gives any."""
    return command(path, "/public/orders", {"ticket": ticket, "container": container}, patience)


def command(path, route, members, patience):
    """Gives a command, once: the status and the members of the answer. Status 0: nobody knows whether it was done."""
    connection = Connection(path, patience)  # a kept one may have been closed, and a command is not sent twice
    try:
        connection.request("POST", route, json.dumps(members))
        answer = connection.getresponse()
        body = json.loads(answer.read() or b"{}")
        return (answer.status, body) if answer.status != 503 or body.get("error") == "not reached" else (0, {})
    except (OSError, ValueError, http.client.HTTPException):
        return 0, {}
    finally:
        connection.close()
