"""The built program as the tests and bench use it: requests and replies, an office in a file, options.

    with client.temporary(given.room) as room:
        office = client.Office.create(given.program, room / "office.db")
        ended = office.talk(client.get("/public/fonds"), client.post("/desk/run"))
        [fonds, run] = client.replies(ended.output)
"""

import argparse
import contextlib
import io
import itertools
import json
import os
import re
import socket
import subprocess
import tempfile
from collections.abc import Iterable, Iterator, Mapping
from pathlib import Path
from typing import IO, Any, NamedTuple, Self

from acceptance.reference_model.limits import HIGHEST

TOP = Path(__file__).resolve().parents[1]
RUN = TOP / "run"  # starts a module
BUILT = TOP / "crates" / "record_office" / "out" / "record_office"
MEMORY = Path("/dev/shm")
SETTINGS = {"country": "GB", "repo": "0999", "seats": "2", "daily": "3", "hands": "1", "run": "2", "day": "2024-03-01"}
LARGE = SETTINGS | {name: str(most) for name, most in HIGHEST.items()}
HOST = "127.0.0.1"
PATIENCE = 60
# ports that the system does not give to those who connect
PORTS = itertools.count(20_000 + os.getpid() % 10_000)

Body = bytes | str | dict[str, Any]  # JSON, if it is a dict
Fields = Mapping[str, str] | Iterable[tuple[str, str]]
Settings = Mapping[str, object]

# ---- requests and replies

TEXT, JSON = "text/plain; charset=utf-8", "application/json"
PHRASES = {200: "OK", 400: "Bad Request", 404: "Not Found", 405: "Method Not Allowed", 409: "Conflict", 411: "Length Required",
           413: "Content Too Large", 501: "Not Implemented", 502: "Bad Gateway", 503: "Service Unavailable"}


def request(method: str, path: str, body: Body | None = None, host: str = "x", fields: Fields = ()) -> bytes:
    """The bytes of a request. Its body is bytes, a text, or members that are sent as JSON; without one it has no
    length. `fields` are names with values."""
    if isinstance(body, dict):
        body = json.dumps(body)
    if isinstance(body, str):
        body = body.encode()
    lines = [f"{method} {path} HTTP/1.1", f"Host: {host}", *(f"{name}: {value}" for name, value in dict(fields).items())]
    if body is not None:
        lines.append(f"Content-Length: {len(body)}")
    return "".join(f"{line}\r\n" for line in [*lines, ""]).encode() + (body or b"")


def get(path: str) -> bytes:
    return request("GET", path)


def post(path: str, body: Body = b"") -> bytes:
    """A command. Its body is that of `request`."""
    return request("POST", path, body)


def path_of(word: str) -> str:
    """The path of a command; readers give their orders themselves."""
    return "/public/orders" if word == "orders" else f"/desk/{word}"


def reply(status: int, body: bytes, kind: str = JSON, *fields: str) -> bytes:
    """The bytes of a reply, with these fields after its length."""
    lines = [f"HTTP/1.1 {status} {PHRASES[status]}", f"Content-Type: {kind}", f"Content-Length: {len(body)}", *fields]
    return "".join(f"{line}\r\n" for line in [*lines, ""]).encode() + body


BUSY = reply(503, b'{"error":"busy"}', JSON, "Connection: close")


class Reply(NamedTuple):
    """A reply that was read: the number of its status, its first line, its body."""

    status: int
    line: bytes
    body: bytes

    def json(self) -> Any:
        return json.loads(self.body)


def read_reply(stream: IO[bytes]) -> Reply:
    """The next reply of a binary stream, as far as it is there; the status is 0 if its first line is no such line."""
    line, length = stream.readline(), 0
    status = re.fullmatch(rb"HTTP/1\.1 (\d{3}) .+\r\n", line)
    for field in iter(stream.readline, b"\r\n"):
        if not field:
            break
        said = re.fullmatch(rb"Content-Length: (\d+)\r\n", field)
        length = int(said[1]) if said else length
    return Reply(int(status[1]) if status else 0, line.rstrip(b"\r\n"), stream.read(length))


def replies(output: bytes) -> list[Reply]:
    stream, found = io.BytesIO(output), []
    while stream.tell() < len(output):
        found.append(read_reply(stream))
    return found


def ask(port: int, sent: bytes, patience: float = PATIENCE) -> Reply:
    """Sends a request to a port of this machine, over a connection of its own; returns its reply."""
    with socket.create_connection((HOST, port), patience) as connection, connection.makefile("rb") as answers:
        connection.sendall(sent)
        return read_reply(answers)


# ---- the program and its offices


class Ended(NamedTuple):
    """How a command ended: its exit status, its output, and its message on standard error."""

    status: int
    output: bytes
    message: bytes

    def expect_success(self) -> bytes:
        """Returns the output. Raises RuntimeError if the exit status is not 0."""
        if self.status:
            raise RuntimeError(f"exit status {self.status}: {self.message!r}")
        return self.output


SOUND = Ended(0, b"sound\n", b"")
NO_MEMORY = Ended(3, b"", b"no memory\n")


class Program:
    """The built program; each call runs one of its commands to the end."""

    def __init__(self, path: str | Path) -> None:
        self.path = Path(path).resolve()

    def run(
            self, *words: str | Path, said: bytes | int = b"", timeout: float = PATIENCE, room: Path | None = None,
            **environment: str,
    ) -> Ended:
        """Runs a command that reads `said`, in the directory `room`, with these variables in its environment. If `said`
        is a descriptor, that is its standard input."""
        given: dict[str, Any] = {"stdin": said} if isinstance(said, int) else {"input": said}
        how: dict[str, Any] = {"capture_output": True, "timeout": timeout, "cwd": room, "env": os.environ | environment}
        done = subprocess.run([self.path, *words], **given, **how)
        return Ended(done.returncode, done.stdout, done.stderr)

    def trial(self, said: bytes | int, settings: Settings | None = None, timeout: float = PATIENCE) -> Ended:
        """A session with a new office that is kept nowhere."""
        return self.run("trial", *option_words(settings or SETTINGS), said=said, timeout=timeout)


def option_words(settings: Settings) -> list[str]:
    """The words of the command line for these settings."""
    return [word for name, value in settings.items() for word in (f"--{name}", str(value))]


class Office:
    """An office that the program keeps in a file."""

    def __init__(self, program: Program, store: str | Path) -> None:
        self.program, self.store = program, Path(store)

    @classmethod
    def create(cls, program: Program, store: str | Path, settings: Settings | None = None, **how: Any) -> Self:
        """A new office, which must not fail."""
        office = cls(program, store)
        ended = office.init(settings, **how)
        if ended != Ended(0, b"", b""):
            raise RuntimeError(f"init of {store}: {ended}")
        return office

    def perform(self, command: str, *words: str | Path, **how: Any) -> Ended:
        """Runs a command on the file to its end."""
        return self.program.run(command, "--store", str(self.store), *words, **how)

    def init(self, settings: Settings | None = None, **how: Any) -> Ended:
        """Makes the office, with the usual settings if none are given."""
        return self.perform("init", *option_words(settings or SETTINGS), **how)

    def check(self, **how: Any) -> Ended:
        """Asks whether the file holds a sound office."""
        return self.perform("check", **how)

    def import_file(self, source: str, file: str | Path, **how: Any) -> Ended:
        return self.perform("import", "--source", source, str(file), **how)

    def talk(self, *requests: bytes, **how: Any) -> Ended:
        """A session of these requests, one right after the other."""
        return self.perform("talk", said=b"".join(requests), **how)

    def session(self) -> "Session":
        return Session(self)

    def serve(self, connections: int, port: int | None = None, **environment: str) -> "Server":
        """A running server for so many connections."""
        return Server(self, connections, port or next(PORTS), environment)


class Running:
    """A command of the program while it runs. It is killed at the end of `with`, if it has not ended."""

    def __init__(self, office: Office, *words: str, environment: Mapping[str, str] | None = None, **streams: Any) -> None:
        command = [str(office.program.path), words[0], "--store", str(office.store), *words[1:]]
        self.process: subprocess.Popen[bytes] = subprocess.Popen(command, env=os.environ | (environment or {}), **streams)

    def __enter__(self) -> Self:
        return self

    def __exit__(self, *_: object) -> None:
        self.stop()

    def stop(self) -> None:
        """Kills the program, as `kill -9` does."""
        self.process.kill()
        self.process.communicate()


class Session(Running):
    """A running session: each request is sent when the one before is answered."""

    def __init__(self, office: Office) -> None:
        super().__init__(office, "talk", stdin=subprocess.PIPE, stdout=subprocess.PIPE)

    def ask(self, request: bytes) -> Reply:
        """Sends a request; returns its reply."""
        assert self.process.stdin and self.process.stdout
        self.process.stdin.write(request)
        self.process.stdin.flush()
        return read_reply(self.process.stdout)


class Server(Running):
    """A running server. `said` is its first line, which tells that it listens, or nothing."""

    def __init__(self, office: Office, connections: int, port: int, environment: Mapping[str, str]) -> None:
        words = ["serve", "--port", str(port), "--connections", str(connections)]
        streams = {"stdin": subprocess.DEVNULL, "stdout": subprocess.PIPE, "stderr": subprocess.PIPE}
        # without a buffer, so that `wait_for_end` finds all that comes after the first line
        super().__init__(office, *words, environment=environment, bufsize=0, **streams)
        assert self.process.stdout
        self.port, self.said = port, self.process.stdout.readline()

    def connect(self, patience: float = PATIENCE) -> socket.socket:
        return socket.create_connection((HOST, self.port), patience)

    def wait_for_end(self, timeout: float = PATIENCE) -> Ended:
        """Waits until the server ends by itself. Its output is what it wrote after its first line."""
        output, message = self.process.communicate(timeout=timeout)
        return Ended(self.process.returncode, output, message)


# ---- checks


def table(path: Path) -> list[list[str]]:
    """The rows of a table in a text file: the cells stand between bars; a line that ends with a backslash goes on in the next
    one, and one that begins with # is a comment."""
    lines = path.read_text("utf-8").replace("\\\n", "").splitlines()
    return [[cell.strip() for cell in line.split(" | ")] for line in lines if line and not line.startswith("#")]


def first_difference(found: Ended, wanted: Ended) -> str:
    """Two ends of a command from some bytes before the first difference of their outputs."""
    pairs = enumerate(zip(found.output, wanted.output))
    place = next((n for n, (a, b) in pairs if a != b), min(len(found.output), len(wanted.output)))
    near = slice(max(0, place - 200), place + 200)
    shown = [f"{it.status}, {it.output[near]!r}, {it.message!r}" for it in (found, wanted)]
    return ", wanted ".join(shown)


def expect_end(found: Ended, wanted: Ended, what: object) -> None:
    """Raises AssertionError with the bytes around the first difference, if a command did not end as it should."""
    if found != wanted:
        raise AssertionError(f"{what}: {first_difference(found, wanted)}")


def expect_answers(ended: Ended, pairs: Iterable[tuple[bytes, bytes]], what: object) -> None:
    """Raises AssertionError with the first request of a session that was not answered as it should be, if there is one, or
    if the session did not end well after the last. `pairs`: requests with their answers."""
    place = 0
    for request, wanted in pairs:
        found = ended.output[place:place + max(400, len(wanted))]
        if not found.startswith(wanted):
            asked = f"{request[:300]!r} was answered {found[:400]!r}, wanted {wanted[:400]!r}"
            raise AssertionError(f"{what}: {asked}; it ended with {ended.status}, {ended.message!r}")
        place += len(wanted)
    expect_end(ended._replace(output=ended.output[place:]), Ended(0, b"", b""), f"{what}, after its last answer")


# ---- options and rooms


def program_options(text: str | None) -> argparse.ArgumentParser:
    """The option of every script, which names the program; `text` is what the script says about itself."""
    words = argparse.ArgumentParser(description=text, formatter_class=argparse.RawDescriptionHelpFormatter)
    words.add_argument("--program", type=Program, default=str(BUILT), help="the built program; else that of `rt ci`")
    return words


def usual_room(in_memory: bool = True) -> Path:
    """Where stores are made: in memory, where no sync waits for a disk, or where temporary files are."""
    return MEMORY if in_memory and os.access(MEMORY, os.W_OK) else Path(tempfile.gettempdir())


def options(text: str | None, in_memory: bool = True) -> argparse.ArgumentParser:
    """The same for a script that makes stores."""
    words, room = program_options(text), usual_room(in_memory)
    told = f"where stores are made; else {room}"
    words.add_argument("--room", type=Path, default=room, metavar="DIRECTORY", help=told)
    return words


@contextlib.contextmanager
def temporary(room: Path) -> Iterator[Path]:
    """A new directory in a room; it is removed afterwards."""
    with tempfile.TemporaryDirectory(dir=room) as directory:
        yield Path(directory)
