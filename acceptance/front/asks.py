"""Asks both sites of an office as a program would, by the requests of acceptance/client.py; or by bytes over sockets."""

import contextlib
import http.client
import itertools
import json
import re
import select
import socket
import time
from typing import Any

from acceptance import client
from acceptance.front.office import SIGNED_IN, Office

PATIENCE = 250  # seconds


class Asks:
    """Asks the front of an office: at the desk's site, with its password, where `desk` is true. Each request has a
    connection of its own."""

    def __init__(self, office: Office) -> None:
        self.office = office

    def send(
            self, method: str, path: str, body: client.Body | None = None, desk: bool = False, fields: client.Fields = (),
    ) -> tuple[int, str]:
        """Sends a request with these fields; returns the status and the text of its answer. Raises ConnectionError if
        there is none."""
        connection = http.client.HTTPConnection(client.HOST, self.office.ports["8081" if desk else "8080"], timeout=PATIENCE)
        data = json.dumps(body) if isinstance(body, dict) else body
        with contextlib.closing(connection):
            connection.request(method, path, data.encode() if isinstance(data, str) else data,
                               {**(SIGNED_IN if desk else {}), **dict(fields), "Connection": "close"})
            answer = connection.getresponse()
            return answer.status, answer.read().decode()

    def question(self, path: str, desk: bool = False) -> tuple[int, str]:
        """The status and the text of the answer to a question."""
        return self.send("GET", path, None, desk)

    def text(self, path: str, desk: bool = False) -> str:
        """The text of an answer. Raises AssertionError if its status is not 200."""
        status, body = self.question(path, desk)
        if status != 200:
            raise AssertionError(f"{path}: {status} {body}")
        return body

    def read(self, path: str) -> Any:
        """What the desk's site tells as JSON. Raises AssertionError if the status is not 200."""
        return json.loads(self.text(path, True))

    def try_command(self, path: str, members: client.Body, desk: bool = True) -> tuple[int, str]:
        """Sends a command with these members; returns the status and the text of its answer."""
        return self.send("POST", path, members, desk)

    def command(self, path: str, **members: Any) -> Any:
        """Sends a command of the desk; returns the members of its reply. Raises AssertionError if it is not done."""
        status, body = self.try_command(path, members)
        if status != 200:
            raise AssertionError(f"{path} {members}: {status} {body}")
        return json.loads(body)

    def import_text(self, source: str, text: str | bytes) -> None:
        """Imports a file of this source at the desk's site. Raises AssertionError if it is refused."""
        status, body = self.send("POST", f"/desk/import/{source}", text, True)
        if status != 200:
            raise AssertionError(f"import of {source}: {status} {body}")

    def next_ticket(self) -> int:
        """The number of the ticket that the next reader gets."""
        return self.next_number("/desk/readers")

    def next_number(self, path: str) -> int:
        """The first number below this path of the desk of which nothing is known."""
        return next(number for number in itertools.count(1) if self.question(f"{path}/{number}", True)[0] == 404)


# By bytes

def exchange(port: int, sent: bytes, source: str = client.HOST, host: str = client.HOST) -> bytes:
    """Sends bytes over a connection of its own; returns all that comes until the other side closes it."""
    with socket.create_connection((host, port), PATIENCE, (source, 0)) as it:
        it.sendall(sent)
        return b"".join(iter(lambda: it.recv(65536), b""))


def ask_once(port: int, method: str, path: str, body: client.Body | None = None, host: str = "x",
             fields: client.Fields = (), source: str = client.HOST) -> bytes:
    """Sends a request after which the connection is to be closed; returns the bytes of its answer."""
    return exchange(port, client.request(method, path, body, host, {**dict(fields), "Connection": "close"}), source)


def send_at_once(port: int, sent: bytes, many: int) -> list[tuple[int, float]]:
    """The status of each of so many requests that are sent at the same time, and after how many seconds its answer came."""
    connections = [socket.create_connection((client.HOST, port), PATIENCE) for _ in range(many)]
    found, began = [], time.monotonic()
    for connection in connections:
        connection.sendall(sent)
    while connections:
        for connection in select.select(connections, [], [], PATIENCE)[0]:
            found.append((status(connection.recv(65536)), time.monotonic() - began))
            connections.remove(connection)
            connection.close()
    return found


def status(answer: bytes) -> int:
    """The status of an answer's bytes, or 0 if they are none."""
    return int(answer.split(b" ", 2)[1]) if answer.startswith(b"HTTP/") else 0


def statuses(answers: bytes) -> list[int]:
    """The statuses of several answers, one behind the other."""
    return [int(one) for one in re.findall(rb"HTTP/1.1 (\d{3}) ", answers)]


def body_of(answer: bytes) -> bytes:
    return answer.split(b"\r\n\r\n", 1)[1]


def fields_of(answer: bytes) -> dict[str, list[str]]:
    """The fields of an answer's head, by their names in small letters: a list of values each."""
    found: dict[str, list[str]] = {}
    for line in answer.split(b"\r\n\r\n", 1)[0].decode("latin-1").split("\r\n")[1:]:
        name, value = line.split(": ", 1)
        found.setdefault(name.lower(), []).append(value)
    return found


POLICY = {
    "content-security-policy":
        "default-src 'none'; script-src 'self'; style-src 'self'; img-src 'self'; connect-src 'self'; form-action FORMS; "
        "base-uri 'none'; frame-ancestors 'none'; require-trusted-types-for 'script'",
    "x-content-type-options": "nosniff", "referrer-policy": "same-origin", "cross-origin-opener-policy": "same-origin",
    "cross-origin-resource-policy": "same-origin", "server": "nginx",
    "permissions-policy": "camera=(), microphone=(), geolocation=(), payment=(), usb=()",
}


def assert_policy(what: str, answer: bytes, kind: str, kept: str | None, forms: str) -> None:
    """An answer has each part of the policy once, and no more; its kind; how long it is kept (None: it does not say); and
    where its forms may be sent."""
    has = fields_of(answer)
    wanted = {"content-type": kind, "cache-control": kept,
              **{name: value.replace("FORMS", forms) for name, value in POLICY.items()}}
    differs = {name: (has.get(name), "wanted", value) for name, value in wanted.items()
               if has.get(name) != ([value] if value else None)}
    assert not differs, f"what a browser is told of {what}: {differs}"
