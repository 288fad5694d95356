"""Who sends requests one after the other over a connection that it keeps; and what a port has not read yet."""

import http.client
import json
import pathlib
import threading

from acceptance.front.office import SIGNED_IN
from acceptance.front.waits import until

TOO_MANY = 429
UNANSWERED = (502, b'{"error":"not answered"}')


class Sender(threading.Thread):
    """A client that sends requests one after the other, over a connection that it keeps. `got`: status and body of each
    answer; or in place of the status what went wrong."""

    def __init__(self, port, requests):
        super().__init__(daemon=True)
        self.port, self.requests, self.got = port, requests, []

    def run(self):
        connection = http.client.HTTPConnection("127.0.0.1", self.port, timeout=90)
        for method, path, body, headers in self.requests:
            try:
                self.got.append(self.answer(connection, method, path, body, headers))
            except (OSError, http.client.HTTPException) as lost:
                self.got.append((type(lost).__name__, b""))
                connection.close()

    @staticmethod
    def answer(connection, method, path, body, headers):
        """Returns the answer. If the front says that this address asks too often, it asks again."""

        def put():
            connection.request(method, path, body, headers)
            answer = connection.getresponse()
            got = answer.status, answer.read()
            return got if got[0] != TOO_MANY else None
        return until(put, f"{path} is let through")


def registration(office, name, port="8081"):
    """A client that registers a reader of this name."""
    body = json.dumps({"name": name, "until": "2030-01-01"})
    return Sender(office.ports[port], [("POST", "/desk/register", body, SIGNED_IN)])


def count_unread(port):
    """How many bytes have come to the connections of this port of 127.0.0.1 that nobody has read yet."""
    end, found = f":{port:04X}", 0
    for line in pathlib.Path("/proc/net/tcp").read_text().splitlines()[1:]:
        _, local, _, state, queues, *_ = line.split()
        if local.endswith(end) and state == "01":
            found += int(queues.split(":")[1], 16)
    return found
