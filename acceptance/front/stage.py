"""The readers' service in this process, before an office of the reference model and with a clock that stands still: whatever
it answers, and asks its office, is the same each time."""

import contextlib
import difflib
import io
import json
import re
import threading
from urllib.parse import urlencode

import aids
import answers
import asking
import index
import jinja2
import layouts
import offers
import orders
import pages
import service
import turns
from rounds import Round

from acceptance import client, reference_model
from acceptance.front.outline import lines_of

FOREVER = 10**6  # a round with this sweep looks at all pages
ADDRESS = "192.0.2.7"
# What nearly all answers say, and is told by nothing.
USUAL = {("Content-Type", "text/html; charset=utf-8"), ("Content-Language", "en"), ("Vary", "Accept-Language, Cookie")}


class Clock:
    """Stands in for the module `time`: it moves only when something is asked of the office, or rests, or, with a tick, when
    somebody looks at it."""

    def __init__(self):
        self.now, self.step, self.tick, self.rested = 1000.0, 0.0, 0.0, []

    def monotonic(self):
        self.now += self.tick
        return self.now

    def sleep(self, seconds):
        self.now += seconds
        if seconds:
            self.rested.append(round(seconds, 3))


class Played:
    """Stands in for the module `socket`: answers over each connection at once, as the model does. answers: others for
    some paths: bytes, or None to close the connection; asked: what came, in order."""

    AF_UNIX = "in the file system"

    def __init__(self, office, clock):
        self.office, self.clock, self.answers, self.asked, self.connections = office, clock, {}, [], 0

    def socket(self, family):
        self.connections += 1
        return Connection(self, family)

    def answer(self, head, body, patience):
        """The bytes of an answer; nothing if the connection is closed. Raises TimeoutError."""
        method, path, _ = head.split(" ", 2)
        kind = re.search("Record-Office-For: (.*)", head)
        who, limit = kind[1].strip() if kind else "", f"for {patience:.1f} s" if patience != asking.SOON else ""
        self.asked.append(" ".join(filter(None, [who, "" if method == "GET" else method, path, body.decode(), limit])))
        self.clock.now += self.clock.step
        if self.clock.step > patience:
            raise TimeoutError
        if path in self.answers:
            return self.answers[path] or b""
        status, told = self.office.get(path) if method == "GET" else self.office.post(path, body)
        text = isinstance(told, str)
        return client.reply(status, told.encode() if text else reference_model.as_json(told).encode(),
                            client.TEXT if text else client.JSON)


class Connection:
    """A connection of its own to an office."""

    def __init__(self, played, family):
        self.played, self.family, self.patience, self.path, self.data = played, family, None, None, b""

    def settimeout(self, seconds):
        self.patience = seconds

    def connect(self, path):
        self.path = path
        if not path.endswith("office.sock") or self.family != Played.AF_UNIX:
            raise ConnectionRefusedError(path)

    def sendall(self, data):
        self.data += data

    def makefile(self, _):
        """The answer to what was sent."""
        head, _, body = self.data.partition(b"\r\n\r\n")
        self.data = b""
        return io.BytesIO(self.played.answer(head.decode(), body, self.patience))

    def close(self):
        self.data = b""


class Stage:
    """A service with an index in a folder. told: what the rounds were told; patch: pytest's MonkeyPatch, which takes the
    stand-ins out of the modules again."""

    def __init__(self, folder, office, patch):
        self.folder, self.path, self.clock, self.told = folder, folder / "index.db", Clock(), []
        for module in (aids, answers, asking, offers, orders, pages, service, turns):
            patch.setattr(module, "time", self.clock)
        self.played = Played(office, self.clock)
        patch.setattr(asking, "socket", self.played)
        patch.setattr(layouts, "today", lambda: "2024-03-02")
        self.service = service.Service(folder / "office.sock", self.path, self.told.append)
        self.turn, self.service.turns.turn = self.service.turns.turn, self.note_turn
        self.words = folder / "office.json"
        self.service.pages = pages.Pages(folder / "office.sock", self.path, self.words, self.service.find, self.service.turn,
                                         4, 6)
        for env in self.service.pages.layouts.env.values():  # which are compiled once
            env.bytecode_cache = jinja2.FileSystemBytecodeCache()

    def note_turn(self, address, room=False, costly=False):
        """Lets somebody search in turn; notes what is unusual."""
        self.told += [f"turn of {address}, room {room}, costly {costly}"] * (room or costly)
        return self.turn(address, room, costly)

    def begin_anew(self):
        """Sets the clock to its beginning; no address has given an order yet."""
        self.clock.now, self.clock.step, self.played.connections = 1000.0, 0.0, 0
        self.service.mine = threading.local()
        self.service.idle, self.service.pages.idle = (asking.Idle(self.folder / "office.sock", 12) for _ in range(2))
        self.service.pages.row = orders.Row(6)

    def ask_plainly(self, path):
        """A question without a service."""
        status, told = self.played.office.get(path)
        return told if status == 200 else None

    def round(self, **values):
        with contextlib.closing(index.open_or_make(str(self.path), False)) as db:
            Round(db, self.ask_plainly, **{"sweep": FOREVER, **values}).run()

    def sql(self, *statements):
        with contextlib.closing(index.open_index(str(self.path))) as db:
            for statement in statements:
                db.execute(statement)

    def command(self, name, /, **members):
        """A command of the desk. Raises AssertionError if it is not done."""
        status, told = self.played.office.post(f"/desk/{name}", json.dumps(members).encode())
        assert status == 200, (name, members, told)
        return told

    @staticmethod
    def environ(target, method="GET", body=b"", **headers):
        """A request as WSGI has it."""
        path, _, query = target.partition("?")
        given = {"REQUEST_METHOD": method, "PATH_INFO": path, "QUERY_STRING": query, "REMOTE_ADDR": ADDRESS,
                 "HTTP_HOST": "archive.example.org", "HTTP_RECORD_OFFICE_SITE": "https://archive.example.org",
                 "wsgi.url_scheme": "https", "wsgi.input": io.BytesIO(body),
                 "CONTENT_LENGTH": str(len(body)), **{f"HTTP_{name.upper()}": value for name, value in headers.items()}}
        return {name: value for name, value in given.items() if value is not None}

    def text(self, target):
        """The body of the answer to a question."""
        return b"".join(self.service.app(self.environ(target), lambda *_: None)).decode()

    def ask(self, target, form=None, method=None, whole=False, **headers):
        """The lines of an answer: what was asked for, what is unusual in its head, what the office was asked, and the outline
        of its body. A form is sent."""
        body = form if isinstance(form, bytes) else urlencode(form or ()).encode()
        method = method or ("GET" if form is None else "POST")
        environ = self.environ(target, method, body, **headers)
        asked, told, rested, given = len(self.played.asked), len(self.told), len(self.clock.rested), []
        answer = b"".join(self.service.app(environ, lambda *head: given.extend(head)))
        status, fields = given
        assert dict(fields).get("Content-Length", str(len(answer))) in (str(len(answer)), "0"), fields
        lines = [f"{method} {target}{''.join(f', {name}: {value}' for name, value in headers.items())}"]
        lines += [f"sent: {body.decode('latin-1')[:150]}"] if form is not None else []
        lines += [status] if status != "200 OK" else []
        lines += [f"{name}: {value}" for name, value in fields if (name, value) not in USUAL and name != "Content-Length"]
        if now := self.played.asked[asked:]:
            lines.append(f"the office is asked: {', '.join(now)}")
        lines += [f"told: {what}" for what in self.told[told:]] + [f"rested {what} s" for what in self.clock.rested[rested:]]
        text = answer.decode("utf-8", "replace").replace("https://archive.example.org", "SITE")
        return lines + lines_of(text, whole)


class Pages:
    """The answers of one file, with numbers. One that is much like an earlier answer to the same path is told by what
    differs; and so is one that is much like the answer to one of `plain`, which another file has."""

    def __init__(self, stage, *plain):
        self.stage, self.lines, self.number = stage, [], 0
        self.known = {target.split("?")[0]: [("it is in another file", stage.ask(target)[1:])] for target in plain}

    def ask(self, target, *form, **headers):
        self.add(self.stage.ask(target, *form, **headers))

    def add(self, lines):
        (head, *lines), path = lines, re.sub("/order$", "", lines[0].split(" ")[1].split("?")[0])
        self.number += 1
        self.lines.append(f"=== {self.number}. {head}")
        earlier = self.known.setdefault(path, [])
        differs, other = min(((differences(one, lines), name) for name, one in earlier), key=lambda one: len(one[0]),
                             default=(lines, ""))
        is_like = len(differs) < .8 * len(lines)
        self.lines += [f"as {other}{', but:' * bool(differs)}", *differs] if is_like else lines
        earlier.append((str(self.number), lines))


def differences(before, now):
    """The lines that went, after a -, and those that came, after a +."""
    told = list(difflib.unified_diff(before, now, lineterm="", n=0))[2:]
    return [f"{line[0]} {line[1:]}" for line in told if not line.startswith("@@ ")]
