"""Scenarios of an office: what is asked, and what the rules answer.

Each file scenarios/*.scenario is a text with these lines, and test_scenarios.py plays it:

    # what it is about
    with NAME VALUE ..  settings other than country GB, repo 0999, seats 2, daily 3, hands 1, run 2, day 2024-03-01
    POST PATH BODY      a request; @FILE in place of BODY is a file in the same directory, @chain_N one of N units, each
                        below the one before; without either, the body is the text that follows
    GET PATH
    200 JSON            its answer; without JSON, the text that follows. After the status `close` or `allow=METHOD` says
                        that the head has the field Connection: close or Allow: METHOD
    refused NUMBER NAME VALUE ..  the answer to a command that is refused: 409, and the refusal with these members
    | TEXT              a line of a text
    kept QUERY          a query that SQLite answers on the store at the end; the answer is the text that follows, a line
                        for each row, with | between its cells
    > TEXT, < TEXT      a line that is sent or answered, ended by CR LF; after >$ and <$ by LF, after >^ by CR, after >|
                        and <| by nothing; after >% each %HH is a byte, and nothing is added
    ends STATUS TEXT    the exit status, if it is not 0, and the line on standard error
"""

import contextlib
import re
import socket
import sqlite3
import subprocess
import threading
from collections.abc import Iterable
from pathlib import Path
from urllib.parse import unquote_to_bytes

from acceptance import client
from acceptance.client import Ended, Office, expect_end
from acceptance.reference_model import as_json
from acceptance.reference_model.refusals import Refused

FOLDER = Path(__file__).with_suffix("")
ENDS = {"": b"\r\n", "$": b"\n", "^": b"\r", "|": b""}
FIELDS = {"close": "Connection: close", "allow=GET": "Allow: GET", "allow=POST": "Allow: POST"}
LONGEST = 300


class Scenario:
    """What is sent to an office, what it answers, and how the program ends."""

    def __init__(self, name: str, lines: Iterable[str], folder: Path | None = None) -> None:
        self.name, self.folder, self.settings = name, folder, dict(client.SETTINGS)
        self.requests: list[bytes] = []
        self.said = self.answered = self.told = b""
        self.status = 0
        self.kept: list[tuple[str, str]] = []
        for part in re.findall(r"^(?!#).+\n(?:\|.*\n)*", "".join(f"{it}\n" for it in lines), re.M):
            self.read(*part.splitlines())

    @classmethod
    def of(cls, name: str, folder: Path = FOLDER) -> "Scenario":
        return cls(name, (folder / f"{name}.scenario").read_text().splitlines(), folder)

    def read(self, line: str, *text: str) -> None:
        """Reads a line, with the lines of the text that follows it."""
        word, _, rest = line.partition(" ")
        lines = "".join(f"{it[2:]}\n" for it in text)
        if word == "with":
            names = rest.split()
            self.settings |= dict(zip(names[::2], names[1::2]))
        elif word == "refused":
            number, *members = rest.split()
            refused = Refused(int(number), **{name: int(value) for name, value in zip(members[::2], members[1::2])})
            self.answered += client.reply(409, as_json(refused.told).encode())
        elif word == "kept":
            self.kept.append((rest, lines))
        elif word == "ends":
            status, _, told = rest.partition(" ")
            self.status, self.told = int(status), f"{told}\n".encode()
        elif word == ">%":
            self.said += unquote_to_bytes(rest)
        elif word[0] == ">":
            self.said += rest.encode() + ENDS[word[1:]]
        elif word[0] == "<":
            self.answered += rest.encode() + ENDS[word[1:]]
        elif word in ("GET", "POST"):
            self.ask(word, rest, lines)
        else:
            fields = []
            while rest.startswith(tuple(FIELDS)):
                field, _, rest = rest.partition(" ")
                fields.append(FIELDS[field])
            self.answered += client.reply(int(word), (rest or lines).encode(), client.JSON if rest else client.TEXT, *fields)

    def ask(self, method: str, rest: str, lines: str) -> None:
        """Adds a request; a body `@FILE` is read from the folder of the scenario."""
        path, _, body = rest.partition(" ")
        said = (body or lines).encode()
        if body.startswith("@chain_"):
            said = "".join(f"{unit},{unit - 1 or ''}\n" for unit in range(1, int(body[7:]) + 1)).encode()
            said = b"legacyId,parentId\n" + said
        elif self.folder and body.startswith("@"):
            said = (self.folder / body[1:]).read_bytes()
        self.requests.append(client.get(path) if method == "GET" else client.post(path, said))
        self.said += self.requests[-1]

    def wanted_end(self) -> Ended:
        """How a session with the program must end."""
        return Ended(self.status, self.answered, self.told)

    # ---- with the program

    def play(self, program: client.Program, store: Path, by_bytes: bool = True) -> None:
        """Plays it by `trial`, in one piece and byte by byte, and by `talk` on a new store."""
        expect_end(program.trial(self.said, self.settings, LONGEST), self.wanted_end(), f"{self.name} by trial")
        if by_bytes:
            expect_end(self.read_by_bytes(program), self.wanted_end(), f"{self.name} by trial, byte by byte")
        self.play_on(Office.create(program, store, self.settings))

    def play_on(self, office: Office) -> None:
        """Plays it by `talk`. Afterwards the store must be sound, and have in its tables what the scenario says."""
        expect_end(office.talk(self.said, timeout=LONGEST), self.wanted_end(), f"{self.name} by talk")
        assert office.check(timeout=LONGEST) == client.SOUND
        with contextlib.closing(sqlite3.connect(office.store)) as connection:
            for query, wanted in self.kept:
                rows = connection.execute(query).fetchall()
                assert "".join("|".join("" if it is None else str(it) for it in row) + "\n" for row in rows) == wanted, query

    def read_by_bytes(self, program: client.Program) -> Ended:
        """How `trial` ends if each of its reads gets one byte, a packet of a socket."""
        ours, theirs = socket.socketpair(socket.AF_UNIX, socket.SOCK_SEQPACKET)

        def feed() -> None:
            with ours, contextlib.suppress(BrokenPipeError, ConnectionResetError):
                for byte in self.said:
                    ours.send(bytes([byte]))

        with theirs:
            words = [str(program.path), "trial", *client.option_words(self.settings)]
            running = subprocess.Popen(words, stdin=theirs.fileno(), stdout=subprocess.PIPE, stderr=subprocess.PIPE)
        feeding = threading.Thread(target=feed)
        feeding.start()
        printed, told = running.communicate(timeout=client.PATIENCE)
        feeding.join()
        return Ended(running.returncode, printed, told)


def text_of(lines: str) -> str:
    """A text whose lines stand behind bars."""
    return re.sub(r"^\| ?", "", lines.strip() + "\n", flags=re.M) if lines else ""


def commands(text: str) -> list[tuple[str, str, str]]:
    """Commands, one on a line: the number of the refusal that it meets, or `refused`; its word; and its body, which stands
    there or on the lines behind bars that follow."""
    found = re.findall(r"^(refused |\d+ )?([a-z/]+) ?(.*)\n((?:\|.*\n)*)", text, re.M)
    return [(mark.strip(), word, body or text_of(lines)) for mark, word, body, lines in found]


def names() -> list[str]:
    return sorted(it.stem for it in FOLDER.glob("*.scenario"))
