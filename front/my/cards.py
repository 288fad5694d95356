"""The secrets of readers' tickets, and what is kept of a ticket: how many secrets were taken back, whether its reader wants a
message, and what was cancelled, for the register."""

import base64
import contextlib
import hmac
import json
import os
import re
import secrets
import sqlite3
import time
import uuid

KEY = 32  # random bytes
LONG = 26  # letters of a secret, which are 130 bits
LETTERS = "0123456789abcdefghjkmnpqrstvwxyz"  # of which none is taken for another
OURS = str.maketrans("ABCDEFGHIJKLMNOPQRSTUVWXYZ234567", LETTERS)
WRITTEN = re.compile(f"([1-9][0-9]{{0,9}})-([{LETTERS}]{{{LONG}}})")
NOBODY = 0  # which is no ticket's number
KEPT = 40 * 86400  # seconds after which the register has what was cancelled
TABLES = """
CREATE TABLE IF NOT EXISTS card (ticket INTEGER PRIMARY KEY, taken INTEGER NOT NULL DEFAULT 0,
    wants INTEGER NOT NULL DEFAULT 0, told TEXT NOT NULL DEFAULT '[]');
CREATE TABLE IF NOT EXISTS cancelled (at REAL NOT NULL, line TEXT NOT NULL);
"""


class Cards:
    """folder: where the key and the table are; who makes the first secret makes them."""

    def __init__(self, folder):
        self.path, self.key = folder / "my.db", key_of(folder / "key")
        with self.open() as db:
            db.executescript(TABLES)

    @contextlib.contextmanager
    def open(self):
        """The table, in a transaction."""
        with contextlib.closing(sqlite3.connect(self.path, timeout=10)) as db, db:
            yield db

    def taken(self, ticket):
        """How many secrets of a ticket were taken back."""
        with self.open() as db:
            return (db.execute("SELECT taken FROM card WHERE ticket = ?", (ticket,)).fetchone() or (0,))[0]

    def secret(self, ticket):
        """The secret of a ticket, with its number before it."""
        digest = hmac.digest(self.key, f"{ticket} {self.taken(ticket)}".encode(), "sha256")
        return f"{ticket}-{base64.b32encode(digest).decode()[:LONG].translate(OURS)}"

    def ticket_of(self, written):
        """The ticket whose secret this is, or NOBODY. Whatever is wrong costs the same."""
        found = WRITTEN.fullmatch(written)
        ticket = int(found[1]) if found else NOBODY
        is_right = hmac.compare_digest(self.secret(ticket), written if found else "0" * LONG)
        return ticket if is_right else NOBODY

    def take_back(self, ticket):
        """From now on the ticket has another secret."""
        with self.open() as db:
            db.execute("INSERT INTO card (ticket, taken) VALUES (?, 1) ON CONFLICT DO UPDATE SET taken = taken + 1, wants = 0",
                       (ticket,))

    def wants(self, ticket):
        """Whether the reader wants messages."""
        with self.open() as db:
            return db.execute("SELECT 1 FROM card WHERE ticket = ? AND wants", (ticket,)).fetchone() is not None

    def want(self, ticket, is_wanted):
        """Notes whether the reader wants messages."""
        with self.open() as db:
            db.execute("INSERT INTO card (ticket, wants) VALUES (?, ?) ON CONFLICT DO UPDATE SET wants = excluded.wants",
                       (ticket, is_wanted))

    def wanting(self):
        """The tickets whose readers want messages, each with the orders that they were told of."""
        with self.open() as db:
            return [(ticket, set(json.loads(told)))
                    for ticket, told in db.execute("SELECT ticket, told FROM card WHERE wants ORDER BY ticket")]

    def tell(self, ticket, orders):
        """Notes which orders are ready, and the reader knows."""
        with self.open() as db:
            db.execute("UPDATE card SET told = ? WHERE ticket = ?", (json.dumps(sorted(orders)), ticket))

    def note_cancelled(self, order, ticket, container, status):
        """Notes what a reader has cancelled as the desk's log has what staff do, with the ticket's number alone."""
        now = time.time()
        line = {"id": uuid.uuid4().hex, "at": f"{now:.3f}", "time": time.strftime("%Y-%m-%dT%H:%M:%S%z", time.localtime(now)),
                "staff": "", "path": "/my/cancel", "status": str(status),
                "asked": json.dumps({"order": order, "ticket": ticket, "container": container})}
        with self.open() as db:
            db.execute("DELETE FROM cancelled WHERE at < ?", (now - KEPT,))
            db.execute("INSERT INTO cancelled VALUES (?, ?)", (now, json.dumps(line)))


def key_of(path):
    """The key of this machine, which is made if there is none. Raises ValueError if there is something else."""
    if not path.exists():
        new = path.with_name("key.new")
        with open(os.open(new, os.O_WRONLY | os.O_CREAT | os.O_TRUNC, 0o600), "wb") as file:
            file.write(secrets.token_bytes(KEY))
            file.flush()
            os.fsync(file.fileno())
        new.rename(path)
    key = path.read_bytes()
    if len(key) != KEY:
        raise ValueError(f"{path} has {len(key)} bytes in place of {KEY}")
    return key
