"""What was ordered: of an order that was taken the unit that somebody wanted, and of those that were refused why, by container
and day, and not by whom. A table of this service's own has it, in numbers alone, which the nightly backup copies.

Readers' service and desk tell it by a text in JSON: {"taken": [[order, ticket, container, unit], ..], "refused": [[container,
why], ..]}. Whoever reads it may take it for a hint and no more: the program knows nothing of it."""

import contextlib
import datetime
import json
import re
import socket
import sqlite3

LONGEST = 65_536  # bytes of what is told at once
LARGEST = 10**10  # numbers are smaller
DAYS = 90  # how long it is kept for which unit an order was
PAGES = 20_000  # the most that the table takes, of 4 KiB each
TABLES = """
CREATE TABLE IF NOT EXISTS wanted (number INTEGER PRIMARY KEY, ticket INTEGER NOT NULL, container INTEGER NOT NULL,
    unit INTEGER NOT NULL, day TEXT NOT NULL);
CREATE TABLE IF NOT EXISTS refused (day TEXT NOT NULL, why TEXT NOT NULL, container INTEGER NOT NULL, many INTEGER NOT NULL,
    PRIMARY KEY (day, why, container)) WITHOUT ROWID"""


class Ordered:
    """The table, in a file that is made when something is told."""

    def __init__(self, path):
        self.path = path

    @contextlib.contextmanager
    def opened(self):
        """A context with a connection, whose changes are kept at its end. No connection stays open: a restore may put back the
        file of another night."""
        with contextlib.closing(sqlite3.connect(self.path)) as db, db:
            db.execute(f"PRAGMA max_page_count = {PAGES}")
            db.executescript(TABLES)
            yield db

    def take(self, text):
        """Keeps what is told. Raises ValueError if it cannot be read."""
        told, today = json.loads(text), datetime.date.today()
        taken = [row for row in told["taken"] if len(row) == 4 and all(map(is_number, row))]
        refused = [(box, why) for box, why in told["refused"] if is_number(box) and re.fullmatch("[A-Za-z]{1,40}", str(why))]
        with self.opened() as db:
            db.execute("DELETE FROM wanted WHERE day < ?", (f"{today - datetime.timedelta(DAYS)}",))
            db.executemany("INSERT OR REPLACE INTO wanted VALUES (?, ?, ?, ?, ?)", [(*row, f"{today}") for row in taken])
            db.executemany("""INSERT INTO refused (day, container, why, many) VALUES (?, ?, ?, 1)
                ON CONFLICT DO UPDATE SET many = many + 1""", [(f"{today}", *row) for row in refused])

    def units(self, orders):
        """Of orders, each with its ticket and its container, those whose unit is known: order, container and unit. A note must
        have all three numbers: after a restore numbers are given again."""
        with self.opened() as db:
            return db.execute("""SELECT number, wanted.container, unit FROM wanted JOIN json_each(?) AS asked
                ON number = json_extract(value, '$[0]') AND ticket = json_extract(value, '$[1]')
                AND container = json_extract(value, '$[2]') ORDER BY number""", (orders,)).fetchall()

    def listen(self, path):
        """Takes what comes to a socket, which answers nobody. Never returns. The tables are there first: others read them."""
        path.unlink(missing_ok=True)
        with contextlib.suppress(sqlite3.Error), self.opened():
            pass
        with socket.socket(socket.AF_UNIX, socket.SOCK_DGRAM) as it:
            it.bind(str(path))
            path.chmod(0o620)
            while True:
                text = it.recv(LONGEST)
                try:
                    self.take(text)
                except (ValueError, LookupError, TypeError, sqlite3.Error) as wrong:
                    print(f"what was ordered is not known: {type(wrong).__name__} {wrong}", flush=True)


def is_number(it):
    """Whether this is a number that the office may have given."""
    return type(it) is int and 0 < it < LARGEST
