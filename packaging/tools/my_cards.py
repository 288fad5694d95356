"""What the service of My orders keeps, for the other tools: its key, and its table of taken secrets and of messages."""

import contextlib
import json
import shutil
import socket
import sqlite3
import subprocess
import sys

from offices import conf_of

KEY, TABLE = "key", "my.db"
TAKEN = """INSERT INTO card (ticket, taken) SELECT ticket, taken FROM other.card WHERE true
    ON CONFLICT DO UPDATE SET taken = max(taken, excluded.taken)"""
READY = "GET /ready HTTP/1.0\r\n\r\n"
KNOWN = "POST /ready HTTP/1.0\r\nContent-Length: {}\r\n\r\n{}"


@contextlib.contextmanager
def opened(path):
    """A table, in a transaction."""
    with contextlib.closing(sqlite3.connect(path, timeout=10)) as db, db:
        yield db


def take(office, name, content):
    """Takes a file of a copy's night, as far as there is none here. A secret that was taken back stays so."""
    path = office.my / name
    office.my.mkdir(mode=0o700, exist_ok=True)  # the unit gives a new one to its user
    if not path.exists():
        path.write_bytes(content)
        path.chmod(0o600)
        shutil.chown(path, office.my.stat().st_uid, office.my.stat().st_gid)
    elif name == TABLE:
        other = office.my / "taken.db"
        other.write_bytes(content)
        with contextlib.closing(sqlite3.connect(path, timeout=10)) as db:
            db.execute("ATTACH ? AS other", (str(other),))
            with db:
                db.execute(TAKEN)
        other.unlink()


def void(office, tickets):
    """Takes back the secrets of erased readers, who get no more messages."""
    if (office.my / TABLE).exists():
        with opened(office.my / TABLE) as db:
            db.executemany("INSERT INTO card (ticket, taken) VALUES (?, 1) "
                           "ON CONFLICT DO UPDATE SET taken = taken + 1, wants = 0, told = '[]'", ((it,) for it in tickets))


def lines(office):
    """What readers have cancelled, as the desk's log has what staff do."""
    if not (office.my / TABLE).exists():
        return []
    with opened(office.my / TABLE) as db:
        return [f"{line}\n" for (line,) in db.execute("SELECT line FROM cancelled ORDER BY at")]


def asked(office, request):
    """What the service answers to the machine."""
    with socket.socket(socket.AF_UNIX) as it:
        it.settimeout(60)
        it.connect(str(office.cards))
        it.sendall(request.encode())
        return json.loads(b"".join(iter(lambda: it.recv(65536), b"")).partition(b"\r\n\r\n")[2])


def tell_ready(office):
    """Runs the operator's command once for each ticket whose reader wants to know that something is ready: it finds the number
    on its standard input. What failed is tried again the next time."""
    command = conf_of(office, "READY_COMMAND", "my-orders.conf")
    if not command or not office.cards.exists():
        return
    for ticket, ready in asked(office, READY).items():
        if subprocess.run(["sh", "-c", command], input=f"{ticket}\n", text=True, timeout=60).returncode:
            print(f"READY_COMMAND failed for ticket {ticket}", file=sys.stderr)
        else:
            body = json.dumps({ticket: ready})
            asked(office, KNOWN.format(len(body), body))
