"""Erases readers from an office, visits and names of staff from the register, and keeps a list for restores to do so again.

The list has no name: of each reader the ticket and a salted digest of the name, of each member of staff a digest.
"""

import datetime
import hashlib
import json
import secrets

from offices import Trouble, conf_of

ERASED = "erased"
TABLE = """CREATE TABLE IF NOT EXISTS erased (kind TEXT NOT NULL, ticket INTEGER, day TEXT NOT NULL, salt TEXT NOT NULL,
    digest TEXT NOT NULL, past INTEGER NOT NULL DEFAULT 0, PRIMARY KEY (kind, digest))"""
READER, STAFF = "reader", "staff"
READERS_NAME = "the reader"  # stands in the register in place of a name of staff
YEARS = {"KEEP_NAMES": 10, "KEEP_VISITS": 10, "KEEP_STAFF": 3}  # unless people.conf says otherwise
NOTICE = datetime.timedelta(30)  # between the night that first read a setting and the night that does it


def digest_of(salt, name):
    """What stands in the list for a name."""
    return hashlib.sha256(f"{salt} {name}".encode()).hexdigest()


def is_out_with(db, ticket):
    """The containers that are out with a ticket."""
    found = db.execute("SELECT container FROM orders WHERE ticket = ? AND state = 2 ORDER BY container", (ticket,))
    return [str(box) for (box,) in found]


def erase(db, tickets):
    """Erases readers from the tables, and what is left of their names from the file. What they wait for, nobody waits for any
    more. Returns the names by ticket."""
    names = {}
    for ticket in tickets:
        found = db.execute("SELECT name FROM reader WHERE ticket = ?", (ticket,)).fetchone()
        if found is None:
            raise Trouble(f"there is no ticket {ticket}")
        out = is_out_with(db, ticket)
        if out:
            raise Trouble(f"ticket {ticket} has containers out, which must be taken back first: {', '.join(out)}")
        names[ticket] = found[0]
        db.execute("UPDATE reader SET name = ?, until = min(until, (SELECT day FROM office) - 1) WHERE ticket = ?",
                   (ERASED, ticket))
        db.execute("DELETE FROM permit WHERE ticket = ?", (ticket,))
        db.execute("UPDATE orders SET state = 4 WHERE ticket = ? AND state = 1", (ticket,))
    db.execute("VACUUM")
    return names


def forget_wanted(office, tickets):
    """Erases from what the desk's service keeps which units the orders of these tickets were for."""
    path = office.files / "ordered.db"
    if tickets and path.exists():
        office.as_owner("sqlite3", "-cmd", ".timeout 5000", path,
                        f"DELETE FROM wanted WHERE ticket IN ({sql_of(*tickets)}); VACUUM")


def sql_of(*values):
    """Texts, numbers and NULL as SQL has them."""
    texts = ("'" + str(value).replace("'", "''") + "'" for value in values)
    return ", ".join(text if isinstance(value, str) else "NULL" if value is None else str(value)
                     for value, text in zip(values, texts))


def write_down(office, kind, names):
    """Puts names, by ticket or by themselves, into the list of what was erased."""
    rows = []
    for ticket, name in names:
        if name != ERASED:
            salt = secrets.token_hex(8)
            rows.append(f"({sql_of(kind, ticket, f'{datetime.date.today()}', salt, digest_of(salt, name), 0)})")
    if rows:
        office.as_owner("sqlite3", office.register, said=f"{TABLE};\nINSERT OR IGNORE INTO erased VALUES {', '.join(rows)};")


def listed(office, kind):
    """The list of what was erased: ticket, day, salt, digest, and whether the ticket's number may have been given again."""
    said = office.as_owner("sqlite3", "-json", office.register,
                           f"{TABLE}; SELECT * FROM erased WHERE kind = {sql_of(kind)}") if office.register.exists() else ""
    return json.loads(said or "[]")


def come_back(office, db):
    """Of an office in a copy, the readers whose names were erased since: the ticket and the day of each. A ticket whose number
    may have been given again counts only if it has the same name."""
    names = dict(db.execute("SELECT ticket, name FROM reader WHERE name <> ?", (ERASED,)))
    found = {}
    for row in listed(office, READER):
        name = names.get(row["ticket"])
        if name is not None and (not row["past"] or digest_of(row["salt"], name) == row["digest"]):
            found[row["ticket"]] = row["day"]
    return found


def pass_over(office, last):
    """Notes that the tickets above this one will be given again, as after a restore."""
    if office.register.exists():
        office.as_owner("sqlite3", office.register, said=f"{TABLE}; UPDATE erased SET past = 1 WHERE ticket > {int(last)};")


def years(office, name):
    """How many years a setting of people.conf keeps something; None if for ever."""
    told = conf_of(office, name, "people.conf") or str(YEARS[name])
    if told == "always":
        return None
    if not told.isdigit():
        raise Trouble(f"{office.settings}/people.conf: {name} is a number of years, or always")
    return int(told)


def before(office, name, today):
    """The day before which something is erased, and the first night that does it; None if it is kept for ever."""
    many = years(office, name)
    if many is None:
        return None
    noted = office.copies / "kept.json"
    try:
        known = json.loads(noted.read_text(encoding="utf-8"))
    except (OSError, ValueError):
        known = {}
    if known.get(name, [None])[0] != many:
        known[name] = [many, f"{today + NOTICE}"]
        noted.write_text(json.dumps(known), encoding="utf-8")
    return today - datetime.timedelta(round(many * 365.25)), datetime.date.fromisoformat(known[name][1])


def ended(office, copy, today):
    """The tickets that ended before the day that people.conf gives, with nothing out, and the first night that erases them."""
    limit = before(office, "KEEP_NAMES", today)
    if limit is None:
        return [], today
    said = office.as_owner("sqlite3", f"{copy.resolve().as_uri()}?immutable=1", f"""SELECT ticket FROM reader, office
        WHERE name <> '{ERASED}' AND until < min(day, unixepoch('{limit[0]}') / 86400)
        AND ticket NOT IN (SELECT ticket FROM orders WHERE state = 2) ORDER BY ticket""")
    return [int(ticket) for ticket in said.split()], limit[1]


def thin_register(office, today):
    """Erases visits and names of staff from the register that are older than people.conf says. Returns how many rows."""
    if not office.register.exists():
        return 0, 0
    done = []
    nobody = f"UPDATE event SET staff = '{ERASED}' WHERE staff NOT IN ('{ERASED}', '{READERS_NAME}') AND"
    for name, change in (("KEEP_VISITS", "DELETE FROM event WHERE"), ("KEEP_STAFF", nobody)):
        limit = before(office, name, today)
        if limit is None or limit[1] > today:
            done.append(0)
            continue
        said = office.as_owner("sqlite3", office.register, f"{change} at < unixepoch('{limit[0]}'); SELECT changes();")
        done.append(int(said))
    if any(done):
        office.as_owner("sqlite3", office.register, "VACUUM")
    return tuple(done)


def erase_staff(office, *names):
    """Erases members of staff from the register. Returns in how many rows they stood."""
    wanted = sql_of(*names)
    return int(office.as_owner("sqlite3", office.register, f"UPDATE event SET staff = '{ERASED}' WHERE staff IN ({wanted}); "
                               "SELECT changes(); VACUUM;").split()[0])


def staff_come_back(office):
    """The members of staff whose names were erased and stand in the register again, as after a restore."""
    said = office.as_owner("sqlite3", office.register, f"SELECT DISTINCT staff FROM event WHERE staff <> '{ERASED}'")
    rows = listed(office, STAFF)
    return [name for name in said.splitlines() if any(digest_of(row["salt"], name) == row["digest"] for row in rows)]
