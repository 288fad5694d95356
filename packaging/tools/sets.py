"""What belongs to the copy of a night, in one file beside it: the register with the list of what was erased, the last file of
each source and what else the desk's services keep, and the operator's settings. And the trial of all that.
"""

import contextlib
import datetime
import json
import os
import pathlib
import shutil
import sqlite3
import subprocess
import tarfile

import my_cards
from copies import copies_in, give, has_its_sum, make_whole, rest_of, settings_of, sum_of
from erasing import TABLE
from offices import SITES, Trouble, log_of

SHARE = pathlib.Path("/usr/share/record-office")
UNITS = pathlib.Path("/etc/systemd/system")
SECRET = b"PRIVATE KEY-----"  # a key stays on its machine: a new certificate is had in a minute
REGISTER, FILES, MY, SETTINGS = "register.db", "files", "my", "settings"
FIRST_QUESTION = b"GET /public/fonds HTTP/1.1\r\nHost: office\r\nConnection: close\r\n\r\n"


def settings_files(office):
    """The files in which the operator has decided something, with the units' that `systemctl edit` made."""
    defaults = {path.name: path.read_bytes() for path in (SHARE / "server").glob("*")}
    site = f"record-office{f'-{office.name}' if office.name else ''}"
    files = [*office.settings.glob("*"), SITES / site, SITES / f"{site}-tls"]
    files += UNITS.glob(f"record-office*{f'@{office.name}' if office.name else '[!@]'}.*.d/override.conf")
    for path in sorted(files):
        if path.is_file() and not path.is_symlink():
            content = path.read_bytes()
            if SECRET not in content and defaults.get(path.name) != content and not (office.name and path.name in defaults):
                yield path


def kept_files(office, room):
    """What the desk's services keep, tables as copies in this folder."""
    for path in sorted(office.files.glob("[!.]*")) if office.files.is_dir() else ():
        if path.suffix == ".db":
            office.as_owner("sqlite3", "-cmd", ".timeout 5000", path, f".backup {room / path.name}")
            yield room / path.name
        elif path.is_file() and not path.name.endswith(("-wal", "-shm", "-journal")):
            yield path


def my_files(office, room):
    """The key of My orders and its table, as copies in this folder."""
    key, table = office.my / my_cards.KEY, office.my / my_cards.TABLE
    if key.exists() and table.exists():
        shutil.copyfile(key, room / key.name)
        with my_cards.opened(table) as db, my_cards.opened(room / table.name) as copy:
            db.backup(copy)
        yield from (room / key.name, room / table.name)


def gather(office, copy):
    """Makes the rest of tonight's set."""
    room, new = office.copies / "gathering", office.copies / "new.tar"
    shutil.rmtree(room, ignore_errors=True)
    office.make_folder(room)
    try:
        with tarfile.open(new, "w") as rest:
            if office.register.exists():
                office.as_owner("sqlite3", office.register, f".backup {room / REGISTER}")
                rest.add(room / REGISTER, REGISTER)
            for path in kept_files(office, room):
                rest.add(path, f"{FILES}/{path.name}")
            for path in my_files(office, room):
                rest.add(path, f"{MY}/{path.name}")
            for path in settings_files(office):
                rest.add(path, f"{SETTINGS}{path}")
    finally:
        shutil.rmtree(room)
    new.chmod(0o600)
    shutil.chown(new, office.owner.pw_uid, office.owner.pw_gid)
    new.rename(rest_of(copy))


def members(copy):
    """The files of a set by their names: what each is, and its content."""
    with tarfile.open(rest_of(copy)) as rest:
        for member in rest:
            if member.isfile() and ".." not in pathlib.PurePath(member.name).parts:
                yield member, rest.extractfile(member).read()


def put_setting(member, content):
    """Puts a file of the operator's where it was. What stood there stays, under another name."""
    path = pathlib.Path(member.name.removeprefix(SETTINGS))
    if path.exists() and path.read_bytes() != content:
        path.rename(path.with_name(f"{path.name}.before"))
    path.parent.mkdir(parents=True, exist_ok=True)
    path.write_bytes(content)
    path.chmod(member.mode)
    with contextlib.suppress(LookupError):
        shutil.chown(path, member.uname, member.gname)


def take_register(office, content):
    """Takes the rows of a set's register that the register here has not."""
    other = office.folder / "taken.db"
    other.write_bytes(content)
    shutil.chown(other, office.owner.pw_uid, office.owner.pw_gid)
    try:
        if not office.register.exists():
            give(office, other, office.register)
            return
        has = office.as_owner("sqlite3", other, "SELECT name FROM sqlite_schema WHERE type = 'table'").split()
        office.as_owner("sqlite3", office.register, said=f"{TABLE}; ATTACH '{other}' AS other;\n" + "".join(
            f"INSERT OR IGNORE INTO {table} SELECT * FROM other.{table};\n" for table in ("event", "erased") if table in has))
    finally:
        other.unlink()


def take_rest(office, copy, with_settings):
    """Takes back what belongs to a copy. Returns how many files of each kind."""
    many = {REGISTER: 0, FILES: 0, MY: 0, SETTINGS: 0}
    for member, content in members(copy):
        kind, _, name = member.name.partition("/")
        if kind == REGISTER:
            take_register(office, content)
        elif kind == FILES:
            office.make_folder(office.files)
            (office.files / name).write_bytes(content)
            shutil.chown(office.files / name, office.owner.pw_uid, office.owner.pw_gid)
        elif kind == MY:
            my_cards.take(office, name, content)
        elif kind == SETTINGS and with_settings:
            put_setting(member, content)
        else:
            continue
        many[kind] += 1
    if many[SETTINGS]:
        subprocess.run(["systemctl", "daemon-reload"])
    return many


def last_drill(office):
    """The day of the last trial, and what was wrong; (None, None) if there was none."""
    try:
        told = json.loads((office.copies / "drill.json").read_text(encoding="utf-8"))
        return told["day"], told["wrong"]
    except (OSError, ValueError, KeyError, TypeError):
        return None, None


def drill(office):
    """Restores the newest copy beside the office, compares it with its sums, and lets the program answer from it. Writes how
    that went. Raises Trouble if it went wrong."""
    room = office.folder / "drill"
    wrong = None
    try:
        shutil.rmtree(room, ignore_errors=True)
        office.make_folder(room)
        try_set(office, room)
    except (Trouble, OSError, sqlite3.Error, tarfile.TarError) as found:
        wrong = str(found)
    finally:
        shutil.rmtree(room, ignore_errors=True)
    told = office.copies / "drill.json"
    told.write_text(json.dumps({"day": f"{datetime.date.today()}", "wrong": wrong}), encoding="utf-8")
    if wrong:
        raise Trouble(f"the copy cannot be restored: {wrong}")


def try_set(office, room):
    """Restores the newest set into a folder and looks at each part of it."""
    good = [path for _, path in sorted(copies_in(office.copies).items()) if sum_of(path).exists()]
    if not good:
        raise Trouble(f"there is no copy in {office.copies}")
    copy, new = good[-1], room / "office.db"
    has_its_sum(copy)
    make_whole(office, copy, new)
    office.check(new)
    before = settings_of(office, good[0])
    if settings_of(office, new) != before:
        raise Trouble(f"{copy} has other settings than {good[0]}")
    answer = office.as_owner("record_office", "talk", "--store", new, said=FIRST_QUESTION.decode())
    if not answer.startswith("HTTP/1.1 200 "):
        raise Trouble(f"from {copy} the program answers {answer.partition(chr(10))[0]}")
    log_of(new).unlink(missing_ok=True)
    names = set()
    for member, content in members(copy):
        names.add(member.name.partition("/")[0])
        if member.name.endswith(".db"):
            path = room / os.path.basename(member.name)
            path.write_bytes(content)
            with contextlib.closing(sqlite3.connect(path)) as table:
                if table.execute("PRAGMA integrity_check").fetchone() != ("ok",):
                    raise Trouble(f"{member.name} in {rest_of(copy)} is damaged")
    if SETTINGS not in names:
        raise Trouble(f"{rest_of(copy)} has no settings")
