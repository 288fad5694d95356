"""Copies of an office: their names and sums, what stands beside them, and what an office has in figures."""

import contextlib
import datetime
import hashlib
import re
import shutil
import subprocess

from offices import Trouble, log_of

NAME = re.compile(r"office-(\d{4}-\d\d-\d\d)\.db")
REPLACED = re.compile(r"replaced-(\d{4}-\d\d-\d\d)-\d{6}")
REPLACED_DAYS = 30  # that an office stays beside the copy that was put in its place
EMPTY_LOG = 41  # bytes of a log that holds no change, at most
SETTINGS = ("country", "repo", "seats", "daily", "hands", "run_size")


def named_days(folder, pattern):
    """What a folder has under names of this form, by day."""
    found = {}
    for path in folder.iterdir() if folder.is_dir() else ():
        named = pattern.fullmatch(path.name)
        with contextlib.suppress(ValueError):
            if named:
                found.setdefault(datetime.date.fromisoformat(named[1]), []).append(path)
    return found


def copies_in(folder):
    """The copies in a folder, by day."""
    return {day: path for day, (path,) in named_days(folder, NAME).items()}


def replaced_in(folder):
    """The folders of offices that a restore has put aside, each with its last day."""
    days = named_days(folder, REPLACED).items()
    return {path: day + datetime.timedelta(REPLACED_DAYS) for day, paths in sorted(days) for path in sorted(paths)}


def sum_of(copy):
    """The file beside a copy that has its SHA-256, as sha256sum writes it."""
    return copy.with_name(copy.name + ".sha256")


def digest(path):
    """The checksum of a file."""
    with path.open("rb") as file:
        return hashlib.file_digest(file, "sha256").hexdigest()


def rest_of(copy):
    """The file beside a copy that has the rest of its night: register, last files, settings."""
    return copy.with_suffix(".tar")


def write_sum(copy):
    """Writes the SHA-256 of a sound copy, and of what belongs to it, beside it."""
    new = sum_of(copy).with_suffix(".new")
    lines = [f"{digest(path)}  {path.name}\n" for path in (copy, rest_of(copy)) if path.exists()]
    new.write_text("".join(lines), encoding="ascii")
    new.chmod(0o600)
    new.rename(sum_of(copy))


def damaged(copy):
    """Which file of a copy is not the one whose SHA-256 stands beside it; None if none is."""
    lines = sum_of(copy).read_text("ascii", "replace").splitlines()
    sums = {name: found for found, _, name in (line.partition("  ") for line in lines)}
    for name in sorted({copy.name, *sums}):
        path = copy.with_name(name)
        if not path.exists() or digest(path) != sums.get(name):
            return path
    return None


def has_its_sum(copy):
    """Whether a SHA-256 stands beside a copy. Raises Trouble if it is that of other bytes."""
    if not sum_of(copy).exists():
        return False
    wrong = damaged(copy)
    if wrong:
        raise Trouble(f"{wrong} is damaged: its SHA-256 is not that of {sum_of(copy).name}")
    return True


def remove(copy):
    """Removes a copy with what belongs to it."""
    for path in (copy, sum_of(copy), rest_of(copy)):
        path.unlink(missing_ok=True)


def holds_changes(log):
    """Whether a log may have changes that the file beside it lacks."""
    return log.exists() and log.stat().st_size > EMPTY_LOG


def make_whole(office, store, new):
    """Makes one file of a store and the log beside it, which both stay as they are, for the user of the office."""
    beside = [path for path in (log_of(store), store.with_name(store.name + "-journal")) if holds_changes(path)]
    if not beside:
        give(office, store, new)
        return
    room = office.folder / "copying"
    shutil.rmtree(room, ignore_errors=True)
    office.make_folder(room)
    try:
        for path in (store, *beside):
            give(office, path, room / path.name.replace(store.name, "office.db"))
        new.unlink(missing_ok=True)
        office.as_owner("sqlite3", room / "office.db", f".backup {new}")
    finally:
        shutil.rmtree(room)


def give(office, path, new):
    """Copies a file for the user of the office alone."""
    owner = office.owner
    subprocess.run(["install", "-o", owner.pw_name, "-g", str(owner.pw_gid), "-m", "600", path, new], check=True)


def settings_of(office, path):
    """The settings of an office by name, read without a lock; None if the file cannot be read."""
    with contextlib.suppress(Trouble, ValueError):
        said = office.as_owner("sqlite3", f"{path.resolve().as_uri()}?immutable=1",
                               f"SELECT {', '.join(SETTINGS)} FROM office")
        return dict(zip(SETTINGS, said.split("|"), strict=True))
    return None


def last_numbers(office, store):
    """The last ticket, order and run of an office that nobody has open; None if it cannot be read."""
    whole = office.folder / "read.db"
    with contextlib.suppress(Trouble, ValueError, subprocess.CalledProcessError):
        make_whole(office, store, whole)
        tables = {"ticket": "reader", "order": "orders", "run": "run"}
        counts = ", ".join(f"(SELECT count(*) FROM {table})" for table in tables.values())
        said = office.as_owner("sqlite3", f"{whole.as_uri()}?immutable=1", f"SELECT {counts}")
        whole.unlink()
        return dict(zip(tables, map(int, said.split("|")), strict=True))
    whole.unlink(missing_ok=True)
    return None
