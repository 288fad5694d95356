"""Changes an office by SQL: in a copy, which takes the place of the office only if it is sound."""

import contextlib
import datetime
import shutil
import sqlite3

from copies import make_whole
from offices import Trouble, log_of
from stopping import stopped


def put_aside(office):
    """Moves the office and its log into a new folder, and returns it; None if there was no office."""
    found = [path for path in (office.store, log_of(office.store), office.folder / "office.db-journal") if path.exists()]
    if not found:
        return None
    aside = office.folder / f"replaced-{datetime.datetime.now():%Y-%m-%d-%H%M%S}"
    office.make_folder(aside)
    for path in found:
        shutil.move(path, aside)
    return aside


@contextlib.contextmanager
def edited(office, port=None):
    """A context in which the program is stopped, with a connection to a copy of its office. At its end the copy is the office.

    If something is wrong, or the copy would not be sound, the office stays as it was.
    """
    new = office.folder / "edited.db"
    if not office.store.exists():
        raise Trouble(f"there is no office {office.store}")
    with stopped(office, port):
        try:
            make_whole(office, office.store, new)
            office.check(new)
            with contextlib.closing(sqlite3.connect(new, isolation_level=None)) as db:
                yield db
            try:
                office.check(new)
            except Trouble as wrong:
                raise Trouble(f"nothing was changed, since the office would not be sound: {wrong}") from None
            aside = put_aside(office)
            new.rename(office.store)
        finally:
            for path in office.folder.glob(f"{new.name}*"):
                path.unlink()
    shutil.rmtree(aside)
