"""The files that a try starts from: the newest copy of the office, and the file that was imported last from a source."""

import errno
import re


class NoCopy(FileNotFoundError):
    """The backup has made no copy yet."""


def newest_copy(folder):
    """The newest copy that the backup has made; raises NoCopy if there is none."""
    copies = sorted(folder.glob("office-*.db"))
    if not copies:
        raise NoCopy(errno.ENOENT, "there is no copy of the office", str(folder))
    return copies[-1]


def is_source(name):
    """Whether the program takes this name of a source, and a file may be named so."""
    return re.fullmatch(r"[A-Za-z0-9._-]{1,64}", name) is not None and name not in (".", "..")


def path_of(folder, source):
    """Where the last file of a source is kept."""
    return folder / f"{source}.csv"


def last_file(folder, source):
    """The file that was imported last from a source, or None."""
    path = path_of(folder, source)
    return path if path.is_file() else None


def keep_file(folder, source, data):
    """Keeps a file that was imported, as a whole or not at all."""
    new = folder / f".{source}.new"
    new.write_bytes(data)
    new.replace(path_of(folder, source))
