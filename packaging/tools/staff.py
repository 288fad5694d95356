#!/usr/bin/python3 -B
"""The staff who may sign in at the desk: in the file of passwords a line is NAME:HASH, or NAME:HASH:part=PART.

Who has no part there has all of them. Called with that file and another one, it writes there for nginx who has which part.
"""

import os
import pathlib
import re
import sys
from typing import NamedTuple

COUNTER, ARCHIVIST, ALL = PARTS = ("counter", "archivist", "all")
NOBODY = "none"  # the part of somebody whose part is none of these: it may do nothing
HASH = re.compile(r"\$\w+\$\S+|\{S?SHA\}\S+|[./0-9A-Za-z]{13}")  # of a password, as nginx knows it


class Line(NamedTuple):
    """A line of the file as nginx reads it, which skips what is behind a second colon."""

    number: int
    name: str
    hash: str
    comment: str

    @property
    def part(self):
        """What this name may do. A comment of another kind tells no part."""
        told = re.fullmatch("part=(.*)", self.comment.strip())
        return ALL if told is None else told[1] if told[1] in PARTS else NOBODY

    @property
    def is_sound(self):
        """Whether it has a name and the hash of a password."""
        return bool(self.name and HASH.fullmatch(self.hash))


def lines_of(text):
    """The lines that are for somebody."""
    rows = ((number, line.rstrip("\r")) for number, line in enumerate(text.split("\n"), 1))
    return [Line(number, *(line.split(":", 2) + ["", ""])[:3]) for number, line in rows if line.strip() and line[0] != "#"]


def parts_of(text):
    """The part of each name. Of two lines with the same name the first counts, as for nginx."""
    return {line.name: line.part for line in reversed(lines_of(text))}


def for_nginx(text):
    """The lines of a map of nginx from names to parts; none if nobody has a part. Who is not among them has the least."""
    parts = sorted(parts_of(text).items())
    if all(part == ALL for _, part in parts):
        return ""
    return f"default {COUNTER};\n" + "".join(f'"~^{escaped(name)}\\z" {part};\n' for name, part in parts)


def escaped(name):
    """A name within a pattern of nginx, between quotation marks."""
    return re.escape(name).replace("\\", "\\\\").replace('"', '\\"')


def read(path):
    """The text of a file; none if it is not there."""
    return path.read_text(encoding="utf-8", errors="surrogateescape") if path.exists() else ""


def write(path, text):
    """Writes a file anew, whole or not at all. It has the owner and the mode of what was there."""
    new = path.with_name(f"{path.name}.new")
    new.touch(mode=0o600)
    if path.exists():
        there = path.stat()
        os.chown(new, there.st_uid, there.st_gid)
        new.chmod(there.st_mode & 0o777)
    new.write_text(text, encoding="utf-8", errors="surrogateescape")
    new.replace(path)


def main():
    """Writes the map."""
    source, target = map(pathlib.Path, sys.argv[1:])
    write(target, for_nginx(read(source)))


if __name__ == "__main__":
    main()
