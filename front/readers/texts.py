"""Reads the office's texts. A value never holds a line feed, so how a line begins says for certain what it is: a head
line begins with a country's two capitals, an element with a digit, and the rest with `Container ` or `Unit `. Within a
line nothing is certain, so a line is cut at its first `: ` only, which no value can come before."""

import hashlib
import json
import pathlib
import re
from typing import NamedTuple

from years import bounds_of

_HERE = pathlib.Path(__file__).resolve().parent.parent


def N_(text):  # noqa: N802 - the name that pybabel looks for
    """Marks a text for the catalogs; it is translated where it is shown."""
    return text


def read_shared(name):
    """What a file of front/shared has, which is served with the pages: beside this folder, or where it is installed."""
    return json.loads(next(path for path in (_HERE / "shared" / name, _HERE / "front/shared" / name)
                           if path.exists()).read_text("utf-8"))


HEAD = re.compile(r"[A-Z]{2} ")
NUMBERED = re.compile(r"(?:Unit )?([1-9][0-9]{0,9}):? (.*)", re.DOTALL)
FOUND_ABOVE = re.compile(r"(?:3\.2\.[1-4]|3\.4\.[1-3]|3\.7\.2|Container) ")
DATES, EXTENT, CREATORS = "3.1.3 ", "3.1.5 ", "3.2.1 "
CLOSED = re.compile(r"closed until ([0-9]{4}-[0-9]{2}-[0-9]{2})")
CODE = re.compile(r"[A-Z]{2} [!-~]+")
# The areas and elements of ISAD(G), second edition, as the program names them. A catalog has the standard's own names in
# its language.
AREAS = {"3.1": N_("Identity statement"), "3.2": N_("Context"), "3.3": N_("Content and structure"),
         "3.4": N_("Conditions of access and use"), "3.5": N_("Allied materials"), "3.6": N_("Notes"),
         "3.7": N_("Description control")}
ELEMENTS = {
    "3.1.3": N_("Date(s)"), "3.1.5": N_("Extent and medium of the unit of description"),
    "3.2.1": N_("Name of creator(s)"), "3.2.2": N_("Administrative / Biographical history"),
    "3.2.3": N_("Archival history"), "3.2.4": N_("Immediate source of acquisition or transfer"),
    "3.3.1": N_("Scope and content"), "3.3.2": N_("Appraisal, destruction and scheduling information"),
    "3.3.3": N_("Accruals"), "3.3.4": N_("System of arrangement"),
    "3.4.1": N_("Conditions governing access"), "3.4.2": N_("Conditions governing reproduction"),
    "3.4.3": N_("Language/scripts of material"),
    "3.4.4": N_("Physical characteristics and technical requirements"), "3.4.5": N_("Finding aids"),
    "3.5.1": N_("Existence and location of originals"), "3.5.2": N_("Existence and location of copies"),
    "3.5.3": N_("Related units of description"), "3.5.4": N_("Publication note"), "3.6.1": N_("Note"),
    "3.7.1": N_("Archivist's Note"), "3.7.2": N_("Rules or Conventions"), "3.7.3": N_("Date(s) of descriptions"),
}


def lines_of(text):
    """The lines of a text."""
    return text.split("\n")[:-1]


def read_numbers(lines):
    """The number and the head of each of these lines that has a number."""
    return [(int(found[1]), found[2]) for found in map(NUMBERED.fullmatch, lines) if found]


def read_fonds(text):
    """The list of fonds: the number and the head of each."""
    return read_numbers(lines_of(text))


class Head(NamedTuple):
    """A head line, and its parts if there is only one way to cut it: if ` [` and `] ` each occur in it once, in this
    order. until: the day at the end of one that ends like that of a closed unit, which proves nothing about the unit."""

    text: str
    code: str = ""
    level: str = ""
    title: str = ""
    until: str = ""

    @property
    def name(self):
        """The title before the code, if both are certain."""
        return f"{self.title}, {self.code}" if self.title not in ("", "-") else self.text


def read_head(text):
    """A head line in its parts."""
    if text.count(" [") != 1 or text.count("] ") != 1 or text.index("] ") < text.index(" ["):
        return Head(text)
    code, rest = text.split(" [")
    level, title = rest.split("] ")
    closed = CLOSED.fullmatch(title)
    return Head(text, code, level, title, closed[1] if closed else "")


class Line(NamedTuple):
    """A line below a head. kind: the number of an element, `Container`, or nothing if it is neither; number: the
    container's; mark: ` (from CODE)` at the end of what was found above."""

    kind: str
    number: int
    text: str
    mark: str = ""


def read_line(line, head=None):
    """A line below a head. With the head of a page, a mark is cut off if only one such cut is possible."""
    name, cut, text = line.partition(": ")
    kind, _, rest = name.partition(" ")
    is_box = kind == "Container" and rest.isdecimal()
    if not cut or not (is_box or ELEMENTS.get(kind) == rest):
        return Line("", 0, line)
    return Line(kind, int(rest) if is_box else 0, *split_mark(line, text, head))


def split_mark(line, text, head):
    """The text and its mark, which may be nothing."""
    if head is None or not may_be_from_above(line, head):
        return text, ""
    pieces = text.split(" (from ")
    cuts = [place for place in range(1, len(pieces)) if is_above(" (from ".join(pieces[place:])[:-1], head)]
    if len(cuts) != 1:
        return text, ""
    kept = " (from ".join(pieces[:cuts[0]])
    return kept, text[len(kept):]


def is_above(code, head):
    """Whether a unit above the one with this head may have this code."""
    return CODE.match(code) is not None and head.startswith((code + "/", code + " "))


class Page:
    """The page of a unit: its head; lines: elements and containers; units: number and head of each unit right below."""

    def __init__(self, text):
        self.head, *rest = lines_of(text)
        rest = [line[2:] for line in rest]
        self.units = read_numbers(line for line in rest if line.startswith("Unit "))
        self.lines = [line for line in rest if not line.startswith("Unit ")]

    def own_lines(self, odd=()):
        """The lines of the unit itself, without what is found above it. A line that ends as if it were found above is
        the unit's own only if it is one of the `odd` ones, of which the finding aid has said so."""
        return [line for line in self.lines if line in odd or not may_be_from_above(line, self.head)]


def may_be_from_above(line, head):
    """Whether a line of a page ends like one that is found above: with ` (from CODE)`, the code of a unit above this
    one."""
    if not line.endswith(")") or not FOUND_ABOVE.match(line):
        return False
    pieces = line[:-1].split(" (from ")
    codes = [" (from ".join(pieces[place:]) for place in range(1, len(pieces))]
    return any(head.startswith((code + "/", code + " ")) for code in codes)


class Node:
    """A unit of a finding aid: its head, its own lines, and the units right below it. own and branch are digests of its
    own text and of all of its branch; size is the number of units in its branch."""

    def __init__(self, head, lines=()):
        self.head, self.lines, self.units = head, list(lines), []

    def close(self):
        """Makes the digests and the size, once all below the unit was read."""
        self.own = own_digest(self.head, self.lines)
        self.branch = digest(self.own + b"".join(unit.branch for unit in self.units))
        self.size = 1 + sum(unit.size for unit in self.units)


def read_aid(text):
    """The first unit of a finding aid, with all below it."""
    path = []
    for line in lines_of(text):
        own = line.lstrip(" ")
        if not HEAD.match(own):
            path[-1].lines.append(own)
            continue
        depth = (len(line) - len(own)) // 2
        while len(path) > max(depth, 1 if path else 0):
            path.pop().close()
        path.append(Node(own))
        if depth:
            path[-2].units.append(path[-1])
    top = path[0]
    while path:
        path.pop().close()
    return top


def digest(data):
    """A short digest of bytes."""
    return hashlib.blake2b(data, digest_size=16).digest()


def own_digest(head, lines):
    """The digest of a unit's own text."""
    return digest("\n".join([head, *lines]).encode())


def name_of(line):
    """`3.1.3 Date(s)` of `3.1.3 Date(s): 1774-1893`."""
    return line.split(": ", 1)[0]


def value_of(line):
    """`1774-1893` of `3.1.3 Date(s): 1774-1893`."""
    return line.split(": ", 1)[-1]


def creators_in(lines):
    """The names of creators in lines without marks: the program joins those of a unit by `; `."""
    return {name for line in lines if line.startswith(CREATORS) for name in value_of(line).split("; ")}


def years_of(lines):
    """The least and the greatest year in the dates, or a pair of None."""
    return bounds_of("; ".join(value_of(line) for line in lines if line.startswith(DATES)))
