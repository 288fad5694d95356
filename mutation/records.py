"""Reads the mistakes that must be noticed. All have one form: what is wrong then, which file has it, which text stands there
in place of which other, and what notices it.

    rule: OpenDay to an earlier day
    file: specs/State.antt
    old:     unless (int_lt s.day day) DayNotLater
       |     ∷ when (list_any (is_out s) (containers s)) StillIssued
    new:     when (list_any (is_out s) (containers s))
       >  StillIssued
    refused by: office_core::worked::worked_rows

The first line is `rule: NAME` or `fault: NAME`; a file NAME.edit has one mistake, without this line. More pairs of texts may
follow, and other files. What notices a mistake is one of these; in the files of mutation/edits nothing is said, and the
changed function must no longer be proved:

    refused by: NAME            a law or rows that the prover no longer proves; after a space, one row
    seen in: scenario NAME      a scenario of acceptance
    noticed by: WHAT            a test, a part of acceptance/front or the compiler: who tries the mistakes says what it may be
    reason: WHY                 nothing can notice it, or it does no harm

`file` holds for the records that follow. An empty line is between two records. In a text, a line that begins with `   |` is
its next line, and one that begins with `   >` goes on with the line before. `$` ends a line that would end with a space, or
with `$`. An empty `new:`, or none, takes the old text away. A line that begins with `#` is a comment."""

import dataclasses
from collections.abc import Iterator
from pathlib import Path

TOP = Path(__file__).resolve().parents[1]
NAMES = ("rule", "fault")
NOTICED = ("refused by", "seen in", "noticed by", "reason")
NEXT_LINE, SAME_LINE = "   |", "   >"
Fields = list[tuple[str, str]]


@dataclasses.dataclass(frozen=True)
class Change:
    """A text of a file, and what stands in its place."""

    file: str
    old: str
    new: str

    def why_not(self, text: str) -> str:
        """Why it cannot be made in the text of its file, or nothing."""
        times = text.count(self.old)
        if times != 1:
            return f"an old text stands {times} times in {self.file}, and not once: {self.old}"
        return f"it changes nothing in {self.file}: {self.old}" if self.old == self.new else ""

    def made_in(self, text: str) -> str:
        return text.replace(self.old, self.new, 1)


@dataclasses.dataclass(frozen=True)
class Record:
    """A mistake: its name, the folder of its file, its changes, and what notices it."""

    name: str
    folder: str
    changes: tuple[Change, ...]
    refused_by: str = ""
    seen_in: str = ""
    noticed_by: str = ""
    reason: str = ""

    @property
    def file(self) -> str:
        return self.changes[0].file

    @property
    def old(self) -> str:
        return self.changes[0].old

    @property
    def new(self) -> str:
        return self.changes[0].new

    def why_not(self, folder: Path) -> str:
        """Why its changes cannot be made below this folder, one after the other; or nothing."""
        texts: dict[str, str] = {}
        for change in self.changes:
            path = folder / change.file
            if not path.is_file():
                return f"there is no file {change.file}"
            text = texts.get(change.file) or path.read_bytes().decode()
            if why := change.why_not(text):
                return why
            texts[change.file] = change.made_in(text)
        return ""


def read(folder: Path) -> list[Record]:
    """The records of all files *.rules and *.faults below a folder, in the order of their names."""
    paths = sorted(path for path in folder.rglob("*") if path.suffix in (".rules", ".faults"))
    return [record for path in paths for record in of_file(path, str(path.parent.relative_to(folder)))]


def of_file(path: Path, folder: str, file: str = "") -> Iterator[Record]:
    """The records of a file, which stands in this folder; `file` is what they change until they name another."""
    for block in path.read_text(encoding="utf-8").split("\n\n"):
        fields = fields_of(block.splitlines(), path)
        if [key for key, _ in fields] == ["file"]:
            file = fields[0][1]
        elif fields:
            record = make_record(fields, folder, file, path)
            file = record.changes[-1].file
            yield record


def of_edit(path: Path) -> Record:
    fields = fields_of(path.read_text(encoding="utf-8").splitlines(), path)
    return make_record([("fault", path.stem), *fields], path.parent.name, "", path)


def fields_of(lines: list[str], path: Path) -> Fields:
    """The fields of a record, each with its key, in their order."""
    fields: Fields = []
    for line in lines:
        if fields and line.startswith((NEXT_LINE, SAME_LINE)):
            key, text = fields.pop()
            more = ("\n" if line.startswith(NEXT_LINE) else "") + text_in(line[len(NEXT_LINE):])
            fields.append((key, text + more))
        elif line and not line.startswith("#"):
            key, _, rest = line.partition(":")
            if key not in (*NAMES, "file", "old", "new", *NOTICED):
                raise ValueError(f"{path}: {line!r} is no line of a record")
            fields.append((key, text_in(rest)))
    return fields


def text_in(rest: str) -> str:
    """The text of a line after its key or sign, without what ends it."""
    return rest[1:].removesuffix("$")


def make_record(fields: Fields, folder: str, file: str, path: Path) -> Record:
    """The record of these fields; raises ValueError if it has no name, no file or no old text."""
    name, changes, noticed = "", [], {}
    for number, (key, text) in enumerate(fields):
        if key in NAMES:
            name = text
        elif key == "file":
            file = text
        elif key == "old":
            after, new = fields[number + 1] if number + 1 < len(fields) else ("", "")
            changes.append(Change(file, text, new if after == "new" else ""))
        elif key in NOTICED:
            noticed[key.replace(" ", "_")] = text
    if not (name and file and changes):
        raise ValueError(f"{path}: {fields} has no name, no file or no old text")
    return Record(name, folder, tuple(changes), **noticed)
