"""What an import of a file would change: the file is imported by the program into a copy of an office, and the two are
compared.

A difference is a row of COLUMNS. Its kind is one of KINDS, whose words stand there, in the order in which they are told;
`codes` counts the units below whose reference codes change with an identifier."""

import json
import pathlib
import shutil
import sqlite3
import subprocess
import tempfile
from contextlib import closing
from dataclasses import dataclass, field

from catalogues import open_copy, read_units
from csv_records import records
from look_at_file import Reader

KINDS = {
    "language": "The first row is in another language than the office has",
    "emptied": "Emptied",
    "changed": "Changed",
    "boxes": "Other boxes",
    "new": "New",
    "status": "The status in the file is another, and the import does not change it",
    "place": "The place in the file is another, and the import does not change it",
    "lacking": "Not in the file; the import leaves it",
}
COLUMNS = ("kind", "row", "legacyId", "unit", "title", "what", "old", "new", "codes")
LEVEL = 4
SCRIPT = "script"
SPLIT = ("eventDates", "eventActors", "eventActorHistories", "language")


@dataclass
class Tried:
    """What came of a try: the program's answer, its refusal as (code, row, cause) if there is one, and the
    differences."""

    answer: dict = field(default_factory=dict)
    refused: tuple | None = None
    differences: list = field(default_factory=list)


class Trial:
    """Tries files on a copy. `program`: the command; `copy`: the file of the copy, which is not changed; `rules`: those of
    the look at a file; `last`: the bytes of the file that was imported last from the same source, or None."""

    def __init__(self, program, copy, rules, last=None):
        self.program, self.copy, self.rules, self.last = program, copy, rules, last
        names = [name for name in rules["elements"] if not name.startswith("physicalObject") and name != SCRIPT]
        self.labels = {k: rules["elements"][name] for k, name in enumerate(names, 1)}
        self.texts = {k: name for k, name in enumerate(names, 1) if k > 1 and k != LEVEL and name not in SPLIT}

    def of(self, source, data):
        """What the import of these bytes from this source would do."""
        with tempfile.TemporaryDirectory() as room:
            before, after = pathlib.Path(room) / "before.db", pathlib.Path(room) / "after.db"
            for store in (before, after):
                shutil.copyfile(self.copy, store)
            file = pathlib.Path(room) / "file.csv"
            file.write_bytes(data)
            words = [self.program, "import", "--store", after, "--source", source, file]
            done = subprocess.run(words, capture_output=True, text=True, check=False)
            if done.returncode:
                return refusal_of(done)
            with closing(open_copy(before)) as old, closing(sqlite3.connect(after)) as new:
                found = self.compare(read_units(old, source), read_units(new, source), source, data)
        return Tried(answer=json.loads(done.stdout), differences=found)

    def compare(self, old, new, source, data):
        """The differences, in the order of KINDS, and within a kind in that of the file."""
        file = read_file(data, self.rules)
        last = read_file(self.last, self.rules) if self.last else None
        found = []
        for legacy, unit in new.items():
            row = file.units.get(legacy)
            about = {"row": row.row.number if row else "", "legacyId": legacy, "unit": unit.number,
                     "title": unit.texts.get(2, "")}
            if legacy not in old:
                found.append({**about, "kind": "new", "old": "", "what": "draft" if unit.is_draft else "published",
                              "new": " / ".join(unit.texts.get(k, "") for k in (LEVEL, 1, 2) if unit.texts.get(k))})
            elif row:
                found += [{**about, **one} for one in self.of_unit(old[legacy], unit)]
                found += [{**about, **one} for one in of_file(unit, row, file, source)]
                found += [{**about, **one} for one in self.of_language(old[legacy], legacy, file, last)]
            else:
                found.append({**about, "kind": "lacking", "what": "", "old": "", "new": ""})
        order = list(KINDS)
        found.sort(key=lambda one: (order.index(one["kind"]), one["row"] or one["unit"]))
        return [[one.get(name, 0) for name in COLUMNS] for one in found]

    def of_unit(self, old, new):
        """What the import changes in a known unit."""
        for k in sorted(old.texts.keys() | new.texts.keys()):
            before, after = old.texts.get(k, ""), new.texts.get(k, "")
            if before != after:
                yield {"kind": "changed" if after else "emptied", "what": self.labels[k], "old": before, "new": after,
                       "codes": new.below if k == 1 else 0}
        if old.boxes != new.boxes:
            yield {"kind": "boxes", "what": "Containers", "old": box_words(old.boxes), "new": box_words(new.boxes)}

    def of_language(self, old, legacy, file, last):
        """Whether the row that counts is in another language than the texts that the office has: those of the first row
        in the file that was imported last, or, if another row of this file has them, of that row."""
        culture = file.units[legacy].culture
        before = last.units[legacy].culture if last and legacy in last.units else ""
        if not before:
            before = self.language_of_texts(old, file.rows_of[legacy], file)
        if before and culture and before != culture:
            yield {"kind": "language", "what": "culture", "old": before, "new": culture}

    def language_of_texts(self, old, rows, file):
        """The culture of the row that has more of the office's texts than the first one; nothing if none has."""
        many = [sum(old.texts.get(k, "") == file.value(row, name) != "" for k, name in self.texts.items()) for row in rows]
        best = many.index(max(many))
        return file.value(rows[best], "culture") if best else ""


def of_file(unit, row, file, source):
    """Where a known unit is otherwise than the file says, which no import changes."""
    if "publicationStatus" in file.place and row.is_draft != unit.is_draft:
        words = {True: "draft", False: "published"}
        yield {"kind": "status", "what": "publicationStatus", "old": words[unit.is_draft], "new": words[row.is_draft]}
    wanted = (source, row.parent) if row.parent else None
    if "parentId" in file.place and wanted != unit.above:
        yield {"kind": "place", "what": "parentId", "old": place_words(unit.above, source),
               "new": place_words(wanted, source)}


def place_words(above, source):
    """The place of a unit as the file would say it: the legacyId of the unit above, blank at the top."""
    if above is None:
        return ""
    return above[1] if above[0] == source else f"{above[1]} of {above[0]}"


def box_words(boxes):
    """Containers, each with its name, location and kind as far as it has them."""
    return "; ".join(", ".join(part for part in box if part) for box in boxes)


def read_file(data, rules):
    """The rows of a file as the office reads them, also those of translations, by legacyId (`rows_of`)."""
    rows, _ = records(data.decode("utf-8").removeprefix("\ufeff"))
    reader = Reader(rows[0].fields, rules)
    reader.rows_of = {}
    for row in rows[1:]:
        if any(row.fields):
            reader.take(row)
            reader.rows_of.setdefault(reader.value(row, "legacyId"), []).append(row)
    return reader


def refusal_of(done):
    """What the program said of a file that it did not import: `refused CODE NAME`, with a row and a cause, or other
    words."""
    said = (done.stderr or done.stdout).strip()
    words = said.split()
    numbers = [int(words[place]) if len(words) > place else 0 for place in (1, 4, 6)] if words[:1] == ["refused"] else None
    return Tried(answer={"said": said}, refused=tuple(numbers) if numbers else (0, 0, 0))
