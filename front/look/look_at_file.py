"""Looks at the bytes of a file of descriptions by the rules of the import page."""

from dataclasses import dataclass, field
import re

from csv_records import BLANK, LINE_END, Row, entries, lost_quote, place_of, records
from dates import dates_of
from look_at_units import look_at_units
from look_at_values import look_at_values
from packed import SIGN, unpack
from wording import counted, joined, quoted, text

FIRST_BYTES: tuple[tuple[bytes, str, dict[str, dict]], ...] = (
    (b"\xd0\xcf\x11\xe0", "workbook", {}),
    (b"\xff\xfe", "utf16", {}),
    (b"\xfe\xff", "utf16", {}),
    (b"%PDF", "other_kind", {"kind": text("a PDF")}),
    (b"{\\rtf", "other_kind", {"kind": text("a document of a word processor")}),
)


@dataclass(slots=True)
class Unit:
    """The first row of a legacyId, by the columns that matter here."""

    row: Row
    legacy: str
    parent: str
    identifier: str
    title: str
    culture: str
    status: str
    boxes: list

    @property
    def is_draft(self):
        """Whether the unit is not published."""
        return self.status.lower() != "published"


@dataclass
class Seen:
    """What was found: advice as pairs of a name and its values; counts and units (none if the rows cannot be read)."""

    advice: list = field(default_factory=list)
    counts: dict = field(default_factory=dict)
    units: list = field(default_factory=list)

    def say(self, name, **values):
        """Adds an advice with its values."""
        self.advice.append((name, values))


class Look:
    """Looks at the bytes of a file by the rules."""

    def __init__(self, rules):
        self.rules, self.limits = rules, rules["limits"]
        self.read = [*rules["elements"], *rules["others"]]

    def at(self, data):
        """Returns what is seen of a file with these bytes."""
        seen = Seen()
        if len(data) > self.limits["bytes"]:
            seen.say("large", size=self.limits["bytes"] >> 20)
        file = self.text_of(data, seen)
        if file is None:
            return seen
        rows, is_open = records(file)
        if not rows:
            seen.say("empty")
        elif self.has_header(file, rows, seen):
            self.look_at_columns(rows, seen)
            if is_open:
                seen.say("unclosed", row=rows[-1].number, sheet=rows[-1].sheet)
            if lost := lost_quote(file):
                seen.say("lost_quote", **lost)
            self.look_at_rows(rows, seen)
        return seen

    # What kind of file it is

    def text_of(self, data, seen):
        """The text of the file; None if it has none, and that is said."""
        if not data:
            return seen.say("empty")
        if data.startswith(SIGN):
            name, values = unpack(data)[1]
            return seen.say(name, **values)
        for first, name, values in FIRST_BYTES:
            if data.startswith(first):
                return seen.say(name, **values)
        if 0 in data[:2]:
            return seen.say("utf16")
        try:
            file = data.decode("utf-8")
        except UnicodeDecodeError as wrong:
            return seen.say("not_utf8", **place_of(data, wrong.start))
        file = file.removeprefix("\ufeff")
        if file.lstrip(BLANK).startswith("<"):
            return seen.say("other_kind", kind=text("XML or HTML"))
        return file

    def has_header(self, file, rows, seen):
        """Whether the first record names legacyId; else what is in the way is said."""
        header = rows[0].fields
        if "legacyId" in header:
            return True
        if file.lower().startswith("sep="):
            seen.say("sep_line", line=LINE_END.split(file, maxsplit=1)[0])
        elif mark := next((name for one, name in self.rules["separators"].items()
                           if is_header(records(file, one, 1)[0][0].fields)), None):
            seen.say("separator", separator=text(mark))
        elif is_header(header):
            seen.say("spelling", found=next(name for name in header if fold_name(name) == "legacyid"),
                     column="legacyId")
        elif row := self.later_header(file):
            seen.say("title_line", sheet=row.sheet, lines=row.sheet - 1)
        elif kind := self.other_export(header):
            seen.say("other_export", kind=text(kind))
        else:
            seen.say("no_legacy_id", header=header)
        return False

    def later_header(self, file):
        """The header that stands below something else, whatever separates its columns."""
        for mark in (",", *self.rules["separators"]):
            for row in records(file, mark, self.limits["above"])[0]:
                if is_header(row.fields):
                    return row
        return None

    def other_export(self, header):
        """What AtoM exports with such a header, if it is no archival descriptions; else None."""
        return next((kind for kind, columns in self.rules["exports"].items() if set(columns) <= set(header)), None)

    # Columns

    def look_at_columns(self, rows, seen):
        """Says which columns are there twice, missing, or not read."""
        header = rows[0].fields
        if kind := self.other_export(header):
            seen.say("looks_other", kind=text(kind))
        twice = [name for name in self.read if header.count(name) > 1]
        if twice:
            seen.say("header_twice", columns=twice)
        missing = [name for name in self.read if name not in header]
        unread = [name for name in dict.fromkeys(header) if name and name not in self.read]
        known = {fold_name(column).removesuffix("s"): column for column in reversed(missing)}
        meant = {name: self.find_meant(name, missing, known) for name in unread}
        for name, column in meant.items():
            if column:
                seen.say("similar", found=name, column=column)
        emptied = [joined(text(label), f" ({name})") for name, label in self.rules["elements"].items() if name in missing]
        if emptied:
            seen.say("emptied", columns=emptied)
        if "parentId" in missing:
            seen.say("no_parents")
        if "publicationStatus" in missing:
            seen.say("no_status")
        self.look_at_unread(rows, [name for name, column in meant.items() if not column], seen)

    def look_at_unread(self, rows, others, seen):
        """Says which columns are not read: those with values, and those that are blank."""
        filled = {place for row in rows[1:] for place, value in enumerate(row.fields) if value}
        named = {name for place, name in enumerate(rows[0].fields) if place in filled}
        for advice, is_filled in (("unread", True), ("unread_blank", False)):
            columns = [name for name in others if (name in named) == is_filled]
            if columns:
                seen.say(advice, columns=columns)

    def find_meant(self, name, missing, known):
        """The missing column that a name seems to mean, or None; known: the missing ones without case, marks and plural."""
        one = fold_name(name)
        if one.removesuffix("s") in known:
            return known[one.removesuffix("s")]
        column = self.rules["also"].get(one)
        return column if column in missing else None

    # Rows

    def look_at_rows(self, rows, seen):
        """Says what is wrong or odd in the rows, and counts them."""
        header = rows[0].fields
        if any(name == "header_twice" for name, _ in seen.advice):
            return
        reader = Reader(header, self.rules)
        filled = [row for row in rows[1:] if any(row.fields) or row.number > self.limits["rows"] + 1]
        for row in filled:
            reader.take(row)
        self.look_at_repeats(rows, reader, seen)
        if not reader.faults:
            look_at_units(reader, "publicationStatus" in header, self.limits["depth"], seen)
        look_at_values(filled, reader, seen)
        undated = [(row, dates) for row in filled if (dates := dates_of(row, reader.header))]
        if undated:
            row, dates = undated[0]
            seen.say("undated", rows=len(undated), row=row.number, sheet=row.sheet, found=dates)
        seen.units = list(reader.units.values())
        seen.counts = {
            "rows": sum(any(row.fields) for row in filled),
            "units": len(seen.units),
            "drafts": sum(unit.is_draft for unit in seen.units),
            "translations": reader.translations,
            "tops": sum(not unit.parent for unit in seen.units),
            "containers": len({box for unit in seen.units for box in unit.boxes}),
        }

    def look_at_repeats(self, rows, reader, seen):
        """Says from which row on the file repeats itself, or else what the office would refuse first; and which row is
        the header again."""
        repeat = repeated_from(rows, reader)
        again = [row for row in rows[1:] if row.fields == rows[0].fields]
        if repeat:
            seen.say("repeated", row=repeat.number, sheet=repeat.sheet,
                     with_header=text(", header and all") if repeat in again else "")
        elif reader.faults:
            self.say_fault(reader, seen)
        if again and not repeat:
            seen.say("header_again", rows=len(again), row=again[0].number, sheet=again[0].sheet)

    def say_fault(self, reader, seen):
        """Says what the office would refuse first."""
        cause, row, column = reader.faults[0]
        legacy, title = reader.value(row, "legacyId"), reader.value(row, "title")
        about = [column and text("column {column}", column=column), legacy and f"legacyId {legacy}",
                 title and quoted(title[:60])]
        is_equal = cause == 7 and reader.units[legacy].row.fields == row.fields
        means, todo = map(text, self.rules["causes"]["7 equal" if is_equal else str(cause)])
        if cause == 5:
            means = joined(means, " ", text("({found}, not {wanted})", found=len(row.fields), wanted=len(reader.header)))
        if others := len(reader.faults) - 1:
            more = counted(others, "{number} row more cannot be read either.", "{number} rows more cannot be read either.")
            todo = joined(todo, " ", more)
        seen.say("fault", row=row.number, sheet=row.sheet, unit=joined(*(joined(", ", one) for one in about if one)),
                 cause=means, todo=todo, number=cause)


def repeated_from(rows, reader):
    """The row from which all that follows is the file's own beginning once more, or None."""
    if not reader.faults or reader.faults[0][0] != 7:
        return None
    again = reader.faults[0][1]
    first = reader.units[reader.value(again, "legacyId")].row
    begin = again.number - 1
    if rows[begin - 1].fields == rows[0].fields and first.number == 2:
        begin -= 1
    length = len(rows) - begin
    source = rows[first.number - (again.number - begin):][:length]
    is_whole = first.number == 2 and length > 1
    return rows[begin] if is_whole and [row.fields for row in source] == [row.fields for row in rows[begin:]] else None


class Reader:
    """Reads rows as the office does: units, translations, and rows that the office refuses."""

    def __init__(self, header, rules):
        self.header, self.limits = header, rules["limits"]
        self.read = [name for name in (*rules["elements"], *rules["others"]) if name in header]
        self.place = {name: header.index(name) for name in self.read}
        self.units, self.translations, self.faults, self.cultures = {}, 0, [], {}

    def value(self, row, column):
        """The value of a column in a row; nothing if it is not there."""
        place = self.place.get(column)
        return row.fields[place] if place is not None and place < len(row.fields) else ""

    def take(self, row):
        """Reads a row: a unit, a translation, or a fault."""
        legacy = self.value(row, "legacyId")
        first = self.units.get(legacy)
        culture = self.value(row, "culture")
        self.cultures.setdefault(culture)
        is_translation = bool(first and first.culture and culture and first.culture != culture)
        cause, column = self.cause(row, first, is_translation)
        if cause:
            self.faults.append((cause, row, column))
        elif is_translation:
            self.translations += 1
        if not first and legacy:
            self.units[legacy] = Unit(
                row,
                legacy,
                *(self.value(row, name) for name in ("parentId", "identifier", "title", "culture", "publicationStatus")),
                self.boxes(row),
            )

    def cause(self, row, first, is_translation):
        """The lowest cause of a refusal that the file itself shows, and the column if it matters."""
        if any(row.fields) and len(row.fields) != len(self.header):
            return 5, None
        if any(row.fields) and not is_translation:
            if not self.value(row, "legacyId"):
                return 6, None
            if first:
                return 7, None
            if self.value(row, "qubitParentSlug") and not self.value(row, "parentId"):
                return 8, None
        if row.number > self.limits["rows"] + 1:
            return 9, None
        long = None if is_translation else self.long_column(row)
        return (10, long) if long else (0, None)

    def long_column(self, row):
        """The first column whose value is too long, or None."""
        return next(
            (
                name
                for name in self.read
                if len(self.value(row, name)) * 4 > self.limits["field"]
                and len(self.value(row, name).encode()) > self.limits["field"]
            ),
            None,
        )

    def boxes(self, row):
        """The containers of a row: name, location and kind of each entry that has a name."""
        columns = [entries(self.value(row, f"physicalObject{what}")) for what in ("Name", "Location", "Type")]
        places = range(len(columns[0]))
        boxes = [tuple(column[place] if place < len(column) else "" for column in columns) for place in places]
        return list(dict.fromkeys(box for box in boxes if box[0]))


def fold_name(name):
    """A column's name without case, spaces and marks."""
    return re.sub("[^a-z0-9]", "", name.lower())


def is_header(fields):
    """Whether a header has a column that means legacyId."""
    return any(fold_name(name) == "legacyid" for name in fields)
