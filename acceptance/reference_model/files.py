"""The rows of a file, or its first fault."""
import csv
import dataclasses
import io

from .elements import BLANK, ELEMENTS
from .limits import LAST_ROW, MOST_BYTES
from .refusals import refuse

BOX = ["physicalObjectName", "physicalObjectLocation", "physicalObjectType"]
SPLIT = {"eventDates", "eventActors", "eventActorHistories", "language", "script"}
OTHERS = ["legacyId", "parentId", "qubitParentSlug", "publicationStatus", "culture", *BOX]
READ = {*OTHERS, *(column for _, _, columns in ELEMENTS for column in columns)}
MARK = "\ufeff"


@dataclasses.dataclass
class Row:
    """A row of a file: its number, the numbers of its unit and of the parent in the source, and what it says."""

    number: int
    legacy: str
    parent: str
    draft: bool
    texts: dict
    boxes: list


def entries(field):
    """The values that a field separates by `|`, without the blanks around them; NULL stands for no text."""
    trimmed = (it.strip(BLANK) for it in field.split("|"))
    return ["" if it == "NULL" else it for it in trimmed]


def texts_of(fields):
    """The texts of a row by the numbers of their elements; several values are joined by semicolons."""
    texts = {}
    for number, _, columns in ELEMENTS:
        values = [it for column in columns for it in (entries(fields[column]) if column in SPLIT else [fields[column]]) if it]
        if values:
            texts[number] = "; ".join(values)
    return texts


def boxes_of(fields):
    """The boxes that a row names, each once, as name, location and type."""
    names, *others = [entries(fields[column]) for column in BOX]
    triples = [(name, *(it[n] if n < len(it) else "" for it in others)) for n, name in enumerate(names)]
    return list(dict.fromkeys(it for it in triples if it[0]))


def is_blank(record):
    return not any(record)


def records_of(file):
    """The records of a file's bytes, trimmed. What Python reads other than the office does, no file here has."""
    try:
        said = file.decode().removeprefix(MARK)
    except UnicodeDecodeError:
        refuse(22, row=0, cause=1)
    records = [[it.strip(BLANK) for it in fields] for fields in csv.reader(io.StringIO(said, newline="")) if fields]
    refuse(22, not records, row=1, cause=2)
    refuse(22, "legacyId" not in records[0], row=1, cause=3)
    refuse(22, any(records[0].count(it) > 1 for it in READ), row=1, cause=4)
    return records


def is_translation(first, culture):
    """Whether a row has another culture than the first row of its unit, and both are named."""
    return first and culture and first != culture


def row_of(number, fields):
    """The row of this number, with its fields read; whatever is not published is a draft."""
    draft = fields["publicationStatus"].lower() != "published"
    return Row(number, fields["legacyId"], fields["parentId"], draft, texts_of(fields), boxes_of(fields))


def read_file(file):
    """The rows of a file and how many translations it has, or its first fault."""
    header, *records = records_of(file)
    rows, cultures, translations = [], {}, 0
    for number, record in enumerate(records, 2):
        if is_blank(record):
            refuse(22, number > LAST_ROW, row=number, cause=9)
            continue
        refuse(22, len(record) != len(header), row=number, cause=5)
        fields = {**dict.fromkeys(READ, ""), **dict(zip(header, record))}
        legacy, culture = fields["legacyId"], fields["culture"]
        if legacy in cultures and is_translation(cultures[legacy], culture):
            refuse(22, number > LAST_ROW, row=number, cause=9)
            translations += 1
            continue
        refuse(22, not legacy, row=number, cause=6)
        refuse(22, legacy in cultures, row=number, cause=7)
        refuse(22, fields["qubitParentSlug"] and not fields["parentId"], row=number, cause=8)
        refuse(22, number > LAST_ROW, row=number, cause=9)
        refuse(22, any(len(fields[it].encode()) > MOST_BYTES for it in READ), row=number, cause=10)
        cultures[legacy] = culture
        rows.append(row_of(number, fields))
    return rows, translations
