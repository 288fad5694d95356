"""The elements of a description, the ranks of levels, and texts."""
import re

ELEMENTS = [
    ("3.1.1", "Reference code(s)", ["identifier"]),
    ("3.1.2", "Title", ["title"]),
    ("3.1.3", "Date(s)", ["eventDates"]),
    ("3.1.4", "Level of description", ["levelOfDescription"]),
    ("3.1.5", "Extent and medium of the unit of description", ["extentAndMedium"]),
    ("3.2.1", "Name of creator(s)", ["eventActors"]),
    ("3.2.2", "Administrative / Biographical history", ["eventActorHistories"]),
    ("3.2.3", "Archival history", ["archivalHistory"]),
    ("3.2.4", "Immediate source of acquisition or transfer", ["acquisition"]),
    ("3.3.1", "Scope and content", ["scopeAndContent"]),
    ("3.3.2", "Appraisal, destruction and scheduling information", ["appraisal"]),
    ("3.3.3", "Accruals", ["accruals"]),
    ("3.3.4", "System of arrangement", ["arrangement"]),
    ("3.4.1", "Conditions governing access", ["accessConditions"]),
    ("3.4.2", "Conditions governing reproduction", ["reproductionConditions"]),
    ("3.4.3", "Language/scripts of material", ["language", "script"]),
    ("3.4.4", "Physical characteristics and technical requirements", ["physicalCharacteristics"]),
    ("3.4.5", "Finding aids", ["findingAids"]),
    ("3.5.1", "Existence and location of originals", ["locationOfOriginals"]),
    ("3.5.2", "Existence and location of copies", ["locationOfCopies"]),
    ("3.5.3", "Related units of description", ["relatedUnitsOfDescription"]),
    ("3.5.4", "Publication note", ["publicationNote"]),
    ("3.6.1", "Note", ["generalNote"]),
    ("3.7.1", "Archivist's Note", ["archivistNote"]),
    ("3.7.2", "Rules or Conventions", ["rules"]),
    ("3.7.3", "Date(s) of descriptions", ["revisionHistory"]),
]
CODE, TITLE, LEVEL = "3.1.1", "3.1.2", "3.1.4"
ESSENTIAL = {CODE, TITLE, "3.1.3", LEVEL, "3.1.5", "3.2.1"}
FOUND_ABOVE = {"3.2.1", "3.2.2", "3.2.3", "3.2.4", "3.4.1", "3.4.2", "3.4.3", "3.7.2"}
RANKS = {"fonds": 1, "collection": 1, "subfonds": 2, "series": 3, "subseries": 4, "file": 5, "item": 6}
BLANK = " \t\r\n"


def rank(level):
    """A level's rank, where it has one: its case in ASCII and its hyphens count for nothing."""
    return RANKS.get(level.replace("-", "").lower())


def one_line(text):
    """A text with a space for each end of a line."""
    return re.sub("\r\n|\r|\n", " ", text)


def text(lines):
    return "".join(f"{it}\n" for it in lines)
