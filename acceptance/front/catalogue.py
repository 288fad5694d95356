"""The descriptions that the pages are tried with, besides examples/archives.csv."""

from collections.abc import Iterator
from pathlib import Path

from acceptance.front.files import csv_text, unit
from acceptance.front.office import TOP

# What somebody may type into a title, a name or a location to see what a page makes of it.
ODD = {
    "markup": "<img src=x onerror=\"document.title='broken'\"> & <b>other</b> &lt;papers&gt;",
    "script": "</title></style><script>document.title='broken'</script>",
    "address": "javascript:document.title='broken'",
    "quotes": "\"onmouseover='document.title=1' `${document.title=1}` {{1+1}}",
    "brackets": "Letters [copies] (from GB 0999 HUL) [Series] of 1790",
    "hebrew": "\u05de\u05db\u05ea\u05d1\u05d9\u05dd, letters from abroad",
    "override": "Plans \u202eneddih\u202c of \u2066locks\u2069",
    "separators": "One\u2028two\u2029three\u0085four\u000bfive",
    "closed": "closed until 2030-01-01",
    "lines": "3.1.3 Date(s): 1900",
    "unit": "Unit 1: GB 0999 HUL [Fonds] Hull Dock Company",
    "long": "Llanfairpwllgwyngyllgogerychwyrndrobwllllantysiliogogogoch" * 6,
    "accents": "Caf\u00e9 cafe\u0301 \u0130stanbul \ufb01le \U0001f4dc",
}


BAD_FILE = "legacyId,parentId,title\n1,,First\n2,77,Orphan\n"
SHIPS = "Ships, cargoes and the duties that were paid on them. "


def dock_company() -> str:
    """A fonds with a draft, containers, what is found above, and each odd text as title, value, code and name."""
    return csv_text(
        unit("1", "", "Hull Dock Company", identifier="HUL", levelOfDescription="Fonds", eventDates="1774-1893",
             extentAndMedium="6 linear metres", eventActors="Hull Dock Company",
             archivalHistory="Kept at the dock office until 1893, then by the railway; transferred in 1977.",
             scopeAndContent="Minutes, plans and letters of the company that built the first enclosed dock of the port.",
             accessConditions="Open to the public."),
        unit("2", "1", "Minutes", identifier="1", levelOfDescription="Series", eventDates="1774-1850",
             extentAndMedium="12 volumes", physicalObjectName="Box 1", physicalObjectLocation="Strongroom 2"),
        unit("3", "1", "Plans of the locks", identifier="2", levelOfDescription="Series", eventDates="1803-1829",
             physicalObjectName="Box 2|Roll 7", physicalObjectLocation="Strongroom 1|Plan chest"),
        unit("4", "1", "Letters of the secretary", identifier="3", levelOfDescription="Series", publicationStatus="Draft",
             physicalObjectName="Box 3", physicalObjectLocation="Strongroom 1"),
        unit("5", "2", "Board, first volume", identifier="1", levelOfDescription="File",
             scopeAndContent="Weekly meetings (from GB 0999 HUL) and yearly accounts."),
        *(unit(name, "1", text, identifier=f"X{place}", levelOfDescription="Series", scopeAndContent=text,
               eventActors=f"{text} (from GB 0999 HUL)", physicalObjectName=text.replace("|", "/"),
               physicalObjectLocation=text.replace("|", "/"))
          for place, (name, text) in enumerate(ODD.items())),
        unit("code", "1", "Its code is odd", identifier="<b>[Series] x", levelOfDescription="[File] <i>"),
        unit("blank", "1", "", scopeAndContent="Neither code, title nor level."),
        unit("rank", "3", "Of a level above", identifier="1", levelOfDescription="Subfonds"),
        unit("lacks", "", "It lacks dates", identifier="LCK", levelOfDescription="Fonds"),
        unit("below blank", "blank", "Below a blank one", identifier="Y", levelOfDescription="File"))


def deep(levels: int) -> str:
    """A chain of units, each below the one before."""
    return csv_text(*(unit(str(level), str(level - 1) if level > 1 else "", f"Level {level}", identifier="D",
                           levelOfDescription="Other") for level in range(1, levels + 1)))


def many(count: int) -> str:
    """So many top units, each with a container."""
    return csv_text(*(unit(str(number), "", f"Unit {number}", identifier=f"M{number}", levelOfDescription="Fonds",
                           physicalObjectName=f"Carton {number}", physicalObjectLocation="Strongroom 9")
                      for number in range(1, count + 1)))


def wide(count: int) -> str:
    """A fonds with so many files right below it."""
    return csv_text(
        unit("top", "", "Customs House", identifier="WIDE", levelOfDescription="Fonds", eventDates="1700-1950"),
        *(unit(str(number), "top", f"Entries of ship {number}", identifier=str(number), levelOfDescription="File",
               eventDates=str(1700 + number % 250), extentAndMedium="1 bundle", scopeAndContent=SHIPS * 8)
          for number in range(1, count + 1)))


def harbour() -> str:
    """A fonds with a series of 120 files, one of which is in two cartons and has a word with a combining accent; and a
    fonds without containers."""
    files = [unit(f"file {number}", "letters", f"Letters of captain {number}", identifier=str(number),
                  levelOfDescription="File", eventDates=str(1800 + number), extentAndMedium="1 bundle",
                  scopeAndContent=SHIPS.strip(), physicalObjectName=f"Carton {number}",
                  physicalObjectLocation="Strongroom 2|Strongroom 2")
             for number in range(1, 121)]
    files[76] |= {"title": "Logbook of the Cafe\u0301 Zum Anker", "physicalObjectName": "Carton 77a|Carton 77b",
                  "scopeAndContent": "Guests, sailors and debts. " * 20}
    return csv_text(
        unit("top", "", "Harbour Board", identifier="HAR", levelOfDescription="Fonds", eventDates="1800-1950",
             extentAndMedium="30 metres", eventActors="Harbour Board", archivalHistory="Kept at the harbour until 1950."),
        unit("letters", "top", "Letters", identifier="1", levelOfDescription="Series", eventDates="1850-1899",
             extentAndMedium="120 files"),
        unit("plans", "top", "Plans of caf\u00e9s", identifier="2", levelOfDescription="Series", eventDates="1860",
             extentAndMedium="40 sheets"),
        unit("lists", "letters", "Lists", identifier="lists", levelOfDescription="Subseries"),
        *files, unit("bare", "", "Photographs", identifier="BAR", levelOfDescription="Fonds", eventDates="1900-1910"))


def archives(folder: Path, **texts: str) -> Iterator[tuple[str, Path]]:
    """Sources and files for `new_office`: examples/archives.csv, and of each name one with this text in the folder."""
    yield "archives", TOP / "examples/archives.csv"
    for name, text in texts.items():
        path = folder / f"{name}.csv"
        path.write_bytes(text.encode())
        yield name, path
