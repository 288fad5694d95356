"""Files of descriptions, as a spreadsheet or AtoM saves them."""

import csv
import io
import zipfile

COLUMNS = tuple("""
legacyId parentId qubitParentSlug identifier title levelOfDescription publicationStatus culture eventDates extentAndMedium
eventActors eventActorHistories archivalHistory acquisition scopeAndContent appraisal accruals arrangement accessConditions
reproductionConditions language script physicalCharacteristics findingAids locationOfOriginals locationOfCopies
relatedUnitsOfDescription publicationNote generalNote archivistNote rules revisionHistory
physicalObjectName physicalObjectLocation physicalObjectType
""".split())


def csv_text(*rows, columns=COLUMNS, **how):
    """A file with these columns; each row is a dict, or a text that stands there as it is."""
    text = io.StringIO(newline="")
    write = csv.writer(text, **how)
    write.writerow(columns)
    for row in rows:
        if isinstance(row, str):
            text.write(row)
        else:
            write.writerow([row.get(column, "") for column in columns])
    return text.getvalue()


def zipped(files):
    """A ZIP with these files: their bytes by their names."""
    with io.BytesIO() as made:
        with zipfile.ZipFile(made, "w") as packed:
            for name, data in files.items():
                packed.writestr(zipfile.ZipInfo(name), data, zipfile.ZIP_DEFLATED)
        return made.getvalue()


def unit(legacy, parent="", title="Papers", **values):
    """The row of a published unit, as its columns with their values."""
    return {"legacyId": legacy, "parentId": parent, "title": title, "publicationStatus": "Published", **values}


TWO = (unit("1", identifier="HUL"), unit("2", "1", "Minutes é", identifier="1"))
GOOD = csv_text(*TWO)
SHORT = "legacyId,parentId,title,publicationStatus\r\n1,,Docks,Published\r\n2,1,Minutes,Published\r\n"
BOX = {"physicalObjectName": "Box 1", "physicalObjectLocation": "Strongroom 2", "physicalObjectType": "Box"}
