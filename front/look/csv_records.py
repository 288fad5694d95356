"""Reads the records of a CSV file as the program does, and the text of its bytes."""

import csv
import io
import re
import sys
from dataclasses import dataclass

BLANK = " \t\r\n"
END = "\x1f"  # a line of our own after the file: a quotation mark that is never closed takes it in
LINE_END = re.compile("\r\n|\n|\r")


@dataclass(slots=True)
class Row:
    """A record: its number as the office counts it, and as a spreadsheet does, which counts empty lines too."""

    number: int
    sheet: int
    fields: list


def records(text, separator=",", most=None):
    """The records of a text, at most so many, and whether a quotation mark is open at its end. An empty line is
    none."""
    csv.field_size_limit(sys.maxsize)
    found = []
    for sheet, fields in enumerate(csv.reader(io.StringIO(f"{text}\n{END}", newline=""), delimiter=separator), 1):
        if most is not None and len(found) == most:
            return found, False
        if fields:
            found.append(Row(len(found) + 1, sheet, fields))
    is_open = found[-1].fields != [END]
    if is_open:
        found[-1].fields[-1] = found[-1].fields[-1].removesuffix(f"\n{END}")
    else:
        found.pop()
    for row in found:
        row.fields = [one.strip(BLANK) for one in row.fields]
    return found, is_open


def lost_quote(text, separator=","):
    """The first field that loses a quotation mark, as {row, sheet, found}, or None: one that begins with a mark, and
    goes on after the next single one."""
    try:
        for _ in csv.reader(io.StringIO(text, newline=""), delimiter=separator, strict=True):
            pass
        return None
    except csv.Error:
        return scan_for_lost_quote(text, separator)


def scan_for_lost_quote(text, separator):
    """The same, field by field."""
    mark = re.escape(separator)
    field = re.compile(rf'(?:"([^"]*(?:""[^"]*)*)(?:"([^{mark}\r\n]*)|\Z)|([^{mark}\r\n]*))({mark}|\r\n|\n|\r|\Z)')
    place, row, sheet, is_first = 0, 1, 1, True
    while place < len(text):
        found = field.match(text, place)
        if (found[2] or "").strip(BLANK):
            return {"row": row, "sheet": sheet, "found": (found[1].replace('""', '"') + found[2]).strip(BLANK)[:40]}
        place = found.end()
        if found[4] != separator:
            row += not (is_first and found[0] == found[4])
            sheet += 1
        is_first = found[4] != separator
    return None


def entries(text):
    """The entries of a split column; `NULL` is blank."""
    return ["" if one == "NULL" else one for one in (part.strip(BLANK) for part in text.split("|"))]


def place_of(data, start):
    """The line of a byte, and the text around it as Windows-1252 shows it."""
    before = data[:start]
    line = len(re.findall(rb"\r\n|\n|\r", before)) + 1
    begin = max(before.rfind(b"\n"), before.rfind(b"\r")) + 1
    begin = max(begin, start - 20)
    ends = [end for end in (data.find(b"\n", start), data.find(b"\r", start), start + 20, len(data)) if end >= 0]
    return {"line": line, "near": "".join(map(windows_letter, data[begin : min(ends)])).strip(BLANK)}


def windows_letter(byte):
    """The letter of a byte in Windows-1252."""
    try:
        return bytes([byte]).decode("cp1252")
    except UnicodeDecodeError:
        return chr(byte)
