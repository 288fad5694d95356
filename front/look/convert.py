"""Makes of a file that a program saved otherwise the file that an office reads: UTF-8, and commas between the columns."""

import codecs
import re
from dataclasses import dataclass

from csv_records import BLANK, lost_quote, records
from dates import fill
from look_at_values import GARBLED
from packed import SIGN, unpack
from windows_encodings import codec, is_utf8_with_faults, proposed
from wording import text

SEP = re.compile("sep=([^\r\n])?(\r\n|\n|\r|$)", re.I)
QUOTED = re.compile('[",\r\n]')
FOREIGN = re.compile("[^ \t\r\n\";,|]*[^\x00-\x7f][^ \t\r\n\";,|]*")
SHOWN = 5


@dataclass
class Converted:
    """What a file was taken for, and what it becomes: its encoding, the name of its separator (a text), its first values,
    words with letters beyond ASCII, the first field that loses a quotation mark, and the new bytes."""

    encoding: str
    separator: dict
    values: list
    letters: list
    lost: dict
    data: bytes


def convert(data, rules, chosen=None, fills_dates=False):
    """The file as an office reads it; None if it is so already, or if it is not clear what it is. chosen: its encoding, if
    not one of Unicode; fills_dates: whether eventDates is filled from the other two columns."""
    is_packed = data.startswith(SIGN)
    decoded = decode(unpack(data)[0] if is_packed else data, chosen)
    if not decoded:
        return None
    marked, encoding = decoded
    if is_packed:
        encoding = f"ZIP, {encoding}"
    whole = marked.lstrip("\ufeff")
    rest, separator = split_by(whole, rules)
    is_right = encoding == "UTF-8" and separator == "," and rest == marked.removeprefix("\ufeff")
    if not separator or (is_right and not fills_dates):
        return None
    rows, is_open = records(rest, separator)
    if not rows or is_open:
        return None
    if fills_dates:
        fill(rows)
    mark = rules["separators"].get(separator)
    name = text(mark) if mark else text("commas")
    return Converted(encoding, name, first_values(rows), foreign_words(rest), lost_quote(rest, separator),
                     write(rows).encode())


def decode(data, chosen=None):
    """The text of the bytes and the name of its encoding, which may be chosen; None if it is no text, or not clear."""
    if not data:
        return None
    if data[:4] in (codecs.BOM_UTF32_LE, codecs.BOM_UTF32_BE):
        return decoded_as(data, "utf-32", "UTF-32")
    first = data[:2]
    if first in (b"\xff\xfe", b"\xfe\xff") or first.count(0) == 1 < len(first):
        is_little = first == b"\xff\xfe" or first[1] == 0
        return decoded_as(data, "utf-16-le" if is_little else "utf-16-be", "UTF-16")
    if b"\0" in data:
        return None
    if found := decoded_as(data, "utf-8", "UTF-8"):
        return found
    if not chosen and (GARBLED.search(data.decode("cp1252", "ignore")) or is_utf8_with_faults(data)):
        return None
    name = chosen or proposed(data)
    return decoded_as(data, codec(name), name)


def decoded_as(data, codec, name):
    """The text and the name; None if the bytes do not fit."""
    try:
        file = data.decode(codec)
    except UnicodeDecodeError:
        return None
    if file.lstrip(BLANK).startswith(("<", "PK\x03\x04", "%PDF", "{\\rtf")):
        return None
    return file, name


def split_by(whole, rules):
    """The text without Excel's line about its separator, and the separator; None if there is no sign of one."""
    if found := SEP.match(whole):
        mark = found[1] or ","
        return whole[found.end():], mark if mark == "," or mark in rules["separators"] else None
    for mark in (",", *rules["separators"]):
        rows, _ = records(whole, mark, 1)
        if rows and any(re.sub("[^a-z0-9]", "", name.lower()) == "legacyid" for name in rows[0].fields):
            return whole, mark
    return whole, ","


def first_values(rows):
    """The first values below the header, each after its column."""
    header = rows[0].fields
    values = [f"{name}: {value}" for name, value in zip(header, rows[1].fields) if value] if len(rows) > 1 else header
    return [one[:60] for one in values[:SHOWN]]


def foreign_words(whole):
    """The first words that have letters beyond ASCII: these show whether the encoding is right."""
    words = dict.fromkeys(FOREIGN.findall(whole))
    return [one[:40] for one in list(words)[:SHOWN]]


def write(rows):
    """The records as a CSV file. Empty lines stay, so that a row keeps its number in the spreadsheet."""
    lines, sheet = [], 0
    for row in rows:
        lines += [""] * (row.sheet - sheet - 1)
        lines.append(",".join(map(quoted, row.fields)) if row.fields != [""] else '""')
        sheet = row.sheet
    return "".join(f"{line}\r\n" for line in lines)


def quoted(field):
    """A field, between quotation marks where it needs them."""
    return '"' + field.replace('"', '""') + '"' if QUOTED.search(field) else field
