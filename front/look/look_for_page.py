"""The look at a file for the desk's import page: the bytes of a file come in, and JSON goes out.

    look_for_page.py [--encoding ENCODING] [--dates] <FILE

advice: of each its name, its level, what it says and what to do, both as texts of wording.py. counts: what the file has, or
null. units: of each its row, the same in the spreadsheet, legacyId, title, whether it is a draft, and whether it is at the
top. boxes: the names of containers. encoding: the one of Windows in which the file is read, which may be chosen; blank if none
fits, null for a file in another. text: what the file becomes if a program saved it otherwise, else null; then the rest is
about that."""

import argparse
import json
import resource
import sys

from convert import convert
from look_at_file import Look
from windows_encodings import LETTERS
from wording import advice, read_rules, text

MEMORY = 512 << 20  # bytes
SECONDS = 60  # of a processor


def look(data, rules, chosen=None, fills_dates=False):
    """What the page is told of these bytes."""
    found = convert(data, rules, chosen, fills_dates)
    seen = Look(rules).at(found.data if found else data)
    told = list(seen.advice)
    if found:
        told.insert(0, ("converted", {**vars(found), "letters": found.letters or [text("none")]}))
    if found and found.lost:
        told.insert(1, ("lost_quote", found.lost))
    return {
        "advice": [[name, *advice(rules, name, values)] for name, values in told],
        "counts": seen.counts or None,
        "units": [[one.row.number, one.row.sheet, one.legacy, one.title, one.is_draft, not one.parent] for one in seen.units],
        "boxes": list(dict.fromkeys(box[0] for one in seen.units for box in one.boxes)),
        "encoding": encoding_of(found, told),
        "text": found and found.data.decode(),
    }


def encoding_of(found, told):
    """The encoding that may be changed, as it is told."""
    if found:
        return next((name for name in LETTERS if name in found.encoding), None)
    return "" if any(name == "not_utf8" for name, _ in told) else None


def main():
    """Looks at what comes in, within bounds."""
    resource.setrlimit(resource.RLIMIT_AS, (MEMORY, MEMORY))
    resource.setrlimit(resource.RLIMIT_CPU, (SECONDS, SECONDS))
    words = argparse.ArgumentParser()
    words.add_argument("--encoding", choices=LETTERS)
    words.add_argument("--dates", action="store_true")
    given = words.parse_args()
    answer = look(sys.stdin.buffer.read(), read_rules(), given.encoding, given.dates)
    sys.stdout.buffer.write(json.dumps(answer, ensure_ascii=False, separators=(",", ":")).encode())


if __name__ == "__main__":
    main()
