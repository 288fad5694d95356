"""Shows what the import of a file would change, without touching the office: the program imports the file into a copy of
the newest backup, and the copy is compared before and after.

A file with semicolons or tabs, in UTF-16 or in Windows-1252 is converted first, as record-office-look does. The status is 0 if
the file would be imported, 1 if it would be refused.
"""

import argparse
import csv
import os
import pathlib
import sys

from convert import convert
from differences import COLUMNS, KINDS, Trial
from kept_files import is_source, last_file, newest_copy
from wording import in_english, read_rules

SHOWN = 60  # the most letters of a text that a line has; the CSV file has all


def main():
    """Tries the file that the command line names; returns the exit status."""
    given = arguments()
    rules = read_rules()
    named = f"-{given.office}" if given.office else ""
    copy = given.copy or newest_copy(pathlib.Path(f"/var/backups/record-office{named}"))
    kept = given.last or last_file(pathlib.Path(f"/var/lib/record-office-try{named}"), given.source)
    data = given.file.read_bytes()
    if converted := convert(data, rules):
        print(f"taken for {converted.encoding} with {in_english(converted.separator)} between the columns")
        data = converted.data
    tried = Trial(given.program, copy, rules, kept and kept.read_bytes()).of(given.source, data)
    print(f"on the copy {copy}: " + (tried.answer["said"] if tried.refused else counts(tried)))
    if tried.refused:
        return 1
    if given.csv:
        write(given.csv, tried.differences)
    for kind, words in KINDS.items():
        show(words, [one for one in tried.differences if one[0] == kind])
    return 0


def counts(tried):
    """The program's counts in words."""
    return ", ".join(f"{name} {tried.answer[name]:,}" for name in ("new", "changed", "same", "translations"))


def show(words, differences):
    """Prints the differences of a kind."""
    if differences:
        print(f"\n{words}: {len(differences):,}")
    for _, row, legacy, unit, title, what, old, new, codes in differences:
        where = f"row {row}" if row else "no row"
        change = f"{short(old)} -> {short(new)}" if old or new else ""
        change += f" (and the codes of {codes:,} units below)" if codes else ""
        print(f"  {where}, legacyId {legacy}, unit {unit}, {short(title)}: {what} {change}".rstrip(": "))


def short(text):
    """A text on one line, cut if it is long."""
    line = " ".join(text.split())
    return line if len(line) <= SHOWN else f"{line[:SHOWN]}…"


def write(path, differences):
    """Writes the differences as CSV. What a spreadsheet would calculate is marked as text."""
    with path.open("w", encoding="utf-8-sig", newline="") as file:
        rows = ([f"'{cell}" if str(cell)[:1] in ("=", "+", "-", "@", "\t", "\r") and cell else cell for cell in row]
                for row in differences)
        csv.writer(file).writerows([COLUMNS, *rows])


def arguments():
    """What the command line says."""
    words = argparse.ArgumentParser(prog="record-office-try", description=__doc__,
                                    formatter_class=argparse.RawDescriptionHelpFormatter)
    words.add_argument("file", type=pathlib.Path, metavar="FILE", help="a file of descriptions")
    words.add_argument("--source", required=True, metavar="SOURCE", help="the source that it would be imported from")
    words.add_argument("--csv", type=pathlib.Path, metavar="NEW", help="also write all differences to this file")
    words.add_argument("--copy", type=pathlib.Path, metavar="COPY", help="a copy of an office (default: the newest backup)")
    words.add_argument("--last", type=pathlib.Path, metavar="FILE",
                       help="the file that was imported last from this source (default: what the desk's page has kept)")
    words.add_argument("--office", metavar="NAME", help="an office that record-office-add added (default: the first one)")
    words.add_argument("--program", default="record_office", metavar="PROGRAM", help="default: record_office")
    given = words.parse_args()
    if not is_source(given.source):
        words.error("a source is 1 to 64 of ASCII letters, digits, '.', '_' and '-'")
    return given


if __name__ == "__main__":
    try:
        STATUS = main()
        sys.stdout.flush()
    except BrokenPipeError:  # whoever reads has seen enough
        os.dup2(os.open(os.devnull, os.O_WRONLY), sys.stdout.fileno())
        STATUS = 0
    except OSError as fault:
        sys.exit(f"record-office-try: {fault.filename or ''}: {fault.strerror}")
    sys.exit(STATUS)
