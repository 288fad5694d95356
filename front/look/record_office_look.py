#!/usr/bin/python3 -B
"""Look at a CSV file of descriptions before an office imports it, and make of files that programs save otherwise what an
office reads.

The advice is that of the desk's import page, for which a service calls the same modules (rules.json has its words). Nothing
is sent anywhere, and the file is not changed.
"""

import argparse
import os
import pathlib
import sys

from convert import convert
from look_at_file import Look
from windows_encodings import LETTERS
from wording import advice, in_english, read_rules

LEVELS = {"stop": "refused: ", "ask": "look first: ", "note": "note: "}


def main(arguments=None):
    """Prints the advice for each file; 1 if the office would refuse one or somebody should look first, else 0."""
    parser = argparse.ArgumentParser(
        prog="record-office-look",
        description="Look at CSV files of descriptions before an office "
        "imports them: what kind of file each is, what it would empty, and what is odd in it.",
    )
    parser.add_argument("files", metavar="FILE", nargs="+", type=pathlib.Path)
    parser.add_argument("--convert", metavar="NEW", type=pathlib.Path,
                        help="write what an office reads to this new file, if FILE is a ZIP, or has semicolons, tabs, UTF-16, "
                        "UTF-32 or Windows-1252")
    parser.add_argument("--encoding", choices=LETTERS, help="the encoding of FILE, for NEW (default: what its letters say)")
    parser.add_argument("--dates", action="store_true", help="fill eventDates from eventStartDates and eventEndDates in NEW")
    given = parser.parse_args(arguments)
    if given.convert and len(given.files) > 1:
        parser.error("--convert takes one FILE")
    rules = read_rules()
    how = given.encoding, given.dates
    statuses = [look_at(path, given.convert, how, rules) for path in given.files]
    return max(statuses)


def look_at(path, new, how, rules):
    """Looks at one file, and converts it if NEW is given, in that way; the exit status."""
    try:
        data, lost = path.read_bytes(), False
        if new:
            data, lost = write_converted(path, data, new, how, rules)
    except OSError as fault:
        print(f"{fault.filename or path}: {fault.strerror}", file=sys.stderr)
        return 3
    levels = show(path, Look(rules).at(data), rules)
    return 1 if lost or {"stop", "ask"} & levels else 0


def write_converted(path, data, new, how, rules):
    """Says what the file was taken for, writes what it becomes, and returns that, and whether a quotation mark is lost in
    it; the bytes as they are if nothing is to be converted."""
    found = convert(data, rules, *how)
    if not found:
        print(f"{path}: there is nothing to convert, and {new} is not written")
        return data, False
    print(f"{path} is taken for {found.encoding} with {in_english(found.separator)} between the columns:")
    for label, some in (("the first values", found.values), ("words that show the encoding", found.letters)):
        print(f"  {label}: {' | '.join(some) or 'none'}")
    if found.lost:
        print(f"  {LEVELS['ask']}" + " ".join(map(in_english, advice(rules, "lost_quote", found.lost)[1:])))
    with new.open("xb") as file:
        file.write(found.data)
    print(f"{new} is written. Look at these values before you import it.")
    return found.data, bool(found.lost)


def show(path, seen, rules):
    """Prints what was seen of a file, the gravest first, and returns the levels."""
    print(f"{path}:")
    told = sorted((advice(rules, name, values) for name, values in seen.advice), key=lambda one: list(LEVELS).index(one[0]))
    for level, says, todo in told:
        print(f"  {LEVELS[level]}{in_english(says)}{' ' + in_english(todo) if todo else ''}")
    if seen.counts:
        print("  " + ", ".join(f"{name}: {number:,}" for name, number in seen.counts.items()))
    return {level for level, *_ in told}


if __name__ == "__main__":
    try:
        STATUS = main()
        sys.stdout.flush()
    except BrokenPipeError:  # whoever reads has seen enough
        os.dup2(os.open(os.devnull, os.O_WRONLY), sys.stdout.fileno())
        STATUS = 0
    sys.exit(STATUS)
