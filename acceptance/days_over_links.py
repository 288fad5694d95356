"""Writes the scenarios with the usual settings as one text into office_tests, which plays them over links:

    ./run acceptance.days_over_links [--check]

The program itself opens no office over links. With --check nothing is written: the script prints the scenarios that the text
lacks, or has otherwise, and ends with 1 if there is one, or if the text has others."""

import argparse
import re
import sys

from acceptance import client
from acceptance.scenarios import Scenario, names

TEXTS = client.TOP / "crates" / "office_tests" / "src" / "day_texts.rt"
HEAD = """\
//! Days of an office. Of each there are the name, the requests, the answers, and what the program says at its end, with
//! a byte 1F after each of them but the last. A byte 1E is between two days. `acceptance/days_over_links.py` writes
//! this file from `acceptance/days`.

"""
SHOWN = {"\n": "\\n", "\r": "\\r", "\t": "\\t", '"': '\\"', "\\": "\\\\"}


def literal(text):
    """The bytes as a part of a literal of the language, in which white space at the start of a line is skipped."""
    text = text.decode()
    if not text.replace("\n", "").replace("\r", "").replace("\t", "").isprintable():
        raise ValueError("a control character stands in a scenario")
    shown = "".join(SHOWN.get(it, it) for it in text)
    return re.sub("^ ", "\\\\u{20}", shown)


def part_of(it):
    parts = it.name.encode(), it.said, it.answered, it.told.strip()
    return "\\x1f\\\n    ".join(map(literal, parts))


def usual_scenarios():
    return [it for it in map(Scenario.of, names()) if it.settings == client.SETTINGS]


def whole(found):
    text = "\\x1e\\\n    ".join(map(part_of, found))
    return f'{HEAD}pub(crate) const DAYS: &str = "\\\n    {text}";\n'


def main():
    """Writes the text, or compares it, and returns the exit status."""
    words = argparse.ArgumentParser(description=__doc__, formatter_class=argparse.RawDescriptionHelpFormatter)
    words.add_argument("--check", action="store_true")
    given, found = words.parse_args(), usual_scenarios()
    if not given.check:
        TEXTS.write_text(whole(found), encoding="utf-8")
        return 0
    text = TEXTS.read_text(encoding="utf-8")
    missing = [it.name for it in found if part_of(it) not in text]
    is_same = text == whole(found)
    print(f"{len(found)} scenarios with the usual settings, missing or other: {', '.join(missing) or 'none'}")
    if not is_same and not missing:
        print("the text has others")
    return 0 if is_same and found else 1


if __name__ == "__main__":
    sys.exit(main())
