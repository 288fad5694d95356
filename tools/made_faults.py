"""Finds code that makes want of memory, makes an office busy, or keeps memory for good. The places in made_faults.txt may,
each for the reason there; all other code passes on what a call told it (`?`, `From`, an arm for each case).

No contract can name a cause of want of memory: by contracts alone a draft could be answered 503, and a unit that is not
there 404. That nobody says so of his own accord is what this list shows.
"""

import collections
import pathlib
import re

LIST = "tools/made_faults.txt"
FAULT = re.compile(
    r"\w+::(?:Memory|NoMemory|OutOfMemory)\b|\b(?:Busy::|Status::Busy\b)\w*|(?<![<\w])(?<!: )AllocError\b(?! [{(]|>)"
)
PASSED_ON = re.compile(r"\b(?:Memory|NoMemory|OutOfMemory|AllocError|Busy|Disk|Schema)\b")
KEEPS = re.compile(r"\b(?:ManuallyDrop|forget|forget_promise|leak|into_raw\w*)\b")
TEST = re.compile(r"[!=]= *[\w:]+|matches!\([^)]*\)|if let [^=]*=")
PROSE = re.compile(r"\s*(?://|ghost |requires|ensures|(?:pub )?use )")
FUNCTION = re.compile(r"\s*(?:pub(?:\([^)]*\))? )?(?:const |unsafe |final )*fn (\w+)")


def made_on(line):
    """The words on a line of code that make a fault or keep memory."""
    before, arrow, after = line.partition("=>")
    passes_on = arrow and all(PASSED_ON.search(case) for case in before.split("|"))
    faults = FAULT.findall(TEST.sub("", after if arrow else line))
    return ([] if passes_on else faults) + KEEPS.findall(line)


def made_in(module, text):
    """Counts (function, word) in the code of a module. What is converted from AllocError passes it on."""
    made, name, converts = collections.Counter(), "", False
    for line in text.splitlines():
        found = FUNCTION.match(line)
        if found:
            name, converts = found[1], "fn from(_: Alloc" in line
        elif not PROSE.match(line) and not converts:
            made.update((f"{module}::{name}", word) for word in made_on(line))
    return made


def made(top):
    """The same of all crates but those of tests."""
    all_made = collections.Counter()
    for file in sorted(pathlib.Path(top, "crates").glob("*/src/**/*.rt")):
        crate, _, *path = file.relative_to(f"{top}/crates").with_suffix("").parts
        if not crate.endswith("_tests"):
            all_made += made_in("::".join([crate, *path]), file.read_text(encoding="utf-8"))
    return all_made


def problems(top):
    """Yields each place that the list lacks, and each of the list that is no more."""
    listed = collections.Counter()
    for line in pathlib.Path(top, LIST).read_text(encoding="utf-8").splitlines():
        place = re.match(r"([\w:]+) ([\w:]+): \w", line)
        if place:
            listed[place[1], place[2]] += 1
        elif not line.startswith("#"):
            yield f"{LIST}: cannot be read: {line}"
    found = made(top)
    yield from (f"{LIST} lacks {place}: {word}" for place, word in (found - listed).elements())
    yield from (f"{LIST}: no longer there: {place} {word}" for place, word in (listed - found).elements())
