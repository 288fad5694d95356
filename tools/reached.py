"""Looks what the program may reach from `main`: whether each mutant is in a function of these, so that none guards what nobody
runs, and which public calls only tests make.

    ./run tools.reached [--write] [TREE]

A function is reached if its name stands in one that is: names tell too much rather than too little. Methods of a trait that
no crate here declares, and those of operators and conversions, are reached. PROMISES lists the public functions that are not,
between the marks `<!-- unreached -->` and `<!-- end -->`; `--write` writes that list. Mutants of what only these reach are
printed; one of what nothing reaches is a problem. Laws are called by nobody.
"""

import argparse
import re
import sys
from collections import defaultdict
from pathlib import Path

from mutation import records
from tools import code_rows

TOP = Path(__file__).resolve().parents[1]
PAGE, MARKS = "docs/PROMISES.md", re.compile(r"(?<=<!-- unreached -->\n).*?(?=<!-- end -->)", re.S)
ALWAYS = {"main", "from", "fmt", "eq", "cmp", "partial_cmp", "clone", "drop", "hash", "default", "next"}


def is_law(function):
    """Whether it is a law, whose contract is all that it has."""
    return not function.words or any("laws" in it for it in function.module)


def is_of_foreign_trait(function, traits):
    """Whether it is a method of a trait that is none of these."""
    return " for " in function.block and not traits & set(re.findall(r"\w+", function.block))


class Program:
    """All functions of the crates but those of tests, and those that `main` may reach."""

    def __init__(self, top):
        self.top, self.files, traits = top, {}, set()
        for file in sorted(top.glob("crates/*/src/**/*.rt")):
            crate, _, *path = file.relative_to(top / "crates").with_suffix("").parts
            text = file.read_text(encoding="utf-8")
            traits |= set(re.findall(r"^(?:pub )?trait (\w+)", text, re.M))
            if not crate.endswith("_tests"):
                module = [crate, *(it for it in path if it not in ("lib", "main"))]
                self.files[file] = code_rows.functions(text, module)
        self.all = [it for found in self.files.values() for it in found]
        self.by_name = defaultdict(list)
        for it in self.all:
            self.by_name[it.name].append(it)
        self.reached = self.reach(it for it in self.all if it.name in ALWAYS or is_of_foreign_trait(it, traits))

    def reach(self, first):
        """Those that these may reach."""
        begun = list(first)
        reached = set(begun)
        while begun:
            for word in begun.pop().words & self.by_name.keys():
                begun += [it for it in self.by_name[word] if it not in reached]
                reached |= set(self.by_name[word])
        return reached

    def for_others(self):
        """The public functions that only tests call."""
        paths = {it.path(): it for it in self.all if not is_law(it) and it not in self.reached}
        for crate in sorted({it.module[0] for it in self.all}):
            for it in code_rows.public_functions(self.top, crate):
                if f"{crate}::{it.path()}" in paths:
                    yield paths[f"{crate}::{it.path()}"]

    def mutated(self, record, crate):
        """The function in which a mutant changes something first, or none."""
        file = self.top / "crates" / crate / record.file
        line = file.read_text(encoding="utf-8").partition(record.old)[0].count("\n")
        return next((it for it in reversed(self.files.get(file, [])) if it.line <= line), None)


def mutants(program):
    """Each mutant with its function: a pair of its file and the function."""
    for file in sorted([*program.top.glob("mutation/*/*/*.edit"), *program.top.glob("crates/*/must-fail/*.edit")]):
        crate = file.parts[-3] if file.parent.name == "must-fail" else file.parent.name
        if function := program.mutated(records.of_edit(file), crate):
            yield file.relative_to(program.top), function


def main():
    """Prints what is wrong, and returns 1 if something is."""
    words = argparse.ArgumentParser(description=__doc__.split("\n")[0])
    words.add_argument("top", nargs="?", type=Path, default=TOP, help="the tree; without it the one of this script")
    words.add_argument("--write", action="store_true", help="write the list in PROMISES")
    given = words.parse_args()
    program, page = Program(given.top), given.top / PAGE
    listed, text = list(program.for_others()), page.read_text(encoding="utf-8")
    rows = "".join(f"    {it.path()}\n" for it in listed)
    if given.write:
        text = MARKS.sub(lambda _: f"\n{rows}\n", text)
        page.write_text(text, encoding="utf-8")
    wrong = [] if f"\n{rows}\n<!-- end -->" in text else [f"{PAGE}: other calls are not reached (--write)"]
    known, late = program.reach(listed), [it for it in mutants(program) if it[1] not in program.reached]
    for file, function in late:
        if function in known or is_law(function):
            print(f"{'a law' if is_law(function) else 'only tests run it'}: {file}: {function.path()}")
        else:
            wrong.append(f"{file}: nobody runs {function.path()}")
    dead = [it.path() for it in program.all if not (it in program.reached or it in known or is_law(it))]
    print(*(f"nobody calls {path}" for path in dead), *wrong, sep="\n")
    print(f"{len(program.reached)} of {len(program.all)} functions are reached from main, {len(wrong)} problems")
    return 1 if wrong else 0


if __name__ == "__main__":
    sys.exit(main())
