"""Tries mutants that no contract refuses: each must be noticed by the test that it names.

    ./run mutation.noticed [--minutes N] [--dry] [NAME ..]

An edit is a file of mutation/noticed/CRATE, written as those of mutation/edits, with one line more, which says what
notices it:

    noticed by: CRATE TEST                  the test of a crate of tests, run without proof by `rt try --test`
    noticed by: acceptance/FILE -k WORD     a test of pytest's, with a program that is compiled without proof
    noticed by: the compiler                it does not compile
    noticed by: tools.promises              it makes a fault, or keeps memory, where tools/made_faults.txt has no place for it

The script prints a line for each edit, and ends with 1 if one was not noticed. A program takes some four minutes, a
crate of tests one; each edit may take N minutes, by default 30. With NAME, it tries those whose name contains it. With
--dry it only says which edits do not apply, or name a test that is not there."""

import argparse
import shutil
import subprocess
import sys
import tempfile
from pathlib import Path

from mutation import records, trials
from tools import made_faults
from tools.compiled import compiled

TOP = Path(__file__).resolve().parents[1]

COMPILER, PROMISES, NOTICED = "the compiler", "tools.promises", "noticed"


class Edit:
    """A mutant, and what notices it."""

    def __init__(self, file):
        self.file, self.crate, self.record = file, file.parent.name, records.of_edit(file)
        self.name, self.by = self.record.name, self.record.noticed_by

    def fault(self):
        """Why the edit cannot be tried, or an empty text."""
        if why := self.record.why_not(TOP / "crates" / self.crate):
            return why
        return "" if self.by in (COMPILER, PROMISES) or self.has_test() else f"there is no test {self.by}"

    def has_test(self):
        """Whether the test is there that the edit names."""
        if self.by.startswith("acceptance/"):
            return trials.is_test(self.by)
        place, *words = self.by.split(" ")
        test = words[-1].split("::")
        module = TOP / "crates" / place / "src" / f"{test[0]}.rt"
        return module.is_file() and f"fn {test[1]}(" in module.read_text(encoding="utf-8")


def copy_sources(tree, edit):
    shutil.copytree(TOP / "crates", tree / "crates", ignore=shutil.ignore_patterns("out"))
    for name in ("crates.txt", "HANDLES"):
        shutil.copy(TOP / name, tree)
    for change in edit.record.changes:
        path = tree / "crates" / edit.crate / change.file
        path.write_text(change.made_in(path.read_text(encoding="utf-8")), encoding="utf-8")


def noticed_by_tests(tree, edit, crate, test, seconds):
    """What `rt try --test` says of one test of a crate over the mutant."""
    copy_sources(tree, edit)
    words = ["rt", "try", "--test", "--seconds", str(seconds), "--", test]
    ran = subprocess.run(words, cwd=tree / "crates" / crate, capture_output=True, text=True, timeout=seconds)
    told = ran.stdout + ran.stderr
    return f"test {test} ... FAILED" in told, told


def noticed_by_acceptance(tree, edit, seconds):
    """Whether acceptance fails over a program with the mutant, and what was said."""
    copy_sources(tree, edit)
    program = compiled(tree, tree, seconds)
    told = trials.run_test(edit.by, program.path, seconds)
    return bool(told), told


def noticed_by_compiler(tree, edit, seconds):
    """Whether the crate with the mutant does not compile, for an error in the edited file."""
    copy_sources(tree, edit)
    words, tests = ["rt", "try", "--test"], "program_tests" if edit.crate == "program" else "model_tests"
    ran = subprocess.run(words, cwd=tree / "crates" / tests, capture_output=True, text=True, timeout=seconds)
    told = ran.stdout + ran.stderr
    return any(f"{edit.record.file}:" in line and " error" in line for line in told.splitlines()), told


def noticed_by_promises(tree, edit):
    """Whether the list of what makes faults lacks a place of the crate with the mutant, and what was said."""
    copy_sources(tree, edit)
    (tree / "tools").mkdir()
    shutil.copy(TOP / made_faults.LIST, tree / made_faults.LIST)
    told = list(made_faults.problems(tree))
    return bool(told), "\n".join(told)


def is_noticed(edit, seconds):
    """Whether the edit is noticed by what it names, and what was said."""
    with tempfile.TemporaryDirectory() as room:
        place, *words = edit.by.split(" ")
        if edit.by == PROMISES:
            return noticed_by_promises(Path(room), edit)
        if edit.by == COMPILER:
            return noticed_by_compiler(Path(room), edit, seconds)
        if edit.by.startswith("acceptance/"):
            return noticed_by_acceptance(Path(room), edit, seconds)
        return noticed_by_tests(Path(room), edit, place, *words, seconds)


def try_edit(edit, seconds):
    """Tries one edit, and prints what came of it."""
    noticed, told = is_noticed(edit, seconds)
    print(f"{NOTICED if noticed else 'NOT NOTICED'}    {edit.crate}/{edit.name}: {edit.by}", flush=True)
    shown = [it for it in told.splitlines() if it.startswith("acceptance/")] if noticed else told.splitlines()
    print("".join(f"    {it[:200]}\n" for it in shown[-20:]), end="", flush=True)
    return noticed


def main():
    """Tries all edits, or those that are named, and returns the exit status."""
    words = argparse.ArgumentParser(description=__doc__, formatter_class=argparse.RawDescriptionHelpFormatter)
    words.add_argument("--minutes", type=int, default=30, metavar="N")
    words.add_argument("--dry", action="store_true")
    words.add_argument("names", nargs="*", metavar="NAME")
    given = words.parse_args()
    found = [Edit(it) for it in sorted((TOP / "mutation" / "noticed").rglob("*.edit"))]
    found = [it for it in found if not given.names or any(name in it.name for name in given.names)]
    faults = trials.cannot_be_tried(found, Edit.fault, lambda it: f"{it.crate}/{it.name}")
    print(f"{len(found)} mutants, {faults} that cannot be tried")
    if faults or not found or given.dry:
        return 1 if faults or not found else 0
    seconds = given.minutes * 60
    tried = [try_edit(it, seconds) for it in found]
    print(f"{sum(tried)} of {len(tried)} noticed")
    return 0 if tried and all(tried) else 1


if __name__ == "__main__":
    sys.exit(main())
