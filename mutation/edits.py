"""Tries the mutants of mutation/edits by `rt must-fail`: the prover must refuse each.

    ./run mutation.edits [--dry] [CRATE ..]

An edit is a file of mutation/edits/CRATE, written as those of crates/CRATE/must-fail, which `rt ci` tries itself. They are
laid there while they are tried: several at a time, over what `rt check` kept, and none again of which nothing has changed.
`rt` says of each that it is refused, and for which goal; NOT REFUSED if the contracts let it through; BAD EDIT if its text is
gone, or the result does not compile. The script ends with 1 if one was not refused.

With --dry nothing is tried. Of all edits, inside the gate and outside it, the script prints those whose old text does not
occur exactly once in its file, or whose crate is not there, and ends with 1 if there is one."""

import argparse
import contextlib
import shutil
import subprocess
import sys
from collections.abc import Iterator

from mutation import records, trials
from mutation.records import TOP

EDITS = TOP / "mutation" / "edits"


def dry_run() -> int:
    """Prints the edits that cannot be applied; 1 if there is one."""
    files = [(path, path.parts[-3]) for path in sorted(TOP.glob("crates/*/must-fail/*.edit"))]
    files += [(path, path.parts[-2]) for path in sorted(EDITS.glob("*/*.edit"))]
    faults = trials.cannot_be_tried(
        files, lambda it: records.of_edit(it[0]).why_not(TOP / "crates" / it[1]), lambda it: str(it[0].relative_to(TOP)))
    print(f"{len(files)} edits, {faults} not applied")
    return 1 if faults or not files else 0


@contextlib.contextmanager
def laid(crates: list[str]) -> Iterator[None]:
    """A context in which the edits of these crates lie beside the gate's."""
    paths = [path for crate in crates for path in (EDITS / crate).iterdir()]
    pairs = [(path, TOP / "crates" / path.parent.name / "must-fail" / path.name) for path in paths]
    if there := [str(place) for _, place in pairs if place.exists()]:
        raise FileExistsError(f"the gate has them, too: {there}")
    folders = [folder for folder in {place.parent for _, place in pairs} if not folder.exists()]
    try:
        for folder in folders:
            folder.mkdir()
        for path, place in pairs:
            shutil.copy(path, place)
        yield
    finally:
        for _, place in pairs:
            place.unlink(missing_ok=True)
        for folder in folders:
            folder.rmdir()


def try_edits(crates: list[str]) -> int:
    """Tries the edits of these crates; returns the exit status."""
    with laid(crates):
        return subprocess.run(["rt", "must-fail", *crates], cwd=TOP, check=False).returncode


def main() -> int:
    """Tries the edits of the crates that are named, or all."""
    words = argparse.ArgumentParser(description=__doc__, formatter_class=argparse.RawDescriptionHelpFormatter)
    words.add_argument("--dry", action="store_true", help="only look whether each edit's text stands once in its file")
    words.add_argument("crates", nargs="*", metavar="CRATE", help="those of these crates")
    given = words.parse_args()
    return dry_run() if given.dry else try_edits(given.crates or sorted(path.name for path in EDITS.iterdir()))


if __name__ == "__main__":
    sys.exit(main())
