"""Changes the rules of the model, one definition at a time: a test vector or a law must refuse each change.

    ./run mutation.wrong_rules [--dry] [--jobs N] [WORD ..]

The changes are the records of wrong_rules/CRATE/SUBJECT.rules (records.py says how they are written), and those that
wrong_rules_made.py makes; with WORD, those whose name has one of the words. Each with `refused by` is made in a copy of the
crates. There the prover checks the law or the test vectors that are named, with what they rest on of all crates. A row that
follows the name is the vector that was written for the rule.

A line says of each rule that it is `refused`, with what is no longer proved; `LET THROUGH`; `unreadable`, if the wrong text is
no definition; or `no verdict`. The last line has the counts; it ends with 1 if a rule was not refused.

With --dry it only looks for the old texts, also of the records with `seen in`, which the prover does not try, and for the
row, the law or the scenario that is named there, and counts them."""

import argparse
import re
import shutil
import subprocess
import sys
import tempfile
from collections import Counter
from collections.abc import Iterator
from pathlib import Path

from acceptance import scenarios, test_at_limits, test_heads
from mutation import records, trials, wrong_rules_made
from mutation.records import TOP, Record

KIT = Path("/opt/rattle")
LONGEST = 3600  # seconds for one rule
ERROR = re.compile(r"^(\S+?):[\d:]+ error(?:\[[\w-]+\])?: (.*)$", re.M)


def needs() -> dict[str, list[str]]:
    """What each crate stands on, of this repository and of the kit."""
    lines = [line.split(":") for line in (TOP / "crates.txt").read_text(encoding="utf-8").splitlines() if line[:1].isalpha()]
    return {name.split()[0]: named.split() for name, named in lines}


def libraries(crate: str) -> Iterator[str]:
    """The words by which the prover finds all that a crate stands on: crates of the repository by their sources."""
    known, below = needs(), [crate]
    for it in below:
        below += [name for name in known.get(it, []) if name not in below]
    for it in below[1:]:
        yield from ("--lib", f"{it}=../{it}/src/lib.rt") if it in known else ("--extern", f"{it}={KIT}/rlibs/{it}.rlib")


def check(room: Path, function: str) -> str:
    """What the prover says of a function of the crates in a room, and of what it rests on."""
    crate, _, path = function.partition("::")
    words = [f"{KIT}/bin/rattle", "check", "--crate-name", crate, "src/lib.rt", "--only", path, "--links", f"{crate}=",
             "--extern", f"std={KIT}/rlibs/std.rlib", "-L", f"dependency={KIT}/rlibs", *libraries(crate),
             "--antt-project", f"{KIT}/rattle/logic/antt-project.json", "--logic-built", f"{KIT}/logic_built",
             "--incremental", str(room / "kept"), "--jobs", "1"]
    (room / "kept").mkdir(exist_ok=True)
    ran = subprocess.run(words, cwd=room / "crates" / crate, stdin=subprocess.DEVNULL, capture_output=True, text=True,
                         timeout=LONGEST, check=False)
    return ran.stdout + ran.stderr


def verdict(said: str) -> tuple[str, str]:
    """Whether a rule was refused, and why it is said."""
    errors = ERROR.findall(said)
    told = next((f"{place}: {text[:200]}" for place, text in errors), "")
    if not re.search(r"^only=\d+ proved=\d+$", said, re.M):
        return "no verdict", " ".join(said.split()[-30:])
    if unread := [text for place, text in errors if "specs/" in place]:
        return "unreadable", unread[0][:300]
    if re.search(r"^only=(\d+) proved=\1$", said, re.M):
        return "LET THROUGH", "nothing fails"
    lost = re.search(r"^fn \S+: (?:not proved|no proof)", said, re.M)  # and not that the prover could not tell
    return ("refused", told or lost[0]) if lost else ("no verdict", " ".join(said.split()[-30:]))


def with_whole_names(new: str, text: str) -> str:
    """The new text; truth values have their whole names if the file does not import them."""
    imports = "\n".join(it for it in text.split("\n") if it.startswith("use "))
    for word in ("true", "false"):
        if not re.search(rf"\b{word}\b", imports):
            new = re.sub(rf"(?<![\w.]){word}\b", f"Rattle.std.specs.Prelude.{word}", new)
    return new


def try_rule(room: Path, record: Record) -> tuple[str, str]:
    """Changes the copy of the crates in a room, and changes it back."""
    if not (room / "crates").exists():
        shutil.copytree(TOP / "crates", room / "crates", ignore=shutil.ignore_patterns("out"))
    path = room / "crates" / record.folder / record.file
    text = path.read_text(encoding="utf-8")
    path.write_text(text.replace(record.old, with_whole_names(record.new, text), 1), encoding="utf-8")
    try:
        return verdict(check(room, record.refused_by.partition(" ")[0]))
    finally:
        path.write_text(text, encoding="utf-8")


# ---- whether they can be tried


def read_rules(words: list[str]) -> list[Record]:
    """All rules, or those with one of these words in their names."""
    every = records.read(TOP / "mutation" / "wrong_rules") + wrong_rules_made.make_rules()
    for it in every:
        if bool(it.refused_by) == bool(it.seen_in):
            raise ValueError(f"{it.name}: a rule is refused by something or seen in something")
    return [it for it in every if not words or any(word in it.name for word in words)]


def why_not(record: Record) -> str:
    """Why a rule cannot be tried, or nothing: its old text is there, and the scenario, the row or the law that it names."""
    if why := record.why_not(TOP / "crates" / record.folder):
        return why
    if record.seen_in:
        there = {*scenarios.names(), *test_at_limits.SCENARIOS, *(f"heads_{it}" for it in test_heads.SCENARIOS)}
        is_there = record.seen_in.removeprefix("scenario ") in there
    else:
        function, _, row = record.refused_by.partition(" ")
        crate, *path = function.split("::")
        source = Path(TOP, "crates", crate, "src", *path[:-1]).with_suffix(".rt")
        clauses = source.read_text(encoding="utf-8").partition(f"pub fn {path[-1]}(")[2].partition("\n}")[0]
        stated = [clauses, *(it.read_text(encoding="utf-8") for it in Path(TOP, "crates", crate, "specs").glob("Worked*"))]
        is_there = bool(clauses) and any(re.search(rf"\b{row}\b", it) for it in stated)
    return "" if is_there else f"no {record.refused_by or record.seen_in}"


def main() -> int:
    """Tries the rules that are wanted, and returns 1 if one was not refused; --dry only looks whether they can be tried."""
    words = argparse.ArgumentParser(description=__doc__, formatter_class=argparse.RawDescriptionHelpFormatter)
    words.add_argument("--dry", action="store_true", help="only look whether each can be tried")
    words.add_argument("--jobs", type=int, default=1, help="checks at once, of some 2 GB each")
    words.add_argument("words", nargs="*", metavar="WORD")
    given = words.parse_args()
    found = read_rules(given.words)
    wrong = trials.cannot_be_tried(found, why_not, lambda record: record.name)
    kinds = Counter("scenario" if it.seen_in else "vector" if "::worked" in it.refused_by else "law" for it in found)
    print(f"{len(found)} rules ({', '.join(f'{many} by a {kind}' for kind, many in kinds.items())}), {wrong} cannot be tried")
    if given.dry or wrong or not found:
        return 1 if wrong or not found else 0
    verdicts = trials.Verdicts("refused")
    with tempfile.TemporaryDirectory(prefix="rules-") as rooms:
        tried = trials.Jobs(given.jobs, 0).outcomes(lambda it, job: try_rule(Path(rooms, str(job)), it),
                                                    [it for it in found if it.refused_by])
        for record, came in tried:
            what, why = came if isinstance(came, tuple) else ("no verdict", str(came))
            print(f"{verdicts.add(what)} | {record.name} | {why}", flush=True)
    print(verdicts.line())
    return verdicts.status()


if __name__ == "__main__":
    sys.exit(main())
