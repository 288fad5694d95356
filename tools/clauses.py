"""Compares what two trees promise: every public clause and every definition of the old tree should be in the new one.

    ./run tools.clauses OLD_TREE NEW_TREE [--new]

Clauses are the ensures and requires of public functions and of the methods of traits and their impls, and ghost members;
names are what a crate passes on. Definitions are the files of crates/*/specs but for imports and comments: of a record, a type
or a section (`module _ .. where`) its fields, cases and members are compared one by one. White space makes no difference, and
neither does the module within a crate; names do, those of parameters too.

What has another name in the new tree gets it in a copy of the old one first: `git worktree add COPY COMMIT`, and then sed. For
each name of a crate it prints what is lost (`-`) and what is new there (`+`); with --new also what is new elsewhere. It ends
with 1 if something is lost."""

import argparse
import re
import sys
import textwrap
from collections import Counter, defaultdict
from collections.abc import Iterator
from pathlib import Path

from tools import code_rows

GHOST = re.compile(r"^ +ghost (?!use )(\w+).*?[;,}]$", re.M | re.S)
NO_DEFINITION = re.compile(r"(?:pub )?(?:use|mod) ")
SECTION = re.compile(r"^(module (?:.|\n)*?where)\n((?:(?:  [^\n]*)?\n)+)", re.M)
WORDS = re.compile(r"(?:(?:pub|abbrev|opaque|unfoldable|record|data|module) )*([^\s:]+)")
Line = tuple[str, str, str]  # a crate, a name and a text


def plain(text: str) -> str:
    return " ".join(text.split())


def of_code(crate: Path) -> Iterator[Line]:
    """The clauses, ghost members and names of a crate's code."""
    for path in sorted((crate / "src").rglob("*.rt")):
        text = re.sub(r"^#\[cfg\(test\)\]\nmod \w+ \{.*", "", path.read_text(encoding="utf-8"), flags=re.M | re.S)
        for it in code_rows.functions(text, ()):
            if it.is_public or " for " in it.block:
                yield from ((crate.name, it.path(), plain(clause)) for clause in ("fn", *it.clauses))
        yield from ((crate.name, found[1], plain(found[0])) for found in GHOST.finditer(text))
    for names in code_rows.exports(crate / "src"):
        yield from ((crate.name, name, "can be imported") for name in names)


def of_specs(crate: Path) -> Iterator[Line]:
    """The definitions of a crate's specs, and their parts, which are indented by two."""
    for path in sorted((crate / "specs").rglob("*.antt")):
        text, name = re.sub(r"(?:^|(?<=\s))--(?:\s.*)?$", "", path.read_text(encoding="utf-8"), flags=re.M), ""
        text = SECTION.sub(lambda found: f"{plain(found[1])}\n{textwrap.dedent(found[2])}", text)
        for part in re.split(r"\n(?=(?:  )?\S)", f"\n{text}"):
            if part.strip() and not NO_DEFINITION.match(part):
                name = name if part.startswith("  ") else WORDS.match(part)[1]  # type: ignore[index]
                yield crate.name, name, plain(part)


def promises(tree: Path) -> Counter[Line]:
    """What a tree promises, counted."""
    return Counter(line for crate in sorted(tree.glob("crates/*/")) for line in (*of_code(crate), *of_specs(crate)))


def by_name(counted: Counter[Line]) -> dict[tuple[str, str], list[str]]:
    found = defaultdict(list)
    for crate, name, text in sorted(counted.elements()):
        found[crate, name].append(text)
    return found


def main() -> int:
    """Prints what the new tree has lost; returns 1 if it lost something."""
    words = argparse.ArgumentParser(description=__doc__, formatter_class=argparse.RawDescriptionHelpFormatter)
    words.add_argument("old", type=Path)
    words.add_argument("new", type=Path)
    words.add_argument("--new", dest="show", action="store_true", help="print all that is new, too")
    given = words.parse_args()
    old, new = promises(given.old), promises(given.new)
    lost, more = by_name(old - new), by_name(new - old)
    for name in sorted(lost.keys() | more.keys() if given.show else lost):
        print(" ".join(name), *(f"- {it}" for it in lost.get(name, [])), *(f"+ {it}" for it in more.get(name, [])), sep="\n  ")
    print(f"{old.total()} before, {new.total()} after, {(old - new).total()} lost, {(new - old).total()} new")
    return 1 if lost or not old else 0


if __name__ == "__main__":
    sys.exit(main())
