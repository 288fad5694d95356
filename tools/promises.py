"""Looks whether the documents agree with the code: names and lines of PROMISES, excerpts, and all links.

    ./run tools.promises [--write] [TREE]

What PROMISES has between `<!-- laws: CRATE .. -->` and `<!-- end -->` must be what the comments of the code give
(code_rows.py); `--write` writes it. The excerpts of WALK and HEADLINE must be lines of their files, and each link of a
page must lead to a file and a heading (document_links.py). What makes want of memory must be listed (made_faults.py).

In the column "Clause" `crate::module::function`: `clause` names a clause of that function; a function that follows
without a path is in the same module, or of the same type; names in parentheses are definitions. Each function must be
there, each clause must be one of the functions before it, and each of these must have one of the clauses. Everywhere
else a name in code marks must be a file, a name that the crates have, or a word of SQL in capitals. The script prints
each problem with its line, and ends with 1 if there is one.
"""

import argparse
import collections
import os
import pathlib
import re
import sys

from tools import code_rows, document_links, made_faults

TOP = os.path.dirname(os.path.dirname(os.path.abspath(__file__)))
PROMISES = "docs/PROMISES.md"
WITH_EXCERPTS = "docs/WALK.md", "docs/HEADLINE.md"
PIECE = re.compile(r"`[^`]+`|[:;()]|[^\s`:;()]+")


class Tree:
    """What the crates have: functions with their clauses, modules, and names of any kind."""

    def __init__(self, top):
        self.top, self.clauses, self.names, self.modules = top, collections.defaultdict(set), set(), set()
        for line in pathlib.Path(top, "crates.txt").read_text(encoding="utf-8").splitlines():
            if not line.startswith("#"):
                self.names |= set(re.findall(r"\w+", line))
        for crate in sorted(os.listdir(f"{top}/crates")):
            for path, text in texts(f"{top}/crates/{crate}/src", ".rt"):
                self.read_code("::".join(it for it in (crate, *path) if it not in ("lib", "main")), text)
            for path, text in texts(f"{top}/crates/{crate}/specs", ".antt"):
                self.names |= set(re.findall(r"\w+", text))

    def read_code(self, module, text):
        """Notes the functions, clauses and names in the text of a module."""
        for it in code_rows.functions(text, module.split("::")):
            self.clauses[it.path()] |= it.labels()
        self.modules |= {module, module.split("::")[0]}
        self.names |= set(re.findall(r"\w+", text))

    def has(self, name):
        """Whether a name outside the column of clauses is of anything."""
        if re.fullmatch(r"[\w.-]+/[\w./-]*", name):
            return "CRATE" in name or os.path.exists(f"{self.top}/{name}")
        if re.fullmatch(r"\w+(::\w+)+", name):
            found = any(f"::{it}".endswith(f"::{name}") for it in self.clauses)
            return found or name in self.modules or name.startswith("crate::")
        return name in self.names or name.isupper() or not re.fullmatch(r"\w+", name)


def texts(folder, ending):
    """The files below a folder: the parts of the path, and the text."""
    for inside, _, files in sorted(os.walk(folder)):
        for file in sorted(it for it in files if it.endswith(ending)):
            path = os.path.relpath(f"{inside}/{file}", folder).removesuffix(ending).split(os.sep)
            yield path, pathlib.Path(inside, file).read_text(encoding="utf-8")


class Cell:
    """One cell of the column of clauses: goes through its pieces and notes what is nowhere."""

    def __init__(self, tree, before):
        self.tree, self.wrong = tree, []
        self.functions, self.labels, self.base, self.all = list(before), [], "", []
        self.in_labels, self.deep = False, 0

    def read(self, text):
        pieces = PIECE.findall(text)
        if not text.startswith("the same"):
            self.functions = []
        for at, piece in enumerate(pieces):
            if piece in "()":
                self.deep += 1 if piece == "(" else -1
            elif piece == ";":
                self.close()
            elif piece == ":":
                self.in_labels = True
            elif piece.startswith("`"):
                self.take_name(piece.strip("`"), pieces[at + 1 : at + 2] == [":"])
        self.close()

    def take_name(self, name, has_labels):
        """Notes a name in code marks: a function or a clause, or in parentheses a definition."""
        if self.deep:
            self.wrong += [] if self.tree.has(name) else [name]
        elif "::" in name or not self.in_labels or has_labels:
            if self.in_labels:
                self.close()
            self.take_function(name if "::" in name else f"{self.base}::{name}")
        else:
            self.labels.append(name)

    def take_function(self, path):
        """Notes a function by its path; what is no function and no module is wrong."""
        self.base = path.rsplit("::", 1)[0]
        if path in self.tree.clauses:
            self.functions.append(path)
            self.all.append(path)
        elif path not in self.tree.modules and path.removeprefix("::") not in self.tree.modules:
            self.wrong.append(path)

    def close(self):
        """The end of a list of functions and their clauses."""
        there = [self.tree.clauses[it] for it in self.functions]
        self.wrong += [f"clause {it}" for it in self.labels if not any(it in of for of in there)]
        for path, of in zip(self.functions, there):
            if self.labels and not of & set(self.labels):
                self.wrong.append(f"{path}: none of these clauses")
        self.functions, self.labels, self.in_labels = [], [], False


def wrong_names(tree, text):
    """Each name that is nowhere, with the number of its line."""
    column, before = None, []
    for number, line in enumerate(text.splitlines(), 1):
        cells = [it.strip() for it in re.split(r"(?<!\\)\|", line)[1:-1]] if line.startswith("|") else []
        if not cells:
            column = None
        elif "Clause" in cells:
            column = cells.index("Clause")
        elif column is not None and not set(line) <= set("|-"):
            cell = Cell(tree, before)
            cell.read(cells[column])
            before = cell.all or before
            yield from ((number, it) for it in cell.wrong)
            line = " ".join(cells[:column] + cells[column + 1 :])
        yield from ((number, it) for it in re.findall(r"`([^`]+)`", line) if not tree.has(it))


def wrong_layers(top, text):
    """What ARCHITECTURE and its picture tell otherwise than crates.txt: each crate has a layer, and depends on lower ones."""
    lines = pathlib.Path(top, "crates.txt").read_text(encoding="utf-8").splitlines()
    below = {it.split(":")[0]: set(it.split(":")[1].split()) for it in lines if not it.startswith("#")}
    order = [it for it in re.findall(r"^  - `(\w+)`:", text, re.M) if it in below]
    picture = pathlib.Path(top, "docs/pictures/layers.svg").read_text(encoding="utf-8")
    yield from (f"ARCHITECTURE lacks {it}" for it in below if it not in order and not it.endswith("_tests"))
    yield from (f"layers.svg lacks {it}" for it in order if f">{it}<" not in picture)
    for place, crate in enumerate(order):
        yield from (f"ARCHITECTURE: {crate} is below {it}, on which it depends" for it in below[crate] & set(order[:place]))


def problems(tree, pages):
    """Yields what is wrong with the pages: names of nothing, lines that the code has otherwise, broken links."""
    yield from wrong_layers(tree.top, pages["docs/ARCHITECTURE.md"])
    text = pages[PROMISES]
    for number, name in wrong_names(tree, text):
        yield f"{PROMISES}:{number}: no such thing: {name}"
    yield from document_links.differences(PROMISES, text, code_rows.with_laws(tree.top, text))
    for page in WITH_EXCERPTS:
        yield from document_links.wrong_excerpts(tree.top, page, pages[page])
    yield from document_links.wrong_links(tree.top, pages)
    yield from made_faults.problems(tree.top)


def main():
    """Prints each problem of the pages, and returns 1 if there is one."""
    words = argparse.ArgumentParser(description=__doc__.split("\n")[0])
    words.add_argument("top", nargs="?", default=TOP, help="the tree; without it the one of this script")
    words.add_argument("--write", action="store_true", help="write what PROMISES has from the code")
    given = words.parse_args()
    pages = document_links.pages(given.top)
    if given.write:
        pages[PROMISES] = code_rows.with_laws(given.top, pages[PROMISES])
        pathlib.Path(given.top, PROMISES).write_text(pages[PROMISES], encoding="utf-8")
    found = list(problems(Tree(given.top), pages))
    print(*found, sep="\n", end="\n" if found else "")
    names = len(re.findall("`[^`]+`", pages[PROMISES]))
    print(f"{names} names, {len(pages)} pages with their links and excerpts, {len(found)} problems")
    return 1 if found else 0


if __name__ == "__main__":
    sys.exit(main())
