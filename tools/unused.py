"""Lists what nothing names in specs, proofs and code, exact copies of declarations, and imports that their file does not use:

    ./run tools.unused

A declaration of specs/ or proofs/ is named if another one, an answer to a goal or code has its name; so are all of that name.
What proves a goal (Answers, Invariants) and test vectors (proofs/Worked*) need no name. What only an unused thing names is
told once that is gone. It ends with 1 if something is told, or if EXPLAINED has a reason for what is not told."""

import collections
import re
import sys
from collections.abc import Collection, Iterator
from pathlib import Path
from typing import NamedTuple

TOP = Path(__file__).resolve().parents[1]
# Short lemmas that a lower crate has for its own proofs (to be shared, they would have to become public there), and one that
# nothing names since branches are read from memory: it goes with the next change of tree_core, on which all stands.
EXPLAINED = {
    ("catalogue_core/proofs/DistinctLists.antt", "all_so"), ("catalogue_core/proofs/OpenLemmas.antt", "housed_more"),
    ("refinement/proofs/HoldingRows.antt", "greater"), ("nested_sets/proofs/SpanTests.antt", "not_before"),
    ("nested_sets/proofs/SpanQueries.antt", "all_first"), ("nested_sets/proofs/SpanRepresentation.antt", "none_repeated"),
    ("tree_core/proofs/TopsLemmas.antt", "last_two"), ("tree_core/proofs/TopsLemmas.antt", "below_tree"),
}
TOKEN = re.compile(r"[^\s(){}.;,@\"«»]+")
MARKS = r"(?:(?:pattern|unfoldable|opaque|abbrev|pub|axiom) )*"
WORD = r"[^\s(){}.;,@\"«»=:|]+"
SIGNATURE = re.compile(rf"{MARKS}(?P<names>(?:«[^»]+»|{WORD})(?: {WORD})*)(?: \{{[^}}:]*\}})? :(?= |$)")
TYPE = re.compile(rf"{MARKS}(?:data|record) {MARKS}(?P<names>{WORD})")
CASE = re.compile(rf"^ +({WORD})(?: {WORD})* :|[|=] ({WORD})", re.M)
BEGINS = re.compile(rf"{SIGNATURE.pattern.replace('?P<names>', '')}|{TYPE.pattern.replace('?P<names>', '')}"
                    r"|(?:pub )?(?:use|mod|module|mutual|infix\w*|ruleset|open)\b")
PUB = r"(?:pub(?:\(\w+\))? )?"
USE = re.compile(rf"^ *{PUB}(?:ghost )?use [^;{{}}]+?(?:\{{[^}}]*\}})?(?: as \w+)?(?:;|$)", re.M)
FROM = re.compile(rf"(?P<pub>{PUB})(?P<ghost>ghost )?use (?P<path>(?:[\w«»]+(?:\.|::))*)"
                  r"(?:\{(?P<names>[^}]*)\}|(?P<name>[\w«»]+)(?: as (?P<alias>\w+))?);?$")
PRIVATE = re.compile(r"(?<!#\[test\]\n)^(?:pub\(crate\) )?(fn|const|struct|enum) (\w+)", re.M)


class Declaration(NamedTuple):
    """A declaration: its place, its names, its text without comments, and the heads of the sections around it."""

    path: str
    line: int
    names: list[str]
    text: str
    around: str


class Import(NamedTuple):
    """An import: its line, the path, whether it is passed on, whether it is Rust's, and its names, there and here."""

    line: int
    path: str
    is_passed_on: bool
    is_rust: bool
    names: list[tuple[str, str]]


class File:
    """A file of specs, proofs or code: its imports, and its text without these and without comments."""

    def __init__(self, path: Path) -> None:
        self.path, self.imports = str(path.relative_to(TOP / "crates")), list[Import]()
        self.crate, self.is_code = self.path.split("/")[0], path.suffix == ".rt"
        text = re.sub(r"(?:^|(?<=\s))//.*" if self.is_code else r"(?:^|(?<=\s))--.*", "", path.read_text("utf-8"), flags=re.M)
        self.text = USE.sub(self.note, text)
        self.tokens = set(TOKEN.findall(self.text.replace("::", " ") if self.is_code else self.text))
        self.tokens |= set(re.findall(r"\w+", self.text)) if self.is_code else set()
        is_vector = path.stem.startswith("Worked") and "/proofs/" in self.path
        is_proved = is_vector or path.stem in ("Answers", "Invariants", "Proof")
        self.declarations = [] if self.is_code else list(declarations(self.path, self.text))
        self.named = set().union(*(it.names for it in self.declarations)) if is_proved else set()

    def note(self, found: re.Match[str]) -> str:
        """Notes an import, and leaves its lines empty."""
        it = FROM.match(re.sub(r",? \}", "}", " ".join(found[0].split()).replace("{ ", "{")))
        if it:
            told = it["names"] or f"{it['name']} as {it['alias'] or it['name']}"
            pairs = [name.split(" as ") for name in re.split(r",\s*", told)]
            names = [(pair[0].strip("«» "), pair[-1].strip("«» ")) for pair in pairs if it["names"] or not it["pub"]]
            line = found.string.count("\n", 0, found.start()) + 1
            self.imports.append(Import(line, it["path"].strip(".:"), bool(it["pub"]), self.is_code and not it["ghost"], names))
        return "\n" * found[0].count("\n")


def declarations(path: str, text: str) -> Iterator[Declaration]:
    """The declarations of a text, those in sections (`module _ .. where`) too."""
    sections, held, begin = [(0, "")], list[str](), 0
    for number, line in enumerate([*text.split("\n"), "mod end"], 1):
        indent = len(line) - len(line.lstrip())
        if not line.strip():
            continue
        if held and held[0].lstrip().startswith("module ") and held[-1].endswith("where"):
            sections.append((indent, " ".join(" ".join(held).split())))
            held = []
        while indent < sections[-1][0]:
            sections.pop()
        if indent == sections[-1][0] and BEGINS.match(line.strip()):
            if names := names_of(held):
                yield Declaration(path, begin, names, "\n".join(held), " ".join(head for _, head in sections))
            held, begin = [], number
        held.append(line)


def names_of(lines: list[str]) -> list[str]:
    head, rest = lines[0].strip() if lines else "", "\n".join(lines[1:])
    if found := TYPE.match(head):
        return [found["names"], *filter(None, sum(CASE.findall("\n".join(lines)), ()))]
    if re.match(rf"{MARKS}mutual", head):
        return [it["names"] for it in map(SIGNATURE.match, map(str.strip, rest.split("\n"))) if it]
    found = SIGNATURE.match(head)
    return [name.strip("«»") for name in found["names"].split()] if found else []


def is_used(name: str, tokens: Collection[str], own: Collection[str] = ()) -> bool:
    """Whether a name is among tokens; of an operator, what stands between its places. One that stands once in `own` too must
    be counted twice."""
    counts = tokens if isinstance(tokens, collections.Counter) else dict.fromkeys(tokens, 1)
    return any(all(counts.get(it, 0) > (it in own) for it in names) for names in ([name], list(filter(None, name.split("◌")))))


class Repository:
    """All files, and in how many declarations and files of code each token stands."""

    def __init__(self) -> None:
        paths = [it for kind in ("specs/**/*.antt", "proofs/**/*.antt", "src/**/*.rt") for it in TOP.glob(f"crates/*/{kind}")]
        self.files = [File(path) for path in sorted(paths)]
        self.by_path = {file.path: file for file in self.files}
        self.counts: collections.Counter[str] = collections.Counter()
        for file in self.files:
            texts = [file.tokens] if file.is_code else [set(TOKEN.findall(it.text)) for it in file.declarations]
            self.counts.update(token for tokens in texts for token in tokens)
            heads = {it.around for it in file.declarations}
            renamed = [there for it in file.imports for there, here in it.names if there != here]
            self.counts.update([*(token for head in heads for token in TOKEN.findall(head)), *renamed])

    def unnamed(self) -> Iterator[tuple[str, str, str]]:
        for file in self.files:
            for it in file.declarations:
                own = set(TOKEN.findall(it.text))
                if not any(is_used(name, self.counts, own) for name in it.names) and not file.named & set(it.names):
                    yield it.path, it.names[0], f"{it.path}:{it.line}: nothing names {' '.join(it.names)}"

    def unnamed_code(self) -> Iterator[tuple[str, str, str]]:
        """Private functions, constants and types of code whose name stands nowhere else."""
        words = collections.Counter(word for file in self.files for word in re.findall(r"\w+", file.text))
        for file in self.files:
            if file.is_code and "_tests/" not in file.path and "/tests" not in file.path:
                text = file.text.split("#[cfg(test)]\nmod ")[0]
                for it in PRIVATE.finditer(text):
                    if words[it[2]] == 1 and it[2] != "main":
                        yield file.path, it[2], f"{file.path}:{text.count(chr(10), 0, it.start()) + 1}: nothing names {it[0]}"

    def origin(self, file: File, name: str) -> str:
        """Where a name of a file comes from: the module that declares it, as far as the crates have it."""
        if any(name in it.names for it in file.declarations):
            return f"{file.path} {name}"
        for it in file.imports:
            for there, here in it.names:
                if here == name:
                    _, crate, *path = f"{it.path}.".split(".")
                    source = self.by_path.get(f"{crate}/{'/'.join(path).rstrip('/')}.antt")
                    return self.origin(source, there) if source and source is not file else f"{it.path} {there}"
        return ""

    def copies(self) -> Iterator[tuple[str, str, str]]:
        """Declarations that are the same but for their own name; an abbreviation of one line is only a short name."""
        groups = collections.defaultdict[tuple[str, ...], list[Declaration]](list)
        for file, it in ((file, it) for file in self.files for it in file.declarations if not file.named):
            name, text = it.names[0], " ".join(it.text.replace("pub ", "").split())
            if it.text.count("\n") > 1 or not text.startswith("abbrev"):
                others = sorted(self.origin(file, token) for token in {*TOKEN.findall(text)} - {name})
                text = " ".join("_" if token == name else token for token in re.split(r"([\s(){}.;,@«»])", text))
                groups[it.around, text, *others].append(it)
        for first, *copies in groups.values():
            for it in copies:
                yield it.path, it.names[0], f"{it.path}:{it.line}: {it.names[0]} is as {first.names[0]} of {first.path}"

    def unused_imports(self) -> Iterator[tuple[str, str, str]]:
        """Names that a file imports and does not use; one that it passes on must stand anywhere. A trait may go unnamed."""
        types = {name for file in self.files for name in re.findall(r"\b(?:struct|enum|type|union) (\w+)", file.text)}
        globs = [file for file in self.files if re.search(r"\buse (?:super|crate)\S*::\*", file.text)]
        for file in self.files:
            beside = {token for it in globs if it.crate == file.crate for token in it.tokens} if file.is_code else set()
            for it in file.imports:
                used = self.counts if it.is_passed_on else file.tokens | beside
                for _, name in it.names:
                    may_be_trait = it.is_rust and name[:1].isupper() and not name.isupper() and name not in types
                    if name not in ("_", "self", "*") and not may_be_trait and not is_used(name, used):
                        yield file.path, name, f"{file.path}:{it.line}: unused import of {name}"


def main() -> int:
    it = Repository()
    found = [*it.unnamed(), *it.unnamed_code(), *it.copies(), *it.unused_imports()]
    told = [line for path, name, line in found if (path, name) not in EXPLAINED]
    idle = EXPLAINED - {(path, name) for path, name, _ in found}
    print(*told, *(f"EXPLAINED has {name} of {path}, which is not told" for path, name in sorted(idle)), sep="\n")
    print(f"left={len(told) + len(idle)}")
    return 1 if told or idle else 0


if __name__ == "__main__":
    sys.exit(main())
