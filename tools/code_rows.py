"""The functions of the crates, as their text has them; docs/PROMISES.md lists those that are laws, each with the first
sentence of its comment.

A public function is one that other crates can call and that promises something (an ensures). Those named worked_.. are
left out: they are examples.
"""

import pathlib
import re
import sys
import textwrap

WIDTH = 128
LONGEST = 44
INDENT = "    "
MARK = re.compile(r"(<!-- laws: ([\w ]+) -->)\n(?:(?!<!-- ).)*(<!-- end -->)", re.S)
FUNCTION = re.compile(r"(pub )?(?:pub\([^)]*\) )?(?:const |unsafe )*fn (\w+)")
BLOCK = re.compile(r"(pub )?(impl|trait)\b(.*?)\{?$")
CLAUSE = re.compile(r"(ensures|requires)\b(?: (\w+))?")


class Function:
    """A function: its module, the head of the impl or trait in which it stands, its name, its comment, whether others may call
    it, the texts of its clauses, the number of its line, and the words of its body."""

    def __init__(self, module, block, name, comment, is_public, line):
        self.module, self.block, self.name = module, block, name
        self.comment, self.is_public, self.line = comment, is_public, line
        self.clauses, self.words = [], set()
        plain = re.sub(r"<[^<>]*>", "", re.sub(r"<[^<>]*>", "", re.sub(r"<[^<>]*>", "", block)))
        self.owner = re.split(r"[:\s]", plain.split(" for ")[-1].strip())[0]

    def path(self):
        return "::".join(it for it in (*self.module, self.owner, self.name) if it)

    def promises(self):
        return any(it.startswith("ensures") for it in self.clauses)

    def labels(self):
        return {it[2] for it in map(CLAUSE.match, self.clauses) if it[2]}

    def is_law(self):
        """Whether the function stands in a module of laws."""
        return any(it.startswith("laws") for it in self.module)

    def sentence(self):
        return re.split(r"(?<=[.?])\s", self.comment)[0].removesuffix(".")


def functions(text, module):
    """The functions of a text, in its order. Code is formatted: what is public begins its line, and after clauses the body
    begins on a line of its own. An impl of a trait has no comments: the trait has them."""
    found, block, all_public, comment, last, in_body = [], "", False, [], None, False
    for number, line in enumerate(text.splitlines()):
        words = line.strip()
        if not line.startswith(" "):
            head = BLOCK.match(line)
            block = head[3].strip() if head else "" if line.startswith("}") else block
            all_public = head[2] == "trait" and bool(head[1]) if head else all_public and bool(block)
        if words.startswith("//"):
            comment += [words.removeprefix("///").strip()] if words.startswith("///") else []
            continue
        if begins := FUNCTION.match(words):
            is_public = " for " not in block and (all_public or bool(begins[1]))
            last = Function(module, block, begins[2], " ".join(comment), is_public, number)
            in_body = words.endswith("{")
            found.append(last)
        elif last and in_body:
            last.words |= set(re.findall(r"[A-Za-z_]\w*", re.sub(r'"[^"]*"', "", line)))
        elif last and CLAUSE.match(words):
            last.clauses.append(words)
        elif last and last.clauses and words != "{" and words != "{}":
            last.clauses[-1] += f" {words}"
        in_body |= words == "{" or words.endswith(") {") or words.startswith(")") and words.endswith("{")
        comment = comment if words.startswith("#[") else []
    return found


def exports(source):
    """The modules and the names that a crate passes on."""
    modules, names = set(), set()
    for file in source.rglob("*.rt"):
        text = file.read_text(encoding="utf-8")
        if file.name == "lib.rt":
            modules |= set(re.findall(r"^pub mod (\w+);", text, re.M))
        for path in re.findall(r"^pub use ([^;]+);", text, re.M):
            names |= set(re.findall(r"\w+", path.split("::")[-1] if "{" not in path else path[path.index("{") :]))
    return modules, names


def public_functions(top, crate):
    """The functions of a crate that others can call, and that promise something."""
    source = pathlib.Path(top) / "crates" / crate / "src"
    if not source.is_dir():
        sys.exit(f"no such crate: {crate}")
    modules, names = exports(source)
    for file in sorted(source.rglob("*.rt")):
        module = file.relative_to(source).with_suffix("").parts
        for it in functions(file.read_text(encoding="utf-8"), () if module == ("lib",) else module):
            is_open = module[0] in modules or (it.owner or it.name) in names
            if is_open and it.is_public and it.promises() and "worked" not in it.name:
                yield it


def laws(top, crate):
    """A line for each law of a crate: its path in the crate, and its sentence."""
    rows = [(it.path(), it.sentence()) for it in public_functions(top, crate) if it.is_law()]
    margin = min(max((len(path) for path, _ in rows), default=0), LONGEST) + 2
    for path, sentence in rows:
        yield from in_columns(path, sentence, margin)


def in_columns(head, text, margin):
    lines = textwrap.wrap(text, WIDTH - len(INDENT) - margin)
    if len(head) > margin - 2:
        yield INDENT + head
        head = ""
    for number, line in enumerate(lines):
        yield f"{INDENT}{'' if number else head:<{margin}}{line}"


def with_laws(top, text):
    """The text of a page, with the lines between each mark and its end as the code gives them. A mark names crates."""

    def block(found):
        lines = [line for crate in found[2].split() for line in (f"`{crate}`", "", *laws(top, crate), "")]
        return "\n".join([found[1], "", *lines, found[3]])

    if len(MARK.findall(text)) != text.count("<!-- laws:"):
        sys.exit("a mark of laws has no end, or cannot be read")
    return MARK.sub(block, text)
