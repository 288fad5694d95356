"""What the pages of the repository say of other files: links, and excerpts of code.

An excerpt is an indented block right below the mark `<!-- excerpt: FILE -->`. Its lines must stand in the file in this
order, and without others between them except where the excerpt has a line `...`. How deep they are indented makes no
difference.
"""

import difflib
import pathlib
import re

LINK = re.compile(r"\[[^\[\]]*\]\(([^()\s]+)\)")
EXCERPT = re.compile(r"^<!-- excerpt: (\S+) -->\n\n((?:(?:    .*)?\n)+)", re.M)
PAGES = ("*.md", "*/*.md")


def pages(top):
    """The text of each page of the repository, by its path."""
    top = pathlib.Path(top)
    paths = [it for pattern in PAGES for it in sorted(top.glob(pattern))]
    return {str(it.relative_to(top)): it.read_text(encoding="utf-8") for it in paths}


def differences(name, text, wanted):
    """Where a page differs from what a script would write."""
    if text != wanted:
        lines = difflib.unified_diff(text.splitlines(), wanted.splitlines(), "the page", "the code", n=0, lineterm="")
        yield "\n".join([f"{name}: the code gives other lines (./run tools.promises --write)", *lines])


def anchors(text):
    """The anchors of the headings of a page, as web pages of repositories have them."""
    found = set()
    for heading in re.findall(r"^#+ (.*)$", text, re.M):
        plain = re.sub(r"\]\([^)]*\)", "", heading).lower()
        anchor = re.sub(r"[^\w\- ]", "", plain).strip().replace(" ", "-")
        number = sum(1 for it in found if it == anchor or re.fullmatch(rf"{re.escape(anchor)}-\d+", it))
        found.add(f"{anchor}-{number}" if number else anchor)
    return found


def is_there(top, page, link, texts):
    """Whether a link of a page leads to a file, and to a heading of it if it names one."""
    path, _, anchor = link.partition("#")
    target = (top / page).parent.joinpath(path).resolve() if path else (top / page).resolve()
    if not target.exists():
        return False
    text = texts.get(str(target.relative_to(top))) if target.is_relative_to(top) else None
    return not anchor or text is not None and anchor in anchors(text)


def wrong_links(top, texts):
    """Each link of the pages that leads nowhere, with its line."""
    top = pathlib.Path(top).resolve()
    for page, text in texts.items():
        plain = re.sub(r"`[^`\n]*`", lambda code: " " * len(code[0]), text)
        for found in LINK.finditer(plain):
            if not re.match(r"[a-z]+:", found[1]) and not is_there(top, page, found[1], texts):
                yield f"{page}:{plain.count(chr(10), 0, found.start()) + 1}: no such place: {found[1]}"


def is_excerpt(lines, code):
    """Whether lines stand in code in their order, one right after the other but where `...` is."""
    parts = [[]]
    for line in (it.strip() for it in lines):
        if line == "...":
            parts.append([])
        else:
            parts[-1].append(line)
    at = 0
    for part in (it for it in parts if it):
        while code[at : at + len(part)] != part:
            at += 1
            if at + len(part) > len(code):
                return False
        at += len(part)
    return True


def wrong_excerpts(top, page, text):
    """Each excerpt of a page that its file does not have."""
    found = EXCERPT.findall(text)
    if not found or len(found) != text.count("<!-- excerpt:"):
        yield f"{page}: {len(found)} of {text.count('<!-- excerpt:')} excerpts can be read"
    for name, block in found:
        file = pathlib.Path(top, name)
        code = [it.strip() for it in file.read_text(encoding="utf-8").splitlines()] if file.exists() else []
        if not is_excerpt(block.rstrip("\n").split("\n"), code):
            yield f"{page}: {name} has no such lines: {block.strip().splitlines()[0]} .."
