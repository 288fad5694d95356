"""A page as a reader reads it, a line for each piece of it: what is compared with approved/readers.

    # a heading, ## one below it   - an entry of a list   > what opens a part of the page   | a row of a table
    [text](where a link leads)     [name=what a field has]   <what a button says>   *what was found*
    {words of the archive, which have no language}   ‹for those who hear the page›   … 9 more like these …"""

import html.parser
import re

PREFIX = {"h1": "# ", "h2": "## ", "h3": "### ", "li": "- ", "summary": "> ", "tr": "| "}
BLOCKS = {"article", "aside", "blockquote", "details", "div", "dl", "fieldset", "figure", "footer", "form", "header",
          "legend", "main", "nav", "ol", "p", "pre", "section", "table", "tbody", "thead", "ul", *PREFIX}
EMPTY = {"input", "meta", "link", "br", "img", "hr"}
LEAST_ALIKE = 4  # lines that differ in numbers alone, or groups of such, of which the first and the last are shown
GROUP = 8  # lines that come again and again together
LONGEST = 12  # entries of a list, of which the first and the last are shown, and where the page itself is
NUMBER = re.compile("(?<=head=)[0-9a-f]+|(?:[./]?[0-9]+)+")
AGAIN = re.compile(r"(\b\w+[ +]|\w)\1{99,}")
WIDTH = 160


class Outline(html.parser.HTMLParser):
    """The lines of a page's main part, after its title. `whole`: with all that its head says of it, header and footer."""

    def __init__(self, text, whole=False):
        super().__init__()
        self.whole, self.lines, self.line, self.prefix, self.open, self.skips = whole, [], "", "", [], 0
        self.feed(text)
        self.flush()

    def flush(self, prefix=""):
        line = re.sub(r"\s+", " ", self.line).strip()
        if line and line not in ("(open)", "(status)"):
            self.lines.append(self.prefix + line)
            self.prefix = ""
        self.line, self.prefix = "", prefix or self.prefix

    def handle_starttag(self, tag, attrs):
        has = dict(attrs)
        if self.whole and tag in ("html", "meta", "link", "script"):
            self.lines.append(" ".join([tag, *(f"{name}={value}" for name, value in attrs)]))
        is_around = has.get("class") in ("site", "imprint") and not self.whole
        if self.skips or is_around or tag == "script" and not self.whole or tag == "a" and has.get("class") == "skip":
            self.skips += tag not in EMPTY
            return
        in_row = tag in ("li", "ol", "ul") and any(name == "nav" for name, _ in self.open)  # such as the way to a unit
        if tag in BLOCKS and not in_row:
            self.flush(PREFIX.get(tag, ""))
        self.line += {"dd": ": ", "td": " | ", "th": " | ", "br": " / ", "li": " · " * in_row}.get(tag, "")
        if tag == "details" and "open" in has:
            self.line += "(open) "
        notes = [has[name] for name in ("role", "aria-label") if name in has]
        notes += ["here"] * ("aria-current" in has) + ["hidden"] * ("hidden" in has)
        if notes and tag not in ("a", "ul"):
            self.line += f"({', '.join(notes)}) "
        if tag == "meta" and has.get("name") == "robots" and not self.whole:
            self.line = f"robots: {has['content']}"
            self.flush()
        elif tag in ("input", "textarea"):
            kind = "" if has.get("type", "text") in ("text", "search", "hidden") else f" {has['type']}"
            self.line += f" [{has.get('name', '')}={has.get('value', '')}{kind}{' checked' * ('checked' in has)}] "
        self.line += self.mark(tag, has, 0)
        if tag not in EMPTY:
            self.open.append((tag, has))

    def handle_endtag(self, tag):
        if self.skips:
            self.skips -= 1
            return
        if tag in EMPTY or not self.open:
            return
        _, has = self.open.pop()
        self.line += self.mark(tag, has, 1)
        in_row = tag in ("li", "ol", "ul") and any(name == "nav" for name, _ in self.open)
        if (tag in BLOCKS or tag in ("title", "dd")) and not in_row:
            self.flush()
            self.prefix = ""

    @staticmethod
    def mark(tag, has, end):
        """What stands before an element, or behind it."""
        if tag == "a":
            return ("[", f"]({has.get('href')})")[end]
        if tag in ("button", "option"):
            return ("<", ">")[end] if tag == "button" else (" ", "*" * ("selected" in has))[end]
        if tag == "mark":
            return "*"
        if has.get("class") == "unseen":
            return "‹›"[end]
        if "lang" in has and tag != "html":
            return (f"{has['lang']}{{", "}")[end]
        return ""

    def handle_data(self, data):
        if not self.skips:
            self.line += data


def lines_of(text, whole=False):
    """The lines of a body, of HTML its outline."""
    lines = Outline(text, whole).lines if "<html" in text else [line.strip() for line in text.split("\n") if line.strip()]
    lines = [re.sub(r"\}\{ (\[[^{}]*\]) \}\{", r" \1 ", line).replace(": : ", ": ") for line in lines]
    return [piece for line in shortened(alike(lines)) for piece in wrapped(readable(line))]


def readable(line):
    """A line without what would not be seen in it."""
    line = AGAIN.sub(lambda found: f"{found[1]}… {len(found[0]) // len(found[1])} times ", line)
    return line if line.isprintable() else "".join(one if one.isprintable() else f"\\u{ord(one):04x}" for one in line)


def wrapped(line):
    """A line in pieces that can be read."""
    while len(line) > WIDTH:
        at = line.rfind(" ", WIDTH // 2, WIDTH)
        at = at if at > 0 else WIDTH
        yield line[:at]
        line = "    " + line[at:].strip()
    yield line


def alike(lines):
    """The lines, of which many that differ in numbers alone, or groups of such, are shown as the first and the last."""
    kinds, shown, at = [NUMBER.sub("0", line) for line in lines], [], 0
    while at < len(lines):
        size, many = max(((size, repeated(kinds, at, size)) for size in range(1, GROUP + 1)), key=lambda one: one[0] * one[1])
        if many < LEAST_ALIKE:
            shown.append(lines[at])
            at += 1
            continue
        end = at + size * many
        shown += [*lines[at:at + size], f"… {many - 2} more like these …", *lines[end - size:end]]
        at = end
    return shown


def repeated(kinds, at, size):
    """How many times so many kinds of lines come one after the other from here on."""
    many = 1
    while kinds[at:at + size] == kinds[at + many * size:at + (many + 1) * size]:
        many += 1
    return many


def shortened(lines):
    """The lines, of which long lists are shown by their first and last entries."""
    shown, at = [], 0
    while at < len(lines):
        end = at
        while end < len(lines) and lines[end].startswith("- "):
            end += 1
        entries = lines[at:end]
        if len(entries) > LONGEST:
            middle = entries[3:-2]
            here = [line for line in middle if line.startswith("- (here)")]
            entries = [*entries[:3], f"… {len(middle) - len(here)} more …", *here, *entries[-2:]]
        shown += entries or [lines[at]]
        at = max(end, at + 1)
    return shown
