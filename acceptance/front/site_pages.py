"""The readers' pages as the service sends them, read without a browser."""

import html.parser
import re

DAY = re.compile(r'<time datetime="([^"]*)">[^<]*</time>')


class Tree(html.parser.HTMLParser):
    """A page's elements, with their texts: (tag, attributes, text) of each that was closed, in `found`. `odd`: what is no
    proper markup, or may have come from the archive."""

    VOID = {"meta", "link", "input", "br"}

    def __init__(self, text):
        super().__init__()
        self.open, self.found, self.odd = [], [], []
        self.feed(DAY.sub(r"\1", text))

    def handle_starttag(self, tag, attrs):
        if any(name.startswith("on") for name, _ in attrs) or tag in ("img", "b", "i", "iframe") and self.is_in_archive():
            self.odd.append((tag, attrs))
        if tag not in self.VOID:
            self.open.append([tag, dict(attrs), ""])

    def is_in_archive(self):
        """Whether this is inside a text of the archive."""
        return any("words" in (one[1].get("class") or "") for one in self.open)

    def handle_data(self, data):
        for one in self.open:
            one[2] += data

    def handle_endtag(self, tag):
        if not self.open:
            self.odd.append((tag,))
            return
        one = self.open.pop()
        if one[0] != tag:
            self.odd.append((one[0], tag))
        self.found.append(tuple(one))

    def links(self, pattern):
        """Address and text of each link whose address is like this."""
        return [(one[1]["href"], one[2]) for one in self.found if one[0] == "a" and re.fullmatch(pattern, one[1]["href"])]

    def text(self, tag):
        return next(one[2] for one in self.found if one[0] == tag)


def aid_of(text):
    """A finding aid as the program would have written it."""
    return "".join("  " * int(one[1]["data-depth"]) + one[2] + "\n" for one in Tree(text).found if "data-depth" in one[1])


def elements_of(text):
    """The elements of a unit's page: number and text of each."""
    return [(one[1]["data-element"], one[2].strip("\n")) for one in Tree(text).found if "data-element" in one[1]]
