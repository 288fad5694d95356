"""What the units that an answer has verified have in common: archives, levels, decades and creators, with how many have each.
All of it is of pages that the office has just given."""

import collections
import datetime

from texts import CREATORS, creators_in, read_head, read_line

SHOWN, DECADES = 8, 30  # values of one kind


class Facets:
    """counts: of each kind, how many units have which value."""

    KINDS = ("archive", "level", "decade", "creator")

    def __init__(self):
        self.counts = {kind: collections.Counter() for kind in self.KINDS}

    def add(self, page, years, fonds):
        """Counts what a unit has. Its archive is that whose code begins its own, if this is one alone."""
        head, tops = read_head(page.head), [(number, read_head(text).code) for number, text in fonds]
        above = [number for number, code in tops if not code or page.head.startswith((f"{code}/", f"{code} "))]
        self.counts["archive"].update(above if len(above) == 1 and all(code for _, code in tops) else [])
        self.counts["level"].update([head.level] if head.level else [])
        self.counts["decade"].update(decades_of(years))
        self.counts["creator"].update(creators_of(page))

    def told(self, query, count):
        """Of each kind the most frequent values, if not all units have them, and how many have them: decades in order, and
        only those of which each year is asked for, so that their links find as many. Archives only if it is certain of each
        unit of which it is."""
        told = {}
        for kind, counts in self.counts.items():
            if kind == "archive" and counts.total() < count:
                continue
            order = sorted(counts.items(), key=lambda one: (-one[1], str(one[0])))[:DECADES if kind == "decade" else SHOWN]
            if kind == "decade":
                order = sorted(one for one in order if query.has_all((one[0], one[0] + 9)))
            if any(many < count for _, many in order):
                told[kind] = order
        return told


def decades_of(years):
    """The first years of the decades of some years, up to now."""
    return range(years[0] // 10 * 10, min(years[1], datetime.date.today().year) + 1, 10) if years[0] is not None else ()


def creators_of(page):
    """Whom the page of a unit names as its creators, with those that are found above it."""
    lines = [line for line in page.lines if line.startswith(CREATORS)]
    return creators_in(line.removesuffix(read_line(line, page.head).mark) for line in lines)
