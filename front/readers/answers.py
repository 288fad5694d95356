"""The index proposes, the office decides. A candidate is shown only if its page, as it is now, has the words; all that
is shown or counted is of pages that were read for this very answer. There is `more` only if one more was verified. What
the office cannot answer for is not shown, and does not keep the rest away."""

import math
import sqlite3
import time
from dataclasses import dataclass, replace

import folding
import index
from asking import SOON, Busy, Slow, Unreached
from facets import Facets, creators_of
from texts import Page, name_of, own_digest, read_fonds, read_head, value_of, years_of
from years import EVER

SHOWN, COUNTED = 20, 300  # of one answer: units shown, units counted
LOOKS, SECONDS = 2000, SOON  # candidates looked at, time
COUNTING, HURRIED = .7, .15  # seconds after which no more are counted; the same while other readers wait for their turn
LINES, WIDTH, BEFORE = 2, 240, 60  # of one unit: lines shown, characters of a line, of these before the first mark
START = (0, 0)  # the place before all others


@dataclass
class Query:
    """What is asked for. within: a unit that has it; first, last: years; after: the place of the unit that was shown last;
    by_date: earliest first; without: phrases that may not occur; level, creator: of the unit; undated: it has no year."""

    phrases: list
    within: int | None = None
    first: int | None = None
    last: int | None = None
    after: tuple = START
    by_date: bool = False
    without: tuple = ()
    level: str | None = None
    creator: str | None = None
    undated: bool = False

    def is_asked(self):
        """Whether anything is asked for."""
        bounds = (self.first, self.last, self.level, self.creator)
        return bool(self.phrases or self.undated or any(bound is not None for bound in bounds))

    def asks_for_years(self):
        """Whether only units of some years are asked for."""
        return self.first is not None or self.last is not None or any(phrase.years for phrase in self.phrases)

    def of_no_year(self):
        """What has no year, and else is as asked for."""
        dated = [phrase._replace(years=None) for phrase in self.phrases if phrase.years]
        return replace(self, phrases=[phrase for phrase in self.phrases if not phrase.years], undated=True, first=None,
                       last=None, without=(*self.without, *dated))

    def meets(self, years):
        """Whether the span from the least to the greatest year of a unit meets the years that are asked for."""
        if self.undated:
            return years[0] is None
        return (self.first, self.last) == (None, None) or meet(years, (self.first or 0, self.last or EVER))

    def has_all(self, years):
        """Whether each year of a span is asked for."""
        return (self.first or 0) <= years[0] and years[1] <= (self.last or EVER)

    def takes(self, page):
        """Whether a unit has the level and the creator that are asked for."""
        return (self.level in (None, read_head(page.head).level)
                and (self.creator is None or self.creator in creators_of(page)))

    def lacks(self, texts):
        """The phrases that occur in none of these texts."""
        readings = [reading for text in texts for reading in folding.readings_of(text)]
        return [phrase for phrase in self.phrases if not folding.occurs(phrase, readings)]

    def lacked_by(self, head, lines):
        """The phrases that a unit does not have itself. None: it has what may not occur."""
        texts = (head, *map(value_of, lines))
        readings = [reading for text in texts for reading in folding.readings_of(text)]
        if any(folding.occurs(phrase, readings) for phrase in self.without):
            return None
        years = years_of(lines)
        return [phrase for phrase in self.phrases
                if not (phrase.years and meet(years, phrase.years) or folding.occurs(phrase, readings))]


def meet(years, others):
    """Whether two spans of years have one in common; the first may have none at all."""
    return years[0] is not None and years[0] <= others[1] and others[0] <= years[1]


class Finder:
    """find() answers once. state: done; late (the time or the looks are over); unreached. count: how many units were
    verified, or None; exact: whether these are all. after: how to ask for more. doubts: units that the index has
    otherwise than the office; gone: those of them that are shown no more. These are for the next round, not for the
    reader. fonds: the list of fonds, if it was read for the same reader just now; counts: whether what is not shown is
    counted; is_awaited() says whether other readers wait; facets: what the units that were counted have."""

    def __init__(self, db, ask, query, shown=SHOWN, fonds=(), counts=True, is_awaited=lambda: False):
        self.db, self.ask, self.query, self.shown, self.fonds, self.counts = db, ask, query, shown, fonds, counts
        self.is_awaited = is_awaited
        self.state, self.units, self.more, self.after, self.count, self.exact = "done", [], False, query.after, 0, True
        self.doubts, self.gone, self.pages, self.tops, self.looked = set(), set(), {}, set(), 0
        self.unanswered, self.facets, self.until, self.latest = set(), Facets(), None, math.inf

    def again(self, query, shown=1, counts=False, until=None):
        """Another question for the same reader: no page is read twice, and it is over when the first one would be. until: the
        place of the last unit that is looked at."""
        other = Finder(self.db, self.ask, query, shown, self.fonds, counts, self.is_awaited)
        other.doubts, other.gone, other.pages, other.unanswered = self.doubts, self.gone, self.pages, self.unanswered
        other.until, other.latest = until, self.latest
        return other

    def find(self, seconds=SECONDS):
        """Answers, within so many seconds; returns itself."""
        self.began = time.monotonic()
        self.latest = self.ask.until = min(self.began + seconds, self.latest)
        self.db.set_progress_handler(lambda: time.monotonic() > self.ask.until, 10_000)
        self.db.execute("BEGIN")  # the index stays as it is for this answer
        try:
            self._find()
        except Slow:
            self.state = "late" if self.tops else "unreached"  # the list of fonds, at least, comes at once
        except Unreached:
            self.state = "unreached"
        except sqlite3.OperationalError:
            if time.monotonic() < self.ask.until:
                raise
            self.state = "late"
        finally:
            self.db.set_progress_handler(None, 0)
            self.db.execute("ROLLBACK")
        return self

    def _find(self):
        """Looks at one candidate after the other. Raises Slow or Unreached."""
        if not self.query.is_asked():
            return
        # Always asked: if only candidates were, an office that is away would tell whether the index has any.
        self.fonds = self.fonds or read_fonds(self.ask("/public/fonds") or "")
        self.tops = {top for top, _ in self.fonds}
        for place, number in index.propose(self.db, self.query):
            if self.until is not None and place > self.until:
                return
            hit = self._hit(place, number, self.count < self.shown)
            if hit:
                self.count += 1
                self.more = self.count > self.shown
            if hit and not self.more:
                self.units.append(hit)
                self.after = place
            if self._is_enough():
                self.count, self.exact = self.count - 1, False  # more than these
                return

    def _is_enough(self):
        """Whether no more are looked at: nobody waits long for a number. Whether there is another candidate, which may be one
        that was closed, is not asked."""
        return self.more and (not self.counts or self.count > max(COUNTED, self.shown)
                              or self._took() > COUNTING or self._took() > HURRIED and self.is_awaited())

    def _took(self):
        """Seconds since it began."""
        return time.monotonic() - self.began

    def _hit(self, place, number, shown):
        """The unit as it is shown, or only True; None if its page, as it is now, has not what was asked for."""
        if self.looked == LOOKS:
            raise Slow(number)
        self.looked += 1
        page, (own, odd) = self._page(number), index.find_known(self.db, number)
        lines = page and page.own_lines(odd)
        if page is None and number not in self.unanswered:
            self.gone.add(number)
        elif page and own_digest(page.head, lines) != own:
            self.doubts.add(number)
        if page is None or not self._is_at(place, years_of(lines)) or not self.query.takes(page):
            return None
        lacking = self.query.lacked_by(page.head, lines)
        if lacking is None or index.is_in_context(self.query, place) != bool(lacking):
            return None
        if lacking and len(lacking) == len(self.query.phrases):
            return None
        # What is closed now may once have had the words: then pages above it are not asked for, which others could see.
        if not all(index.stands_above(self.db, number, phrase) for phrase in lacking):
            return None
        way = self._way(number) if shown or lacking or self.query.within is not None else None
        if lacking and (way is None or set(lacking) & set(self.query.lacks([step["head"] for step in way]))):
            return None
        if self.query.within is not None and (way is None or self.query.within not in [
                *(step["unit"] for step in way), number]):
            return None
        if self.counts:
            self.facets.add(page, years_of(lines), self.fonds)
        if not shown:
            return True
        return {"unit": number, "way": way, "head": mark(page.head, folding.places_of(self.query.phrases, page.head)),
                "lines": excerpt(self.query.phrases, page.head, lines)}

    def _is_at(self, place, years):
        """Whether the years are those that were asked for and, in order of dates, those of the unit's place."""
        first = index.UNDATED if years[0] is None else years[0]
        return self.query.meets(years) and not (self.query.by_date and first != place[0] % index.CONTEXT)

    def _page(self, number):
        """The page of a unit, read once, or None."""
        if number not in self.pages:
            try:
                text = self.ask(f"/public/units/{number}")
            except Busy:
                text = None
                self.unanswered.add(number)
            self.pages[number] = text and Page(text)
        return self.pages[number]

    def _way(self, number):
        """The units above, from the top down, if the pages name each other so now; else None. The index only proposes
        it."""
        way, at = [], number
        for above in index.above(self.db, number):
            page = self._page(above)
            if page is None or all(below != at for below, _ in page.units):
                return None
            way.insert(0, {"unit": above, "head": page.head})
            at = above
        return way if at in self.tops else None


def excerpt(phrases, head, lines):
    """Some lines: those with the most phrases that the head and the lines before lack, or else the first line. Their
    texts are in pieces, of which every second is marked."""
    shown, rest = phrases_in(phrases, head), {place: phrases_in(phrases, value_of(line))
                                              for place, line in enumerate(lines)}
    best = []
    while len(best) < LINES and any(rest.values()):
        best.append(max(rest, key=lambda place: (len(rest[place] - shown), len(rest[place]), -place)))
        shown |= rest.pop(best[-1])
    return [{"name": name_of(lines[place]), "text": shorten(value_of(lines[place]), phrases)} for place in best
            or [0] * bool(lines)]


def phrases_in(phrases, text):
    """The phrases that a text has."""
    readings = folding.readings_of(text)
    return {phrase for phrase in phrases if folding.occurs(phrase, readings)}


def shorten(text, phrases):
    """The text in pieces, from a little before the first mark on."""
    places = folding.places_of(phrases, text)
    begin = max(0, places[0][0] - BEFORE) if places else 0
    if begin and " " in text[begin:places[0][0]]:
        begin = text.index(" ", begin) + 1
    end = begin + WIDTH
    pieces = mark(text[begin:end], [(first - begin, min(last, end) - begin) for first, last in places if first < end])
    if begin:
        pieces[0] = "… " + pieces[0]
    if end < len(text):
        pieces.append("") if len(pieces) % 2 == 0 else None
        pieces[-1] += " …"
    return pieces


def mark(text, places):
    """A text in pieces, of which every second is marked."""
    pieces, at = [], 0
    for begin, end in places:
        pieces += [text[at:begin], text[begin:end]]
        at = end
    return [*pieces, text[at:]] if at < len(text) or not pieces else pieces
