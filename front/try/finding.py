"""What a colleague has in hand, found in the copy of the night: units by their reference codes or by words of their titles,
boxes and readers by words of their names, and each of them by its number. Case, spaces and accents make no difference, nor
does the script of a Greek or Russian name; a name that sounds alike is found where no other has the words."""

import contextlib
import datetime
import json
import re
import sqlite3
import unicodedata
from typing import NamedTuple

MOST = 20  # of each kind
FIRST_DAY = datetime.date(1970, 1, 1)
LATIN = str.maketrans({
    **dict(zip("αβγδεζηθικλμνξοπρσςτυφχψω", "a v g d e z i th i k l m n x o p r s s t y f ch ps o".split())),
    **dict(zip("абвгдежзийклмнопрстуфхцчшщыэюя",
               "a b v g d e zh z i i k l m n o p r s t u f kh ts ch sh shch y e yu ya".split())),
    **dict(zip("ъьøłđðþæœı", ("", "", "o", "l", "d", "d", "th", "ae", "oe", "i"))), "ґ": "g", "є": "e", "і": "i"})
ALIKE = (("ου", "ou"), ("γγ", "ng"), ("μπ", "b"), ("ντ", "d"))
# What sounds alike, in turn: letters that are written otherwise, vowels behind the first letter, and what is doubled
SOUNDS = tuple((re.compile(old), new) for old, new in (
    ("[bm]h", "v"), ("ph", "f"), ("[st]?ch|kh|ck|c|q", "k"), ("s[hz]|z", "s"), ("[dtg]h", "t"), ("w", "v"),
    ("(?<=.)[aeiouyhj]+", ""), (r"(.)\1+", r"\1")))
TITLES = """
    SELECT unit.id, span.rgt, unit.draft, unit.until, code.value, title.value FROM span JOIN unit ON unit.id = span.id
    LEFT JOIN element AS code ON code.unit = unit.id AND code.k = 1
    LEFT JOIN element AS title ON title.unit = unit.id AND title.k = 2 ORDER BY span.lft"""


class Seen(NamedTuple):
    """A unit on the way down: its last place, its code, whether it or one above is a draft, and until when one is closed."""

    number: int
    last: int
    code: str
    title: str
    is_draft: bool
    is_below_draft: bool
    closed: int


def find(path, typed):
    """What may be meant in the copy at this path: lists of `units`, `boxes` and `readers`, how many `more` of each there are,
    and the last ticket that the copy has."""
    number = int(typed) if re.fullmatch(r"\s*[0-9]{1,10}\s*", typed) else None
    with opened(path) as store:
        found = {"units": units(store, number, typed), "boxes": boxes(store, number, plain(typed).split()),
                 "readers": readers(store, number, plain(typed).split())}
        more = {kind: max(0, len(them) - MOST) for kind, them in found.items()}
        found["units"] = [{**told(store, rank, seen), "boxes": placed(store, boxes)}
                          for rank, seen, boxes in found["units"][:MOST]]
        [last] = store.execute("SELECT coalesce(max(ticket), 0) FROM reader").fetchone()
    return {**{kind: them[:MOST] for kind, them in found.items()}, "more": more, "last": last}


def opened(path):
    """A context with a connection to the copy at this path."""
    return contextlib.closing(sqlite3.connect(f"{path.resolve().as_uri()}?immutable=1", uri=True))


def boxes_of(path, numbers):
    """Boxes by their numbers, as far as the copy has them: their places, and the units in them that are not open to all."""
    with opened(path) as store:
        found = {box["container"]: box for box in placed(store, numbers)}
        withheld = {box: [] for box in found}
        for seen, boxes in housed(store) if found else ():
            if seen.is_draft or seen.is_below_draft or seen.closed:
                for box in withheld.keys() & boxes:
                    withheld[box].append(seen)
        for box, units in withheld.items():
            found[box] |= {"withheld": [told(store, 0, seen) for seen in units[:MOST]], "more": max(0, len(units) - MOST)}
    return list(found.values())


def placed(store, numbers):
    """Boxes by their numbers, each with its name and its place."""
    rows = store.execute("SELECT id, name, location FROM container WHERE id IN (SELECT value FROM json_each(?))",
                         (json.dumps(list(numbers)),))
    return [{"container": box, "name": name, "location": location} for box, name, location in rows]


def wanted(path, notes):
    """The units of orders, of each the numbers of order, box and unit. A unit that is not in that box, as the copy has it, is
    left out; of one that the copy lacks there is the number alone."""
    with opened(path) as store:
        numbers = {unit for _, _, unit in notes}
        known = {seen.number: (seen, boxes) for seen, boxes in housed(store) if seen.number in numbers}
        return [{"order": order, "unit": unit, **(told(store, 0, known[unit][0]) if unit in known else {})}
                for order, box, unit in notes if unit not in known or box in known[unit][1]]


def housed(store):
    """All units, each with its boxes: its own or, if it has none, those of the nearest unit above that has some."""
    own, way = {}, []
    for unit, box in store.execute("SELECT unit, container FROM housing"):
        own.setdefault(unit, set()).add(box)
    for seen in walk(store):
        while way and way[-1][0] < seen.last:
            way.pop()
        way.append((seen.last, own.get(seen.number) or (way[-1][1] if way else set())))
        yield seen, way[-1][1]


def plain(text):
    """A text as it is compared: Latin letters without case and marks."""
    text = text.casefold() if text.isascii() else unicodedata.normalize("NFKD", text).casefold()
    if text.isascii():
        return text
    text = "".join(letter for letter in text if not unicodedata.combining(letter))
    for greek, latin in ALIKE:
        text = text.replace(greek, latin)
    return text.translate(LATIN)


def sound(word):
    """A word as it sounds, roughly: Sullivan as Súilleabháin."""
    for old, new in SOUNDS:
        word = old.sub(new, word)
    return word


def has_words(text, words):
    """Whether a text has each of these words, or its beginning or its end."""
    text = plain(text)
    return bool(words) and all(word in text for word in words)


def units(store, number, typed):
    """The units that have this number, this reference code, its last parts, or these words in their titles, in this order,
    each with its rank, 0 to 3, and its boxes."""
    [office] = store.execute("SELECT country || repo FROM office").fetchone()
    code, words = code_of(typed).removeprefix(code_of(office)).lstrip("/"), plain(typed).split()
    ranked = []
    for seen, boxes in housed(store) if code else ():
        own = code_of(seen.code)
        ways = (seen.number == number, own == code, own.endswith(f"/{code}"), number is None and has_words(seen.title, words))
        if True in ways:
            ranked.append((ways.index(True), seen, boxes))
    return sorted(ranked, key=lambda one: one[0])


def code_of(typed):
    """A reference code as it is compared."""
    return "".join(typed.casefold().split())


def walk(store):
    """All units in the order of the catalogue."""
    way, [today] = [], store.execute("SELECT day FROM office").fetchone()
    for number, last, draft, until, identifier, title in store.execute(TITLES):
        while way and way[-1].last < last:
            way.pop()
        above = way[-1] if way else Seen(0, 0, "", "", False, False, 0)
        closed = max(above.closed, until if until is not None and until > today else 0)
        way.append(Seen(number, last, "/".join(filter(None, (above.code, identifier))), title or "", bool(draft),
                        above.is_draft or above.is_below_draft, closed))
        yield way[-1]


def told(store, rank, seen):
    """What staff see of a unit, and how it was meant."""
    country, repo, level, dates = store.execute("""
        SELECT country, repo, level, coalesce(value, '') FROM office, unit LEFT JOIN element ON unit = unit.id AND k = 3
        WHERE unit.id = ?""", (seen.number,)).fetchone()
    return {"unit": seen.number, "rank": rank, "code": f"{country} {repo} {seen.code}".strip(), "level": level,
            "title": seen.title, "dates": dates, "draft": seen.is_draft, "belowDraft": seen.is_below_draft,
            "until": day_text(seen.closed) if seen.closed else None}


def day_text(day):
    """A day of the office as a date."""
    return (FIRST_DAY + datetime.timedelta(days=day)).isoformat()


def boxes(store, number, words):
    """The boxes that have this number, or these words in their names."""
    rows = store.execute("SELECT id, name, location FROM container ORDER BY name, id")
    return [{"container": box, "name": name, "location": location} for box, name, location in rows
            if box == number or number is None and has_words(name, words)]


def readers(store, number, words):
    """The readers with this ticket, or these words in their names; else those whose names sound so."""
    rows = [{"ticket": ticket, "name": name, "until": day_text(until)}
            for ticket, name, until in store.execute("SELECT ticket, name, until FROM reader ORDER BY name, ticket")]
    if number is not None:
        return [row for row in rows if row["ticket"] == number]
    sounds = {sound(word) for word in words if len(word) > 2}
    return ([row for row in rows if has_words(row["name"], words)]
            or [row for row in rows if sounds and sounds <= {sound(word) for word in plain(row["name"]).split()}])
