"""Archives and creators from A to Z. The list of fonds is the office's, as it is now; of creators the index proposes names,
each of which is shown only if the page of a unit has it now."""

import heapq
import string

import folding
import index
from facets import creators_of
from texts import Page, read_head

SHOWN, AFTER_Z = 100, "{"


def key_of(name):
    """Where a name stands in the alphabet, in which accents, capitals and marks make no difference."""
    return " ".join(folding.folded_words(name))


def archives(fonds):
    """The archives that have a title: their keys, with the code so that no two are the same, numbers and heads, in order."""
    heads = ((number, read_head(text)) for number, text in fonds)
    return sorted((key_of(head.name), number, head) for number, head in heads if key_of(head.title) and not head.until)


def creators(db, ask, begin):
    """The creators from a key on, as the page of a unit writes each."""
    for key, numbers in index.creators_from(db, begin):
        pages = (Page(text) for text in map(ask, (f"/public/units/{n}" for n in numbers)) if text)
        name = next((name for page in pages for name in creators_of(page) if key_of(name) == key), None)
        if name:
            yield key, None, name


def entries(db, ask, fonds, begin):
    """A hundred archives and creators from a key on, and one more if there are others: the key of each, the number of the
    archive, and its head or the name."""
    both = heapq.merge((one for one in archives(fonds) if one[0] >= begin), creators(db, ask, begin) if db else (),
                       key=lambda one: one[0])
    return [one for one, _ in zip(both, range(SHOWN + 1))]


def letters(db, ask, fonds):
    """The letters to go on from: those of the Latin alphabet, those with which archives begin, and those of creators, each of
    whom the page of a unit names now."""
    found, begin = {*string.ascii_uppercase, *(letter_of(key) for key, *_ in archives(fonds))}, AFTER_Z
    while db and len(found) < SHOWN and (key := next((one for one, *_ in creators(db, ask, begin)), None)):
        found.add(letter_of(key))
        begin = chr(ord(key[0]) + 1)
    return sorted(found)


def letter_of(key):
    """The first letter, as names begin with it: in Georgian not with a capital."""
    return key[0].title()
