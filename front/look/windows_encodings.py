"""In which of Windows' encodings a file is, by what its letters say."""

import re
from collections import Counter

# Letters that texts in these encodings have; of Greek and Cyrillic, the most frequent ones
LETTERS = {
    "Windows-1252": "àáâãäåæçèéêëíîïñòóôöøùúûüßœšž", "Windows-1254": "çğıöşüâî\u0307",
    "Windows-1250": "áéíóöőúüűýčďěąćęłńňřśšťůźżž", "Windows-1251": "авгдеиклмнорстуыя",
    "Windows-1253": "αάεέηήιίκλμνοόπρςστυύω"}
LATIN, OTHERS = tuple(LETTERS)[:3], tuple(LETTERS)[3:]
MARKS = re.compile("[^\x00-\x7f“”‘’‚„–—…«»•·§°\u00a0]")  # all but what stands at the same place in each
WORD = re.compile(rb"[A-Za-z\xc0-\xff]{3,}")


def codec(name):
    """Python's name of one of these encodings."""
    return "cp" + name[-4:]


def proposed(data):
    """The encoding whose own letters a text has most; the first one if several have."""
    words = b"".join(word for word in WORD.findall(data) if not word.isascii())
    is_latin = 2 * len(re.findall(rb"[\xc0-\xff]", words)) <= len(words)
    return max(LATIN if is_latin else OTHERS, key=lambda name: share(data, name))


def share(data, name):
    """Which part of a text's letters beyond ASCII are those of an encoding."""
    found = Counter(MARKS.findall(data.decode(codec(name), "replace").lower()))
    return sum(found[letter] for letter in LETTERS[name]) / max(1, found.total())


def is_utf8_with_faults(data):
    """Whether more letters are right in UTF-8 than wrong."""
    letters = re.findall("[^\x00-\x7f]", data.decode("utf-8", "replace"))
    return len(letters) > 2 * letters.count("\ufffd")
