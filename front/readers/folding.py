"""Which words count as the same in a search, and where they stand in a text. Case, accents and other marks on letters
make no difference, nor do the kinds of apostrophes, hyphens and digits, full and half width, simplified and traditional
letters. Apostrophes and hyphens part words; so does the border of digits and letters.

A text can be read in several ways: as it stands; with umlauts spelled out and Arabic words without their article; with
words joined that only an apostrophe, a hyphen or the points of initials part; or both. What was typed is read in the
same ways. It is found if one of its readings stands in one of the text's.

Scripts without spaces between words are cut into pairs of letters, so that any part of a text is found.

front/shared/words.json has the tables; front/shared/folding.js reads names by them too."""

import functools
import re
import sys
import unicodedata
from typing import NamedTuple

import snowballstemmer

import spellings
from texts import read_shared

LONGEST = 1000  # characters that are read of what was typed
MOST = 64  # words or phrases
SHORTEST_STEM = 3  # letters
STEMMERS = {"ar": "arabic", "da": "danish", "de": "german", "el": "greek", "en": "english", "es": "spanish", "fi": "finnish",
            "fr": "french", "hy": "armenian", "it": "italian", "nl": "dutch", "no": "norwegian", "pt": "portuguese",
            "ru": "russian", "sv": "swedish"}
SCRIPTS = (("\u0370", "\u03ff", "el"), ("\u0400", "\u04ff", "ru"), ("\u0530", "\u058f", "hy"),
           ("\u0590", "\u05ff", "he"), ("\u0600", "\u06ff", "ar"), ("\u10a0", "\u10ff", "ka"))
LEFT = {"el": ("ι", "γι", "ατ"), "ru": ("ов", "ев")}  # what a stemmer leaves at some forms of a word
ENDINGS = {"de": re.compile("(?<=...in)nen$"), "el": re.compile("(?<=[αηιο])ν$"), "he": re.compile("(?:ים|יות|ות|ה|ת)$"),
           "ka": re.compile("(?:ებ)?(?:ის|ით|ად|მა|ს|ი|ა|ო)?$")}  # what goes before, or without one

TABLES = read_shared("words.json")
LETTERS = str.maketrans(TABLES["letters"] | dict(zip(TABLES["traditional"], TABLES["simplified"]))
                        | {chr(katakana): chr(katakana - 0x60) for katakana in range(0x30a1, 0x30f7)})
OTHER = str.maketrans(TABLES["other"])
MARKS, UNSEEN, APOSTROPHES, PAIRED = (TABLES[name] for name in ("marks", "unseen", "apostrophes", "paired"))
QUOTES = re.compile("(?<![א-ת])[\"“”„‟«»＂]|[\"“”„‟«»＂](?![א-ת])")  # within a Hebrew word it is a sign of a short form
SPACES = re.compile(r"[\s\x00-\x1f\x85\ufeff]+")


def _ranges(codes):
    """A regular expression's class, without its brackets, of these code points, which are in order."""
    ranges = []
    for code in codes:
        if ranges and ranges[-1][1] == code - 1:
            ranges[-1][1] = code
        else:
            ranges.append([code, code])
    return "".join(f"\\U{begin:08x}-\\U{end:08x}" for begin, end in ranges)


def _classes():
    """The classes of letters, digits, marks and fractions."""
    kinds = {"L": [], "D": [], "M": [], "F": []}
    for code in range(sys.maxunicode + 1):
        letter = chr(code)
        category = unicodedata.category(letter)
        if category[0] in "LM" and letter not in APOSTROPHES or category == "Nl" or letter == "№":
            kinds["M" if category[0] == "M" else "L"].append(code)
        elif category == "Nd":
            kinds["D"].append(code)
        elif category == "No" and "\u2044" in unicodedata.normalize("NFKD", letter):
            kinds["F"].append(code)
    return [_ranges(codes) for codes in kinds.values()]


_LETTERS, _DIGITS, _ALL_MARKS, _FRACTIONS = _classes()
_PAIR = f"[{PAIRED}][{_ALL_MARKS}{UNSEEN}\uff9e\uff9f]*"
_WORD = re.compile(f"(?P<paired>(?:{_PAIR})+)|(?P<fraction>[{_FRACTIONS}])"
                   f"|(?P<digits>[{_DIGITS}][{_DIGITS}{_ALL_MARKS}{UNSEEN}]*)"
                   f"|(?P<letters>(?:(?![{PAIRED}])[{_LETTERS}{_ALL_MARKS}{UNSEEN}])+)")
_ASCII_WORD = re.compile("(?:(?<![0-9])0+(?=[0-9]))?([a-z]+|[0-9]+)")  # of a number without the zeros that it begins with
_PAIRS = re.compile(_PAIR)
_HAS_LETTER = re.compile(f"[{_LETTERS}]")
_DROPPED = re.compile(f"[{MARKS}{UNSEEN}]|[^{_LETTERS}{_DIGITS}{_ALL_MARKS}]")
_DEGREE = re.compile("(?<=[Nn])°")
_JOINING = re.compile(f"[{TABLES['joining']}]")
_INITIALS = re.compile(r"\. ?")
_INITIAL = re.compile(r"[^\W\d_]\.")
_MAY_JOIN = re.compile(r"[a-z][-'`][a-z]|(?<![a-z])[a-z]\. ?[a-z](?![a-z])|(?<![a-z])ma?c[a-z ]|[0-9][,.'][0-9]{3}(?![0-9])")
MAC = ("mac", "mc")
ELIDED = re.compile(r"(?i)\A(?:[cdjlmnst]|qu|jusqu|lorsqu)['\u2019](?=\w)")  # before a word, in French
_THOUSANDS = re.compile("[,.'\u2019\u00a0\u202f]")
_ARTICLE = re.compile(f"(?:{'|'.join(TABLES['articles'])})(?=...)")


class Word(NamedTuple):
    """A word of a text, folded, and its place there. other: its other spelling, which may be the same; kind: paired,
    last (the last letter of a part that is cut into pairs), digits, fraction or letters."""

    word: str
    begin: int
    end: int
    other: str
    kind: str


class Phrase(NamedTuple):
    """What must stand together, in one of its readings, each of which has its words; begins: the last one may go on.
    language: other forms of a word of this language count too; years: a unit of these has it, too, whatever its texts."""

    readings: tuple
    begins: bool = False
    language: str | None = None
    years: tuple | None = None


def fold(word):
    """A word as it is compared."""
    if word.isascii():
        return word.lower()
    return _DROPPED.sub("", unicodedata.normalize("NFKD", word)).lower().translate(LETTERS)


def words_of(text):
    """The words of a text, in order."""
    text = _DEGREE.sub("º", text)
    return [word for found in _WORD.finditer(text) for word in _READERS[found.lastgroup](found) if word.word]


def _letters(found):
    """What was found as letters may be marks only; then it is no word."""
    seen, (begin, end) = found[0], found.span()
    if seen.isascii():
        word = with_mac(seen.lower())
        return [Word(word, begin, end, word, "letters")]
    if not _HAS_LETTER.search(seen):
        return []
    word = fold(seen)
    other = fold(unicodedata.normalize("NFC", seen).lower().translate(OTHER))
    return [Word(word, begin, end, _ARTICLE.sub("", other, 1) if _ARTICLE.match(other) else other, "letters")]


def with_mac(word):
    """A word with Mac for Mc: McGregor and MacGregor are one name."""
    return f"mac{word[2:]}" if word.startswith("mc") and len(word) > 3 else word


def _digits(found):
    """Digits of any script, without the zeros that they begin with."""
    word = decimal(found[0]).lstrip("0") or "0"
    return [Word(word, *found.span(), word, "digits")]


def decimal(text):
    """The digits of a text."""
    return "".join(str(unicodedata.decimal(digit)) for digit in text if digit.isdecimal())


def _fraction(found):
    """Two numbers at one place."""
    parts = unicodedata.normalize("NFKD", found[0]).split("\u2044")
    return [Word(part, *found.span(), part, "fraction") for part in parts]


def _paired(found):
    """Each letter with the next one, and the last one by itself."""
    letters = [(fold(letter[0]), letter.start() + found.start(), letter.end() + found.start())
               for letter in _PAIRS.finditer(found[0])]
    pairs = zip(letters, [*letters[1:], ("", 0, letters[-1][2])])
    return [Word(word + after, begin, end, word + after, "paired" if after else "last")
            for (word, begin, _), (after, _, end) in pairs]


_READERS = {"letters": _letters, "digits": _digits, "fraction": _fraction, "paired": _paired}


def readings_of(text):
    """The readings of a text: in each, its words in order, folded. The first is the text as it stands."""
    if text.isascii():
        plain = text.lower()
        if not _MAY_JOIN.search(plain):
            return [_ASCII_WORD.findall(plain)]
    return [[word for word, *_ in reading] for reading in _readings(text)]


def _readings(text):
    """The readings of a text: in each, a word, begin and end of each of its words."""
    text = _DEGREE.sub("º", text)
    words, readings = words_of(text), []
    spelled = [[word.word for word in words], [word.other for word in words]]
    for ways in spelled if spelled[0] != spelled[1] else spelled[:1]:
        apart = [(spelling, word.begin, word.end) for spelling, word in zip(ways, words)]
        joined = _join(text, words, apart)
        readings += [apart, joined] if len(joined) < len(apart) else [apart]
    return readings


def _join(text, words, apart):
    """The words of a reading, joined where only an apostrophe, a hyphen or the points of initials part letters, or a comma
    thousands."""
    kinds = ["", *(_kind_of_gap(text, *pair) for pair in zip(words, words[1:])), ""]
    joined = []
    for place, (spelling, begin, end) in enumerate(apart):
        # Of `W. O'Brien` the O is no initial.
        if kinds[place] == "thousands":
            joined[-1] = (joined[-1][0] + decimal(text[begin:end]), joined[-1][1], end)
        elif kinds[place] == "joining" or kinds[place] == "initials" and "joining" not in (kinds[place - 1], kinds[place + 1]):
            joined[-1] = (with_mac(joined[-1][0] + spelling), joined[-1][1], end)
        else:
            joined.append((spelling, begin, end))
    return joined


def _kind_of_gap(text, before, word):
    """What stands between two words, if it may join them."""
    between = text[before.end:word.begin]
    if (before.kind, word.kind) == ("digits", "digits") and before.end - before.begin <= 3 == word.end - word.begin:
        return "thousands" if _THOUSANDS.fullmatch(between) else ""
    if (before.kind, word.kind) != ("letters", "letters"):
        return ""
    if _JOINING.fullmatch(between) or before.word in MAC and between == " " and text[word.begin].isupper():
        return "joining"
    return "initials" if len(before.word) == len(word.word) == 1 and _INITIALS.fullmatch(between) else ""


def folded_words(text):
    """The words of a text as it stands, folded, in order."""
    return readings_of(text)[0]


def read_typed(typed, language=None):
    """What was typed, as phrases. A word is a phrase of one; quotation marks, hyphens and apostrophes make longer ones,
    and initials with points are one. A word that ends with * may go on. What has no letter and no digit is left out."""
    phrases = []
    for place, piece in enumerate(QUOTES.split(shortened(typed))):
        for text in [piece] if place % 2 else with_initials(SPACES.split(piece)):
            if folded_words(text):
                phrases.append(phrase_of(text, bool(place % 2), language))
    return list(dict.fromkeys(phrases))[:MOST]


def phrase_of(text, quoted, language):
    """One phrase, which stood between quotation marks or not. Of a script without spaces its last letter is not by itself in
    a text where it goes on."""
    core = ELIDED.sub("", text) if language == "fr" and not quoted else text
    kinds = [word.kind for word in words_of(core)]
    cut = kinds[-2:] == ["paired", "last"]
    readings = dict.fromkeys(tuple(reading[:-1] if cut else reading) for one in (text, core) for reading in readings_of(one))
    begins = kinds[-1] == "last" and not cut or text.endswith("*") and not quoted
    if not begins and not quoted:
        readings |= dict.fromkeys(tuple(other) for reading in [*readings] for other in spellings.others(reading, language))
    has_forms = kinds == ["letters"] and not begins and not quoted and language
    return Phrase(tuple(readings), begins, tongue(next(iter(readings))[0], language) if has_forms else None)


def tongue(word, language):
    """The language whose forms a word has: that of its script, or else the reader's."""
    return next((its for first, last, its in SCRIPTS if first <= word[0] <= last), language)


def is_cut(typed):
    """Whether more was typed than is read."""
    return len(typed) > LONGEST or sum(bool(folded_words(piece)) for piece in SPACES.split(typed)) > MOST


def shortened(typed):
    """What is read of what was typed: whole words of it."""
    if len(typed) <= LONGEST:
        return typed
    last = max((found.start() for found in SPACES.finditer(typed, 0, LONGEST)), default=LONGEST)
    return typed[:last]


def with_initials(pieces):
    """The pieces, of which initials that follow each other are one, and so is Mac with its name."""
    together = []
    for piece in pieces:
        if together and (_INITIAL.fullmatch(piece) and _INITIAL.fullmatch(together[-1][-2:])
                         or together[-1].lower() in MAC and piece.isalpha()):
            together[-1] = f"{together[-1]} {piece.capitalize() if piece.isalpha() else piece}"
        else:
            together.append(piece)
    return together


def stem(word, language):
    """What the forms of a word of this language have in common; the word itself if that is short."""
    short = _stem(word, language)
    return short if len(short) >= SHORTEST_STEM else word


@functools.lru_cache(20_000)
def _stem(word, language):
    """As the stemmer of the language has it. A stemmer keeps its place in the word, so each has its own."""
    word = ENDINGS[language].sub("", word) if language in ENDINGS else word
    return snowballstemmer.stemmer(STEMMERS[language]).stemWord(word) if language in STEMMERS else word


def is_kin(word, other, language):
    """Whether two words are forms of one."""
    if word[:SHORTEST_STEM] != other[:SHORTEST_STEM]:
        return False
    short, long = sorted((stem(word, language), stem(other, language)), key=len)
    return long == short or long in (short + end for end in LEFT.get(language, ()))


def stands(phrase, words, at):
    """How many words of a list of folded words the phrase takes at this place; 0 if it does not stand there."""
    for wanted in phrase.readings:
        last = at + len(wanted) - 1
        if last < len(words) and list(wanted[:-1]) == words[at:last] and _ends(phrase, wanted[-1], words[last]):
            return len(wanted)
    return 0


def _ends(phrase, wanted, word):
    """Whether a word may be the last one of a phrase."""
    return (word == wanted or phrase.begins and word.startswith(wanted)
            or phrase.language is not None and is_kin(wanted, word, phrase.language))


def occurs(phrase, readings):
    """Whether the phrase stands somewhere in a text of these readings."""
    return any(stands(phrase, words, at) for words in readings for at in range(len(words)))


def places_of(phrases, text):
    """Where the phrases stand in a text: pairs of begin and end, in order, none touching another's letters."""
    places = set()
    for reading in _readings(text):
        words = [word for word, *_ in reading]
        for phrase in phrases:
            many = [stands(phrase, words, at) for at in range(len(words))]
            places |= {(reading[at][1], reading[at + length - 1][2]) for at, length in enumerate(many) if length}
    joined = []
    for begin, end in sorted(places):
        if joined and joined[-1][1] > begin:
            joined[-1] = (joined[-1][0], max(joined[-1][1], end))
        else:
            joined.append((begin, end))
    return joined
