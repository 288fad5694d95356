"""What somebody asks for: what must occur, and what must not. Words that say nothing by themselves are left out, by language;
a minus before a word leaves out what has it; OR between two stands for either. Years are in the text of a unit or in its
dates."""

import re
import unicodedata
from typing import NamedTuple

import folding
import years

# Words that only join others, folded. What stands between quotation marks is never one of them.
JOINING = {language: frozenset(words.split()) for language, words in {
    "en": "a about all an and any are as at by can concerning did do does for from have how i in into is it me my of on or "
          "our regarding relating that the their there these this to was we were what when where which who why with you your",
    "de": "aber alle als am an auf aus bei das dem den der des die ein eine einem einen einer eines fur gibt im in ist mit "
          "nach oder sind uber um und unter vom von vor was wer wie wo zu zum zur",
    "fr": "a au aux avec ce ces concernant dans de des du en est et il la le les leur mais ou par pour que qui sont sur un "
          "une vers",
    "es": "a al como con cual cuando de del desde donde el en entre es la las lo los o para por que quien se sin sobre su sus "
          "un una y",
    "el": "ο η το οι τα του τησ των τον την τουσ τισ σε στο στη στην στον στουσ στισ στα με για απο και κατα προσ που ενα μια "
          "ενασ ειναι περι"}.items()}
EITHER = "OR"
LEFT_OUT = re.compile(r"-(?=[^\W\d_])")  # a minus, and not the hyphen of a number
YEARS = (1000, 2100)  # a number by itself is a year between these
HAS_DIGIT = re.compile(r"\d\w*\Z")


class Question(NamedTuple):
    """phrases: each must occur; texts: what was typed for each; without: none of these may occur."""

    phrases: list
    texts: list
    without: list


class Piece(NamedTuple):
    """Some of what was typed: a word, or what stands between quotation marks; and whether it is left out. years: first and
    last, and the text of that without `about` or `since`."""

    text: str
    is_quoted: bool = False
    is_out: bool = False
    years: tuple = ()


def read(typed, language=None):
    """The question that was typed. If it has joining words alone, they count."""
    found, out, joins = {}, [], False
    pieces = [piece for piece in pieces_of(typed) if piece.text == EITHER or folding.folded_words(piece.text)]
    for piece in without_joining(pieces, language):
        if piece.text == EITHER and not piece.is_quoted and found and piece is not pieces[-1]:
            joins = True
        elif piece.is_out:
            out.append(folding.phrase_of(piece.text, piece.is_quoted, None))
        else:
            phrase = phrase_of(piece, language)
            if joins:
                before, text = found.popitem()
                phrase, piece = either(before, phrase), piece._replace(text=f"{text} {EITHER} {piece.text}")
            found.setdefault(phrase, f'"{piece.text}"' if piece.is_quoted else piece.text)
            joins = False
    phrases = list(found)[:folding.MOST]
    return Question(phrases, [found[phrase] for phrase in phrases], out[:folding.MOST])


def phrase_of(piece, language):
    """The phrase of a piece."""
    phrase = folding.phrase_of(piece.text, piece.is_quoted, language)
    if not piece.years:
        return phrase
    first, last, core = piece.years
    readings = (*phrase.readings, *folding.phrase_of(core, False, None).readings)
    return phrase._replace(readings=tuple(dict.fromkeys(readings)), language=None, years=(first, last))


def either(one, other):
    """A phrase that stands where one of two does."""
    same = one.language if one.language == other.language else None
    span = tuple(zip(*filter(None, (one.years, other.years))))
    return folding.Phrase((*one.readings, *other.readings), one.begins and other.begins, same,
                          (min(span[0]), max(span[1])) if span else None)


def without_joining(pieces, language):
    """The pieces that are not joining words of this language; all, if there are no others. A letter after a number is part of
    it, as in 12 a."""
    joining = JOINING.get(language, ())
    rest = [piece for before, piece in zip([Piece(""), *pieces], pieces) if piece.is_quoted or piece.is_out or piece.years
            or piece.text == EITHER or folding.fold(piece.text) not in joining
            or len(piece.text) == 1 and HAS_DIGIT.search(before.text)]
    return rest if any(not piece.is_out and piece.text != EITHER for piece in rest) else pieces


def pieces_of(typed):
    """What was typed, in pieces."""
    pieces, is_out = [], False
    for place, part in enumerate(folding.QUOTES.split(folding.shortened(typed))):
        if place % 2:
            pieces.append(Piece(part, True, is_out))
            continue
        is_out = part.endswith("-") and (part == "-" or part[-2:-1].isspace())
        at, part = 0, unicodedata.normalize("NFC", part)
        for span in spans_of(part):
            pieces += words_of(part[at:span.begin])
            at = span.end
            pieces.append(Piece(part[span.begin:at].strip(), years=(span.first, span.last, part[slice(*span.core)])))
        pieces += words_of(part[at:])
    return [piece for piece in pieces if piece.text.strip()]


def words_of(part):
    """Words outside quotation marks."""
    found = [(text, LEFT_OUT.match(text)) for text in folding.with_initials(folding.SPACES.split(part))]
    return [Piece(text[out.end():], False, True) if out else Piece(text) for text, out in found]


def spans_of(part):
    """The years in a text that stand by themselves."""
    return [span for span in years.spans(part, True)
            if not part[:span.begin].rstrip("([").rpartition(" ")[2] and not re.match(r"[^\s,;.?!)\]]", part[span.end:])
            and YEARS[0] <= span.last and span.first <= YEARS[1]]
