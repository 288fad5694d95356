"""What to ask for instead, if nothing was found: words of the office that begin like one that was typed, are spelled much
like it, sound so or share a part with it; the words of which one is made; two words as one. The index proposes them, and
each is offered only if something has it now, and as it is written there.

So many words are tried that those which were public at the last round alone take no other's place."""

import difflib
import time
from dataclasses import replace
from os.path import commonprefix

import folding
import index
import questions
from spellings import LATIN

OFFERED, TRIED, SECONDS = 6, 200, 1.5  # of one answer: offers; words that are tried for one that was typed; time
SHORTEST, ALIKE, POOL = 3, .75, 20_000  # letters of a word; how much alike words are; words that are compared
HEARD, LONGER = .6, 14  # how much alike words are that sound so; letters that may come after a word
COMPOUNDING, COMPOUND = ("de", "da", "nl", "no", "sv", "fi"), 5  # languages that make words of words; letters of such a word
SHARED, MEANT = 4, 6  # letters that words share there; those of a word that says something without the others


def offers(answer, typed, language):
    """What was typed with others in place of a word that finds nothing by itself, as texts, for an answer that has found
    nothing; or else what is spelled like such a word, alone."""
    pieces = folding.SPACES.split(typed.strip())
    if any(folding.QUOTES.search(piece) for piece in pieces):
        return []
    end, joining = time.monotonic() + SECONDS, questions.JOINING.get(language, ())
    found = [text for text in (starred(pieces), *joined(pieces)) if found_now(answer, text, language, end)]
    lost = [place for place, piece in enumerate(pieces) if is_lone(piece) and folding.fold(piece) not in joining
            and not found_now(answer, piece, language, end)]
    for place in lost:
        found += instead_of(answer, pieces, place, language, end)
    for place in lost if len(pieces) > 1 and not found else ():
        if len(pieces[place]) >= MEANT:
            found += instead_of(answer, [pieces[place]], 0, None, end)
    return list(dict.fromkeys(found))[:OFFERED]


def is_lone(piece):
    """Whether this is one word of letters."""
    words = folding.words_of(piece)
    return [word.kind for word in words] == ["letters"] and len(words[0].word) >= SHORTEST and not piece.endswith("*")


def starred(pieces):
    """The pieces of which each word may go on."""
    return " ".join(f"{piece}*" if is_lone(piece) else piece for piece in pieces)


def joined(pieces):
    """The pieces with two words as one, in each place."""
    return [" ".join([*pieces[:at], one + other, *pieces[at + 2:]])
            for at, (one, other) in enumerate(zip(pieces, pieces[1:])) if is_lone(one) and is_lone(other)]


def instead_of(answer, pieces, place, language, end):
    """What was typed with others in place of this word: first with the words of which it is made."""
    def put(text):
        """What was typed with this text in that place."""
        return " ".join([*pieces[:place], text, *pieces[place + 1:]])
    parts = map(put, parts_of(answer.db, pieces[place].lower(), language))
    found = [text for text in parts if found_now(answer, text, language, end)][:1]
    for word in near(answer.db, folding.fold(pieces[place]), language):
        hit = found_now(answer, put(word), language, end, word)
        if hit:
            found.append(put(as_written(hit, word)))
        if len(found) == OFFERED or time.monotonic() > end:
            break
    return found


def parts_of(db, word, language):
    """The words of which one may be made: both; in some languages the longest that it ends with, and that it begins with."""
    pairs = [(word[:at], word[at:]) for at in range(SHORTEST, len(word) - SHORTEST + 1)]
    known = [[is_known(db, part, language) for part in pair] for pair in pairs]
    both = [" ".join(pair) for pair, (first, last) in zip(pairs, known) if first and last]
    ends = [pair[1] for pair, (_, last) in zip(pairs, known) if last and len(pair[1]) >= COMPOUND]
    begins = [pair[0] for pair, (first, _) in zip(pairs, known) if first and len(pair[0]) >= COMPOUND]
    return [*both, *ends, *reversed(begins)] if language in COMPOUNDING else both


def is_known(db, part, language):
    """Whether the index has a word, or a form of it."""
    word = folding.fold(part)
    stem = folding.stem(word, language)
    return any(one == word or len(stem) >= SHARED and folding.is_kin(word, one, language)
               for one in index.words_from(db, stem, TRIED, (1, len(word) + 2)))


def near(db, word, language):
    """The words of the index that are spelled much like this one or sound so, then those that begin so, the shortest first,
    then those that end so, then those that share a part with it, the longest first."""
    longer = sorted(index.words_from(db, word, POOL, (len(word) + 1, len(word) + LONGER)), key=lambda one: (len(one), one))
    spelled = index.words_from(db, word[:1], POOL, (max(SHORTEST, len(word) - 2), len(word) + 2))
    close = difflib.get_close_matches(word, spelled, TRIED, ALIKE)
    heard = [one for one in dict.fromkeys(index.alike(db, word, TRIED)) if one != word and ratio(word, one) >= HEARD]
    ends = index.words_with_end(db, word, TRIED) if len(word) >= COMPOUND else []
    least = SHARED if language in COMPOUNDING else len(word) // 2 + 1
    share = [*index.words_from(db, word[:least], TRIED), *index.words_with_end(db, word[-least:], TRIED)] * (len(word) > least)
    return list(dict.fromkeys([*sorted([*close, *heard], key=lambda one: -ratio(word, one)), *longer[:TRIED], *ends,
                               *sorted(share, key=lambda one: -shared(word, one))]))


def shared(one, other):
    """The letters with which both begin and end."""
    return len(commonprefix((one, other))) + len(commonprefix((one[::-1], other[::-1])))


def ratio(one, other):
    """How much alike two words are, in Latin letters."""
    return difflib.SequenceMatcher(None, other.translate(LATIN), one.translate(LATIN)).ratio()


def longer(answer, typed, language):
    """A word of which others are made, with a star, if one of these finds something that it does not find itself."""
    piece = typed.strip()
    if language not in COMPOUNDING or not is_lone(piece) or len(piece) < COMPOUND:
        return []
    phrase, = folding.read_typed(piece)
    own = folding.read_typed(piece, language)
    asked = replace(answer.query, phrases=[phrase._replace(begins=True)], without=(*answer.query.without, *own))
    return [f"{piece}*"] * bool(answer.again(asked).find(SECONDS).units)


def found_now(answer, text, language, end, exactly=None):
    """A unit that is found for a text, within the bounds of an answer's query. None: none, or the time is over. exactly: a
    word of which no other form will do."""
    left, query = end - time.monotonic(), answer.query
    if left <= 0:
        return None
    phrases = [phrase._replace(language=None) if (exactly,) in phrase.readings else phrase
               for phrase in questions.read(text, language).phrases]
    asked = replace(query, phrases=phrases, by_date=False)
    return next(iter(answer.again(asked).find(left).units), None)


def as_written(hit, word):
    """A word as a unit has it, without capitals."""
    marked = [piece for pieces in (hit["head"], *(line["text"] for line in hit["lines"])) for piece in pieces[1::2]]
    return next((piece.lower() for piece in marked if [word] in folding.readings_of(piece)), word)
