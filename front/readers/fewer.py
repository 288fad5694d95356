"""What has most of the words, if nothing has all: the units that are found with as few phrases left out as can be, those that
were typed first before others; or what has just these phrases below such a unit, whose description has the rest. Which these
are is told by pages alone, as in each answer."""

import itertools
import time
from dataclasses import replace

from answers import SHOWN

MOST, SECONDS = 6, 1.5  # phrases of a question of which some are left out; time
ABOVE = 3  # units below which the others are looked for


def fewer(answer, question):
    """An answer without some phrases, and what was typed for these; nothing if there is none, or the time is over."""
    many, end, query = len(question.phrases), time.monotonic() + SECONDS, answer.query
    if many > MOST:
        return None
    for out in range(1, many):
        for lacking in itertools.combinations(range(many), out):
            left = end - time.monotonic()
            if left <= 0:
                return None
            phrases = [phrase for place, phrase in enumerate(question.phrases) if place not in lacking]
            found = answer.again(replace(query, phrases=phrases), SHOWN).find(left)
            if found.units:
                deeper = below(answer, [question.phrases[place] for place in lacking], found.units, end)
                out = set(range(many)) - set(lacking) if deeper else lacking
                return deeper or found, [question.texts[place] for place in sorted(out)]
    return None


def below(answer, phrases, units, end):
    """An answer with what has these phrases below one of the units, which have the others; nothing if there is none."""
    for unit in units[:ABOVE]:
        query, left = replace(answer.query, phrases=phrases, within=unit["unit"]), max(0, end - time.monotonic())
        found = answer.again(query, SHOWN).find(left)
        if found.units:
            return found
    return None
