"""How many units there are: all that were verified, those of no year where years are asked for, and those before a place from
which somebody goes on. And what they have in common. Each was verified for this very answer."""

from dataclasses import replace

from answers import START

SECONDS = 1  # for what is counted besides


def counts(found):
    """What an answer tells of numbers."""
    query = found.query
    if found.state != "done" or not query.is_asked():
        return {"count": found.count, "exact": found.exact} if found.state == "done" and query.after == START else {}
    if query.after != START:
        before = found.again(replace(query, after=START), 0, True, query.after).find(SECONDS)
        return {"first": before.count + 1, "count": before.count + found.count,
                "exact": found.exact} if before.state == "done" and before.exact else {}
    told = {"count": found.count, "exact": found.exact, "facets": found.facets.told(query, found.count)}
    others = query.of_no_year()
    if query.asks_for_years() and (others.phrases or query.within is not None):
        undated = found.again(others, 0, True).find(SECONDS)
        if undated.state == "done":  # one more than was counted is known to be there
            told |= {"undated": undated.count + (not undated.exact), "undated_exact": undated.exact}
    return told
