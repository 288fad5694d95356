"""The index: an SQLite file of derived data, which may be deleted at any time. It only proposes; nothing of it is
shown."""

import contextlib
import os
import sqlite3

from folding import SHORTEST_STEM, folded_words, is_kin, readings_of
from spellings import sound
from texts import creators_in, may_be_from_above, read_head, value_of, years_of

VERSION = 6
BETWEEN = " \ue000 "  # a word that no text has, between two readings or values: no phrase reaches from one into the next
ARCHIVE = 10**10  # a row of `words` has the number of its archive times this, and its own: archives come one by one
LAST_ARCHIVE = 2**63 // ARCHIVE - 1  # and those after it together
KIN = 40  # other forms of a word that are looked for
READ = 400  # words of the index that are read to find these
UNDATED = 10**5  # in order of dates, units without a year come last
CONTEXT = 2 * 10**5  # is added to the year of a unit of which some words stand above it: it comes after the others
# round: changed: 1 if words have come, 2 if some were forgotten, which may still be somewhere in the file.
# words: with lists of their own for what begins with one, two or three letters, which thousands of words may do.
# creator: the folded names of the creators that a unit names itself.
# vocabulary: each word of the index, from the end of the round that has read it.
# unit: own and branch are digests; odd has the own lines that look as if they were found above; closed: only its head is
# shown; gone is set within a round.
# part: a finding aid that was read as one, or a large unit whose parts were (then without digest); size: its units.
TABLES = """
CREATE TABLE round(finished INTEGER NOT NULL, done INTEGER NOT NULL, tops INTEGER NOT NULL, swept INTEGER NOT NULL,
  changed INTEGER NOT NULL);
INSERT INTO round VALUES (0, 0, 0, 0, 0);
CREATE TABLE part(n INTEGER PRIMARY KEY, digest BLOB, size INTEGER NOT NULL);
CREATE TABLE unit(n INTEGER PRIMARY KEY, top INTEGER, parent INTEGER, pos INTEGER, own BLOB, branch BLOB, first INTEGER,
  last INTEGER, level TEXT, odd TEXT, closed INTEGER, gone INTEGER NOT NULL DEFAULT 0);
CREATE INDEX unit_top ON unit(top);
CREATE INDEX unit_parent ON unit(parent, pos);
CREATE TABLE creator(name TEXT, n INTEGER, PRIMARY KEY(name, n)) WITHOUT ROWID;
CREATE INDEX creator_n ON creator(n);
CREATE VIRTUAL TABLE words USING fts5(head, body, tokenize = 'ascii', columnsize = 0, prefix = '1 2 3');
CREATE VIRTUAL TABLE counted USING fts5vocab(words, row);
CREATE TABLE vocabulary(word TEXT PRIMARY KEY, sound TEXT NOT NULL) WITHOUT ROWID;
CREATE INDEX vocabulary_sound ON vocabulary(sound);
"""
ABOVE = ("WITH RECURSIVE above(n) AS (SELECT ? "
         "UNION SELECT parent FROM unit JOIN above USING (n) WHERE parent IS NOT NULL) ")
LOST = ("WITH RECURSIVE lost(n) AS (SELECT n FROM unit WHERE gone "
        "UNION SELECT unit.n FROM unit JOIN lost ON unit.parent = lost.n) ")
BELOW = "WITH RECURSIVE below(n) AS (SELECT ? UNION SELECT unit.n FROM unit JOIN below ON unit.parent = below.n) "
WITHIN = f"unit.n IN ({BELOW} SELECT n FROM below)"
MATCHING = "SELECT rowid FROM words WHERE words MATCH ?"
FOLLOWED = "UNION SELECT unit.n FROM unit JOIN below ON unit.parent = below.n) SELECT n FROM below"
AT_OR_BELOW_MATCHING = f"WITH RECURSIVE below(n) AS (SELECT rowid % ? FROM words WHERE words MATCH ? {FOLLOWED}"
BELOW_MATCHING = ("WITH RECURSIVE below(n) AS (SELECT n FROM unit WHERE parent IN "
                  f"(SELECT rowid % ? FROM words WHERE words MATCH ?) {FOLLOWED}")
OPEN = "own IS NOT NULL AND NOT closed AND NOT gone"
MEETS = "unit.last >= ? AND unit.first <= ?"


def open_index(path):
    """Opens the file. Raises sqlite3.Error if it is not there."""
    db = sqlite3.connect(f"file:{path}?mode=rw", uri=True, isolation_level=None, timeout=20)
    db.execute("PRAGMA synchronous = NORMAL")
    db.execute("PRAGMA secure_delete = ON")
    return db


def open_or_make(path, check):
    """Opens the index for a round. It is begun anew if it is not there or of another version, or if a check finds it
    damaged."""
    with contextlib.suppress(sqlite3.Error):
        db = open_index(path)
        if is_sound(db, check):
            return db
        db.close()
    remove(path)
    os.close(os.open(path, os.O_CREAT | os.O_EXCL | os.O_WRONLY, 0o600))
    db = open_index(path)
    db.executescript(f"PRAGMA journal_mode = WAL; BEGIN; {TABLES} PRAGMA user_version = {VERSION}; COMMIT;")
    return db


def remove(path):
    """Removes the file and its log."""
    for end in ("", "-wal", "-shm"):
        with contextlib.suppress(FileNotFoundError):
            os.remove(f"{path}{end}")


def is_sound(db, check):
    """Whether the index is of this version and, with a check, not damaged. Raises sqlite3.Error."""
    sound = db.execute("PRAGMA user_version").fetchone()[0] == VERSION
    if sound and check:
        sound = db.execute("PRAGMA quick_check").fetchone()[0] == "ok"
        db.execute("INSERT INTO words(words) VALUES ('integrity-check')")
    return sound


@contextlib.contextmanager
def transaction(db):
    """All of it or nothing."""
    db.execute("BEGIN IMMEDIATE")
    try:
        yield
    except BaseException:
        db.execute("ROLLBACK")
        raise
    db.execute("COMMIT")


def put(db, top, number, parent, pos, node, branch):
    """A unit as the office shows it. Its words are written again only if they have changed. If it was elsewhere up to
    now, what was above it there is looked at again, even if it does not change: the list of fonds may have been older
    than the move."""
    found = db.execute("SELECT own, top, parent, gone FROM unit WHERE n = ?", (number,)).fetchone()
    own, *before, gone = found or (None, top, parent, 0)
    if before != [top, parent] and not gone:
        look_again_above(db, number)
    odd = "\n".join(line for line in node.lines if may_be_from_above(line, node.head)) or None
    head = read_head(node.head)
    closed = bool(head.until) and not node.lines and not node.units
    db.execute("INSERT OR REPLACE INTO unit VALUES (?, ?, ?, ?, ?, ?, ?, ?, ?, ?, ?, 0)",
               (number, top, parent, pos, node.own, branch, *years_of(node.lines), head.level, odd, closed))
    if own != node.own or before[0] != top:
        forget_words(db, [(before[0], number)] if own else [])
        db.execute("INSERT INTO words(rowid, head, body) VALUES (?, ?, ?)",
                   (row_of(top, number), words(node.head), body(node.lines)))
        db.executemany("INSERT OR IGNORE INTO creator VALUES (?, ?)",
                       ((" ".join(folded_words(name)), number) for name in creators_in(node.lines)))
        db.execute("UPDATE round SET changed = 1 WHERE changed = 0")


def row_of(top, number):
    """The row of `words` that a unit of an archive has."""
    return min(top, LAST_ARCHIVE) * ARCHIVE + number


def words(text):
    """The words of a text, folded, with spaces between them, in each of its readings."""
    return BETWEEN.join(map(" ".join, readings_of(text)))


def body(lines):
    """The words of these lines' values."""
    return BETWEEN.join(words(value_of(line)) for line in lines)


def forget_words(db, units):
    """The words of these units, pairs of archive and number, go."""
    if units:
        db.executemany("DELETE FROM words WHERE rowid = ?", [(row_of(*unit),) for unit in units])
        db.executemany("DELETE FROM creator WHERE n = ?", [(number,) for _, number in units])
        db.execute("UPDATE round SET changed = 2")


def forget_at_once(db, numbers):
    """The words of units that are shown no more go, though a unit may be back before the next round, which reads it
    again."""
    with transaction(db):
        for number in numbers:
            found = db.execute("SELECT top, n FROM unit WHERE n = ? AND own IS NOT NULL", (number,)).fetchall()
            forget_words(db, found)
            db.execute("UPDATE unit SET own = NULL WHERE n = ?", (number,))


def finish(db):
    """At the end of a round: the vocabulary. And nothing of what was forgotten stays in the file or in its log, unless an
    answer reads both just now; then the next round tries again. SQLite writes over what it deletes, but the words of a
    text go when the parts of the index are put together."""
    changed = db.execute("SELECT changed FROM round").fetchone()[0]
    if not changed:
        return
    with transaction(db):
        if changed == 2:
            db.execute("INSERT INTO words(words) VALUES ('optimize')")
        db.execute("DELETE FROM vocabulary")
        words = db.execute("SELECT term FROM counted WHERE term >= 'a'")  # no numbers
        db.executemany("INSERT INTO vocabulary VALUES (?, ?)", ((word, sound(word)) for word, in words))
    if db.execute("PRAGMA wal_checkpoint(TRUNCATE)").fetchone()[0] == 0:
        db.execute("UPDATE round SET changed = 0")


def look_again_above(db, number):
    """The finding aids of a unit and of what is above it count as changed."""
    db.execute(ABOVE + "UPDATE part SET digest = NULL WHERE n IN above", (number,))


def doubt(db, number):
    """What is above and at a unit is read again in the next round, even if no finding aid changes."""
    with transaction(db):
        look_again_above(db, number)
        db.execute(ABOVE + "UPDATE unit SET branch = NULL WHERE n IN above", (number,))


def lose(db, numbers):
    """Units are no longer where they were. What is below them goes with them at the end of the round, unless it has
    moved."""
    db.executemany("UPDATE unit SET gone = 1 WHERE n = ?", [(number,) for number in numbers])


def branch(db, number):
    """A unit and all below it at the last round: (n, top, parent, pos, branch, gone) of each."""
    wanted = "SELECT n, top, parent, pos, branch, gone FROM unit WHERE n IN below ORDER BY parent, pos"
    return db.execute(BELOW + wanted, (number,))


def count_below(db, number, most):
    """How many units are right below one, up to so many."""
    return db.execute("SELECT count(*) FROM (SELECT 1 FROM unit WHERE parent = ? LIMIT ?)", (number, most)).fetchone()[0]


def stretches(db, size):
    """Which stretches of so many numbers each, from 1 on, have units that are open."""
    return [place for place, in db.execute(f"SELECT DISTINCT (n - 1) / ? + 1 FROM unit WHERE {OPEN} ORDER BY 1", (size,))]


def open_units(db, stretch, size):
    """The units of a stretch that are open, with their archives."""
    wanted = f"SELECT n, top FROM unit WHERE n BETWEEN ? AND ? AND {OPEN} ORDER BY n"
    return db.execute(wanted, ((stretch - 1) * size + 1, stretch * size)).fetchall()


def creators_from(db, name):
    """The folded names of creators from this one on, each with a few of the units that name it."""
    after = ">="
    while found := db.execute(f"SELECT name FROM creator WHERE name {after} ? ORDER BY name LIMIT 1", (name,)).fetchone():
        (name,), after = found, ">"
        yield name, [n for n, in db.execute("SELECT n FROM creator WHERE name = ? ORDER BY n LIMIT 5", (name,))]


def size_of(db, number):
    """How many units the finding aid of a unit had if it was read by itself, or by parts; else 0."""
    return db.execute("SELECT ifnull(max(size), 0) FROM part WHERE n = ?", (number,)).fetchone()[0]


def branch_numbers(db, number, most):
    """The numbers of a unit and of what is below it, up to so many."""
    return [n for n, in db.execute(BELOW + "SELECT n FROM below LIMIT ?", (number, most))]


def next_with_units(db, after, many):
    """So many units that have some below, in turn: those that come after a number, then from the first on."""
    return [n
            for n, in db.execute(
                "SELECT DISTINCT parent FROM unit WHERE parent IS NOT NULL ORDER BY parent <= ?, parent LIMIT ?",
                (after, many))]


def below(db, number):
    """The numbers of the units right below one, in order."""
    return [n for n, in db.execute("SELECT n FROM unit WHERE parent = ? AND NOT gone ORDER BY pos", (number,))]


def forget_gone(db, tops):
    """At the end of a round: what no aid had. Before that a unit may only have moved to an aid that is read later."""
    with transaction(db):
        db.execute("CREATE TEMP TABLE IF NOT EXISTS now(n INTEGER PRIMARY KEY)")
        db.execute("DELETE FROM now")
        db.executemany("INSERT OR IGNORE INTO now VALUES (?)", ((top,) for top in tops))
        db.execute("UPDATE unit SET gone = 1 WHERE top NOT IN now")
        db.execute(LOST + "UPDATE unit SET gone = 1 WHERE n IN lost")
        forget_words(db, db.execute("SELECT top, n FROM unit WHERE gone").fetchall())
        db.execute("DELETE FROM unit WHERE gone")
        db.execute("DELETE FROM part WHERE n NOT IN (SELECT n FROM unit)")


class Demand:
    """What a statement demands of a unit. match: of its words, or nothing; clauses: conditions besides, with their values."""

    def __init__(self, match="", clauses=()):
        self.match, self.clauses = match, list(clauses)

    def also(self, clause, *values):
        """With one more condition."""
        return Demand(self.match, [*self.clauses, (clause, values)])

    def without(self, match):
        """Without the units whose words are so."""
        if self.match:
            return Demand(f"{self.match} NOT ({match})", self.clauses)
        return self.also(f"words.rowid NOT IN ({MATCHING})", match)

    def ask(self, db, columns, order, *first):
        """The rows."""
        clauses = [("words MATCH ?", (self.match,))] * bool(self.match) + self.clauses
        statement = (f"SELECT {columns} FROM words JOIN unit ON unit.n = words.rowid % ? "
                     f"WHERE {' AND '.join(clause for clause, _ in clauses)} ORDER BY {order}")
        return db.execute(statement, [*first, ARCHIVE, *(value for _, values in clauses for value in values)])


def propose(db, query):
    """The units that may have the phrases: pairs of a unit's place and its number. In the order of archives those whose
    head has all come first, then those that have all, then those that have some while heads above have the others; a
    place is this group (0 to 2) and a row of `words`. In the order of dates it is a year and a row. query.after: the
    place that was shown last."""
    wanted = [f"({' OR '.join(spelled(db, phrase))})" for phrase in query.phrases]
    out = " OR ".join(text for phrase in query.without for text in spelled(db, phrase))
    for group, demand in groups_of(query, wanted):
        demand = limited(db, query, demand.without(out) if out else demand)
        if query.by_date:
            found = demand.also("(year, words.rowid) > (?, ?)", *query.after)
            rows = found.ask(db, "ifnull(unit.first, ?) + ? AS year, words.rowid, unit.n", "year, words.rowid", UNDATED, group)
            yield from (((year, row), number) for year, row, number in rows)
        elif query.after[0] <= group:
            found = demand.also("words.rowid > ?", query.after[1] if query.after[0] == group else 0)
            rows = found.ask(db, "words.rowid, unit.n", "words.rowid")
            yield from (((group, row), number) for row, number in rows)


def groups_of(query, wanted):
    """Each group, and what is demanded of it. By date the first two are one. The last, in which heads above have some of
    several phrases, has those again that have all: a unit may have had them once, when more of it was shown, and nobody is to
    know this by its place."""
    plain = [text for phrase, text in zip(query.phrases, wanted) if not phrase.years]
    dated = [(text, phrase.years) for phrase, text in zip(query.phrases, wanted) if phrase.years]
    itself = Demand(" AND ".join(plain))
    for text, years in dated:
        itself = itself.also(f"(words.rowid IN ({MATCHING}) OR {MEETS})", text, *years)
    if query.by_date:
        groups = [(0, itself)]
    else:
        in_head = f"{{head}} : ({' AND '.join(wanted)})"
        groups = [(0, Demand(in_head)), (1, itself.without(in_head))] if wanted else [(1, itself)]
    later = CONTEXT if query.by_date else 2
    return groups + [(later, in_context(wanted, dated))] * (len(wanted) > 1)


def in_context(wanted, dated):
    """A unit that has some of several phrases itself, or their years, and the others in heads above."""
    some, spans = " OR ".join(wanted), dict(dated)
    meets = "".join(f" OR {MEETS}" for _ in dated)
    of_years = [year for _, years in dated for year in years]
    demand = Demand().also(f"(words.rowid IN ({MATCHING}){meets})", some, *of_years) if dated else Demand(f"({some})")
    for text in wanted:
        meets = f" OR {MEETS}" if text in spans else ""
        demand = demand.also(f"(words.rowid IN ({MATCHING}) OR unit.n IN ({BELOW_MATCHING}){meets})",
                             text, ARCHIVE, f"{{head}} : {text}", *spans.get(text, ()))
    return demand


def stands_above(db, number, phrase):
    """Whether a head above a unit may have a phrase."""
    numbers = above(db, number)
    found = db.execute("SELECT top FROM unit WHERE n = ?", (number,)).fetchone()
    places = ", ".join("?" for _ in numbers)
    statement = f"SELECT 1 FROM words WHERE words MATCH ? AND rowid IN ({places}) LIMIT 1"
    rows = [row_of(found[0], n) for n in numbers] if found else []
    match = f"{{head}} : ({' OR '.join(spelled(db, phrase))})"
    return bool(rows) and db.execute(statement, [match, *rows]).fetchone() is not None


def with_code(db, phrases):
    """The units whose heads may begin with a reference code, of which these are the words. Those below them, whose codes go
    on, are left out."""
    match = " AND ".join(f'{{head}} : ^ "{" ".join(words)}"' for phrase in phrases for words in phrase.readings[:1])
    having = "SELECT rowid % ? FROM words WHERE words MATCH ?"
    statement = f"SELECT n FROM unit WHERE n IN ({having}) AND (parent IS NULL OR parent NOT IN ({having})) LIMIT 20"
    return [n for n, in db.execute(statement, (ARCHIVE, match) * 2)] if match else []


def is_in_context(query, place):
    """Whether a place is that of a unit of which some words stand above it."""
    return place[0] >= CONTEXT if query.by_date else place[0] == 2


def limited(db, query, demand):
    """With what is demanded besides the words."""
    for clause, value in (("unit.last >= ?", query.first), ("unit.first <= ?", query.last), ("unit.level = ?", query.level)):
        demand = demand if value is None else demand.also(clause, value)
    demand = demand.also("unit.first IS NULL") if query.undated else demand
    if query.creator is not None:
        name = f'{{body}} : "{" ".join(readings_of(query.creator)[0])}"'
        demand = demand.also(f"unit.n IN ({AT_OR_BELOW_MATCHING})", ARCHIVE, name)
    if query.within is None:
        return demand
    if db.execute("SELECT 1 FROM unit WHERE n = ? AND parent IS NULL", (query.within,)).fetchone():
        begin = row_of(query.within, 0)
        return demand.also("words.rowid BETWEEN ? AND ?", begin, begin + ARCHIVE - 1)
    return demand.also(WITHIN, query.within)


def spelled(db, phrase):
    """A phrase as the index is asked for it: each of its readings, and other forms of its word."""
    forms = [(word,) for word in kin_of(db, phrase)]
    return [f'"{" ".join(words)}"' + " *" * phrase.begins for words in [*phrase.readings, *forms]]


def kin_of(db, phrase):
    """Other forms of the word of a phrase that the index has."""
    found = set()
    for (word,) in (reading for reading in phrase.readings if phrase.language and len(reading) == 1):
        near = words_from(db, word[:max(SHORTEST_STEM, len(word) - 3)], READ)
        found |= {one for one in near if one != word and is_kin(word, one, phrase.language)}
    return sorted(found)[:KIN]


def words_from(db, begin, many, lengths=(1, 10**6)):
    """The words of the index that begin so and are so long, up to so many. While the first round goes on there is no
    vocabulary yet."""
    is_there = db.execute("SELECT 1 FROM vocabulary LIMIT 1").fetchone()
    source = "vocabulary" if is_there else "(SELECT term AS word FROM counted WHERE term >= 'a')"
    statement = f"SELECT word FROM {source} WHERE word >= ? AND word < ? AND length(word) BETWEEN ? AND ? LIMIT ?"
    return [word for word, in db.execute(statement, (begin, begin + "\U0010ffff", *lengths, many))]


def alike(db, word, many):
    """The words of the index that sound like one, at the end perhaps with another consonant if they are of another script, and
    those that differ from it in their first letters only, up to so many of each."""
    own = sound(word)
    heard = db.execute("SELECT word FROM vocabulary WHERE sound = ? AND sound <> '' LIMIT ?", (own, many)).fetchall()
    if len(own) > 3:
        ends = db.execute("SELECT word FROM vocabulary WHERE sound >= ? AND sound <= ? LIMIT ?", (own[:-1], f"{own}z", many))
        heard += [(one,) for one, in ends if one.isascii() != word.isascii()]
    swapped = word[1:2] + word[:1] + word[2:]
    others = db.execute("SELECT word FROM vocabulary WHERE substr(word, 2) IN (?, ?) OR word IN (?, ?) LIMIT ?",
                        (word[1:], word, word[1:], swapped, many))
    return [one for one, in (*heard, *others)]


def words_with_end(db, end, many):
    """The words of the index that end so, the shortest first, up to so many."""
    statement = "SELECT word FROM vocabulary WHERE word LIKE ? AND word <> ? ORDER BY length(word), word LIMIT ?"
    return [word for word, in db.execute(statement, (f"%{end}", end, many))]


def find_known(db, number):
    """What the index has of a unit: its digest, and its own lines that look as if they were found above. None:
    nothing."""
    found = db.execute("SELECT own, odd FROM unit WHERE n = ?", (number,)).fetchone()
    return found and (found[0], (found[1] or "").split("\n"))


def above(db, number):
    """The numbers above a unit, from the nearest to the top, as the last round had them."""
    return [n for n, in db.execute(ABOVE + "SELECT n FROM above LIMIT 65", (number,))][1:]
