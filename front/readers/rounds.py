"""A round reads what the public sees: the list of fonds, then the finding aid of each. An aid whose bytes are those of
the last round is not looked at. An aid has no numbers, but the page of a unit has those of the units right below, in
the aid's order. So of a changed aid the pages of those units are read whose branch changed and that have units below.
If the two do not agree, a command came in between; that part is left as it was, and read again in the next round.

Nobody should wait for the aid of a large archive. So an archive is read by parts, unless it is known to be small: its
page, and the aid of each unit right below; and so is each of these that is known to be large. Of what is read so, a
value that ends as if it were found above is not searched, since only an aid could say that it is the unit's own.

If the office cannot answer for a unit, that part too is left as it was, and the round goes on. What it cannot answer as
one is read page by page, for the aids below would hold everybody up as long."""

import contextlib
import os
import select
import sqlite3
import sys
import time

import index
from asking import Asking, Busy, Unreached
from texts import Node, Page, digest, read_aid, read_fonds

LARGE = 2000  # units; an aid with more is read by parts
SWEEP = 20  # pages that each round reads whatever has changed
NAMED = 5  # of the units that could not be answered for, so many are named in the journal
CHECKED = 60  # so many rounds after a check of the index comes the next: damage need not show in answers or rounds


class Round:
    """One round. ask: how the office is asked; left_out: the units that it could not answer for; before: those of the last
    round."""

    def __init__(self, db, ask, sweep=SWEEP, large=LARGE, before=()):
        self.db, self.ask, self.sweep, self.large, self.before, self.left_out = db, ask, sweep, large, before, set()

    def run(self):
        """Makes the round. Raises Unreached."""
        tops = [number for number, _ in read_fonds(self.ask("/public/fonds") or "")]
        self.db.execute("UPDATE round SET done = 0, tops = ?", (len(tops),))
        self.look_around()
        for pos, number in enumerate(tops):
            self.archive(number, pos)
            self.db.execute("UPDATE round SET done = done + 1")
        index.forget_gone(self.db, tops)
        index.finish(self.db)
        self.db.execute("UPDATE round SET finished = finished + 1")

    def look_around(self):
        """A branch that was removed and imported again has other numbers and may have the same bytes. So each round
        reads a few pages more, until it has been around all units that have some below."""
        swept = self.db.execute("SELECT swept FROM round").fetchone()[0]
        some = index.next_with_units(self.db, swept, self.sweep)
        for number in some:
            with contextlib.suppress(Busy):
                page = self.page(number)
                if page is None or [n for n, _ in page.units] != index.below(self.db, number):
                    index.doubt(self.db, number)
        self.db.execute("UPDATE round SET swept = ?", (some[-1] if some else 0,))

    def archive(self, number, pos):
        """Reads an archive as one, or by parts."""
        size = self.size(number)
        self.read(number, number, None, pos, size is None or size > self.large)

    def read(self, number, top, parent, pos, by_parts, by_pages=False):
        """Reads a unit as one or by parts. How many units it has. One that cannot be read counts as large, so that what is
        above it is read by parts, without it; its aid is not asked for before its page could be."""
        if not by_parts and not by_pages and number not in self.before:
            with contextlib.suppress(Busy):
                return self.aid(number, top, parent, pos)
            by_pages = True
        with contextlib.suppress(Busy):
            return self.parts(number, top, parent, pos, by_pages)
        self.left_out.add(number)
        return self.large + 1

    def parts(self, number, top, parent, pos, by_pages):
        """The page of a unit, and the aids or the pages of the units right below it. How many units it has."""
        page = self.page(number)
        if page is None:
            return 0
        node = Node(page.head, page.own_lines())
        node.close()
        now = {n for n, _ in page.units}
        with index.transaction(self.db):
            index.put(self.db, top, number, parent, pos, node, None)
            index.lose(self.db, [n for n in index.below(self.db, number) if n not in now])
        size = 1 + sum(self.read(n, top, number, place, (self.size(n) or 0) > self.large, by_pages)
                       for place, (n, _) in enumerate(page.units))
        self.note(number, None, size)
        return size

    def aid(self, number, top, parent, pos):
        """The finding aid of a unit. How many units it has."""
        text = self.ask(f"/public/aid/{number}")
        if text is None:
            return 0
        seen = digest(text.encode())
        if self.is_known(number, top, parent, seen):
            self.db.execute("UPDATE unit SET pos = ? WHERE n = ? AND pos <> ?", (pos, number, pos))
            return self.size(number)
        node = read_aid(text)
        sure = Aid(self, number, top).take(node, parent, pos)
        self.note(number, seen if sure else None, node.size)
        return node.size

    def is_known(self, number, top, parent, seen):
        """Whether the index has this aid, and its unit at this place."""
        return self.db.execute(
            "SELECT 1 FROM part JOIN unit USING (n) WHERE n = ? AND digest = ? AND top = ? AND parent IS ? "
            "AND NOT gone", (number, seen, top, parent)).fetchone()

    def page(self, number):
        """The page of a unit, or None."""
        text = self.ask(f"/public/units/{number}")
        return text and Page(text)

    def size(self, number):
        """How many units were there when its aid, or its parts, were read last. None: never."""
        found = self.db.execute("SELECT size FROM part WHERE n = ?", (number,)).fetchone()
        return found and found[0]

    def note(self, number, seen, size):
        """Keeps the digest and the size of what was read."""
        self.db.execute("INSERT OR REPLACE INTO part VALUES (?, ?, ?)", (number, seen, size))


class Aid:
    """The units of a changed aid get their numbers. old: the units that the index has there, by number; below: the
    numbers below each; changed: what is to be written; kept: the units of branches that are as they were; places: those
    that only have another place among their siblings."""

    def __init__(self, round_, number, top):
        self.round, self.db, self.number, self.top = round_, round_.db, number, top
        self.old, self.below, self.changed, self.kept, self.places = {}, {}, [], set(), []
        self.remember(number)

    def remember(self, number):
        """What the index has of a unit and of all below it."""
        for n, *rest in index.branch(self.db, number):
            if n not in self.old:
                self.old[n] = rest
                self.below.setdefault(rest[1], []).append(n)

    def take(self, node, parent, pos):
        """Whether all units of the aid got their numbers."""
        sure = self.assign(self.number, parent, pos, node)
        found = self.kept | {number for number, *_ in self.changed}
        with index.transaction(self.db):
            for one in self.changed:
                index.put(self.db, self.top, *one)
            self.db.executemany("UPDATE unit SET pos = ? WHERE n = ?", self.places)
            self.db.executemany("UPDATE unit SET gone = 0 WHERE n = ?", [(n,) for n in self.kept if self.old[n][4]])
            if sure:
                index.lose(self.db, self.old.keys() - found)
        return sure

    def assign(self, number, parent, pos, node):
        """Whether all of the branch got its numbers. A unit that was elsewhere may leave some behind that are below it
        no more."""
        if number not in self.old:
            self.remember(number)
        if self.is_kept(number, parent, pos, node):
            return True
        sure = not node.units or self.assign_below(number, node)
        self.changed.append((number, parent, pos, node, node.branch if sure else None))
        return sure

    def assign_below(self, number, node):
        """Whether the units right below one, and all below them, got their numbers."""
        page = self.round.page(number)
        if page is None or [head for _, head in page.units] != [unit.head for unit in node.units]:
            return False
        pairs = enumerate(zip(page.units, node.units))
        return all([self.assign(n, number, pos, unit) for pos, ((n, _), unit) in pairs])

    def is_kept(self, number, parent, pos, node):
        """Whether a branch is as the index has it. Then all its numbers stay."""
        old = self.old.get(number)
        if old is None or (old[1], old[3]) != (parent, node.branch):
            return False
        found, rest = [], [number]
        while rest and len(found) <= node.size:
            found.append(rest.pop())
            rest += self.below.get(found[-1], [])
        if len(found) != node.size or any(self.old[n][0] != self.top for n in found):
            return False
        self.kept.update(found)
        if old[2] != pos:
            self.places.append((pos, number))
        return True


class Keeper:
    """Round after round, in a process of its own. Through `told` the answers say which units they have found otherwise
    than the index has them, with a minus those that are shown no more, and 0 if they could not read the index."""

    def __init__(self, path, ask, told, every):
        self.path, self.ask, self.told, self.every = path, ask, told, every
        self.damaged, self.unchecked, self.doubts, self.gone, self.parent = True, 0, set(), set(), os.getppid()
        self.left_out = set()

    def keep(self):
        """After a failure whose cause may be the index, the index is checked, and begun anew if it is damaged, or if SQLite
        fails again after the check."""
        while self.is_wanted():
            try:
                self.listen(0)
                self.round()
                pause = min(5, self.every)
                self.listen(pause)
                # an answer that has found the index late does not wait so long
                self.listen(max(0, self.every - pause), 1)
            except Unreached:
                time.sleep(min(5, self.every))
            except Exception as broken:  # noqa: BLE001 - a damaged index may break anything
                print(f"round: {type(broken).__name__} {broken}", flush=True)
                if isinstance(broken, sqlite3.Error) and self.unchecked == 0:
                    index.remove(self.path)
                self.damaged = True
                time.sleep(min(5, self.every))

    def is_wanted(self):
        """Whether the service that began it is still there."""
        return os.getppid() == self.parent

    def listen(self, seconds, enough=None):
        """Hears what the answers say for so many seconds, or until something was heard."""
        end = time.monotonic() + seconds
        while enough is None or len(self.doubts) < enough and not self.damaged:
            if not select.select([self.told], [], [], max(0, end - time.monotonic()))[0]:
                return
            message = self.told.recv(64)
            if not message:
                sys.exit("the service is gone")
            self.hear(int(message))

    def hear(self, number):
        """Takes in one message of the answers."""
        if number:
            self.doubts.add(abs(number))
            self.gone |= {-number} if number < 0 else set()
        else:
            self.damaged = True

    def round(self):
        """Makes one round, after a check of the index if that is due."""
        check = self.damaged or self.unchecked == CHECKED
        self.damaged, self.unchecked = False, 0 if check else self.unchecked + 1
        db = index.open_or_make(self.path, check)
        try:
            doubts, gone, self.doubts, self.gone = self.doubts, self.gone, set(), set()
            index.forget_at_once(db, gone)
            for number in doubts:
                index.doubt(db, number)
            it = Round(db, self.ask_if_wanted, before=self.left_out)
            it.run()
            self.tell(it.left_out)
        finally:
            db.close()

    def tell(self, left_out):
        """Says which units the last round left out, if the one before did not."""
        new = sorted(left_out - self.left_out)
        if new:
            named = ", ".join(map(str, new[:NAMED])) + (f" and {len(new) - NAMED} more" if len(new) > NAMED else "")
            print(f"round: the office cannot answer for these units, and will be asked again: {named}", flush=True)
        self.left_out = left_out

    def ask_if_wanted(self, path):
        """Asks the office; ends the process if the service is gone."""
        if not self.is_wanted():
            sys.exit("the service is gone")
        return self.ask(path)


def make(queue, path, told, every, rest):
    """Makes rounds until the process that began this one ends."""
    Keeper(str(path), Asking(queue, rest), told, every).keep()
