"""Whose search goes next: that of whom has taken least of the time lately, and of two who have taken the same the one that
is cheap. Each that is asked for counts as some time, also if it is refused. So one address with many searches keeps itself
waiting, and nobody else for longer than one search takes. If too many wait, one of whom has most of them goes away."""

import collections
import contextlib
import ipaddress
import itertools
import math
import threading
import time
from typing import NamedTuple

PLACES, OWN, PATIENCE = 4, 2, 3  # searches at a time, those of one address, seconds that one waits
WAITING = 40  # searches that wait: each has a thread of its own
LATELY, KEPT = 20, 10_000  # seconds after which half of the time is forgotten; addresses that are kept
ROOM = 8  # so many readers count as one address in a reading room
SHORT = 2  # letters: words that only begin so are costly
LITTLE, ASKED = 1, .5  # seconds lately that are not much; those that each search counts besides what it takes


class Late(Exception):
    """It was not this one's turn in time."""


class Search(NamedTuple):
    """A search. number: the more, the later it came; who: whose it is, from the largest network on; share: how many readers
    are behind the address; woken: what it waits for."""

    number: int
    who: tuple
    share: int
    costly: bool
    woken: threading.Condition


class Turns:
    """running: searches of each network now; busy: all of them; begun: when those began; spent: of each network, seconds and
    when they were counted; waiting: in the order in which they came."""

    def __init__(self):
        self.lock, self.numbers = threading.Lock(), itertools.count()
        self.running, self.busy, self.begun, self.spent, self.waiting = collections.Counter(), 0, {}, {}, []

    @contextlib.contextmanager
    def turn(self, address, room=False, costly=False):
        """A context that begins when it is this one's turn; it gives a function that says whether it keeps others
        waiting. Raises Late."""
        with self.lock:
            me = self.enter(address, room, costly)
            if not me.woken.wait_for(lambda: me not in self.waiting or self._is_next(me), PATIENCE):
                self.waiting.remove(me)
            if me not in self.waiting:
                raise Late
            self.begin(me)
        try:
            yield lambda: self._is_awaited(me.who)
        finally:
            with self.lock:
                self.end(me)

    def enter(self, address, room=False, costly=False):
        """A search that waits from now on, unless it goes away because too many do."""
        me = Search(next(self.numbers), networks_of(address), ROOM if room else 1, costly, threading.Condition(self.lock))
        self.waiting.append(me)
        self._count(me.who, ASKED / me.share)
        if len(self.waiting) > WAITING:
            many = collections.Counter(its for one in self.waiting for its in one.who)
            out = max(self.waiting, key=lambda one: self._burden(one, many))
            self.waiting.remove(out)
            out.woken.notify()
        return me

    def begin(self, me):
        """A search goes on from now on."""
        self.waiting.remove(me)
        self.running.update(me.who)
        self.busy, self.begun[me] = self.busy + 1, time.monotonic()
        self._is_next(None)

    def end(self, me):
        """A search is over."""
        self.running.subtract(me.who)
        self.busy, seconds = self.busy - 1, time.monotonic() - self.begun.pop(me)
        self._count(me.who, seconds / me.share)
        self._is_next(None)

    def _burden(self, one, many):
        """What is greatest for the search that goes away: whose network has most of those that wait, then whose address; then
        who has taken most. many: how many of those each network has."""
        return [many[one.who[level]] / one.share for level in (0, -1)], self._taken(one.who), one.number

    def _is_next(self, me):
        """Whether a search goes next. Wakes that which does."""
        one = self.next()
        if one not in (None, me):
            one.woken.notify()
        return one is not None and one is me

    def next(self):
        """The search that goes next, if there is a place for one."""
        ready = [one for one in self.waiting if self.running[one.who[0]] < (OWN if one.share == 1 else PLACES)]
        ready = ready if self.busy < PLACES else []
        return min(ready, key=lambda one: (self._taken(one.who), one.costly, one.number), default=None)

    def _taken(self, who):
        """The seconds that each of these networks has taken lately, in tenths."""
        return [round(self._spent(one), 1) for one in who]

    def _is_awaited(self, who):
        """Whether somebody waits who has not taken much more of the time than this one."""
        with self.lock:
            return any(self._spent(one.who[0]) <= 2 * self._spent(who[0]) + LITTLE for one in self.waiting)

    def _spent(self, who):
        """The seconds that a network has taken lately, with those of what goes on."""
        now = time.monotonic()
        return self._counted(who) + sum((now - at) / one.share for one, at in self.begun.items() if who in one.who)

    def _counted(self, who):
        """The seconds that a network has taken lately with what is over."""
        seconds, counted = self.spent.get(who, (0, 0))
        return seconds * math.exp2((counted - time.monotonic()) / LATELY) if seconds else 0

    def _count(self, who, seconds):
        """Adds to what networks have taken; forgets whom nobody waits for."""
        for one in who:
            self.spent[one] = (self._counted(one) + seconds, time.monotonic())
        self.running += collections.Counter()  # none with 0
        if len(self.spent) > KEPT:
            self.spent = {one: taken for one, taken in self.spent.items() if self._counted(one) > .1}


def networks_of(address):
    """Whose requests are counted together: of IPv4 those of an address; of IPv6 those of a network of 56 bits, which one house
    may have, and within it those of each of 64."""
    try:
        its = ipaddress.ip_address(address)
    except ValueError:
        return (address,)
    if its.version == 4:
        return (address,)
    return tuple(str(ipaddress.ip_network((its, bits), strict=False)) for bits in (56, 64))


def is_costly(phrases):
    """Whether very many words begin like one of these."""
    return any(phrase.begins and len(words[-1]) <= SHORT for phrase in phrases for words in phrase.readings)
