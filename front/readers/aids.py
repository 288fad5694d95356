"""Finding aids: each is copied to a file as fast as the office writes it, and laid out from there, line by line."""

import threading
import time
import zlib
from typing import NamedTuple

from asking import SOON, Asking, Unreached, spool
from texts import HEAD, read_head, read_line

PATIENCE = 240  # seconds that a reader may wait behind the aids of others
A_SECOND = 4000  # units of which a slow machine begins to write the aid within a second
LONGEST = 5  # seconds of a rest
LARGE = 1_000_000  # bytes; a larger aid has blocks
BLOCK = 200  # lines, or a few more, that are laid out together once they come near the screen
WRITTEN = 4  # aids that are laid out at a time; others wait


class Aids:
    """One aid at a time, since each keeps the office from everybody else. After it comes a rest, `rest` times as long as
    the office took: pages and the desk have the office meanwhile."""

    def __init__(self, queue, folder, rest):
        self.queue, self.folder, self.rest, self.unreached = queue, folder, rest, 0
        self.turn, self.free, self.written = threading.Lock(), 0.0, threading.Semaphore(WRITTEN)

    def spool(self, number, size):
        """The aid of a unit in a file, or None. size: how many units it has. Raises Unreached, also if others take too long,
        and at once if one before could not be had: the office does not answer."""
        until, before = time.monotonic() + PATIENCE, self.unreached
        if not self.turn.acquire(timeout=PATIENCE):
            raise Unreached(number)
        try:
            if self.unreached != before:
                raise Unreached(number)
            time.sleep(max(0.0, self.free - time.monotonic()))
            if size > A_SECOND:  # whether the office answers at all is known before such an aid begins
                ask = Asking(self.queue, kind="page")
                ask.until = time.monotonic() + SOON
                ask("/public/fonds")
            file, took = spool(self.queue, f"/public/aid/{number}", self.folder, SOON + size / A_SECOND,
                               max(until - time.monotonic(), 1))
            self.free = time.monotonic() + min(took * self.rest, LONGEST)
            return file
        except Unreached:
            self.unreached += 1
            raise
        finally:
            self.turn.release()

    def plain(self, file):
        """The aid as it is, in pieces."""
        with file:
            yield from iter(lambda: file.read(1 << 16), b"")

    def laid_out(self, file, stream):
        """The pieces of a page that is made of the file."""
        with self.written, file:
            yield from stream


class AidLine(NamedTuple):
    """A line of an aid: its depth; the address of its unit, if it is a head line; what it says; whether a block begins
    with it."""

    depth: int
    address: str | None
    line: object
    begins: bool


def size_and_head(file):
    """The bytes of an aid, and the head line of its unit."""
    size = file.seek(0, 2)
    file.seek(0)
    head = read_head(file.readline().decode("utf-8", "replace").rstrip("\n"))
    file.seek(0)
    return size, head


def aid_lines(file, number, large):
    """The lines of a finding aid."""
    counts, lines = [], 0
    for raw in file:
        line = raw.decode("utf-8", "replace").rstrip("\n")
        own = line.lstrip(" ")
        depth = (len(line) - len(own)) // 2
        if not HEAD.match(own):
            yield AidLine(depth, None, read_line(own), False)
            lines += 1
            continue
        del counts[depth + 1:]
        counts += [0] * (depth + 1 - len(counts))
        counts[depth] += 1
        begins = large and (lines >= BLOCK or not depth)
        lines = 1 if begins else lines + 1
        yield AidLine(depth, address_of(number, counts[1:], own), read_head(own), begins)


def address_of(number, places, text):
    """The address of a line of an aid: an aid has no numbers, but the k-th unit below another in an aid is the k-th that
    the other's page lists. A digest of the head line tells if the aid has changed."""
    return f"/aid/{number}/{'.'.join(map(str, places))}?head={mark(text)}" if places else f"/unit/{number}"


def mark(text):
    """A short digest of a head line."""
    return f"{zlib.crc32(text.encode()):x}"
