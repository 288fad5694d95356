"""The readers' service: pages and the search in all archives for nginx.

    service.py --queue SOCKET --index FILE --listen FOLDER [--words FILE] [--every SECONDS] [--rest TIMES]
               [--orders MANY] [--desk SOCKET]

GET /public/search?q=WORDS[&in=UNIT][&from=YEARS][&to=YEARS][&level=LEVEL][&creator=NAME][&undated=1][&order=date]
[&after=PLACE][&lang=LANGUAGE] is answered with JSON: state, units, more, after; count, exact, and first, the place of the
first unit among these; facets: how many of them are in which archive, of which level, decade and creator; undated: how many
have no year, if years are asked for; longer, offers: what finds more, or something where that found nothing; lacking: words
that the units do not have, if nothing has all; unread: names of values that cannot be read, so that nothing was looked for;
cut: whether more was typed than is read; asked: whether anything was asked for."""

import argparse
import contextlib
import json
import pathlib
import re
import signal
import socket
import sqlite3
import sys
import threading
import time
from http import HTTPStatus
from urllib.parse import parse_qs, parse_qsl, quote, urlencode

import index
import languages
import processes
import questions
import rounds
import years
from answers import START, Finder, Query
from asking import SOON, Asking, Idle
from counts import counts
from fewer import fewer
from folding import LONGEST as LONGEST_TYPED, is_cut
from layouts import Answer, Request
from offers import longer, offers
from pages import Pages
from turns import PLACES, Late, Turns, is_costly

LEAST = 1  # seconds for a search, however long it has waited for its turn
LARGEST = 2**63 - 1  # of SQLite's numbers
NOTHING = {"units": [], "more": False}
LONGEST = 65_536  # bytes of a form


class Room(str):
    """An address behind which many readers are."""


def whose(environ):
    """The address of a reader, as nginx has told it."""
    address = environ.get("REMOTE_ADDR", "")
    return Room(address) if environ.get("HTTP_RECORD_OFFICE_ROOM") == "1" else address


def left(environ):
    """The seconds after which a reader is told that the office does not answer, of those since the request came."""
    try:
        return min(max(float(environ["HTTP_RECORD_OFFICE_SINCE"]) + SOON - time.time(), 0), SOON)
    except (KeyError, ValueError):
        return SOON


class Answering:
    """pages: what answers."""

    def __init__(self, pages=None):
        self.pages = pages

    def app(self, environ, start):
        """Answers a request, as WSGI asks for."""
        method, path, args = environ["REQUEST_METHOD"], environ["PATH_INFO"], members(environ.get("QUERY_STRING", ""))
        answer, headers = self.answer(environ, method, path, args)
        charset = "" if answer.kind == "application/json" else "; charset=utf-8"
        headers.append(("Content-Type", answer.kind + charset))
        body, size = answer.body, answer.size
        if isinstance(body, str):
            body = [body.encode()]
            size = len(body[0])
        if size is not None:
            headers.append(("Content-Length", str(size)))
        pieces = (piece if isinstance(piece, bytes) else piece.encode() for piece in body)
        status = HTTPStatus(answer.status)
        start(f"{status.value} {status.phrase}", headers)
        return pieces

    def answer(self, environ, method, path, args):
        """A page, and what its head says besides."""
        form = []
        if method == "POST":
            size = int(environ.get("CONTENT_LENGTH") or 0)  # of a longer form nothing is read: a part may name another box
            form = fields(environ["wsgi.input"].read(size).decode("utf-8", "replace")) if size <= LONGEST else []
        language, at, path = self.pages.layouts.choose(path, environ.get("HTTP_ACCEPT_LANGUAGE", ""))
        headers = [] if path.startswith("/public/") else [
            ("Content-Language", language.code), *[("Vary", "Accept-Language, Cookie")] * (not at)]
        chosen = args.pop("lang", None)
        if headers and chosen in self.pages.layouts.languages and method == "GET":  # to the page's address in that language
            at, answer = f"/{chosen}", Answer(302, quote(path, encoding="latin-1") + (f"?{urlencode(args)}" if args else ""))
            headers.append(("Set-Cookie", f"lang={chosen}; Path=/; SameSite=Lax; HttpOnly"))
        else:
            answer = self.pages.answer(Request(
                method, at, path, args, language, f"{environ['wsgi.url_scheme']}://{environ.get('HTTP_HOST', 'localhost')}",
                environ.get("HTTP_RECORD_OFFICE_SITE", ""),
                whose(environ), self.pages.asking("HTTP_RECORD_OFFICE_CRAWLER" in environ, left(environ)), form,
                *(environ.get(f"HTTP_RECORD_OFFICE_{name}", "") for name in ("TICKET", "BY", "SECRET"))))
        if answer.status == 503:
            headers.append(("Retry-After", "60"))
        if answer.status in (301, 302):
            headers.append(("Location", at + answer.body))
        if answer.status == 405:
            headers.append(("Allow", answer.allow))
        if answer.cookie:
            headers.append(("Set-Cookie", answer.cookie))
        return answer, headers


class Service(Answering):
    """queue: the socket of the queue; path: the index; pages: the readers' pages; say: tells the rounds what was found
    late."""

    def __init__(self, queue, path, say):
        super().__init__()
        self.queue, self.path, self.say, self.mine = queue, path, say, threading.local()
        self.turns, self.idle = Turns(), Idle(queue, PLACES)

    def answer(self, environ, method, path, args):
        """What was found, as JSON; else a page."""
        if path != "/public/search" or method != "GET":
            return super().answer(environ, method, path, args)
        told = self.find(args, args.get("lang"), whose(environ), time.monotonic() + left(environ))[0]
        return Answer(200, json.dumps(told, ensure_ascii=False), "application/json"), []

    def find(self, values, language, address, until=None):
        """What was found, and the list of fonds, once it is this reader's turn. until: when the reader is told."""
        query, unread = query_of(values, language)
        if unread:
            return {"state": "unread", **NOTHING, "unread": unread}, []
        try:
            with self.turn(address, is_costly(query.phrases)) as is_awaited:
                return self.found(values, language, query, is_awaited, until)
        except Late:
            return {"state": "late", **NOTHING, "after": "{}-{}".format(*query.after)}, []

    def turn(self, address, costly=False):
        """A context that begins when it is this reader's turn."""
        return self.turns.turn(address, isinstance(address, Room), costly)

    def found(self, values, language, query, is_awaited, until):
        """What was found, and the list of fonds. While the first round goes on, the answer says how far it is."""
        if not hasattr(self.mine, "ask"):
            self.mine.ask = Asking(self.queue, idle=self.idle)
        try:
            with contextlib.closing(index.open_index(self.path)) as db:
                finished, done, tops = db.execute("SELECT finished, done, tops FROM round").fetchone()
                seconds = SOON if until is None else max(until - time.monotonic(), LEAST)
                found = Finder(db, self.mine.ask, query, is_awaited=is_awaited).find(seconds)
                told = self.told(found, values)
                if found.state == "done" and query.phrases and not found.units and query.after == START:
                    told |= self.instead(found, values["q"], language)
                elif found.state == "done" and query.phrases and query.after == START and not found.more:
                    told["longer"] = longer(found, values["q"], language)
        except (sqlite3.Error, AttributeError, TypeError, ValueError) as broken:  # not there yet, or damaged
            print(f"answer: {type(broken).__name__} {broken}", flush=True)
            self.say(0)
            return {"state": "begins", **NOTHING, "done": 0, "tops": 0}, []
        if not finished and found.state == "done":
            told |= {"state": "begins", "done": done, "tops": tops}
        return told, found.fonds

    def instead(self, found, typed, language):
        """What is told if nothing was found: what finds something, and what has most of the words."""
        told, most = {"offers": offers(found, typed, language)}, fewer(found, questions.read(typed, language))
        if most:
            told |= {"units": most[0].units, "lacking": most[1]}
        return told

    def told(self, found, values):
        """What an answer says. What it has found late goes to the rounds."""
        told = counts(found)
        for number in (*found.doubts, *(-number for number in found.gone)):
            self.say(number)
        told |= {"state": found.state, "units": found.units, "more": found.more, "cut": is_cut(values.get("q", "")),
                 "asked": found.query.is_asked()}
        if found.more or found.state != "done":
            told["after"] = "{}-{}".format(*found.after)
        return told


def query_of(values, language):
    """What is asked for, and the names of the values that cannot be read."""
    asked, unread = {}, []
    for name, place in (("in", None), ("from", 0), ("to", 1)):
        text = values.get(name, "").strip()
        asked[name] = number_of(text, place)
        unread += [name] if text and asked[name] is None else []
    unread += ["years"] * (asked["from"] is not None and asked["to"] is not None and asked["from"] > asked["to"])
    order, after = values.get("order", ""), re.fullmatch("([0-9]{1,6})-([0-9]{1,19})", values.get("after", ""))
    unread += ["order"] * (order not in ("", "date")) + ["after"] * bool(values.get("after") and not after)
    place = (int(after[1]), min(int(after[2]), LARGEST)) if after else START
    question = questions.read(values.get("q", ""), language)
    query = Query(question.phrases, asked["in"], asked["from"], asked["to"], place, order == "date", tuple(question.without),
                  values.get("level") or None, values.get("creator") or None)
    return query.of_no_year() if values.get("undated") else query, unread


def number_of(text, place):
    """The number that a text has: of a unit, or the first (0) or last (1) year. None: none."""
    if re.fullmatch(r"\d{1,10}", text):
        return int(text)
    return None if place is None else years.bounds_of(text[:LONGEST_TYPED], True)[place]


def fields(text):
    """The fields of a form, in pairs; none if there are too many."""
    try:
        return parse_qsl(text, max_num_fields=200)
    except ValueError:
        return []


def members(text):
    """The last value of each name of a query string. Other sites add names of their own to links (`utm_source`)."""
    try:
        text = text.encode("latin-1").decode("utf-8", "replace")
        found = parse_qs(text, keep_blank_values=True, max_num_fields=64, errors="replace")
    except ValueError:
        return {}
    return {name: values[-1] for name, values in found.items()}


def options():
    """The command line."""
    words = argparse.ArgumentParser(description=__doc__, formatter_class=argparse.RawDescriptionHelpFormatter)
    words.add_argument("--queue", required=True, help="the queue's socket for this service")
    words.add_argument("--index", required=True, type=pathlib.Path,
                       help="the file of the index, which may be deleted at any time")
    words.add_argument("--listen", required=True, type=pathlib.Path, help="the folder for the sockets where nginx asks")
    words.add_argument("--words", type=pathlib.Path, default=pathlib.Path("/etc/record-office/office.json"),
                       help="the office's own words")
    words.add_argument("--texts", type=pathlib.Path, help="a folder for the desk's texts in each language")
    words.add_argument("--every", type=float, default=60, help="seconds from the end of a round to the next")
    words.add_argument("--rest", type=float, default=4,
                       help="how many times as long as the office took rounds and finding aids rest after a question")
    words.add_argument("--desk", type=pathlib.Path, help="the socket where the desk's own service is told what was ordered")
    words.add_argument("--orders", type=float, default=6, help="orders a minute that one address may give")
    return words.parse_args()


def main():
    """Serves as the command line says."""
    given = options()
    signal.signal(signal.SIGTERM, lambda *_: sys.exit(0))
    tell, told = socket.socketpair(socket.AF_UNIX, socket.SOCK_SEQPACKET)
    tell.setblocking(False)
    service = Service(given.queue, given.index, lambda number: say(tell, number))
    service.pages = Pages(given.queue, given.index, given.words, service.find, service.turn, given.rest, given.orders,
                          given.desk)
    if given.texts:
        languages.write(service.pages.layouts.languages, given.texts)
    service.pages.layouts.prepare()
    processes.begin(service.app, given.listen, lambda: rounds.make(given.queue, given.index, told, given.every, given.rest))


def say(tell, number):
    """Says to the rounds that a unit is otherwise than the index has it, or (-number) shown no more, or (0) that the index
    cannot be read. If nobody listens for long, what is more than the socket holds is lost, and found again by a later
    answer."""
    with contextlib.suppress(OSError):
        tell.send(b"%d" % number)


if __name__ == "__main__":
    main()
