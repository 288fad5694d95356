"""The readers' pages. Each is made of what the office answers now, for this page alone: the index only proposes where to
look, as for answers."""

import contextlib
import os
import re
import sqlite3
import threading
import time
from typing import NamedTuple
from urllib.parse import urlencode

import alphabet
import folding
import index
import languages
import orders
from aids import LARGE, Aids, aid_lines, mark, size_and_head
from asking import SOON, Asking, Idle, Slow, Unreached
from layouts import Answer, Layouts, pieces_of_head, ref
from texts import AREAS, ELEMENTS, N_, Node, Page, read_aid, read_fonds, read_head, read_line
from turns import Late

SHOWN = 100  # units of a level at a time
WIDE = 2000  # units right below one: the office takes long to write its page, which is not asked for to show the way
FEW = 500  # units: contents that have no more show their dates, and what is further down
MAPPED = 49_000  # numbers of units for which there is one sitemap, which may have 50,000 addresses
KEPT = 12  # connections to the queue that a process keeps: the queue lets 500 in
AHEAD = 8  # units above, of which the pages are asked for at once
HIGHEST = 32  # units above that are asked for

FACETS = (("archive", N_("Archive")), ("level", N_("Level of description")), ("decade", N_("Decade")),
          ("creator", ELEMENTS["3.2.1"]))
CHOSEN = [*((kind, label) for kind, label in FACETS if kind in ("level", "creator")), ("undated", "")]
ASKED = ("q", "in", "from", "to", "order", "level", "creator", "undated")

NONE_SUCH = (N_("Not found"),
             N_("Nothing is shown under this number. There may be no such unit, or it may not be published."))
NO_PAGE = (N_("No such page"), N_("Please choose one from the list at the top."))
CHANGED = (N_("This finding aid has changed"),
           N_("The unit that you chose is no longer at this place. Please choose it there again."))
AWAY = (N_("The office does not answer"), N_("Please try again in a minute."))


class Missing(Exception):
    """Not there, or not shown: the heading, the text, and where to go on."""

    def __init__(self, texts=NONE_SUCH, way=None):
        super().__init__(texts[0])
        self.texts, self.way = texts, way


class Way(NamedTuple):
    """above: number and head of each unit above, from the top down; more: the number of the highest one that was asked
    for, if there are others above it; beside: the units at the same level."""

    above: list
    more: int | None
    beside: list


class Pages:
    """queue: the socket of the queue; path: the index, in whose folder finding aids are kept while they are sent; words:
    the file of the office's own words; find: answers a search; turn: of an address among searches; rest: how many times as
    long as an aid took the next one waits; a_minute: orders that an address may give; desk: the socket where the desk is told
    what was ordered."""

    def __init__(self, queue, path, words, find, turn, rest, a_minute, desk=None):
        self.queue, self.path, self.find, self.turn, self.desk = queue, path, find, turn, desk
        self.layouts, self.row = Layouts(languages.load(), words), orders.Row(a_minute)
        self.aids, self.idle, self.mine = Aids(queue, path.parent, rest), Idle(queue, KEPT), threading.local()

    def asking(self, crawls, left=SOON):
        """How the office is asked for a page; left: seconds after which a reader is told that it does not answer."""
        ask = Asking(self.queue, kind="crawler" if crawls else "page", idle=self.idle)
        ask.until = time.monotonic() + left
        return ask

    def answer(self, request):
        """The answer to a request."""
        try:
            return self.page(request)
        except Missing as missing:
            return self.render(request, "message.html", 404, texts=missing.texts, way=missing.way)
        except Unreached:
            return self.render(request, "message.html", 503, texts=AWAY, again=request.path)

    def page(self, request):
        """Finds the page of an address."""
        pages = [(found, method, page) for pattern, method, page in ROUTES if (found := pattern.fullmatch(request.path))]
        for found, method, page in pages:
            if method == request.method:
                return page(self, request, *map(whole, found.groups()[:1]), *found.groups()[1:])
            if (method, request.method) == ("POST", "GET"):  # the address of an answer that was loaded again
                return Answer(302, request.path.removesuffix("/order"))
        without = request.path.rstrip("/")
        if not pages and any(pattern.fullmatch(without) for pattern, method, _ in ROUTES if method == "GET"):
            return Answer(301, without + (f"?{urlencode(request.args)}" if request.args else ""))
        if not pages and (code := self.layouts.old_addresses().get(request.at + request.path)):
            return Answer(301, ref(code))
        methods = {method for _, method, _ in pages} | {"HEAD" for _, method, _ in pages if method == "GET"}
        answer = self.render(request, "message.html", 405 if pages else 404, texts=NO_PAGE, way=None)
        return answer._replace(allow=", ".join(sorted(methods)))

    def render(self, request, name, *status, **values):
        """A page."""
        return self.layouts.render(request, name, *status, **values)

    # A unit

    def unit(self, request, number, outcome=None):
        """A unit: where it stands, its contents, its containers and the order, its description."""
        above, more, small = self.propose(number)
        request.ask.ahead([f"/public/units/{number}", *([] if more else ["/public/fonds"]),
                           *(f"/public/units/{n}" for n in above[:AHEAD]), *([f"/public/aid/{number}"] if small else [])])
        text = request.ask(f"/public/units/{number}")
        if text is None and outcome is None:
            raise Missing
        page = Page(text or "-\n")
        if request.args.get("only") == "contents":
            return self.render(request, "contents_alone.html", number=number,
                               **self.contents(request, number, page, small))
        head, lines = read_head(page.head), [read_line(line, page.head) for line in page.lines]
        closed = bool(head.until) and not lines and not page.units
        head = head if closed else head._replace(until="")  # a title may look like that of a closed unit
        way = self.way(request, number, above, more)
        return self.render(
            request, "unit.html", number=number, head=head, outcome=outcome, gone=text is None, way=way,
            closed=closed, **self.described(lines),
            **self.level(number, way), **self.contents(request, number, page, small))

    def propose(self, number):
        """The units above, as the index has them, from the nearest on, up to one with so many right below that its page
        would keep the office for long; whether there are more; and whether the finding aid of the unit is small, which
        without the index nobody knows."""
        def look(db):
            """The same."""
            above = index.above(db, number)
            wide = (place for place, n in enumerate(above) if index.count_below(db, n, WIDE + 1) > WIDE)
            asked = above[:min(HIGHEST, next(wide, HIGHEST))]
            return asked, len(asked) < len(above), 1 < len(index.branch_numbers(db, number, FEW + 1)) <= FEW
        return self.from_index(look, ([], False, False))

    def from_index(self, look, otherwise):
        """What this finds in the index, which each thread has open until the file is another one; `otherwise` if it cannot be
        read."""
        try:
            file = os.stat(self.path).st_ino
            if getattr(self.mine, "file", None) != file:
                self.mine.db, self.mine.file = index.open_index(self.path), file
            return look(self.mine.db)
        except (sqlite3.Error, OSError):
            self.mine.__dict__.clear()
            return otherwise

    def described(self, lines):
        """The lines of a page by what they are."""
        elements = [one for one in lines if one.kind in ELEMENTS]
        boxes = [one for one in lines if one.kind == "Container"]
        own = [one for one in elements if not one.mark]
        return {"boxes": boxes, "names": {box.number: box.text for box in boxes},
                "others": [line for line in lines if not line.kind],
                "areas": [(area, [one for one in own if one.kind.startswith(area)]) for area in AREAS],
                "inherited": [one for one in elements if one.mark], "own": {one.kind: one.text for one in own}}

    def contents(self, request, number, page, small):
        """A hundred of the units right below, with what their finding aid says of them, unless it is large."""
        wanted = request.args.get("has", "")
        phrases, first = folding.read_typed(wanted), whole(request.args.get("from", ""), 1)
        found = [(place, *unit) for place, unit in enumerate(page.units) if has_all(phrases, unit[1])]
        first = first if first <= len(found) else 1  # there were more, or the address is odd
        nodes = self.nodes(request, number, page) if small and page.units else None
        units = [(n, read_head(text), nodes[place] if nodes else None, [place + 1])
                 for place, n, text in found[first - 1:first - 1 + SHOWN]]
        turns = {turn: at for turn, at in (("prev", first - SHOWN), ("next", first + SHOWN)) if 0 < at <= len(found)}
        return {"units": units, "many": len(page.units), "found": len(found), "first": first, "has": wanted,
                "turns": turns, "shown": SHOWN, "undated": bool(units) and not nodes}

    def dated(self, request, number):
        """The same hundred of a long list with their dates and extents, each as its page has it now."""
        text = request.ask(f"/public/units/{number}")
        if text is None:
            raise Missing
        page, nodes = Page(text), {}
        contents = self.contents(request, number, page, False)
        with self.in_turn(request) as ask, contextlib.suppress(Slow):  # then the others have none
            for n, *_ in contents["units"]:
                its = Page(ask(f"/public/units/{n}") or "-\n")
                nodes[n] = Node(its.head, its.lines)
        units = [(n, head, nodes.get(n), place) for n, head, _, place in contents["units"]]
        return self.render(request, "dates.html", number=number, head=read_head(page.head),
                           **contents | {"units": units, "undated": False})

    def nodes(self, request, number, page):
        """The units right below as the finding aid has them, or None if page and aid do not agree."""
        text = request.ask(f"/public/aid/{number}")
        nodes = read_aid(text).units if text else []
        return nodes if [node.head for node in nodes] == [head for _, head in page.units] else None

    def way(self, request, number, proposed, more):
        """The units above, from the top down, if their pages name each other now; else none. And the units beside."""
        way, at, beside = [], number, None
        for above in proposed:
            text = request.ask(f"/public/units/{above}")
            if not names(text, at):
                return Way([], None, [])
            beside = beside or Page(text).units
            way.insert(0, (above, read_head(text.split("\n", 1)[0])))
            at = above
        if more:
            return Way(way, at, beside or [])
        tops = read_fonds(request.ask("/public/fonds") or "")
        return Way(way, None, beside or tops) if any(top == at for top, _ in tops) else Way([], None, [])

    def level(self, number, way):
        """The units beside this one: up to a hundred around it, and those right before and after it."""
        place = next((place for place, (n, _) in enumerate(way.beside) if n == number), None)
        if place is None:
            return {"level": [], "turn": {}}
        first = max(0, min(place - SHOWN // 2, len(way.beside) - SHOWN))
        turn = {name: heads(way.beside[at:at + 1])[0] for name, at in (("prev", place - 1), ("next", place + 1))
                if 0 <= at < len(way.beside)}
        return {"level": heads(way.beside[first:first + SHOWN]), "level_first": first + 1, "turn": turn}

    def up(self, request, number):
        """To the unit above, if its page names this one now."""
        for above in self.from_index(lambda db: index.above(db, number)[:1], []):
            if names(request.ask(f"/public/units/{above}"), number):
                return Answer(302, f"/unit/{above}")
        raise Missing

    def ref(self, request, *parts):
        """To the unit that has a reference code now."""
        code = " ".join(parts)
        words = folding.read_typed('"{}"'.format(code.replace('"', " ")))
        for number in self.from_index(lambda db: index.with_code(db, words), []):
            text = request.ask(f"/public/units/{number}")
            if text and read_head(text.split("\n", 1)[0]).code == code:
                return Answer(302, f"/unit/{number}")
        raise Missing

    # Orders

    def order(self, request, number):
        """Orders the chosen containers of a unit, and shows its page with what came of it."""
        outcome = self.outcome(request, number)
        try:
            return self.unit(request, number, outcome)
        except Unreached:
            return self.ordered_alone(request, outcome)

    def ordered_alone(self, request, outcome):
        """What came of a form, while the office tells nothing of the units."""
        units = {done.unit: (read_head(str(done.unit)), {}) for done in outcome["done"]}
        status = 503 if any(done.refused in orders.UNANSWERED for done in outcome["done"]) else 200
        return self.render(request, "ordered.html", status, outcome=outcome, units=units)

    def ordered(self, request):
        """What was collected and ordered in this tab, which only the tab knows."""
        return self.render(request, "ordered.html", outcome=None, units={})

    def order_list(self, request):
        """Orders what was collected, and shows what came of it, with the units as they are now."""
        outcome = self.outcome(request)
        numbers = {done.unit for done in outcome["done"]}
        try:
            pages = {n: Page(request.ask(f"/public/units/{n}") or "-\n") for n in sorted(numbers)}
        except Unreached:
            return self.ordered_alone(request, outcome)
        units = {n: (read_head(page.head), {line.number: line.text for line in map(read_line, page.lines)})
                 for n, page in pages.items()}
        return self.render(request, "ordered.html", outcome=outcome, units=units)

    def outcome(self, request, unit=None):
        """What came of a form."""
        ticket, items = orders.read_ticket(request.form), orders.read_items(request.form, unit)
        if not ticket or not items:
            return {"wrong": orders.NO_BOX if ticket else orders.NO_TICKET, "done": [], "taken": [],
                    "typed": dict(request.form).get("ticket", "")}
        done = orders.give(self.queue, self.desk, self.row, request.address, ticket, items)
        if all(one.refused not in orders.UNANSWERED for one in done):
            request.ask.until = max(request.ask.until, time.monotonic() + 1)  # for the page that tells it
        return {"done": done, "taken": [one for one in done if one.order], "ticket": ticket}

    # Finding aids

    def aid(self, request, number):
        """A finding aid, line by line, from a file: none is held as a whole."""
        file = self.spool(number)
        if file is None:
            raise Missing
        size, head = size_and_head(file)
        large = size > LARGE
        stream = self.layouts.stream(request, "aid.html", number=number, head=head, large=large,
                                     lines=aid_lines(file, number, large))
        return Answer(200, self.aids.laid_out(file, stream))

    def spool(self, number):
        """A finding aid in a file, or None."""
        return self.aids.spool(number, self.from_index(lambda db: index.size_of(db, number), 0))

    def plain_aid(self, _, number):
        """A finding aid as the program answers it."""
        try:
            file = self.spool(number)
        except Unreached:
            return Answer(503, '{"error":"not reached"}', "application/json")
        if file is None:
            return Answer(404, '{"error":"not found"}', "application/json")
        return Answer(200, self.aids.plain(file), "text/plain", size_and_head(file)[0])

    def place(self, request, number, way):
        """From a line of a finding aid to its unit."""
        text = ""
        for step in way.split("."):
            below = Page(request.ask(f"/public/units/{number}") or "-\n").units
            if not 0 < int(step or 0) <= len(below):
                raise Missing(CHANGED, request.path.rsplit("/", 1)[0])
            number, text = below[int(step) - 1]
        if request.args.get("head", mark(text)) != mark(text):
            raise Missing(CHANGED, request.path.rsplit("/", 1)[0])
        return Answer(302, f"/unit/{number}")

    # Others

    def fonds(self, request):
        """The list of fonds."""
        return self.render(request, "fonds.html", tops=heads(read_fonds(request.ask("/public/fonds") or "")))

    @contextlib.contextmanager
    def in_turn(self, request):
        """How the office is asked many questions for a page: as for a search, behind other pages."""
        try:
            with self.turn(request.address):
                ask = Asking(self.queue, idle=self.idle)
                ask.until = request.ask.until
                yield ask
        except Late as late:
            raise Unreached(request.path) from late

    def alphabet(self, request):
        """Archives and creators from A to Z, from some letter on."""
        begin = alphabet.key_of(request.args.get("from", ""))

        def look(db):
            """What is shown, and the letters."""
            return alphabet.entries(db, ask, fonds, begin), alphabet.letters(db, ask, fonds)
        with self.in_turn(request) as ask:
            fonds = read_fonds(ask("/public/fonds") or "")
            entries, letters = self.from_index(look, None) or look(None)
        return self.render(request, "alphabet.html", begin=begin, shown=alphabet.SHOWN, letters=letters, entries=entries)

    def search(self, request):
        """What was found. The office is asked for the list of fonds, and for the page of each candidate."""
        told, fonds = self.find(request.args, request.language.code, request.address, request.ask.until)
        within = whole(request.args.get("in", ""), 0)
        scopes = [(n, read_head(text).title or text) for n, text in fonds]
        if within and all(n != within for n, _ in fonds):
            text = request.ask(f"/public/units/{within}")
            scopes += [(within, read_head(text.split("\n", 1)[0]).name)] if text else []
        units = [{**unit, "head": pieces_of_head(unit["head"]),
                  "way": [(read_head(step["head"]).title or step["head"]) for step in unit["way"] or []],
                  "lines": [(read_line(f"{line['name']}: "), line["text"]) for line in unit["lines"]]}
                 for unit in told["units"]]
        kept = {name: value for name, value in request.args.items() if name in ASKED and value}
        chosen = [(name, label, kept[name]) for name, label in CHOSEN if name in kept]

        def address(**changed):
            """A search that differs in this."""
            return urlencode({name: value for name, value in {**kept, **changed}.items() if value})
        is_away = told["state"] in ("late", "unreached") and not units
        return self.render(request, "search.html", 503 if is_away else 200, told=told, units=units, scopes=scopes,
                           within=within, offers=[(text, address(q=text)) for text in told.get("offers", ())],
                           longer=[(text, address(q=text)) for text in told.get("longer", ())],
                           reverse=address(**{"from": request.args.get("to"), "to": request.args.get("from")}),
                           more=address(after=told.get("after")), undated=address(undated=1),
                           facets=facets_of(request, told, scopes, address),
                           chosen=[(name, request.language.say(label), value) for name, label, value in chosen],
                           without={name: address(**{name: ""}) for name, *_ in chosen}, typed=told.get("asked", True))

    def help(self, request):
        """How a reader orders, and where and when."""
        return self.render(request, "help.html")

    def accessibility(self, request):
        """For whom the pages work, and whom to tell where they do not."""
        return self.render(request, "accessibility.html")

    def sitemap(self, request, part=None):
        """The list of sitemaps, or one: the units that the last round has seen open, in archives that there are now. A sitemap
        needs whole addresses."""
        if not self.layouts.office(request)["site"]:
            raise Missing(NO_PAGE)
        if part is None:
            parts = self.from_index(lambda db: index.stretches(db, MAPPED), [])
            return self.render(request, "sitemap.xml", kind="application/xml", parts=sorted({1, *parts}))
        tops = {n for n, _ in read_fonds(request.ask("/public/fonds") or "")}
        units = self.from_index(lambda db: index.open_units(db, part, MAPPED), [])
        units = [number for number, top in units if top in tops]
        if not units and part > 1:
            raise Missing(NO_PAGE)
        return self.render(request, "sitemap.xml", kind="application/xml", part=part, units=units)

    def robots(self, request):
        """What crawlers should leave out."""
        return self.render(request, "robots.txt", kind="text/plain")


def facets_of(request, told, scopes, address):
    """What a search can be narrowed to: a label, and texts with how many units have it and an address each."""
    names, say = dict(scopes), request.language.say
    kinds = {"archive": lambda n: (names.get(n, ""), address(**{"in": n})),
             "level": lambda level: (level, address(level=level)),
             "decade": lambda year: (say(N_("%(year)ss")) % {"year": year}, address(**{"from": year, "to": year + 9})),
             "creator": lambda name: (name, address(creator=name))}
    facets = told.get("facets", {})
    return [(say(label), [(kinds[kind](value)[0], many, kinds[kind](value)[1]) for value, many in facets[kind]])
            for kind, label in FACETS if kind in facets]


def names(text, number):
    """Whether a page has this unit right below its own."""
    return text is not None and f"\n  Unit {number}: " in text


def heads(units):
    """Units with their heads in parts."""
    return [(number, read_head(text)) for number, text in units]


def has_all(phrases, text):
    """Whether a text has each phrase, whose last word may go on."""
    readings = folding.readings_of(text) if phrases else []
    return all(folding.occurs(phrase._replace(begins=True), readings) for phrase in phrases)


def whole(text, otherwise=None):
    """The number that a text has, or else this, or the text."""
    return int(text) if re.fullmatch("[1-9][0-9]{0,9}", text) else text if otherwise is None else otherwise


NUMBER = "([1-9][0-9]{0,9})"
ROUTES = [(re.compile(pattern), method, page) for pattern, method, page in (
    ("/(?:index[.]html)?", "GET", Pages.fonds), (f"/unit/{NUMBER}", "GET", Pages.unit),
    (f"/unit/{NUMBER}/order", "POST", Pages.order), (f"/unit/{NUMBER}/above", "GET", Pages.up),
    (f"/unit/{NUMBER}/dates", "GET", Pages.dated),
    (f"/aid/{NUMBER}", "GET", Pages.aid), (f"/public/aid/{NUMBER}", "GET", Pages.plain_aid),
    (f"/aid/{NUMBER}/((?:[1-9][0-9]{{0,9}}[.]?){{1,64}})", "GET", Pages.place),
    ("/ref/([A-Z]{2})/([^/ ]+)/([!-~]+)", "GET", Pages.ref), ("/search", "GET", Pages.search),
    ("/a-z", "GET", Pages.alphabet), ("/help", "GET", Pages.help), ("/accessibility", "GET", Pages.accessibility),
    ("/ordered", "GET", Pages.ordered), ("/ordered/order", "POST", Pages.order_list),
    ("/sitemap[.]xml", "GET", Pages.sitemap), ("/sitemap/([1-9][0-9]{0,4})[.]xml", "GET", Pages.sitemap),
    ("/robots[.]txt", "GET", Pages.robots))]
