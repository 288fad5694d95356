"""My orders: what the secret of a ticket shows of it and lets its reader do, for readers' nginx; and for the desk's, the
address that has this secret, and its code.

    my_orders.py --queue SOCKET --state FOLDER --listen FOLDER [--words FILE] [--orders MANY] [--desk SOCKET] [--messages]

Readers ask at my.sock: GET /my/SECRET leads to /my with a cookie, which shows what waits (and how many are before it), is
ready or is out. POST /my/order, /my/cancel, /my/message and /my/leave do what they say. Whatever is wrong with a secret, the
answer is the same, and the office is asked one question.
The desk asks at cards.sock: GET /my/TICKET is answered with JSON: address; size and path of its QR code. POST makes a new
secret. The machine asks there, too: GET /ready tells of which tickets something is ready that their readers want to know and
were not told, and POST /ready with the same that they were told."""

import argparse
import json
import pathlib
import re
import signal
import sqlite3
import sys
import threading
import time
from datetime import date

import segno

import languages
import orders
import processes
from asking import SOON, Asking, Idle, Unreached, command
from cards import NOBODY, Cards
from layouts import Answer, Layouts
from pages import AWAY
from service import Answering
from texts import N_

KEPT = 8  # connections to the queue
LOOK = 60  # seconds for a look at all that readers want to know
COOKIE = "my={}; Path=/; HttpOnly; SameSite=Lax"
CANCELLED = N_("Your order is cancelled.")
NOT_WAITING = N_("This order is no longer waiting, so it was not cancelled.")
UNSENT = N_("The office does not answer. Nothing was cancelled. Please try again in a minute.")
UNCERTAIN = N_("We cannot tell whether your order was cancelled. Please look whether it is still here.")
MESSAGES = {True: N_("You will get a message when something is ready."), False: N_("You will get no more messages.")}


class MyOrders:
    """The pages. queue: the queue's socket for this service; desk: that where the desk is told what was ordered; cards: the
    secrets; messages: whether the operator sends any."""

    def __init__(self, queue, desk, cards, layouts, a_minute, messages):
        self.queue, self.desk, self.cards, self.layouts, self.row = queue, desk, cards, layouts, orders.Row(a_minute)
        self.messages, self.idle = messages, Idle(queue, KEPT)

    def asking(self, _, left=SOON):
        """How the office is asked for a page; left: seconds after which a reader is told that it does not answer."""
        ask = Asking(self.queue, kind="page", idle=self.idle)
        ask.until = time.monotonic() + left
        return ask

    def answer(self, request):
        """The answer to a request."""
        name = request.path.removeprefix("/my").removeprefix("/")
        request = request._replace(path="/my")  # what a page says of its address is without the secret
        try:
            return self.page(request, name)
        except Unreached:
            return self.layouts.render(request, "message.html", 503, texts=AWAY, again="/my")

    def page(self, request, name):
        """The page of an address below /my."""
        if request.method == "GET" and name in ACTIONS:  # what was sent is loaded again
            return Answer(302, "/my")
        written = name if name and request.method == "GET" else request.secret
        card = self.card(request, self.cards.ticket_of(written))
        if card is None or request.method not in ("GET", "POST") or (request.method == "POST") != (name in ACTIONS):
            nothing = self.layouts.render(request, "my.html", 404, card=None)
            return nothing._replace(cookie=self.cookie(request, "", "Max-Age=0"))
        if request.method == "GET":
            return Answer(302, "/my", cookie=self.cookie(request, name)) if name else self.show(request, card)
        return ACTIONS[name](self, request, card)

    def cookie(self, request, secret, *more):
        """What the browser keeps until it is closed."""
        return "; ".join([COOKIE.format(secret), *more, *["Secure"] * request.site.startswith("https:")])

    def card(self, request, ticket):
        """What the desk has of a ticket; None if there is none, or its last day is past. The office is asked in each case."""
        told = request.ask(f"/desk/readers/{ticket}")
        card = json.loads(told) if told and ticket != NOBODY else None
        return card if card and card["until"] >= date.today().isoformat() else None

    def show(self, request, card, **outcome):
        """What of the ticket waits, is ready or is out; what came of a command even if the office does not tell that."""
        try:
            boxes = [place_of(request.ask, one) for one in card["orders"]]
        except Unreached:
            if not outcome:
                raise
            boxes = None
        names = {box["container"]: box["name"] for box in boxes or []}
        given = {"outcome": None, "told": "", "is_done": False, **outcome}
        return self.layouts.render(request, "my.html", card=card, boxes=boxes, names=names, messages=self.messages,
                                   wants=self.cards.wants(card["ticket"]), **given)

    def again(self, request, card, **outcome):
        """The same after a command."""
        request.ask.until = max(request.ask.until, time.monotonic() + 1)  # for the page that tells what came of it
        try:
            card = self.card(request, card["ticket"]) or card
        except Unreached:
            pass
        return self.show(request, card, **outcome)

    def order(self, request, card):
        """Orders what a form has."""
        items = orders.read_items(request.form)
        if not items:
            return self.show(request, card, outcome={"wrong": orders.NO_BOX, "done": [], "taken": []})
        done = orders.give(self.queue, self.desk, self.row, request.address, card["ticket"], items)
        outcome = {"done": done, "taken": [one for one in done if one.order], "ticket": card["ticket"]}
        return self.again(request, card, outcome=outcome)

    def cancel(self, request, card):
        """Cancels an order of this ticket that waits."""
        number = dict(request.form).get("order")
        mine = next((one for one in card["orders"] if str(one["order"]) == number and one["state"] == "waiting"), None)
        if mine is None:
            return self.show(request, card, told=NOT_WAITING)
        status, reply = command(self.queue, "/desk/cancel", {"order": mine["order"]}, SOON)
        if status in (0, 200, 502, 504):
            self.cards.note_cancelled(mine["order"], card["ticket"], mine["container"], status or 502)
        told = {200: CANCELLED, 409: NOT_WAITING, 503: UNSENT}.get(status, UNCERTAIN)
        return self.again(request, card, told=told, is_done=status == 200)

    def message(self, request, card):
        """Notes whether the reader wants messages."""
        is_wanted = self.messages and "wanted" in dict(request.form)
        self.cards.want(card["ticket"], is_wanted)
        return self.show(request, card, told=MESSAGES[is_wanted], is_done=True)

    def leave(self, request, _):
        """This browser forgets the secret."""
        return Answer(302, "/", cookie=self.cookie(request, "", "Max-Age=0"))


ACTIONS = {"order": MyOrders.order, "cancel": MyOrders.cancel, "message": MyOrders.message, "leave": MyOrders.leave}


def place_of(ask, one):
    """Where an order of a ticket is: out, ready, or waiting behind so many others."""
    queue = json.loads(ask(f"/desk/queue/{one['container']}") or '{"name": "", "out": null, "place": "", "waiting": []}')
    turns = [waits["order"] for waits in queue["waiting"]]
    before = turns.index(one["order"]) + (queue["out"] is not None) if one["order"] in turns else 0
    ready = before == 0 and queue["place"] == "desk"
    state = "out" if queue["out"] == one["order"] else "ready" if ready else "waiting"
    return {**one, "name": queue["name"], "state": state, "before": before}


class Desk:
    """What the desk and the machine ask. pages: those of the readers."""

    def __init__(self, pages):
        self.pages, self.cards = pages, pages.cards

    def app(self, environ, start):
        """Answers a request, as WSGI asks for."""
        try:
            status, told = self.answer(environ["REQUEST_METHOD"], environ["PATH_INFO"], environ["wsgi.input"].read())
        except (OSError, ValueError, KeyError, sqlite3.Error, Unreached) as wrong:
            print(f"{type(wrong).__name__} {wrong}", flush=True)
            status, told = "500 Internal Server Error", {"error": "failed"}
        body = json.dumps(told).encode()
        start(status, [("Content-Type", "application/json"), ("Content-Length", str(len(body)))])
        return [body]

    def answer(self, method, path, body):
        """The status and the answer."""
        found = re.fullmatch("/my/([1-9][0-9]{0,9})", path)
        if method not in ("GET", "POST") or not (found or path == "/ready"):
            return "404 Not Found", {"error": "not found"}
        if found:
            if method == "POST":
                self.cards.take_back(int(found[1]))
            return "200 OK", self.code(int(found[1]))
        if method == "POST":
            for ticket, ready in json.loads(body).items():
                self.cards.tell(int(ticket), ready)
        return "200 OK", self.ready()

    def code(self, ticket):
        """The address that shows a ticket, and its QR code as the path of a picture, if the readers' site has an address."""
        site = self.pages.layouts.own().get("site", "")
        address = f"{site.rstrip('/') if isinstance(site, str) else ''}/my/{self.cards.secret(ticket)}"
        if address.startswith("/"):
            return {"address": address}
        rows = segno.make(address, error="m", micro=False).matrix
        path = "".join(f"M{at} {line}h1v1h-1z" for line, row in enumerate(rows) for at, dark in enumerate(row) if dark)
        return {"address": address, "size": len(rows), "path": path}

    def ready(self):
        """By ticket, all orders that are ready, if some of them are new. What is no longer ready is forgotten."""
        ask, found = self.pages.asking(False, LOOK), {}
        for ticket, told in self.cards.wanting():
            card = json.loads(ask(f"/desk/readers/{ticket}") or '{"orders": []}')
            now = {one["order"] for one in card["orders"] if place_of(ask, one)["state"] == "ready"}
            if now - told:
                found[str(ticket)] = sorted(now)
            elif told - now:
                self.cards.tell(ticket, now)
        return found


def main():
    """Serves as the command line says."""
    words = argparse.ArgumentParser(description=__doc__, formatter_class=argparse.RawDescriptionHelpFormatter)
    words.add_argument("--queue", required=True, help="the queue's socket for this service")
    words.add_argument("--state", required=True, type=pathlib.Path, help="the folder of the key and of what is kept")
    words.add_argument("--listen", required=True, type=pathlib.Path, help="the folder for the sockets where both nginx ask")
    words.add_argument("--words", type=pathlib.Path, default=pathlib.Path("/etc/record-office/office.json"),
                       help="the office's own words")
    words.add_argument("--desk", type=pathlib.Path, help="the socket where the desk's own service is told what was ordered")
    words.add_argument("--orders", type=float, default=6, help="orders a minute that one address may give")
    words.add_argument("--messages", default="", help="if it is not empty, readers may ask for messages")
    given = words.parse_args()
    signal.signal(signal.SIGTERM, lambda *_: sys.exit(0))
    layouts = Layouts(languages.load(), given.words)
    pages = MyOrders(given.queue, given.desk, Cards(given.state), layouts, given.orders, bool(given.messages))
    for name, app in (("my", Answering(pages).app), ("cards", Desk(pages).app)):
        listener = processes.open_socket(given.listen / f"{name}.sock")
        threading.Thread(target=processes.serve, args=(app, listener, 8), daemon=True).start()
    threading.Event().wait()


if __name__ == "__main__":
    main()
