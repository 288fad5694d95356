"""Orders that readers give with a form: one command a container, never twice, and what came of each."""

import contextlib
import json
import re
import socket
import threading
import time
from typing import NamedTuple

from asking import SOON, give_order
from texts import N_, read_shared

MOST = 50  # containers of a form
AT_ONCE = 12  # orders from one address, and then so many a minute as the service is told
ADDRESSES = 10_000  # that are remembered

# What a refusal means to a reader, and what to do, by the names of docs/RULES.md.
REFUSALS = read_shared("refusals.json")["readers"]
OTHER = N_("Your order was not taken. Please ask at the desk.")
UNSENT = N_("The office does not answer. Your order was not passed on. Please try again in a minute.")
UNCERTAIN = N_("We cannot tell whether your order was taken. Please send it once more: if it was taken, you will be told "
               "that you have ordered this container already.")
OFTEN = N_("Too many orders came from your address. This one was not passed on. Please wait a minute and try again.")
UNANSWERED = {UNSENT, UNCERTAIN}
NO_TICKET = N_("Please type the number of your reader’s ticket, in digits alone.")
NO_BOX = N_("No container is chosen. Choose at least one.")
OF_THE_TICKET = {"UnknownTicket", "TicketExpired", "DailyLimit", "Full"}  # which every further order with it would meet


class Done(NamedTuple):
    """What came of one order: the container, the unit that it was ordered for, and either the order's number or why it
    was not taken, with the name of the refusal if the office has refused it."""

    box: int
    unit: int
    order: int | None
    refused: str | None
    name: str | None = None


class Row:
    """How many orders an address may give in a row. A form may have many, so the front cannot count them."""

    def __init__(self, a_minute):
        self.rate, self.left, self.lock = a_minute / 60, {}, threading.Lock()

    def takes(self, address):
        """Whether there is room for one more, which then is taken."""
        with self.lock:
            now = time.monotonic()
            left, at = self.left.pop(address, (AT_ONCE, now))
            left = min(AT_ONCE, left + (now - at) * self.rate)
            if len(self.left) >= ADDRESSES:
                self.left.pop(next(iter(self.left)))  # who came least lately
            is_taken = left >= 1
            self.left[address] = left - is_taken, now
            return is_taken


def read_ticket(form):
    """The number that a form has for a ticket, or None."""
    found = re.fullmatch(r"\s*0*([1-9][0-9]{0,9})\s*", dict(form).get("ticket", ""), re.ASCII)
    return found and int(found[1])


def read_items(form, unit=None):
    """The containers that a form has chosen, each with the unit that it is ordered for: at most MOST, each once."""
    items = {}
    for name, value in form:
        found = re.fullmatch("(?:([1-9][0-9]{0,9})-)?([1-9][0-9]{0,9})", value)
        if name == "container" and found and (found[1] or unit):
            items.setdefault(int(found[2]), int(found[1] or unit))
    return list(items.items())[:MOST]


def give(queue, desk, row, address, ticket, items):
    """Orders one container after the other: what came of each. Once the ticket or the office stands in the way, the
    others are told the same untried. desk: the socket where the desk's own service is told what was ordered, or None."""
    done, told, goes_on = [], None, True
    for box, unit in items:
        if goes_on:
            told, goes_on = give_one(queue, ticket, box) if row.takes(address) else ((None, OFTEN), False)
        done.append(Done(box, unit, *told))
    if desk:
        tell_desk(desk, ticket, done)
    return done


def give_one(queue, ticket, box):
    """The number of an order, or why it was not taken; and whether another one may be."""
    status, reply = give_order(queue, ticket, box, SOON)
    if status == 200:
        return (reply["order"], None), True
    if status == 409:
        name = reply.get("refused")
        return (None, REFUSALS.get(name, OTHER), name), name not in OF_THE_TICKET
    return (None, {0: UNCERTAIN, 502: UNCERTAIN, 504: UNCERTAIN, 503: UNSENT}.get(status, OTHER)), False


def tell_desk(path, ticket, done):
    """Tells the desk's own service, by a socket that answers nothing, for which units these orders are and why others were
    refused. If it is away, nobody knows, and the orders are as good."""
    told = {"taken": [[one.order, ticket, one.box, one.unit] for one in done if one.order],
            "refused": [[one.box, one.name] for one in done if one.name]}
    with contextlib.suppress(OSError), socket.socket(socket.AF_UNIX, socket.SOCK_DGRAM) as it:
        it.setblocking(False)
        it.sendto(json.dumps(told).encode(), str(path))
