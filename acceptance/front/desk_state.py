"""What a test of the desk begins with, made through requests: readers, an empty desk, orders, an archive of its own."""

import json
from typing import NamedTuple

from acceptance.front.files import csv_text, unit

FAR = "2030-12-31"
ANN, BEN, ZOE, TURNED = READERS = ("Ann <b>Smith</b>", "Ben O'Neill", "Zo\u00eb \u0141ukasz", "\u202eneB")


class Archive(NamedTuple):
    """The numbers of the units of an archive, and of its container."""

    fonds: int
    series: int
    file: int
    draft: int
    box: int


class DeskState:
    """The readers, orders and descriptions of an office, as requests show and change them."""

    def __init__(self, asks):
        self.asks = asks

    # Readers and orders

    def start(self):
        """Empties the desk; returns the tickets of the four READERS."""
        self.empty()
        return self.readers()

    def empty(self):
        """Takes every container back, cancels every order, frees every seat, and reshelves."""
        for issued in self.asks.read("/desk/issued"):
            self.asks.command("/desk/return", container=issued["container"])
        for ticket, card in self.cards().items():
            for order in card["orders"]:
                self.asks.command("/desk/cancel", order=order["order"])
            if card["seat"] is not None:
                self.asks.command("/desk/leave", ticket=ticket)
        self.asks.try_command("/desk/reshelve", {})  # refused if there is nothing to reshelve

    def cards(self):
        """What the card of each ticket tells, by the ticket's number."""
        found = {}
        while (answer := self.asks.question(f"/desk/readers/{len(found) + 1}", True))[0] == 200:
            found[len(found) + 1] = json.loads(answer[1])
        return found

    def readers(self):
        """The tickets of the four READERS, in this order; registers those that have none."""
        known = {card["name"]: ticket for ticket, card in self.cards().items()}
        return [known.get(name) or self.register(name) for name in READERS]

    def register(self, name):
        return self.asks.command("/desk/register", name=name, until=FAR)["ticket"]

    def order(self, ticket, container):
        return self.asks.command("/public/orders", ticket=ticket, container=container)["order"]

    def fetch(self, *pairs):
        """Orders containers, each a pair of ticket and container, and fetches them in a run; returns the orders'
        numbers."""
        orders = [self.order(*pair) for pair in pairs]
        self.asks.command("/desk/run")
        return orders

    def issue(self, ticket, container):
        """Gives a reader a seat, and a container that is ready."""
        self.asks.command("/desk/seat", ticket=ticket)
        self.asks.command("/desk/issue", ticket=ticket, container=container)

    def orders_of(self, ticket):
        """The states of a reader's orders that wait or are out, by their numbers."""
        return {order["order"]: order["state"] for order in self.asks.read(f"/desk/readers/{ticket}")["orders"]}

    # Descriptions

    def fonds(self, code="HUL"):
        """The number of the archive with this code; else that of the dock company."""
        line = next(line for line in self.asks.text("/public/fonds").splitlines() if f" {code} [" in line)
        return int(line.split(" ", 1)[0])

    def unit(self, title):
        """The number of a unit right below the dock company, by its title."""
        lines = self.asks.text(f"/public/units/{self.fonds()}").splitlines()
        return int(next(line for line in lines if line.endswith(f"] {title}")).split()[1].rstrip(":"))

    def container(self, name):
        """The number of a container by its name in the finding aids. Raises AssertionError if there is none."""
        for top in self.asks.text("/public/fonds").splitlines():
            for line in self.asks.text(f"/public/aid/{top.split(' ', 1)[0]}").splitlines():
                line = line.strip(" ")
                if line.startswith("Container ") and line.endswith(f": {name}"):
                    return int(line.split(" ")[1].rstrip(":"))
        raise AssertionError(f"no container {name}")

    def import_archive(self, code):
        """Imports a fonds with this code for one test alone: a series with a container and a file, and a draft."""
        held = {"physicalObjectName": f"Volume {code}", "physicalObjectLocation": "Strongroom 3"}
        rows = (
            unit("1", identifier=code, title=f"Harbour office {code}", levelOfDescription="Fonds"),
            unit("2", "1", "Minutes", identifier="1", levelOfDescription="Series", **held),
            unit("3", "2", "Board, first volume", identifier="1", levelOfDescription="File"),
            unit("4", "1", f"Letters {code}", identifier="2", levelOfDescription="Series", publicationStatus="Draft"),
        )
        self.asks.import_text(code.lower(), csv_text(*rows))
        fonds = self.fonds(code)  # new units are numbered in the order of their rows
        return Archive(fonds, fonds + 1, fonds + 2, fonds + 3, self.container(f"Volume {code}"))
