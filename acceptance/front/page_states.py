"""The pages of both sites, each in the state that has most on it: for access, translations and pictures."""

import json
from pathlib import Path
from types import SimpleNamespace
from typing import Any, NamedTuple

from acceptance.front.asks import Asks
from acceptance.front.catalogue import ODD

DESK, FAR = (1280, 800), "2030-12-31"


def settle(asks: Asks) -> SimpleNamespace:
    """Makes that each page of an office with the dock company has something to show; returns the numbers of its units and of
    a container, and a file."""
    for name in ("Ann <b>Smith</b>", "Ben O'Neill"):
        asks.command("/desk/register", name=name, until=FAR)
    asks.command("/desk/register", name="Old", until="2020-01-01")
    fonds = int(next(line for line in asks.text("/public/fonds").splitlines() if "HUL" in line).split()[0])
    lines = asks.text(f"/public/units/{fonds}").splitlines()
    minutes, plans, hebrew, closed = [
        next(int(line.split()[1].rstrip(":")) for line in lines if line.endswith(f"] {name}"))
        for name in ("Minutes", "Plans of the locks", ODD["hebrew"], ODD["accents"])]
    asks.command("/desk/closure", unit=closed, until="2040-01-01")
    box, roll = [int(line.split()[1].rstrip(":")) for line in asks.text(f"/public/units/{plans}").splitlines()
                 if line.startswith("  Container")]
    for ticket, container in ((1, box), (2, box), (1, roll)):
        asks.command("/public/orders", ticket=ticket, container=container)
    asks.command("/desk/run")
    asks.command("/desk/seat", ticket=1)
    asks.command("/desk/issue", ticket=1, container=roll)
    asks.command("/desk/permit", ticket=1, unit=minutes, until=FAR)
    few = asks.office.folder / "few.csv"  # a file whose header would empty units
    few.write_text("legacyId,title\n1,Hull Dock Company\n")
    asks.office.serve_my("--messages", "yes")
    first, second = [asks.read(f"/my/{ticket}")["address"].rpartition("/")[2] for ticket in (1, 2)]
    return SimpleNamespace(fonds=fonds, minutes=minutes, file=minutes + 3, plans=plans, hebrew=hebrew, closed=closed, box=box,
                           few=few, first=first, second=second)


class State(NamedTuple):
    """A page of a site at this address, which may name what `settle` returns, and what is done there first: methods of the tab
    with their values, one after the other."""

    site: str
    name: str
    address: str
    steps: list[list[Any]]

    def show(self, page: Any, office: SimpleNamespace | None) -> None:
        """Loads the page in a tab of its site, and prepares it."""
        page.size(*DESK)
        names = vars(office or SimpleNamespace())
        (page.at if self.site == "desk" else page.visit)(self.address.format(**names))
        page.wait("!document.querySelector('.waiting:not(.state)')")  # My orders has an order's state
        for name, *values in self.steps:
            if name == "answer_with":  # the last value is a body
                values = [*values[:-1], values[-1].encode()]
            getattr(page, name)(*(value.format(**names) if name in ("visit", "file") else value for value in values))

    def __str__(self) -> str:
        return f"{self.site}-{self.name}".replace(" ", "_")


STATES = [State(site, name, address, steps)
          for site, name, address, *steps in json.loads(Path(__file__).with_suffix(".json").read_text("utf-8"))]
