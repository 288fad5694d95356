"""Reads what an office knows of the units of a source, from a copy of the office."""

import sqlite3
from dataclasses import dataclass, field


@dataclass
class Known:
    """A unit of an office: its number, whether it is a draft, its texts by the number of the element (4: the level), its
    containers, its place as (source, legacyId) of the unit above (None at the top), and how many units lie below it."""

    number: int
    is_draft: bool
    texts: dict
    boxes: list = field(default_factory=list)
    above: tuple | None = None
    below: int = 0


def read_units(store, source):
    """The units of a source by their legacyIds. `store` is a connection to a copy, with the program away."""
    units, by_number = {}, {}
    for number, legacy, level, draft in store.execute(
            "SELECT id, legacy, level, draft FROM unit WHERE source = ?", (source,)):
        units[legacy] = by_number[number] = Known(number, bool(draft), {4: level} if level else {})
    for number, k, value in store.execute(
            "SELECT unit, k, value FROM element JOIN unit ON unit.id = unit WHERE source = ?", (source,)):
        by_number[number].texts[k] = value
    for number, *box in store.execute("""
            SELECT housing.unit, container.name, container.location, container.kind
            FROM housing JOIN unit ON unit.id = housing.unit JOIN container ON container.id = housing.container
            WHERE source = ? ORDER BY housing.unit, housing.ord""", (source,)):
        by_number[number].boxes.append(tuple(box))
    read_places(store, by_number)
    return units


def read_places(store, by_number):
    """Finds the unit above each of these units, and how many lie below it, in one walk through the catalogue."""
    way = []
    for number, left, right, source, legacy in store.execute("""
            SELECT span.id, span.lft, span.rgt, unit.source, unit.legacy FROM span JOIN unit ON unit.id = span.id
            ORDER BY span.lft"""):
        while way and way[-1][0] < right:
            way.pop()
        if unit := by_number.get(number):
            unit.above = way[-1][1] if way else None
            unit.below = (right - left - 1) // 2
        way.append((right, (source, legacy)))


def open_copy(path):
    """A connection to a copy that nothing else has open, and that nothing can change through it."""
    return sqlite3.connect(f"{path.resolve().as_uri()}?mode=ro", uri=True)
