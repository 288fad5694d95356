"""Offices that are nearly full.

Requests would take too long to reach the limits on units, their numbers, containers, tickets, runs and orders, so SQLite fills
a table of a new store up to some rows below its limit. Then the last row that there is room for is asked for, and one more,
which must be refused as full, unless an earlier check refuses it (`scenarios/filled`). Ten million orders take minutes and
2 GB: they are played only with --thorough."""

import contextlib
import sqlite3
from pathlib import Path

import pytest

from acceptance import client
from acceptance.reference_model.limits import (LAST_UNIT, MOST_CONTAINERS, MOST_ORDERS, MOST_RUNS, MOST_TICKETS, MOST_UNITS)
from acceptance.scenarios import FOLDER, LONGEST, Scenario


def numbers_to(most):
    """The beginning of an SQL statement that has the numbers from 1 to `most` as the table n."""
    return f"WITH RECURSIVE n(i) AS (SELECT 1 UNION ALL SELECT i + 1 FROM n WHERE i < {most}) "


TWO_BOXES = [
    "INSERT INTO unit (id, source, legacy, level, draft) VALUES (1, 'a', '1', '', 0)",
    "INSERT INTO span VALUES (1, 1, 2)",
    "INSERT INTO element VALUES (1, 2, 'Plans')",
    "INSERT INTO container VALUES (1, 'Box 1', '', '')",
    "INSERT INTO housing VALUES (1, 1, 1)",
    "UPDATE office SET next_unit = 2",
]
SQL = {
    "tickets": [numbers_to(MOST_TICKETS - 1) + "INSERT INTO reader SELECT i, 'Ann', 20088 FROM n"],
    "runs": [
        *TWO_BOXES,
        "INSERT INTO reader VALUES (1, 'Ann', 20088)",
        "INSERT INTO orders VALUES (1, 1, 1, 19783, 3)",
        numbers_to(MOST_RUNS - 1) + "INSERT INTO run SELECT i, 19783 FROM n",
        numbers_to(MOST_RUNS - 1) + "INSERT INTO run_line SELECT i, 1, 1, 1 FROM n",
    ],
    "containers": [numbers_to(MOST_CONTAINERS - 1) + "INSERT INTO container SELECT i, 'Box ' || i, '', '' FROM n"],
    "units": [
        numbers_to(MOST_UNITS - 1)
        + "INSERT INTO unit (id, source, legacy, level, draft) SELECT i, 'a', i, '', 1 FROM n",
        numbers_to(MOST_UNITS - 1) + "INSERT INTO span SELECT i, 2 * i - 1, 2 * i FROM n",
        f"UPDATE office SET next_unit = {MOST_UNITS}",
    ],
    "numbers": [f"UPDATE office SET next_unit = {LAST_UNIT - 1}"],
    "orders": [
        *TWO_BOXES,
        "INSERT INTO container VALUES (2, 'Box 2', '', '')",
        "INSERT INTO housing VALUES (1, 2, 2)",
        numbers_to(1000) + "INSERT INTO reader SELECT i, 'Ann', 20088 FROM n",
        numbers_to(MOST_ORDERS - 1) + "INSERT INTO orders SELECT i, 1 + i % 1000, 1, 19782 - i / 1000, 3 FROM n",
    ],
}


@pytest.mark.parametrize("name", [
    "tickets", "runs", "containers", "units", "numbers", pytest.param("orders", marks=pytest.mark.thorough)])
def test_the_last_that_there_is_room_for(name: str, program: client.Program, room: Path) -> None:
    scenario = Scenario.of(name, FOLDER / "filled")
    office = client.Office.create(program, room / "office.db", scenario.settings)
    with contextlib.closing(sqlite3.connect(office.store)) as connection:
        connection.execute("PRAGMA foreign_keys = ON")
        for statement in SQL[name]:
            connection.execute(statement)
        connection.commit()
    assert office.check(timeout=LONGEST) == client.SOUND, "before the scenario"
    scenario.play_on(office)
