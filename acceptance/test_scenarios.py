"""Each scenario in a file is answered as written: by `trial`, byte by byte, and over a store."""

from pathlib import Path

import pytest

from acceptance import client
from acceptance.scenarios import Scenario, names


@pytest.mark.parametrize("name", names())
def test_scenario(name: str, program: client.Program, room: Path) -> None:
    Scenario.of(name).play(program, room / "office.db")


def test_a_third_of_the_scenarios_have_other_settings() -> None:
    """Other seats, orders a day, boxes in hands or in a run than the usual ones."""
    count = sum(any(Scenario.of(name).settings[it] != client.SETTINGS[it] for it in ("seats", "daily", "hands", "run"))
                for name in names())
    assert 3 * count >= len(names()) > 0
