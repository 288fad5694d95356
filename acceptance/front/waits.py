"""Waiting for a condition. What else sleeps here measures a time, and a comment says so.

`settings.patience` is for how many seconds anything is waited, and `settings.slower` how many times slower than this machine
pages are."""

import time
import types
from collections.abc import Callable
from typing import TypeVar

Given = TypeVar("Given")

settings = types.SimpleNamespace(patience=60, slower=1)
BETWEEN = 0.03  # seconds between two looks


def until(holds: Callable[[], Given], what: str, minutes: float = 1) -> Given:
    """Waits until `holds()` gives something true, and returns that."""
    seconds, began = minutes * settings.patience, time.monotonic()
    while not (given := holds()):
        if time.monotonic() > began + seconds:
            raise AssertionError(f"not within {seconds:.0f} s: {what}")
        time.sleep(BETWEEN)
    return given
