"""Who tries the office for the first time runs `./run demo`."""

import base64
import os
import re
import signal
import subprocess
import time
import urllib.request
from pathlib import Path

import pytest

from acceptance import client

pytestmark = pytest.mark.needs("nginx", "haproxy", "readers")


def page(address: str, name: str = "", password: str = "") -> str:
    asked = urllib.request.Request(address)
    if name:
        asked.add_header("Authorization", "Basic " + base64.b64encode(f"{name}:{password}".encode()).decode())
    with urllib.request.urlopen(asked, timeout=60) as answer:
        return answer.read().decode()


def test_a_newcomer_sees_both_sites_and_ctrl_c_takes_all_away(program: client.Program, room: Path) -> None:
    """The addresses that are printed answer, and afterwards nothing is left."""
    with subprocess.Popen([client.RUN, "demo", "--program", program.path], stdout=subprocess.PIPE, text=True,
                          env={**os.environ, "TMPDIR": str(room)}) as shown:
        assert shown.stdout
        told = "".join(shown.stdout.readline() for _ in range(3))
        found = re.search(r"Readers: (\S+)\nDesk: +(\S+), name (\S+), password (\S+)\n", told)
        assert found, told
        readers, desk, name, password = found.groups()
        assert "Hull Dock Company" in page(readers)
        assert "<title>" in page(desk, name, password)
        shown.send_signal(signal.SIGINT)
        began = time.monotonic()
        assert shown.wait(60) == 0, "Ctrl-C ends it well"
    assert time.monotonic() - began < 30 and list(room.iterdir()) == [], "and removes what it made"
