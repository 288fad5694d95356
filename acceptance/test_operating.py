"""The lines of README and of docs/OPERATING.md that need neither the package nor root print what the documents show."""

import os
import re
import socket
from pathlib import Path

import pytest

from acceptance import client, operating

pytestmark = pytest.mark.needs("curl", "sqlite3")
PORTS = range(8080, 8100)


def free_port() -> int:
    """The number of a port that nobody uses now."""
    with socket.socket() as it:
        it.bind((client.HOST, 0))
        return int(it.getsockname()[1])


@pytest.mark.parametrize("document", [operating.README, operating.DOCUMENT], ids=lambda it: it.stem)
def test_document(document: Path, program: client.Program, room: Path) -> None:
    (room / "bin").mkdir()
    (room / "bin" / "record_office").symlink_to(program.path)
    (room / "office").mkdir()
    if document == operating.README:
        (room / "office" / "examples").symlink_to(client.TOP / "examples")
    environment = {**os.environ, "PATH": f"{room}/bin:{os.environ['PATH']}", "LC_ALL": "C.UTF-8"}
    shell = operating.Shell(["bash", "--norc", "--noprofile"], room / "office", environment)
    ports = {str(port): str(free_port()) for port in PORTS}
    blocks = operating.blocks(document.read_text(encoding="utf-8"), have_blank_lines=document == operating.README)

    def ours(text: str) -> str:
        return re.sub(r"\b80[89]\d\b", lambda it: ports[it[0]], text)

    lines = list(operating.run(blocks, "here", shell, ours))
    wrong = [f"{line}\n{told}" for line, told in lines if told]
    assert lines and not wrong, "\n\n".join(wrong)
