"""Disks that stop the program or fail, and memory that is refused to it, by libraries that are loaded before the C library:
stop.c, and shim.c of mutation/faults. They are tried on copies of offices."""

import os
import shutil
import subprocess
import tempfile
from pathlib import Path
from typing import Any

import pytest

from acceptance import client
from acceptance.client import Ended, Office, get, post

STOP = Path(__file__).with_name("stop.c")
REFUSE = client.TOP / "mutation" / "faults" / "shim.c"
KEPT = ["all", "none", "odd", "even", "torn", "junk"]  # what remains of unsynced data
UNITS, LONGEST = 40, 120
FAULT = Ended(3, b"", b"store fault\n")
ANN, BEN = (post("/desk/register", f'{{"name":"{name}","until":"2024-12-31"}}') for name in ("Ann", "Ben"))
READER = get("/desk/readers/1")


def compiled(source: Path) -> Any:
    """A fixture of tests: the path of one of these libraries, compiled."""
    def shim(module_room: Path) -> str:
        library = module_room / f"{source.stem}.so"
        subprocess.run(["cc", "-shared", "-fPIC", "-O2", "-o", library, source, "-ldl"], check=True)
        return str(library)

    return pytest.fixture(scope="module", name="shim")(shim)


def copy_office(office: Office, room: Path) -> Office:
    """A copy of an office, with the log beside it, in a folder of its own."""
    copy = Office(office.program, Path(tempfile.mkdtemp(dir=room)) / "office.db")
    for end in ("", "-wal"):
        if os.path.exists(f"{office.store}{end}"):
            shutil.copyfile(f"{office.store}{end}", f"{copy.store}{end}")
    return copy


def look(office: Office) -> tuple[Any, ...]:
    """What `check` says of an office, and all its tables as sqlite3 then reads them."""
    ended = office.check(timeout=LONGEST)
    if ended.status == 3:
        return ended.status, ended.message, None
    tables = subprocess.run(["sqlite3", office.store, ".dump"], check=True, capture_output=True)
    return ended.status, ended.output, tables.stdout


def file_of_units() -> str:
    """A fonds and its children, each in a box of its own."""
    header = "legacyId,parentId,identifier,title,levelOfDescription,publicationStatus,scopeAndContent"
    rows = ["1,,HUL,Hull Dock Company,Fonds,Published,Papers of the locks and basins,"]
    text = "Plans and letters. " * 9
    rows += [f"{n},1,{n},Unit {n},Series,Published,{text},Box {n}" for n in range(2, UNITS + 1)]
    return "\n".join([f"{header},physicalObjectName", *rows]) + "\n"
