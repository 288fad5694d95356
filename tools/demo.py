"""Shows an office on this machine, with the examples in it: ./run demo

It starts the program, the queue before it, the readers' pages and the desk, on free ports of 127.0.0.1, and prints where they
are. Ctrl-C ends all of it and removes what it made. If `rt ci` has not built the program yet, it is compiled without proof."""

import argparse
import contextlib
import datetime
import shutil
import signal
import subprocess
import sys
import tempfile
import threading
import time
from collections.abc import Iterator
from pathlib import Path

from acceptance import client
from acceptance.front.office import PASSWORD, PYTHON, SETTINGS, TOP, Office, program_path
from tools.compiled import compiled

PACKAGES = {"nginx": "nginx", "haproxy": "haproxy"}
MODULES = ("babel", "jinja2", "snowballstemmer", "waitress")
ARCHIVES = TOP / "examples" / "archives.csv"
LONGEST = 1800  # seconds that a compilation may take
TOLD = 10  # seconds between two words about it


def lacking() -> list[str]:
    """The packages of Debian that are not installed."""
    found = [package for name, package in PACKAGES.items() if program_path(name) is None]
    tried = subprocess.run([PYTHON, "-c", f"import {', '.join(MODULES)}"], capture_output=True, check=False)
    return found + [f"python3-{name}" for name in MODULES if tried.returncode]


@contextlib.contextmanager
def telling(what: str) -> Iterator[None]:
    """A context that says every ten seconds how long something has taken."""
    ended, began = threading.Event(), time.monotonic()

    def tell() -> None:
        while not ended.wait(TOLD):
            print(f"{what}, {time.monotonic() - began:.0f} s so far", flush=True)

    print(what, flush=True)
    teller = threading.Thread(target=tell)
    teller.start()
    try:
        yield
    finally:
        ended.set()
        teller.join()


def show(program: client.Program, folder: Path) -> None:
    office = Office.create(program, folder / "office", SETTINGS | {"day": datetime.date.today().isoformat()})
    office.import_file("examples", ARCHIVES).expect_success()
    with office:
        office.serve_readers("--every", "5")
        office.serve_tries()
        print(f"Readers: {office.public}\nDesk:    {office.staff}, name {PASSWORD[0]}, password {PASSWORD[1]}\n"
              "Ctrl-C ends it and removes all that it made.", flush=True)
        signal.pause()


def main() -> int:
    words = argparse.ArgumentParser(description=__doc__, formatter_class=argparse.RawDescriptionHelpFormatter)
    words.add_argument("--program", type=Path, default=client.BUILT, help="the built program; else that of `rt ci`")
    given, missing = words.parse_args(), lacking()
    if missing:
        print(f"First install what is missing: apt-get install {' '.join(missing)}")
        return 1
    if not given.program.exists() and not shutil.which("rt"):
        print("There is no program yet, and no Rattle toolchain to compile it: see README.md.")
        return 1
    signal.signal(signal.SIGTERM, lambda *_: sys.exit(143))
    with tempfile.TemporaryDirectory(prefix="record-office-demo-") as room, contextlib.suppress(KeyboardInterrupt):
        folder = Path(room)
        folder.chmod(0o755)
        if given.program.exists():
            program = client.Program(given.program)
        else:
            with telling("compiles the program without proof, which takes some four minutes and 4.5 GB"):
                program = compiled(TOP, folder, LONGEST)
        show(program, folder)
    return 0


if __name__ == "__main__":
    sys.exit(main())
