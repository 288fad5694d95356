"""The program, compiled without proof by `rt try`."""

import contextlib
import os
import shutil
import subprocess
import time
from pathlib import Path

from acceptance import client

PREVIEW = ("rt", "try", "--", "preview", "--country", "GB", "--repo", "0999")


def compiled(top: Path, folder: Path, seconds: float) -> client.Program:
    """The program of the crates below `top`, copied into a folder. `rt try` removes its own once it has ended, so that is
    copied while it waits for its file, which is a pipe. Raises RuntimeError if there is none in time."""
    pipe, own, said = folder / "pipe", folder / "own", folder / "said"
    os.mkfifo(pipe)
    own.mkdir()
    with said.open("wb") as out:
        trying = subprocess.Popen([*PREVIEW, str(pipe)], cwd=top / "crates" / "record_office",
                                  env=os.environ | {"TMPDIR": str(own)}, stdin=subprocess.DEVNULL, stdout=out, stderr=out)
    try:
        until = time.monotonic() + seconds
        while trying.poll() is None and time.monotonic() < until:
            with contextlib.suppress(OSError):  # nobody reads from it yet
                writer = os.open(pipe, os.O_WRONLY | os.O_NONBLOCK)
                [found] = [path for path in own.rglob("program") if path.is_file()]
                shutil.copy(found, folder / "record_office")
                os.close(writer)
                trying.wait(client.PATIENCE)
                return client.Program(folder / "record_office")
            time.sleep(.5)
    finally:
        trying.terminate()
        trying.wait()
    raise RuntimeError(f"rt try made no program: {said.read_text()[-500:]}")
