"""Plants faults in the front, one at a time in a copy of front/, and sees whether the test that each names fails:

    ./run mutation.front [--program PROGRAM] [--only PART_OF_NAME] [--jobs N] [--dry]

The faults stand in mutation/front/*.faults, as records.py reads them. What notices a fault (`noticed by`) is a test as pytest
takes it: `acceptance/front/test_x.py::test_y`, or `acceptance/front/test_x.py -k words`. Each is first played without a
fault, and must pass. --dry only sees whether each fault can be planted, and its test is there.
It ends with 1 if a test did not pass, a fault cannot be planted, or one was not noticed."""

import shutil
import sys
import tempfile
import time
from pathlib import Path

from acceptance import client
from mutation import records, trials
from mutation.records import TOP, Record

LONGEST = 600  # seconds that a test may take
PORTS = 22000  # the first of a thousand ports for each job


def read_faults() -> list[Record]:
    """The faults of all files, in their order."""
    return [record for path in sorted((TOP / "mutation/front").glob("*.faults")) for record in records.of_file(path, "front")]


def why_not(fault: Record) -> str:
    """Why a fault cannot be tried, or nothing: its old text stands once in its file, and its test is there."""
    return fault.why_not(TOP / "front") or ("" if trials.is_test(fault.noticed_by) else f"no test {fault.noticed_by}")


def copy_of_front(front: Path, fault: Record | None) -> None:
    """Copies front/ to this place, with the units of systemd in a folder of it and the fault in it."""
    shutil.copytree(TOP / "front", front, ignore=shutil.ignore_patterns("__pycache__"))
    (front / "units").mkdir()
    for path in [*(TOP / "packaging").glob("*.service"), *(TOP / "packaging").glob("*.timer")]:
        shutil.copy(path, front / "units")
    for change in fault.changes if fault else ():
        path = front / change.file
        path.write_bytes(change.made_in(path.read_bytes().decode()).encode())


def play(program: client.Program, test: str, fault: Record | None, ports: int) -> str:
    """Plays a test over a copy of the front. What failed; nothing if it passed."""
    with tempfile.TemporaryDirectory(dir=client.usual_room()) as room:
        copy_of_front(Path(room, "front"), fault)
        modules = f"pythonpath=. {room}/front/readers {room}/front/look {room}/front/my"
        return trials.run_test(test, program.path, LONGEST, "-o", modules, FRONT_FILES=f"{room}/front", FRONT_PORTS=str(ports))


def try_all(program: client.Program, faults: list[Record], many: int) -> int:
    """Plays each test without a fault, and then with each of its own; how many went wrong."""
    wrong, jobs = 0, trials.Jobs(many, PORTS)
    tests = sorted({fault.noticed_by for fault in faults})
    sound = set()
    for test, came in jobs.outcomes(lambda test, ports: play(program, test, None, ports), tests):
        if came:
            wrong += 1
            print(f"DOES NOT PASS WITHOUT A FAULT: {test}: {came}", flush=True)
        else:
            sound.add(test)
    planted = [fault for fault in faults if fault.noticed_by in sound]
    for fault, came in jobs.outcomes(lambda fault, ports: play(program, fault.noticed_by, fault, ports), planted):
        if isinstance(came, Exception) or not came:
            wrong += 1
            print(f"{fault.name}: NOT NOTICED by {fault.noticed_by} {came}", flush=True)
        else:
            print(f"{fault.name}: noticed: {came}", flush=True)
    return wrong


def main() -> int:
    """Tries the faults that the command line names; returns the exit status."""
    words = client.program_options(__doc__)
    words.add_argument("--only", default="", metavar="PART_OF_NAME", help="faults whose name has this in it")
    words.add_argument("--jobs", type=int, default=2, metavar="N", help="how many tests at a time; else 2")
    words.add_argument("--dry", action="store_true", help="only see whether each fault can be planted, and its test is there")
    given, began = words.parse_args(), time.monotonic()
    faults = [fault for fault in read_faults() if given.only in fault.name]
    wrong = trials.cannot_be_tried(faults, why_not, lambda fault: fault.name)
    if not given.dry and not wrong:
        wrong = try_all(given.program, faults, given.jobs)
        print(f"{(time.monotonic() - began) / 60:.0f} minutes")
    print(f"{len(faults)} faults, {wrong} wrong")
    return 1 if wrong or not faults else 0


if __name__ == "__main__":
    sys.exit(main())
