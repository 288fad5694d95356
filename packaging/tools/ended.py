"""Says in words how the program of an office ended, and ends its unit once the program has failed to start three times:
ended.py UNIT

The unit runs it after each end (ExecStopPost). It ends with 1, and the unit is then failed, only after the third start in a
row that has failed and that `check` explains, or that failed for another reason than the store. While another process has the
store open, as an import at a shell, more starts may fail.
"""

import contextlib
import os
import pathlib
import re
import subprocess
import sys

from offices import MARKS, Office, name_of

STARTS = 3
STARTS_BESIDE_OTHERS = 30  # that may fail while another process has the store open: some 40 s
NOT_EXECUTED = "203"  # systemd's status of a program that it could not execute
LEAST_ROOM = 2**20  # bytes
BEGUN = "listening "  # the first word that a program prints when it is ready
MEANINGS = {"0": "it has served all connections that its unit allows", "2": "its command line is not valid",
            "3": "it could not go on"}
MANUAL = "/usr/share/doc/record-office/OPERATING.md.gz"
HELP = {
    "not sound": "go back to a copy: Going back",
    "old version": "migrate the office: Upgrading and removing",
    "net fault": "another program has its port: Messages of the program",
    "no memory": "it needs more memory: Messages of the program",
}


def told_by_program():
    """What the program printed in this run of its unit."""
    subprocess.run(["journalctl", "--sync"], check=False)
    run = f"_SYSTEMD_INVOCATION_ID={os.environ.get('INVOCATION_ID', '')}"
    words = ["journalctl", "--no-pager", "-q", "-o", "cat", "_COMM=record_office", run]
    return subprocess.run(words, text=True, capture_output=True, check=False).stdout.splitlines()


def verdict(office):
    """What `check` prints of the store, in one line."""
    words = ["runuser", "-u", office.owner.pw_name, "--", "record_office", "check", "--store", office.store]
    done = subprocess.run(words, text=True, capture_output=True, check=False)
    return (done.stdout + done.stderr).strip() or f"status {done.returncode}"


def is_damaged(store):
    """Whether pages of the store are not what SQLite has written."""
    words = ["sqlite3", f"{store.as_uri()}?immutable=1", "PRAGMA integrity_check(1)"]
    done = subprocess.run(words, text=True, capture_output=True, check=False)
    return done.stdout.strip() != "ok"


def cause_of(office, status, found):
    """What the machine itself shows, and what to do; None if nothing."""
    system = os.statvfs(office.folder)
    if status == NOT_EXECUTED:
        return "the program cannot be executed: apt-get install --reinstall record-office"
    if system.f_flag & os.ST_RDONLY:
        return f"{office.folder} is read-only: `dmesg` says why"
    if system.f_bavail * system.f_frsize < LEAST_ROOM:
        return f"the disk is full: make room at {office.folder}"
    if found == "store fault" and is_damaged(office.store):
        return f"a page of {office.store} is damaged: record-office-restore lists the copies to go back to"
    return None


def failures(mark):
    """Counts one more start that has failed."""
    count = 1
    with contextlib.suppress(OSError, ValueError):
        count += int(mark.read_text(encoding="ascii"))
    mark.parent.mkdir(mode=0o755, exist_ok=True)
    mark.write_text(f"{count}\n", encoding="ascii")
    return count


def holders(store):
    """The processes that have locked the store or a file beside it."""
    files = {path.stat().st_ino for path in store.parent.glob(f"{store.name}*")}
    locks = [line.replace("-> ", "").split() for line in pathlib.Path("/proc/locks").read_text(encoding="ascii").splitlines()]
    return sorted({lock[4] for lock in locks if int(lock[5].rpartition(":")[2]) in files})


def is_asked_for(code, status):
    """Whether the unit, or somebody, stopped the program."""
    return code == "killed" and status in ("TERM", "INT", "HUP")


def give_up(office, unit, status, said, others):
    """Says what is wrong, and stops the unit, unless the store is sound again. The exit status."""
    found = verdict(office)
    if found == "sound" and "store fault" in said:
        print(f"<4>{office.store} is sound now: {unit} is tried again", flush=True)
        return 0
    what = found if found != "sound" else said
    kind = next((kind for kind in HELP if kind in what), None)
    advice = f"{what}. In {MANUAL}: {HELP.get(kind, 'go through the table of reasons: store fault')}"
    if others:
        advice += f". Process {', '.join(others)} has it open"
    advice = cause_of(office, status, found) or advice
    print(f"<2>{unit} has failed to start {STARTS} times or more, and stays stopped. Of {office.store} `check` says: {found}. "
          f"The program said: {said}. {advice}", flush=True)
    # What the status says of the unit.
    (MARKS / f"ended-{unit}").write_text(f"{advice}\n", encoding="utf-8")
    # Without the queue readers are told at once, and not after two minutes. It is started again with the program.
    (MARKS / f"queue-of-{unit}").touch()
    subprocess.run(["systemctl", "stop", "--no-block", unit, office.unit_of("queue")], check=False)
    return 1


def main(unit):
    """Says how it ended, and counts. The exit status."""
    code, status = os.environ.get("EXIT_CODE", ""), os.environ.get("EXIT_STATUS", "")
    mark = MARKS / f"failed-starts-{unit}"
    told = told_by_program()
    said = told[-1] if told else "nothing"
    if not is_asked_for(code, status):
        meaning = MEANINGS.get(status, "") if code == "exited" else ""
        print(f"<4>the program ended: {code} {status}{': ' if meaning else ''}{meaning}; its last message: {said}", flush=True)
    if is_asked_for(code, status) or any(line.startswith(BEGUN) for line in told) or status == "2":
        mark.unlink(missing_ok=True)
        (MARKS / f"ended-{unit}").unlink(missing_ok=True)
        return 0
    office, failed = Office(name_of(unit)), failures(mark)
    others = holders(office.store)
    if failed < (STARTS_BESIDE_OTHERS if others else STARTS):
        return 0
    mark.unlink()
    return give_up(office, unit, status, re.sub(r"\s+", " ", said), others)


if __name__ == "__main__":
    sys.exit(main(*sys.argv[1:]))
