"""Tells the operator what has become red, once, and what is mended."""

import contextlib
import fcntl
import os
import shutil
import subprocess
import sys
import time

from levels import CRITICAL, LEVELS, OK, Line, severity
from offices import MARKS, Trouble, conf_of

AGAIN = 6 * 3600  # seconds after which what is still red is told again
MORNING = 20 * 3600  # the same for what is no more than a warning, which is told in the morning
# What is red while one of these is red follows from it, and is not told by itself.
FOLLOWS = {"page": {"program", "queue", "readers", "nginx"}, "desk": {"program", "queue"}, "command": {"program", "queue"},
           "queue": {"program"}, "certificate": {"nginx", "desk"}}


@contextlib.contextmanager
def one_at_a_time(office):
    """A context that nobody else enters, so that nothing is told twice."""
    MARKS.mkdir(mode=0o755, exist_ok=True)
    with open(MARKS / f"telling-{office.unit}", "a", encoding="ascii") as file:
        fcntl.flock(file, fcntl.LOCK_EX)
        yield


def is_due(mark, level):
    """Whether a line must be told: it never was, or not so gravely, or long ago."""
    try:
        told, at = int(mark.read_text(encoding="ascii")), mark.stat().st_mtime
    except (OSError, ValueError):
        return True
    return severity(level) > severity(told) or time.time() - at >= (AGAIN if level == CRITICAL else MORNING)


def roots(lines):
    """The red lines that do not follow from others. Who would be told is no cause: nobody would hear of it."""
    critical = {line.name for line in lines if line.level == CRITICAL}
    return [line for line in lines if line.level and line.name != "alarm" and not FOLLOWS.get(line.name, set()) & critical]


def mended(office, lines):
    """The marks of what was told and is well again."""
    levels = {line.name: line.level for line in lines}
    for mark in sorted(MARKS.glob(f"told-{office.unit}-*")):
        name = mark.name.removeprefix(f"told-{office.unit}-")
        unit = office.unit_of(name)
        if levels.get(name) == OK or name not in levels and subprocess.run(["systemctl", "-q", "is-failed", unit]).returncode:
            yield name, mark


def tell(office, lines, least=CRITICAL, last=""):
    """Tells each line that is as grave as this and was not told of late, and what is mended since. `last` ends the text."""
    with one_at_a_time(office):
        grave = [line for line in roots(lines) if line.severity() >= severity(least)]
        due = [line for line in grave if is_due(office.told(line.name), line.level)]
        whole = "\n".join(map(str, lines))
        if due:
            names = ", ".join(line.name for line in due)
            if send(office, f"{LEVELS[max(due, key=Line.severity).level]}: {names}",
                    "\n".join(map(str, due)) + f"\n\nThe whole status:\n{whole}\n{last}"):
                for line in due:
                    office.told(line.name).write_text(f"{line.level}\n", encoding="ascii")
        well = list(mended(office, lines))
        if well and send(office, f"mended: {', '.join(name for name, _ in well)}", whole):
            for _, mark in well:
                mark.unlink()


def who(office):
    """The command that tells somebody, and whom; (None, None) if nobody can be told."""
    command, to = conf_of(office, "ALARM_COMMAND"), conf_of(office, "ALARM_TO") or "root"
    if command:
        return command, "whoever the command reaches"
    return ('mail -s "$1" "$2"', to) if shutil.which("mail") else (None, None)


def send(office, subject, text):
    """Tells somebody. Returns whether there is anybody. Raises Trouble, which the status shows, if the command fails."""
    command, to = who(office)
    if command is None:
        print("nobody is told: alarm.conf has no ALARM_COMMAND, and there is no command mail", file=sys.stderr)
        return False
    subject = f"record-office{f' {office.name}' if office.name else ''}: {subject}"
    text = f"On {os.uname().nodename}, {time.strftime('%Y-%m-%d %H:%M')}\n\n{text}\n"
    done = subprocess.run(["sh", "-c", command, "sh", subject, to], input=text, text=True)
    failed = MARKS / f"untold-{office.unit}"
    if done.returncode:
        failed.write_text(f"{done.returncode}\n", encoding="ascii")
        raise Trouble(f"nobody was told ({subject}): the command of the alarm ended with {done.returncode}")
    failed.unlink(missing_ok=True)
    return True
