"""What the tools share: the offices of a machine, their users, units and ports, and the check of a file."""

import argparse
import fcntl
import os
import pathlib
import pwd
import shlex
import subprocess
import sys

SETTINGS = pathlib.Path("/etc/record-office")
SITES = pathlib.Path("/etc/nginx/sites-available")
FIRST_PORT = 8080  # of the first office's pages for readers
PROGRAM, TO_DESK, TO_GATE = 10, 12, 13  # the ports of the program and of its queue, counted from that
MARKS = pathlib.Path("/run/record-office")  # notes that are gone when the machine starts again


class Trouble(Exception):
    """Why a tool ends, in words for its user."""


class Office:
    """An office of this machine: its folder, its file and the user that it belongs to. Without a name it is the first one."""

    def __init__(self, name=None):
        named = f"record-office-{name}" if name else "record-office"
        self.name = name
        self.settings = SETTINGS / name if name else SETTINGS
        self.folder = pathlib.Path("/var/lib", named)
        self.store = self.folder / "office.db"
        self.copies = pathlib.Path("/var/backups", named)
        self.lists = pathlib.Path("/var/cache", named, "lists")
        self.index = pathlib.Path(f"/var/cache/record-office-readers{f'-{name}' if name else ''}/index.db")  # of the search
        self.register = self.folder / "register.db"
        self.log = pathlib.Path(f"/var/log/nginx/record-office-desk{f'-{name}' if name else ''}.log")
        self.my = pathlib.Path(f"/var/lib/record-office-my{f'-{name}' if name else ''}")  # key and table of My orders
        self.cards = pathlib.Path(f"/run/record-office-my{f'-{name}' if name else ''}/cards.sock")
        self.files = pathlib.Path(f"/var/lib/record-office-try{f'-{name}' if name else ''}")  # the last file of each source
        self.day = pathlib.Path(f"/run/record-office-desk{f'-{name}' if name else ''}/proxy/open-day.json")
        self.parts = self.day.parents[1] / "staff.conf"  # who of the staff has which part, for nginx
        self.unit = f"record-office@{name}.service" if name else "record-office.service"
        self.resume = MARKS / f"resume-{self.unit}"  # while it is there, a tool has stopped the program and owes its start
        if not self.folder.is_dir():
            raise Trouble(f"there is no folder {self.folder}")
        self.owner = pwd.getpwuid(self.folder.stat().st_uid)
        self.port = port_of(name) if name else FIRST_PORT

    def as_owner(self, *words, said=None):
        """Runs a command that reads `said` as the user of the office, in its folder, and returns what it printed."""
        words = [str(word) for word in words]
        command = ["runuser", "-u", self.owner.pw_name, "--", *words]
        done = subprocess.run(command, cwd=self.folder, input=said, text=True, capture_output=True)
        told = (done.stdout + done.stderr).strip()
        if done.returncode:
            raise Trouble(f"{' '.join(words)}: {told or done.returncode}")
        return told

    def make_folder(self, path):
        """Makes a folder that only the user of the office can read."""
        subprocess.run(["install", "-d", "-o", self.owner.pw_name, "-g", str(self.owner.pw_gid), "-m", "700", path],
                       check=True)

    def unit_of(self, part):
        """The unit of another part of the office, such as `queue`."""
        return unit_named(self.unit, part)

    def told(self, name):
        """The mark that it was told that a line of the status is red."""
        return MARKS / f"told-{self.unit}-{name}"

    def make_lists_folder(self):
        """Makes the folder whose files the desk's site shows."""
        subprocess.run(["install", "-d", "-m", "755", self.lists.parent], check=True)
        subprocess.run(["install", "-d", "-o", self.owner.pw_name, "-g", "www-data", "-m", "2750", self.lists], check=True)

    def check(self, path):
        """Checks that a file is a sound office. Leaves no log beside it."""
        try:
            self.as_owner("record_office", "check", "--store", path)
        finally:
            log_of(path).unlink(missing_ok=True)

    def lock(self):
        """Makes sure that no other of these tools works on this office until this one ends."""
        self.locked = os.open(self.folder, os.O_RDONLY)
        try:
            fcntl.flock(self.locked, fcntl.LOCK_EX | fcntl.LOCK_NB)
        except BlockingIOError:
            raise Trouble(f"another tool is at work on {self.folder}") from None

    def state(self):
        """The state of the unit, such as `active` or `inactive`."""
        return self.shown("ActiveState")

    def process(self):
        """The number of the process that serves; 0 if there is none."""
        return int(self.shown("MainPID") or 0)

    def shown(self, what):
        """What systemd shows of the unit."""
        words = ["systemctl", "show", "-p", what, "--value", self.unit]
        return subprocess.run(words, text=True, capture_output=True).stdout.strip()

    def tell_systemd(self, verb):
        """Does something with the unit. Raises Trouble if that fails."""
        if subprocess.run(["systemctl", verb, self.unit]).returncode:
            raise Trouble(f"systemctl {verb} {self.unit} failed")


def unit_named(unit, part):
    """The unit of another part of the office that a unit belongs to."""
    return unit.replace("record-office", f"record-office-{part}", 1)


def added():
    """The names of the offices that were added to the first one."""
    return sorted(path.parent.name for path in SETTINGS.glob("*/port"))


def name_of(unit):
    """The name of the office that a unit belongs to; None for the first one."""
    return unit.partition("@")[2].removesuffix(".service") or None


def port_of(name):
    """The port of an added office's pages for readers."""
    try:
        return int((SETTINGS / name / "port").read_text(encoding="ascii"))
    except FileNotFoundError:
        raise Trouble(f"there is no office {name}: {SETTINGS / name / 'port'} is not there") from None


def conf_of(office, name, file="alarm.conf"):
    """A setting of the operator's, from a file of NAME=VALUE as systemd reads them; None if it is not set."""
    path = office.settings / file
    for line in path.read_text(encoding="utf-8").splitlines() if path.exists() else ():
        try:
            words = shlex.split(line, comments=True)
        except ValueError as wrong:
            raise Trouble(f"{path}: {wrong}: {line}") from None
        if words and words[0].startswith(f"{name}="):
            return words[0].partition("=")[2] or None
    return None


def log_of(store):
    """The newest changes of an office are in this file beside it."""
    return store.with_name(store.name + "-wal")


def arguments(text):
    """The parser of a tool's words. `text` is the tool's own description."""
    return argparse.ArgumentParser(description=text, formatter_class=argparse.RawDescriptionHelpFormatter)


def of_an_office(text):
    """The parser of a tool that works on one office of this machine."""
    words = arguments(text)
    words.add_argument("--office", metavar="NAME", help="an office that record-office-add added (default: the first one)")
    return words


def run(main, root=True):
    """Runs the tool, which may return its exit status. What went wrong is printed on standard error, and the status is 1."""
    if root and os.geteuid() != 0:
        sys.exit("run this as root")
    status = 0
    try:
        status = main()
        sys.stdout.flush()
    except BrokenPipeError:  # whoever reads has seen enough
        os.dup2(os.open(os.devnull, os.O_WRONLY), sys.stdout.fileno())
    except (Trouble, OSError, subprocess.CalledProcessError) as wrong:
        sys.exit(f"{pathlib.Path(sys.argv[0]).name}: {wrong}")
    sys.exit(status)
