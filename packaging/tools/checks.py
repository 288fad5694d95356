"""What record-office-status looks at: for each line a function that returns its level and its text."""

import concurrent.futures
import contextlib
import json
import os
import pathlib
import re
import shutil
import ssl
import stat
import subprocess
import time

from alarms import who
from copies import copies_in, damaged, replaced_in, sum_of
from fronts import Site, Configuration, served, sites_of, status_of
from levels import CRITICAL, OK, UNKNOWN, WARNING, Line, severity
from merges import merges
from offices import MARKS, TO_DESK, Trouble, conf_of
from sets import last_drill
from staff import NOBODY, PARTS, for_nginx, lines_of, parts_of, read

LIMIT = 60  # seconds for an answer, if alarm.conf has no other: an import may hold everybody up for ten
ROUND = 30  # minutes that the last round of the search may be old
COPY = {WARNING: 26, CRITICAL: 50}  # hours that the newest good copy may be old
DRILL = 35  # days that the last drill may be old
CERTIFICATE = {WARNING: 14, CRITICAL: 3}  # days that a certificate must still be good for
MOST_COPIES = 23  # that the backup keeps
SPARE = 100 * 2**20  # bytes for logs and the index
FULL = 2**20  # bytes that are no room any more
SPARE_FILES = 1000  # that can still be made
RESTARTS = 2  # of a unit between two looks that are no accident any more
DAY = 24 * 3600
NO_PROGRAM = "203"  # systemd's exit status of a program that cannot be executed
# A file that has no rows: its import writes to the store and changes nothing.
NOTHING = ("/desk/import/probe", "legacyId\n")


def worst(found):
    """The gravest of these pairs of a level and a text."""
    return max(found, key=lambda pair: severity(pair[0]))


def is_held(office):
    """Whether a tool has stopped the program for a moment, and will start it."""
    return office.resume.exists()


def shown(unit, *names):
    """What systemd shows of a unit, by name."""
    words = ["systemctl", "show", *(f"-p{name}" for name in names), unit]
    text = subprocess.run(words, text=True, capture_output=True).stdout
    return dict(line.split("=", 1) for line in text.splitlines() if "=" in line)


def restarts(unit, many):
    """How often a unit was started again since the last look."""
    mark = MARKS / f"restarts-{unit}"
    before = many
    with contextlib.suppress(OSError, ValueError):
        before = int(mark.read_text(encoding="ascii"))
    with contextlib.suppress(OSError):
        MARKS.mkdir(mode=0o755, exist_ok=True)
        mark.write_text(f"{many}\n", encoding="ascii")
    return many - before


def unit_is_up(unit):
    """The level of a unit that should run, its state, and what to do."""
    found = shown(unit, "ActiveState", "SubState", "Result", "ExecMainStatus", "NRestarts", "ConditionResult", "MainPID")
    state = f"{found.get('ActiveState')} {found.get('SubState')}"
    again = restarts(unit, int(found.get("NRestarts") or 0))
    if again >= RESTARTS:
        return CRITICAL, f"{unit} has ended {again} times since the last look: journalctl -u {unit}"
    if state == "active running":
        process = found["MainPID"]
        words = re.search(r"^State:\s*(\w)", pathlib.Path(f"/proc/{process}/status").read_text(), re.M)
        if words and words[1] in "TtZ":
            return CRITICAL, f"process {process} is stopped: kill -CONT {process}"
        return OK, f"{unit} is {state}"
    if found.get("ExecMainStatus") == NO_PROGRAM:
        return CRITICAL, f"{unit} cannot execute its program: apt-get install --reinstall record-office"
    if found.get("ActiveState") == "failed":
        return CRITICAL, f"{unit} has failed ({found.get('Result')}): journalctl -u {unit}, then systemctl restart {unit}"
    if found.get("ConditionResult") == "no":
        return CRITICAL, f"{unit} lacks a file or a package that it needs: systemctl status {unit}"
    return CRITICAL, f"{unit} is {state}: systemctl start {unit}"


def program(office):
    """Whether the program runs."""
    if is_held(office):
        return OK, f"a tool has stopped {office.unit} for a moment"
    level, text = unit_is_up(office.unit)
    why = MARKS / f"ended-{office.unit}"
    if level != OK and why.exists():
        text = f"{why.read_text(encoding='utf-8').strip()}; then systemctl start {office.unit}"
    return level, text


def files_of(process):
    """What is known of each file that a process has open."""
    for path in pathlib.Path(f"/proc/{process}/fd").iterdir():
        with contextlib.suppress(FileNotFoundError):  # it is closed by now
            if stat.S_ISREG((found := path.stat()).st_mode):
                yield found


def store(office):
    """Whether the file at the office's path is the one that the program has open: it goes on with the file that it opened,
    also if somebody moves or replaces that."""
    process = office.process()
    files = list(files_of(process)) if process else []
    if files and not (office.store.exists() and any(os.path.samestat(it, office.store.stat()) for it in files)):
        return CRITICAL, f"process {process} answers from another file than {office.store}: ls -l /proc/{process}/fd"
    return OK, f"{office.store} is what the program has open" if files else "no program has it open"


def queue(office):
    """Whether the queue runs, and would start again with its configuration."""
    path = office.settings / "haproxy.cfg"
    level, text = unit_is_up(office.unit_of("queue"))
    tried = subprocess.run(["haproxy", "-c", "-q", "-f", path], text=True, capture_output=True)
    if level == OK and tried.returncode:
        return CRITICAL, f"with {path} it would not start again: {tried.stderr.strip().partition(chr(10))[0]}"
    return level, text


def readers(office):
    """The service of the readers' pages, the office's own words, and the last round of the index."""
    unit = office.unit_of("readers")
    level, text = unit_is_up(unit)
    if level != OK:
        return level, text
    own = office.settings / "office.json"
    try:
        json.loads(own.read_bytes() if own.exists() else "{}")
    except ValueError as wrong:
        return CRITICAL, f"pages lack the office's name, since {own} cannot be read: {wrong}"
    index = pathlib.Path("/var/cache/private", unit.removesuffix(".service").replace("@", "-"))
    changed = [path.stat().st_mtime for path in index.glob("index.db*")]
    minutes = (time.time() - max(changed)) / 60 if changed else None
    if minutes is None:
        return CRITICAL, f"{text}, and nothing is found, since {index} has no index: journalctl -u {unit}"
    text += f", the last round was {minutes:.0f} minutes ago"
    return (WARNING, f"{text}: systemctl restart {unit}") if minutes > ROUND else (OK, text)


def tries(office):
    """The service that looks at files for the desk."""
    return unit_is_up_or_off(office.unit_of("try"))


def my_orders(office):
    """The service of My orders."""
    return unit_is_up_or_off(office.unit_of("my"))


def unit_is_up_or_off(unit):
    """The level of a unit that may be switched off, its state, and what to do."""
    if subprocess.run(["systemctl", "is-enabled", unit], capture_output=True, text=True).stdout.strip() == "disabled":
        return OK, f"{unit} is switched off"
    return unit_is_up(unit)


def limit_of(office):
    """The seconds that an answer may take."""
    return float(conf_of(office, "LIMIT") or LIMIT)


def answers(office, site, path, expected, *request):
    """The level of an address that should be answered with one of these statuses, and what came."""
    began = time.monotonic()
    try:
        status = status_of(site, path, limit_of(office), *request)
    except OSError as lost:
        return CRITICAL, f"{site}{path}: {lost}: journalctl -u nginx -u {office.unit_of('desk')}"
    return OK if status in expected else CRITICAL, f"{site}{path}: {status} after {time.monotonic() - began:.1f} s"


def behind(office):
    """The queue's address for the desk, behind the password."""
    return Site("127.0.0.1", office.port + TO_DESK, "127.0.0.1", False)


def front(office, part, path, expected):
    """The same of an address of a part of the front, wherever nginx has it first."""
    for site in sites_of(office, part):
        return answers(office, site, path, expected)
    return CRITICAL, f"no server of nginx has the {part} pages: is the site linked in /etc/nginx/sites-enabled?"


def page(office):
    """Whether the readers' page is answered."""
    return front(office, "readers", "/", {200})


def desk(office):
    """The desk's nginx runs, its site asks for a password, and the queue passes on a question of the desk."""
    level, text = unit_is_up(office.unit_of("desk"))
    if level != OK:
        return level, text
    return worst([front(office, "desk", "/desk/issued", {401, 403}), answers(office, behind(office), "/desk/issued", {200})])


def command(office):
    """Whether the program carries out a command that writes: the import of a file without rows."""
    path, body = NOTHING
    level, text = answers(office, behind(office), path, {200}, "POST", body)
    if level != OK and ": 503 " in text:
        text += ": nothing can be written: df, dmesg; then systemctl restart " + office.unit
    return level, text


def nginx(office):
    """Whether the readers' nginx runs, and would start again with its configuration, as the desk's would."""
    level, text = unit_is_up("nginx.service")
    if level != OK:
        return level, text
    desks = office.settings / "desk-nginx.conf"
    for path in ("/etc/nginx/nginx.conf", desks):
        if path == desks and shown(office.unit_of("desk"), "ActiveState").get("ActiveState") != "active":
            continue  # the folder that it needs is there while it runs
        try:
            Configuration(path)
        except Trouble as wrong:
            return CRITICAL, f"with {path} it would not start again: {wrong}"
    return OK, f"{text}; it and the desk's would start again with their configuration"


def staff(office):
    """Whether the file of the staff's passwords can be read, every line of it is one, and the desk knows the parts in it."""
    path = office.settings / "staff"
    try:
        text = path.read_text(encoding="utf-8")
        reads = subprocess.run(["runuser", "-u", "www-data", "--", "test", "-r", path], capture_output=True).returncode == 0
    except (OSError, UnicodeDecodeError) as wrong:
        return CRITICAL, f"nobody can sign in: {wrong}"
    if not reads:
        return CRITICAL, f"nobody can sign in, since nginx cannot read {path}: chgrp www-data {path}; chmod 640 {path}"
    for line in lines_of(text):
        if not line.is_sound:
            return CRITICAL, f"line {line.number} of {path} is no name with the hash of a password (openssl passwd -6)"
        if line.part == NOBODY:
            return CRITICAL, f"line {line.number} of {path} has a part that is none of {', '.join(PARTS)}: record-office-staff"
    parts = parts_of(text)
    if not parts:
        return CRITICAL, f"nobody can sign in: {path} has no line"
    if read(office.parts) != for_nginx(text):
        return CRITICAL, f"the desk has other parts than {path}: systemctl reload {office.unit_of('desk')}"
    if path.stat().st_mode & 0o007:
        return WARNING, f"everybody on the machine can read {path}: chmod 640 {path}"
    many = [f"{list(parts.values()).count(part)} {part}" for part in PARTS if part in parts.values()]
    return OK, f"{len(parts)} can sign in" + (f" ({', '.join(many)})" if set(parts.values()) != {PARTS[-1]} else "")


def copy(office):
    """The backup's unit and timer, and the age of the newest copy that has the sum of a sound one."""
    backup = office.unit_of("backup")
    timer = backup.replace(".service", ".timer")
    if subprocess.run(["systemctl", "--quiet", "is-failed", backup]).returncode == 0:
        return CRITICAL, f"{backup} has failed: journalctl -u {backup}, then systemctl start {backup}"
    if shown(timer, "ActiveState").get("ActiveState") == "inactive":
        return CRITICAL, f"nothing is copied at night: systemctl enable --now {timer}"
    good = [path for path in copies_in(office.copies).values() if sum_of(path).exists()]
    if not good:
        hours = (time.time() - born(office.store)) / 3600
        return (OK, "the first one is made tonight") if hours < COPY[WARNING] else (
            CRITICAL, f"there is no copy in {office.copies}: systemctl start {backup}")
    newest = max(good, key=lambda path: path.stat().st_mtime)
    hours = (time.time() - newest.stat().st_mtime) / 3600
    text = f"{newest} is {hours:.0f} hours old"
    if hours < -1:
        return CRITICAL, f"the clock is behind {newest}: timedatectl"
    level = next((level for level in (CRITICAL, WARNING) if hours > COPY[level]), OK)
    elsewhere = conf_of(office, "COPY_FOLDER", "backup.conf") or conf_of(office, "COPY_COMMAND", "backup.conf")
    return level, text if elsewhere else f"{text}; there are copies on this machine alone"


def born(path):
    """When a file was made; 0 if the file system does not know."""
    told = subprocess.run(["stat", "-c", "%W", path], text=True, capture_output=True).stdout.strip()
    return int(told) if told.isdigit() else 0


def copies(office):
    """Compares the sum of one copy in each look, until each was compared today. Says which are damaged."""
    mark = MARKS / f"sums-{office.unit}.json"
    found = {str(path): path for path in copies_in(office.copies).values() if sum_of(path).exists()}
    seen = {}
    with contextlib.suppress(OSError, ValueError):
        seen = {path: told for path, told in json.loads(mark.read_text(encoding="utf-8")).items() if path in found}
    due = {name: path for name, path in found.items()
           if seen.get(name, (0,))[0] < max(time.time() - DAY, path.stat().st_mtime, sum_of(path).stat().st_mtime)}
    if due:
        name = min(due, key=lambda name: seen.get(name, (0,))[0])
        seen[name] = (time.time(), damaged(due[name]) is None)
        with contextlib.suppress(OSError):
            mark.write_text(json.dumps(seen), encoding="utf-8")
    wrong = [name for name, (_, is_right) in seen.items() if not is_right]
    if wrong:
        return CRITICAL, f"not what was written: {', '.join(wrong)}. Look at the disk (smartctl, dmesg), and remove it"
    return OK, f"{len(seen)} of {len(found)} were compared with their sums since yesterday"


def drill(office):
    """When a recovery set was last restored on trial, and whether that went well."""
    day, wrong = last_drill(office)
    if wrong:
        return CRITICAL, f"on {day} the copy could not be restored: {wrong}"
    if day is None:
        old = len(copies_in(office.copies)) > 1
        return WARNING if old else OK, f"none yet: {'record-office-restore --drill' if old else 'the next backup makes one'}"
    days = (time.time() - time.mktime(time.strptime(day, "%Y-%m-%d"))) / DAY
    return (WARNING if days > DRILL else OK), f"the copy was restored on trial on {day}"


def disk(office):
    """Whether the file systems can be written to, and have room for what a backup, a restore and the log may need at once, and
    for the copies and replaced offices that are still to come."""
    size = office.store.stat().st_size if office.store.exists() else 0
    at_once = 3 * size + SPARE
    to_come = at_once + max(MOST_COPIES - len(copies_in(office.copies)), 0) * size
    folders = [path for path in (office.folder, office.copies, pathlib.Path("/var/log")) if path.exists()]
    for folder in folders:
        system = os.statvfs(folder)
        if system.f_flag & os.ST_RDONLY:
            return CRITICAL, f"{folder} is read-only: `dmesg` says why; then mount -o remount,rw {mount_of(folder)}"
        if system.f_files and system.f_favail < SPARE_FILES:
            return CRITICAL, f"no file can be made at {folder}: df -i {folder}"
    free = {folder: shutil.disk_usage(folder).free for folder in folders}
    least = min(free, key=free.get)
    if free[least] < FULL:
        return CRITICAL, f"the disk is full: make room at {least}"
    level = CRITICAL if free[least] < at_once else WARNING if free[least] < to_come else OK
    text = f"{free[least] / 2**20:.0f} MB are free at {least}; {to_come / 2**20:.0f} will be needed"
    return level, f"{text}: make room there" if level else text


def mount_of(folder):
    """Where the file system of a folder is mounted."""
    return next(path for path in (folder, *folder.parents) if os.path.ismount(path))


def certificate(office):
    """The certificates that the readers' site and the desk's serve, each under its names."""
    sites = [site for part in ("readers", "desk") for site in sites_of(office, part) if site.is_tls]
    return worst([days_of(office, site) for site in sites] or [(OK, "there is none")])


def days_left(told):
    """The days until the end of a certificate, as openssl printed it."""
    return (ssl.cert_time_to_seconds(re.search("notAfter=(.*)", told)[1]) - time.time()) / DAY


def days_of(office, site):
    """The level of a certificate that is served, and the days that it is still good for."""
    load = f"systemctl reload nginx {office.unit_of('desk')}"
    words = ["openssl", "x509", "-noout", "-enddate", "-checkhost", site.name]
    try:
        shown_now = subprocess.run([*words, "-inform", "DER"], input=served(site, limit_of(office)), capture_output=True)
    except OSError as lost:
        return CRITICAL, f"{site}: {lost}"
    told = shown_now.stdout.decode()
    days = days_left(told)
    if "does match" not in told:
        return CRITICAL, f"{site} serves the certificate of another name"
    if site.certificate:
        kept = subprocess.run([*words, "-in", site.certificate], text=True, capture_output=True)
        if kept.returncode:
            return CRITICAL, f"{site.certificate} cannot be read"
        if days_left(kept.stdout) - days > 1 / 24:
            return CRITICAL, f"{site} serves the certificate of before, not the new one of {site.certificate}: {load}"
    level = next((level for level in (CRITICAL, WARNING) if days < CERTIFICATE[level]), OK)
    return level, f"{site} has one for {days:.0f} days{': renew it (certbot renew)' if level else ''}"


def files(office):
    """What an upgrade has left for the operator to merge."""
    found = merges(office)
    return CRITICAL if found else OK, "; ".join(found) or "nothing is to be merged"


def aside(office):
    """The offices that restores have put aside. They go by themselves."""
    folders = replaced_in(office.folder)
    if not folders:
        return OK, "no restore has put an office aside"
    size = sum(path.stat().st_size for folder in folders for path in folder.iterdir())
    return OK, f"{len(folders)} replaced offices, {size / 2**20:.0f} MB, the last kept until {max(folders.values())}"


def alarm(office):
    """Whether anybody is told what is red."""
    failed = MARKS / f"untold-{office.unit}"
    if failed.exists():
        return CRITICAL, f"the command of the alarm ended with {failed.read_text().strip()}: record-office-alarm --test"
    told, to = who(office)
    if told is None:
        return WARNING, f"nobody is told: name somebody in {office.settings}/alarm.conf, or install bsd-mailx"
    return OK, f"{to} is told"


ALL = {"program": program, "store": store, "queue": queue, "readers": readers, "desk": desk, "try": tries, "my": my_orders,
       "page": page,
       "command": command, "nginx": nginx, "staff": staff, "certificate": certificate, "files": files, "disk": disk,
       "copy": copy, "copies": copies, "drill": drill, "alarm": alarm, "put aside": aside}


def looked(office, name):
    """The line of a check. One that fails itself says so."""
    try:
        level, text = ALL[name](office)
    except (Trouble, OSError, ValueError, subprocess.CalledProcessError) as wrong:
        level, text = UNKNOWN, f"cannot be told: {wrong}"
    return Line(level, name, text)


def look(office, names=tuple(ALL)):
    """The lines of these checks, which are made at the same time."""
    with concurrent.futures.ThreadPoolExecutor(len(ALL)) as pool:
        return list(pool.map(lambda name: looked(office, name), names))
