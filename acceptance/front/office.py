"""Starts the program and the front before it in a folder of their own, on free ports of 127.0.0.1, and ends them:

    with Office.create(program, folder) as office:
        urllib.request.urlopen(office.public + "/public/fonds")

The configuration is that of front/server, as it stands there: in the copy that is run, names, ports and folders are
ours, the queue has a socket that tells its state, and nothing else is changed. Each port that the files name gets a
free one (`office.ports["8080"]`).
"""

import base64
import contextlib
import hashlib
import json
import os
import pathlib
import pwd
import random
import re
import shutil
import signal
import socket
import sqlite3
import subprocess
import threading
import time
import urllib.request
from collections.abc import Iterable, Iterator
from typing import Any, Self

from acceptance import client
from acceptance.front.waits import until

TOP = pathlib.Path(__file__).resolve().parents[2]
ARCHIVES = TOP / "examples/archives.csv"

FRONT = pathlib.Path(os.environ.get("FRONT_FILES") or TOP / "front").resolve()  # mutation/front.py names copies of it
READERS = FRONT / "readers"
PYTHON = "/usr/bin/python3"  # Debian's own, which has what the readers' service needs
QUICK = ("--every", ".2", "--rest", "0", "--orders", "6000")  # rounds and aids without a rest
SELDOM = ("--every", "100000", "--rest", "0", "--orders", "6000")  # one round, at the beginning
# For those who ask for many pages in a row from one address.
MANY_PAGES = [("record_office_pages burst=60", "record_office_pages burst=6000"),
              ("aids_in_a_row burst=9", "aids_in_a_row burst=9000")]
MANY_ORDERS = [(f"record_office_{zone} burst={burst} ", f"record_office_{zone} burst=9000 ")
               for zone, burst in (("my", 9), ("searches", 20), ("orders", 11))]  # the same for My orders
KINDS = ("pages", "help", "searches", "aids", "orders")  # of requests: the readers' service has a socket for each
PASSWORD = ("desk", "quiet-paper")
PARTS = {"ann": "counter", "ben": "archivist", "cid": "clerk"}  # of others with the same password; the last is none
SETTINGS = client.SETTINGS | {"seats": "12", "daily": "50", "hands": "2", "run": "20"}
Changes = Iterable[tuple[str, str]]


def signed_in(name: str, password: str = PASSWORD[1]) -> dict[str, str]:
    """The fields of a request of this member of the staff."""
    return {"Authorization": "Basic " + base64.b64encode(f"{name}:{password}".encode()).decode()}


SIGNED_IN = signed_in(PASSWORD[0])
DESK_NAME, SITE = "desk.example.org", "https://archive.example.org"

# The configuration of a system's nginx around ours, with as many connections as OPERATING tells to allow.
NGINX = """daemon off; pid nginx.pid; error_log nginx.log warn; user {user}; worker_processes 1; worker_rlimit_nofile 16384;
events {{ worker_connections 8192; }}
http {{ include {mime}; access_log access.log; client_body_temp_path tmp/body; proxy_temp_path tmp/proxy;
fastcgi_temp_path tmp/fastcgi; uwsgi_temp_path tmp/uwsgi; scgi_temp_path tmp/scgi;
include office.conf; }}
"""


# Nine hundred ports; of several workers of pytest-xdist each has its own share.
WORKER = int(os.environ.get("PYTEST_XDIST_WORKER", "gw0").removeprefix("gw"))
WORKERS = int(os.environ.get("PYTEST_XDIST_WORKER_COUNT", 1))
SHARE = 900 // WORKERS
PORTS = int(os.environ.get("FRONT_PORTS", 20000)) + WORKER * SHARE


def free_ports(many: int, first: int = PORTS, last: int = PORTS + SHARE - 1) -> list[int]:
    """Free ports of 127.0.0.1, from a random place on, so that two runs at a time seldom collide. Raises RuntimeError
    if there are too few."""
    found, begin = [], random.randrange(first, last + 1)
    for port in [*range(begin, last + 1), *range(first, begin)]:
        with socket.socket() as probe, contextlib.suppress(OSError):
            probe.setsockopt(socket.SOL_SOCKET, socket.SO_REUSEADDR, 1)
            probe.bind(("127.0.0.1", port))
            found.append(port)
            if len(found) == many:
                return found
    raise RuntimeError(f"no {many} ports are free from {first} to {last}")


class Office(client.Office):
    """An office in a file, with the front before it. `connections`: after how many the program ends, and is begun
    again; `first`, `last`: where ports are looked for; `changes`: pairs of texts that are replaced in the configuration
    besides."""

    def __init__(
            self, program: client.Program, folder: str | pathlib.Path, connections: int = 10000, first: int = PORTS,
            last: int = PORTS + SHARE - 1, changes: Changes = (),
    ) -> None:
        self.folder = pathlib.Path(folder).resolve()
        (self.folder / "tmp").mkdir(parents=True, exist_ok=True)
        super().__init__(program, self.folder / "office.db")
        self.connections, self.changes = connections, changes
        self.sources = [path for path in sorted((FRONT / "server").iterdir()) if path.is_file()]
        named = sorted(set(port for path in self.sources for port in ports_of(path.read_bytes().decode())))
        self.ports = dict(zip(named, free_ports(len(named), first, last)))
        self.running, self.starts = False, 0
        self.processes: list[subprocess.Popen[Any]] = []
        self.serving: Any = None  # the program's process, once there is one; the same of the readers' service, and of tries
        self.service: Any = None
        self.trying: Any = None
        self.showing: Any = None  # My orders
        self.copies, self.kept = self.folder / "copies", self.folder / "kept"  # of tries
        self.queue = self.folder / "readers.sock"
        self.index, self.words = self.folder / "index.db", READERS / "office.json"
        self.waiting, self.beginning = threading.Event(), threading.Lock()
        self.waiting.set()

    @classmethod
    def create(cls, program, folder, settings=None, **how):
        """A new office in this folder, not running yet; `how` is as in the constructor. Raises RuntimeError if `init`
        fails."""
        office = cls(program, folder, **how)
        office.init(settings or SETTINGS).expect_success()
        return office

    @property
    def public(self) -> str:
        return f"http://127.0.0.1:{self.ports['8080']}"

    @property
    def staff(self) -> str:
        return f"http://127.0.0.1:{self.ports['8081']}"

    def begin(self) -> Self:
        """Starts the program and its front; returns the office once it answers."""
        self.configure()
        self.running = True
        self.keeper = threading.Thread(target=self._keep, daemon=True)
        self.keeper.start()
        self._begin_queue()
        self.nginx = [self._run("nginx", "-p", str(self.folder), "-c", str(path), told=path.stem) for path in self.sites()]
        try:
            self.wait_for(self.public + "/public/fonds", self.haproxy, *self.nginx)
            self.wait_for_desk()
        except BaseException:
            self.end()
            raise
        return self

    def wait_for(self, url: str, *processes: subprocess.Popen[Any]) -> bytes:
        """The answer to this question, once there is one. Raises RuntimeError if one of these processes ends before."""
        def answer():
            for process in processes:
                if process.poll() is not None:
                    raise RuntimeError(f"{process.args[:2]} has ended; see {self.folder}")
            return fetch(url)
        return until(answer, f"the front answers {url}; see {self.folder}")[0]

    def wait_for_socket(self, path: pathlib.Path, process: subprocess.Popen[Any]) -> None:
        """Returns once a connection to this socket is taken. Raises RuntimeError if the process ends before."""
        def is_open():
            if process.poll() is not None:
                raise RuntimeError(f"{process.args[:2]} has ended; see {self.folder}")
            with socket.socket(socket.AF_UNIX) as it:
                return it.connect_ex(str(path)) == 0
        until(is_open, f"{path} takes connections")

    def wait_for_desk(self) -> None:
        def is_open():
            with socket.socket() as it:
                return it.connect_ex(("127.0.0.1", self.ports["8081"])) == 0
        until(is_open, f"the desk takes connections; see {self.folder}")

    def sites(self) -> list[pathlib.Path]:
        """The configurations of the two nginx: readers' and the desk's."""
        return [self.folder / name for name in ("main.conf", "desk-nginx.conf")]

    def queue_state(self, side: str = "office", name: str = "gate") -> dict[str, str]:
        """What HAProxy tells of one of its parts: numbers by their names, such as `qcur`, who waits there."""
        names, *rows = [line.split(",") for line in self.tell_queue("show stat").strip().splitlines()]
        return dict(zip(names, next(row for row in rows if row[:2] == [side, name])))

    def tell_queue(self, words: str) -> str:
        with socket.socket(socket.AF_UNIX) as it:
            it.connect(str(self.folder / "stats.sock"))
            it.sendall(f"{words}\n".encode())
            return b"".join(iter(lambda: it.recv(65536), b"")).decode()

    def count_queued(self) -> int:
        return sum(int(self.queue_state(name=name)["qcur"]) for name in ("BACKEND", "gate"))

    def count_connections(self) -> int:
        """How many connections the queue has made to the gate so far."""
        return int(self.queue_state()["connect"])

    def end(self) -> None:
        with self.beginning:
            self.running = False
        self.waiting.set()
        if self.service:
            self.kill_readers()
        if self.trying:
            self.kill_tries()
        if self.showing:
            self.kill_my()
        for process in self.processes:
            process.terminate()
        if self.serving:
            self.serving.kill()
        for process in [*self.processes, *([self.serving] if self.serving else [])]:
            try:
                process.wait(20)
            except subprocess.TimeoutExpired:
                process.kill()
                process.wait()

    def __enter__(self) -> Self:
        return self if self.running else self.begin()

    def __exit__(self, *_: object) -> None:
        self.end()

    def serve_readers(self, *more: str, zone: str | None = None) -> None:
        """Begins the readers' service; more: further words of its command line; zone: where its clock is. Returns once it
        answers."""
        with open(self.folder / "readers.told", "a") as log:
            words = [PYTHON, "-B", "-E", "-s", READERS / "service.py", "--queue", self.queue, "--index", self.index,
                     "--listen", self.folder, "--words", self.words, "--texts", self.folder / "texts",
                     "--desk", self.folder / "ordered.sock", *(more or QUICK)]
            names = {"MALLOC_ARENA_MAX": "1", **({"TZ": zone} if zone else {})}  # the first as its unit has it
            self.service = subprocess.Popen([str(word) for word in words], stdout=log, stderr=log, process_group=0,
                                            env={**os.environ, **names})

        # Asking by nginx at each look would be too often.
        for kind in KINDS:
            self.wait_for_socket(self.folder / f"{kind}.sock", self.service)
        self.wait_for(self.public + "/help", self.service)

    @contextlib.contextmanager
    def without_readers(self, *more: str) -> Iterator[None]:
        """A context in which the readers' service is away; more: words of its command line afterwards."""
        self.kill_readers()
        try:
            yield
        finally:
            self.serve_readers(*more)

    def kill_readers(self) -> None:
        """Kills the readers' service, with all its processes, as systemd would."""
        with contextlib.suppress(ProcessLookupError):
            os.killpg(self.service.pid, signal.SIGKILL)
        self.service.wait()

    def serve_tries(self) -> None:
        """Begins the service that looks at files and tries imports. Returns once it listens."""
        place = self.folder / "tries.sock"
        place.unlink(missing_ok=True)
        for folder in (self.copies, self.kept):
            folder.mkdir(exist_ok=True)
        with open(self.folder / "try.told", "a") as log:
            words = [PYTHON, "-B", "-s", FRONT / "try/service.py", "--copies", self.copies, "--files", self.kept, "--listen",
                     place, "--ordered", self.folder / "ordered.sock", self.folder / "my.sock", "--program", self.program.path]
            self.trying = subprocess.Popen([str(word) for word in words], stdout=log, stderr=log,
                                           env={**os.environ, "PYTHONPATH": str(FRONT / "look")})  # as its unit has it
        self.wait_for_socket(place, self.trying)

    def serve_my(self, *more: str) -> None:
        """Begins the service of My orders, with an address of the readers' site; more: further words of its command line.
        Returns once it listens."""
        place, own = self.folder / "mine", self.folder / "my.state/office.json"
        own.parent.mkdir(exist_ok=True)
        own.write_text(json.dumps(json.loads(self.words.read_text("utf-8")) | {"site": SITE}))
        with open(self.folder / "my.told", "a") as log:
            words = [PYTHON, "-B", "-s", FRONT / "my/my_orders.py", "--queue", self.folder / "my/queue.sock",
                     "--state", own.parent, "--listen", place, "--words", own, "--orders", "6000",
                     "--desk", self.folder / "my.sock", *more]
            self.showing = subprocess.Popen([str(word) for word in words], stdout=log, stderr=log,
                                            env={**os.environ, "PYTHONPATH": str(READERS)})  # as its unit has it
        for name in ("my", "cards"):
            self.wait_for_socket(place / f"{name}.sock", self.showing)

    def kill_my(self) -> None:
        self.showing.kill()
        self.showing.wait()
        self.showing = None

    @contextlib.contextmanager
    def without_tries(self) -> Iterator[None]:
        """A context in which the service of tries is away."""
        self.kill_tries()
        try:
            yield
        finally:
            self.serve_tries()

    def kill_tries(self) -> None:
        self.trying.kill()
        self.trying.wait()

    def await_rounds(self, many: int = 2) -> None:
        """Waits until so many rounds have ended from now on. With two, one has seen all that was done before. An index that
        is begun anew meanwhile counts from 0."""
        last, ended = self.count_rounds(), 0

        def are_over():
            nonlocal last, ended
            now = self.count_rounds()
            if None not in (now, last):
                ended += now - last if now >= last else now
            last = last if now is None else now
            return ended >= many
        until(are_over, "the rounds have come by")

    def count_rounds(self) -> int | None:
        """How many rounds the index has seen to their end; None if it cannot be read."""
        try:
            with contextlib.closing(sqlite3.connect(f"file:{self.index}?mode=ro", uri=True)) as db:
                return db.execute("SELECT finished FROM round").fetchone()[0]
        except sqlite3.Error:
            return None

    def kill_program(self) -> None:
        """kill -9; the program is begun again at once."""
        self.serving.kill()

    def stop_program(self):
        """Stops the program until somebody sends it SIGCONT; returns its process. What comes from now on is not read:
        without a wait, a program that is just woken would still read it before it stops."""
        stopped = self.serving
        os.kill(stopped.pid, signal.SIGSTOP)
        state = pathlib.Path(f"/proc/{stopped.pid}/stat")
        until(lambda: state.read_text().rsplit(") ", 1)[1].startswith("T"), "the program is stopped")
        return stopped

    @contextlib.contextmanager
    def change_file(self, name: str, old: str, new: str) -> Iterator[None]:
        """A context in which nginx has another text in one of its files."""
        path = self.folder / name
        before = path.read_text()
        assert old in before, f"{old} is not in {name}"
        path.write_text(before.replace(old, new))
        self.reload()
        try:
            yield
        finally:
            path.write_text(before)
            self.reload()

    def reload(self) -> None:
        """Each nginx reads its files anew; ends when no worker takes requests by the old ones any more."""
        for nginx in self.nginx:
            old = self.workers(nginx)
            nginx.send_signal(signal.SIGHUP)

            def is_anew() -> bool:
                now = self.workers(nginx)
                return bool(now) and not now & old
            until(is_anew, "nginx has read its files anew")

    @staticmethod
    def workers(nginx):
        own = pathlib.Path(f"/proc/{nginx.pid}/task/{nginx.pid}/children").read_text().split()
        titles = {}
        for worker in own:
            with contextlib.suppress(OSError):
                titles[worker] = pathlib.Path(f"/proc/{worker}/cmdline").read_text()
        return {worker for worker, title in titles.items() if title and "shutting down" not in title}

    @contextlib.contextmanager
    def without_program(self) -> Iterator[None]:
        """A context in which the program is away and its port is closed."""
        with self.beginning:
            self.waiting.clear()
        self.serving.kill()
        self.serving.wait(20)
        try:
            yield
        finally:
            self.waiting.set()

    def copy_store(self, path: str | pathlib.Path) -> None:
        """Copies the store as the backup does, while the program is away: to this path, or under this name to the copies
        of the night."""
        with self.without_program():
            subprocess.run(["sqlite3", self.store, f".backup {self.copies / path}"], check=True)
        self.wait_for(self.public + "/public/fonds")

    @contextlib.contextmanager
    def without_queue(self) -> Iterator[None]:
        """A context in which the queue before the program is away."""
        self.haproxy.terminate()
        self.haproxy.wait(20)
        try:
            yield
        finally:
            self._begin_queue()
            self.wait_for(self.public + "/public/fonds")

    def _begin_queue(self):
        self.haproxy = self._run("haproxy", "-f", "haproxy.cfg")

    def _run(self, *words, told=None):
        """Starts a server in the folder; returns its process. told: the name of what it prints."""
        log = open(self.folder / f"{told or words[0]}.told", "w")
        path = os.environ["PATH"] + ":/usr/sbin:/usr/local/sbin"
        process = subprocess.Popen(words, cwd=self.folder, stdout=log, stderr=log, env={**os.environ, "PATH": path})
        self.processes.append(process)
        return process

    def _keep(self):
        """Starts the program again whenever it ends, as a service manager does."""
        words = ["serve", "--port", str(self.ports["8090"]), "--connections", str(self.connections)]
        while self.running:
            self.waiting.wait()
            began = time.time()
            with self.beginning, open(self.folder / "program.told", "a") as log:
                if not self.running or not self.waiting.is_set():  # somebody else has the port now
                    continue
                self.serving = client.Running(self, *words, stdout=log, stderr=log).process
                self.starts += 1
            self.serving.wait()
            time.sleep(0 if time.time() - began > 0.5 else 0.2)  # a program that ends at once is not begun without end

    def configure(self) -> None:
        """Writes the configuration and the passwords of the staff into the folder."""
        for path in self.sources:
            name = "office.conf" if path.name == "nginx.conf" else path.name
            (self.folder / name).write_bytes(self.adapt(path.read_bytes().decode()).encode())
        for name in ("desk", "my", "mine"):
            (self.folder / name).mkdir(exist_ok=True)
        (self.folder / "main.conf").write_text(NGINX.format(user=user_name(), mime=mime_types()))
        digest = base64.b64encode(hashlib.sha1(PASSWORD[1].encode()).digest()).decode()
        lines = [f"{PASSWORD[0]}:{{SHA}}{digest}", *(f"{name}:{{SHA}}{digest}:part={part}" for name, part in PARTS.items())]
        (self.folder / "staff").write_text("\n".join(lines))
        subprocess.run([TOP / "packaging/tools/staff.py", self.folder / "staff", self.folder / "desk/staff.conf"], check=True)

    def adapt(self, text: str) -> str:
        """Returns a file of the configuration with our ports, names and folders."""
        def ours(found: re.Match[str]) -> str:
            return f"{found[1]}{self.ports[found[2]]}"

        text = re.sub(LISTEN, r"listen 127.0.0.1:\1", text)
        text = re.sub(PORT, ours, text).replace(DESK_NAME, "127.0.0.1")
        for theirs, our in (("/usr/share/record-office/front", FRONT), ("/etc/record-office", self.folder),
                            ("/run/record-office-queue", self.folder),
                            ("/run/record-office-try/try", self.folder / "tries"),
                            ("/run/record-office-my", self.folder / "mine"),
                            ("/var/log/nginx/record-office", self.folder / "log"),
                            ("/run/record-office-readers", self.folder),
                            ("/var/cache/record-office", self.folder / "cache"),
                            ("/run/record-office-desk", self.folder / "desk"), ("user www-data;", f"user {user_name()};"),
                            ("/etc/nginx/mime.types", mime_types()),
                            ("error_log stderr", f"error_log {self.folder}/nginx.log"),
                            ("syslog:server=unix:/dev/log,tag=record_office_desk", self.folder / "access.log"),
                            ("/var/log/nginx", self.folder),
                            (" group record-office-readers", ""), ("listen [::]:", "listen [::1]:"),
                            ("    default-path config\n",
                             f"    default-path config\n    stats socket {self.folder}/stats.sock\n")):
            text = text.replace(theirs, str(our))
        for old, new in self.changes:
            text = text.replace(old, new)
        return text


PORT = r"((?:127\.0\.0\.1|localhost|\[::1?\]|\*|" + re.escape(DESK_NAME) + r"):)(\d{4,5})\b"

LISTEN = r"\blisten (\d{4,5})\b"


def user_name() -> str:
    return pwd.getpwuid(os.getuid()).pw_name


def program_path(name: str) -> str | None:
    return shutil.which(name, path=os.environ["PATH"] + ":/usr/sbin:/usr/local/sbin")


def fetch(url: str) -> list[bytes]:
    """The answer at this address as a list of one, which is empty if there is none."""
    try:
        with urllib.request.urlopen(url, timeout=90) as answer:
            return [answer.read()]
    except OSError:
        return []


def ports_of(text: str) -> list[str]:
    """The ports that a file of the configuration names."""
    return [found[1] for found in re.findall(PORT, text)] + re.findall(LISTEN, text)


def mime_types() -> str:
    """The path of nginx's own list of types. Raises RuntimeError if it is not there."""
    for path in ("/etc/nginx/mime.types", "/usr/local/nginx/conf/mime.types"):
        if os.path.exists(path):
            return path
    raise RuntimeError("nginx's mime.types is not there")
