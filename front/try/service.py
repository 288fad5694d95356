"""What is to be seen in a file and what its import would change, and what a colleague has in hand: answers for nginx.

    service.py --copies FOLDER --files FOLDER --listen SOCKET [--ordered SOCKET ..] [--program PROGRAM]

POST /try/find, with what somebody typed as its body, is answered with the JSON of finding.py and the time of the copy.
POST /try/boxes, with numbers as JSON, is answered with where these boxes belong, and what in them is not open to all.
POST /try/ordered keeps what ordered.py describes; readers' service and My orders tell the same, each by a socket of its own.
POST /try/wanted, with order, ticket and container of each of some orders as JSON, is answered with the units they are for.
POST /try/look, with a file as its body, is answered with the JSON of look_for_page.py, which runs by itself, within bounds;
/try/look/Windows-1253/dates chooses an encoding, and has dates filled in.
POST /try/differences/SOURCE, with a file as its body, is answered with JSON: copy, answer, refused, differences.
POST /try/imported/SOURCE keeps the file, which was imported, as the last one of its source."""

import argparse
import json
import pathlib
import re
import signal
import sqlite3
import subprocess
import sys
import threading
import time

import waitress

from differences import Trial
from finding import boxes_of, find, wanted
from kept_files import NoCopy, is_source, keep_file, last_file, newest_copy
from ordered import Ordered
from wording import read_rules

LARGEST_FILE = 8 * 1024 * 1024
LONGEST_TYPED = 1000  # bytes
PATH = re.compile("/try/(?:(find|boxes|ordered|wanted|look)(/Windows-125[0-4])?(/dates)?|(differences|imported)/([^/]+))")
LOOK = pathlib.Path(__file__).resolve().parents[1] / "look/look_for_page.py"
LOOKS, LONGEST_LOOK = 2, 100  # at a time; seconds


class Service:
    """Answers one try after the other, and looks beside them. copies: the folder of the backup; files: where the last files
    are kept, and what was ordered."""

    def __init__(self, copies, files, program):
        self.copies, self.files, self.program, self.rules = copies, files, program, read_rules()
        self.ordered = Ordered(files / "ordered.db")
        self.one, self.looks = threading.Lock(), threading.Semaphore(LOOKS)

    def app(self, environ, start):
        """Answers a request, as WSGI asks for."""
        begun = time.monotonic()
        status, answer = self.answer(environ)
        print(f"{status} {environ.get('PATH_INFO', '')} {time.monotonic() - begun:.1f} s", flush=True)
        body = answer if isinstance(answer, bytes) else json.dumps(answer, ensure_ascii=False).encode()
        start(status, [("Content-Type", "application/json"), ("Content-Length", str(len(body)))])
        return [body]

    def answer(self, environ):
        """The status and the answer."""
        found = PATH.fullmatch(environ.get("PATH_INFO", ""))
        if not found or not (found[1] or is_source(found[5])):
            return "404 Not Found", {"error": "not found"}
        if environ["REQUEST_METHOD"] != "POST":
            return "405 Method Not Allowed", {"error": "method not allowed"}
        data = environ["wsgi.input"].read()
        try:
            if found[1] == "ordered":
                self.ordered.take(data)
                return "200 OK", {}
            if found[1] in ("find", "boxes", "wanted"):
                copy = newest_copy(self.copies)
                return "200 OK", {"copy": made(copy), **getattr(self, found[1])(copy, data)}
            if found[1]:
                with self.looks:
                    return "200 OK", look(data, found[2], found[3])
            with self.one:
                return "200 OK", self.tried(found[5], data) if found[4] == "differences" else self.kept(found[5], data)
        except NoCopy as missing:
            print(f"{missing.filename}: {missing.strerror}", flush=True)
            return "409 Conflict", {"error": "no copy"}
        except (OSError, subprocess.SubprocessError, ValueError, LookupError, TypeError, sqlite3.Error) as wrong:
            print(f"{type(wrong).__name__} {wrong}", flush=True)
            return "500 Internal Server Error", {"error": "failed"}

    def tried(self, source, data):
        """What an import of these bytes would change."""
        copy, last = newest_copy(self.copies), last_file(self.files, source)
        tried = Trial(self.program, copy, self.rules, last and last.read_bytes()).of(source, data)
        return {"copy": made(copy), "answer": tried.answer, "refused": tried.refused, "differences": tried.differences}

    @staticmethod
    def find(copy, data):
        """What may be meant by what was typed."""
        return find(copy, data[:LONGEST_TYPED].decode(errors="replace"))

    @staticmethod
    def boxes(copy, data):
        """Where boxes belong."""
        return {"boxes": boxes_of(copy, [int(number) for number in json.loads(data)])}

    def wanted(self, copy, data):
        """Which units orders are for."""
        return {"orders": wanted(copy, self.ordered.units(data.decode()))}

    def kept(self, source, data):
        """Keeps the file, if the office can read it."""
        data.decode("utf-8")
        keep_file(self.files, source, data)
        return {"kept": source}


def made(copy):
    """When a copy was made."""
    return time.strftime("%Y-%m-%d, %H:%M", time.localtime(copy.stat().st_mtime))


def look(data, encoding, dates):
    """What is to be seen in these bytes, if they are read so."""
    how = [*(["--encoding", encoding[1:]] if encoding else []), *(["--dates"] if dates else [])]
    words = [sys.executable, "-B", "-s", LOOK, *how]
    done = subprocess.run(words, input=data, capture_output=True, timeout=LONGEST_LOOK, check=False)
    if done.returncode:
        raise ValueError(f"the look has ended with {done.returncode}: {done.stderr.decode(errors='replace').strip()[-200:]}")
    return done.stdout


def main():
    """Serves as the command line says."""
    words = argparse.ArgumentParser(description=__doc__, formatter_class=argparse.RawDescriptionHelpFormatter)
    words.add_argument("--copies", type=pathlib.Path, required=True, help="the folder of the backup's copies")
    words.add_argument("--files", type=pathlib.Path, required=True, help="where the last file of each source is kept")
    words.add_argument("--listen", required=True, help="the socket for nginx")
    words.add_argument("--ordered", type=pathlib.Path, nargs="*", default=[], help="sockets where what was ordered is told")
    words.add_argument("--program", default="record_office", help="default: record_office")
    given = words.parse_args()
    signal.signal(signal.SIGTERM, lambda *_: sys.exit(0))
    service = Service(given.copies, given.files, given.program)
    for path in given.ordered:
        threading.Thread(target=service.ordered.listen, args=(path,), daemon=True).start()
    waitress.serve(service.app, unix_socket=given.listen, unix_socket_perms="660", threads=8, ident=None,
                   channel_timeout=120, max_request_body_size=LARGEST_FILE + 1, clear_untrusted_proxy_headers=True)


if __name__ == "__main__":
    main()
