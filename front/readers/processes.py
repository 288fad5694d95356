"""The processes of the readers' service. Each kind of request has its own, behind a socket of its own: what waits for the
office keeps nobody from help, no search keeps anybody from a page. A process that has ended is begun again; when the
first one ends, all do."""

import gc
import multiprocessing
import os
import socket
import threading
import time
from multiprocessing import connection

import waitress

# Threads of a process of each kind. Pages have as many processes as there are processors. Each other kind has one, which
# knows whose turn it is.
THREADS = {"pages": 24, "help": 8, "searches": 64, "aids": 24, "orders": 24}
LARGEST = 1 << 30  # bytes of an answer that wait in a file, so that no thread waits for who takes them slowly
CONNECTIONS = 2000
FORK = multiprocessing.get_context("fork")


def begin(app, folder, rounds):
    """Answers requests by an application of WSGI, at sockets in a folder, and makes rounds. Never returns."""
    several = {"pages": len(os.sched_getaffinity(0))}
    works = {"rounds": (rounds,)}
    for kind, threads in THREADS.items():
        listener = open_socket(folder / f"{kind}.sock")
        for number in range(several.get(kind, 1)):
            works[f"{kind} {number + 1}"] = serve, app, listener, threads
    gc.freeze()  # what is there now stays one copy for all
    keep(works)


def open_socket(path):
    """A socket for this user and the group alone. Requests wait there until a process takes them."""
    path.unlink(missing_ok=True)
    listener = socket.socket(socket.AF_UNIX)
    listener.bind(str(path))
    path.chmod(0o660)
    listener.listen(CONNECTIONS)
    return listener


def serve(app, listener, threads):
    """Answers what comes to a socket."""
    waitress.serve(app, sockets=[listener], threads=threads, ident=None, backlog=CONNECTIONS, channel_timeout=30,
                   connection_limit=CONNECTIONS, asyncore_use_poll=True, outbuf_high_watermark=LARGEST,
                   trusted_proxy="*", trusted_proxy_count=1, trusted_proxy_headers={"x-forwarded-for", "x-forwarded-proto"},
                   clear_untrusted_proxy_headers=True, _quiet=True)


def keep(works):
    """Does each work, a function and what it is given, in a process of its own, and begins it again whenever it ends."""
    running = {}
    while True:
        for name, work in works.items():
            if name in running and running[name].is_alive():
                continue
            if name in running:
                print(f"{name} ended with {running[name].exitcode}", flush=True)
            running[name] = FORK.Process(target=work_with_first, args=work, daemon=True)
            running[name].start()
        connection.wait([process.sentinel for process in running.values()])
        time.sleep(1)


def work_with_first(work, *given):
    """Does a work until the first process ends."""
    threading.Thread(target=end_with_first, daemon=True).start()
    work(*given)


def end_with_first():
    """Ends this process when the first one ends."""
    multiprocessing.parent_process().join()
    os._exit(1)
