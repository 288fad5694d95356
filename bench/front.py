"""Readers' pages a second through this tree's front and through that of another tree, in one run:

    git worktree add /tmp/before COMMIT
    ./run bench.front [--program PROGRAM] [--room DIRECTORY] /tmp/before [UNITS]

Each front has the same program over the same UNITS (2000 unless you say more), nginx, HAProxy and its readers' service. wrk
asks for pages of units, ten seconds the one and ten the other, three times. The limits by address are taken out, since all
come from one. Of each turn a row of markdown tells pages a second, answers that were none, and milliseconds of the processor a
page."""

import contextlib
import os
import re
import shutil
import statistics
import subprocess
import sys
from pathlib import Path

from acceptance import client
from acceptance.front.office import TOP
from bench.measure import Archive

BEGIN = """import sys
from acceptance import client
from acceptance.front import waits
from acceptance.front.office import Office
waits.settings.patience = 1000
office = Office(client.Program(sys.argv[1]), sys.argv[2], first=int(sys.argv[3]), last=int(sys.argv[3]) + 99, changes=[
    ("limit_req zone=record_office_pages burst=60 nodelay;", ""), ("limit_conn record_office_visits 100;", "")])
with office:
    office.serve_readers("--every", "100000", "--rest", "0")
    waits.until(office.count_rounds, "the index is there", 1)
    print(office.public, flush=True)
    sys.stdin.read()
"""
TURNS, SECONDS, READERS = 3, 10, 32
KINDS = {"record_office": "program", "haproxy": "HAProxy", "nginx": "nginx", "python3": "service"}


class Front:
    """A front of a tree, running; a context, after which it has ended."""

    def __init__(self, tree, program, store, port):
        self.folder = store.parent / str(port)
        self.folder.mkdir()
        shutil.copy(store, self.folder / "office.db")
        words = [sys.executable, "-c", BEGIN, program, self.folder, str(port)]
        self.process = subprocess.Popen(words, cwd=tree, stdin=subprocess.PIPE, stdout=subprocess.PIPE, text=True)
        self.address = self.process.stdout.readline().strip()

    def spent(self):
        """Milliseconds of the processor that each kind of process has taken, with those below it that have ended."""
        found = {}
        for path in Path("/proc").glob("[0-9]*/stat"):
            with contextlib.suppress(OSError):
                number, name, rest = re.fullmatch(r"(\d+) \((.*)\) (.*)\s*", path.read_text(), re.DOTALL).groups()
                found[int(number)] = (name, int(rest.split()[1]), sum(map(int, rest.split()[11:15])))
        mine, many = {self.process.pid}, 0
        while len(mine) > many:
            many, mine = len(mine), mine | {number for number, (_, above, _) in found.items() if above in mine}
        tick = 1000 / os.sysconf("SC_CLK_TCK")
        return {kind: tick * sum(found[n][2] for n in mine if found[n][0] == name) for name, kind in KINDS.items()}

    def ask(self, script):
        """Pages a second, answers that were no page, and milliseconds of the processor a page by kind of process."""
        before = self.spent()
        words = ["wrk", "-t", "2", "-c", str(READERS), "-d", f"{SECONDS}s", "-s", script, self.address]
        told = subprocess.run(words, capture_output=True, text=True, check=True).stdout
        pages, lost = (int((re.search(pattern, told) or [0, 0])[1]) for pattern in (r"(\d+) requests in", r"Non-2xx.*: (\d+)"))
        return pages / SECONDS, lost, {kind: (now - before[kind]) / max(pages, 1) for kind, now in self.spent().items()}


def main():
    """Measures as the command line says."""
    words = client.options(__doc__)
    words.add_argument("tree", type=Path, metavar="TREE")
    words.add_argument("units", nargs="?", type=int, default=2000, metavar="UNITS")
    given = words.parse_args()
    with client.temporary(given.room) as room, contextlib.ExitStack() as running:
        office, archive = client.Office(given.program, room / "office.db"), Archive(given.units)
        office.init(client.LARGE | {"run": "1"}).expect_success()
        for file in range(archive.files):
            archive.write(file + 1, room / "rows.csv")
            office.import_file(f"a{file + 1}", room / "rows.csv", timeout=6000).expect_success()
        (room / "ask.lua").write_text(
            f'request = function() return wrk.format("GET", "/unit/" .. math.random({given.units})) end')
        fronts = {name: Front(tree, given.program.path, office.store, port)
                  for name, tree, port in (("before", given.tree, 28000), ("now", TOP, 28100))}
        for front in fronts.values():
            running.callback(front.process.communicate)
        print(f"| | pages a second | lost | {' | '.join(f'{kind}, ms' for kind in KINDS.values())} | load |\n|{'---|' * 8}")
        rates = {name: [] for name in fronts}
        for name in [*fronts] * TURNS:
            rate, lost, took = fronts[name].ask(room / "ask.lua")
            rates[name].append(rate)
            print(f"| {name} | {rate:.0f} | {lost} | {' | '.join(f'{ms:.2f}' for ms in took.values())} | "
                  f"{os.getloadavg()[0]:.0f} |", flush=True)
        print(f"\n{statistics.median(rates['now']) / statistics.median(rates['before']):.1f} times as many, by medians")


if __name__ == "__main__":
    main()
