"""Runs a command, passes on what it prints, and keeps what it found as a figure of RESULTS:

    ./run tools.record KIND COMMAND ..      keeps KIND.json in docs/results, or in the folder that RECORD names
    ./run tools.record --write              writes the figures into docs/RESULTS.md, between their marks
    ./run tools.record --check              ends with 1 if the page has others, or a record is of a run that failed

A record has the command, the day, the commit, the machine, the load before and after, how long the run took, how it ended, the
last line that begins with a count (`12 passed, 1 failed`), and the headings and tables of markdown that it printed. The first
form ends as the command does."""

import datetime
import json
import os
import platform
import re
import subprocess
import sys
import time
from pathlib import Path
from typing import Any

TOP = Path(__file__).resolve().parents[1]
RECORDS, PAGE = TOP / "docs/results", TOP / "docs/RESULTS.md"
PLACE = re.compile(r"(?<=<!-- figures -->\n).*?(?=<!-- end -->)", re.S)
ADDITIONS = "total = 0\nfor number in range(20_000_000): total += number"
TITLES = "| Run | Found | Time | Day, commit | Machine |\n|---|---|---|---|---|"


def machine() -> str:
    """The processors, and how fast they are just now: how many seconds Python takes for 20 million additions."""
    begun = time.perf_counter()
    subprocess.run([sys.executable, "-c", ADDITIONS], check=True)
    return f"{os.cpu_count()} {platform.machine()}, additions {time.perf_counter() - begun:.1f} s"


def commit() -> str:
    """The commit of this tree, with a plus if files differ from it."""
    git = ["git", "-C", str(TOP)]
    head = subprocess.run([*git, "rev-parse", "--short=8", "HEAD"], check=True, capture_output=True, text=True).stdout.strip()
    return head + ("+" if subprocess.run([*git, "diff", "--quiet", "HEAD"], check=False).returncode else "")


def keep(kind: str, words: list[str]) -> int:
    """Runs a command, writes its record, and returns its exit status."""
    named = " ".join(Path(word).name if word.startswith("/") else word for word in words)
    record: dict[str, Any] = {"run": named, "day": datetime.date.today().isoformat(), "commit": commit(), "machine": machine()}
    load, begun, lines = os.getloadavg()[0], time.monotonic(), []
    with subprocess.Popen(words, stdout=subprocess.PIPE, text=True, errors="replace") as process:
        for line in process.stdout or ():
            print(line, end="", flush=True)
            lines.append(line.strip("= \n"))  # pytest has its counts between equals signs
    counts = [line for line in lines if re.match(r"\d[\d,]* [a-z]", line)]
    record |= {"load": [round(load), round(os.getloadavg()[0])], "seconds": round(time.monotonic() - begun),
               "status": process.returncode, "found": counts[-1] if counts else "",
               "tables": [line for line in lines if line.startswith(("|", "#"))]}
    folder = Path(os.environ.get("RECORD") or RECORDS)
    folder.mkdir(parents=True, exist_ok=True)
    (folder / f"{kind}.json").write_text(json.dumps(record, indent=1, ensure_ascii=False) + "\n", encoding="utf-8")
    return process.returncode


def row(record: dict[str, Any]) -> str:
    """The line of a run."""
    minutes = f"{record['seconds'] / 60:.0f} min" if record["seconds"] >= 60 else f"{record['seconds']} s"
    loads = " to ".join(dict.fromkeys(str(load) for load in record["load"]))
    cells = (f"`{record['run']}`", record["found"], minutes, f"{record['day']}, `{record['commit']}`",
             f"{record['machine']}, load {loads}")
    return f"| {' | '.join(cells)} |"


def figures(records: list[dict[str, Any]]) -> str:
    """All runs as a table, and then what they printed."""
    parts = ["\n".join([TITLES, *map(row, records)])]
    for record in records:
        printed = re.sub(r"^#+ (.*)$", r"\n`" + record["run"] + r"`: \1\n", "\n".join(record["tables"]), flags=re.M)
        parts += [printed.strip()] if printed else []
    return "\n" + "\n\n".join(parts) + "\n\n"


def main() -> int:
    """Does what the command line says, and returns the exit status."""
    if sys.argv[1:] not in (["--write"], ["--check"]):
        if len(sys.argv) > 2:
            return keep(sys.argv[1], sys.argv[2:])
        print(__doc__)
        return 2
    records = [json.loads(path.read_text(encoding="utf-8")) for path in sorted(RECORDS.glob("*.json"))]
    page, failed = PAGE.read_text(encoding="utf-8"), [record["run"] for record in records if record["status"]]
    text = PLACE.sub(lambda _: figures(records), page, count=1)
    if sys.argv[1] == "--write":
        PAGE.write_text(text, encoding="utf-8")
        return 0
    print(*(f"a run that failed is recorded: {run}" for run in failed), sep="\n", end="\n" if failed else "")
    print(f"{len(records)} records" if text == page else "RESULTS has other figures (./run tools.record --write)")
    return 1 if failed or text != page else 0


if __name__ == "__main__":
    sys.exit(main())
