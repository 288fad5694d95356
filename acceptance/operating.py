"""Runs the lines of docs/OPERATING.md and of README.md again and compares their answers, so that they cannot go stale.

In a block of a document, a line that begins with `$ ` (or `# `, for root) is a command. It goes on while its quotes or
its braces are open. The lines up to the next command are its answer, with standard error. `...` stands for any lines. A
comment right before a block says what the block is:

    <!-- file NAME -->      a file, which is written in every place
    <!-- package -->        an office of the installed package: run by packaging/try.sh, as root of a machine of its own
    <!-- hand -->           an office that is set up by hand: the same, after the lines of packaging/README.md
    <!-- package, hand -->  both
    <!-- elsewhere: .. -->  not run here, for the reason given

All other blocks belong to the place `here`: test_operating.py runs them. The lines of README run in a folder of their own with
the examples; a blank line does not end a block there, since answers have some. Its lines without `$ ` are not run: they prove
or build. packaging/try.sh runs the lines of another place, in the shell that a command starts:

    ./run acceptance.operating --place PLACE --shell COMMAND

It prints each line with another answer, and last `N passed, M failed`.
"""

import argparse
import os
import pathlib
import re
import shlex
import signal
import subprocess
import sys
import time

TOP = pathlib.Path(__file__).resolve().parent.parent
DOCUMENT = TOP / "docs" / "OPERATING.md"
README = TOP / "README.md"
BY_HAND = TOP / "packaging" / "README.md"
PLACES = ("here", "package", "hand")
LONGEST = 120


class Block:
    """Some lines of the document that are indented, the comment before them, and where they begin."""

    def __init__(self, mark, start, lines):
        self.mark, self.start, self.lines = mark, start, lines

    def commands(self):
        """Each command with the number of its line and the lines of its answer."""
        found = []
        for number, line in enumerate(self.lines, self.start):
            if found and is_open(found[-1][1]):
                found[-1][1] += "\n" + line
            elif line.startswith(("$ ", "# ")):
                found.append([number, line[2:], []])
            elif found:
                found[-1][2].append(line)
        return found


def is_open(command):
    """Whether a command goes on in the next line, since a quote or a block of bash is not closed."""
    try:
        shlex.split(command, comments=True)
    except ValueError:
        return True
    environment = {**os.environ, "LC_ALL": "C"}
    told = subprocess.run(["bash", "-n", "-c", command], env=environment, capture_output=True, text=True)
    return "unexpected end of file" in told.stderr


def blocks(text, have_blank_lines=False):
    """The indented blocks, each between blank lines, or between lines that are not indented."""
    mark, found, lines, start = "", [], [], 0
    for number, line in enumerate([*text.splitlines(), "end" if have_blank_lines else ""], 1):
        if lines and have_blank_lines and not line.strip():
            lines.append("")
            continue
        comment = re.fullmatch(r"\s*<!-- (.*) -->", line)
        if comment:
            mark = comment.group(1)
        elif line.startswith("    ") and not re.match(r"\s+(- |\d+\. )", line):
            start = start or number
            lines.append(line)
        elif lines:
            margin = min(len(line) - len(line.lstrip()) for line in lines if line.strip())
            while not lines[-1]:
                lines.pop()
            found.append(Block(mark, start, [line[margin:] for line in lines]))
            mark, lines, start = "", [], 0
        elif line.strip():
            mark = ""
    return found


class Shell:
    """A bash that gets one command after the other; what a command left running goes on."""

    def __init__(self, words, folder=None, environment=None):
        streams = {"stdin": subprocess.PIPE, "stdout": subprocess.PIPE, "stderr": subprocess.STDOUT}
        self.process = subprocess.Popen(words, cwd=folder, env=environment, start_new_session=True, **streams)
        self.run("exec 2>&1")

    def run(self, command):
        """What the command printed, without the end of its last line."""
        if command.startswith("record_office serve") or command.startswith("runuser") and " serve " in command:
            return self.serve(command)
        return self.until_end(f"{command}\n")

    def serve(self, command):
        """Begins a server in the background; its answer is its first line."""
        command = command.removesuffix(" &")
        return self.until_end(
            f"{command} >served.txt 2>&1 </dev/null &\n"
            "for i in $(seq 600); do grep -qs . served.txt && break; sleep 0.1; done; cat served.txt\n"
        )

    def until_end(self, text):
        """Sends lines to the shell and returns what they print; raises RuntimeError if the shell ends."""
        end = f"end-{time.monotonic_ns()}"
        self.process.stdin.write(f"{text}printf '\\n%s\\n' {end}\n".encode())
        self.process.stdin.flush()
        said = b""
        signal.alarm(LONGEST)
        while not said.endswith(f"\n{end}\n".encode()):
            piece = self.process.stdout.read1(65536)
            if not piece:
                raise RuntimeError(f"the shell ended at: {text}")
            said += piece
        signal.alarm(0)
        return said.decode(errors="replace").removesuffix(f"\n{end}\n").removesuffix("\n")

    def end(self):
        """Kills the shell and what it left running."""
        os.killpg(self.process.pid, signal.SIGKILL)
        self.process.wait()


def is_expected(said, expected):
    """Whether the lines are these; a line `...` stands for any lines."""
    pattern = "\n".join("(?:.*(?:\n.*)*)" if line.strip() == "..." else re.escape(line) for line in expected)
    return re.fullmatch(pattern, "\n".join(line.rstrip() for line in said.splitlines())) is not None


def places_of(block):
    marked = [place for place in block.mark.split(", ") if place in PLACES]
    return marked or ["here"]


def write_file(block, shell):
    name = shlex.quote(block.mark.removeprefix("file "))
    shell.run("\n".join([f"cat >{name} <<'END-OF-FILE'", *block.lines, "END-OF-FILE"]))


def run(all_blocks, place, shell, ours=str):
    """Writes the files and runs the lines of one place, with `ours` made of its texts, and ends its shell. Yields each line,
    and what is wrong with its answer, if something is."""
    signal.signal(signal.SIGALRM, stop_waiting)
    try:
        for block in all_blocks:
            if block.mark.startswith("file "):
                write_file(block, shell)
            elif place in places_of(block) and not block.mark.startswith("elsewhere"):
                for number, command, expected in block.commands():
                    said = shell.run(ours(command))
                    is_right = is_expected(said, [ours(line) for line in expected])
                    told = "\n".join(["--- answered", said, "--- should be", *expected])
                    yield f"line {number}: {command}", "" if is_right else told
    finally:
        shell.end()


def stop_waiting(*_):
    """Raises TimeoutError, since a line has not ended in time."""
    raise TimeoutError(f"a line did not end within {LONGEST} s")


def main():
    """Runs the lines of the place, prints the counts, and ends the program with 1 if an answer differs."""
    words = argparse.ArgumentParser()
    words.add_argument("--place", choices=PLACES[1:], required=True)
    words.add_argument("--shell", required=True)
    given = words.parse_args()
    by_hand = [block for block in blocks(BY_HAND.read_text(encoding="utf-8")) if block.mark == "hand"]
    all_blocks = by_hand + blocks(DOCUMENT.read_text(encoding="utf-8"))
    lines = list(run(all_blocks, given.place, Shell(shlex.split(given.shell))))
    wrong = [f"{line}\n{told}" for line, told in lines if told]
    print("\n".join([*wrong, f"{len(lines) - len(wrong)} passed, {len(wrong)} failed"]))
    sys.exit(1 if wrong or not lines else 0)


if __name__ == "__main__":
    main()
