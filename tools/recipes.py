"""Counts how many files a change touches, by what a change of its kind has to find (docs/CHANGING.md):

    ./run tools.recipes [--list] [TREE]

Each kind of change has a twin: a text, a refusal, a command that is there already. All files of git's that name it are
files that the next one of its kind touches, or at least somebody has to look at. With --list they are named."""

import argparse
import subprocess
from pathlib import Path

TOP = Path(__file__).resolve().parents[1]
# What changes, its twin, how git finds it, and how many files may have it.
TWINS = (("a text", "Every seat is taken", "-F", 7), ("a refusal", "NoPermit", "-w", 15), ("a command", "Revoke", "-w", 40))


def files_with(tree: Path, twin: str, how: str) -> list[str]:
    """The files of a tree that name a twin, but for this script and the recipe itself."""
    words = ["git", "-C", str(tree), "grep", "-l", how, twin, "--", ":!tools/recipes.py", ":!docs/CHANGING.md"]
    return subprocess.run(words, check=True, capture_output=True, text=True).stdout.split()


def main() -> None:
    """Prints the counts, by the folders at the top."""
    words = argparse.ArgumentParser(description=__doc__, formatter_class=argparse.RawDescriptionHelpFormatter)
    words.add_argument("--list", action="store_true", help="name the files, too")
    words.add_argument("tree", nargs="?", type=Path, default=TOP, help="another checkout; else this one")
    given = words.parse_args()
    for what, twin, how, most in TWINS:
        files = files_with(given.tree, twin, how)
        folders = sorted({file.split("/")[0] for file in files})
        parts = ", ".join(f"{sum(file.split('/')[0] == folder for file in files)} {folder}" for folder in folders)
        print(f"{what}, as {twin}: {len(files)} files (at most {most}): {parts}", *files if given.list else (), sep="\n  ")


if __name__ == "__main__":
    main()
