"""Wrong rules that are made from the text of definitions that have a line for each case: each limit one higher and one lower,
each refusal by another number and another word, each member of a body by another name, each route at another path and to
another command."""

import re
from collections.abc import Iterator
from pathlib import Path

from mutation.records import Change, Record

TOP = Path(__file__).resolve().parents[1]


def text_of(crate: str, file: str) -> str:
    return Path(TOP, "crates", crate, file).read_text(encoding="utf-8")


def made(name: str, crate: str, file: str, old: str, new: str, refuser: str) -> Record:
    return Record(name, crate, (Change(file, old, new),), refused_by=refuser)


def of_limits() -> Iterator[Record]:
    """The limits of an office. The code has their numbers, and the definitions name them."""
    crate, file, code = "isad_core", "specs/Limits.antt", text_of("isad_core", "src/limits.rt")
    for name in re.findall(r"^(most_\w+) = [A-Z_]+\n", text_of(crate, file), re.M):
        [number] = re.findall(rf"^pub const {name.upper()}: \w+ = ([\d_]+);\n", code, re.M)
        for what, step in (("more", 1), ("fewer", -1)):
            wrong = f"{name} = {int(number) + step}\n"
            yield made(f"{name}: one {what}", crate, file, f"{name} = {name.upper()}\n", wrong,
                       "office_core::laws_of_rules::limits_are_these")


def of_refusals() -> Iterator[Record]:
    """The number and the word of each refusal."""
    crate, file, vector = "desk_core", "specs/Refusals.antt", "office_core::worked::worked_texts"
    text = text_of(crate, file)
    for line, number in re.findall(r"^(refusal_number .* = )(\d+)\n", text, re.M):
        yield made(f"{line}another", crate, file, f"{line}{number}\n", f"{line}{int(number) + 1}\n", vector)
    for line, word in re.findall(r'^(refusal_name .* = codes )"(\w+)"\n', text, re.M):
        yield made(f"{line}another", crate, file, f'{line}"{word}"\n', f'{line}"{word[:-1]}"\n', vector)


def of_members() -> Iterator[Record]:
    """The members of bodies, each by another name."""
    crate, file = "http_messages", "specs/Members.antt"
    for line, form in re.findall(r"^(command_of_form form\.(\w+) v =(?:.*\n)(?: .*\n)*)", text_of(crate, file), re.M):
        for key in re.findall(r'\(codes "(\w+)"\)', line):
            wrong = line.replace(f'(codes "{key}")', f'(codes "{key}s")')
            yield made(f"{form} has no {key}", crate, file, line, wrong, "model_tests::worked::worked_bodies")


def of_routes() -> Iterator[Record]:
    """Each route at another path; each command in place of another."""
    crate, file, vector = "http_messages", "src/table.rt", "model_tests::worked::worked_routes"
    text = text_of(crate, file)
    for path in re.findall(r'"(/[^"]*)"', text):
        wrong = f"{path}x" if "{" not in path else path.replace("{", "x{")
        yield made(f"there is no {path}", crate, file, f'"{path}"', f'"{wrong}"', vector)
    forms = re.findall(r"Leads::TakesForm\(Form::\w+\)", text)
    for form, other in zip(forms, [*forms[1:], forms[0]]):
        yield made(f"{form} is taken for the next", crate, file, form, other, vector)


def make_rules() -> list[Record]:
    return [*of_limits(), *of_refusals(), *of_members(), *of_routes()]
