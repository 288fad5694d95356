"""Paths, and the members of bodies: what a request asks of an office."""
import dataclasses
import json
import re
from typing import Optional

DAYS_OF_MONTHS = [31, 28, 31, 30, 31, 30, 31, 31, 30, 31, 30, 31]
FIRST_YEAR = 1900
GREATEST = 2**64 - 1


class Bad(Exception):
    """A body that does not say what its path wants."""


def is_leap(year):
    return year % 4 == 0 and (year % 100 != 0 or year % 400 == 0)


def is_day(value):
    """Whether a value is the text of a day of the calendar, from 1900 on."""
    if not isinstance(value, str) or not re.fullmatch("[0-9]{4}-[0-9]{2}-[0-9]{2}", value):
        return False
    year, month, day = map(int, value.split("-"))
    if year < FIRST_YEAR or not 1 <= month <= 12:
        return False
    return 1 <= day <= DAYS_OF_MONTHS[month - 1] + (month == 2 and is_leap(year))


def is_number(value):
    """Whether a value is a whole number of at most 64 bits."""
    return isinstance(value, int) and not isinstance(value, bool) and 0 <= value <= GREATEST


def is_number_or_null(value):
    return value is None or is_number(value)


def is_day_or_null(value):
    return value is None or is_day(value)


def is_status(value):
    return value in ("published", "draft")


def is_truth(value):
    return isinstance(value, bool)


def is_text(value):
    return isinstance(value, str)


COMMANDS = {
    "/public/orders": ("order", {"ticket": is_number, "container": is_number}),
    "/desk/day": ("open_day", {"day": is_day}),
    "/desk/status": ("set_status", {"unit": is_number, "status": is_status, "branch": is_truth}),
    "/desk/closure": ("set_closure", {"unit": is_number, "until": is_day_or_null}),
    "/desk/move": ("move", {"unit": is_number, "parent": is_number_or_null}),
    "/desk/remove": ("remove", {"unit": is_number}),
    "/desk/register": ("register", {"name": is_text, "until": is_day}),
    "/desk/renew": ("renew", {"ticket": is_number, "until": is_day}),
    "/desk/seat": ("take_seat", {"ticket": is_number}),
    "/desk/leave": ("leave_seat", {"ticket": is_number}),
    "/desk/cancel": ("cancel", {"order": is_number}),
    "/desk/run": ("run", None),
    "/desk/reshelve": ("reshelve", None),
    "/desk/issue": ("issue", {"container": is_number, "ticket": is_number}),
    "/desk/return": ("give_back", {"container": is_number}),
    "/desk/permit": ("permit", {"ticket": is_number, "unit": is_number, "until": is_day}),
    "/desk/revoke": ("revoke", {"ticket": is_number, "unit": is_number}),
}
MISSING = {"branch": False}
QUESTIONS = {
    "/public/fonds": "fonds",
    "/public/aid/": "public_aid",
    "/public/units/": "page",
    "/desk/runs/": "slip",
    "/desk/readers/": "reader_report",
    "/desk/queue/": "queue_report",
    "/desk/permits/": "permits_report",
    "/desk/issued": "issued",
}


def whole(digits):
    """A whole number; one with a minus is none, as no member wants it."""
    return float(digits) if digits.startswith("-") else int(digits)


def refuse_constant(word):
    """Python reads NaN and Infinity, JSON has no such words."""
    raise Bad(word)


def members_of(body, wanted):
    try:
        said = json.loads(body.decode(), parse_int=whole, parse_constant=refuse_constant)
    except ValueError as it:
        raise Bad from it
    if not isinstance(said, dict):
        raise Bad
    said = {**MISSING, **said}
    if not all(name in said and is_good(said[name]) for name, is_good in wanted.items()):
        raise Bad
    return {name: said[name] for name in wanted}


def question_of(path):
    """The question that a path names, and its number, if there is such a path."""
    numbered = re.fullmatch("(/.*/)([1-9][0-9]{0,9})", path)
    if numbered:
        return (QUESTIONS[numbered[1]], [int(numbered[2])]) if numbered[1] in QUESTIONS else None
    return (QUESTIONS[path], []) if path in QUESTIONS and not path.endswith("/") else None


def is_import(path):
    return re.fullmatch("/desk/import/[^/]+", path)


@dataclasses.dataclass
class Route:
    """The method of a path, what it asks of an office, the words in the path, and the members that a body needs."""

    method: str
    name: str
    words: list
    wanted: Optional[dict] = None
    is_import: bool = False


def route_of(path):
    if path in COMMANDS:
        name, wanted = COMMANDS[path]
        return Route("POST", name, [], wanted)
    if is_import(path):
        return Route("POST", "import_file", [path.removeprefix("/desk/import/")], is_import=True)
    asked = question_of(path)
    return asked and Route("GET", *asked)
