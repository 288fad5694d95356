"""What is answered to a request by its path and its body."""
import json

from .refusals import Refused
from .requests import Bad, members_of, route_of

ERRORS = {400: "bad request", 404: "not found", 405: "method not allowed"}


def error(status):
    return status, {"error": ERRORS[status]}


def answer(office, method, path, body):
    """The status, and what is told (a text, or what is written as JSON): of the first check that fails, or what the path asks
    for."""
    route = route_of(path)
    if route is None:
        return error(404)
    if method != route.method:
        return error(405)
    return answer_question(office, route) if method == "GET" else answer_command(office, route, body)


def answer_question(office, route):
    try:
        return 200, getattr(office, route.name)(*route.words)
    except Refused:
        return error(404)


def answer_command(office, route, body):
    """The answer to a command, which is taken back whole if it is refused."""
    try:
        members = {} if route.wanted is None else members_of(body, route.wanted)
    except Bad:
        return error(400)
    words = [*route.words, body] if route.is_import else route.words
    try:
        return 200, office.carry_out(route.name, *words, **members)
    except Refused as it:
        return 409, it.told


def as_json(value):
    """A value as JSON in one line, with its members in the order of their names."""
    return json.dumps(value, separators=(",", ":"), sort_keys=True, ensure_ascii=False)
