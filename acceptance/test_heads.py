"""Heads of requests, each answered by its rule.

Most of these heads end the connection, so each would need a file of its own; they are made here from heads.txt. After each
head comes a question, which is answered if the connection stays open and not if it is closed."""

from pathlib import Path

import pytest

from acceptance import client
from acceptance.reference_model.limits import LONGEST_BODY as LARGEST, LONGEST_HEAD as HEAD
from acceptance.scenarios import Scenario

ASKED = "GET /desk/issued HTTP/1.1"
HOST = "Host: x"
NOTHING = ["200 []"]
BAD = ['400 close {"error":"bad request"}']
ANSWERS = {
    "200": NOTHING, "200 twice": NOTHING * 2, "200 last": ["200 close []"], "400": BAD, "404": ['404 {"error":"not found"}'],
    "413": ['413 close {"error":"too large"}'], "501": ['501 close {"error":"not implemented"}'],
}


def to_head(answered):
    """The same answer to HEAD, without its body."""
    status, _, body = answered[0].split(" ", 2)
    head = client.reply(int(status), body.encode(), client.JSON, "Connection: close").decode().splitlines()[:-1]
    return [f"< {it}".rstrip() for it in head]


ANSWERS |= {f"head {status}": to_head(ANSWERS[status]) for status in ("400", "413", "501")}


def head_lines(*lines):
    """A head of these lines; each %HH is a byte."""
    return [f">% {it}%0D%0A" for it in (*lines, "")]


QUESTION = head_lines(ASKED, HOST)


def with_question(head, answered):
    is_closed = " close " in answered[0] or "< Connection: close" in answered
    return [*head, *answered, *QUESTION, *([] if is_closed else NOTHING)]


# ---- how a session ends

CUT = "ends 3 cut"
DOTS = "." * 30
ENDINGS = {
    "refused_after_an_answer": [*QUESTION, *NOTHING, *head_lines(ASKED), *BAD, *QUESTION],
    "too_long_after_an_answer": [*QUESTION, *NOTHING, f">| {'x' * HEAD}", *BAD],
    "half_a_head_after_a_refusal": [*head_lines(ASKED), *BAD, ">| GET /desk"],
    "empty_lines_after_an_answer": [*QUESTION, *NOTHING, ">", ">$", ">"],
    "half_an_empty_line_after_an_answer": [*QUESTION, *NOTHING, ">", ">^", CUT],
    "a_return_and_an_empty_line": [">^", ">", CUT],
    "a_return_in_an_empty_line": [">^", ">", ">", *BAD],
    "no_last_empty_line": [f"> {ASKED}", f"> {HOST}", CUT],
    "half_of_the_last_line": [f"> {ASKED}", f"> {HOST}", ">^", CUT],
    "a_return_and_a_byte_in_a_line": [f"> {ASKED}", f"> {HOST}", ">^", ">$ x", CUT],
    "one_byte": [">| G", CUT],
    "no_body": [*head_lines("POST /desk/run HTTP/1.1", HOST, "Content-Length: 1"), CUT],
    "a_body_without_its_last_byte": [
        *head_lines("GET /nothing HTTP/1.1", HOST, "Content-Length: 31"), f">| {DOTS}", CUT,
    ],
    "the_largest_length": [*head_lines("POST /desk/run HTTP/1.1", HOST, f"Content-Length: {LARGEST}"), CUT],
    "most_empty_lines": [">$"] * (HEAD - 1),
    "an_empty_line_more": [*[">$"] * HEAD, *BAD],
    "empty_lines_and_the_longest_head": [*[">$"] * (HEAD - len(f"{ASKED}{HOST}") - 6), *QUESTION, *NOTHING],
    "empty_lines_and_a_byte_more": [*[">$"] * (HEAD - len(f"{ASKED}{HOST}") - 5), *QUESTION, *BAD],
    "the_longest_head_that_is_cut": [f">| {'x' * (HEAD - 1)}", CUT],
}
SCENARIOS: dict[str, list[str]] = {}
for name, status, *head in client.table(Path(__file__).with_name("heads.txt")):
    lines = [line.replace("BEYOND", str(LARGEST + 1)) for line in head]
    SCENARIOS.setdefault(name, []).extend(with_question(head_lines(*lines), ANSWERS[status]))
SCENARIOS |= ENDINGS


@pytest.mark.parametrize("name", SCENARIOS)
def test_head(name: str, program: client.Program, room: Path) -> None:
    Scenario(name, SCENARIOS[name]).play(program, room / "office.db")
