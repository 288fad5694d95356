"""client.py itself: all tests compare what the program answers by it, so its own faults could hide theirs."""

import io

import pytest

from acceptance import client
from acceptance.client import BUSY, Ended, Reply

ISSUED = b"HTTP/1.1 200 OK\r\nContent-Type: application/json\r\nContent-Length: 2\r\n\r\n[]"


def test_replies_that_are_read() -> None:
    issued, busy = Reply(200, b"HTTP/1.1 200 OK", b"[]"), client.replies(BUSY)[0]
    assert client.replies(ISSUED + BUSY + ISSUED) == [issued, busy, issued]
    assert (busy.status, busy.json()) == (503, {"error": "busy"})
    assert client.replies(b"") == []


def test_replies_that_are_cut() -> None:
    for size in range(1, len(ISSUED)):
        assert client.replies(ISSUED[:size]) != client.replies(ISSUED), size
    assert client.read_reply(io.BytesIO()) == Reply(0, b"", b"")


def test_expect_end_shows_the_bytes_around_the_first_difference() -> None:
    found, wanted = Ended(0, b"a" * 999 + b"b" + b"c" * 999, b""), Ended(3, b"a" * 1000, b"cut\n")
    client.expect_end(wanted, wanted, "the same")
    with pytest.raises(AssertionError) as told:
        client.expect_end(found, wanted, "a talk")
    near = b"a" * 200 + b"b" + b"c" * 199, b"a" * 201
    assert str(told.value) == f"a talk: 0, {near[0]!r}, b'', wanted 3, {near[1]!r}, {wanted.message!r}"
