"""Random sessions are answered to the byte as by the reference model. One that is not is told by its few requests."""

import collections
import re

import pytest

from acceptance import client
from acceptance.random_sessions import KEPT, Session

SEEDS = sorted({*range(100), *KEPT})
# What must come in answers: refusals, but the one of a run that there is not; causes, remarks, places of a container.
MUST_COME = [*(f'"code":{number}' for number in range(1, 29) if number != 26), '"kind":1', '"kind":2',
             *(f'"cause":{number}' for number in (1, 2, 3, 4, 5, 6, 7, 8, 11, 12)),
             *(f'"place":"{place}"' for place in ("shelf", "desk", "out"))]
LEAST = 5


@pytest.mark.parametrize("seed", SEEDS)
def test_session(seed: int, program: client.Program) -> None:
    Session(seed).play(program)


def test_a_hundred_sessions_meet_each_refusal() -> None:
    answers = b"".join(answer for seed in SEEDS for _, answer in Session(seed).pairs)
    came = collections.Counter(re.findall(r'"(?:code|cause|kind|place)":(?:\d+|"\w+")', answers.decode()))
    assert {it: came[it] for it in MUST_COME if came[it] < LEAST} == {}
