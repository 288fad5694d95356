"""Refusals, by their numbers and names: those to which front/shared/refusals.json has words, in this order."""
import json
from pathlib import Path

WORDS = Path(__file__).resolve().parents[2] / "front" / "shared" / "refusals.json"
NAMES = list(json.loads(WORDS.read_text(encoding="utf-8"))["desk"])


class Refused(Exception):
    """A refusal of a command or a question, with what is told of it."""

    def __init__(self, code, **members):
        self.told = {"code": code, "refused": NAMES[code - 1], **members}


def refuse(code, holds=True, **members):
    """Raises Refused with the number of a refusal, if the condition holds."""
    if holds:
        raise Refused(code, **members)
