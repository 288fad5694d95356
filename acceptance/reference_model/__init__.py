"""An office by its rules, plainly and slowly, in memory: what the built program is held against by
test_random_sessions.py.

It was written from the rules, and not from the program. `get` and `post` ask by path and body. What it does not know: heads of
requests, how deep JSON may nest, a surrogate that stands alone in it, streams that fail and memory that runs out."""
import collections
import csv
import pickle
from typing import Any

from .answers import answer, as_json
from .catalogue import Catalogue
from .desk import Desk
from .elements import ELEMENTS, text
from .files import BOX
from .refusals import Refused
from .shown import Shown

__all__ = ["BOX", "ELEMENTS", "Office", "as_json", "text"]
csv.field_size_limit(1 << 30)


class Office(Catalogue, Desk, Shown):
    """An office with its settings and its day, and nothing else yet."""

    def __init__(self, country="GB", repo="0999", seats=2, daily=3, hands=1, run=2, day="2024-03-01"):
        self.country, self.repo = country, repo
        self.seats, self.daily, self.hands, self.run_size, self.day = int(seats), int(daily), int(hands), int(run), day
        self.units, self.tops, self.next, self.containers, self.permits = {}, [], 1, [], {}
        self.readers, self.seated, self.places = {}, {}, {}
        self.orders, self.waiting, self.placed, self.runs = {}, [], collections.Counter(), {}

    def get(self, path: str) -> tuple[int, Any]:
        """The status and the answer to a question: a text, or what is told as JSON."""
        return answer(self, "GET", path, b"")

    def post(self, path: str, body: bytes) -> tuple[int, Any]:
        return answer(self, "POST", path, body)

    def carry_out(self, name: str, /, *words: Any, **members: Any) -> Any:
        """What a command tells; one that is refused is taken back whole."""
        kept = pickle.dumps(vars(self))
        try:
            return getattr(self, name)(*words, **members)
        except Refused:
            vars(self).update(pickle.loads(kept))
            raise
