"""The levels of a line of the status, as Nagios counts them."""

from typing import NamedTuple

OK, WARNING, CRITICAL, UNKNOWN = range(4)
LEVELS = ("OK", "WARNING", "CRITICAL", "UNKNOWN")


def severity(level):
    """How grave a level is: the greater, the graver."""
    return (OK, UNKNOWN, WARNING, CRITICAL).index(level)


class Line(NamedTuple):
    """A line of the status."""

    level: int
    name: str
    text: str

    def severity(self):
        """How grave it is."""
        return severity(self.level)

    def __str__(self):
        return f"{LEVELS[self.level]}: {self.name}: {self.text}"
