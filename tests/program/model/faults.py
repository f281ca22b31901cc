"""What a job can be refused for."""
from __future__ import annotations

import re


class Fault(Exception):
    """A job is refused: the line for standard error without its beginning, and the exit status."""

    def __init__(self, line: str, status: int = 4) -> None:
        super().__init__(line)
        self.line = f"l6: {line}\n"
        self.status = status

    @property
    def card(self) -> int:
        """The card that the line names, or 0."""
        found = re.match(r"l6: card (\d+): ", self.line)
        return int(found[1]) if found else 0


class NoReading(Exception):
    """Something on a card has no reading."""


class PastLimit(Exception):
    """A card has a statement, a `+`, a test or an operation too many."""


class NotAnImage(Exception):
    """Words are those of no program."""
