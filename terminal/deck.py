"""The deck of a session: its cards as its file has them, and whether the file has changed."""
from __future__ import annotations

import re
from pathlib import Path

VALUED = {"--input", "-x", "--prompt", "--store", "--steps", "--output"}  # options that a value follows
MARK = re.compile(r"^\$(?:INPUT|COMMANDS)", re.MULTILINE | re.IGNORECASE)


class Deck:
    """The cards of a deck."""

    def __init__(self, words: list[str]) -> None:
        self.path = path_in(words)
        self.cards: list[str] = []
        self.stamp: tuple[int, int] | None = None
        self.read()

    def read(self) -> None:
        """Reads the file."""
        self.stamp = self.stamp_now()
        text = self.path.read_text("utf-8", "replace") if self.stamp else ""
        self.cards = MARK.split(text)[0].splitlines()

    def stamp_now(self) -> tuple[int, int] | None:
        """When the file was last changed, and its size; None if it can't be found."""
        try:
            known = self.path.stat()
        except OSError:
            return None
        return known.st_mtime_ns, known.st_size

    @property
    def _statements(self) -> list[str]:
        """The cards that are no comments."""
        return [card for card in self.cards if not card.startswith("*")]

    @property
    def labels(self) -> list[str]:
        """The labels that cards begin with."""
        found = (re.match(r"[A-Za-z][A-Za-z0-9]*", card) for card in self._statements)
        return sorted({it[0].upper() for it in found if it})

    @property
    def bugs(self) -> list[str]:
        """The letters that groups begin with."""
        return sorted({it.upper() for card in self._statements for it in re.findall(r"\(([A-Za-z])", card)})

    @property
    def fields(self) -> list[str]:
        """The names that definitions give."""
        return sorted({it.upper() for card in self._statements for it in re.findall(r",[Dd]([A-Za-z0-9]),", card)})


def path_in(words: list[str]) -> Path:
    """The file of the deck among the words of the command line."""
    rest = iter(words)
    for word in rest:
        if word in VALUED:
            next(rest, None)
        elif not word.startswith("-"):
            return Path(word)
    return Path("-")
