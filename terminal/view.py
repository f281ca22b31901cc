"""What is drawn at a terminal besides the dialogue: colours, and cards that stay in view."""
from __future__ import annotations

import os
import re
import shutil
import sys

from deck import Deck

KEPT = 9  # cards in view
NUMBERED = 6  # columns of a card's number and the blank after it
# The parts of an answer, and how they are shown: where the session is; a trap; another end; what comes next; what
# has changed.
STYLES = (
    (re.compile(r"^AT .*$", re.MULTILINE), "1"),
    (re.compile(r"^== TRAP.*$", re.MULTILINE), "1;31"),
    (re.compile(r"^== (?!TRAP).*$", re.MULTILINE), "1;32"),
    (re.compile(r"^ +\^+$", re.MULTILINE), "1;33"),
    (re.compile(r"^      watch .*$", re.MULTILINE), "36"),
)
PLACE = re.compile(r"^((?:AT|==) .*)\n(?: *(\d+) .*\n)?", re.MULTILINE)
MARKED = re.compile(r"^( *(\d+) )(.*)\n( +)(\^+)$", re.MULTILINE)


class Paint:
    """Colours, where they are wanted: on a terminal that knows them, and without NO_COLOR."""

    def __init__(self) -> None:
        self.is_on = sys.stdout.isatty() and not os.environ.get("NO_COLOR") and os.environ.get("TERM") != "dumb"

    def put(self, style: str, text: str) -> str:
        """A text in a style."""
        return f"\033[{style}m{text}\033[0m" if self.is_on else text

    def answer(self, text: str) -> str:
        """An answer, its parts each in their style."""
        for pattern, style in STYLES if self.is_on else ():
            text = pattern.sub(lambda found, style=style: self.put(style, found[0]), text)  # type: ignore[misc]
        return text


class View:
    """Cards that stay in view above the dialogue, which scrolls below them."""

    def __init__(self, deck: Deck, paint: Paint) -> None:
        self._deck, self._paint = deck, paint
        self.is_on = False
        self._card, self._mark, self._title = 1, (0, 0), ""
        self._size = shutil.get_terminal_size()

    @property
    def rows(self) -> int:
        """How many rows it takes; none where the terminal is too low."""
        return KEPT + 1 if self.is_on and shutil.get_terminal_size().lines >= 2 * KEPT else 0

    def follow(self, answer: str) -> None:
        """Takes the card of an answer, and the columns that are marked on it, if it has one."""
        found = PLACE.search(answer)
        if not found:
            return
        self._title = found[1]
        marked = MARKED.search(answer)
        if marked:
            self._card, self._mark = int(marked[2]), (len(marked[4]) - len(marked[1]), len(marked[5]))
        elif found[2]:
            self._card, self._mark = int(found[2]), (0, 0)

    def frame(self) -> None:
        """Has the dialogue scroll below it, or on the whole terminal."""
        lines, rows = shutil.get_terminal_size().lines, self.rows
        sys.stdout.write(f"\033[{rows + 1};{lines}r\033[{lines};1H" if rows else "\0337\033[r\0338")
        self.draw()
        sys.stdout.flush()

    def fit(self) -> None:
        """Frames it again if the terminal has another size than before. (The signal of that is readline's.)"""
        if self.is_on and self._size != shutil.get_terminal_size():
            self._size = shutil.get_terminal_size()
            self.frame()

    def draw(self) -> None:
        """Draws it, and leaves the cursor where it is."""
        if not self.rows:
            return
        width = shutil.get_terminal_size().columns
        first = max(1, min(self._card - KEPT // 2, len(self._deck.cards) - KEPT + 1))
        drawn = [f"\033[{row + 1};1H\033[2K{self._row(first + row, width)}" for row in range(KEPT)]
        title = f" {self._deck.path.name}  {self._title} "[:width].ljust(width)
        bar = f"\033[7m{title}\033[0m" if self._paint.is_on else title.rstrip().ljust(width, "-")
        sys.stdout.write(f"\0337{''.join(drawn)}\033[{KEPT + 1};1H\033[2K{bar}\0338")
        sys.stdout.flush()

    def _row(self, number: int, width: int) -> str:
        """The row of a card."""
        if number > len(self._deck.cards):
            return ""
        text = f"{number:{NUMBERED - 1}} {self._deck.cards[number - 1]}"[:width]
        if number != self._card:
            return text
        if not self._paint.is_on:
            return f">{text[1:]}"
        start, end = self._mark[0] + NUMBERED, self._mark[0] + NUMBERED + self._mark[1]
        return f"\033[1m{text[:start]}\033[7m{text[start:end]}\033[27m{text[end:]}\033[0m"

    def leave(self) -> None:
        """Gives the whole terminal back."""
        if self.rows:
            sys.stdout.write(f"\033[r\033[{shutil.get_terminal_size().lines};1H")
            sys.stdout.flush()
