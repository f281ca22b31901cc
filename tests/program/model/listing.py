"""Listings: a deck as it was read, its words, and its labels."""
from __future__ import annotations

from .cards import Assembly
from .characters import NO_CODE
from .images import words_of_statement
from .programs import Statement


def listing_of(assembly: Assembly) -> bytes:
    """The listing of a deck."""
    numbers = {one.first_card: number for number, one in enumerate(assembly.spelled)}
    ends = {one.last_card: one.statement for one in assembly.spelled}
    lines = []
    for card, columns in enumerate(assembly.cards, 1):
        number = str(numbers.get(card, ""))
        lines.append(f"{card:7} {number:>5}  {columns.replace(NO_CODE, '?')}".rstrip(" "))
        if card in ends:
            lines += lines_of_words(ends[card])
    done = assembly.program[-1]
    lines += [f"{'':7} {len(assembly.spelled):5}   DONE", *lines_of_words(done), "LABELS"]
    lines += [f"{one.label:6} {number:5}" for number, one in enumerate(assembly.spelled) if one.label]
    return "".join(line + "\n" for line in lines).encode("ascii")


def lines_of_words(statement: Statement) -> list[str]:
    """The lines of a statement's words."""
    return [f"{'':15}{word:012o}" for word in words_of_statement(statement)]
