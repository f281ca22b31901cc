"""Sentences of pages whose words follow from what was observed: the word that stands in a gap is compared."""
from __future__ import annotations

import re

from page_tables import plain, text_of
from trials import Trial


def told(page: str, pattern: str, *words: str) -> Trial:
    """The trial that a page has a sentence once, and in its gaps the words that were observed."""
    return f"{page}: {pattern}", [words[0] if len(words) == 1 else words], re.findall(pattern, plain(text_of(page)))


def either(holds: bool, this: str, other: str) -> str:
    """The word for what holds, or the one for what does not."""
    return this if holds else other


def the_one(words: dict[str, bool]) -> str:
    """The word of the one case that was observed; if there is none, or more than one, these say so."""
    return " and ".join(word for word, holds in words.items() if holds) or "none of " + ", ".join(words)


COUNTS = ("no", "one", "two", "three", "four", "five", "six", "seven", "eight", "nine", "ten")


def in_words(count: int) -> str:
    """A small number as a page writes it."""
    return COUNTS[count] if 0 <= count < len(COUNTS) else str(count)
