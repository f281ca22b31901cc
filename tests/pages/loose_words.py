#!/usr/bin/env python3
"""Lists the sentences of the pages that no trial holds: what such a sentence says could be turned round, and nothing would fail.

    python3 tests/pages/loose_words.py PROGRAM [PAGE..]    lists them by page and line, with the words that are not held in capitals

A word is held where a trial looks for it in its page, by the words of a pattern or by what a gap of it takes, or where it
compares a text of the page. All trials of the steps facts, sentences, tables, formats, named and pages are made for that, and
each pattern is watched. Last comes how many words are held.

It is no step: much of what is not held makes no claim, as a reason or an invitation, or is held by other steps, as what a page
tells of the page for browsers.
"""
from __future__ import annotations

import importlib
import re
import sys
from collections.abc import Callable, Iterable, Iterator, Mapping
from multiprocessing import get_context
from pathlib import Path
from typing import Any

TOP = Path(__file__).resolve().parents[2]
sys.path[:0] = [str(TOP / "tests" / it) for it in ("harness", "program")]
STEPS = ("facts", "table_decks", "format_pages", "named", "documents")  # and the modules of sentences
READ = ("*.md", "docs/*.md", "docs/*.1", "*/README.md", "library/*.h")
WRITTEN = {"docs/contracts.md", "docs/definitions.md"}  # (by tools)
WORD = re.compile(r"[^\W_]+")
BLOCK = re.compile(r"^( *)```.*?^\1```$|<!--.*?-->", re.DOTALL | re.MULTILINE)
OF_MANUAL = re.compile(r"^\.Bd -literal.*?^\.Ed$|^\.\\\"[^\n]*$", re.DOTALL | re.MULTILINE)
CODE = re.compile(r"(?:\A|\*/).*?(?:/\*|\Z)", re.DOTALL)  # of a header of C, between its comments
HIDDEN = re.compile(r"\]\([^)]*\)|^\.[A-Z]\w\b", re.MULTILINE)  # what links lead to, and what formats a manual page
CUT = re.compile(r"(?<=[.?!])[)`*]*\s+(?=[A-Z`*(\[\"])|\n\s*\n|\n(?=\s*(?:- |\d+\. |#|\|))|(?<=\|) ")
OF_LINES = re.compile(r"(?<=\.)\n|\n(?=\.(?:Pp|It|Sh|Ss|El|Bl))")  # the same in a manual page
LEAST = 3  # words in a row that tell a place of a page from others
MOST = 12  # words that a gap takes: what takes more is no gap, but the way to the next word
LONGEST = 40  # words of a value that is compared
OF_TEXTS = ("findall", "finditer", "search", "match", "fullmatch")
PLAIN: dict[str, Callable[..., Any]] = {it: getattr(re, it) for it in ("compile", "sub", "subn", "split", *OF_TEXTS)}
Trials = Iterable[tuple[str, object, object]]


class Page:
    """The words of a page outside of its examples, and which of them are held."""

    def __init__(self, name: str) -> None:
        self.name = name
        self.text = without_examples(name, (TOP / name).read_text("utf-8"))
        found = list(WORD.finditer(self.text))
        self.words = [it[0].lower() for it in found]
        self.places = [it.start() for it in found]
        hidden = {at for it in HIDDEN.finditer(self.text) for at in range(*it.span())}
        self.shown = [at for at, place in enumerate(self.places) if place not in hidden]
        self.held: set[int] = set()
        self.rows = [list(range(len(self.words))), self.shown]  # (trials read a page with what links lead to, or without)
        self.starts = [self.starts_of(row) for row in self.rows]

    def starts_of(self, row: list[int]) -> dict[tuple[str, ...], list[int]]:
        """Where in a row of words each few of them stand."""
        starts: dict[tuple[str, ...], list[int]] = {}
        for at in range(len(row) - LEAST + 1):
            starts.setdefault(tuple(self.words[it] for it in row[at:at + LEAST]), []).append(at)
        return starts

    def hold(self, words: list[str], which: list[bool]) -> None:
        """Notes that some of these words are held, wherever the page has them all in a row."""
        for row, starts in zip(self.rows, self.starts):
            for at in starts.get(tuple(words[:LEAST]), []):
                there = row[at:at + len(words)]
                if [self.words[it] for it in there] == words:
                    self.held |= {it for it, is_held in zip(there, which) if is_held}

    def sentences(self) -> Iterator[list[int]]:
        """The words of each sentence, of each point of a list and of each cell of a table; headings are left out."""
        cut = OF_LINES if self.name.endswith(".1") else CUT
        start, left = 0, list(self.shown)
        for end in (*(it.start() + 1 for it in cut.finditer(self.text)), len(self.text)):
            here = [it for it in left if self.places[it] < end]
            left = left[len(here):]
            if here and not self.text[start:end].lstrip().startswith("#"):
                yield here
            start = end

    def shown_as(self, sentence: list[int]) -> str:
        """A sentence in one line, with its place, and with the words that are not held in capitals."""
        first, last = self.places[sentence[0]], self.places[sentence[-1]] + len(self.words[sentence[-1]])
        text = self.text[first:last]
        for it in sentence:
            if it not in self.held:
                at = self.places[it] - first
                text = text[:at] + self.words[it].upper() + text[at + len(self.words[it]):]
        return f"{self.name}:{self.text.count(chr(10), 0, first) + 1}: {' '.join(text.split())}"


def without_examples(name: str, text: str) -> str:
    """A page with blanks in the place of its examples and comments, or a header with its comments alone."""
    for pattern in (OF_MANUAL if name.endswith(".1") else CODE if name.endswith(".h") else BLOCK,):
        text = pattern.sub(lambda it: re.sub(r"[^\n]", " ", it[0]), text)
    return text


PAGES: dict[str, Page] = {}


class Watched:
    """A pattern whose matches are noted: words that the pattern has itself, and those that its groups take."""

    def __init__(self, pattern: re.Pattern[str]) -> None:
        self.bare = pattern
        text = pattern.pattern
        self.own = {it.lower() for it in WORD.findall(re.sub(r"\\[A-Za-z]", " ", text))} if isinstance(text, str) else set()

    def __getattr__(self, name: str) -> Any:
        """What a pattern has; of what finds something the matches are noted before."""
        made = getattr(self.bare, name)
        if name not in OF_TEXTS:
            return made

        def noted(*words: Any) -> Any:
            """What is found, after it was noted."""
            for it in self.bare.finditer(*words) if name in ("findall", "finditer") else filter(None, [made(*words)]):
                self.note(it)
            return made(*words)
        return noted

    def note(self, found: re.Match[str]) -> None:
        """Notes a match in each page that has it."""
        if not self.own or not isinstance(found.string, str):
            return
        groups = [range(*found.span(it)) for it in range(1, self.bare.groups + 1)]
        short = [it for it in groups if it and len(WORD.findall(found.string, it.start, it.stop)) <= MOST]
        parts = list(WORD.finditer(found.string, *found.span()))
        words = [it[0].lower() for it in parts]
        which = [word in self.own or any(it.start() in one for one in short) for word, it in zip(words, parts)]
        if len(words) >= LEAST and not self.own.isdisjoint(words):
            for page in PAGES.values():
                page.hold(words, which)


def bare(pattern: Any) -> Any:
    """A pattern that is not watched."""
    return pattern.bare if isinstance(pattern, Watched) else pattern


def watch() -> None:
    """Watches the patterns of all modules that are loaded from now on."""
    def compiled(pattern: Any, *flags: Any, **named: Any) -> Watched:
        """A pattern that is watched."""
        return Watched(PLAIN["compile"](bare(pattern), *flags, **named))

    def plain(name: str) -> Callable[..., Any]:
        """A function that tells of no match, as it was."""
        return lambda pattern, *words, **named: PLAIN[name](bare(pattern), *words, **named)

    def watched(name: str) -> Callable[..., Any]:
        """A function that tells of matches, which are noted."""
        return lambda pattern, text, *flags, **named: getattr(compiled(pattern, *flags, **named), name)(text)

    for name in PLAIN:
        setattr(re, name, compiled if name == "compile" else watched(name) if name in OF_TEXTS else plain(name))


def texts_in(value: object) -> Iterator[str]:
    """The texts in a value."""
    if isinstance(value, str):
        yield value
    elif isinstance(value, Mapping):
        yield from texts_in([*value, *value.values()])
    elif isinstance(value, (list, tuple, set, frozenset)):
        for it in value:
            yield from texts_in(it)


def held_by(number: int) -> dict[str, set[int]]:
    """Which words of each page one of the groups holds."""
    for name, _, actual in GROUPS[number]:
        for text in texts_in(actual):
            words = [it.lower() for it in WORD.findall(text)]
            if LEAST <= len(words) <= LONGEST:
                for page in PAGES.values():
                    if page.name in name:
                        page.hold(words, [True] * len(words))
    return {it.name: it.held for it in PAGES.values()}


GROUPS: list[Trials] = []


def main() -> int:
    """Makes the trials, and lists what they leave out; answers the exit status."""
    program = str(Path(sys.argv[1]).resolve())
    files = sorted({str(file.relative_to(TOP)) for pattern in READ for file in TOP.glob(pattern)} - WRITTEN)
    PAGES.update({it: Page(it) for it in sys.argv[2:] or files})
    watch()
    sentences = importlib.import_module("sentences")
    GROUPS.extend(made(program) for made, _ in (*sentences.MODULES, *sentences.BY_GROUPS))
    GROUPS.extend(importlib.import_module(it).trials(program) for it in STEPS)
    with get_context("fork").Pool(2, maxtasksperchild=1) as pool:
        for found in pool.imap_unordered(held_by, range(len(GROUPS)), chunksize=1):
            for name, words in found.items():
                PAGES[name].held |= words
    held = total = 0
    for page in PAGES.values():
        sentences_here = list(page.sentences())
        is_held = [it in page.held for one in sentences_here for it in one]
        held, total = held + sum(is_held), total + len(is_held)
        print(f"{page.name}: {sum(is_held)} of {len(is_held)} words are held")
        for one in sentences_here:
            if not page.held.issuperset(one):
                print(f"  {page.shown_as(one)}")
    print(f"{held} of {total} words are held")
    return 0


if __name__ == "__main__":
    if len(sys.argv) < 2:
        sys.exit(__doc__)
    sys.exit(main())
