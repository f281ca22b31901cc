"""The papers that texts cite: title, authors, journal, pages and year, wherever each is named."""
from __future__ import annotations

import re
from collections.abc import Iterator
from dataclasses import dataclass

from page_tables import TOP, plain, text_of
from trials import Trial

HISTORY, MANUAL, CITATION = "docs/history.md", "docs/l6.1", "CITATION.cff"
JOURNAL = "Communications of the ACM"
MONTHS = ("January", "February", "March", "April", "May", "June", "July", "August", "September", "October", "November", "December")
TEXTS = (
    "README.md", CITATION, MANUAL, "library/l6_store.h", "library/l6_store.pc", "library/python/l6_store.py",
    "library/rust/Cargo.toml", "library/rust/src/lib.rs", "tools/make_deb", *(str(it.relative_to(TOP)) for it in sorted((TOP / "docs").glob("*.md"))),
)


@dataclass(frozen=True)
class Paper:
    """A paper in the Communications of the ACM, as the journal has it."""

    authors: tuple[str, ...]
    title: str
    volume: int
    issue: int
    month: str
    year: int
    first: int  # page
    last: int


STORAGE = Paper(("Knowlton",), "A Fast Storage Allocator", 8, 10, "October", 1965, 623, 624)
LANGUAGE = Paper(("Knowlton",), "A Programmer's Description of L6", 9, 8, "August", 1966, 616, 625)
PAPERS = (
    STORAGE, LANGUAGE,
    Paper(("Hirschberg",), "A Class of Dynamic Memory Allocation Algorithms", 16, 10, "October", 1973, 615, 618),
    Paper(("Shen", "Peterson"), "A Weighted Buddy Method for Dynamic Storage Allocation", 17, 10, "October", 1974, 558, 562),
    Paper(("Peterson", "Norman"), "Buddy Systems", 20, 6, "June", 1977, 421, 431),
)


def in_history() -> Iterator[Trial]:
    """The sources of the page on history, and the years in its text."""
    told, _, sources = plain(text_of(HISTORY)).partition("## Sources")
    pattern = r'- ([^"]*), "([^"]*)"\. \*Communications of the ACM\* (\d+)\((\d+)\), (\w+) (\d{4}), pp\. (\d+)-(\d+)\.'
    entries = re.findall(pattern, sources)
    found = tuple(
        Paper(tuple(re.findall(r"(\w+)(?= and |$)", who)), title, int(volume), int(issue), month, int(year), int(first), int(last))
        for who, title, volume, issue, month, year, first, last in entries
    )
    yield f"the papers in {HISTORY}", set(PAPERS), set(found)
    years = {paper.authors: paper.year for paper in PAPERS if paper not in (STORAGE, LANGUAGE)}
    named = re.findall(r"\b([A-Z][a-z]+)(?: and ([A-Z][a-z]+))?(?:,| compared the family in) (\d{4})", told)
    said = {(first, second) if second else (first,): int(year) for first, second, year in named}
    yield f"years beside names in {HISTORY}", years, {who: said.get(who) for who in years}


def in_other_forms() -> Iterator[Trial]:
    """Knowlton's papers in the manual page and in the citation."""
    blocks = re.findall(r"^\.Rs\n(.*?)^\.Re$", text_of(MANUAL), re.DOTALL | re.MULTILINE)
    found = [dict(re.findall(r"^\.%([A-Z]) (.*)$", block, re.MULTILINE)) for block in blocks]
    expected = [
        {"A": "Kenneth C. Knowlton", "T": it.title, "J": f"{JOURNAL} {it.volume}({it.issue})",
         "P": f"pp. {it.first}\\(en{it.last}", "D": f"{it.month} {it.year}"} for it in (STORAGE, LANGUAGE)
    ]
    yield f"the papers in {MANUAL}", expected, found
    references = text_of(CITATION).partition("\nreferences:\n")[2].split("  - type: article\n")[1:]
    numbers = [{key: int(value) for key, value in re.findall(r"^    (\w+): (\d+)$", it, re.MULTILINE)} | {
        "title": "".join(re.findall(r"^    title: (.*)$", it, re.MULTILINE))} for it in references]
    yield f"the papers in {CITATION}", [
        {"volume": it.volume, "issue": it.issue, "year": it.year, "month": MONTHS.index(it.month) + 1, "start": it.first,
         "end": it.last, "title": it.title} for it in (LANGUAGE, STORAGE)
    ], numbers


def in_passing() -> Iterator[Trial]:
    """Where a text names the paper on the allocator by its journal, or that on the language by its year."""
    journal: dict[str, set[tuple[str, ...]]] = {}
    year: dict[str, set[str]] = {}
    count = 0
    for name in TEXTS:
        text = plain(re.sub(r"^(?://[/!]|#) ", "", text_of(name), flags=re.MULTILINE))
        journals = set(re.findall(r"\bCACM (\d+)\((\d+)\), (\d{4})", text))
        years = set(re.findall(r"\((?:Kenneth )?Knowlton, (\d{4})\)", text))
        journal |= {name: journals} if journals else {}
        year |= {name: years} if years else {}
        count += bool(journals) + bool(years)
    of_storage = tuple(str(it) for it in (STORAGE.volume, STORAGE.issue, STORAGE.year))
    yield "the journal of the paper on the allocator", dict.fromkeys(journal, {of_storage}), journal
    yield "the year of the paper on the language", dict.fromkeys(year, {str(LANGUAGE.year)}), year
    yield "texts that name a paper in passing", True, count >= 10


def citations() -> Iterator[Trial]:
    """All of them."""
    yield from in_history()
    yield from in_other_forms()
    yield from in_passing()
