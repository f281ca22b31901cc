"""Figures of the pages that are limits: the number of each is compared, or it is said why it is no limit.

A limit is a number after words as "at most" or "up to", or between two numbers with "to". It is tied where a sentence of
`facts.py` has it, or where a mark follows it that no reader sees, with the name of a fact below:

    at most 65,535<!-- fact: most_repeats --> times

Blocks, spans of code and tables are left out: examples are run, and tables are compared row by row. Of a header of C the
comments are read.
"""
from __future__ import annotations

import re
from collections.abc import Iterator

from model import characters, operations, programs, store
from page_tables import TOP, plain, text_of
from trials import Trial

PAGES = (
    "README.md", "CONTRIBUTING.md", "ports/README.md", "web/README.md", "docs/l6.1", "docs/l6db.1",
    "library/l6_store.h", "library/l6_offset.h",
    *(f"docs/{name}.md" for name in (
        "allocator", "answers", "command-line", "debugger", "history", "image", "l6db", "language", "library", "listing", "page",
        "places", "proof", "robustness", "summary", "trace")),
)
DIGITS = r"(?:\d{1,3}(?:,\d{3})+|\d+)"
LIMIT = re.compile(
    rf"\b(?:at most|up to|more than|at least|fewer than|longer than|less than|above|past|below|status|default(?: is)?"
    rf"|the first|the last|after) (?:the |its |all )?{DIGITS}(?![\d.,]*[\d^])\b"
    rf"|\b{DIGITS} to {DIGITS}\b|\b{DIGITS} (?:at most|or more|or fewer|or less)\b", re.IGNORECASE)
MARK = re.compile(rf"({DIGITS})<!-- fact: (\w+) -->")


def in_source(file: str, pattern: str) -> int:
    """A number that the first group of a pattern is in a file of definitions or scripts; -1 if it is there no more."""
    found = re.search(pattern, (TOP / file).read_text("utf-8"), re.MULTILINE)
    return int(found[1].replace("_", "")) if found else -1


FACTS = {
    "most_repeats": in_source("crates/l6_session/specs/Numerals.antt", r"^most_repeats = (\d+)$"),
    "most_drawn": in_source("crates/l6_session/specs/Numerals.antt", r"^most_drawn = (\d+)$"),
    "most_printed": in_source("crates/l6_session/specs/Numerals.antt", r"^most_printed = (\d+)$"),
    "largest_top": in_source("crates/l6_places/specs/Numerals.antt", r"^largest_top = (\d+)$"),
    "largest_level": operations.SIZE_LIMIT.bit_length() - 1,
    "most_states": in_source("web/src/survey.js", r"^const MOST_STATES = ([\d_]+);"),
    "most_steps": in_source("web/src/survey.js", r"^const MOST_STEPS = ([\d_]+);"),
    "named_slips": in_source("tests/program/check_decks.py", r"^NAMED = (\d+)"),
    "findings": in_source("tests/program/check_decks.py", r"^MOST_FINDINGS = (\d+)"),
    "alignment": in_source("library/heap.c", r"aligned to (\d+) bytes"),
}


def largest_top_of_the_array() -> int:
    """The largest top of a store that the array of library/array_heap.c has the bytes for."""
    units = in_source("library/array_heap.c", r"UNITS = (\d+)")
    a_unit, more = (in_source("library/array_heap.c", rf"room\[{it}\];") for it in (
        r"(\d+) \* \(UNITS \+ 1\) \+ \d+", r"\d+ \* \(UNITS \+ 1\) \+ (\d+)"))
    header = "library/l6_offset.h"
    a_place = in_source(header, r"L6_OFFSET_BYTES\(top\) \(\(\(uint64_t\)(\d+) << \(top\)\) \+ \d+\)")
    others = in_source(header, r"L6_OFFSET_BYTES\(top\) \(\(\(uint64_t\)\d+ << \(top\)\) \+ (\d+)\)")
    room = a_unit * (units + 1) + more
    return max(top for top in range(FACTS["largest_top"] + 1) if (a_place << top) + others <= room)


# A search for the largest piece asks each level below the top, and of each of those the levels below it.
STEPS_OF_A_PIECE = FACTS["largest_top"] * (FACTS["largest_top"] + 1) // 2

# Sentences with a limit, for which # stands: the page, and the number.
TIED: list[tuple[str, str, int]] = [
    ("docs/allocator.md", "for a block of level k: up to #,", operations.SIZE_LIMIT),
    ("docs/command-line.md", "to standard output with status #,", 0),
    ("docs/debugger.md", "The first # allocate memory", 16),
    ("docs/history.md", "Now a block has at most # words", operations.SIZE_LIMIT),
    ("docs/history.md", "a store has 1 to # units", 255),
    ("docs/history.md", "units of 1,024, the first at place #", store.UNIT),
    ("docs/history.md", "Programs had at most # statements", 4_095),
    ("docs/history.md", "Now a program has at most #,", programs.STATEMENTS_LIMIT),
    ("docs/image.md", "from 0 for 0 to # for Z", len(characters.NAMES) - 1),
    ("docs/l6db.md", "at most the last # characters of it", FACTS["most_printed"]),
    ("docs/l6db.1", "the first # lines, or all", FACTS["most_drawn"]),
    ("docs/library.md", "1 to # units of 1,024 words", 255),
    ("docs/library.md", "a power of two up to #.", FACTS["alignment"]),
    ("docs/places.md", "that array serves one store of a top of #, opened once", largest_top_of_the_array()),
    ("docs/page.md", "Of a very long run the first # states are read", FACTS["most_states"]),
    ("docs/proof.md", "at least # have a line that names the slip", FACTS["named_slips"]),
    ("docs/trace.md", "No block has more than # words.", operations.SIZE_LIMIT),
    ("docs/trace.md", "has more than # smallest pieces can't be compared", operations.SIZE_LIMIT),
    ("docs/trace.md", "The first # are written", FACTS["findings"]),
    ("ports/README.md", "if that gives status #", 64),
    ("docs/l6.1", "The largest block has 2^K smallest pieces, 0 to #;", 20),
    ("docs/l6.1", "or was interrupted more than # times", 1_000),
    ("docs/language.md", "for the ASCII codes 32 to #.", 32 + 63),
    ("docs/places.md", "and piece at most # times", STEPS_OF_A_PIECE),
    ("library/l6_store.h", "A store has 1 to # units", 255),
    ("library/l6_store.h", "A block of level k, 0 to #,", FACTS["largest_level"]),
    ("library/l6_store.h", "the word takes more than # bits", (characters.WORD_LIMIT - 1).bit_length()),
    ("library/l6_store.h", "BAD_LEVEL, above # words", operations.SIZE_LIMIT),
    ("library/l6_store.h", "It halves a piece at most # times", FACTS["largest_level"]),
    ("library/l6_store.h", "joins its piece at most # times", FACTS["largest_level"]),
    ("library/l6_offset.h", "A top is at most #,", FACTS["largest_top"]),
    ("library/l6_offset.h", "a top above #,", FACTS["largest_top"]),
    ("library/l6_offset.h", "a step for each two levels: #.", STEPS_OF_A_PIECE),
]
# What looks like a limit and is none, with the reason: it is matched by a phrase of the page.
NO_LIMITS: dict[str, list[str]] = {
    # (what was measured)
    "README.md": ["up to 150 minutes", "up to 10 GB"],
    "docs/allocator.md": ["1 to 128 words take"],
    # (names are counted from 0; a line of a printout; a level of blocks)
    "docs/debugger.md": ["AFTER 6 STEPS", "0 to 9 and then from A"],
    "docs/language.md": ["0 to 9 and A", "below 0 counts"],
    "docs/summary.md": ["0 to 9 16", "Z 33 to 58", "16 to 25", "default 8)"],
    # (how it was before)
    "docs/history.md": ["at most 128 words, as", "up to 2,047 of them", "more than 128 words, which"],
    "docs/library.md": ["0 or more", "below 0"],
    "docs/places.md": ["below 0"],
    "library/l6_store.h": ["0 or more", "below 0"],
    "library/l6_offset.h": ["0 or more", "below 0"],
    "docs/robustness.md": ["at most 64 KiB", "at most 18 machines", "up to 300 times"],
    "docs/answers.md": ["bits 30 to 35"],
    # (bits, which format_pages.py tries)
    "docs/image.md": ["Bits 18 to 23", "bits 18 to 22"],
    # (examples of the manual page, which are run; ranges of options, which are compared with the program's)
    "docs/l6.1": ["AFTER 6 STEPS", "AFTER 1000 STEPS", "AFTER 2 STEPS", "1 to 255. The default", "default is 8.",
                  "0 to 1,000,000,000. The default", "default is 1,000,000.", "0 to 16,777,216. The default", "default is 1,048,576."],
}

def sentences_of(page: str) -> str:
    """The sentences of a page in one line: without blocks, spans of code, tables, comments and what links lead to."""
    text = re.sub(r"^( *)```.*?^\1```$", "", text_of(page), flags=re.DOTALL | re.MULTILINE)
    if page.endswith(".1"):
        lines = [line for line in text.splitlines() if not line.startswith('.\\"')]
        text = " ".join(re.sub(r"^\.[A-Z]\w ?(?:\w+ )?", "", line) for line in lines)
    if page.endswith(".h"):
        text = " ".join(re.findall(r"/\*(.*?)\*/", text, re.DOTALL))
    text = "\n".join(line for line in text.splitlines() if not line.lstrip().startswith("|"))
    marked = MARK.sub("", text)
    return plain(re.sub(r"\]\([^)]*\)", "]", re.sub(r"<!--.*?-->", "", marked, flags=re.DOTALL)))


def untied(page: str, sentences: list[str]) -> list[str]:
    """The limits of a page that are in none of these sentences, for which # stands in place of a number."""
    text = sentences_of(page)
    patterns = [re.escape(it).replace(r"\#", DIGITS) for it in sentences]
    patterns += [re.escape(it) for it in NO_LIMITS.get(page, [])]
    known = [found.span() for pattern in patterns for found in re.finditer(pattern, text, re.IGNORECASE)]
    limits = (it for it in LIMIT.finditer(text) if not any(a < it.end() and it.start() < b for a, b in known))
    return [text[max(0, it.start() - 30):it.end() + 20] for it in limits]


def figures(of_facts: list[tuple[str, str]]) -> Iterator[Trial]:
    """Each limit of the pages is compared, by a sentence of facts.py, one of the table above, or a mark."""
    for page, sentence, number in TIED:
        pattern = re.escape(sentence).replace(r"\#", f"({DIGITS})")
        found = re.findall(pattern, sentences_of(page), re.IGNORECASE)
        yield f"{page}: {sentence}", [number], [int(it.replace(",", "")) for it in found]
    header = "library/l6_offset.h"
    yield f"{header}: L6_OFFSET_MOST_TOP", FACTS["largest_top"], in_source(header, r"L6_OFFSET_MOST_TOP = (\d+)")
    for page in PAGES:
        sentences = [sentence for where, sentence in [*of_facts, *((it[0], it[1]) for it in TIED)] if where == page]
        yield f"{page}: limits that nothing compares", [], untied(page, sentences)
        gone = [it for it in NO_LIMITS.get(page, []) if it.lower() not in sentences_of(page).lower()]
        yield f"{page}: phrases that are no limits and are not there", [], gone
        for written, name in MARK.findall(text_of(page)):
            yield f"{page}: the fact {name}", FACTS.get(name), int(written.replace(",", ""))
