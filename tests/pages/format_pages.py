#!/usr/bin/env python3
"""Compares the pages on images, listings, the debugger and what can go wrong with the program and the model.

format_pages.py PROGRAM prints each difference, and last 'N passed, M failed'. It also looks at all large
numbers of these pages and of the manual: each must be a limit, or be listed here with its reason.
"""
from __future__ import annotations

import re
import sys
import tempfile
from collections.abc import Callable, Iterator
from itertools import product
from pathlib import Path

sys.path[:0] = [str(Path(__file__).resolve().parents[1] / it) for it in ("harness", "program")]
from answers import answer_of
from facts import ALLOCATOR, DEBUGGER, LANGUAGE, LIMITS, MANUAL, ROBUSTNESS, SUMMARY, manual, number_of
from model import images
from model.cards import CONDITION_WORDS
from model.machine import DECIDED
from model.programs import OPERATIONS, TESTS, Chain, Condition, Exit, Number, Text
from page_tables import canary, other_status, plain, report_of, spans_of, table_with, tables_of, text_of, wrong_lines
from trials import Trial, few_pass

IMAGE, LISTING, PAGE = "docs/image.md", "docs/listing.md", "docs/page.md"


def conditions() -> Iterator[Trial]:
    """What each condition word means: by the model, on all outcomes of three tests."""
    text = text_of(LANGUAGE)
    for words, decided, then, otherwise in table_with(
        text, "Word", "It is decided by the first test that"
    ).rows:
        for word in spans_of(words):
            known = DECIDED[Condition[word]]
            said = ({"holds": True, "does not hold": False}[decided], then == "true", otherwise == "true")
            yield f"{LANGUAGE}: how {word} is decided", (*known, not known[1]), said
    table = table_with(text, "Word", "True if", "Tests")
    of_language = {spans_of(word)[0]: what for word, what, *_ in table.rows if spans_of(word)}
    table = table_with(text_of(SUMMARY), "Condition", "True if", "Exit")
    of_sheet = {
        word: what
        for words, whats, *_ in table.rows
        for word, what in zip(spans_of(words), whats.split(", "))
    }
    for page, found in ((LANGUAGE, of_language), (SUMMARY, of_sheet)):
        yield f"{page}: the condition words", sorted(CONDITION_WORDS), sorted(found)
        for word, what in found.items():
            holds = TRUE_IF.get(what.removeprefix("its one test ").removeprefix("its test "))
            tests = 1 if word in ("IF", "NOT") else 3
            outcomes: list[tuple[bool, ...]] = list(product((True, False), repeat=tests))
            expected = [outcome(Condition[word], it) for it in outcomes]
            yield f"{page}: {word} is true if {what}", expected, holds and [holds(it) for it in outcomes]


def outcome(condition: Condition, tests: tuple[bool, ...]) -> bool:
    """Whether a condition is true, by the outcomes of its tests."""
    decides, then = DECIDED[condition]
    return then if decides in tests else not then


TRUE_IF: dict[str, Callable[[tuple[bool, ...]], bool]] = {
    "holds": all,
    "does not hold": lambda tests: not all(tests),
    "all tests hold": all,
    "some test holds": any,
    "no test holds": lambda tests: not any(tests),
    "not all tests hold": lambda tests: not all(tests),
}


def image_format() -> Iterator[Trial]:
    """The numbers of conditions, exits, kinds and codes in images."""
    text = text_of(IMAGE)
    headers, rows = (table for table in tables_of(text) if table.head == ["Bits", "What they hold"])
    said = {name: int(number) for number, name in re.findall(r"(\d) `([A-Z]+)`", headers.rows[0][1])}
    yield "the numbers of conditions", {word: int(Condition[word]) for word in CONDITION_WORDS}, said
    said = {
        name: int(number) for number, name in re.findall(r"(\d) `?(a label|DONE|FAIL)`?", headers.rows[3][1])
    }
    yield "the numbers of exits", {
        "a label": int(Exit.LABEL),
        "DONE": int(Exit.DONE),
        "FAIL": int(Exit.FAIL),
    }, said
    said = {name: int(number) for number, name in re.findall(r"(\d) a (chain|number|text)", rows.rows[1][1])}
    yield "the numbers of kinds", {
        type_.__name__.lower(): images.KINDS[type_] for type_ in (Chain, Number, Text)
    }, said
    names: dict[str, list[str]] = {"tests": [], "operations": []}
    codes: dict[str, list[int]] = {"tests": [], "operations": []}
    for code, row, _ in table_with(text, "Code", "Row", "Operands").rows:
        kind = "tests" if code.startswith("tests") else "operations"
        numbers = [int(it) for it in re.findall(r"\d+", code)]
        codes[kind] += range(numbers[0], numbers[-1] + 1)
        names[kind] += [re.sub(r"^Df$", "D", span.replace(",", "")) for span in spans_of(row)]
    yield "the codes of tests", dict(enumerate(TESTS, 1)), dict(zip(codes["tests"], names["tests"]))
    yield "the codes of operations", dict(enumerate(OPERATIONS, 1)), dict(
        zip(codes["operations"], names["operations"])
    )
    for line, parts, what in table_with(text, "Line", "Its parts", "What it says").rows:
        word = spans_of(line)[0]
        if parts:
            yield f"the parts of {word}", word, parts.replace(" · ", "")
        named = re.search(r"code (\d+)(?:, | is )`(\w+)`", what)
        if named:
            known = TESTS if what.startswith("as a test") else OPERATIONS
            yield f"the code of {word}", (int(word[:2], 8), known[int(named[1]) - 1]), (
                int(named[1]),
                named[2],
            )
    marks = re.findall(r"`(\d{12})`(?:[^`]*?)says `(L6IMG\d)`", plain_spans(text))
    yield "the magic words", [(f"{images.MARKS[2]:012o}", "L6IMG2"), (f"{images.MARKS[1]:012o}", "L6IMG1")], marks


# An image of version 1, of a program that goes back to its own statement for ever: its third line is the header.
OLD_IMAGE = ["542651554721", "000000000002", "000000000003", "000011000000", "340077000000", "000002000000"]
OLD_HEADERS = re.compile(r"Bits (\d+) to (\d+) of a header are 0, and the last (\w+) bits are the target. In a row, bits (\d+)"
                         r" to (\d+) are 0, bit (\d+) is 1 if it has a label, and the last (\w+) bits are")


def old_images(program: str) -> Iterator[Trial]:
    """Which bits of a header of version 1 are 0: an image in which one of them is not is refused."""
    found = OLD_HEADERS.search(plain(text_of(IMAGE)))
    numbers = [int(it) if it.isdigit() else COUNTS.index(it) for it in found.groups()] if found else []
    yield f"{IMAGE}: the bits of headers and rows of version 1", [18, 23, 12, 18, 22, 23, 12], numbers
    zeros = []
    for bit in range(18, 36):
        header = int(OLD_IMAGE[3], 8) | 1 << 35 - bit
        lines = [*OLD_IMAGE[:3], f"{header:012o}", *OLD_IMAGE[4:]]
        made = answer_of([program, "load", "--steps", "1"], input="".join(f"{line}\n" for line in lines).encode())
        target = header & 0o7777
        # (a target that is no statement is refused, too)
        if made.status == 4 and (bit < 24 or target < 2):
            zeros.append(bit)
    yield f"{IMAGE}: the bits of a header of version 1 that must be 0", list(range(18, 24)), zeros
    made = answer_of([program, "load", "--steps", "1"], input="".join(f"{line}\n" for line in OLD_IMAGE).encode())
    yield f"{IMAGE}: an image of version 1", 3, made.status


def plain_spans(text: str) -> str:
    """A text in one line, with the marks of spans."""
    return " ".join(text.split())


def listing_format(program: str) -> Iterator[Trial]:
    """The places of a listing's lines."""
    places = {}
    for where, what in table_with(text_of(LISTING), "Places", "What they hold").rows:
        first, *last = map(int, re.findall(r"\d+", where))
        places[first, (last or [first])[0]] = what
    deck = f" {'(PL)' * 17}\n"
    line = answer_of([program, "list"], input=b"* A\n" * 9 + deck.encode()).stdout.decode().split("\n")[9]
    ranges = list(places)
    yield f"{LISTING}: the ranges of places", [(1, 7), (8, 8), (9, 13), (14, 15), (16, 87)], ranges
    parts = [line[first - 1 : last] for first, last in ranges]
    yield f"{LISTING}: a line in these places", ["     10", " ", "    0", "  ", deck.rstrip()], parts
    word = answer_of([program, "list"], input=deck.encode()).stdout.decode().split("\n")[1]
    blanks = re.findall(r"Each has a line: (\d+) blanks", " ".join(text_of(LISTING).split()))
    yield f"{LISTING}: the blanks before a word", blanks, [str(len(word) - len(word.lstrip()))]


def debugger_answers(program: str) -> Iterator[Trial]:
    """The answers in the table of commands, on a statement 0 and a place 1."""
    said = [
        span
        for _, what in table_with(text_of(DEBUGGER), "Command", "What it does and answers").rows
        for span in spans_of(what)
    ]
    said += re.findall(r"answer `(\?\? [A-Z ]+)`", " ".join(text_of(DEBUGGER).split()))
    commands = b" (PL)\n$COMMANDS\nbreak 0\nclear 0\nfields\nblock 1\nhop\nbreak 9\nquit\nshow\n"
    lines = answer_of([program, "debug"], input=commands).stdout.decode().splitlines()
    numbered = [re.sub(r"\bs$", "0", re.sub(r"\bp$", "1", span)) for span in said]
    yield f"{DEBUGGER}: the answers", lines, numbered


def lessons(program: str) -> Iterator[Trial]:
    """What the lessons say of breakpoints: they are reached so often, and then so many letters are linked."""
    for line in text_of(PAGE).splitlines():
        found = re.search(
            r"#(\w+)\).*click the (\d+) beside .*press Next break (\w+) times(?:: (\w+) letters)?", line
        )
        if not found:
            continue
        deck = (Path(__file__).parents[2] / "examples" / f"{found[1]}.deck").read_text()
        cards, mark, given = deck.partition("$INPUT\n")
        times = COUNTS.index(found[3])
        go = "go\n" * times
        job = f"{cards}$COMMANDS\nbreak {found[2]}\n{go}draw\n{mark}{given}"
        lines = answer_of([program, "debug"], input=job.encode()).stdout.decode().splitlines()
        yield f"{PAGE}: {found[1]} stops {found[3]} times", True, lines[times].startswith(f"AT {found[2]}.0 ")
        if found[4]:
            yield f"{PAGE}: letters in {found[1]} then", f"{COUNTS.index(found[4])} BLOCKS", lines[-1]


COUNTS = ["no", "one", "two", "three", "four", "five", "six", "seven", "eight", "nine", "ten", "eleven", "twelve"]


def statuses() -> Iterator[Trial]:
    """The status of each row of the page on what can go wrong, by the text that the user sees."""
    of_fault = {
        re.sub(r"^l6: ", "", span): int(status)
        for lines, _, status in table_with(text_of(LANGUAGE), "Line", "What it means", "Exit status").rows
        for span in spans_of(lines)
    }
    of_fault |= {"a word is not UTF-8": 64}
    for table in tables_of(text_of(ROBUSTNESS)):
        if "Status" not in table.head:
            continue
        for what, seen, status, _ in table.rows:
            faults = [span.removeprefix("l6: ") for span in spans_of(seen) if span.startswith("l6: ")]
            for fault in faults:
                yield f"{ROBUSTNESS}: the fault of {what}", True, fault in of_fault
                yield f"{ROBUSTNESS}: the status of {what}", str(of_fault.get(fault)), status
            ending = re.search(r"== LIMIT|== TRAP|trap \d+,", seen)
            if ending and not faults:
                yield f"{ROBUSTNESS}: the status of {what}", "3" if "LIMIT" in ending[0] else "2", status


# Numbers of pages that are no limits: those of examples, of bits, and of what was measured.
PLACES = {1026, 1027, 1028, 1032, 1040, 1056, 1088, 1152, 1280, 1536}
OTHERS: dict[str, set[int]] = {
    # the year; sizes, places and results of examples, which are run; characters that are left of two lines
    LANGUAGE: {1966, *PLACES, 128, 512, 75712, 131072, 200000, 262134, 262142, 262143, 600000, 2146, 157},
    SUMMARY: set(),
    # the years and pages of papers; words and a place of the trace that is shown
    MANUAL: {1965, 1966, 2026, 616, 623, 600, 1624},
    # bytes of a statement and a limit in bytes of addresses; turns back of a trial; jobs; actions of a case
    ROBUSTNESS: {160, 300, 10_000, 72_005},
    # megabytes and turns that were measured; places of the session, one in octal; what checkpoints reach
    DEBUGGER: {340, 200_000, 1026, 1028, 2002, 61_440},
    # the year, the places of the table, the largest store, instructions that were measured
    ALLOCATOR: {1965, *PLACES, 261_120, 98_000, 128, 133, 138, 574, 600},
    IMAGE: set(),
    LISTING: {128},  # (a byte without a code)
}
NUMBER = re.compile(r"(?<![\w.,^`=-])(\d{1,3}(?:,\d{3})+|[1-9]\d{2,})(?![\w.]*\d)(?!\w)")


def known_numbers() -> set[int]:
    """The limits, and what is one more or less."""
    limits = {number for numbers in LIMITS.values() for number in numbers} | {4_095, 4_096, 1_000, 16}
    return {number + more for number in limits for more in (-1, 0, 1)}


def large_numbers() -> Iterator[Trial]:
    """Each large number in the sentences of a page is a limit, or is listed."""
    for page, others in OTHERS.items():
        text = manual() if page == MANUAL else text_of(page)
        sentences = re.sub(r"^( *)```.*?^\1```$|`[^`]*`", "", text, flags=re.DOTALL | re.MULTILINE)
        found = {number_of(it) for it in NUMBER.findall(sentences)}
        yield f"{page}: large numbers", [], sorted(found - known_numbers() - others)


def canaries(program: str) -> Iterator[Trial]:
    """Pages with a defect each."""
    yield canary(LANGUAGE, "| holds | true | false |", "| holds | false | true |", conditions)
    yield canary(
        SUMMARY, "| no test holds, not all tests hold |", "| not all tests hold, no test holds |", conditions
    )
    yield canary(IMAGE, "| 24 | `PR` |", "| 24 | `PH` |", image_format)
    yield canary(IMAGE, "2 `DONE`, 3 `FAIL`", "3 `DONE`, 2 `FAIL`", image_format)
    yield canary(IMAGE, "Bits 18 to 23", "Bits 18 to 24", lambda: old_images(program))
    yield canary(LISTING, "| 9 to 13 |", "| 9 to 14 |", lambda: listing_format(program))
    yield canary(DEBUGGER, "`CLEARED s`", "`CLEAR s`", lambda: debugger_answers(program))
    yield canary(ROBUSTNESS, "`l6: deck too long` | 4 |", "`l6: deck too long` | 5 |", statuses)
    yield canary(PAGE, "Next break four times", "Next break five times", lambda: lessons(program))
    yield canary(LANGUAGE, "1,048,576 bytes |", "1,048,567 bytes |", large_numbers)
    with tempfile.TemporaryDirectory() as folder:
        wrong = wrong_lines(folder)
        for most, group in ((1, old_images), (1, listing_format), (0, debugger_answers), (0, lessons)):  # (one is of the page alone)
            yield few_pass(f"{group.__name__} on a wrong program", most, group(wrong))
        yield few_pass("old_images on a program with another status", 1, old_images(other_status(folder, program)))


def trials(program: str) -> Iterator[Trial]:
    """All trials."""
    yield from conditions()
    yield from image_format()
    yield from old_images(program)
    yield from listing_format(program)
    yield from debugger_answers(program)
    yield from lessons(program)
    yield from statuses()
    yield from large_numbers()


if __name__ == "__main__":
    sys.exit(report_of(__doc__, trials, canaries))
