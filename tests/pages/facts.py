#!/usr/bin/env python3
"""Compares what the pages say of the language with the program and with the model of tests/program/model/.

facts.py PROGRAM prints each difference, and last 'N passed, M failed'. Limits, ranges, defaults, traps,
codes, operations, commands, faults and statuses stand in docs/language.md, on the sheet docs/summary.md, in
the manual page docs/l6.1 and in the program's help. The model has each of them once, written by hand from the
manual.

Each number of a sentence has a source (page_numbers.py). Beside the pages are completions, headers of C and the files for editors: what they say of options, limits, columns and
findings is compared, too (option_lists.py, page_figures.py, editor_files.py), and so are the versions that programs need
(page_needs.py) and the papers that texts cite (citations.py). What some sentences tell of is made to happen (run_sentences.py;
sentences.py has more of them).
"""
from __future__ import annotations

import re
import sys
from collections.abc import Callable, Iterator
from pathlib import Path

sys.path[:0] = [str(Path(__file__).resolve().parents[1] / it) for it in ("harness", "program")]
from answers import answer_of
from model import (
    arithmetic,
    cards,
    characters,
    command,
    groups,
    jobs,
    operations,
    programs,
    state,
    store,
    trace,
)
from citations import citations
from editor_colours import capital_canaries
from editor_files import editor_files
from option_lists import option_lists
from page_figures import figures, in_source
from page_needs import needs
from page_numbers import numbers, sections
from page_tables import canary, plain, report_of, spans_of, table_with, tables_of, text_of
from run_sentences import run_sentences
from trials import Trial

LANGUAGE, SUMMARY, MANUAL = "docs/language.md", "docs/summary.md", "docs/l6.1"
OF_TRAPS = "crates/l6_steps/specs/Trap.antt"  # their definition
ROBUSTNESS, DEBUGGER, ALLOCATOR = "docs/robustness.md", "docs/debugger.md", "docs/allocator.md"
TRACE, SESSIONS = "docs/trace.md", "docs/l6db.md"
MOST_CHAINS = 8  # that a session watches, and displays
RUNNING = ("run", "load", "debug")
RANDOM_JOBS = 1_000  # numbers of model_jobs.py, each of which makes two
STRIDE, CHECKPOINTS = (
    4_096,
    16,
)  # states from one checkpoint of the debugger to the next, and how many are kept


def number_of(text: str) -> int:
    """A number as pages write it, with commas."""
    return int(text.replace(",", ""))


def written(number: int) -> str:
    """A number as pages write it."""
    return f"{number:,}"


def manual() -> str:
    """The words of the manual page, without the requests of its formatter."""
    lines = text_of(MANUAL).splitlines()
    return " ".join(
        re.sub(r"^\.[A-Z]\w ?(?:\w+ )?", "", line) for line in lines if not line.startswith('.\\"')
    )


# Sentences of the pages with a number, for which # stands; what the number is by the model; and how often the
# page has the sentence.
SENTENCES: list[tuple[str, str, int, int]] = [
    (LANGUAGE, "A word is a number from 0 to 2^36 - 1 (#).", characters.WORD_LIMIT - 1, 1),
    (LANGUAGE, "up to # such cards", cards.CONTINUATIONS_LIMIT, 1),
    (LANGUAGE, "Only the first # bytes of a line are its columns", cards.COLUMNS, 1),
    (LANGUAGE, "columns 2 to # are its body", cards.COLUMNS, 2),
    (LANGUAGE, "condition with up to # tests", programs.ROWS_LIMIT, 1),
    (LANGUAGE, "up to # operations", programs.ROWS_LIMIT, 1),
    (LANGUAGE, "one or more, up to #", programs.ROWS_LIMIT, 4),
    (LANGUAGE, "A program has 1 to # statements", programs.STATEMENTS_LIMIT, 1),
    (LANGUAGE, "the card with the #th test of a statement", programs.ROWS_LIMIT + 1, 1),
    (LANGUAGE, "the card with the #th operation of a statement", programs.ROWS_LIMIT + 1, 1),
    (LANGUAGE, "so a #th group that has no reading", programs.ROWS_LIMIT + 1, 1),
    (LANGUAGE, "the card that begins the #th statement", programs.STATEMENTS_LIMIT, 1),
    (LANGUAGE, "the #th card with + of a statement", cards.CONTINUATIONS_LIMIT + 1, 1),
    (LANGUAGE, "A chain is 1 to # names", programs.NAMES_LIMIT, 1),
    (LANGUAGE, "It has 1 to # characters, and is not DONE", groups.LABEL_LIMIT, 1),
    (LANGUAGE, "the label has more than # characters", groups.LABEL_LIMIT, 1),
    (LANGUAGE, "A text of 1 to # characters denotes", groups.TEXT_LIMIT, 1),
    (LANGUAGE, "for PH 1 to #", programs.PRINTED_LIMIT, 1),
    (LANGUAGE, "prints the text in capitals: 1 to # characters", programs.PRINTED_LIMIT, 1),
    (LANGUAGE, "the word (0 to #)", 1_023, 1),
    (LANGUAGE, "trap 6 if cd is 0 or above #", operations.SIZE_LIMIT, 1),
    (LANGUAGE, "trap 10 if it has # entries", operations.ENTRIES_LIMIT, 1),
    (LANGUAGE, "trap 11 if # calls wait", operations.ENTRIES_LIMIT, 1),
    (LANGUAGE, "(1 to #, else trap 13)", operations.WORD_CHARACTERS, 2),
    (LANGUAGE, "Each line gives # characters", state.LINE_CHARACTERS, 1),
    (LANGUAGE, "of # words, begins at place", store.UNIT, 1),
    (LANGUAGE, "begins at place #, so 0 is the place of no block", store.UNIT, 1),
    (LANGUAGE, "at the places 1,024 to # (", 9 * store.UNIT - 1, 1),
    (LANGUAGE, "or was interrupted more than # times", 1_000, 2),
    (LANGUAGE, "A bug is one of # words", len(characters.LETTERS), 1),
    (LANGUAGE, "are numbered from 0 to #.", len(characters.NAMES) - 1, 1),
    (LANGUAGE, "2^k words side by side, k from 0 to #,", 10, 1),
    (LANGUAGE, "bits of what it leads to: # for a bug", 36, 1),
    (LANGUAGE, "the last bit (0 to #, in order)", 35, 1),
    (LANGUAGE, "a bit past #, or bits out of order", 35, 1),
    (LANGUAGE, "by a word past #,", 1_023, 1),
    (LANGUAGE, "of no word or of more than # is asked for", operations.SIZE_LIMIT, 1),
    (LANGUAGE, "fewer than 1 or more than # characters", operations.WORD_CHARACTERS, 1),
    (LANGUAGE, "a call is made while # calls wait", operations.ENTRIES_LIMIT, 1),
    (SUMMARY, "up to # tests and", programs.ROWS_LIMIT, 1),
    (SUMMARY, "tests and # operations", programs.ROWS_LIMIT, 1),
    (SUMMARY, "on up to # cards", cards.CONTINUATIONS_LIMIT, 1),
    (SUMMARY, "a statement with a label of 1 to # letters", groups.LABEL_LIMIT, 1),
    (SUMMARY, "Columns 2 to # count", cards.COLUMNS, 1),
    (SUMMARY, "after column # is ignored", cards.COLUMNS, 1),
    (SUMMARY, "Input lines have # characters", state.LINE_CHARACTERS, 1),
    (SUMMARY, "then up to # fields", programs.NAMES_LIMIT - 1, 1),
    (SUMMARY, "PUSHDOWN FULL (# entries)", operations.ENTRIES_LIMIT, 1),
    (SUMMARY, "RETURNS FULL (# calls)", operations.ENTRIES_LIMIT, 1),
    (SUMMARY, "BAD SIZE (not 1 to # words)", operations.SIZE_LIMIT, 1),
    (SUMMARY, "BAD COUNT (not 1 to # characters)", operations.WORD_CHARACTERS, 1),
    (SUMMARY, "takes 1 to # characters into c", operations.WORD_CHARACTERS, 1),
    (SUMMARY, "prints the last 1 to # characters of c", operations.WORD_CHARACTERS, 1),
    (SUMMARY, "prints a text of 1 to # characters", programs.PRINTED_LIMIT, 1),
    (MANUAL, "A job may have up to # bytes", jobs.JOB_LIMIT, 1),
    (MANUAL, "A deck, an input and the commands may have up to # bytes each", jobs.PART_LIMIT, 1),
    (MANUAL, "an image up to #.", jobs.IMAGE_LIMIT, 1),
    (MANUAL, "A deck may have up to # statements", programs.STATEMENTS_LIMIT - 1, 1),
    (MANUAL, "Anything after column # is ignored", cards.COLUMNS, 1),
    (MANUAL, "units of # words each", store.UNIT, 1),
    (ROBUSTNESS, "text after column # of a card", cards.COLUMNS, 1),
    (ROBUSTNESS, "a deck longer than # bytes", jobs.PART_LIMIT, 1),
    (ROBUSTNESS, "a text longer than # bytes", jobs.IMAGE_LIMIT, 1),
    (ROBUSTNESS, "commands longer than # bytes", jobs.PART_LIMIT, 1),
    (ROBUSTNESS, "after one byte past #", jobs.JOB_LIMIT, 1),
    (ROBUSTNESS, "or was interrupted for the #st time", 1_001, 1),
    (ROBUSTNESS, "more than # interruptions in one call", 1_000, 1),
    (DEBUGGER, "A number is decimal, at most #.", 1_000_000_000, 1),
    (
        "docs/proof.md",
        "examples and # random jobs as the program does (tests/program/model_jobs.py)",
        2 * RANDOM_JOBS,
        1,
    ),
    ("tests/program/model/README.md", "then gives # random jobs to the model", 2 * RANDOM_JOBS, 1),
    (DEBUGGER, "whose number is a multiple of #.", STRIDE, 1),
    (DEBUGGER, "At most # are kept", CHECKPOINTS, 1),
    (DEBUGGER, "by up to # states costs", (CHECKPOINTS - 1) * STRIDE, 1),
    (DEBUGGER, "at most # steps, however", STRIDE - 1, 1),
    (ALLOCATOR, "1,024 to # words, in units", 255 * store.UNIT, 1),
    (ALLOCATOR, "m from 1 to #.", 255, 1),
    (ALLOCATOR, "A store is made of 1 to # units", 255, 1),
    (ALLOCATOR, "or None above #.", operations.SIZE_LIMIT, 1),
    (ALLOCATOR, "A get of a level, at most #, gives", 10, 1),
    (ALLOCATOR, "A get halves at most # times", 10, 1),
    (ALLOCATOR, "a free joins at most # times", 10, 1),
    (ALLOCATOR, "looks at no more than # heads", 11, 1),
    ("docs/image.md", "has at most # statements", 4_095, 2),
    (TRACE, "A name has 1 to # bytes", trace.NAME_LIMIT, 1),
    (TRACE, "A trace has at most # calls", trace.MOST_CALLS, 1),
    (TRACE, "calls and # bytes", jobs.JOB_LIMIT, 1),
    (TRACE, "at least so many words, 1 to #,", trace.MOST_NUMBER, 1),
    (SESSIONS, "Up to # chains are watched", MOST_CHAINS, 1),
    (SESSIONS, "Up to # chains are displayed", MOST_CHAINS, 1),
    ("docs/history.md", "1 to 128 | 2^k words, 1 to #", operations.SIZE_LIMIT, 1),
    ("docs/history.md", "up to # calls wait", operations.ENTRIES_LIMIT, 1),
    ("docs/history.md", "the same: # names", len(characters.NAMES), 1),
    ("docs/history.md", "of up to # names", programs.NAMES_LIMIT, 1),
    ("docs/history.md", "| #: arithmetic and logic", len(programs.OPERATIONS) - 3, 1),
]

KNOWN = [(page, sentence) for page, sentence, *_ in SENTENCES]

# The table of limits in docs/language.md: the numbers of each row.
LIMITS = {
    "a job": [jobs.JOB_LIMIT],
    "a deck": [jobs.PART_LIMIT],
    "statements on cards": [programs.STATEMENTS_LIMIT - 1, programs.STATEMENTS_LIMIT],
    "+ cards of a statement": [cards.CONTINUATIONS_LIMIT],
    "tests of a statement": [programs.ROWS_LIMIT],
    "operations of a statement": [programs.ROWS_LIMIT],
    "columns of a card that count": [cards.COLUMNS],
    "characters of a label": [groups.LABEL_LIMIT],
    "names of a chain": [programs.NAMES_LIMIT],
    "characters of a text": [groups.TEXT_LIMIT, programs.PRINTED_LIMIT],
    "a number": [characters.WORD_LIMIT - 1],
    "an input": [jobs.PART_LIMIT],
    "commands of the debugger": [jobs.PART_LIMIT],
    "an image": [jobs.IMAGE_LIMIT],
    "a store": [
        state.Options().store,
        store.UNIT,
        store.UNIT,
        9 * store.UNIT - 1,
        *command.RANGES["--store"],
    ],
    "entries of each pushdown, and calls that wait": [operations.ENTRIES_LIMIT],
    "steps": [state.Options().steps, *command.RANGES["--steps"]],
    "output": [state.Options().output, *command.RANGES["--output"]],
}


def limits() -> Iterator[Trial]:
    """Each number of a limit is the model's, wherever a page says it."""
    texts = {
        page: manual() if page == MANUAL else plain(text_of(page))
        for page in dict.fromkeys(page for page, *_ in SENTENCES)
    }
    for page, sentence, number, times in SENTENCES:
        pattern = re.escape(sentence).replace(r"\#", r"(\d[\d,]*\d|\d)")
        found = [number_of(it) for it in re.findall(pattern, texts[page], re.IGNORECASE)]
        yield f"{page}: {sentence}", [number] * times, found
    rows = {
        plain(what): [number_of(it) for it in re.findall(r"\d[\d,]*\d|\d", limit)]
        for what, limit in table_with(text_of(LANGUAGE), "What", "Limit").rows
    }
    for what in {**LIMITS, **rows}:
        yield f"{LANGUAGE}: the limit of {what}", LIMITS.get(what), rows.get(what)


# What each exit status of the debugger that answers at once means.
STATUSES = {
    "0": "The session ended", "1": "A command was refused", "4": "The job was refused", "5": "Memory ran out",
    "64": "The command line is wrong",
}


def statuses() -> Iterator[Trial]:
    """The exit statuses of the manual page of l6db."""
    text = text_of("docs/l6db.1").partition(".Sh EXIT STATUS")[2]
    found = dict(re.findall(r"^\.It (\d+)\n(.*)$", text, re.MULTILINE))
    yield "the exit statuses of docs/l6db.1", list(STATUSES), list(found)
    for status, meaning in STATUSES.items():
        yield f"the exit status {status} of docs/l6db.1", meaning, found.get(status, "")[:len(meaning)]


# Numbers that pages write as words.
WORDS = ("no", "one", "two", "three", "four", "five", "six", "seven", "eight", "nine", "ten", "eleven", "twelve")
PARTS = {10: "tenth", 20: "twentieth", 40: "fortieth"}  # one of so many


def in_words(program: str) -> Iterator[Trial]:
    """How many decks the page keeps, and of how many errors of a statement a check tells."""
    decks = in_source("web/src/keep.js", r"^const MOST_DECKS = (\d+);")
    for page in ("docs/page.md", "web/src/index.html"):
        yield f"the last decks in the menu by {page}", [WORDS[decks]], re.findall(
            r"last (\w+) decks are in the menu", plain(text_of(page)))
    deck = " (A,ZZ,1)\n" + "+(A,ZZ,1)\n" * (len(WORDS) - 1)
    told = answer_of([program, "check"], input=deck.encode()).stdout.decode()
    errors = len(re.findall(r"^\d+:\d+: error: ", told, re.MULTILINE))
    yield "the errors of a statement by docs/command-line.md", [WORDS[errors]], re.findall(
        r"up to (\w+) errors of a statement", plain(text_of("docs/command-line.md")))


def samples() -> Iterator[Trial]:
    """Which part of the edits and defects that were refused before the gate tries again, and when it no longer does."""
    parts = [in_source(f"tests/{name}.py", r"^SAMPLE = (\d+) ") for name in ("edits/edit_verdicts", "defects/defects")]
    for page, times in (("README.md", 1), ("docs/DECISIONS.md", 2), ("docs/architecture.md", 1), ("docs/measurements.md", 1)):
        told = re.findall(r"(?:tries|and) a (\w+)(?=: all| again,| of the others)", plain(text_of(page)))
        yield f"what is tried again by {page}", [PARTS[it] for it in sorted({*parts})] * times, told
    late = in_source("test", r"^late=\$\(\(\$\{L6_LATE-(\d+)\}")
    yield "when the gate is late by docs/DECISIONS.md", [str(late)], re.findall(
        r"Where the gate has taken (\d+) minutes", plain(text_of("docs/DECISIONS.md")))


def pools(program: str) -> Iterator[Trial]:
    """Where places begin behind the rest of a unit, by the recipe of docs/trace.md for a pool of fewer pieces."""
    recipe = r"for ([\d,]+) pieces, (get rest1 \d+) and (get rest2 \d+), and places begin at ([\d,]+)\."
    pieces, *rest, place = re.findall(recipe, plain(text_of("docs/trace.md")))[0]
    trace = "\n".join([*rest, f"get all {pieces}", "get more 1\n"])
    told = answer_of([program, "trace", "--store", "1"], input=trace.encode()).stdout.decode().splitlines()
    yield "the pool of docs/trace.md", (f"get all {pieces}: {place}", "get more 1: none"), (
        told[2].partition(",")[0], told[3].partition(",")[0])


def jobs_of_the_model() -> Iterator[Trial]:
    """How many random jobs are made if no number is given, and how many calls of a trace are measured."""
    calls = in_source("bench/run", r"^TRACE_CALLS = ([\d_]+)$")
    yield "the calls that bench/README.md tells of", (1_000_000, True), (calls, "a million calls" in plain(text_of("bench/README.md")))
    text = text_of("tests/program/model_jobs.py")
    yield "the random jobs of tests/program/model_jobs.py", ["1", f"{RANDOM_JOBS + 1:_}", "len(NUMBERS)"], [
        *re.findall(r"^NUMBERS = range\((\w+), (\w+)\)", text, re.MULTILINE)[0], *re.findall(r'"--jobs", type=int, default=(\S+),', text)]


def options(program: str) -> Iterator[Trial]:
    """The range and the default of each option, in the help of each verb and in the pages."""
    default = vars(state.Options())
    known = {option: (*command.RANGES[option], default[option[2:]]) for option in command.RANGES}
    for verb in RUNNING:
        text = answer_of([program, verb, "--help"], input=b"").stderr.decode()
        found = re.findall(r"(--\w+) <\w>.* (\d+) to (\d+) \[default: (\d+)\]", text)
        yield f"the options in the help on {verb}", known, {it[0]: tuple(map(int, it[1:])) for it in found}
        yield f"the units in the help on {verb}", [str(store.UNIT)], re.findall(r"Units of (\d+) words", text)
    table = table_with(text_of(LANGUAGE), "Option", "What it sets")
    of_table = {
        spans_of(name)[0].split()[0]: (*map(number_of, of.split(" to ")), number_of(it))
        for name, _, of, it in table.rows
    }
    yield f"the options in {LANGUAGE}", known, of_table
    pattern = r"-(\w+) Ar \w The (?:(?!The default).)*?(\d[\d,]*) to (\d[\d,]*)\. The default is (\d[\d,]*)\."
    of_manual = {
        f"--{name}": tuple(map(number_of, numbers)) for name, *numbers in re.findall(pattern, manual())
    }
    yield f"the options in {MANUAL}", known, of_manual
    said = plain(text_of(SUMMARY)).partition("Options of run, load and debug: ")[2]
    of_sheet = {
        name: number_of(it) for name, it in re.findall(r"(--\w+) \w \((?:[^)]*?)(\d[\d,]*\d|\d)\)", said)
    }
    yield f"the options in {SUMMARY}", {name: it[2] for name, it in known.items()}, of_sheet
    helps = "".join(answer_of([program, verb, "--help"], input=b"").stderr.decode() for verb in (*jobs.VERBS, "check", "trace"))
    named = set(re.findall(r"^ +(?:-\w, )?--([\w-]+)", helps, re.MULTILINE)) - {"help"}
    for where, part in zip(("synopsis", "description"), text_of(MANUAL).split(".Sh DESCRIPTION", 1)):
        listed = set(re.findall(r"\bFl -([\w-]+)", part)) - {"help", "version"}
        yield f"the options of all verbs in the {where} of {MANUAL}", named, listed
    verbs = {verb for verb in jobs.VERBS if verb in jobs.RUNNING}
    yield "the verbs with options", set(RUNNING), verbs


def traps() -> Iterator[Trial]:
    """The numbers and the names of all traps."""
    names = re.findall(r'^trap_name \w+ = codes "([A-Z ]+)"$', text_of(OF_TRAPS), re.MULTILINE)
    known = [(str(number), name) for number, name in enumerate(names, 1)]
    table = table_with(text_of(LANGUAGE), "Trap", "Name")
    yield f"the traps in {LANGUAGE}", known, [(row[0], row[1]) for row in table.rows]
    table = table_with(text_of(SUMMARY), "Trap", "Name")
    halves = [(row[at], row[at + 1].partition(" (")[0]) for at in (0, 2) for row in table.rows]
    yield f"the traps in {SUMMARY}", known, halves
    listed = manual().partition("The traps are ")[2].partition(".")[0]
    yield f"the traps in {MANUAL}", known, re.findall(r"(\d+) ([A-Z][A-Z ]+[A-Z])", listed)
    pattern = re.compile(r"\btraps? (\d+)\b")
    said = plain(text_of(LANGUAGE))
    for sentence, numbers in TRAPS_IN_SENTENCES.items():
        found = [it for it in re.findall(sentence, said)]
        yield f"{LANGUAGE}: traps after {sentence!r}", numbers, [
            int(n) for it in found for n in pattern.findall(it)
        ]
    for page in (LANGUAGE, ROBUSTNESS):
        for number, name in re.findall(r"\btrap (\d+), ([A-Z][A-Z ]+[A-Z])\b", plain(text_of(page))):
            yield f"{page}: trap {number}, {name}", (number, name), known[int(number) - 1]


# Which traps the operations have, by the form that their line of a table begins with.
TRAPS_IN_SENTENCES = {
    r"the name must be defined, else the step .*?;": [1],
    r"a block must begin at the pointer, else it .*?:": [2],
    r"the field's word must lie in that block, else it .*?\.": [3],
    r"\(c,V,cd\) \| the whole .*?\|": [5],
    r"\(c,Y,cd\) \| the remainder .*?\|": [5],
    r"\(cd,Df,cd,cd\) \| .*?\|": [4],
    r"\(S,FC,c\) \| .*?\|": [10],
    r"\(R,FC,c\) \| .*?\|": [9],
    r"\(S,FD,f\) \| .*?\|": [10],
    r"\(R,FD,f\) \| .*?\|": [9],
    r"\(c,GT,cd\) \| .*?\|": [6, 7],
    r"\(c,DP,cd,,L\) \| .*?\|": [2, 7],
    r"\(c,FR\) \| .*?\|": [2],
    r"\(c,FR,cd\) \| .*?\|": [2],
    r"\(L,DO,L2\) \| .*?\|": [11],
    r"\(c,IN,cd,L\) \| .*?\|": [13, 8],
    r"\(c,PR,cd\) \| .*?\|": [13],
    r"\| FAIL \| to the fail label .*?\|": [12],
}


def codes() -> Iterator[Trial]:
    """The table of codes, and the sentences that name some of them."""
    text = text_of(LANGUAGE)
    rows = re.findall(r"^ {2,3}(\d\d?)((?:  .){17})$", text, re.MULTILINE)
    for first, shown in rows:
        known = [characters.character_with(int(first) + at) for at in range(16)]
        yield f"the codes from {first} on", known, list(shown[-48:][2::3])
    yield "the rows of codes", [0, 16, 32, 48], [int(first) for first, _ in rows]
    said = {name: int(code) for name, code in re.findall(r"`(.)` has (\d+)", text)}
    yield "codes in a sentence", {name: characters.code_of(name) for name in "A?"}, said
    sheet = plain(text_of(SUMMARY)).partition("ASCII code less 32: ")[2].partition(".")[0]
    ends = [characters.code_of(it) for it in " 09AZ"]
    # (the characters themselves are digits, too)
    sheet = re.sub(r"\b[0-9A-Z] to [0-9A-Z] (\d+) to (\d+)", r"\1 \2", sheet)
    yield f"the codes in {SUMMARY}", ends, [int(it) for it in re.findall(r"\d+", sheet)]
    numbers = re.findall(r"`AB` is (\d+) times 64 plus (\d+), which is (\d+)", text)
    ab = [*map(characters.code_of, "AB"), characters.number_of_text("AB")]
    yield "the number of AB", [tuple(map(str, ab))], numbers


SAMPLES = [
    (0, 0),
    (5, 3),
    (3, 5),
    (7, 9),
    (12, 10),
    (2**36 - 1, 1),
    (1, 35),
    (2**18, 2**17 + 1),
    (6, 6),
    (40, 36),
]
Meaning = Callable[[int, int], int]
# What the tables say of arithmetic, in words, and what that is.
RESULTS: dict[str, Meaning] = {
    "cd": lambda c, cd: cd,
    "c + cd": lambda c, cd: c + cd,
    "c - cd": lambda c, cd: c - cd,
    "c times cd": lambda c, cd: c * cd,
    "the whole quotient of c by cd": lambda c, cd: c // cd,
    "the quotient c by cd": lambda c, cd: c // cd,
    "the remainder of c by cd": lambda c, cd: c % cd,
    "the remainder": lambda c, cd: c % cd,
    "the bits that are one in both": lambda c, cd: c & cd,
    "c and cd, bit by bit": lambda c, cd: c & cd,
    "the bits that are one in either": lambda c, cd: c | cd,
    "c or cd": lambda c, cd: c | cd,
    "the bits that are one in just one of them": lambda c, cd: c ^ cd,
    "either, but not both": lambda c, cd: c ^ cd,
    "cd with each bit of the width turned, 0 to 1 and 1 to 0": lambda c, cd: 2**36 - 1 - cd,
    "cd with each bit turned": lambda c, cd: 2**36 - 1 - cd,
    "c shifted left by cd places; 0 if cd is at least the width": lambda c, cd: c * (1 << cd)
    if cd < 36
    else 0,
    "c shifted left by cd": lambda c, cd: c * (1 << cd) if cd < 36 else 0,
    "c shifted right by cd places": lambda c, cd: c // (1 << cd),
    "c shifted right by cd": lambda c, cd: c // (1 << cd),
}
HOLD: dict[str, Callable[[int, int], bool]] = {
    "both read the same number": lambda c, cd: c == cd,
    "c = cd": lambda c, cd: c == cd,
    "they read different numbers": lambda c, cd: c != cd,
    "c ≠ cd": lambda c, cd: c != cd,
    "c reads the greater number": lambda c, cd: c > cd,
    "c > cd": lambda c, cd: c > cd,
    "c reads the lesser number": lambda c, cd: c < cd,
    "c < cd": lambda c, cd: c < cd,
    "each bit that is one in cd is one in c": lambda c, cd: c | cd == c,
    "the ones of cd are ones in c": lambda c, cd: c | cd == c,
    "each bit that is one in cd is zero in c": lambda c, cd: c & cd == 0,
    "the ones of cd are zeros in c": lambda c, cd: c & cd == 0,
}


def arithmetic_and_tests() -> Iterator[Trial]:
    """What the tables of arithmetic and of tests say of each letter, on some numbers."""
    for page in (LANGUAGE, SUMMARY):
        rows = list(halves(page, "c becomes"))
        yield f"{page}: the letters of arithmetic", sorted(programs.ARITHMETIC), sorted(
            letter for letter, _ in rows
        )
        for letter, what in rows:
            meaning = RESULTS.get(re.sub(r" \(trap 5 if cd is 0\)$", "", what))
            samples = [it for it in SAMPLES if it[1] or letter not in "VY"]
            expected = [arithmetic.result(letter, *it, 36) % 2**36 for it in samples]
            yield f"{page}: {letter} is {what}", expected, meaning and [
                meaning(*it) % 2**36 for it in samples
            ]
        rows = list(halves(page, "Holds if"))
        yield f"{page}: the letters of tests", sorted(programs.TESTS), sorted(letter for letter, _ in rows)
        for letter, what in rows:
            holds = HOLD.get(what)
            expected = [arithmetic.holds(letter, *it) for it in SAMPLES]
            yield f"{page}: {letter} holds if {what}", expected, holds and [holds(*it) for it in SAMPLES]


def halves(page: str, heading: str) -> Iterator[tuple[str, str]]:
    """The letter of each group in a table and what is under a heading, which may be there twice."""
    for table in tables_of(text_of(page)):
        if "Group" in table.head and "Width of c" in table.head:
            continue
        for at, cell in enumerate(table.head):
            if cell == heading:
                for row in table.rows:
                    yield row[at - 1].split(",")[1], plain(row[at])


def canaries(program: str) -> Iterator[Trial]:
    """Pages with a defect each."""
    yield canary(LANGUAGE, "up to 63 tests,", "up to 64 tests,", limits)
    yield canary(SESSIONS, "65,535<!-- fact: most", "65,536<!-- fact: most", lambda: figures(KNOWN))
    yield canary("docs/trace.md", "The first 100 are", "The first 101 are", lambda: figures(KNOWN))
    yield canary("docs/places.md", "A get gives", "It has at most 77 legs. A get gives", lambda: figures(KNOWN))
    yield canary("README.md", "up to 10 GB", "up to 11 GB", lambda: figures(KNOWN))
    for page, old, new in (("docs/allocator.md", "8 bytes a word", "9 bytes a word"), ("docs/editors.md", "The server", "Its 5 parts")):
        yield canary(page, old, new, lambda page=page: numbers(KNOWN, [page]))  # type: ignore[misc]
    yield canary(LANGUAGE, "| names of a chain | 6 |", "| names of a chain | 7 |", limits)
    yield canary(SUMMARY, "up to 15 cards", "up to 16 cards", limits)
    yield canary("README.md", "twentieth of the others", "tenth of the others", samples)
    yield canary(MANUAL, "an\nimage up to 8,388,608", "an\nimage up to 8,388,609", limits)
    yield canary(ROBUSTNESS, "a deck longer than 1,048,576", "a deck longer than 1,048,567", limits)
    yield canary(LANGUAGE, "| 1 to 255 | 8 |", "| 1 to 256 | 8 |", lambda: options(program))
    yield canary(SUMMARY, "default 8)", "default 7)", lambda: options(program))
    yield canary(MANUAL, "The default is 1,000,000.", "The default is 100,000.", lambda: options(program))
    yield canary(LANGUAGE, "| 9 | PUSHDOWN EMPTY", "| 9 | PUSHDOWN FULL", traps)
    yield canary(SUMMARY, "| 13 | BAD COUNT", "| 12 | BAD COUNT", traps)
    yield canary(MANUAL, "7 STORE FULL,", "8 STORE FULL,", traps)
    yield canary(LANGUAGE, "(trap 5 if cd is 0)", "(trap 4 if cd is 0)", traps)
    yield canary(LANGUAGE, ":  ;  <", ";  :  <", codes)
    yield canary(SUMMARY, "`A` to `Z` 33 to 58", "`A` to `Z` 33 to 59", codes)
    yield canary(LANGUAGE, "| c + cd |", "| c - cd |", arithmetic_and_tests)
    yield canary(SUMMARY, "| c < cd |", "| c > cd |", arithmetic_and_tests)
    yield canary("library/l6_store.h", "has 1 to 255 units", "has 1 to 256 units", lambda: figures(KNOWN))
    yield canary("docs/tutorial.md", "the tree of section 10", "the tree of section 22", sections)
    yield canary("tests/program/model_jobs.py", "range(1, 1_001)", "range(1, 1_000)", jobs_of_the_model)
    yield canary("docs/page.md", "last ten decks", "last nine decks", lambda: in_words(program))
    yield canary("docs/l6db.1", ".It 5\nMemory ran out", ".It 6\nMemory ran out", statuses)
    yield canary("docs/trace.md", "begin at 1792", "begin at 1793", lambda: pools(program))
    yield canary("CHANGELOG.md", "version 2.34 of the GNU", "version 2.35 of the GNU", needs)
    yield canary("completions/_l6db", "units, 1 to 255 [8]", "units, 1 to 255 [9]", lambda: option_lists(program))
    yield canary("docs/l6db.1", ".It Ev PAGER", ".It Ev MORE", lambda: option_lists(program))
    yield canary("docs/history.md", "Peterson, 1974)", "Peterson, 1975)", citations)
    yield canary(LANGUAGE, "If fewer are left none is", "If fewer are left one is", lambda: run_sentences(program))
    yield from capital_canaries()
    yield canary("docs/editors.md", "`gr` lists", "`gt` lists", lambda: editor_files(program))
    yield canary("editors/vscode/package.json", '"editor.rulers": [72]', '"editor.rulers": [73]', lambda: editor_files(program))


def trials(program: str) -> Iterator[Trial]:
    """All trials."""
    yield from limits()
    yield from figures(KNOWN)
    yield from numbers(KNOWN)
    yield from sections()
    yield from jobs_of_the_model()
    yield from in_words(program)
    yield from samples()
    yield from pools(program)
    yield from statuses()
    yield from options(program)
    yield from option_lists(program)
    yield from traps()
    yield from codes()
    yield from arithmetic_and_tests()
    yield from needs()
    yield from citations()
    yield from editor_files(program)
    yield from run_sentences(program)


if __name__ == "__main__":
    sys.exit(report_of(__doc__, trials, canaries))
