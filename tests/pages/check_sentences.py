"""What pages say of `l6 check`: decks with errors and warnings show which words are right."""
from __future__ import annotations

import re
from collections.abc import Iterator

from answers import Answer
from held import all_held, answered, held, told
from page_tables import plain, table_with, text_of
from trials import Trial

COMMANDS, MANUAL = "docs/command-line.md", "docs/l6.1"
PAGES = {"docs/language.md": "Anything after them is ___; l6 check ___ of it",
         MANUAL: "Anything after column 72 is ___; .Cm check ___ of it",
         "docs/tutorial.md": "Anything after column 72 is ___. (l6 check ___ of it.)"}
PAST = f"{' (A,E,1)(A,PD)':<72}(A,PD)\n"  # a card with a group past its columns
BAD = " (A,Q,1) DONE\n"  # a card with an error


def positions(answer: Answer[bytes]) -> str:
    """The card, the column and the kind of each finding."""
    return " ".join(re.findall(r"^(\d+:\d+: \w)", answer.stdout.decode("latin-1"), re.MULTILINE)).replace(": ", "")


def advice(answer: Answer[bytes]) -> str:
    """The lines of advice, which are indented, and of the others how they begin."""
    lines = answer.stdout.decode("latin-1").splitlines()
    return "/".join(it if it.startswith(" ") else re.split("[: ]", it)[0] for it in lines)


ERRORS = [
    told("what a column is", "Cards and columns are counted from 1, and a column is a ___",
         {"1:3e 1:12e": "byte", "1:3e 1:10e": "character"}, " (\xc3\xa9,PH)(A,Q)\n", command="check", look=positions),
    told("what follows an error",
         "___ a group without a reading the check goes ___ after it, up to ten errors of a statement; after any other error "
         "it goes on with the ___ statement",
         {"1:5e 1:12e 2:5e | 1:2e 2:5e": ("After", "on", "next"), "1:5e 2:5e | 1:2e 2:5e": ("After", "no further", "next")},
         " (A,Q,1)(A,W,1)(A,PD)\n (B,Q)\n", " X (A,PD)(B,Q,1)\n (B,Q)\n", command="check", look=positions),
    told("where labels are looked for",
         "Labels are looked for on ___ cards, also on those of statements that have an error; a label that stands in another "
         "column than 1 is ___ error, and those who name it are ___ blamed",
         {"1:5e | 1:2e": ("all", "one", "not"), "1:5e 2:2e | 1:2e": ("some", "one", "not"),
          "1:5e | 1:2e 2:2e 3:2e": ("all", "one", "also")}, "X(A,Q,1)\n X\n", " Z (A,PD)\n Z\n Z\n",
         command="check", look=positions),
    told("a card with THEN", "A card that begins with THEN belongs to the statement ___ it, also if its + is ___",
         {"1:2e": ("before", "missing"), "1:2e 2:2e": ("after", "missing")}, " IF (A,E,0)\n THEN\n", command="check",
         look=positions),
    told("what is marked",
         "as in WHILE (A,L,5) or after an exit, the ___ is marked, and not the ___; where THEN follows a condition in column "
         "1, so is that ___",
         {"1:2e | 1:9e | 1:1e": ("word", "group", "condition"), "1:8e | 1:14e | 1:1e": ("group", "word", "condition")},
         " WHILE (A,L,5)\n", " (A,PD) DONE (A,PD)\n", "IF (A,E,0) THEN DONE\n", command="check", look=positions),
    told("what a label is compared with",
         "An exit or a label that ___ card gives is compared with the labels that are ___, and with ___ and ___",
         {"1/    is it `LOOP`?/1 | 1/    is it `DONE`?/1 | 1/    is it `FAIL`?/1": ("no", "given", "DONE", "FAIL")},
         " LOPP\nLOOP (A,PD)\n", " DUNE\n", " FIAL\n", command="check", look=advice),
    told("a separator that is none",
         "The check ___ at a line that reads $INPUT or $COMMANDS with blanks before it, or left over from a session: that "
         "line is an ___, and what follows it is ___ looked at",
         {"2:2e | 2:1e": ("ends", "error", "not"), "2:2e 3:1e 4:5e | 2:1e 3:1e 4:5e": ("goes on", "error", "also")},
         " (A,PD)\n $INPUT\n(A,Q)\n (A,Q)\n", " (A,PD)\n$COMMANDS\n(A,Q)\n (A,Q)\n", command="check", look=positions),
    told("the order of what is found",
         "Errors and warnings come in the order of their ___, and on a card in that of their ___.",
         {"1:73w 2:2e 3:5e 3:10e 4:73w": ("cards", "columns"), "2:2e 3:5e 3:10e 1:73w 4:73w": ("kinds", "columns")},
         f"{PAST} LABEL\n (A,Q)(A,Q)\n{PAST}", command="check", look=positions),
    told("when a card is shown", "the card is shown, too, ___ it has control characters",
         {"1/    1 |  (A,Q)/      |     ^/1 | 1/1": "unless", "1/1 | 1/    1 |  (A,?)/      |     ^/1": "if"}, " (A,Q)\n",
         " (A,\x01)\n", command="check --long", look=advice),
    told("errors and programs", "There is an error ___ if the deck spells ___ program",
         {"1:73w | 1:5e": ("exactly", "no"), "- | -": ("perhaps", "a")}, PAST, BAD, command="check", look=positions),
]
IN_MANUAL = [
    told("the line of advice", "with its card and its column, and advice on a line that is ___",
         {"1/    is it `DONE`?/1": "indented"}, " DUNE\n", command="check", look=advice),
    told("the signs", "With .Fl -long the card stands between, with signs ___ its columns; with",
         {"1/    1 |  (A,Q)/      |     ^/1": "under", "1/      |     ^/    1 |  (A,Q)/1": "over"}, " (A,Q)\n",
         command="check --long", look=advice),
    told("where the name stands", "with .Fl -name that name stands at the ___ of each line",
         {"my.deck/1": "beginning", "1/1": "end"}, " (A,Q)\n", command="check --name my.deck", look=advice),
]
# Decks with one warning each, by how the table begins that tells of it.
WARNED = {
    "what is past column 72": PAST, "a deck that begins as an image does": "000000000000\n",
    "a label that is spelled as a condition": "IF (A,PD)\n", "a statement that no way leads to": " DONE\n (A,PD)\n",
    "the label of such a statement, if no statement names it": " DONE\nX (A,PD)\n",
    "an operation that always traps": " (A,V,0)\n", "a condition that decides nothing": " IF (A,E,0) THEN\n (A,PD)\n",
    "a statement without condition and exit in front of a subroutine": " (X,DO)\n (A,PD)\nX (B,PD) DONE\n",
    "a field in a chain that no definition in the deck defines": " (A,E,AN)\n",
}


def errors(program: str) -> Iterator[Trial]:
    """Which errors are found, and what is shown of them."""
    yield from all_held(program, COMMANDS, ERRORS)
    yield from all_held(program, MANUAL, IN_MANUAL)


def warnings(program: str) -> Iterator[Trial]:
    """In which decks there is each warning."""
    rows = [(plain(of), where) for of, where in table_with(text_of(COMMANDS), "Of", "In").rows]
    for subject, deck in WARNED.items():
        alone, beside = (positions(answered(program, "check", it)).count("w") for it in (deck, deck + BAD))
        where = {(True, True): "any deck", (True, False): "a deck without errors"}.get((alone > 0, beside > 0))
        yield f"{COMMANDS}: where there is a warning of {subject}", [where], [it for of, it in rows if of.startswith(subject)]
    yield f"{COMMANDS}: how many warnings there are", len(WARNED), len(rows)


def past_columns(program: str) -> Iterator[Trial]:
    """What becomes of what is past the columns, and what a check says of it."""
    words = {"1": "ignored", "11": "read"}, {"1:73w": "warns", "1:73e": "complains"}
    for page, sentence in PAGES.items():
        ran, checked = answered(program, "run", PAST).stdout.decode().split()[0], positions(answered(program, "check", PAST))
        yield held(page, "what is past column 72", sentence, (words[0].get(ran, ""), words[1].get(checked, "")))


def check_sentences(program: str) -> Iterator[Trial]:
    """All of them."""
    for group in (errors, warnings, past_columns):
        yield from group(program)


# Each group, and a sentence of it that is turned round.
TURNED = [
    (errors, COMMANDS, "a column is a byte", "a column is a character"),
    (warnings, COMMANDS, "| what is past column 72 | any deck |", "| what is past column 72 | a deck without errors |"),
    (past_columns, MANUAL, "Anything after column 72 is ignored", "Anything after column 72 is read"),
]
