"""Sentences of the pages that tell which of several things happens: it is made to happen, and the word for it compared."""
from __future__ import annotations

import re
import tempfile
from collections.abc import Iterator
from pathlib import Path

from answers import answer_of
from option_lists import debugger_beside
from page_tables import plain, spans_of, table_with, text_of
from trials import Trial

LANGUAGE, LISTING, PLACES, SESSIONS = "docs/language.md", "docs/listing.md", "docs/places.md", "docs/l6db.1"
HEADER = "library/l6_offset.h"
LINE = 80  # characters that a line of the input gives
# Of a line all but two characters are taken; three are asked for, and then one.
LEFT = f"""\
 {'(B,IN,6)' * 7}
+{'(B,IN,6)' * 6}(A,IN,3%s)(ALL,PH) DONE
L      (A,IN,1)(A,PR,1)
$INPUT
{'XY':>{LINE}}
"""
LAST_TWO = {"X": "none is", "Y": "one is", "ALL": "these are"}  # by what is printed, how many were taken
STATEMENT = b" (A,E,5)\n+(A,PD)\n+(A,PD)\n"  # on three cards
CARDS = {(0,): "first", (1,): "second", (2,): "last", (0, 1, 2): "each"}  # which cards of three
NUMBERED = slice(8, 13)  # places 9 to 13 of a listing's line
REFUSED = b"no such command\n"


def input_that_ends(program: str) -> Iterator[Trial]:
    """How many characters are taken where fewer are left than are asked for, and which trap that is."""
    told = re.findall(r"If fewer are left (\w+ \w+) taken, and the run goes to L, or traps (\d+)", plain(text_of(LANGUAGE)))
    printed, trapped = (answer_of([program, "run"], input=(LEFT % label).encode()).stdout.decode() for label in (",L", ""))
    trap = re.findall(r"^== TRAP (\d+) ", trapped, re.MULTILINE)
    yield f"{LANGUAGE}: what is taken of too few characters", [(LAST_TWO.get(printed.partition("\n")[0]), *trap)], told


def numbered_cards(program: str) -> Iterator[Trial]:
    """Which card of a statement shows its number in a listing."""
    lines = answer_of([program, "list"], input=STATEMENT).stdout.decode().splitlines()[:STATEMENT.count(b"\n")]
    numbered = tuple(at for at, line in enumerate(lines) if line[NUMBERED].strip())
    told = re.findall(r"on the (\w+) card of a statement the statement's number", plain(text_of(LISTING)))
    yield f"{LISTING}: the card with the statement's number", [word for these, word in CARDS.items() if these == numbered], told


def faults_of_places() -> Iterator[Trial]:
    """The faults of each call in the page on places are those of the header."""
    calls = re.findall(r"((?:/\*(?:(?!\*/).)*\*/ )?)int64_t (l6_offset_\w+)\(", " ".join(text_of(HEADER).split()))
    faults = {name: re.findall(r"\b[A-Z]+_?[A-Z]+\b", told.partition("Fault")[2]) for told, name in calls}
    table = table_with(text_of(PLACES), "Call", "What it answers", "Faults")
    found = {spans_of(call)[0]: [it for it in row.split(", ") if it] for call, _, row in table.rows}
    yield f"the calls of {PLACES}", sorted(faults), sorted(found)
    for call in faults:
        yield f"{PLACES}: the faults of {call}", sorted(faults[call]), sorted(found.get(call, []))


def refused_commands(program: str) -> Iterator[Trial]:
    """Which options give a session in which a command was refused the status 1."""
    debugger = debugger_beside(program)
    with tempfile.TemporaryDirectory() as folder:
        deck, commands = Path(folder, "a.deck"), Path(folder, "its.commands")
        deck.write_bytes(STATEMENT)
        commands.write_bytes(REFUSED)
        ended = {it: answer_of([debugger, f"--{it}", "-x", commands, deck], input=b"").status for it in ("batch", "echo")}
    told = re.findall(r"A command was refused, with\n\.Fl -(\w+) \.", text_of(SESSIONS))
    yield f"{SESSIONS}: the option with which a refused command is the status 1", [it for it, status in ended.items() if status == 1], told


def run_sentences(program: str) -> Iterator[Trial]:
    """All of them."""
    yield from input_that_ends(program)
    yield from numbered_cards(program)
    yield from faults_of_places()
    yield from refused_commands(program)
