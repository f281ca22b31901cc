#!/usr/bin/env python3
"""Runs `l6 check` on the decks of checks.jsonl, whose findings were written by hand from the manual.

check_decks.py PROGRAM prints each difference, and last 'N passed, M failed'. The decks of slips.jsonl come next:
answers to the tutorial's exercises, each with a slip as a pupil makes it, and a word that the finding on its
card must have to name it. Then decks that are damaged at random are given to the program and to the model of
tests/program/model/, which was written from the manual alone: `check` must have an error exactly where `asm` and the
model refuse the deck, and on the same card, and must warn of just the statements that the model says: those to
which no way leads, that decide nothing, or that run on into a subroutine. A deck is made from its number, so the number is enough to make it again.

    python3 tests/program/check_decks.py PROGRAM --first 1 --jobs 20000 --processes 4
"""
from __future__ import annotations

import argparse
import contextlib
import io
import json
import multiprocessing
import re
import sys
import tempfile
from collections.abc import Iterator
from dataclasses import dataclass
from itertools import islice
from pathlib import Path
from typing import Any

sys.path.insert(0, str(Path(__file__).resolve().parents[1] / "harness"))
from answers import Answer, answer, answer_of
from hostile_jobs import job_of
from model.cards import assemble
from model.faults import Fault
from model.jobs import CHECK, answer_of_job
from model.state import Options
from model.ways import idle_cards, running_cards, unreached_cards
from trials import Trial, few_pass, first_wrong, report

CHECKS = Path(__file__).resolve().parent / "checks.jsonl"
SLIPS = CHECKS.with_name("slips.jsonl")
NAMED = 27  # slips that must be named
BATCH = 50  # numbers that a process takes at a time
MOST_FINDINGS = 100  # that are written
DAMAGED = 400  # random decks that are tried, unless there is another number
FINDING = re.compile(rb"(\d+):(\d+): (error|warning): ")
OF_STATEMENTS = {  # the cards that are warned of, and those that the model has
    re.compile(rb"^(\d+):\d+: warning: no way leads to ", re.MULTILINE): unreached_cards,
    re.compile(rb"^(\d+):\d+: warning: the condition of .*decides nothing", re.MULTILINE): idle_cards,
    re.compile(rb"^(\d+):\d+: warning: the statement .*runs on into", re.MULTILINE): running_cards,
}
FAULT = re.compile(rb"l6: card (\d+): ")
COUNTS = re.compile(rb"(\d+) errors?, (\d+) warnings?\n\Z")


@dataclass(frozen=True)
class Check:
    """A deck, and what is said of it."""

    name: str
    deck: bytes
    expected: Answer[bytes]


def read_checks() -> Iterator[Check]:
    """The decks of checks.jsonl."""
    for line in CHECKS.read_text("utf-8").splitlines():
        row = json.loads(line)
        expected = answer(row["said"].encode(), status=row["status"])
        yield Check(row["name"], row["deck"].encode(), expected)


def checks(program: str) -> Iterator[Trial]:
    """The trials on the decks of checks.jsonl."""
    for check in read_checks():
        yield f"check: {check.name}", check.expected, answer_of([program, "check"], input=check.deck)
        shown = answer_of([program, "check", "--long"], input=check.deck)
        yield f"check --long: {check.name}", check.expected, answer(without_cards(shown.stdout, check.deck), shown.stderr, shown.status)


def without_cards(shown: bytes, deck: bytes) -> bytes:
    """What is said of a deck, without the card after each finding and the signs under its columns.

    A card that is not the deck's, and signs that do not begin at the finding's column, stay in the text.
    """
    cards = deck.split(b"\n")
    kept: list[bytes] = []
    lines = iter(shown.splitlines(keepends=True))
    for line in lines:
        kept.append(line.replace(b"      = ", b"    ", 1) if line.startswith(b"      = ") else line)
        if not (found := FINDING.match(line)):
            continue
        number, column = int(found[1]), int(found[2])
        if re.search(rb"[\x00-\x08\x0a-\x1f\x7f]", cards[number - 1].rstrip(b"\r")):
            continue  # (a card that would do something to a terminal is not shown)
        card, signs = next(lines, b""), next(lines, b"")
        if card.rstrip(b"\r\n") != b"%5d | %s" % (number, cards[number - 1].rstrip(b"\r")):
            kept.append(card)
        if not re.fullmatch(rb"      \| {%d}\^+\n" % column, signs.replace(b"\t", b" ")):
            kept.append(signs)
    return b"".join(kept)


def slips(program: str) -> Iterator[Trial]:
    """The trials on the decks of slips.jsonl: nearly all slips are named, on their cards."""
    rows = [json.loads(line) for line in SLIPS.read_text("utf-8").splitlines()]
    unnamed = [row for row in rows if not is_named(program, row)]
    for row in unnamed:
        print(f"the slip of exercise {row['exercise']} is not named: {row['slip']}")
    yield f"at least {NAMED} slips are named", True, len(rows) - len(unnamed) >= NAMED
    yield "three slips of each exercise", [3] * 10, [
        sum(row["exercise"] == exercise for row in rows) for exercise in range(1, 11)
    ]


def is_named(program: str, row: dict[str, Any]) -> bool:
    """Whether what is found on the card of a slip names it."""
    given = answer_of([program, "check"], input=row["deck"].encode(), preexec_fn=None)
    found = re.split(r"\n(?! )", given.stdout.decode())
    return any(it.startswith(f"{row['card']}:") and row["names"] in it for it in found)


def large(program: str) -> Iterator[Trial]:
    """The trials on decks that are too large to be written down."""
    statement = " (PL)\n"
    said = "65535:1: error: the statement ` (PL)` is one too many: a deck has at most 65534\n1 error, 0 warnings\n"
    for count, expected in (
        (65_534, answer(b"0 errors, 0 warnings\n")), (65_535, answer(said.encode(), status=4)),
    ):
        actual = answer_of([program, "check"], input=(statement * count).encode(), preexec_fn=None)
        yield f"{count} statements", expected, actual
    too_long = answer_of([program, "check"], input=b"*" * 1_048_577, preexec_fn=None)
    yield "a deck that is too long", answer(stderr=b"l6: deck too long\n", status=4), too_long
    half_a_million = answer_of([program, "check"], input=b"?\n" * 524_288, preexec_fn=None)
    yield "524,288 errors", b"\n524288 errors, 0 warnings\n", half_a_million.stdout[-27:]


def card_in_model(deck: bytes) -> int:
    """The card on which the model has a deck's error, or 0."""
    said, _, _ = answer_of_job(CHECK, deck, Options())
    return int(said.partition(b":")[0]) if said else 0


def card_refused(program: str, deck: bytes) -> object:
    """The card for which the program refuses to assemble a deck, or 0; or what is wrong with its answer."""
    given = answer_of([program, "asm"], input=deck, preexec_fn=None)
    found = FAULT.match(given.stderr)
    if given.status == 0:
        return 0
    return int(found[1]) if given.status == 4 and found and not given.stdout else given


def warned_in_model(deck: bytes) -> list[list[int]]:
    """The cards of the statements that the model warns of, each kind by itself; none if the deck has an error."""
    try:
        assembly = assemble(deck)
    except Fault:
        return [[] for _ in OF_STATEMENTS]
    return [cards(assembly) for cards in OF_STATEMENTS.values()]


def warned(given: Answer[bytes], expected: list[list[int]]) -> list[list[int]]:
    """The same by an answer; as expected if not all are written."""
    counts = COUNTS.search(given.stdout)
    if counts and int(counts[1]) + int(counts[2]) > MOST_FINDINGS:
        return expected
    return [[int(card) for card in kind.findall(given.stdout)] for kind in OF_STATEMENTS]


def verdict(given: Answer[bytes]) -> object:
    """What is wrong with an answer of `check`, or the cards on which it has errors."""
    lines = [line + b"\n" for line in given.stdout.split(b"\n")[:-1]]
    counts = COUNTS.match(lines[-1]) if lines else None
    if given.stderr or not counts:
        return given
    findings = [FINDING.match(line) for line in lines[:-1] if not line.startswith(b"    ")]
    if not all(findings):
        return given
    errors = [found for found in findings if found and found[3] == b"error"]
    if given.status != (4 if errors else 0) or int(counts[1]) < len(errors):
        return given
    columns_are_on_cards = all(1 <= int(found[2]) <= 72 for found in errors)
    return sorted({int(found[1]) for found in errors}) if columns_are_on_cards else given


def damaged(program: str, number: int) -> Trial:
    """The trial on the damaged deck of a number: `asm` refuses it on the card on which the model has an error,
    and `check` has an error there; or it warns of the statements that the model warns of."""
    deck = job_of(number).deck.partition(b"$INPUT")[0]
    card = card_in_model(deck)
    refused = card_refused(program, deck)
    given = answer_of([program, "check"], input=deck, preexec_fn=None)
    cards = verdict(given)
    if isinstance(cards, list) and (card in cards if card else not cards):
        cards = card
    expected = warned_in_model(deck)
    return f"the deck {number}", (card, card, expected), (refused, cards, warned(given, expected))


def some_damaged(program: str, numbers: range) -> list[Trial]:
    """The trials on the damaged decks of these numbers."""
    return [damaged(program, number) for number in numbers]


def all_damaged(program: str, first: int, jobs: int, processes: int) -> Iterator[Trial]:
    """The trials on damaged decks."""
    last, cards = first + jobs, list[int]()
    batches = [range(at, min(at + BATCH, last)) for at in range(first, last, BATCH)]
    with multiprocessing.Pool(processes) as pool:
        for trials in pool.starmap(some_damaged, [(program, batch) for batch in batches]):
            yield from trials
            cards += [expected[0] for _, expected, _ in trials if isinstance(expected, tuple)]
    decks = {job_of(number).deck for number in range(first, last)}
    yield "damaged decks that differ, of which some are refused, and some are not", (True, True, True), (
        len(decks) > jobs * 9 // 10, sum(card > 0 for card in cards) > jobs // 10, sum(card == 0 for card in cards) > jobs // 5)


# What stands in place of a program's `check`: it finds something on a card that is not there, or leaves out findings of a kind.
ELSEWHERE = "cat > /dev/null; printf '99:1: error: it is wrong\\n1 error, 0 warnings\\n'; exit 4"
LEAVING_OUT = "said=$('{program}' check); status=$?; printf '%s\\n' \"$said\" | grep -v '{words}'; exit $status"
KINDS = ("no way leads to", "decides nothing", "runs on into")
SHOWN = b"1:5: error: it is wrong\n    1 |  (A,ZZ,5)\n      |     ^^\n"


def damaged_canaries(program: str, room: Path) -> Iterator[Trial]:
    """Of damaged decks it is seen that errors are said of other cards, and that warnings of each kind are left out."""
    said = {"elsewhere": ELSEWHERE, **{f"without-{number}": LEAVING_OUT.format(program=program, words=words)
                                       for number, words in enumerate(KINDS)}}
    for name, text in said.items():
        other = room / name
        other.write_text(f"#!/bin/sh\n[ \"$1\" != asm ] || exec '{program}' asm\n{text}\n")
        other.chmod(0o755)
        decks = (damaged(str(other), number) for number in range(1, DAMAGED))
        yield few_pass(name, 0, islice(decks, 20)) if text == ELSEWHERE else first_wrong(name, decks)
    for old, new in ((b"1 |  (", b"1 | ("), (b"|     ^", b"|    ^"), (b"    1 | ", b"    2 | ")):
        shown = SHOWN.replace(old, new)
        yield f"a card that is shown otherwise: {new.decode()}", SHOWN.partition(b"    ")[0], without_cards(shown, b" (A,ZZ,5)\n")


def canaries(program: str) -> Iterator[Trial]:
    """On a program that answers wrong no trial passes but the one of how many slips there are."""
    with tempfile.TemporaryDirectory() as folder:
        wrong = Path(folder, "wrong")
        wrong.write_text("#!/bin/sh\ncat > /dev/null\necho wrong\nexit 77\n")
        wrong.chmod(0o755)
        with contextlib.redirect_stdout(io.StringIO()):  # (each slip that is not named is printed)
            yield few_pass("slips on a wrong program", 1, slips(str(wrong)))
        yield few_pass("large decks on a wrong program", 0, large(str(wrong)))
        yield few_pass("damaged decks on a wrong program", 0, some_damaged(str(wrong), range(1, 21)))
        yield from damaged_canaries(program, Path(folder))


def main() -> int:
    """Makes the trials, and returns the exit status."""
    parser = argparse.ArgumentParser(description=__doc__, formatter_class=argparse.RawTextHelpFormatter)
    parser.add_argument("program")
    parser.add_argument("--first", type=int, default=1, help="the first damaged deck's number")
    parser.add_argument("--jobs", type=int, default=DAMAGED)
    parser.add_argument("--processes", type=int, default=2)
    given = parser.parse_args()
    program = str(Path(given.program).resolve())

    def trials() -> Iterator[Trial]:
        yield from checks(program)
        yield from slips(program)
        yield from large(program)
        yield from all_damaged(program, given.first, given.jobs, given.processes)

    return report(trials(), canaries(program))


if __name__ == "__main__":
    sys.exit(main())
