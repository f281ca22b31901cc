#!/usr/bin/env python3
"""Tries how check_report.py reads what a check prints, on small texts.

check_report_trials.py prints each difference, and last 'N passed, M failed'.
"""
from __future__ import annotations

import sys
from collections.abc import Iterator
from pathlib import Path

sys.path.insert(0, str(Path(__file__).resolve().parents[1] / "harness"))
from check_report import Report, Said, files_with_errors, is_in_answer
from edit_files import Function
from trials import Trial, report

TAKE = Function("Ring::take", "src/ring.rt", 10, 20, is_of_trait=False)
GET = Function("BuddyPlaces::get", "src/buddy.rt", 30, 50, is_of_trait=True)

ADD = Function("Ring::add", "src/ring.rt", 13, 20, is_of_trait=False)

# A file of answers: line 3 begins a lemma, line 7 the answer to a goal, line 11 another lemma, whose type
# is a goal's but whose name is not, and line 13 another answer, which has a comment in it.
ANSWERS = """\
use Rattle.l6_debug.proofs.ring.Ring.take.Goals as goal

lemma_of : (n : N) -> n == n
lemma_of n = refl
-- the only clause

pub returns-clause-value :
    goal.returns-clause-value
returns-clause-value c =
    lemma_of c.args.number
other : goal.returns-clause-value
other c = returns-clause-value c
pub keeps-clause-value :
    goal.keeps-clause-value
-- by the same lemma
keeps-clause-value c = lemma_of c.args.number
"""
OF_ANSWERS = {7, 8, 9, 10, 13, 14, 15, 16}  # its lines
FILE = "proofs/ring/Ring/take/Answers.antt"
LEMMAS = FILE.replace("Answers", "Lemmas")  # a file that answers no goal, whatever it holds
PROOFS = {FILE: ANSWERS, LEMMAS: ANSWERS}

UNPROVED = "logic=not-proved functions=3\n"
OF_TAKE = "fn l6_debug::ring::Ring::take: "
BARE = f"{OF_TAKE}not proved\n"
GOAL = "note: src/ring.rt:15:9: it is not proved that the clause `value` holds\n"
OTHER_GOAL = "note: src/ring.rt:25:9: it is not proved that the clause `value` holds\n"
LEMMA_ERROR = f"{FILE}:4:14: error: expected `n == n`\n"
ANSWER_ERROR = f"./{FILE}:10:5: error: `returns-clause-value`: expected `n == n`\n"
CITING_ERROR = f"{FILE}:10:5: error: `lemma_of` is not in scope\n"
OTHER_FILE_ERROR = ANSWER_ERROR.replace(FILE, LEMMAS)
SHARED_ERROR = "proofs/Rings.antt:12:3: error: expected `n == n`\n"
NO_TYPE = "src/ring.rt:12:3: error[E0308]: mismatched types"
NO_NAME = "specs/Ring.antt:7:1: error: `ring` is not in scope"


def check(*lines: str, status: int = 1) -> Report:
    """A check that printed these lines, which did not prove the crate."""
    return Report(status, "".join([*lines, UNPROVED]), 1.0, PROOFS)


def answers() -> Iterator[Trial]:
    """Which lines of a file of answers are in the answer to a goal."""
    for line in range(1, len(ANSWERS.splitlines()) + 1):
        yield f"line {line} of a file of answers", line in OF_ANSWERS, is_in_answer(ANSWERS, line)
    yield "an empty file of answers", False, is_in_answer("", 1)
    read = list(files_with_errors(LEMMA_ERROR + ANSWER_ERROR + GOAL + SHARED_ERROR))
    yield "the files with errors", [FILE, "proofs/Rings.antt"], read


def functions() -> Iterator[Trial]:
    """What a check says of a function."""
    searched = f"{OF_TAKE}not proved: `search` did not prove 1 goal\n"
    texts = [
        ("an open goal in it", BARE + GOAL, Said.REFUSED),
        ("an open goal in another function", BARE + OTHER_GOAL, Said.SILENT),
        ("a search that found nothing", searched, Said.REFUSED),
        ("an answer that does not fit its goal", BARE + ANSWER_ERROR, Said.REFUSED),
        ("a lemma that breaks", BARE + LEMMA_ERROR, Said.UNPROVED),
        ("a lemma that breaks, and an open goal", BARE + LEMMA_ERROR + GOAL, Said.REFUSED),
        ("a lemma in a file of its own that breaks", BARE + OTHER_FILE_ERROR, Said.UNPROVED),
        ("a shared lemma that breaks", BARE + SHARED_ERROR, Said.SILENT),
        ("an open goal in it after one elsewhere", BARE + OTHER_GOAL + GOAL, Said.REFUSED),
        ("an answer that does not fit after a lemma that breaks", BARE + LEMMA_ERROR + ANSWER_ERROR, Said.REFUSED),
        ("a lemma that breaks after a shared one", BARE + SHARED_ERROR + LEMMA_ERROR, Said.UNPROVED),
        ("a lemma that breaks after an answer that cites what is gone", BARE + CITING_ERROR + LEMMA_ERROR, Said.UNPROVED),
        ("an answer that cites what is gone", BARE + CITING_ERROR, Said.SILENT),
        ("a call", f"{OF_TAKE}not proved: it calls `l6_debug::ring::Ring::add`\n", Said.BLOCKED),
        ("a proof", f"{OF_TAKE}proved\n", Said.SILENT),
        ("no line", "fn l6_debug::ring::Ring::take_from: not proved\n", Said.UNNAMED),
        ("two lines", f"{BARE}fn l6_debug::other::Ring::take: not proved\n", Said.UNNAMED),
    ]
    for name, text, expected in texts:
        yield f"a check that names a function: {name}", expected, check(text).says(TAKE)
    unread = Report(1, BARE + ANSWER_ERROR + UNPROVED, 1.0)
    yield "an error in a file that is not there", Said.UNPROVED, unread.says(TAKE)


def edits_alone() -> Iterator[Trial]:
    """What a check says of one edit, which is all that is edited."""
    of_get = "fn l6_store::buddy::BuddyPlaces::get: not proved\n"
    proved = f"{OF_TAKE}proved\n"
    texts: list[tuple[str, tuple[Function | None, ...], str, Said]] = [
        ("a goal of the function", (TAKE,), BARE + GOAL, Said.REFUSED),
        ("a proof alone", (TAKE,), BARE + LEMMA_ERROR, Said.UNPROVED),
        ("a goal of another function alone", (TAKE,), proved + OTHER_GOAL, Said.SILENT),
        ("a shared lemma alone", (TAKE,), BARE + SHARED_ERROR, Said.SILENT),
        ("a goal of a function with no line", (TAKE,), OTHER_GOAL, Said.REFUSED),
        ("a goal near a trait's function", (GET,), of_get + OTHER_GOAL, Said.REFUSED),
        ("a goal of one of two functions", (GET, TAKE), BARE + GOAL, Said.REFUSED),
        ("a goal of the second of two functions", (ADD, TAKE), "fn l6_debug::ring::Ring::add: proved\n" + BARE + GOAL, Said.REFUSED),
        ("a goal elsewhere, of a function and a constant", (TAKE, None), proved + OTHER_GOAL, Said.REFUSED),
        ("a goal elsewhere, of a constant and a function", (None, TAKE), proved + OTHER_GOAL, Said.REFUSED),
        ("a goal elsewhere, of a function and a trait's", (TAKE, GET), proved + of_get.replace("not ", "") + OTHER_GOAL, Said.REFUSED),
        ("a goal, of a constant", (None,), BARE + GOAL, Said.REFUSED),
        ("an answer, of a constant", (None,), BARE + ANSWER_ERROR, Said.REFUSED),
        ("an answer after a lemma, of a constant", (None,), BARE + SHARED_ERROR + ANSWER_ERROR, Said.REFUSED),
        ("a search, of a constant", (None,), f"{OF_TAKE}`search` did not prove it\n", Said.REFUSED),
        ("a lemma, of a constant", (None,), BARE + SHARED_ERROR, Said.UNPROVED),
        ("names alone, of a constant", (None,), BARE + CITING_ERROR, Said.SILENT),
    ]
    for name, changed, text, expected in texts:
        yield f"an edit that is refused by {name}", expected, check(text).says_alone(changed)
    killed = check(BARE, GOAL, status=-9)
    yield "an edit whose check was killed", Said.SILENT, killed.says_alone((None,))


def verdicts() -> Iterator[Trial]:
    """Whether a check came to a verdict, and which: by its status, and by the last of the lines on crates."""
    proved, below = "logic=proved functions=3\n", "logic=proved functions=9\n"
    for what, status, text, expected in (
        ("is proved", 0, proved, (True, True)), ("is proved after another that is not", 0, UNPROVED + proved, (True, True)),
        ("ends well, and is not proved", 0, UNPROVED, (False, False)), ("ends well without a verdict", 0, "", (False, False)),
        ("is not proved", 1, UNPROVED, (False, True)), ("is not proved after another that is", 1, below + UNPROVED, (False, True)),
        ("is not read", 1, below, (False, False)), ("has no verdict", 1, "", (False, False)),
        ("is killed after its verdict", -9, UNPROVED, (False, False)), ("is killed after a proof", -9, proved, (False, False)),
    ):
        made = Report(status, text, 1.0)
        yield f"a crate that {what}", expected, (made.proved, made.judged)
    yield "a function that is proved", True, Report(0, f"{OF_TAKE}proved\n{proved}", 1.0).proves(TAKE)
    yield "a function that is not proved", False, check(BARE, GOAL).proves(TAKE)


def errors() -> Iterator[Trial]:
    """The errors in code and definitions, which function has one, and what is said to a person."""
    below = Report(1, f"logic=proved functions=9\n{NO_NAME}\n./{NO_TYPE}\n{UNPROVED}", 1.0)
    yield "the error in it, and the one before it", [NO_NAME, f"./{NO_TYPE}"], below.unread
    for asked, expected in (((TAKE,), True), ((GET,), False), ((GET, TAKE), True), ((TAKE, GET), True), ((), False)):
        yield f"the function with the error, of {[it.name for it in asked]}", expected, below.cannot_read(asked)
    yield "a function behind the one with the error", False, below.cannot_read([ADD])
    calls = f"{OF_TAKE}not proved: it calls `{'x' * 200}`"
    other = "fn l6_debug::ring::Ring::add: could not tell"
    for what, text, told in (
        ("errors and functions", f"{BARE}{other}\n{NO_TYPE}\nfn last: no proof\n", [NO_TYPE, BARE.strip(), other]),
        ("a long line", f"{calls}\n{other}\n{OF_TAKE}proved\n", [calls[:200], other]),
        ("other lines", "one\ntwo\n", ["one", "two"]),
    ):
        yield f"what is said to a person of {what}", "; ".join(told), Report(1, text, 1.0).why()


def trials() -> Iterator[Trial]:
    """All trials."""
    yield from answers()
    yield from functions()
    yield from edits_alone()
    yield from verdicts()
    yield from errors()


if __name__ == "__main__":
    sys.exit(report(trials()))
