#!/usr/bin/env python3
"""Tries what trials see: with programs that answer wrong, just as many trials pass as are known not to look at that.

sight.py makes the trials of scripts while each program answers wrong in one way (harness/wrong_answers.py), and compares how
many pass with the file `blind` beside this one. If one more passes, a trial has come to look at less: its comparison is always
true, or it compares a value with itself. With --record the numbers are written, after trials were added. It prints each
difference, and last 'N passed, M failed'.
"""
from __future__ import annotations

import os
import re
import subprocess
import sys
from collections.abc import Iterator
from concurrent.futures import ThreadPoolExecutor
from pathlib import Path

HERE = Path(__file__).resolve().parent
TOP = HERE.parents[1]
sys.path.insert(0, str(HERE.parent / "harness"))
from trials import ONLY, Trial, report

BLIND = HERE / "blind"
WRONG = TOP / "tests/harness/wrong_answers.py"
AT_ONCE = 4
SECONDS = 1_800  # for one script, on a machine that is busy
L6, DEBUGGER = str(TOP / "dist/l6"), str(TOP / "dist/l6db")
OF_STATUS = ("status", "signal")
ALL = ("output", "before", "behind", "case", "order", "errors", *OF_STATUS)
# The scripts, by the names of their steps, with their words, and the ways in which answers are wrong.
SCRIPTS: dict[str, tuple[list[str], tuple[str, ...]]] = {
    "program": (["tests/program/program.py", L6], ALL),
    "checks": (["tests/program/check_decks.py", L6], ALL),
    "traces": (["tests/program/traces.py", L6], ("output", "errors", *OF_STATUS)),
    "debugger": (["tests/program/l6db.py", DEBUGGER, L6], ("output", "behind", "order", *OF_STATUS)),
    "terminal": (["tests/program/terminal.py", DEBUGGER], ("shown",)),
    "pages": (["tests/pages/documents.py", L6], ("output", "behind", "order", "errors", *OF_STATUS, "pages")),
    "facts": (["tests/pages/facts.py", L6], ("digits", "pages")),
    "sentences": (["tests/pages/sentences.py", L6], ("digits", "pages")),
    "formats": (["tests/pages/format_pages.py", L6], ("pages",)),
    "install": (["tests/scripts/install.py"], ("output", "errors", "status")),
    "scripts": (["tests/scripts/script_words.py"], ("output", "errors", "status")),
    "library": (["tests/systems/library.py"], ("output", "status")),
}
COUNT = re.compile(r"^(\d+) passed, (\d+) failed$")


def passing(script: list[str], way: str) -> tuple[int, bool]:
    """How many trials of a script pass where answers are wrong in a way, and whether it left some out; -1 if it did not end."""
    known = {name: value for name, value in os.environ.items() if name != ONLY}
    words = [sys.executable, "-B", str(WRONG), way, str(TOP / script[0]), *script[1:]]
    ran = subprocess.run(words, cwd=TOP, env=known, stdin=subprocess.DEVNULL, capture_output=True, text=True, errors="replace",
                         timeout=SECONDS)
    found = COUNT.match((ran.stdout.splitlines() or [""])[-1])
    return int(found[1]) if found else -1, "\nskipped: " in f"\n{ran.stdout}"


def known() -> dict[tuple[str, str], int]:
    """How many trials of each step do not look at what is wrong in each way."""
    rows = (line.split() for line in BLIND.read_text("utf-8").splitlines())
    return {(step, way): int(count) for step, way, count in rows}


def made() -> Iterator[tuple[str, str, int, bool]]:
    """Each step and way, how many trials pass, and whether some were left out."""
    asked = [(step, way) for step, (_, ways) in SCRIPTS.items() for way in ways]
    with ThreadPoolExecutor(AT_ONCE) as pool:
        answers = [pool.submit(passing, SCRIPTS[step][0], way) for step, way in asked]
        for (step, way), answer in zip(asked, answers):
            yield step, way, *answer.result()


def trials() -> Iterator[Trial]:
    """The trials that no more pass than are known, and, where none is left out, as many."""
    numbers = known()
    yield "rows of scripts and ways", sorted((step, way) for step, (_, ways) in SCRIPTS.items() for way in ways), sorted(numbers)
    for step, way, count, is_less in made():
        expected = numbers.get((step, way), 0)
        seen = expected if is_less and 0 <= count <= expected else count
        yield f"trials of {step} that pass where each answer has another {way}", expected, seen


def record() -> None:
    """Writes the numbers."""
    rows = sorted(f"{step} {way} {count}\n" for step, way, count, _ in made())
    BLIND.write_text("".join(rows), "utf-8")


if __name__ == "__main__":
    if sys.argv[1:] == ["--record"]:
        record()
    elif sys.argv[1:]:
        sys.exit(__doc__)
    else:
        sys.exit(report(trials()))
