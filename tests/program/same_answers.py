#!/usr/bin/env python3
"""Compares what two builds of a program answer, where a toolchain of another version makes other bytes.

same_answers.py PROGRAM OTHER prints each difference, and last 'N passed, M failed'. l6 does all cases of cases.jsonl
and all decks of examples/; l6db has the sessions of habits.jsonl on each of these decks. Standard output, standard
error and the exit status must be the same.
"""
from __future__ import annotations

import json
import sys
from collections.abc import Iterator
from concurrent.futures import ThreadPoolExecutor
from pathlib import Path

HERE = Path(__file__).resolve().parent
sys.path.insert(0, str(HERE.parent / "harness"))
from answers import Answer, answer_of
from cases import read_cases
from trials import Trial, report

DECKS = sorted((HERE.parents[1] / "examples").glob("*.deck"))
DEBUGGER = "l6db"
THREADS = 4

Job = tuple[str, list[str], bytes]  # a name, the program's words, and what standard input gives


def jobs_of(program: str) -> Iterator[Job]:
    """The jobs of a program, by its name."""
    if Path(program).name == DEBUGGER:
        for line in (HERE / "habits.jsonl").read_text("utf-8").splitlines():
            habit = json.loads(line)
            given = "".join(f"{it}\n" for it in habit["lines"]).encode()
            for deck in DECKS:
                yield f"{habit['habit']} in {deck.name}", ["--echo", str(deck)], given
        return
    for case in read_cases():
        yield case.name, case.args, case.stdin
    for deck in DECKS:
        for verb in ("run", "list", "asm", "check"):
            yield f"{verb} of {deck.name}", [verb], deck.read_bytes()


def compared(program: str, other: str) -> Iterator[Trial]:
    """The trials that both answer each job alike, and that there are jobs."""

    def both(job: Job) -> tuple[Answer[bytes], Answer[bytes]]:
        _, words, given = job
        return answer_of([other, *words], input=given), answer_of([program, *words], input=given)

    jobs = list(jobs_of(program))
    with ThreadPoolExecutor(THREADS) as pool:
        for job, (expected, actual) in zip(jobs, pool.map(both, jobs)):
            yield f"the same answer: {job[0]}", expected, actual
    yield "whether there are jobs", True, len(jobs) > len(DECKS) > 0


if __name__ == "__main__":
    if len(sys.argv) != 3:
        sys.exit(__doc__)
    sys.exit(report(compared(*sys.argv[1:])))
