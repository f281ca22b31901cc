#!/usr/bin/env python3
"""Runs jobs on the built program beside the model of tests/program/model/, which was written from the manual alone.

model_jobs.py PROGRAM prints each difference, and last 'N passed, M failed'. The model is tried first, on
cases.jsonl and on examples/, whose answers were worked out by hand, save for those of the groups that count
requests for memory, which are the model's own. Then the random jobs of hostile_jobs.py and of further_jobs.py
are given to both, and what goes to the two outputs and the exit status must be the same. A job is made from
its number, so the number is enough to make it again.

    python3 tests/program/model_jobs.py PROGRAM --first 708 --jobs 1
    python3 tests/program/model_jobs.py PROGRAM --jobs 100000 --processes 4 --keep FOLDER

With --keep what a job gives to standard input is written to FOLDER, where the two answers differ. The cases
with long texts take the model a minute, and are tried with --long.
"""
from __future__ import annotations

import argparse
import multiprocessing
import re
import shlex
import sys
import tempfile
from collections.abc import Callable, Iterator
from dataclasses import dataclass
from itertools import chain
from pathlib import Path

sys.path.insert(0, str(Path(__file__).resolve().parents[1] / "harness"))
import further_jobs
import hostile_jobs
from answers import Answer, answer, answer_of
from cases import read_cases
from further_jobs import Job
from model.command import WRONG_WORDS
from model.jobs import VERBS
from model.command import answer_of as answer_of_model
from trials import Trial, report

EXAMPLES = Path(__file__).resolve().parents[2] / "examples"
BATCH = 50  # numbers that a process takes at a time
LONG = 100_000  # bytes of a text of a case
ODD = b"\0\x7f\x80\xff"
IMAGE = b"542651554722\n000000000002\n000000000007\n000020000000\n013077000000\n127777777777\n000000000005\n"
VARIED = 200  # random jobs of each kind that must nearly all differ
FIRST_VERSION = b"542651554721\n"  # the first line of an image of version 1, by docs/image.md
NUMBERS = range(1, 1_001)  # of random jobs
# What stands in jobs of either kind: groups of cards, words of statements, commands and options; hostile ones have more.
GROUPS = (*"EASMVYNOXCLRGZI", "D[A-Z0-9]", *"GT DP FR DO IN PR PD PO PH PL S,FC R,FC S,FD R,FD".split())
STATEMENT_WORDS = ("IF", "NOT", "IFALL", "IFANY", "IFNONE", "IFNALL", "THEN", "DONE", "FAIL")
COMMANDS = ("STEP", "BACK", "GO", "BREAK", "CLEAR", "BLOCK", "DRAW", "STORE", "SHOW", "FIELDS", "OUT")
OPTIONS = ("--steps", "--store", "--output")
OF_HOSTILE = ("QUIT", "--explain")
# What the runs and the readings of all random jobs come to, by the manual: each trap, and each fault but that of a job too long.
TRAPS = {f"TRAP {number} " for number in range(1, 15)}
FAULTS = {
    "no reading", "past a limit", "no such label", "label given twice", "not an image", "not a word", "deck too long",
    "image too long", "input too long", "commands too long",
}


def without_usage(stdout: bytes, stderr: bytes, status: int | str) -> Answer[bytes]:
    """An answer. What is said of wrong words is free, so it is left out."""
    return answer(stdout, b"" if status == WRONG_WORDS else stderr, status)


def model_answer(words: list[str], stdin: bytes) -> Answer[bytes]:
    """The answer of the model."""
    made = answer_of_model(words, lambda: stdin)
    return without_usage(made.stdout, made.stderr, made.status)


def program_answer(program: str, words: list[str], stdin: bytes) -> Answer[bytes]:
    """The answer of the program."""
    made = answer_of([program, *words], input=stdin, preexec_fn=None)
    return without_usage(made.stdout, made.stderr, made.status)


def cases(with_long: bool) -> Iterator[Trial]:
    """The trials of the model on cases.jsonl; what `check` says is no part of the model."""
    for case in read_cases():
        if case.args[:1] == ["check"]:
            continue
        stdin, known = case.stdin, case.expected
        expected = without_usage(known.stdout, known.stderr, known.status)
        if with_long or len(stdin) <= LONG and len(expected.stdout) <= LONG:
            yield f"the model: {case.name}", expected, model_answer(case.args, stdin)


def examples() -> Iterator[Trial]:
    """The trials of the model on the decks, the listings and the sessions of examples/."""
    for verb, job, result in (
        ("run", ".deck", ".printout"), ("list", ".deck", ".listing"), ("debug", ".session", ".transcript"),
    ):
        for file in sorted(EXAMPLES.glob(f"*{result}")):
            actual = model_answer([verb], file.with_suffix(job).read_bytes())
            yield f"the model: {verb} of the example {file.stem}", answer(file.read_bytes()), actual


def hostile_job(number: int) -> Job:
    """The hostile job of a number, of which the model makes the image."""
    job = hostile_jobs.job_of(number)
    image = model_answer(["asm"], job.deck).stdout if job.has_image else b""
    return Job(job.words, job.stdin(image))


KINDS: list[tuple[str, Callable[[int], Job]]] = [("hostile", hostile_job), ("further", further_jobs.job_of)]


@dataclass(frozen=True)
class Beside:
    """A program that is run beside the model, and where jobs with different answers are kept."""

    program: str
    keep: Path | None

    def trials(self, numbers: range) -> list[Trial]:
        """The trials on the jobs of these numbers, of each kind."""
        return [self.trial(f"{kind} job {at}", make(at)) for at in numbers for kind, make in KINDS]

    def trial(self, name: str, job: Job) -> Trial:
        """The trial on a job."""
        expected = model_answer(job.words, job.stdin)
        actual = program_answer(self.program, job.words, job.stdin)
        if self.keep and expected != actual:
            self.keep.joinpath(name.replace(" ", "-")).write_bytes(job.stdin)
        return f"{name}: {shlex.join(job.words)}", expected, actual


def random_jobs(beside: Beside, numbers: range, processes: int) -> Iterator[Trial]:
    """The trials on the random jobs of these numbers; and of all of them, that they come to each trap and each fault."""
    batches, told = [numbers[at:at + BATCH] for at in range(0, len(numbers), BATCH)], set[str]()
    with multiprocessing.Pool(processes) as pool:
        for name, expected, actual in chain.from_iterable(pool.imap(beside.trials, batches)):
            yield name, expected, actual
            told |= told_by(expected) if isinstance(expected, Answer) else set()
    if numbers == NUMBERS:
        yield "traps and faults of random jobs", sorted(TRAPS | FAULTS), sorted(told)


def told_by(made: Answer[bytes]) -> set[str]:
    """The traps that an answer tells of, and the fault."""
    traps = re.findall(r"^== (TRAP \d+ )", made.stdout.decode("latin-1"), re.MULTILINE)
    return {*traps, *re.findall(r"\Al6: (?:(?:card|line) \d+: )?(.*)", made.stderr.decode("latin-1"))}


def trials(given: argparse.Namespace) -> Iterator[Trial]:
    """All trials."""
    beside = Beside(str(Path(given.program).resolve()), given.keep)
    yield from cases(given.long)
    yield from examples()
    yield from variety()
    yield from hostility()
    yield from random_jobs(beside, range(given.first, given.first + given.jobs), given.processes)


def variety() -> Iterator[Trial]:
    """The trials that the random jobs are not all the same: a few are, since a job may be short."""
    for kind, make in KINDS:
        jobs = list(map(make, range(1, VARIED + 1)))
        different = {(tuple(job.words), job.stdin) for job in jobs}
        yield f"{kind} jobs that differ", True, len(different) >= VARIED * 95 // 100
        yield f"the verbs of {kind} jobs", set(), set(VERBS) - {job.words[0] for job in jobs if job.words}
        statuses = {model_answer(job.words, job.stdin).status for job in jobs[:VARIED // 2]}
        yield f"the statuses of {kind} jobs", [0, 1, 2, 3, 4], sorted(it for it in statuses if isinstance(it, int) and it < 5)
        verbs = {job.words[0] for job in jobs if job.words and job.stdin.startswith(FIRST_VERSION)}
        yield f"verbs of {kind} jobs on images of version 1", set() if kind == "hostile" else {"load", "renew"}, verbs
        yield f"what {kind} jobs never have", [] if kind == "hostile" else list(OF_HOSTILE), never_in(jobs)


def never_in(jobs: list[Job]) -> list[str]:
    """The groups, the words, the commands and the options that are in none of these jobs."""
    text = b"\n".join(job.stdin for job in jobs if len(job.stdin) <= LONG).decode("latin-1").upper()
    given = {word.partition("=")[0] for job in jobs for word in job.words}
    return [
        *(it for it in GROUPS if not re.search(rf"[(,]{it}(?:[OH]?,|\))", text)),
        *(it for it in STATEMENT_WORDS if not re.search(rf"(?<!\w){it}(?!\w)", text)),
        *(it for it in (*COMMANDS, "QUIT") if not re.search(rf"^\s*{it}\b", text, re.MULTILINE)),
        *(it for it in (*OPTIONS, "--explain") if it not in given),
    ]


def hostility() -> Iterator[Trial]:
    """The trials that hostile jobs are hostile: some decks have odd bytes, some images are altered."""
    jobs = [hostile_jobs.job_of(number) for number in range(1, 4 * VARIED + 1)]
    odd = [job for job in jobs if set(job.deck) & set(ODD)]
    yield "hostile decks with odd bytes", True, len(odd) >= VARIED // 20
    images = [job.stdin(IMAGE) for job in jobs if job.has_image]
    kinds = [any(IMAGE not in image for image in images), any(IMAGE in image for image in images)]
    yield "hostile images, altered and whole", [True, True], kinds
    parts = [sum(mark in job.rest for job in jobs) for mark in (b"$INPUT", b"$COMMANDS")]
    yield "hostile inputs and commands", [True, True], [count > VARIED // 4 for count in parts]


def canaries() -> Iterator[Trial]:
    """The model and a program that answers nothing: each on a case, and beside each other."""
    silent = Beside("/bin/false", None)
    for kind, make in KINDS:
        yield silent.trial(f"a {kind} job of a program that answers nothing", make(1))
    case = next(read_cases())
    with tempfile.TemporaryDirectory() as folder:
        other = Path(folder, "other")
        other.write_text("#!/bin/sh\ncat > /dev/null\necho wrong >&2\nexit 4\n")
        other.chmod(0o755)
        yield Beside(str(other), None).trial("another line on standard error", Job(["run"], b"5\n"))
    nothing = program_answer("/bin/false", case.args, b"")
    yield "a case of a program that answers nothing", case.expected, nothing
    for verb, file in (("run", "first.printout"), ("list", "first.listing")):
        made = model_answer([verb], b" (A,E,6)(A,PD)\n")
        yield f"{verb} of another deck", answer((EXAMPLES / file).read_bytes()), made


def main() -> int:
    """Makes the trials, and answers the exit status."""
    parser = argparse.ArgumentParser(
        description=__doc__, formatter_class=argparse.RawDescriptionHelpFormatter)
    parser.add_argument("program")
    parser.add_argument("--first", type=int, default=NUMBERS.start, help="the first number")
    parser.add_argument("--jobs", type=int, default=len(NUMBERS), help="how many numbers; each makes two jobs")
    parser.add_argument("--processes", type=int, default=1)
    parser.add_argument("--keep", type=Path, help="the folder where jobs with a difference are kept")
    parser.add_argument("--long", action="store_true", help="try the model on cases with long texts, too")
    return report(trials(parser.parse_args()), canaries())


if __name__ == "__main__":
    sys.exit(main())
