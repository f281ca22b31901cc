#!/usr/bin/env python3
"""Runs hostile jobs on the built program and on another program of the language.

hostile.py PROGRAM OTHER runs each job on PROGRAM and on OTHER, which may be a command of several words,
and prints each difference of what goes out, of the fault's line and of the exit status. The last line
is 'N jobs, M differences'. The gate does not run it. OTHER has to have the buddy system's store, too.

hostile_jobs.py makes each job from its number, so the number is enough to make it again. With --keep
what a job gives to standard input is written, if the two differ. Images are made by PROGRAM, or by
a command that --images names, such as one that writes them in the first version.

    python3 tests/program/hostile.py crates/l6/out/l6 'path/to/other --profile buddy' --jobs 200000
    python3 tests/program/hostile.py PROGRAM OTHER --images 'path/to/other --profile buddy asm' --jobs 20000
    python3 tests/program/hostile.py PROGRAM OTHER --jobs 300 --stack 256
    python3 tests/program/hostile.py PROGRAM OTHER --jobs 300 --guard 'valgrind -q --error-exitcode=99'
"""
from __future__ import annotations

import argparse
import multiprocessing
import os
import resource
import shlex
import sys
from collections import Counter
from dataclasses import dataclass
from pathlib import Path

sys.path.insert(0, str(Path(__file__).resolve().parents[1] / "harness"))
from answers import Answer, answer_of
from hostile_jobs import job_of

SECONDS = 60  # for one run of a program
BATCH = 50  # jobs that a process takes at a time
SHOWN = 300  # bytes of a text that is shown


@dataclass(frozen=True)
class Pair:
    """Two programs, and how the first one is run."""

    program: list[str]
    other: list[str]
    images: list[str]  # the command that makes images of decks
    guard: list[str]
    stack: int  # KiB that the first one's stack has, or 0
    keep: Path | None  # where jobs with different answers are kept

    def tried(self, numbers: range) -> tuple[Counter[str], list[str]]:
        """The exit statuses of the jobs of these numbers, and the differences."""
        statuses: Counter[str] = Counter()
        differences = []
        for number in numbers:
            status, difference = self.compared(number)
            statuses[status] += 1
            differences += [difference] if difference else []
        return statuses, differences

    def compared(self, number: int) -> tuple[str, str]:
        """The verb and the exit status of a job, and how the two programs' answers differ, if they do."""
        job = job_of(number)
        image = answer_with_stack(self.images, job.deck).stdout if job.has_image else b""
        stdin = job.stdin(image)
        actual = answer_with_stack([*self.guard, *self.program, *job.words], stdin, self.stack)
        expected = answer_with_stack([*self.other, *job.words], stdin)
        kind = f"{job.words[0]} {actual.status}"
        if self.keep and actual != expected:
            self.keep.joinpath(f"{number}.job").write_bytes(stdin)
        if actual == expected:
            return kind, ""
        return kind, f"job {number}, {shlex.join(job.words)}\n  answers {shown(actual)}\n  and not {shown(expected)}"


def shown(answer: Answer[bytes]) -> str:
    """The end of an answer."""
    return f"{answer.status}, {answer.stdout[-SHOWN:]!r}, {answer.stderr[-SHOWN:]!r}"


def answer_with_stack(command: list[str], stdin: bytes, stack: int = 0) -> Answer[bytes]:
    """The answer of a command, which has all memory, and a stack of so many KiB if that is not 0."""
    def limit_stack() -> None:
        resource.setrlimit(resource.RLIMIT_STACK, (stack << 10, stack << 10))

    return answer_of(command, seconds=SECONDS, input=stdin, preexec_fn=limit_stack if stack else None)


def read_arguments() -> argparse.Namespace:
    """The arguments of the command line."""
    parser = argparse.ArgumentParser(description=__doc__, formatter_class=argparse.RawTextHelpFormatter)
    parser.add_argument("program")
    parser.add_argument("other", type=shlex.split)
    parser.add_argument("--first", type=int, default=1, help="the first job's number")
    parser.add_argument("--jobs", type=int, default=1_000)
    parser.add_argument("--processes", type=int, default=os.cpu_count())
    parser.add_argument("--images", type=shlex.split, help="the command that makes images of decks")
    parser.add_argument("--guard", type=shlex.split, default=[], help="the words before PROGRAM's")
    parser.add_argument("--stack", type=int, default=0, help="KiB that PROGRAM's stack has")
    parser.add_argument("--keep", type=Path, help="the folder where jobs with a difference are kept")
    return parser.parse_args()


def main() -> int:
    """Tries the jobs, prints the differences and the count, and returns the exit status."""
    given = read_arguments()
    program = [str(Path(given.program).resolve())]
    images = given.images or [*program, "asm"]
    pair = Pair(program, given.other, images, given.guard, given.stack, given.keep)
    last = given.first + given.jobs
    batches = [range(at, min(at + BATCH, last)) for at in range(given.first, last, BATCH)]
    statuses: Counter[str] = Counter()
    failed = 0
    with multiprocessing.Pool(given.processes) as pool:
        for some, differences in pool.imap_unordered(pair.tried, batches):
            statuses += some
            failed += len(differences)
            print(*differences, sep="\n", end="\n" if differences else "", flush=True)
    print(*(f"{kind}: {count}" for kind, count in sorted(statuses.items())), sep=", ")
    print(f"{given.jobs} jobs, {failed} differences")
    return 1 if failed else 0


if __name__ == "__main__":
    sys.exit(main())
