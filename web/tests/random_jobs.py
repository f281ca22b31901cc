#!/usr/bin/env python3
"""Runs random jobs through the module, in node, and on the native program, whose answers must be the same.

random_jobs.py PROGRAM [JOBS] makes each job from its number, by tests/program/hostile_jobs.py: decks, images, inputs
and commands, whole, broken and altered. It prints each difference, and last 'N passed, M failed'.
"""
from __future__ import annotations

import base64
import json
import shlex
import subprocess
import sys
from pathlib import Path

sys.dont_write_bytecode = True
HERE = Path(__file__).resolve().parent
sys.path.insert(0, str(HERE.parents[1] / "tests/program"))

from hostile_jobs import job_of  # noqa: E402

JOBS = 3_000
SECONDS = 60  # for one run of the program
SHOWN = 300  # bytes of a text

Answer = tuple[int, bytes, bytes]  # the exit status, and what went to the two outputs


class Module:
    """The module in node, which does one job after another."""

    def __init__(self) -> None:
        words = ["node", str(HERE / "serve_lines.mjs")]
        self._node = subprocess.Popen(words, stdin=subprocess.PIPE, stdout=subprocess.PIPE, text=True)
        assert self._node.stdin and self._node.stdout
        self._to, self._from = self._node.stdin, self._node.stdout

    def answer(self, words: list[str], stdin: bytes) -> Answer:
        """What it answers to a job."""
        job = {"words": words, "input": base64.b64encode(stdin).decode()}
        self._to.write(json.dumps(job) + "\n")
        self._to.flush()
        answer = json.loads(self._from.readline())
        return answer["status"], base64.b64decode(answer["output"]), base64.b64decode(answer["errors"])

    def end(self) -> None:
        """Ends it."""
        self._to.close()
        self._node.wait()


def native(program: str, words: list[str], stdin: bytes) -> Answer:
    """What the native program answers to a job."""
    ran = subprocess.run([program, *words], input=stdin, capture_output=True, timeout=SECONDS)
    return ran.returncode, ran.stdout, ran.stderr


def main() -> int:
    """Compares the answers; answers the exit status."""
    program, count = sys.argv[1], int(sys.argv[2]) if sys.argv[2:] else JOBS
    module, failed = Module(), 0
    same = module.answer(["asm"], b" (PL)\n")
    if same != native(program, ["asm"], b" (PL)\n") or same == native(program, ["asm"], b" (PO)\n"):
        print("an answer that differs is not found")
        return 1
    different = set()
    for number in range(count):
        job = job_of(number)
        stdin = job.stdin(native(program, ["asm"], job.deck)[1] if job.has_image else b"")
        different.add((tuple(job.words), stdin))
        come, want = module.answer(job.words, stdin), native(program, job.words, stdin)
        if come != want:
            failed += 1
            shown = [(status, out[-SHOWN:], err[-SHOWN:]) for status, out, err in (come, want)]
            print(f"job {number}, {shlex.join(job.words)}\n  answers {shown[0]}\n  and not {shown[1]}")
    module.end()
    if len(different) < count * 0.99:
        print(f"of {count} jobs only {len(different)} differ")
        failed += 1
    print(f"{count - failed} passed, {failed} failed")
    return 1 if failed else 0


if __name__ == "__main__":
    sys.exit(main())
