#!/usr/bin/env python3
"""Proves crates of the repository side by side, and builds the program if it is one of them.

prove.py [CRATE..] proves these crates and those that they use, or all of them: each once those that
it uses are proved, in a room of its own and over what earlier runs kept. Lines on standard error say
which crate of how many is begun, and how long it took so far. What the check of a crate that is not
proved wrote is shown, and the exit status is then 1. So it is where a check warns of a definition.
"""
from __future__ import annotations

import dataclasses
import fcntl
import functools
import hashlib
import math
import re
import subprocess
import sys
import time
from collections.abc import Iterable
from concurrent.futures import FIRST_COMPLETED, Future, ThreadPoolExecutor, wait
from pathlib import Path

from commands import Commands, Ended, run_program
from crates import SOURCES, TOP, Crate, is_source, read_crates, rows_of
from lanes import processors, usable_memory
from rooms import KEPT, LIBRARY, bring_back, room_of

JOB_MEMORY = 1_200_000_000  # bytes that each job of a check beyond the first takes
STAMP = "out/proved"  # notes of which sources a crate is proved, and what that made
# What rt only warns of in a definition, and rt ci refuses: a pattern that is taken for a constructor, for one.
WARNED = re.compile(r"^\S*\bspecs/\S+\.antt:\S* warning: ", re.MULTILINE)


class Proving:
    """Crates that are proved side by side."""

    def __init__(self, crates: Iterable[Crate], jobs: int, commands: Commands) -> None:
        self._waiting = unproved(crates)
        self._total = len(self._waiting)
        self._running: dict[Future[Ended], tuple[Crate, int]] = {}
        self._killed: set[Crate] = set()  # those whose check was killed, and is to run alone
        self._jobs, self._commands = jobs, commands
        self._memory = usable_memory()
        self._start = time.monotonic()

    def run(self) -> bool:
        """Proves them; returns whether all are proved. If one is not, the others are ended."""
        with ThreadPoolExecutor(self._total or 1) as pool:
            try:
                while self._waiting or self._running:
                    self._begin(pool)
                    ended = wait(self._running, return_when=FIRST_COMPLETED).done
                    if not all([self._is_well(run) for run in ended]):
                        return False
                if self._total:
                    self._say("all are proved")
                return True
            finally:
                if self._waiting or self._running:
                    self._commands.stop()

    def _begin(self, pool: ThreadPoolExecutor) -> None:
        """Begins the crates that can be, those first for which the most work waits."""
        unproved = {*self._waiting, *(crate for crate, _ in self._running.values())}
        ready = [crate for crate in self._waiting if unproved.isdisjoint(crate.below)]
        checks = len(ready) + len(self._running)
        for crate in sorted(ready, key=self._work_above, reverse=True):
            jobs = self._jobs_for(crate, checks) if len(self._running) < self._jobs else 0
            if jobs:
                self._waiting.remove(crate)
                self._say(f"proving {crate.name}, {self._total - len(self._waiting)} of {self._total}")
                memory = memory_of(crate, jobs)
                self._running[pool.submit(proved, crate, jobs, self._commands)] = crate, memory

    def _work_above(self, crate: Crate) -> int:
        """The lines of a crate and of the longest chain of crates above it."""
        above = [other for other in self._waiting if crate in other.below]
        return crate.lines + max((self._work_above(other) for other in above), default=0)

    def _jobs_for(self, crate: Crate, checks: int) -> int:
        """How many jobs one of several checks may have, or none if it has to wait for memory.

        Together they are half as many again as the processors, since parts of a check have one job.
        """
        if crate in self._killed:
            return 0 if self._running else 1
        share = min(math.ceil(1.5 * self._jobs / checks), self._jobs)
        free = self._memory - sum(memory for _, memory in self._running.values())
        jobs = next((n for n in range(share, 0, -1) if memory_of(crate, n) <= free), 0)
        return jobs or (0 if self._running else 1)

    def _is_well(self, run: Future[Ended]) -> bool:
        """Ends a run; shows what a check that failed has written."""
        crate, _ = self._running.pop(run)
        ended = run.result()
        if ended.was_killed and crate not in self._killed:
            self._killed.add(crate)
            self._waiting.append(crate)
            self._say(f"the check of {crate.name} was killed, most likely because memory ran out: again, alone")
            return True
        if ended.status:
            print(ended.text, end="", file=sys.stderr)
            self._say(f"{crate.name} is not proved")
        else:
            self._say(f"{crate.name} is proved, in {ended.processor_seconds:.0f} s of processor time")
        return ended.status == 0

    def _say(self, what: str) -> None:
        """Prints what happens, with the time since the start."""
        minutes, seconds = divmod(int(time.monotonic() - self._start), 60)
        print(f"l6: {minutes}:{seconds:02}  {what}", file=sys.stderr, flush=True)


def unproved(crates: Iterable[Crate]) -> list[Crate]:
    """The crates that are to be proved, of some that each stand after those that they use.

    They are those that are not proved, and those above them: a proof is of the very builds below it.
    """
    found: list[Crate] = []
    for crate in crates:
        if not is_proved(crate) or any(below in found for below in crate.below):
            found.append(crate)
    return found


def proved(crate: Crate, jobs: int, commands: Commands) -> Ended:
    """Proves and builds a crate in a room, and brings back what that made and kept."""
    before = sources_sum(crate)
    with room_of(crate) as folder:
        verb = "run" if crate.is_program else "lib"
        try:
            words = ["rt", verb, "--jobs", str(jobs), *words_of(crate)]
            ended = commands.run(words, folder, crate.folder / "stdin")
        finally:
            bring_back(crate, folder, [KEPT])
        if ended.status == 0 and WARNED.search(ended.text):
            return dataclasses.replace(ended, status=1)
        if ended.status == 0:
            bring_back(crate, folder, made_by(crate))
    if ended.status == 0 and sources_sum(crate) == before:
        replace_text(crate.folder / STAMP, f"{before} {made_sums(crate)}\n")
    return ended


def made_by(crate: Crate) -> list[str]:
    """What the proof of a crate makes: a program, a static library, or a library for the crates above."""
    if crate.is_program:
        return [f"out/{crate.name}", f"out/{crate.name}.stamp"]
    return [f"out/lib{crate.name}.a"] if crate.is_static else [LIBRARY]


def replace_text(file: Path, text: str) -> None:
    """Replaces a file by a new one, since it may be linked from elsewhere."""
    new = file.with_name(f"{file.name}.new")
    new.write_text(text, "utf-8")
    new.replace(file)


def words_of(crate: Crate) -> list[str]:
    """The words with which a program that was built is run once, from its file args."""
    words = crate.folder / "args"
    return ["--", *words.read_text("utf-8").splitlines()] if words.is_file() else []


def is_proved(crate: Crate) -> bool:
    """Whether a crate and those below it are proved as they are now, by what was noted."""
    stamp = crate.folder / STAMP
    noted = stamp.read_text("utf-8") if stamp.is_file() else ""
    return noted == f"{sources_sum(crate)} {made_sums(crate)}\n"


@functools.cache
def toolchain() -> str:
    """The line that names the toolchain."""
    return subprocess.run(["rt", "version"], capture_output=True, text=True, check=True).stdout


def sources_sum(crate: Crate) -> str:
    """A sum of the toolchain and all that a crate is made of: its sources, those below, their lines of crates.txt."""
    whole = (*crate.below, crate)
    parts = (toolchain(), rows_of(whole), files_sum(whole))
    return hashlib.sha256("\n".join(parts).encode()).hexdigest()


def files_sum(crates: Iterable[Crate]) -> str:
    """A sum of the names and contents of all files of some crates that the prover reads."""
    total = hashlib.sha256()
    for one in crates:
        for part in SOURCES:
            for file in sorted((one.folder / part).rglob("*")):
                if file.is_file() and is_source(file.relative_to(one.folder)):
                    own = hashlib.sha256(file.read_bytes()).hexdigest()
                    total.update(f"{file.relative_to(TOP)} {own}\n".encode())
    return total.hexdigest()


def made_sums(crate: Crate) -> str:
    """A sum of what the proofs of a crate and of those below it made."""
    return hashlib.sha256(" ".join(map(made_sum, (*crate.below, crate))).encode()).hexdigest()


def made_sum(crate: Crate) -> str:
    """A sum of what the proof of a crate made; of a library, of the note that rt keeps of it."""
    made = made_by(crate)[0]
    file = crate.folder / (f"{made}/stamp" if made == LIBRARY else made)
    return hashlib.sha256(file.read_bytes()).hexdigest() if file.is_file() else "nothing"


def memory_of(crate: Crate, jobs: int) -> int:
    """How many bytes a check of a crate takes with so many jobs."""
    return crate.memory + JOB_MEMORY * (jobs - 1)


def prove(crates: Iterable[Crate], jobs: int, commands: Commands) -> bool:
    """Proves these crates and those below them; returns whether all are proved."""
    whole = {below: None for crate in crates for below in (*crate.below, crate)}
    with open(TOP / "crates.txt", encoding="utf-8") as lock:
        fcntl.flock(lock, fcntl.LOCK_EX)  # another run may be proving the same
        return Proving(whole, jobs, commands).run()


def main() -> int:
    """Proves the crates that are named, or all, and returns the exit status."""
    known = read_crates()
    crates = [known[name] for name in sys.argv[1:] or known]
    return 0 if prove(crates, processors(), Commands()) else 1


if __name__ == "__main__":
    run_program(main)
