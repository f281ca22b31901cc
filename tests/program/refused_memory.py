#!/usr/bin/env python3
"""Runs the built program with its memory counted, and with each request for memory refused in turn.

refused_memory.py PROGRAM prints each difference, and last 'N passed, M failed'. How many trials there are depends
on how many requests the program makes.

The shim of refuse.c is loaded before the program. It counts, and refuses one request.

Room. What a job needs at one time is known from its size: the job itself and its answer, and the program in
between. The built program may hold twice that, since a list that grows gets twice its room when it is full;
and while it reads or writes it may hold one more piece of the job or the answer, of 64 KiB. All requests
together may come to twice as much again, since a list of n bytes had pieces of n/2, n/4 and so on before. An
answer that asks for far more than it needs fails here, also where a system with much memory would grant it.
"""
from __future__ import annotations

import subprocess
import sys
import tempfile
from collections.abc import Iterable, Iterator
from dataclasses import dataclass
from itertools import chain, cycle
from pathlib import Path
from typing import Any

sys.path.insert(0, str(Path(__file__).resolve().parents[1] / "harness"))
from answers import Answer, answer, answer_of
from cases import Case, read_cases
from largest_jobs import full_store
from trials import Trial, report

HERE = Path(__file__).resolve().parent
MAX_REQUESTS = 1_000  # of the job of which each request is refused in turn
OUT_OF_MEMORY = b"l6: out of memory\n"

# What a part of a job needs, in bytes.
PIECE = 65_536  # in which a job is read and an answer is written
STATEMENT = 160  # its label, its exit, the heads of its lists of tests and operations, its place
GROUP = 80  # a test or an operation, and the instruction for it
WORD = 12  # of the store: itself, and what the store notes of its place
STACKS = 40_000  # both pushdowns and the calls that wait, with 1,024 entries each; bugs and fields
UNIT = 1_024  # words of the store
UNIT_MARKS = 16  # of a unit: what of it was used
CHECKPOINTS = 16  # that are kept at most
STRIDE = 4_096  # states from one checkpoint to the next
DOUBLED = 2  # a list that grows by doubling has at most so many times the room that it needs
ROOMY = 5  # a room that is so many times what is held, or more, shows nothing
WORDS = 4_096  # requested for the words of the command line, and given back before the job is read: each option takes some


@dataclass(frozen=True)
class Requests:
    """What the shim counted in a run of the program."""

    made: int  # requests for memory
    was_refused: bool  # whether the request that was to be refused was made
    kept: int  # blocks that were given and not given back
    peak: int  # the most bytes that were held at one time
    total: int  # the bytes of all requests


@dataclass(frozen=True)
class Measured:
    """An answer, and what was counted on the way to it; None where a trial does not look at it."""

    answer: Answer[bytes]
    kept: int | None  # blocks that were not given back
    requests: int | None = None
    too_many_bytes: str = ""


def library_of(name: str, folder: str) -> str:
    """Builds the shim of this name, which can be loaded before a program."""
    library = f"{folder}/{name}.so"
    compiler = ["cc", "-O2", "-shared", "-fPIC"]
    subprocess.run([*compiler, "-o", library, HERE / f"{name}.c", "-ldl"], check=True)
    return library


class Shim:
    """The shim of refuse.c, and the program that it is loaded before."""

    def __init__(self, program: str, folder: str) -> None:
        self._program = program
        self._library = library_of("refuse", folder)
        self._report = Path(folder, "report")

    def run(
        self, args: list[str], stdin: bytes, refused: int = 0, has_little_room: bool = True
    ) -> tuple[Answer[bytes], Requests | None]:
        """The program's answer and its requests; None if it was killed or ran without the shim.

        Standard input is a file, so that each run reads it in the same pieces.
        """
        options: dict[str, Any] = {} if has_little_room else {"preexec_fn": None}
        environment = {
            "LD_PRELOAD": self._library,
            "REFUSE_REQUEST": str(refused),
            "REFUSE_REPORT": str(self._report),
        }
        self._report.unlink(missing_ok=True)
        with tempfile.TemporaryFile() as file:
            file.write(stdin)
            file.seek(0)
            actual = answer_of([self._program, *args], env=environment, stdin=file, **options)
        if not self._report.exists():
            return actual, None
        made, was_refused, kept, peak, total = self._report.read_text().split()
        return actual, Requests(int(made), was_refused == "refused", int(kept), int(peak), int(total))


# A program of which it is known what it requests: three blocks; one replaces another, and one is kept.
KNOWN = """
#include <stdlib.h>
int main(void) {
    void *block = malloc(1000), *kept = malloc(500);
    void *larger = realloc(block, 3000);
    if (!larger || !kept)
        return 5;
    free(larger);
    return 0;
}
"""
SLACK = 64  # bytes that malloc gives more than it is asked for, at most, in all


def known_requests(folder: str) -> Iterator[Trial]:
    """The trials that the shim of refuse.c counts and refuses what it is to, of a known program."""
    source, program = Path(folder, "known.c"), Path(folder, "known")
    source.write_text(KNOWN)
    subprocess.run(["cc", "-O0", "-o", program, source], check=True)
    shim = Shim(str(program), folder)
    for refused, status, made, kept in ((0, 0, 3, 1), (1, 0, 3, 1), (2, 5, 3, 1), (3, 5, 3, 2)):
        ended, counted = shim.run([], b"", refused)
        assert counted is not None
        actual = (ended.status, counted.made, counted.kept, counted.was_refused)
        yield f"a known program, with request {refused} refused", (status, made, kept, refused > 0), actual
        if not refused:
            held, total = counted.peak - (500 + 3_000), counted.total - (1_000 + 500 + 3_000)
            yield "the bytes of a known program", (True, True), (0 <= held < SLACK, 0 <= total < SLACK)


class WrongShim(Shim):
    """A shim that finds fault with each run of a program that answers as it must."""

    def __init__(self, right: Answer[bytes], *requests: Requests) -> None:
        self._right, self._requests = right, cycle(requests)

    def run(
        self, args: list[str], stdin: bytes, refused: int = 0, has_little_room: bool = True
    ) -> tuple[Answer[bytes], Requests | None]:
        """The right answer, and the wrong requests, those of each run after another."""
        return self._right, next(self._requests)


def memory_canaries() -> Iterator[Trial]:
    """Runs that hold too much, request too much in all, or keep a block, as rooms and as cases."""
    right, room = answer(b"5"), Room("a canary", ["run"], b"", answer(b"5"), 1_000)
    peak = PIECE + DOUBLED * (room.needed + 1)
    for what, requests in (
        ("too much at one time", Requests(1, False, 0, peak + 1, peak)),
        ("too much in all", Requests(1, False, 0, peak, DOUBLED * peak + WORDS + 1)),
        ("a room that is far too large", Requests(1, False, 0, peak // (ROOMY + 1), peak)),
        ("a block that is kept", Requests(1, False, 1, peak, peak)),
    ):
        name, expected, actual = room.trial(WrongShim(right, requests))
        yield f"{what}: {name}", expected, actual
    case = Case('{"name": "a canary", "stdout": "5", "status": 0, "memory": "a group"}')
    kept = WrongShim(right, Requests(1, False, 1, 1, 1))
    yield next(refused_memory(kept, case))
    yield next(equal_requests(kept, [case]))
    alike = Case('{"name": "another canary", "stdout": "5", "status": 0, "memory": "a group"}')
    yield list(equal_requests(WrongShim(right, *(Requests(made, False, 0, 1, 1) for made in (1, 2))), [case, alike]))[1]
    for told, left in (
        (answer(b"4"), 0), (answer(b"4", OUT_OF_MEMORY, 5), 0), (answer(b"", b"l6: out of paper\n", 5), 0), (answer(b"", OUT_OF_MEMORY, 5), 1),
    ):
        yield next(refused_memory(WrongShim(told, Requests(1, True, left, 1, 1)), case))


def memory_trials(program: str, cases: list[Case]) -> Iterator[Trial]:
    """All trials on memory."""
    with tempfile.TemporaryDirectory() as folder:
        shim = Shim(program, folder)
        yield from known_requests(folder)
        _, requests = shim.run(cases[0].args, cases[0].stdin)
        if requests is None:
            actual = "no report: it was not loaded, or the program was killed"
            yield "the shim of refuse.c", "a report", actual
            return
        for case in cases:
            if case.is_refused_memory:
                yield from refused_memory(shim, case)
        yield from equal_requests(shim, cases)
        for room in chain(texts_and_images(), runs(), sessions(), drawings()):
            yield room.trial(shim)


def refused_memory(shim: Shim | WrongShim, case: Case) -> Iterator[Trial]:
    """The trials on a case with the first, the second and each further request for memory refused.

    Where a request was not needed, as for a nicer text, the answer may be the case's own. A debugger's
    first answers may have gone out, each whole. And since each answer is written before the next command
    is obeyed, and each takes memory, over all requests each number of first answers must have gone out:
    a program that writes all answers at its end fails. The first wrong answer is the last, since a program
    that hangs would hang each time.
    """
    whole = Measured(case.expected, 0)
    refusals = [Measured(answer(it, OUT_OF_MEMORY, 5), 0) for it in case.prefixes]
    prefixes: set[bytes] = set()
    for request in range(1, MAX_REQUESTS + 1):
        ended, requests = shim.run(case.args, case.stdin, request)
        actual = Measured(ended, requests.kept if requests else None)
        if requests and not requests.was_refused:
            yield f"memory for every request: {case.name}", whole, actual
            if case.expected.stderr == b"":
                actual_prefixes = sorted(prefixes, key=len)
                yield f"the answers before a refusal: {case.name}", case.prefixes, actual_prefixes
            return
        expected = actual if actual in [whole, *refusals] else refusals[0]
        yield f"request {request} for memory refused: {case.name}", expected, actual
        if actual != expected:
            return
        if ended.status == 5:
            prefixes.add(ended.stdout)
    yield "refused memory", "an end of the requests", f"more than {MAX_REQUESTS}"


def equal_requests(shim: Shim | WrongShim, cases: Iterable[Case]) -> Iterator[Trial]:
    """The trials that the cases of a group make equally many requests for memory.

    So what they differ in makes none: a step of a run, a state that a debugger passes, a checkpoint that
    replaces another or is there already.
    """
    groups: dict[str, int | None] = {}
    for case in cases:
        if case.memory is None:
            continue
        ended, requests = shim.run(case.args, case.stdin)
        made = requests.made if requests else None
        expected = Measured(case.expected, 0, groups.setdefault(case.memory, made))
        actual = Measured(ended, requests.kept if requests else None, made)
        yield f"requests for memory: {case.name}", expected, actual


@dataclass(frozen=True)
class Room:
    """A job, its answer, and how many bytes it needs besides the two."""

    name: str
    args: list[str]
    stdin: bytes
    expected: Answer[bytes]
    needed: int
    requested_again: int = 0  # of all bytes requested, those of machines that were made and given back

    def trial(self, shim: Shim | WrongShim) -> Trial:
        """The trial that the program holds and requests no more than it may."""
        ended, requests = shim.run(self.args, self.stdin, has_little_room=False)
        needed = len(self.stdin) + len(self.expected.stdout) + self.needed
        peak, too_many = PIECE + DOUBLED * needed, "no report"
        most_in_all = DOUBLED * peak + WORDS + self.requested_again
        if requests:
            bounds = [("at one time", requests.peak, peak), ("in all", requests.total, most_in_all)]
            excess = [f"{many} {what}, of {most}" for what, many, most in bounds if many > most or most > ROOMY * many]
            too_many = ", ".join(excess)
        actual = Measured(ended, requests.kept if requests else None, None, too_many)
        return f"room for {self.name}", Measured(self.expected, 0), actual


@dataclass(frozen=True)
class Card:
    """A card with a statement, its words in an image, what it prints and how many steps it makes."""

    name: str
    columns: str
    words: list[str]
    printed: str
    steps: int
    groups: int

    def deck(self, count: int) -> bytes:
        """The deck of so many of these cards."""
        return f"{self.columns}\n".encode("ascii") * count

    def image(self, count: int) -> bytes:
        """The image of that deck: in front of its rows and the row of the added DONE, how many there are."""
        rows = "".join(f"{word}\n" for word in self.words).encode("ascii") * count
        head = f"542651554722\n{count + 1:012o}\n{count * len(self.words) + 1:012o}\n"
        return head.encode("ascii") + rows + b"000002000000\n"

    def listing(self, count: int) -> bytes:
        """The listing of that deck."""
        rows = "".join(f"{'':15}{word}\n" for word in self.words)
        cards = [f"{at + 1:7}{at:6}  {self.columns}\n{rows}" for at in range(count)]
        last = f"{'':7}{count:6}   DONE\n{'':15}000002000000\nLABELS\n"
        return "".join([*cards, last]).encode("ascii")

    def printout(self, count: int) -> bytes:
        """What that deck prints: the added DONE makes two steps."""
        printed = self.printed * count
        end = "\n" if printed else ""
        return f"{printed}{end}== DONE AFTER {self.steps * count + 2} STEPS\n".encode("ascii")

    def needed(self, count: int) -> int:
        """How many bytes the program of that deck needs."""
        return (count + 1) * STATEMENT + count * self.groups * GROUP


# The words are those of the cases "the image of a deck" and "the listing of a deck", and of docs/image.md.
CARDS = [
    Card("no group", " DONE", ["000002000000"], "", 2, 0),
    Card(
        "two groups", " (A,E,5)(A,PD)",
        ["000020000000", "013077000000", "127777777777", "000000000005", "312077000000", "127777777777"],
        "5", 4, 2,
    ),
    Card(
        "eleven groups", " " + "(A,PD)" * 11, ["000130000000", *["312077000000", "127777777777"] * 11],
        "0" * 11, 13, 11,
    ),
]
COUNTS = (2, 9_000, 15_000)  # the last makes the longest deck of eleven groups a card


def texts_and_images() -> Iterator[Room]:
    """Decks that are listed and made into images, and images that are renewed."""
    for card in CARDS:
        for count in COUNTS:
            deck, image, needed = card.deck(count), card.image(count), card.needed(count)
            what = f"{count:,} cards of {card.name}"
            yield Room(f"asm of {what}", ["asm"], deck, answer(image), needed)
            yield Room(f"list of {what}", ["list"], deck, answer(card.listing(count)), needed)
            yield Room(f"renew of {what}", ["renew"], image, answer(image), needed)
    comment = b"*" + b"X" * ((1 << 20) - 2) + b"\n"
    image = CARDS[0].image(0)
    yield Room("asm of a deck of one comment", ["asm"], comment, answer(image), STATEMENT)


def machine(units: int, output: int) -> int:
    """How many bytes a machine needs besides its program: all of its output has room from the start on."""
    return units * (UNIT * WORD + UNIT_MARKS) + STACKS + output


def runs() -> Iterator[Room]:
    """Decks and images that are run; the output may be just as long as it is."""
    for card in CARDS[1:]:
        for count in COUNTS:
            printed = len(card.printed) * count
            options = ["--store", "1", "--output", str(printed)]
            needed = card.needed(count) + machine(1, printed)
            what, expected = f"{count:,} cards of {card.name}", answer(card.printout(count))
            yield Room(f"run of {what}", ["run", *options], card.deck(count), expected, needed)
            yield Room(f"load of {what}", ["load", *options], card.image(count), expected, needed)
            job = card.deck(count) + b"$COMMANDS\ngo\n"
            line = answer(card.printout(count).splitlines(keepends=True)[-1])
            yield Room(f"debug of {what}", ["debug", *options], job, line, needed + machine(1, printed))


def sessions() -> Iterator[Room]:
    """Sessions that keep sixteen checkpoints, and go back once or 300 times.

    Besides the checkpoints there are the machine at the state that is shown, and the copy of a checkpoint
    before it takes that machine's place. If machines were not given back, 300 would be held.
    """
    for units in (1, 8, 64):
        for times in (1, 300):
            commands = "step 70000\n" + "back 1\nstep 1\n" * times
            turn = "AT 0.0 AFTER 69999 STEPS\nAT 0.1 AFTER 70000 STEPS\n"
            expected = answer(f"AT 0.1 AFTER 70000 STEPS\n{turn * times}".encode("ascii"))
            machines = (CHECKPOINTS + 2) * machine(units, 0)  # (no part of which grows by doubling)
            yield Room(
                f"a session that goes back, with {units} units, {times} times",
                ["debug", "--store", str(units), "--output", "0"],
                f"L (A,A,1) L\n$COMMANDS\n{commands}".encode("ascii"), expected,
                2 * STATEMENT + GROUP + machines // DOUBLED, times * machine(units, 0),
            )


def drawings() -> Iterator[Room]:
    """Sessions that draw and map a store of which each word is a block; most of what they need are the answers."""
    for units in (1, 8, 64):
        job, transcript = full_store(units)
        states = 3 * units * UNIT + 10
        machines = (min(states // STRIDE, CHECKPOINTS) + 1) * machine(units, 0)
        options = ["debug", "--store", str(units), "--output", "0"]
        needed = 4 * STATEMENT + 3 * GROUP + machines // DOUBLED
        yield Room(f"a session that draws {units} full units", options, job, answer(transcript), needed)


if __name__ == "__main__":
    if len(sys.argv) != 2:
        sys.exit(__doc__)
    sys.exit(report(memory_trials(sys.argv[1], list(read_cases())), memory_canaries()))
