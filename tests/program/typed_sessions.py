"""Sessions of l6db that somebody types at a terminal, or writes to a pipe line by line; and sessions whose requests for
memory are refused, or whose reads and writes are interrupted.

Used by l6db.py. The canaries are programs that answer wrong in each of these ways.
"""
from __future__ import annotations

import os
import signal
import subprocess
import time
from collections.abc import Iterator
from itertools import count
from pathlib import Path

from answers import Answer, answer, answer_of
from refused_memory import Requests, Shim, WrongShim, library_of
from terminals import SECONDS, Pseudoterminal
from trials import Trial, few_pass, first_wrong

PROMPT = b"(l6db) "
NESTED = b"""* CALLS ITSELF 27 TIMES, AND COUNTS ON THE WAY
       (DEEP,DO) DONE
DEEP   (A,A,1)
       IF (A,L,27) THEN (DEEP,DO)
       (B,A,1) DONE
"""
INTERRUPTIONS = 3_000
SESSION = (
    b"break DEEP\nc\nwhere\nwatch B\np A\nc\nrc\nblock 5\ndraw\nstats\nend\nback\n"
    b"run\nc 3\nuntil\nlists\ninfo breakpoints\ninfo locals\nstack\nb 2\nignore 2\np ANN\nhelp\nlist\n"
    b"watch A\nwatch AN\nc\nrc\nfinish\ndelete\nwatch A\nwatch AN\nc\nc\nwho A\nwho 1024\nwatch *A+2\nc\n"
)
TABLES = 4  # of the actions that may change watched chains, which the session makes on its ways forward


class Terminal(Pseudoterminal):
    """A session on a pseudoterminal."""

    def read(self, until: bytes = PROMPT) -> bytes:
        """What is shown up to a text."""
        return self.until(until).replace(b"\r\n", b"\n")

    def answer(self, line: bytes) -> bytes:
        """The answer to a line; the terminal repeats the line before it."""
        self.give(line + b"\n")
        shown = self.read()
        return shown.removeprefix(line + b"\n").removesuffix(PROMPT)


def at_terminal(program: str, folder: Path) -> Iterator[Trial]:
    """A whole session at a terminal."""
    deck = folder / "nested.deck"
    deck.write_bytes(NESTED)
    terminal = Terminal([program, str(deck)])
    shown = terminal.read()
    yield "the first state", b"AT 0.0 AFTER 0 STEPS\n", shown[:shown.index(b"\n") + 1]
    yield "a breakpoint", b"Breakpoint at 1 DEEP\n    3 DEEP   (A,A,1)\n", terminal.answer(b"break DEEP")
    yield "on to it", b"AT 1.0 AFTER 2 STEPS DEEP\n", terminal.answer(b"c")[:26]
    yield "an empty line", b"AT 1.0 AFTER 7 STEPS DEEP\n", terminal.answer(b"")[:26]
    yield "back", b"AT 1.0 AFTER 2 STEPS DEEP\n", terminal.answer(b"rc")[:26]
    yield "calls", b"#0 at 1.0 DEEP\n#1 returns to 0.2\n", terminal.answer(b"where")
    yield "a value", b'A = 0 000000000000 "      "\n', terminal.answer(b"p A")
    os.kill(terminal.process, signal.SIGWINCH)
    stopped = [is_stopped_after(terminal.process, *it) for it in ((signal.SIGSTOP, True), (signal.SIGCONT, False))]
    yield "after signals", ([True, False], b"No call waits: there is nothing to finish\n"), (
        stopped, (terminal.answer(b"start"), terminal.answer(b"fin"))[1])
    yield "a byte that is no text", b"Not a command: help lists them\n", terminal.answer(b"\xff")
    terminal.give(b"\x04")
    yield "a new line at the end", b"\n", terminal.read(b"\n")
    yield "the end of the input", 0, terminal.status()
    terminal = Terminal([program, str(deck)])
    terminal.read()
    terminal.give(b"quit\n")
    yield "quit", 0, terminal.status()
    terminal = Terminal([program, str(deck)])
    terminal.read()
    terminal.give(b"\x03")
    yield "an interrupt", -signal.SIGINT, terminal.status()


def is_stopped_after(process: int, number: signal.Signals, wanted: bool) -> bool:
    """Whether a process is stopped after a signal, as the system has it. It may take a while."""
    os.kill(process, number)
    is_stopped, end = not wanted, time.monotonic() + SECONDS
    while is_stopped != wanted and time.monotonic() < end:
        time.sleep(0.02)
        is_stopped = Path(f"/proc/{process}/stat").read_text("ascii").rpartition(") ")[2].startswith("T")
    return is_stopped


def one_by_one(program: str, folder: Path) -> Iterator[Trial]:
    """Each answer is out before the next line is read, also over a pipe."""
    deck = folder / "nested.deck"
    with subprocess.Popen(
        [program, str(deck)], stdin=subprocess.PIPE, stdout=subprocess.PIPE,
    ) as process:
        assert process.stdin and process.stdout
        lines = [process.stdout.readline() for _ in range(2)]
        for line, first in ((b"p A", b"A = 0 "), (b"delete 1", b"No breakpoint is left at 1 "), (b"set A", b"A run is")):
            process.stdin.write(line + b"\n")
            process.stdin.flush()
            yield f"the answer to {line.decode()}", first, process.stdout.readline()[:len(first)]
        process.stdin.close()
    yield "no prompt", [False] * 2, [PROMPT in line for line in lines]
    yield "the status", 0, process.returncode


def refused_memory(program: str, folder: Path) -> Iterator[Trial]:
    """Each request for memory of a session is refused in turn."""
    deck = str(folder / "nested.deck")
    yield from refusals(answer_of([program, deck], input=SESSION), Shim(program, str(folder)), deck)


def refusals(whole: Answer[bytes], shim: Shim, deck: str) -> Iterator[Trial]:
    """Whole answers go out, and then it is said that memory ran out; a refused checkpoint changes nothing."""
    refused, unchanged = 0, 0
    for request in count(1):
        made, counted = shim.run([deck], SESSION, request)
        if counted and not counted.was_refused:
            break
        refused += made != whole
        unchanged += made == whole
        expected = Answer(made.stdout, b"l6db: out of memory\n", 5) if made != whole else whole
        is_front = whole.stdout.startswith(made.stdout) and made.stdout[-1:] in (b"", b"\n")
        yield f"request {request} is refused", (expected, True), (made, is_front)
    yield "some requests end a session", True, refused > 20
    yield "requests for tables change nothing", True, unchanged > TABLES


def interrupted(program: str, folder: Path) -> Iterator[Trial]:
    """Reads that are interrupted change nothing."""
    deck = str(folder / "nested.deck")
    whole = answer_of([program, deck], input=SESSION)
    library = library_of("interrupt", str(folder))
    given = {"LD_PRELOAD": library, "INTERRUPT_READS": str(INTERRUPTIONS), "INTERRUPT_WRITES": "900"}
    yield "interrupted reads", whole, answer_of([program, deck], input=SESSION, env={**os.environ, **given})


# A session that is wrong in each part: it begins with other lines, one of which has the prompt, and has its own statuses.
WRONG_SESSION = """#!/bin/sh
trap 'exit 1' INT
printf 'wrong\\nwrong (l6db) \\n(l6db) '
while read -r line && [ "$line" != quit ]; do printf 'wrong\\n(l6db) '; done
exit 77
"""
# What gives up where a read or a write is interrupted.
GIVES_UP = {"read": "char byte; return read(0, &byte, 1) < 0;", "write": 'return write(1, "a", 1) < 0;'}


def typed_canaries(folder: Path) -> Iterator[Trial]:
    """On programs that answer wrong no trial of a session passes."""
    wrong, deck = folder / "wrong-session", folder / "nested.deck"
    wrong.write_text(WRONG_SESSION)
    wrong.chmod(0o755)
    deck.write_bytes(NESTED)
    yield few_pass("a session at a terminal that is wrong", 0, at_terminal(str(wrong), folder))
    yield few_pass("a session over a pipe that is wrong", 0, one_by_one(str(wrong), folder))
    whole, said = answer(b"first\nlast\n"), b"l6db: out of memory\n"
    for what, ended in (
        ("another answer", answer(b"other\n", said, 5)), ("half a line", answer(b"fir", said, 5)),
        ("another message", answer(b"first\n", b"l6db: out of paper\n", 5)), ("another status", answer(b"first\n", said, 4)),
    ):
        _, expected, actual = next(refusals(whole, WrongShim(ended, Requests(1, True, 0, 1, 1)), str(deck)))
        yield f"refused memory: {what}", expected, actual
    for name, expected, actual in refusals(whole, WrongShim(whole, Requests(1, False, 0, 1, 1)), str(deck)):
        yield f"where no request is refused: {name}", expected, actual
    for call, body in GIVES_UP.items():
        source, program = folder / f"{call}.c", folder / f"{call}s-once"
        source.write_text(f"#include <unistd.h>\nint main(void) {{ {body} }}\n")
        subprocess.run(["cc", "-O0", str(source), "-o", str(program)], check=True)
        yield first_wrong(f"a program that gives up where a {call} is interrupted", interrupted(str(program), folder))
