#!/usr/bin/env python3
"""Runs traces of an allocator's calls on the built program beside the model, tests/program/model/trace.py.

traces.py PROGRAM prints each difference, and last 'N passed, M failed'. The answers of the table below were
worked out by hand. A store with a planted defect, level 3 never being joined, must be found at the first free
that it does wrong.
"""
from __future__ import annotations

import random
import re
import subprocess
import sys
import tempfile
from collections.abc import Callable, Iterator
from pathlib import Path

sys.path.insert(0, str(Path(__file__).resolve().parents[1] / "harness"))
import judged_traces
from answers import Answer, answer, answer_of
from model.faults import Fault
from model.store import UNIT, Store
from model.trace import MOST_CALLS, answer_of_trace, pieces_of
from trials import Trial, first_wrong, groups_asked_for, named, report

EXAMPLES = Path(__file__).resolve().parents[2] / "examples"
RANDOM = 300  # random traces
NO_JOINS = 8  # words of the pieces that the planted defect never joins: level 3

# What answers to random traces say: right answers and wrong ones, refusals, pieces that are joined or not, lists and counts.
TOLD = ("differs: get ", "differs: free ", ": none\n", "halved 0\n", "joined 0\n", "joined 10\n", "\nlevel 10: ", "\nno free piece\n",
        "\nfree words ", "\ngets refused 1,")
NO_CALL = "l6: the trace has no get and no free\n"
NO_END = "l6: the trace may be cut off: it has no line end\n"
FIRST = "get a 1: 1024, level 0, halved 10\n"
HELD = "the name holds a block already, or none\n"

# A trace for a store of one unit, and what goes to the two outputs, with the exit status.
BY_HAND = [
    ("no line", "", "", NO_CALL, 1),
    ("comments and blanks", "# get a 1\n \t\n\n#\n", "", NO_CALL, 1),
    ("an end alone", "end 0\n", "", "l6: line 1: the trace has no get and no free\n", 1),
    ("lists alone", "lists\n", "level 10: 1024\n", "", 0),
    ("an end that is right", "get a 600 = 1024\nend 1\n", "get a 600: 1024, level 10, halved 0\n", "", 0),
    ("an end with calls missing", "get a 600 = 1024\nend 2\n", "get a 600: 1024, level 10, halved 0\n",
     "l6: line 2: the trace is cut off, or has lines too many: its gets and frees are 1\n", 1),
    ("calls after the end", "get a 600 = 1024\nend 1\nfree a\n",
     "get a 600: 1024, level 10, halved 0\nfree a: joined 0\n", "l6: line 2: calls follow the line end\n", 1),
    ("an end and no answers", "get a 600\nend 1\n", "get a 600: 1024, level 10, halved 0\n",
     "l6: no answer was compared\n", 1),
    ("a last line without its end", "get a 600 = 10", "line 1 differs: get a 600: 1024, level 10, halved 0\n"
     "the other allocator: 10\nthe free lists before it:\nlevel 10: 1024\n",
     "l6: the last line has no line feed: it may be cut off\n" + NO_END, 1),
    ("a last line that is no call any more", "get a 600 = 1024\nget b 1 =", "",
     "l6: line 2: not a call: the trace is cut off\n", 4),
    ("a size that is right", "get a 600 = 1024 words 1024\nend 1\n", "get a 600: 1024, level 10, halved 0\n", "", 0),
    ("a size that is not", "get a 600 = 1024 words 512\nend 1\n",
     "line 1 differs: get a 600: 1024, level 10, halved 0\nthe other allocator: 1024, words 512\n"
     "the free lists before it:\nlevel 10: 1024\n", "", 1),
    ("one word", "get a 1\n", "get a 1: 1024, level 0, halved 10\n", "", 0),
    ("the largest block", "get a 1024\nfree a\n", "get a 1024: 1024, level 10, halved 0\nfree a: joined 0\n", "", 0),
    ("a word too many", "get a 1025\n", "get a 1025: none\n", "", 0),
    ("a full store", "get a 1024\nget b 1\nlists\n",
     "get a 1024: 1024, level 10, halved 0\nget b 1: none\nno free piece\n", "", 0),
    ("a carriage return, tabs and no line feed at the end", "get\ta  1\r\nfree a ",
     "get a 1: 1024, level 0, halved 10\nfree a: joined 10\n", "", 0),
    ("a name again", "get a 1\nfree a\nget a 2\n",
     "get a 1: 1024, level 0, halved 10\nfree a: joined 10\nget a 2: 1024, level 1, halved 9\n", "", 0),
    ("a name of 64 bytes", f"get {'n' * 64} 600\n", f"get {'n' * 64} 600: 1024, level 10, halved 0\n", "", 0),
    ("answers that agree", "get a 600 = 1024\nget b 1 = none\nfree a = 0\n",
     "get a 600: 1024, level 10, halved 0\nget b 1: none\nfree a: joined 0\n", NO_END, 0),
    ("a pool of 256 words, behind gets of the rest",
     "get rest1 512\nget rest2 256\nget a 256 = 1792\nget b 1 = none\nfree a = 0\n",
     "get rest1 512: 1024, level 9, halved 1\nget rest2 256: 1536, level 8, halved 1\n"
     "get a 256: 1792, level 8, halved 0\nget b 1: none\nfree a: joined 0\n", NO_END, 0),
    ("another place", "get a 1024 = 1025\nget b 1\n",
     "line 1 differs: get a 1024: 1024, level 10, halved 0\nthe other allocator: 1025\n"
     "the free lists before it:\nlevel 10: 1024\n", NO_END, 1),
    ("none for a place", "get a 1024 = none\n",
     "line 1 differs: get a 1024: 1024, level 10, halved 0\nthe other allocator: none\n"
     "the free lists before it:\nlevel 10: 1024\n", NO_END, 1),
    ("a place for none", "\nget a 1024\nget b 1 = 2048\n",
     "get a 1024: 1024, level 10, halved 0\nline 3 differs: get b 1: none\nthe other allocator: 2048\n"
     "the free lists before it:\nno free piece\n", NO_END, 1),
    ("a joining too few", "get a 512\nfree a = 0\n",
     "get a 512: 1024, level 9, halved 1\nline 2 differs: free a: joined 1\nthe other allocator: joined 0\n"
     "the free lists before it:\nlevel 9: 1536\n", NO_END, 1),
    ("the map", "get a 500\nmap\n",
     "get a 500: 1024, level 9, halved 1\n1024 a, words 512\n1536 free, words 512\n", "", 0),
    ("figures", "get a 500\nget b 1024\nstats\n",
     "get a 500: 1024, level 9, halved 1\nget b 1024: none\nwords in blocks 512, asked for 500, wasted 12\n"
     "free words 512\nlevel 9: free pieces 1\nlargest free level 9\n"
     "gets refused 1, because of fragmentation 0\n", "", 0),
    *((f"refused: {line!r}", f"get a 1\n{line}\n", "", "l6: line 2: not a call\n", 4) for line in (
        "put b 1", "get b", "get b 0", "get b 1 1", "get b 1 =", "get b 1 = x", "get b 1 = 1 1", "get b 1000000000",
        "get b -1", "get = 1", f"get {'n' * 65} 1", "free", "free a 1", "free a = none", "lists 1", "map = 1", "GET b 1",
        "get b 1 = 1000000000", "get b 1 = 1 words", "get b 1 = 1 words x", "get b 1 = 1 size 1", "get b 1 = none words 1",
        "end", "end x", "end 1 1", "end = 1")),
    ("a name that holds a block", "get a 1\nget a 1\n", f"{FIRST}line 2: {HELD}", "", 1),
    ("a name that holds none", "free a\n", f"line 1: {HELD}", "", 1),
    ("a name whose get was refused", "get a 1024\nget b 1\nfree b\n",
     f"get a 1024: 1024, level 10, halved 0\nget b 1: none\nline 3: {HELD}", "", 1),
    ("a block freed twice", "get a 1\nfree a\nfree a\n", f"{FIRST}free a: joined 10\nline 3: {HELD}", "", 1),
]


class Planted(Store):
    """The model's store with a defect: pieces of level 3 are never joined."""

    def may_join(self, size: int) -> bool:
        """Whether a piece of so many words is joined with its buddy if that is free."""
        return size != NO_JOINS and super().may_join(size)


def traced(program: str, text: str | bytes, units: int = 1) -> Answer[bytes]:
    """What the program answers to a trace."""
    stdin = text if isinstance(text, bytes) else text.encode()
    return answer_of([program, "trace", "--store", str(units)], input=stdin)


def traced_with_room(program: str, text: str) -> Answer[bytes]:
    """What it answers to a long trace, for which it may take all the memory that there is."""
    return answer_of([program, "trace"], input=text.encode(), preexec_fn=lambda: None)


def modelled(text: str, units: int) -> Answer[bytes]:
    """What the model answers to it."""
    try:
        stdout, stderr, status = answer_of_trace(text.encode(), units)
    except Fault as fault:
        return answer(b"", fault.line.encode(), fault.status)
    return answer(stdout, stderr, status)


def calls(chance: random.Random, count: int, largest: int) -> Iterator[tuple[str, str, int]]:
    """Random gets and frees: the verb, the name, and how many words."""
    held: list[str] = []
    for number in range(count):
        if held and chance.random() < 0.45:
            yield "free", held.pop(chance.randrange(len(held))), 0
        else:
            held.append(f"b{number}")
            yield "get", held[-1], chance.randint(1, largest)


def planted_trace(number: int) -> tuple[str, int | None]:
    """A trace with what the planted store answered, and the line of the first free that it does wrong."""
    chance = random.Random(number)
    right, wrong = Store(1), Planted(1)
    places: dict[str, int] = {}
    lines: list[str] = []
    for verb, name, words in calls(chance, 400, 24):
        if verb == "get":
            place = wrong.get(words)
            lines.append(f"get {name} {words} = {'none' if place is None else place}")
            if right.get(words) != place:
                return "", None
            if place is None:
                return "", None
            places[name] = place
            continue
        joined = []
        for store in (right, wrong):
            before = pieces_of(store)
            store.free(places[name])
            joined.append(before - pieces_of(store) + 1)
        lines.append(f"free {name} = {joined[1]}")
        if joined[0] != joined[1]:
            return "\n".join(lines) + "\nget x 1\nfree x = 0\n", len(lines)
    return "", None


def planted(program: str) -> Iterator[Trial]:
    """The planted defect is found at its first wrong free."""
    found = 0
    for number in range(60):
        text, line = planted_trace(number)
        if line is None:
            continue
        found += 1
        actual = traced(program, text)
        reported = [it for it in actual.stdout.decode().splitlines() if " differs: " in it]
        yield f"the planted defect, trace {number}", [f"line {line} differs: free"], \
            [" ".join(it.split()[:4]) for it in reported]
        yield f"the status of the planted defect, trace {number}", 1, actual.status
    yield "traces that show the planted defect", True, found >= 20


def in_c(program: str) -> Iterator[Trial]:
    """A buddy system in C, with and without its defect; the page shows what is reported."""
    actual = answer()
    for what, defect in (("sound", "-UDEFECT"), ("with a defect", "-DDEFECT")):
        with tempfile.TemporaryDirectory(prefix="l6-traces-") as room:
            other = Path(room) / "traced"
            made = subprocess.run(
                ["cc", "-std=c11", "-Wall", "-Wextra", "-Werror", defect, EXAMPLES / "traced.c", "-o", other],
                capture_output=True, text=True, check=False)
            yield f"traced.c, {what}, compiles", (0, ""), (made.returncode, made.stderr)
            if made.returncode:
                return
            text = subprocess.run([other], capture_output=True, text=True, check=True).stdout
        actual = traced(program, text)
        yield f"traced.c, {what}", modelled(text, 1), actual
        yield f"traced.c, {what}: the status", int(defect == "-DDEFECT"), actual.status
    page = (EXAMPLES.parent / "docs/trace.md").read_text("utf-8").partition("With the defect, ")[2]
    reported = re.search(r"^line .* differs: .*", actual.stdout.decode(), re.MULTILINE | re.DOTALL)
    yield "the report on the page", page.split("```")[1].removeprefix("figure\n"), reported and reported[0]


def random_trace(number: int) -> tuple[str, int]:
    """A random trace, now and then with answers, of which the last may be wrong; and how many units."""
    chance = random.Random(number)
    units = chance.randint(1, 3)
    store, places, lines = Store(units), {}, []
    is_known = chance.random() < 0.5
    for verb, name, words in calls(chance, chance.randint(5, 300), chance.choice((4, 30, 300, 1100))):
        known = ""
        if verb == "get":
            place = store.get(words) if words <= UNIT else None
            if place is not None:
                places[name] = place
            if is_known:
                known = f" = {'none' if place is None else place + (chance.random() < 0.002)}"
            lines.append(f"get {name} {words}{known}")
        elif name in places:
            before = pieces_of(store)
            store.free(places.pop(name))
            if is_known:
                known = f" = {before - pieces_of(store) + 1 + (chance.random() < 0.002)}"
            lines.append(f"free {name}{known}")
        if chance.random() < 0.05:
            lines.append(chance.choice(("lists", "map", "stats", "", "# so far")))
    return "\n".join([*lines, "lists", "map", "stats", ""]), units


def long_trace(count: int) -> str:
    """A trace of so many calls."""
    return "".join(f"get b{number % 50} {1 + number % 60}\nfree b{number % 50}\n" for number in range(count // 2))


def long_answer(count: int) -> str:
    """What is answered to it, by hand: each block is the first of the first unit, which is whole before it is got and after it is freed."""
    levels = [(number % 50, number % 60, (number % 60).bit_length()) for number in range(count // 2)]
    return "".join(f"get b{name} {1 + words}: 1024, level {level}, halved {10 - level}\nfree b{name}: joined {10 - level}\n"
                   for name, words, level in levels)


def by_hand(program: str) -> Iterator[Trial]:
    """The table."""
    for name, text, stdout, stderr, status in BY_HAND:
        expected = answer(stdout.encode(), stderr.encode(), status)
        yield f"a trace: {name}", expected, traced(program, text)
        yield f"a trace, by the model: {name}", expected, modelled(text, 1)


def examples(program: str) -> Iterator[Trial]:
    """The traces of examples/."""
    for file in sorted(EXAMPLES.glob("*.trace")):
        text = file.read_text("ascii")
        expected = answer(file.with_suffix(".answers").read_bytes())
        yield f"the trace {file.stem}", expected, traced(program, text)
        yield f"the trace {file.stem}, by the model", expected, modelled(text, 1)


def at_random(program: str) -> Iterator[Trial]:
    """Random traces, on the program and the model; all kinds of answers occur."""
    told = ""
    for number in range(RANDOM):
        text, units = random_trace(number)
        expected = modelled(text, units)
        yield f"random trace {number}", expected, traced(program, text, units)
        told += expected.stdout.decode()
    yield "what no answer to a random trace says", [], [it for it in TOLD if it not in told]


def long_traces(program: str) -> Iterator[Trial]:
    """As many calls as a trace may have, and more; a trace that is too long."""
    text = long_trace(MOST_CALLS)
    actual = traced_with_room(program, text)
    yield "a million calls", answer(long_answer(MOST_CALLS).encode()), actual
    actual = traced_with_room(program, text + "lists\n")
    yield "a call more than a million", answer(b"", b"l6: line 1000001: too many calls\n", 4), actual
    actual = traced(program, b"#" * 16_777_217)
    yield "a trace that is too long", answer(b"", b"l6: job too long\n", 4), actual


GROUPS: tuple[Callable[[str], Iterator[Trial]], ...] = (by_hand, examples, at_random, planted, in_c, long_traces)
CHEAP = (judged_traces.judged_by_hand, judged_traces.summary, judged_traces.modelled)  # of those of judged traces


def trials(program: str) -> Iterator[Trial]:
    """All trials, or those of the group that is asked for."""
    groups = {group.__name__: group for group in (*GROUPS, *judged_traces.GROUPS)}
    asked = groups_asked_for(groups)
    for name, group in groups.items():
        if name in asked:
            yield from named(name, group(program))


def canaries() -> Iterator[Trial]:
    """On a program that answers wrong, each group sees it."""
    with tempfile.TemporaryDirectory() as folder:
        wrong = Path(folder, "wrong")
        wrong.write_text("#!/bin/sh\ncat > /dev/null\necho wrong\nexit 77\n")
        wrong.chmod(0o755)
        for group in (*GROUPS, *CHEAP):
            try:
                yield first_wrong(f"{group.__name__} on a wrong program", group(str(wrong)))
            except ValueError as error:  # (what it prints is no JSON)
                yield f"{group.__name__} on a wrong program", "", str(error)
        yield from judged_traces.judged_canaries(str(wrong), Path(folder))


if __name__ == "__main__":
    sys.exit(report(trials(sys.argv[1]), canaries()))
