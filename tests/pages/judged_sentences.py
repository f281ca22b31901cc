"""What docs/trace.md says of `--any-place`, of records and of pictures: traces are judged, and programs recorded and drawn."""
from __future__ import annotations

import functools
import json
import os
import re
import shutil
import subprocess
import sys
import tempfile
from collections.abc import Iterator
from pathlib import Path

from answers import answer_of
from page_tables import TOP, plain, text_of
from told import either, in_words, the_one, told
from trace_sentences import Traced, traced
from trials import Trial

TRACE = "docs/trace.md"
RECORDER = "library/record.c"
CANARIES = (
    (TRACE, "P is the lowest place for it", "P is the highest place for it"),
    (TRACE, "Findings do not end the trace", "Findings do end the trace"),
    (TRACE, "It need not be a multiple of 2^K", "It must be a multiple of 2^K"),
    (TRACE, "What the program itself starts is not recorded", "What the program itself starts is also recorded"),
    (TRACE, "so it has no line", "so it has a line"),
)
# A program that gets 1,234 bytes and 99, and starts another that gets 4,321.
STARTS = r"""
#include <stdlib.h>
#include <string.h>
#include <sys/wait.h>
#include <unistd.h>
int main(void) {
    char *volatile own = malloc(1234);
    char *volatile more = malloc(99);
    pid_t child = fork();
    if (child == 0) {
        char *volatile other = malloc(4321);
        free(other);
        _exit(0);
    }
    waitpid(child, NULL, 0);
    free(own);
    free(more);
    return 0;
}
"""


def judged(program: str, text: str, levels: int = 4, *options: str) -> Traced:
    """How a trace is judged, of one unit of 16 places from 16 on, if nothing else is said."""
    return traced(program, text, ("--any-place", "--levels", str(levels), "--units", "1", *options))


def found(made: Traced, text: str) -> bool:
    """Whether a finding says so."""
    return any(text in line for line in made.lines if line.startswith("line "))


def gets(program: str) -> Iterator[Trial]:
    """Which gets and refusals are right."""
    odd, outside, shared, right = (judged(program, f"get a 4 = 16\nget b 4 = {place}\nend 2\n") for place in (22, 32, 16, 28))
    yield told(TRACE, r"A place is \*open\* if the block would begin at a (\w+) of its size, would lie (\w+) the memory, and (\w+) other block has one", either(
        found(odd, "misaligned"), "multiple", "part"), either(found(outside, "outside"), "in", "outside"), either(found(shared, "overlaps"), "no", "an"))
    full, room = (judged(program, f"get a {size} = 16\nget b 8 = none\nend 2\n") for size in (16, 1))
    yield told(TRACE, r"A get is (\w+) if its place is (\w+), and a refusal if (\w+) place is", either(right.status == 0, "right", "wrong"), "open", either(
        (full.status, room.status) == (0, 1), "no", "some"))
    lowest = judged(program, "get a 1 = 16\nget b 4 = none\nend 2\n")
    yield told(TRACE, r"P is the (\w+) place for it", the_one({"lowest": found(lowest, "place 20 is open"), "highest": found(lowest, "place 28 is open")}))
    large, refused = judged(program, "get a 17 = 16\nend 1\n"), judged(program, "get a 17 = none\nend 1\n")
    yield told(TRACE, r"(\w+) block has so many words, and the get was (\w+) one", either(found(large, "too large"), "no", "a"), either(
        refused.status == 0, "given", "refused"))
    silent = judged(program, "get a 3\nget a 3 = 16\nend 2\n")
    yield told(TRACE, r"each get (\w+) one here, and its name holds (\w+) block then", either(found(silent, "no answer"), "needs", "has"), either(
        not found(silent, "holds"), "no", "a"))
    twice = judged(program, "get a 4 = 16\nget a 4 = 20\nfree b\nfree a\nfree a\nend 5\n")
    yield told(TRACE, r"a get (\w+) under one name, a block freed (\w+), a free of (\w+) \|", *(
        ("twice", "twice", "none") if [found(twice, it) for it in ("holds a block", "freed twice", "never held")] == [True] * 3 else (str(twice.lines), "", "")))
    size = judged(program, "get a 3 = 16 words 8\nend 1\n"), judged(program, "get a 3 = 16 words 4\nend 1\n")
    yield told(TRACE, r"the size of the block is S \| (\w+) one than words SIZE says", either(
        (size[0].status, size[1].status) == (1, 0) and found(size[0], "is 4"), "another", "the same"))


def frees(program: str) -> Iterator[Trial]:
    """Which frees are right, and what is found later where `= N` is left out."""
    few, many, right = (judged(program, f"get a 4 = 16\nget b 4 = 20\nfree a = 0\nfree b = {count}\nend 4\n") for count in (1, 3, 2))
    wrong = [it.status for it in (few, many, right)] == [1, 1, 0]
    yield told(TRACE, r"A free is right if the piece was joined with (\w+) free buddy: how often that is follows from the (\w+), whatever the order of lists", either(
        wrong, "each", "no"), "blocks")
    later = judged(program, "get a 8 = 16\nget b 8 = 24\nfree a\nfree b\nget c 16 = none\nend 5\n")
    yield told(TRACE, r"a piece that is (\w+) joined is then found at (\w+), and not by a (\w+) refusal", "not", either(
        found(few, "joined 1, where free halves were 2"), "once", "last"), either(found(later, "refused") and later.starts(0, "line 5"), "later", "former"))
    yield told(TRACE, r"another (\w+) of joinings than = N says", either(wrong, "number", "order"))
    apart = judged(program, "get a 4 = 16\nget b 4 = 16\nget c 4 = 16\nfree b = 0\nfree a = 0\nend 5\n")
    yield told(TRACE, r"is (\w+) put on the board, so (\w+) later block overlaps it, and it (\w+) be freed", "not", either(
        found(apart, "16: a, got at line 1") and not found(apart, "16: b"), "no", "each"), either(not found(apart, "b holds"), "may", "must not"))
    beside = judged(program, "get a 4 = 16\nget b 5 = 20\nfree a = 0\nend 3\n")
    yield told(TRACE, r"But the allocator holds its places to be (\w+), so a free beside it may be found to have joined too (\w+): begin with the (\w+) finding", *(
        ("taken", "little", "first") if found(beside, "joined 0, where free halves were 2") and beside.starts(0, "line 2") else ("free", "much", "last")))


def findings(program: str) -> Iterator[Trial]:
    """How many findings are written, and what the summary counts."""
    made = judged(program, "get a 1 = 17\n" + "".join(f"free z{number}\n" for number in range(150)) + "end 151\n")
    written = sum(line.startswith("line ") for line in made.lines)
    counted = next((line.split()[-1] for line in made.lines if line.startswith("findings ")), "")
    yield told(TRACE, r"Findings do (\w+) end the trace\. The (\w+) (\d+) are written, and (\w+) are counted", either(counted == "150", "not", "also"), either(
        made.starts(0, "line 2:"), "first", "last"), str(written), either(counted == "150", "all", "some"))
    right = judged(program, "get a 1 = 16\nend 1\n")
    yield told(TRACE, r"The exit status is (\d) if there is a (\w+)\. \| Option", str(made.status), either(right.status == 0, "finding", "trace"))
    cut = [json.loads(line) for line in judged(program, "get a 1 = 16\n", 4, "--json").lines if line.startswith("{")] or [{}]
    yield told(TRACE, r"The last is of the (\w+) trace, so it has (\w+) line", "whole", either(cut[0].get("finding") == "end" and "line" not in cut[0], "no", "a"))
    split = judged(program, "get a 8 = 16\nend 1\n")
    yield told(TRACE, r"A level that is (\w+) there was (\w+) tried", *["not" if "levels that were split: 4" in split.lines else "always"] * 2)
    whole = judged(program, "get a 1 = 16\nend 1\nfree a\n")
    yield told(TRACE, r"there is (\w+) end N, or another number, or it is (\w+) the last call", *(
        ("no", "not") if "end" in str(cut[0].get("finding")) and found(whole, "calls follow") else ("an", "now")))


def options(program: str) -> Iterator[Trial]:
    """What the options of judging say."""
    anywhere = judged(program, "get a 1 = 5\nend 1\n", 4, "--first", "5")
    yield told(TRACE, r"so that place (\d) is (\w+) block\. It (.*?) be a multiple of 2\^K", "0", either(
        found(judged(program, "get a 1 = 0\nend 1\n"), "outside"), "no", "a"), either(anywhere.status == 0, "need not", "must"))
    default = judged(program, "get a 1 = 16\nget b 1 = 31\nend 2\n"), judged(program, "get a 1 = 15\nend 1\n")
    yield told(TRACE, r"the first place, in smallest pieces; (\S+) without it", either([it.status for it in default] == [0, 1], "2^K", "0"))
    pieces = judged(program, "get a 17 = 32\nget b 16 = 64\nfree a\nend 3\n", 4, "--piece", "16", "--first", "2")
    yield told(TRACE, r"sizes and places of the trace are in (\w+), and a smallest piece has so many\. Options, findings and the summary still count smallest (\w+)", either(
        any("places used at most 3," in line for line in pieces.lines), "bytes", "pieces"), either(pieces.status == 0, "pieces", "bytes"))
    largest = judged(program, "get a 16 = 16\nend 1\n"), judged(program, "get a 17 = none\nend 1\n")
    yield told(TRACE, r"the (\w+) block has 2\^K smallest pieces", either([it.status for it in largest] == [0, 0], "largest", "smallest"))
    allocator = traced(program, "get a 1048576 = 0\nget b 1 = none\nend 2\n", (
        "--any-place", "--levels", "16", "--units", "1", "--first", "0", "--piece", "16"))
    yield told(TRACE, r"an allocator of (\d) MiB in pieces of (\d+) bytes whose offsets begin at (\d) is judged with", *(
        ("1", "16", "0") if allocator.status == 0 else (str(allocator.lines), "", "")))


def kinds(program: str) -> Iterator[Trial]:
    """The names that findings have in JSON, and what some of them are said of."""
    traces = ("get a 4 = 32\nget b 4 = 18\nget c 1 = 16\nget d 4 = 16\nget e 4 = none\nfree c = 0\nget f 3 = 20 words 8\nget f 1 = 24\nfree zz\nget g 17 = 16\n"
              "get h 1\nend 11\nfree f\n")
    made = judged(program, traces, 4, "--json").lines
    found = {json.loads(line)["finding"] for line in made if line.startswith('{"') and '"finding"' in line}
    listed = re.findall(r"In JSON the finding is (.*?)\. The last", plain(text_of(TRACE)))
    yield f"{TRACE}: the findings in JSON", [sorted(found)], [sorted(re.split(r", | or ", it)) for it in listed]
    odd = judged(program, "get a 4 = 18\nend 1\n"), judged(program, "get a 16 = 40\nend 1\n", 4, "--piece", "16", "--first", "2")
    yield told(TRACE, r"misaligned \| the place is (\w+) multiple of the block's size, or (\w+) multiple of a piece", *(
        either(found_in(it, "misaligned"), "no", "a") for it in odd))
    partly = judged(program, "get a 4 = 4\nend 1\n", 2, "--first", "5")
    yield told(TRACE, r"outside \| (\w+) place of the block is (\w+) one of the allocator's", either(found_in(partly, "outside"), "some", "each"), "not")
    words = [program, "trace", "--any-place", "--levels", "20", "--first", "0", "--units"]
    ends = [answer_of([*words, units], input=b"get a 1 = 0\nend 1\n", preexec_fn=None).status for units in ("16", "17")]
    yield told(TRACE, r"It must end at place 2\^24 or (\w+), in smallest pieces", either(ends == [0, 4], "before", "behind"))
    digits = [judged(program, f"get a {number} = none\nend 1\n").status for number in (999_999_999, 1_000_000_000)]
    yield told(TRACE, r"no number has more than (\w+) digits", in_words(9) if digits == [0, 4] else str(digits))


def found_in(made: Traced, text: str) -> bool:
    """Whether the first finding says so."""
    return made.lines[:1] != [] and text in made.lines[0]


@functools.cache
def recorded() -> tuple[str, list[str]] | None:
    """The record of the program above, and what record.py makes and says of it: of all, of two calls, and of one that is cut off."""
    if not shutil.which("cc"):
        return None
    with tempfile.TemporaryDirectory() as folder:
        source, ran, recorder, calls, cut = (Path(folder, it) for it in ("starts.c", "starts", "record.so", "calls", "cut"))
        source.write_text(STARTS, "ascii")
        subprocess.run(["cc", "-O1", source, "-o", ran], check=True)
        subprocess.run(["cc", "-O2", "-shared", "-fPIC", TOP / RECORDER, "-o", recorder], check=True)
        subprocess.run([ran], env={**os.environ, "L6_RECORD": str(calls), "LD_PRELOAD": str(recorder)}, check=True)
        text = calls.read_text("ascii")
        cut.write_text(text.removesuffix(".\n") + "+ 12", "ascii")
        script = [sys.executable, "-B", str(TOP / "library/record.py")]
        given = ([str(calls)], ["--most", "2", str(calls)], [str(cut)])
        made = [subprocess.run([*script, *words], capture_output=True, text=True) for words in given]
        return text, [it.stdout + it.stderr for it in made]


def records() -> Iterator[Trial]:
    """What is recorded of a program, and what is made of a record."""
    known = recorded()
    if not known:
        print("skipped: records of programs: there is no compiler")
        return
    text, made = known
    sizes = re.findall(r"^\+ \w+ (\d+)$", text, re.MULTILINE)
    yield told(TRACE, r"What the program itself starts is (\w+) recorded", either("1234" in sizes and "4321" not in sizes, "not", "also"))
    yield told(RECORDER, r"a child that it (\w+) records (\w+), and neither does a program", "forks", either("4321" not in sizes, "nothing", "all"))
    yield told(TRACE, r"A record (\w+) with a line (\S)\s?: of one", either(text.endswith("\n.\n"), "ends", "begins"), ".")
    calls = [[line for line in it.splitlines() if re.match(r"(?:get|free) ", line)] for it in made]
    yield told(TRACE, r"record\.py takes as many of the (\w+) calls as a trace may have, or (\S+ \w)\.", the_one({
        "first": calls[1] == calls[0][:2], "last": calls[1] == calls[0][-2:]}), "--most N")
    yield told(TRACE, r"record\.py says that it is (.*?), and makes a trace of its (\w+) lines", *(
        ("cut off", "whole") if ["cut off" in it for it in made] == [False, False, True] and calls[2] == calls[0] else (made[2][-200:], "")))


def pictures() -> Iterator[Trial]:
    """Which of its calls a column of a picture shows."""
    text = "".join("get a 16 = 16\nfree a\n" for _ in range(800))  # (so a column has four calls)
    words = [sys.executable, "-B", str(TOP / "library/draw.py"), "--levels", "4", "--units", "1"]
    lines = re.findall(r'<polyline points="([^"]*)"', subprocess.run(words, input=text, capture_output=True, text=True).stdout)
    free, used = ([float(point.partition(",")[2]) for point in line.split()] for line in (lines + ["", ""])[:2])
    # (heights are from the top down: all of the memory is used in each column, and nothing is free)
    worst = {"most": bool(used) and {*used} == {min(used + free)}, "least": bool(used) and {*used} == {max(used + free)}}
    least = {"least": bool(free) and {*free} == {max(used + free)}, "most": bool(free) and {*free} == {min(used + free)}}
    yield told(TRACE, r"A picture has (\d+) columns, and each shows the (\w+) of its calls: the (\w+) places in blocks, and the (\w+) that the largest", str(
        len(used)), either(worst["most"], "worst", "best"), the_one(worst), the_one(least))


def judged_sentences(program: str) -> Iterator[Trial]:
    """All of them."""
    for group in (gets, frees, findings, options, kinds):
        yield from group(program)
    yield from records()
    yield from pictures()
