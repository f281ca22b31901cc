"""Trials of `l6 trace --any-place`: answers that were worked out by hand, traces that a plain model judges too, allocators
with other rules, and those of bench/zoo with bugs."""
from __future__ import annotations

import functools
import json
import os
import random
import shutil
import subprocess
import sys
import tempfile
import xml.etree.ElementTree
from collections.abc import Iterator
from itertools import islice, pairwise
from pathlib import Path

sys.path.insert(0, str(Path(__file__).resolve().parents[1] / "harness"))
from answers import Answer, answer, answer_of
from model.judge import Finding, findings_of
from trials import Trial, few_pass

TOP = Path(__file__).resolve().parents[2]
ZOO, LIBRARY = TOP / "bench/zoo", TOP / "library"
SVG = "{http://www.w3.org/2000/svg}"
CALLS = 1_000_000  # of an allocator with another rule
SUMMARY = {"findings", "gets", "frees", "refused", "most_used", "most_lost", "split", "joined"}
OF_REFUSALS = {"largest_refused", "free_places", "largest_piece"}  # which the summary has, too, where there are some

# What is found in traces, but at their ends.
FOUND = {"outside", "misaligned", "overlaps", "refused", "not joined", "size", "too large", "held", "not held"}

# A trace for a pool of one unit of 16 places, from place 16 on, and the findings, without the summary.
BY_HAND: list[tuple[str, str, list[str]]] = [
    ("a right answer before a wrong one", "get a 3 = 28\nget b 1 = 31\nend 2\n",
     ["line 2: overlaps the block at 28: a, got at line 1"]),
    ("any open place", "get a 3 = 28\nget b 16 = none\nfree a = 2\nend 3\n", []),
    ("a place within a block", "get a 3 = 28\nget b 2 = 30\nfree b = 9\nend 3\n",
     ["line 2: overlaps the block at 28: a, got at line 1"]),
    ("a block within the new one", "get a 1 = 21\nget b 3 = 20\nend 2\n",
     ["line 2: overlaps the block at 21: a, got at line 1"]),
    ("a place that is no multiple", "get a 3 = 18\nend 1\n",
     ["line 1: misaligned: the place is no multiple of the block's size"]),
    ("a place before the first", "get a 1 = 15\nend 1\n", ["line 1: outside: the places begin at 16 and end before 32"]),
    ("a place after the last", "get a 1 = 32\nend 1\n", ["line 1: outside: the places begin at 16 and end before 32"]),
    ("a refusal", "get a 1 = 16\nget b 8 = none\nend 2\n", ["line 2: refused though place 24 is open"]),
    ("a refusal of more than a block has", "get a 17 = none\nend 1\n", []),
    ("more than a block has", "get a 17 = 16\nfree a\nend 2\n", ["line 1: too large: no block has so many words"]),
    ("a joining too few", "get a 1 = 16\nfree a = 3\nend 2\n",
     ["line 2: joined 3, where free halves were 4"]),
    ("no joining is said", "get a 1 = 16\nfree a\nend 2\n", []),
    ("a block freed twice", "get a 1 = 16\nfree a\nfree a\nend 3\n",
     ["line 3: a holds no block: freed twice, first at line 2"]),
    ("a block that never was", "free zz\nget a 1 = 16\nend 2\n", ["line 1: zz never held a block"]),
    ("two blocks of one name", "get a 1 = 16\nget a 1 = 17\nend 2\n", ["line 2: a holds a block already, got at line 1"]),
    ("no answer", "get a 1\nend 1\n", ["line 1: the get has no answer"]),
    ("the size of the block", "get a 3 = 16 words 4\nget b 3 = 20 words 8\nend 2\n", ["line 2: the size of the block is 4"]),
    ("no end", "get a 1 = 16\n", ["the trace may be cut off: it has no line end"]),
    ("a line too few", "get a 1 = 16\nend 2\n",
     ["line 2: the trace is cut off, or has lines too many: its gets and frees are 1"]),
    ("calls after the end", "get a 1 = 16\nend 1\nfree a\n", ["line 2: calls follow the line end"]),
    ("no call", "", ["the trace has no get and no free"]),
    ("an end of no call", "end 0\n", ["line 1: the trace has no get and no free"]),
]


def judged(program: str, text: str, *options: str) -> Answer[bytes]:
    """What the program says of a trace."""
    return answer_of([program, "trace", "--any-place", *options], input=text.encode(), preexec_fn=lambda: None)


def judged_by_hand(program: str) -> Iterator[Trial]:
    """The table."""
    for name, text, findings in BY_HAND:
        said = judged(program, text, "--levels", "4", "--units", "1")
        lines = said.stdout.decode().splitlines()
        at = lines.index(f"findings {len(findings)}") if f"findings {len(findings)}" in lines else len(lines)
        yield f"a judged trace: {name}", (findings, int(bool(findings)), b""), (lines[:at], said.status, said.stderr)
    said = judged(program, "get a 40 = 64\nget b 16 = 100\nget c 100 = 128\nend 3\n", "--levels", "4", "--units", "1",
                  "--first", "0", "--piece", "16")
    yield "bytes in pieces", (["line 2: misaligned: the place is between pieces", "findings 1"], 1, b""), (
        said.stdout.decode().splitlines()[:2], said.status, said.stderr)
    yield from large_pools(program)
    said = judged(program, "get a 1 = 16\nput\n")
    yield "a line that is no call", answer(b"", b"l6: line 2: not a call\n", 4), said
    said = judged(program, "get a 1 = 16\nget b 1 = ")
    yield "a last line that is cut off", answer(b"", b"l6: line 2: not a call: the trace is cut off\n", 4), said
    said = judged(program, "get a 1 = 16\nend 1\n", "--units", "16384")
    yield "a pool too large", answer(b"", b"l6: places out of range\n", 4), said


def large_pools(program: str) -> Iterator[Trial]:
    """More levels and more units than the store of the language has."""
    for name, text, options in (
        ("20 levels", "get a 1048576 = 1048576\nget b 1 = 2097152\nget c 600000 = none\nfree b = 20\nend 4\n", "--levels 20 --units 2"),
        ("300 units", "get a 1024 = 307200\nget b 1 = 1024\nfree b = 10\nend 3\n", "--units 300"),
    ):
        said = judged(program, text, *options.split())
        yield f"a pool of {name}", ("findings 0", 0), (said.stdout.decode().splitlines()[0], said.status)
        wrong = judged(program, text.replace("get b 1 =", "get b 2 ="), *options.split())
        yield f"a pool of {name}, and a joining too many", 1, wrong.status


def summary(program: str) -> Iterator[Trial]:
    """The summary, in words and as JSON."""
    text = "get a 3 = 16\nget b 1 = 20\nget c 16 = none\nfree a = 0\nfree b = 4\nend 5\n"
    said = judged(program, text, "--levels", "4", "--units", "1").stdout.decode()
    yield "the summary", [
        "findings 0", "gets 3, refused 1, the largest of level 4", "frees 2",
        "places used at most 5, lost to rounding at most 1",
        "at a refused get free places 11, in the largest piece 8",
        "levels that were split: 1 2 3 4", "levels that were joined: 1 2 3 4",
    ], said.splitlines()
    said = judged(program, text, "--levels", "4", "--units", "1", "--json").stdout.decode()
    expected = {"findings": 0, "gets": 3, "frees": 2, "refused": 1, "largest_refused": 4, "most_used": 5, "most_lost": 1,
                "free_places": 11, "largest_piece": 8, "split": [1, 2, 3, 4], "joined": [1, 2, 3, 4]}
    yield "the summary as JSON", expected, json.loads(said)
    said = judged(program, "get a 3 = 16\nend 1\n", "--levels", "4", "--units", "1", "--json").stdout.decode()
    expected = {"findings": 0, "gets": 1, "frees": 0, "refused": 0, "most_used": 4, "most_lost": 1, "split": [3, 4], "joined": []}
    yield "the summary as JSON, without a refusal", expected, json.loads(said)


def wrong_trace(number: int) -> str:
    """A random trace by an allocator of 3 units of 16 places that is now and then wrong."""
    chance = random.Random(number)
    lines: list[str] = []
    held: list[str] = []
    for at in range(chance.randint(5, 60)):
        if held and chance.random() < 0.45:
            name = held.pop(chance.randrange(len(held))) if chance.random() < 0.95 else "nobody"
            said = f" = {chance.randint(0, 4)}" if chance.random() < 0.7 else ""
            lines.append(f"free {name}{said}")
        else:
            name = f"b{at}" if chance.random() < 0.95 or not held else held[0]
            words = chance.randint(1, 18)
            if chance.random() < 0.1:
                lines.append(f"get {name} {words} = none")
                continue
            size = f" words {2 ** chance.randint(0, 4)}" if chance.random() < 0.3 else ""
            lines.append(f"get {name} {words} = {chance.randint(14, 64)}{size}")
            if name not in held:
                held.append(name)
    return "\n".join([*lines, f"end {len(lines)}", ""])


def from_json(text: str) -> list[Finding]:
    """The findings of a report of JSON objects."""
    findings: list[Finding] = []
    for line in text.splitlines()[:-1]:
        it = json.loads(line)
        named = next((it[key] for key in ("place", "size", "joined") if key in it), None)
        findings.append((it["line"], it["finding"], named))
    return findings


def modelled(program: str) -> Iterator[Trial]:
    """Random traces, which the model judges too. Which of several blocks in the way is named is not compared."""
    told = set[str]()
    for number in range(150):
        text, first = wrong_trace(number), (16, 0, 5)[number % 3]
        said = judged(program, text, "--levels", "4", "--units", "3", "--first", str(first), "--json")
        lists = [findings_of(text, 4, 3, first), from_json(said.stdout.decode())]
        expected, actual = ([it if it[1] != "overlaps" else it[:2] for it in found] for found in lists)
        yield f"a wrong trace {number}", (expected, int(bool(expected))), (actual, said.status)
        told |= {str(it[1]) for it in expected}
    yield "what is found in wrong traces", FOUND, told


def compiled(source: str, room: Path, name: str) -> Path:
    """A program of C."""
    file = room / f"{name}.c"
    file.write_text(source, "ascii")
    subprocess.run(["cc", "-std=c11", "-Wall", "-Wextra", "-O2", str(file), "-o", str(room / name)], check=True)
    return room / name


def with_bug(bug: Path) -> tuple[str, str]:
    """The textbook buddy with a bug, and what is said of it."""
    parts = dict(line.split(": ", 1) for line in bug.read_text("ascii").splitlines() if not line.startswith("#"))
    old, new = (parts[it].replace("\\n", "\n") for it in ("old", "new"))
    source = (ZOO / "buddy.c").read_text("ascii")
    if source.count(old) != 1:
        raise ValueError(f"{bug.name}: the old text is there {source.count(old)} times")
    return source.replace(old, new), parts["says"]


def zoo(program: str) -> Iterator[Trial]:
    """Allocators with other rules, which are right, and with bugs, which are found at the first wrong answer."""
    with tempfile.TemporaryDirectory(prefix="l6-zoo-") as folder:
        room = Path(folder)
        run = functools.partial(subprocess.run, capture_output=True, text=True)
        buddy = compiled((ZOO / "buddy.c").read_text("ascii"), room, "buddy")
        text = run([buddy], check=True).stdout
        yield "the textbook buddy", (0, True), summed(judged(program, text, "--units", "1", "--json"))
        text = run([buddy, str(CALLS)], check=True).stdout
        yield "a million calls, first in, first out", (0, True), summed(judged(program, text, "--units", "1", "--json"))
        placer = compiled((ZOO / "placer.c").read_text("ascii"), room, "placer")
        for rule in ("lowest", "highest", "any"):
            text = run([placer, rule, "10", str(CALLS), "1"], check=True).stdout
            said = judged(program, text, "--units", "1", "--first", "0", "--json")
            yield f"a million calls by the rule {rule}", (0, True), summed(said)
        yield from bugs(program, room)


def bugs(program: str, room: Path) -> Iterator[Trial]:
    """Each bug is found at the first wrong answer."""
    for bug in sorted(ZOO.glob("bugs/*.bug")):
        source, says = with_bug(bug)
        ran = subprocess.run([compiled(source, room, bug.stem)], check=False, capture_output=True, text=True)  # (some bugs end it)
        said = judged(program, ran.stdout, "--units", "1")
        yield f"the bug {bug.stem}", (says, 1), (said.stdout.decode().splitlines()[0], said.status)


# What a program asks for, as record.c writes it down; the trace that is made of it with pieces of 16 bytes, a largest
# block of 16 and one unit of these, by hand: 17 bytes take two pieces, and 33 four, each at the lowest half. More than a line
# may ask for is more than any block has.
CALLS_BY_HAND = "+ aa 17\n+ bb 16\n- cc\n+ dd 33\n- aa\n+ ee 99999999999\n"
CUT_OFF = "record.py: {} is cut off: the program was killed, or it could not be written\n"
TRACE_BY_HAND = "get aa 2 = 16\nget bb 1 = 18\nget dd 3 = 20\nfree aa = 0\nget ee 999999999 = none\nend 5\n"
# A trace for one unit of 16 places, of which three answers are wrong, and the same as the program answers; then the places in
# blocks and in the largest free piece after each call, by hand.
DRAWN = [
    "get a 2 = 16\nget b 1 = 18 words 1\nget c 3 = 20\nget d 1 = 21\nget d 2 = 25\nget d 8 = 32\nget d 5 = 24\nget e 4 = none\nfree c\n"
    "free d = 3\nend 10\n",
    "get a 2: 16, level 1, halved 3\nget b 1: 18, level 0, halved 0\nget c 3: 20, level 2, halved 0\n" + 3 * "get d 9: none\n"
    + "get d 5: 24, level 3, halved 0\nget e 4: none\nfree c: joined 0\nfree d: joined 1\nlevel 3: 24\n",
]
USED_BY_HAND, LARGEST_BY_HAND = [2, 3, 7, 7, 7, 7, 15, 15, 11, 3], [8, 8, 8, 8, 8, 8, 1, 1, 4, 8]
# The same without words: pieces of 16 bytes, blocks up to 2^20 of these, and four units. Five blocks of 16 MiB are one too many.
CALLS_OF_MUCH = "+ aa 20000\n- aa\n" + "".join(f"+ {name} 16777216\n" for name in ("b", "c", "d", "e", "f"))
TRACE_OF_MUCH = "get aa 1250 = 1048576\nfree aa = 9\n" + "".join(
    f"get {name} 1048576 = {place}\n" for name, place in zip("bcdef", (*(unit << 20 for unit in range(1, 5)), "none"))) + "end 7\n"
# One block that is got and freed so often that a trace of all would be too long. By hand: of a name of 64 bytes the two lines
# have 76 and 74 bytes, and 111,848 times as many, with the last line, are the most that fit.
OFTEN, OFTEN_ENDS = f"+ {64 * 'a'} 16\n- {64 * 'a'}\n" * 120_000, "end 223696\n"
# By hand, too: with names of 27 and 28 bytes at first, whose four lines have 154 bytes, the trace has just as many bytes as may be in
# front of its last line, which may have 12. If the first block takes ten pieces, so that one digit more is written, the last call is left out.
FULL = "+ {name} {size}\n- {name}\n".format
FULL_CALLS = 2 * (111_847 + 2)
FULL_BYTES = 111_847 * (76 + 74) + 154
# As many calls as are taken, if no other number is asked for: one block, got and freed. The lines of a round have 24 bytes.
MANY, MANY_BYTES = "+ a 16\n- a\n" * 500_001, 500_000 * 24
ASKING = """#define _GNU_SOURCE
#include <errno.h>
#include <stdint.h>
#include <stdlib.h>
int main(void) {
    char *volatile one = malloc(1005), *volatile two = calloc(10, 208), *volatile three = realloc(one, 3007);
    volatile size_t most = SIZE_MAX / 2 - 100;
    if (realloc(three, most) != NULL)
        return 1;
    errno = 0;
    if (reallocarray(three, most, 4) != NULL || errno != ENOMEM)
        return 1;
    void *volatile four = reallocarray(three, 11, 409);
    free(two);
    free(four);
    void *volatile five = malloc(6007);
    volatile size_t none = 0;
    if (realloc(five, none) != NULL)
        return 1;
    void *volatile six = aligned_alloc(64, 7040), *seven;
    if (posix_memalign(&seven, 128, 8064) != 0)
        return 1;
    free(six);
    free(seven);
    return 0;
}
"""
ASKED = ["1005", "2080", "3007", "4499", "6007", "7040", "8064"]
# A program whose child asks for so much that what is written down would fill the room for lines.
FORKING = """#include <stdlib.h>
#include <sys/wait.h>
#include <unistd.h>
int main(void) {
    void *volatile block = malloc(1005);
    pid_t child = fork();
    for (int i = 0; child == 0 && i < 20000; i++) {
        void *volatile other = malloc(2080);
        free(other);
    }
    if (child != 0)
        waitpid(child, NULL, 0);
    free(block);
    return 0;
}
"""
# A program that asks for one byte more each time. Files may have 8 KiB at first, and any size after half of them.
ROOM_OF_FILES = 8192
GROWING = """#define _GNU_SOURCE
#include <signal.h>
#include <stdlib.h>
#include <sys/resource.h>
int main(void) {
    struct rlimit limit;
    signal(SIGXFSZ, SIG_IGN);
    getrlimit(RLIMIT_FSIZE, &limit);
    limit.rlim_cur = 8192;
    setrlimit(RLIMIT_FSIZE, &limit);
    limit.rlim_cur = limit.rlim_max;
    for (size_t i = 1; i <= 20000; i++) {
        void *volatile block = malloc(i);
        if (block == NULL || (i == 10000 && setrlimit(RLIMIT_FSIZE, &limit) != 0))
            return 1;
    }
    return 0;
}
"""
# Functions that stand between the recorder and the C library: while a block is given back, another one is got, of 4001 bytes.
SLOW = """#include <stdlib.h>
void __libc_free(void *block);
void *__libc_realloc(void *block, size_t size);
static void *volatile other;
void free(void *block) {
    other = block != NULL ? malloc(4001) : NULL;
    __libc_free(block);
}
void *realloc(void *block, size_t size) {
    other = block != NULL ? malloc(4001) : NULL;
    return __libc_realloc(block, size);
}
"""
# A program that starts itself, which then asks for more than it did.
STARTING = """#include <stdlib.h>
#include <sys/wait.h>
#include <unistd.h>
int main(int count, char **words) {
    for (int i = 0; count > 1 && i < 20000; i++) {
        void *volatile other = malloc(2080);
        free(other);
    }
    if (count > 1)
        return 0;
    void *volatile block = malloc(1005);
    if (fork() == 0)
        return execl(words[0], words[0], "started", (char *)NULL);
    wait(NULL);
    free(block);
    return 0;
}
"""


def lines_of(picture: str) -> list[list[int]]:
    """The numbers that a picture's lines show, by the largest one beside them: first those of the largest free piece."""
    root = xml.etree.ElementTree.fromstring(picture)
    most = max(int(it.text or "") for it in root.iter(f"{SVG}text") if (it.text or "").isdigit())
    box = next(it for it in root.iter(f"{SVG}rect") if it.get("fill") == "none")
    above, high = (float(box.get(name, "")) for name in ("y", "height"))
    heights = [[float(point.partition(",")[2]) for point in it.get("points", "").split()] for it in root.iter(f"{SVG}polyline")]
    return [[round((above + high - height) * most / high) for height in line] for line in heights]


def drawn(text: str, *options: str) -> list[list[int]]:
    """What draw.py draws of a trace."""
    words = [sys.executable, "-B", str(LIBRARY / "draw.py"), *options]
    return lines_of(subprocess.run(words, input=text, capture_output=True, text=True, check=True).stdout)


def drawn_by_hand(_program: str) -> Iterator[Trial]:
    """Pictures of a short trace, of one in bytes, of one that is longer than a picture is wide, and of none."""
    for name, text in zip(("another allocator", "the program"), DRAWN):
        yield f"the answers of {name}, drawn", [LARGEST_BY_HAND, USED_BY_HAND], drawn(text, *NARROW)
    in_bytes = drawn("get a 33 = 64\nget b 16 = 15\nfree a\n", "--levels", "3", "--units", "1", "--first", "0", "--piece", "16")
    yield "a trace in bytes, drawn", [[4, 4, 8], [4, 4, 0]], in_bytes
    often = "get a 8 = 0\nfree a = 0\n" * 1000
    yield "each part of a long trace, drawn", [[0] * 400, [8] * 400], drawn(often, "--levels", "3", "--units", "1", "--first", "0")
    for name, text in (("no trace", ""), ("a comment", "# get a 8 = 0\n")):
        yield f"{name}, drawn", [[8], [0]], drawn(text, "--levels", "3", "--units", "1")
    in_units = "".join(f"get {place} 4 = {place}\n" for place in (4, 8, 12))
    yield "a trace in three units, drawn", [[4, 4, 0], [4, 8, 12]], drawn(in_units, "--levels", "2", "--units", "3", "--first", "4")


def recorded_by_hand(room: Path, library: Path) -> Iterator[Trial]:
    """The sizes that are written down, and the trace that is made of some."""
    calls = room / "by-hand"
    words = [sys.executable, "-B", str(LIBRARY / "record.py"), str(calls), "--levels", "4", "--units", "1"]
    for name, ending, said in (("", ".\n", ""), (", cut off", "", CUT_OFF), (", cut off in a line", "+ ff", CUT_OFF)):
        calls.write_text(CALLS_BY_HAND + ending, "ascii")
        made = subprocess.run(words, capture_output=True, text=True, check=False)
        actual = made.stdout, made.stderr, made.returncode
        yield f"a trace of calls by hand{name}", (TRACE_BY_HAND, said.format(calls), 0), actual
    calls.write_text(CALLS_OF_MUCH + ".\n", "ascii")
    made = subprocess.run(words[:4], capture_output=True, text=True, check=False)
    yield "a trace with no words", (TRACE_OF_MUCH, "", 0), (made.stdout, made.stderr, made.returncode)
    calls.write_text(OFTEN, "ascii")
    made = subprocess.run(words, capture_output=True, text=True, check=False)
    yield "a trace of as many calls as may be", (OFTEN_ENDS, 0, True), (
        made.stdout[-len(OFTEN_ENDS):], made.returncode, len(made.stdout) <= 16_777_216)
    yield from full_traces(calls, words)
    for name, source, expected in (
        ("a program", ASKING, ASKED),
        ("a program with a child", FORKING, ASKED[:1]),
        ("a program that starts another", STARTING, ASKED[:1]),
    ):
        program = compiled(source, room, name.replace(" ", "-"))
        subprocess.run([program], env={"L6_RECORD": str(calls), "LD_PRELOAD": str(library)}, check=True)
        *lines, end = [line.split() for line in calls.read_text("ascii").splitlines()]
        yield f"the end of the record of {name}", ["."], end
        yield f"the sizes that {name} asks for", expected, [it[2] for it in lines if it[0] == "+" and it[2] in ASKED]
        asked = {it[1] for it in lines if it[0] == "+" and it[2] in ASKED}
        unknown, held = freed_and_held(lines)
        yield f"the blocks that {name} frees, and was not given", ([], True), (unknown, any(it[0] == "-" for it in lines))
        yield f"the blocks that {name} asks for and has at its end", set(), held & asked
    yield from in_order(room, library)
    yield from cut_off(room, library)


def freed_and_held(lines: list[list[str]]) -> tuple[list[str], set[str]]:
    """The blocks of a record that are freed and were not given, and those that are held at its end."""
    unknown, held = [], set[str]()
    for sign, address, *_ in lines:
        if sign == "-" and address not in held:
            unknown.append(address)
        (held.add if sign == "+" else held.discard)(address)
    return unknown, held


def late_frees(lines: list[str]) -> list[tuple[str, str]]:
    """The lines of a record between which a block was given back before that was noted, or another one was got without that."""
    return [it for it in pairwise(lines) if it[0].startswith("-") != it[1].endswith(" 4001")]


def full_traces(calls: Path, words: list[str]) -> Iterator[Trial]:
    """Traces that have just as many bytes as may be, or calls as are taken, and would have one more."""
    for name, size, taken in (("as many bytes as may be", 16, FULL_CALLS), ("one byte more", 160, FULL_CALLS - 1)):
        calls.write_text("".join([FULL(name=27 * "b", size=size), FULL(name=28 * "c", size=16), FULL(name=64 * "a", size=16) * 111_847]))
        made = subprocess.run(words, capture_output=True, text=True, check=False).stdout
        end = f"end {taken}\n"
        size_of_lines = FULL_BYTES if size == 16 else FULL_BYTES + 1 - 74
        yield f"a trace of {name}", (end, size_of_lines, True), (
            made[-len(end):], len(made) - len(end), len(made) <= 16_777_216)
    calls.write_text(MANY, "ascii")
    made = subprocess.run(words, capture_output=True, text=True, check=False).stdout
    yield "a trace of as many calls as are taken", ("end 1000000\n", MANY_BYTES), (made[-12:], len(made) - 12)
    calls.write_text(CALLS_BY_HAND + ".\n", "ascii")
    made = subprocess.run([*words, "--most", "3"], capture_output=True, text=True, check=False).stdout
    yield "a trace of the calls that are asked for", "".join(TRACE_BY_HAND.splitlines(keepends=True)[:3]) + "end 3\n", made


def in_order(room: Path, library: Path) -> Iterator[Trial]:
    """A free is noted before the block is given back: else another thread may get it first, and a live block is got again."""
    program, calls, slow = compiled(ASKING, room, "asking"), room / "in-order", room / "slow.so"
    slow.with_suffix(".c").write_text(SLOW, "ascii")
    subprocess.run(["cc", "-O2", "-shared", "-fPIC", str(slow.with_suffix(".c")), "-o", str(slow)], check=True)
    subprocess.run([program], env={"L6_RECORD": str(calls), "LD_PRELOAD": f"{library}:{slow}"}, check=True)
    lines = calls.read_text("ascii").splitlines()
    yield "what is given back before that is noted", ([], True), (late_frees(lines), sum(it.startswith("-") for it in lines) >= 3)


def cut_off(room: Path, library: Path) -> Iterator[Trial]:
    """A program of which only a part can be recorded ends as it does, and its record is that part, without a gap or an end."""
    program, calls = compiled(GROWING, room, "growing"), room / "cut-off"
    ran = subprocess.run([program], env={"L6_RECORD": str(calls), "LD_PRELOAD": str(library)}, check=False)
    *lines, _ = calls.read_text("ascii").split("\n")  # (the last one is cut)
    sizes = [it.split()[-1] for it in lines if it.startswith("+")]
    yield "a program whose record can't be written", 0, ran.returncode
    yield "a record that is cut off", [str(it + 1) for it in range(len(lines))], sizes
    # (a line has at most 24 bytes: a sign, an address of 16 digits, a size of 4, two spaces and a line feed)
    yield "how much of it is recorded", (ROOM_OF_FILES, True), (calls.stat().st_size, len(lines) >= ROOM_OF_FILES // 24)


# Programs that are recorded, each in a folder that is a repository of three commits.
RECORDED = [
    ("Python", [sys.executable, "-c", "import json; [json.loads(json.dumps({'a': list(range(i % 50))})) for i in range(3000)]"]),
    ("git", ["git", "--no-pager", "log", "-3", "--stat"]),
    ("sqlite3", ["sqlite3", ":memory:", "create table t(a); insert into t values(1),(2),(3); select sum(a) from t;"]),
]


NARROW = ["--levels", "4", "--units", "1"]  # one unit of 16 places
WIDE = ["--levels", "20", "--units", "1"]  # the memory that they are given, of 16 MiB


def repository_in(room: Path) -> Path:
    """Makes a repository of three commits, for git to tell of: this checkout may be none itself."""
    folder = room / "repository"
    who = ["-c", "user.name=nobody", "-c", "user.email=nobody@example.org"]
    subprocess.run(["git", "init", "-q", folder], check=True)
    for number in range(3):
        (folder / "file").write_text("line\n" * (number + 1), "ascii")
        subprocess.run(["git", "add", "file"], cwd=folder, check=True)
        subprocess.run(["git", *who, "commit", "-q", "-m", f"commit {number}"], cwd=folder, check=True)
    return folder


def recorded(program: str) -> Iterator[Trial]:
    """Programs whose gets and frees are recorded, and judged after another allocator has answered them."""
    with tempfile.TemporaryDirectory(prefix="l6-record-") as made:
        room = Path(made)
        library, calls = room / "record.so", room / "calls"
        words = ["cc", "-O2", "-Wall", "-Wextra", "-Werror", "-shared", "-fPIC", str(LIBRARY / "record.c"), "-o", str(library)]
        yield "record.c compiles", 0, subprocess.run(words, check=False).returncode
        yield from recorded_by_hand(room, library)
        folder = repository_in(room)
        for name, words in RECORDED:
            if not shutil.which(words[0]):
                print(f"skipped: {name} is not installed")
                continue
            known = {**os.environ, "L6_RECORD": str(calls), "LD_PRELOAD": str(library), "PYTHONMALLOC": "malloc"}
            ran = subprocess.run(words, env=known, cwd=folder, capture_output=True, check=False)
            converter = [sys.executable, "-B", str(LIBRARY / "record.py"), str(calls), "--most", "100000", *WIDE]
            text = subprocess.run(converter, capture_output=True, text=True, check=True).stdout
            said = judged(program, text, *WIDE, "--json")
            it = json.loads(said.stdout.decode().splitlines()[-1])
            least = 20_000 if name == "Python" else 100
            yield f"{name}, recorded", (0, 0, 0, True), (ran.returncode, said.status, it["findings"], text.count("\n") > least)
            apart = abs(it["most_used"] - max(drawn(text, *WIDE)[1]))  # (a tenth of a step is 440 places)
            yield f"{name}, drawn", (True, True), (apart < 440, it["most_used"] > 440)


def summed(said: Answer[bytes]) -> tuple[int, bool]:
    """How many findings there are, and whether some get was refused and the status is right."""
    it = json.loads(said.stdout.decode().splitlines()[-1])
    return it["findings"], it["refused"] > 0 and said.status == int(it["findings"] > 0) and set(it) - OF_REFUSALS == SUMMARY


def judged_canaries(wrong: str, room: Path) -> Iterator[Trial]:
    """What is wrong with an allocator is seen, and what is drawn of other traces is something else."""
    right = {"findings": 0, "gets": 2, "frees": 0, "refused": 1, "most_used": 1, "most_lost": 0, "split": [], "joined": []}
    changes: list[tuple[str, dict[str, int], int]] = [
        ("a finding", {"findings": 1}, 1), ("no refusal", {"refused": 0}, 0), ("another status", {}, 1), ("another key", {"more": 0}, 0)]
    for what, change, status in changes:
        yield f"a summary with {what}", (0, True), summed(answer(json.dumps({**right, **change}).encode() + b"\n", b"", status))
    yield "a block that is given back before that is noted", [], late_frees(["+ a 5", "+ b 4001", "- a"])
    yield "a block after which no other one is got", [], late_frees(["+ a 5", "- a", "+ b 5"])
    for what, record in (("freed before it is given", "- a\n+ a 5\n- a"), ("freed twice", "+ a 5\n- a\n- a"), ("kept", "+ a 5\n+ b 5\n- b")):
        yield f"a block that is {what}", ([], set()), freed_and_held([it.split() for it in record.splitlines()])
    yield few_pass("bugs of which something else is said", 0, islice(bugs(wrong, room), 2))
    yield "a picture of another trace", drawn(DRAWN[0], *NARROW), drawn(DRAWN[0].replace("= 24", "= none"), *NARROW)


GROUPS = (judged_by_hand, summary, modelled, zoo, drawn_by_hand, recorded)
