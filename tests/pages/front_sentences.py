"""What README, the changelog, the history and the README files of folders say: programs are run, and the words follow."""
from __future__ import annotations

import functools
import hashlib
import os
import platform
import re
import shutil
import struct
import tempfile
from collections.abc import Iterator
from math import comb
from pathlib import Path

from answers import Answer, answer_of
from model import programs
from option_lists import debugger_beside
from page_figures import in_source
from page_tables import TOP, text_of
from told import either, in_words, the_one, told
from trials import Trial

README, CHANGES, HISTORY, PORTS, DIST, BENCH = (
    "README.md", "CHANGELOG.md", "docs/history.md", "ports/README.md", "dist/README.md", "bench/README.md")
ALLOCATOR = "docs/allocator.md"
FIELDS = " (0,DV,0,17)(0,DN,18,35)"
MANY = f"{FIELDS}(K,E,100)\nL (A,GT,1,AN)(K,S,1)\n IF (K,G,0) THEN L\n"
CANARIES = (
    (README, "type `s` for the next statement, `back` to go back", "type `back` for the next statement, `s` to go back"),
    (CHANGES, "standard output stays as it is", "standard output says more"),
    (HISTORY, "each name but the last is followed as a pointer. So", "each name but the first is followed as a pointer. So"),
    (PORTS, "the answer is lost\nwithout an error", "the answer is lost\nwith an error"),
    (BENCH, "The deck of characters", "The deck of lists"),
    (DIST, "and the sum of the program", "and the sum of the page"),
)
INTERPRETER, SHARED = 3, 3  # a header of a program with a loader, and the kind of a file that may be anywhere


@functools.cache
def ran(program: str, deck: str, *words: str) -> str:
    """What the run of a deck writes to standard output, and then to standard error."""
    ended = answer_of([program, *(words or ("run",))], input=deck.encode())
    return (ended.stdout + ended.stderr).decode("latin-1")


@functools.cache
def session(program: str, commands: str, deck: str = "") -> list[str]:
    """What the debugger that answers at once says to commands, of a deck or of the queue."""
    with tempfile.TemporaryDirectory() as folder:
        file = Path(folder, "a.deck")
        file.write_text(deck or (TOP / "examples/queue.deck").read_text("ascii"), "ascii")
        return answer_of([debugger_beside(program), file], input=commands.encode()).stdout.decode("latin-1").splitlines()


def states(program: str, commands: str) -> list[str]:
    """The places where a session stood."""
    return re.findall(r"^AT (\d+\.\d+) AFTER", "\n".join(session(program, commands)), re.MULTILINE)


def debugger(program: str) -> Iterator[Trial]:
    """What words of the debugger do, as README and the changelog have them."""
    stood = {word: states(program, f"s\n{word}\n")[-1:] for word in ("s", "back")}
    helped = len(session(program, "help\n")) > len(session(program, "s\n")) + 5
    yield told(README, r"type (\w+) for the next statement, (\w+) to go back, (\w+) for the rest", *(
        ("s", "back", "help") if stood["s"] not in ([], ["1.0"]) and stood["back"] == ["0.0"] and helped else (str(stood), "", "")))
    by = {word: states(program, f"{word}\n")[-1:] for word in ("step", "next", "stepi", "nexti")}
    back = {word: states(program, f"goto 13\n{word}\n")[-1:] for word in ("back", "reverse-next", "backi", "reverse-nexti")}
    statements = [word for word, at in (by | back).items() if (at and at[0].endswith(".0"))]
    yield told(CHANGES, r"In l6db (\w+), (\w+), (\w+) and (\S+) go by (\w+), and (\w+), (\w+), (\w+) and (\S+) by (\w+);", *(
        ("step", "back", "next", "reverse-next", "statements", "stepi", "backi", "nexti", "reverse-nexti", "states")
        if sorted(statements) == ["back", "next", "reverse-next", "step"] else (str(by), str(back), *[""] * 8)))
    drawn = session(program, "end\ndraw\n", MANY)
    whole = session(program, "end\ndraw all\n", MANY)
    more = re.findall(r"and (\d+) more lines", "\n".join(drawn)) or ["0"]
    yield told(CHANGES, r"draw of l6db shows (\d+) lines and how many (\w+) there are; draw (\w+) shows (\w+)\.", str(
        len(whole) - len(session(program, "end\n", MANY)) - int(more[0])), *(
            ("more", "all", "all") if more != ["0"] and "more lines" not in "\n".join(whole) else ("", "", "")))
    commented = states(program, "# step\n") == ["0.0"]
    yield told(CHANGES, r"lines that begin with (\S) are (\w+);", "#", either(commented, "comments", "commands"))


def traps(program: str) -> Iterator[Trial]:
    """What is said of a trap, and where."""
    deck = " (A,PD)(PL)(AN,E,5)\n"
    plain, explained = (answer_of([program, "run", *more], input=deck.encode()) for more in ((), ("--explain",)))
    yield told(CHANGES, r"run --explain says of a trap on standard (\w+) where it was met, .*?; standard (\w+) stays as it is", *(
        ("error", "output") if plain.stdout == explained.stdout and b"(AN,E,5)" in explained.stderr and not plain.stderr else ("output", "error")))
    helped: list[Answer[bytes]] = [answer_of([program, *words], input=b"") for words in (("help",), ("help", "run"))]
    yield told(CHANGES, r"l6 help, also with a (\w+), writes its text to standard (\w+)\.", "verb", either(
        all(it.stdout and not it.stderr for it in helped), "output", "error"))
    named = answer_of([program, "check", "--name", "my.deck"], input=b" (A,ZZ,5)\n").stdout.decode("latin-1")
    yield told(CHANGES, r"--name FILE puts a file's name (\w+) each line", either(named.startswith("my.deck:1:5:"), "before", "behind"))
    runs_on = ran(program, " (S,DO)(A,E,5)\nS (A,PD) DONE\n", "check")
    yield told(CHANGES, r"a statement that runs on (\w+) a subroutine", either("runs on into a subroutine" in runs_on, "into", "out of"))
    first = ran(program, "get a 5 = 1024\nget b 1 = 1033\nget c 1 = 1\nend 3\n", "trace", "--store", "1")
    yield told(CHANGES, r"answers the calls of an allocator's trace, and finds the (\w+) answer that differs", either("line 2 differs" in first, "first", "last"))
    cut = answer_of([program, "trace"], input=b"get a 5 = 1024\nend 2\n").status
    yield told(CHANGES, r"A line end N tells how many gets and frees a trace has, so that one that was cut off (\w+)\.", either(cut == 1, "fails", "passes"))


def language(program: str) -> Iterator[Trial]:
    """What chains, numbers, tests and refused gets are in this profile."""
    last = ran(program, f"{FIELDS}(A,GT,1)(AN,E,77)(B,E,AN)(B,PD)(PL)(B,E,ANV)\n")
    word = either(last.startswith("77\n") and "TRAP 2" in last, "last", "first")
    yield told(HISTORY, r"each name but the (\w+) is (\w+) as a pointer\. So in", word, "followed")
    yield told(HISTORY, r"a bug and then field names; each name but the (\w+) is (\w+) as a pointer", word, "followed")
    nowhere = ran(program, f"{FIELDS}(A,E,77)(AN,E,5)\n")
    yield told(HISTORY, r"a pointer that leads to (\w+) block is a (\w+) \|", "no", either("== TRAP 2 " in nowhere, "trap", "number"))
    inside = ran(program, f"{FIELDS}(A,GT,4)(A,A,1)(AN,E,5)\n")
    yield told(HISTORY, r"pointers into the middle of a block \| \| none; a chain (\w+) goes there", either("== TRAP 2 " in inside, "never", "also"))
    refused = ran(program, " (A,GT,1024)(B,GT,1,,FULL) DONE\nFULL (A,E,1)(A,PD)\n", "run", "--store", "1")
    yield told(HISTORY, r"a get or a duplicate that is (\w+) may go to a (\w+) \|", *(("refused", "label") if refused.startswith("1\n== DONE") else (refused, "")))
    signs = ran(program, " (A,S,1)(A,PD)(PL)\n")
    yield told(HISTORY, r"from (\d) to 2\^36 - 1; there are (\w+) signs", "0", either(signs.startswith("68719476735\n"), "no", "two"))
    names = {it.name for it in programs.Condition}
    yield told(HISTORY, r"(IF\w+), (IF\w+) and (IF\w+), and also (\w+), (\w+) and (\w+) \|", *(
        ("IFALL", "IFANY", "IFNONE", "IF", "NOT", "IFNALL") if {"IFALL", "IFANY", "IFNONE", "IF", "NOT", "IFNALL"} <= names else sorted(names)))
    lost = ran(program, " (A,GT,1)(A,E,0)\n$COMMANDS\nstep 3\nstore\n", "debug")
    yield told(HISTORY, r"garbage collection \(a program frees its blocks (\w+), and the debugger shows which are (\w+)\)", "itself", either(
        "LOST" in lost, "lost", "free"))
    large = ran(program, " (A,GT,129)(A,PD)\n"), ran(program, " (A,GT,1025)(A,PD)\n")
    yield told(HISTORY, r"So does a deck that gets (\w+) than 128 words, which (\w+) to be trap 6", *(
        ("more", "used") if large[0].startswith("1024\n") and "TRAP 6" in large[1] else (str(large), "")))
    step = ran(program, " (A,GT,1)(B,GT,1)(C,GT,1)\n$COMMANDS\nstep 3\n", "debug")
    yield told(ALLOCATOR, r"The (\w+) is one step, and each (\w+) is one\. With", *(("condition", "group") if "AT 0.3 AFTER 3" in step else (step, "")))
    aligned = ran(program, " (A,GT,1)(B,GT,512)(B,PD)(PL)(C,GT,1024)\n", "run", "--store", "1")
    yield told(README, r"a get takes an (\w+) (\w+) place and is refused exactly\W+when (\w+) exists", *(
        ("aligned", "free", "none") if aligned.startswith("1536\n== TRAP 7 ") else (aligned, "", "")))


def programs_for_other_systems() -> Iterator[Trial]:
    """What programs need, how they are called, and what Node settles."""
    if platform.machine() == "x86_64" and (static := TOP / "dist/l6-static").is_file():
        data = static.read_bytes()
        begin, count = struct.unpack_from("<Q", data, 32)[0], struct.unpack_from("<H", data, 56)[0]
        kinds = {struct.unpack_from("<I", data, begin + 56 * at)[0] for at in range(count)}
        yield told(PORTS, r"They are (\w+) and position-(\w+) \(", either(INTERPRETER not in kinds, "static", "dynamic"), either(
            struct.unpack_from("<H", data, 16)[0] == SHARED, "independent", "dependent"))
        called = answer_of(["other", "run"], executable=static, input=b" ((\n").stderr.decode("latin-1")
        yield told(PORTS, r"The (\w+) word of the command line is (\w+) in both, whatever the file is called, so that texts say (\w+)\.", "first", *[
            called.partition(":")[0]] * 2)
    if shutil.which("nm"):
        known, more, server = (set(re.findall(r" U (\w+)", answer_of(["nm", "-D", it]).stdout.decode())) for it in (
            TOP / "dist/l6", TOP / "dist/l6db", TOP / "dist/l6ed"))
        yield told(PORTS, r"l6db calls (\w+) functions of the C library more, .*?, and l6ed calls the (\w+) two of them", in_words(
            len(more - known)), either(server - known == {"open", "close"}, "first", "last"))
    else:
        print("skipped: functions of the C library: nm is missing")
    if not shutil.which("node"):
        print("skipped: the program for Node: node is missing")
        return
    yield from in_node()


@functools.cache
def node(script: str, text: bytes = b"") -> Answer[bytes]:
    """What a command of the shell says, with the program for Node as its first word."""
    return answer_of(["sh", "-c", script, TOP / "dist/l6.mjs"], input=text, preexec_fn=None)


@functools.cache
def status_without_input(words: str) -> str:
    """How the program for Node ends whose input neither comes nor ends."""
    read_end, write_end = os.pipe()
    ended = answer_of(["node", TOP / "dist/l6.mjs", words], stdin=read_end, preexec_fn=None)
    os.close(read_end)
    os.close(write_end)
    return str(ended.status)


def in_node() -> Iterator[Trial]:
    """What differs from the native programs, and when the input is read."""
    closed, lost = node('exec node "$0" run <&-'), node('exec node "$0" run >&-', b" (A,PD)\n")
    yield told(PORTS, r"that is (\w+) is opened as the null device: then the input is (\w+), and the answer is lost (\w+) an error", "closed", either(
        closed.status == 0 and closed.stdout.startswith(b"== DONE"), "empty", "refused"), either((lost.status, lost.stderr) == (0, b""), "without", "with"))
    stands_in = node('exec node "$0" check --name "\ufffd"'), node('exec node "$0" check --name A')
    yield told(PORTS, r"so that this character (\w+) is (\w+), too\.", "itself", either([it.status for it in stands_in] == [64, 0], "refused", "taken"))
    wrong, helped = (status_without_input(words) for words in ("nothing", "--help"))
    yield told(PORTS, r"if that gives status (\d+) or they ask for (\w+), it is the (\w+), and else the input is read", wrong, "help", either(
        (wrong, helped) == ("64", "64"), "answer", "question"))


def measures(program: str) -> Iterator[Trial]:
    """What the decks of bench/ compute, and what a provenance ends with."""
    total = ran(program, (TOP / "bench/sum.deck").read_text("ascii")).partition("\n")[0]
    last = next((it for it in range(2000) if str(it * (it + 1) // 2) == total), 0)
    yield told(BENCH, r"sum\.deck \| adds up (\d+) to (\d+) \|", "1", str(last))
    primes = ran(program, (TOP / "bench/sieve.deck").read_text("ascii")).partition("\n")[0]
    counted = sum(all(it % by for by in range(2, it)) for it in range(2, 1000))
    yield told(BENCH, r"sieve\.deck \| counts the (\w+) (\w+) 1000 by striking out (\w+) \|", *(
        ("primes", "below", "multiples") if primes == str(counted) else (primes, "", "")))
    value, calls = (ran(program, (TOP / "bench/calls.deck").read_text("ascii")).splitlines() + ["0", "0"])[:2]
    yield told(BENCH, r"12 over 6 by double recursion: ([\d,]+) calls, (\d+) of which end by FAIL", f"{int(calls):,}" if calls.isdigit() else calls, either(
        value == str(comb(12, 6)), value, "other"))
    without = [it.stem for it in sorted((TOP / "bench").glob("*.deck")) if "\nROUNDS " not in it.read_text("ascii")]
    yield told(BENCH, r"The deck of (\w+) has (\w+) such number", " and ".join(without), "no")
    times = in_source("bench/run", r'add\("--times", type=int, default=(\d+)')
    yield told(BENCH, r"runs everything fifteen times in turn, and not (\w+);", in_words(times))
    sums = re.findall(r"(\w+) ([0-9a-f]{64})$", text_of("dist/l6.provenance"), re.MULTILINE) or [("", "")]
    same = hashlib.sha256((TOP / "dist/l6").read_bytes()).hexdigest() == sums[-1][1]
    yield told(DIST, r"A provenance has the line of the (\w+), .*?, and the sum of the (\w+)\. ", text_of("dist/l6.provenance").partition(" ")[0], either(
        same, sums[-1][0], "page"))
    sources = [line.split("  ", 1) for line in text_of("dist/l6.sources").splitlines()]
    is_last = all(hashlib.sha256((TOP / name).read_bytes()).hexdigest() == total for total, name in sources)
    yield told("CONTRIBUTING.md", r"made by tools/make_dist and committed (\w+) the last change of a source", either(is_last, "after", "before"))
    best = the_one({"best": "min(" in text_of("bench/measure.py").partition("def best_in_turn")[2].partition("\ndef ")[0]})
    yield told(BENCH, r"and not five; the (\w+) time counts", best)


def front_sentences(program: str) -> Iterator[Trial]:
    """All of them."""
    for group in (debugger, traps, language, measures):
        yield from group(program)
    yield from programs_for_other_systems()
