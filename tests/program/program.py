#!/usr/bin/env python3
"""Runs the built program on cases.jsonl and examples/, and on devices that fail.

program.py PROGRAM prints each difference, and last 'N passed, M failed'.

No expected answer was taken from the program: cases.py says where those of the cases are from. Each deck of
examples/ has its printout beside it, and each session its transcript.
"""
from __future__ import annotations

import functools
import os
import re
import resource
import shlex
import signal
import sys
import tempfile
from collections.abc import Iterator
from itertools import islice
from pathlib import Path

sys.path.insert(0, str(Path(__file__).resolve().parents[1] / "harness"))
from answers import Answer, answer, answer_of, leave_little_room
from cases import Case, read_cases
from largest_jobs import MAX_OUTPUT, debug_job, full_store, longest_image, run_job
from model import command, jobs, programs
from model.trace import answer_of_trace
from refused_memory import library_of
from trials import Trial, at_least, few_pass, is_asked_for, report

HERE = Path(__file__).resolve().parent
EXAMPLES = HERE.parents[1] / "examples"
DOCS = HERE.parents[1] / "docs"
SHOWING = [DOCS / name for name in ("tutorial.md", "gallery.md")]  # where decks are shown
MANUAL = DOCS / "debugger.md"
MAX_UNITS = 255  # of a store
MAX_RETRIES = 1_000  # of what was interrupted
# What the examples of helps print of which the model says nothing, by their last words. Of a trace, by hand: the blocks take 8
# places and 1, of which 6 are asked for; the first leaves pieces of levels 3 to 9, and the second those of 0 to 2.
BESIDE_THE_MODEL = {
    "l6 check": answer(
        b"1:2: error: no ) closes `(A,E,5`\n    a group ends on its card, before the next (\n1 error, 0 warnings\n", status=4),
    "l6 trace --any-place --units 1": answer(
        b"findings 0\ngets 2, refused 0\nfrees 0\nplaces used at most 9, lost to rounding at most 3\n"
        b"levels that were split: 1 2 3 4 5 6 7 8 9 10\nlevels that were joined:\n"),
}


def is_shown(block: bytes) -> bool:
    """Whether a document shows a block."""
    return any(block in document.read_bytes() for document in SHOWING)


def examples(program: str) -> Iterator[Trial]:
    """The trials on the decks of examples/, which end by DONE, and that a document shows each whole.

    The image of each deck, followed by the deck's input, prints what the deck prints. Each file of
    examples/ is tried here or among the sessions.
    """
    files = []
    for deck in sorted(EXAMPLES.glob("*.deck")):
        files += [deck, deck.with_suffix(".printout")]
        job, printout = (file.read_bytes() for file in files[-2:])
        actual = answer_of([program, "run"], input=job)
        yield f"the example {deck.stem}", answer(printout), actual
        blocks = b"```text\n%b```\n\nIt prints:\n\n```text\n%b```\n" % (job, printout)
        yield f"the example {deck.stem} in a document", True, is_shown(blocks)
        image = answer_of([program, "asm"], input=job).stdout
        separator, characters = job.partition(b"$INPUT\n")[1:]
        actual = answer_of([program, "load"], input=image + separator + characters)
        yield f"the image of the example {deck.stem}", answer(printout), actual
    for listing in sorted(EXAMPLES.glob("*.listing")):
        files.append(listing)
        text = listing.read_bytes()
        actual = answer_of([program, "list"], input=listing.with_suffix(".deck").read_bytes())
        yield f"the listing of the example {listing.stem}", answer(text), actual
        yield f"the listing of {listing.stem} in a document", True, is_shown(b"```text\n%b```\n" % text)
    for session in EXAMPLES.glob("*.session"):
        files += [session, session.with_suffix(".transcript")]
    for trace in EXAMPLES.glob("*.trace"):  # (which traces.py answers)
        files += [trace, trace.with_suffix(".answers")]
    files += EXAMPLES.glob("*.c")  # (which traces.py compiles)
    yield "the files of examples/", sorted(files), sorted(EXAMPLES.iterdir())


def sessions(program: str) -> Iterator[Trial]:
    """The trials on the sessions of examples/, and that a document shows each whole."""
    documents = [re.findall(r"^```text\n(.*?)^```$", file.read_text("utf-8"), re.DOTALL | re.MULTILINE)
                 for file in (MANUAL, *SHOWING)]
    for session in sorted(EXAMPLES.glob("*.session")):
        job, transcript = session.read_bytes(), session.with_suffix(".transcript").read_bytes()
        actual = answer_of([program, "debug"], input=job)
        yield f"the session {session.stem}", answer(transcript), actual
        cards, rest = job.decode("ascii").split("$COMMANDS\n")
        commands, separator, characters = rest.partition("$INPUT\n")
        deck, answers = cards + separator + characters, transcript.decode("ascii")
        shown = any(shows(blocks, deck, commands, answers) for blocks in documents)
        yield f"the session {session.stem} in a document", True, shown


def shows(blocks: list[str], deck: str, commands: str, answers: str) -> bool:
    """Whether the blocks of a document show a session: a block that is the deck, with its input, and
    somewhere after it blocks, one after another, with just the commands, each before its answer.
    """
    if deck not in blocks:
        return False
    for start in range(blocks.index(deck) + 1, len(blocks)):
        left, shown = commands.splitlines(), ""
        for block in blocks[start:]:
            for line in block.splitlines(keepends=True):
                if left and line == left[0] + "\n":
                    left.pop(0)
                else:
                    shown += line
            if not left and shown == answers:
                return True
    return False


def helps(program: str, folder: str) -> Iterator[Trial]:
    """The trials on the help of each subcommand: its examples do what they say, and it lists the statuses.

    It goes to standard error, with status 64, and nothing is read; by the verb `help` it goes to standard output, with
    status 0.
    """
    os.symlink(os.path.abspath(program), f"{folder}/l6")
    environment = {**os.environ, "PATH": f"{folder}:{os.environ['PATH']}"}
    help_words: list[list[str]] = [[], ["asm"], ["list"], ["check"], ["run"], ["load"], ["renew"], ["debug"], ["trace"]]
    for words in help_words:
        actual = answer_of([program, *words, "--help"], input=b"")
        text = actual.stderr.decode("ascii")
        expected = answer(stderr=actual.stderr, status=64)
        yield f"help on {words}", expected, actual
        by_verb = answer_of([program, "help", *words], input=b"")
        yield f"help on {words} by the verb", answer(actual.stderr, status=0), by_verb
        yield f"statuses in the help on {words}", True, "\nExit status:" in text
        examples = re.findall(r"^  (printf .*)$", text, re.MULTILINE)
        yield f"an example in the help on {words}", True, bool(examples)
        for example in examples:
            yield f"the example {example}", printed_by(example), answer_of(["sh", "-c", example], env=environment)


def printed_by(example: str) -> Answer[bytes]:
    """What an example of a help prints, as `printf TEXT | l6 asm | l6 load`: by the model, or by the table beside it."""
    begin, *calls = example.split(" | ")
    given = shlex.split(begin)[1].replace("\\n", "\n").encode("ascii")
    if calls[-1] in BESIDE_THE_MODEL:
        return BESIDE_THE_MODEL[calls[-1]]
    if calls == ["l6 trace --store 1"]:
        return answer(*answer_of_trace(given, 1))
    made = answer(given)
    for call in calls:
        ran = command.answer_of(call.split()[1:], functools.partial(bytes, made.stdout))
        made = answer(ran.stdout, ran.stderr, ran.status)
    return made


def large_stores(program: str) -> Iterator[Trial]:
    """The trials on a ring of 100,000 blocks, and on a largest store of which each word is a block.

    Sixteen checkpoints of such a store take more room than the other trials have.
    """
    deck = b" (0,DN,18,35)(A,GT,1)(B,E,A)\nL IF (C,L,99999) THEN (A,GT,1,AN)(C,A,1) L\n (BN,E,A)(C,E,0)\n"
    drawn = ["== DONE AFTER 400008 STEPS", "A -> 101023", "B -> 1024"]
    for place in range(1_024, 101_024):
        drawn += [f"BLOCK {place} SIZE 1", f"  N -> {place - 1 if place > 1_024 else 101_023}"]
    expected = answer("\n".join([*drawn, "100000 BLOCKS\n"]).encode("ascii"))
    command = [program, "debug", "--store", str(MAX_UNITS)]
    yield "a large ring", expected, answer_of(command, input=deck + b"$COMMANDS\ngo\ndraw\n", preexec_fn=None)
    job, transcript = full_store(MAX_UNITS)
    yield "a full store", answer(transcript), answer_of(command, input=job, preexec_fn=None)


def cut_images(program: str) -> Iterator[Trial]:
    """The trials on an image that is cut to each number of bytes: what is left ends in a line, or not."""
    image = b"542651554722 000000000002 000000000007 000020000000 013077000000 127777777777 "
    image = (image + b"000000000005 312077000000 127777777777 000002000000 ").replace(b" ", b"\n")
    for count in range(len(image)):
        line, rest = divmod(count, 13)
        why = b"l6: line %d: not a word\n" % (line + 1) if rest else b"l6: not an image\n"
        actual = answer_of([program, "load"], input=image[:count])
        yield f"an image cut to {count} bytes", answer(stderr=why, status=4), actual


def sizes_of_the_largest() -> Iterator[Trial]:
    """The trials that the parts of the largest job are as long as they may be."""
    limits = {"deck": jobs.PART_LIMIT, "input": jobs.PART_LIMIT, "commands": jobs.PART_LIMIT,
              "output": command.RANGES["--output"][1], "statements": programs.STATEMENTS_LIMIT - 1,
              "units": command.RANGES["--store"][1], "image of the deck": jobs.PART_LIMIT}
    cards, _, rest = debug_job()[1].partition(b"$COMMANDS\n")
    commands, _, given = rest.partition(b"$INPUT\n")
    statements = len(re.findall(rb"^[ A-Z]", cards, re.MULTILINE))
    sizes = {"deck": len(cards), "input": len(given), "commands": len(commands), "output": MAX_OUTPUT,
             "statements": statements, "units": MAX_UNITS, "image of the deck": len(longest_image()[0])}
    for what, size in sizes.items():
        yield f"the largest {what}", limits[what], size


def largest(program: str) -> Iterator[Trial]:
    """The trials on the largest job of all, which has as much room as there is."""
    for job, status in ((run_job(), 2), (debug_job(), 0)):
        words, stdin, stdout = job
        actual = answer_of([program, *words], input=stdin, preexec_fn=None)
        yield f"the largest job: {words[0]}", answer(stdout, status=status), actual


def longest(program: str) -> Iterator[Trial]:
    """The trials on the longest image that a deck has, which have as much room as there is."""
    deck, image, printout = longest_image()
    for verb, job, stdout in (
        ("asm", deck, image), ("renew", image, image), ("load", image, printout), ("run", deck, printout)
    ):
        actual = answer_of([program, verb], input=job, preexec_fn=None)
        yield f"the longest image: {verb}", answer(stdout), actual


def failing_devices(program: str) -> Iterator[Trial]:
    """The trials on a full device, a folder and a closed pipe, and without standard error."""
    with open(os.devnull, "rb") as nothing, open("/dev/full", "wb") as full:
        expected = answer(stderr=b"l6: write failed after 0 bytes\n", status=5)
        actual = answer_of([program, "run"], stdin=nothing, stdout=full)
        yield "a full device as output", expected, actual
    folder = os.open(HERE, os.O_RDONLY)
    expected = answer(stderr=b"l6: read failed\n", status=5)
    yield "a folder as input", expected, answer_of([program, "run"], stdin=folder)
    with open("/dev/full", "wb") as full:
        actual = answer_of([program, "run"], input=b" (A,Q,1)\n", stderr=full)
        yield "a bad deck with a full standard error", answer(status=4), actual
    actual = answer_of(["sh", "-c", 'exec "$0" run 2>&-', program], input=b" (A,Q,1)\n")
    yield "a bad deck with a closed standard error", answer(status=4), actual
    expected = answer(stderr=b"l6: a word is not UTF-8\n", status=64)
    yield "a word that is not UTF-8", expected, answer_of([program, "run", b"\xff"], input=b"")
    os.close(folder)
    source, sink = os.pipe()
    os.close(source)
    expected = answer(stderr=b"l6: write failed after 0 bytes\n", status=5)
    yield "a closed pipe as output", expected, answer_of([program, "run"], input=b"", stdout=sink)
    os.close(sink)


def limited_files(program: str, folder: str) -> Iterator[Trial]:
    """The trials on an output file that may have a limited number of bytes.

    Just these bytes go out, and the program says how many, with status 5.
    """
    listing = (EXAMPLES / "first.listing").read_bytes()
    image = answer_of([program, "asm"], input=b" (A,E,5)(A,PD)\n").stdout
    done = [("list", b" (A,E,5)(A,PD)\n", listing), ("asm", b" (A,E,5)(A,PD)\n", image),
            ("check", b" (A,E,5)(A,PD)\n", b"0 errors, 0 warnings\n"),
            ("run", b" (A,E,5)(A,PD)\n", b"5\n== DONE AFTER 6 STEPS\n"),
            ("load", image, b"5\n== DONE AFTER 6 STEPS\n"), ("renew", image, image),
            ("debug", b" (A,E,5)(A,PD)\n$COMMANDS\nstep 2\ngo\n",
             b"AT 0.2 AFTER 2 STEPS\n== DONE AFTER 6 STEPS\n")]
    for verb, job, text in done:
        for most in (0, 1, len(text) // 2, len(text) - 1):
            actual, written = answer_to_file([program, verb], job, Path(folder, "limited"), most)
            why = b"l6: write failed after %d bytes\n" % most
            expected = (answer(stderr=why, status=5), text[:most])
            yield f"{verb} to a file of at most {most} bytes", expected, (actual, written)
        actual, written = answer_to_file([program, verb], job, Path(folder, "limited"), len(text))
        yield f"{verb} to a file that has room for just its answer", (answer(), text), (actual, written)


def answer_to_file(
    command: list[str], stdin: bytes, file: Path, most: int
) -> tuple[Answer[bytes], bytes]:
    """The answer of a command whose output is a file of limited length, and what is in the file."""
    def limited() -> None:
        leave_little_room()
        signal.signal(signal.SIGXFSZ, signal.SIG_IGN)
        resource.setrlimit(resource.RLIMIT_FSIZE, (most, most))

    with open(file, "wb") as sink:
        actual = answer_of(command, input=stdin, stdout=sink, preexec_fn=limited)
    return actual, file.read_bytes()


def interrupted_devices(program: str, folder: str) -> Iterator[Trial]:
    """The trials on devices that are interrupted: 1,000 times as input, and 1,000 times as output.

    One time more is a failure.
    """
    library = library_of("interrupt", folder)
    printed = answer(b"5\n== DONE AFTER 6 STEPS\n")
    unread = answer(stderr=b"l6: read failed\n", status=5)
    unwritten = answer(stderr=b"l6: write failed after 0 bytes\n", status=5)
    for reads, writes, expected in [
        (1, 1, printed),
        (MAX_RETRIES, MAX_RETRIES, printed),
        (MAX_RETRIES + 1, 0, unread),
        (MAX_RETRIES, MAX_RETRIES + 1, unwritten),
        (0, MAX_RETRIES + 1, unwritten),
    ]:
        environment = {
            "LD_PRELOAD": library,
            "INTERRUPT_READS": str(reads),
            "INTERRUPT_WRITES": str(writes),
        }
        actual = answer_of([program, "run"], input=b" (A,E,5)(A,PD)\n", env=environment)
        yield f"{reads} interrupted reads and {writes} interrupted writes", expected, actual


def case_trials(program: str, cases: list[Case]) -> Iterator[Trial]:
    """The trials on the cases."""
    for case in cases:
        actual, expected = answer_of([program, *case.args], input=case.stdin), case.expected
        if case.has_free_text:
            expected = answer(expected.stdout, actual.stderr or b"(some text)", expected.status)
        yield case.name, expected, actual


def trials(program: str) -> Iterator[Trial]:
    """All trials, or the one on a case that is asked for by its name."""
    cases = list(read_cases())
    named = [case for case in cases if is_asked_for(case.name)]
    if named:
        yield from case_trials(program, named)
        return
    yield from at_least(597, "cases", case_trials(program, cases))
    yield from at_least(72, "examples", examples(program))
    yield from at_least(18, "sessions", sessions(program))
    yield from at_least(2, "large stores", large_stores(program))
    yield from at_least(130, "cut images", cut_images(program))
    yield from at_least(2, "the largest jobs", largest(program))
    yield from sizes_of_the_largest()
    yield from little_room()
    yield from at_least(4, "the longest image", longest(program))
    yield from at_least(6, "failing devices", failing_devices(program))
    with tempfile.TemporaryDirectory() as folder:
        yield from at_least(48, "help", helps(program, folder))
        yield from at_least(30, "limited files", limited_files(program, folder))
        yield from at_least(5, "interrupted devices", interrupted_devices(program, folder))


def little_room() -> Iterator[Trial]:
    """A program that is tried may ask for a MiB of memory, and not for 64."""
    for size, status in (("1M", 0), ("64M", 1)):
        asked = ["dd", f"bs={size}", "count=1", "if=/dev/zero", "of=/dev/null"]
        yield f"a program that asks for {size}", status, answer_of(asked).status


def script_that(folder: str, name: str, does: str) -> str:
    """A program that does what these words of the shell say."""
    program = Path(folder, name)
    program.write_text(f"#!/bin/sh\n{does}\n")
    program.chmod(0o755)
    return str(program)


# Blocks of documents that do not show a session of two commands with an answer each.
WRONG_DOCUMENTS = {
    "without its deck": ["other\n", "si\none\n", "end\ntwo\n"], "before its deck": ["si\none\nend\ntwo\n", "deck\n"],
    "without an answer": ["deck\n", "si\none\n", "end\n"], "without an answer between": ["deck\n", "si\nend\ntwo\n"],
    "with another answer": ["deck\n", "si\none\n", "end\nthree\n"], "with one answer more": ["deck\n", "si\none\n", "end\ntwo\nthree\n"],
    "without a command": ["deck\n", "si\none\n", "two\n"], "without any": ["deck\n"],
}


def canaries() -> Iterator[Trial]:
    """Each group, on a program that is wrong, where only what documents show passes; cases that are wrong in one part."""
    with tempfile.TemporaryDirectory() as folder:
        refused = next(case for case in read_cases() if case.expected.status == 4 and not case.has_free_text)
        yield from case_trials(script_that(folder, "other-line", "echo wrong >&2; exit 4"), [refused])
        yield from case_trials(script_that(folder, "other-status", "cat /dev/null; exit 5"), [refused])
        first = script_that(folder, "wrong", "echo wrong; exit 77")
        yield next(case_trials(first, list(islice(read_cases(), 1))))
        decks, listed = (len(list(EXAMPLES.glob(f"*.{kind}"))) for kind in ("deck", "listing"))
        groups: list[tuple[int, Iterator[Trial]]] = [
            (decks + listed + 1, examples(first)), (len(list(EXAMPLES.glob("*.session"))), sessions(first)),  # (of documents)
            (0, large_stores(first)), (0, cut_images(first)), (0, largest(first)), (0, longest(first)), (0, failing_devices(first)),
            (0, helps(first, folder)), (0, limited_files(first, folder)), (0, interrupted_devices(first, folder)),
        ]
        for most, group in groups:
            yield few_pass("on a wrong program", most, group)
    for what, blocks in WRONG_DOCUMENTS.items():
        yield f"a session in a document {what}", True, shows(blocks, "deck\n", "si\nend\n", "one\ntwo\n")


if __name__ == "__main__":
    if len(sys.argv) != 2:
        sys.exit(__doc__)
    sys.exit(report(trials(sys.argv[1]), canaries()))
