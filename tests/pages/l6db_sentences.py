"""What docs/l6db.md says of options and files, and docs/l6db.1 of all: sessions show which words are right."""
from __future__ import annotations

import os
import select
import subprocess
import tempfile
from collections.abc import Iterator
from pathlib import Path

from answers import answer_of
from held import all_held, answered, held, retold, seen_of, streams, told
from option_lists import debugger_beside
from session_sentences import GOING, SHOWING, STOPPING, stops
from trials import Trial

PAGE, MANUAL, CHANGES = "docs/l6db.md", "docs/l6db.1", "CHANGELOG.md"
SHORT = " (A,PD)\n"
JOB = f"{SHORT}$COMMANDS\nsi\n"
PIPED = "AT 0.0 AFTER 0 STEPS 1 (A,PD) AT 0.1 AFTER 1 STEPS 1 (A,PD) ^^^^^^"
ECHOED = PIPED.replace("(A,PD) AT", "(A,PD) si AT")
PROMPTED = PIPED.replace(" AT 0.1", " >AT 0.1") + " >"
TAKES = " (A,IN,1)(A,PR,1)\n"
SECONDS = 10

OPTIONS = [
    told("a pipe and --echo", "Over a pipe there is ___; --echo repeats each command ___ its answer",
         {ECHOED: ("none", "before")}, JOB, command="--echo -"),
    told("--prompt", "--prompt TEXT | shows this ___ each line, ___ over a pipe",
         {PROMPTED: ("before", "also")}, JOB, command="--prompt > -"),
    told("--echo", "--echo | repeats each command that is given ___ its answer", {ECHOED: "before"}, JOB, command="--echo -"),
    told("standard input", "- is standard ___, and then there are ___ commands but those of the job",
         {PIPED: ("input", "no")}, JOB, command="-"),
    told("what is refused",
         "A command is refused if it is none, names ___ statement or ___ chain, or could not be obeyed; those after it are ___",
         {"1 0.0/0 0.1/1": ("no", "no", "obeyed"), "1 0.0/0": ("no", "no", "skipped")},
         f"{SHORT}$COMMANDS\nfrob\nb NONE\np 1N\nsi\n", command="--batch -",
         look=lambda answer: f"{answer.status} {stops(answer)}"),
    told("a deck with errors", "If the deck has errors, what l6 check says of them is written to standard ___",
         {"error 4": "error", "output 4": "output"}, " (A,Q)\n", command="-", look=streams),
]
# Sentences of the manual page, by the subjects of rows of PAGE that tell the same.
IN_MANUAL = {
    "next": "reverse-next , rn Op Ar n The same, but ___ a call",
    "break and tbreak": "Stop at a statement; there for ___.",
    "break with a test": "it stops where that ___, or meets a ___.",
    "condition": "Give the breakpoint of a statement a test, or ___",
    "until": "Go on to the statement, or to where the run stops ___; ___ a place, to the statement ___ this one",
    "goto, start and end": "Go to a state by its number, to the ___ one, to the ___ one",
    "run": "Go from the ___ on to where the run stops",
    "finish": "Go on to where the ___ call has returned, or ___ to where it was ___.",
    "delete": "Stop there ___; without a place there is ___ breakpoint left, and ___ is watched",
    "disable and enable": "Stop there ___, and the test is ___; stop there ___.",
    "watch": "Stop where the chain or the word reads as ___ value; ___.",
    "an empty line":
        "An empty line ___ the last command. A line that begins with .Sq # is a ___, after which an empty line does ___",
    "what is nearly a command": "A word that is nearly a command is answered by what that command does, and ___ is obeyed",
    "what is displayed": "Print the chain at each ___; no longer",
    "cards before those": "The cards near a place, and then those that ___. With .Sq - , those ___; with two",
    "files of a job's commands": "The commands of a job may name ___ file for",
    "--echo": "Repeat each command ___ its answer",
    "--prompt": "Show this ___ each line, ___ over a pipe",
    "standard input": "the job comes from standard ___, and there are ___ commands besides those of the job",
}


def options(program: str) -> Iterator[Trial]:
    """What options do, and which commands are refused."""
    debugger = debugger_beside(program)
    yield from all_held(debugger, PAGE, OPTIONS)
    written = {seen_of(debugger, it, "", look=streams) for it in ("--help", "--version")}
    said = tuple(" ".join(written).split())
    calls = (("--batch -", SHORT), ("--batch -", f"{SHORT}$COMMANDS\nfrob\n"), ("--batch -", " (A,Q)\n"), ("--frob", SHORT))
    ended = tuple(str(answered(debugger, *call).status) for call in calls)
    sentence = "The exit status is ___ if the session ended, ___ if a command was refused with --batch, ___ if the job was refused"
    more = "5 if memory ran out, or reading or writing failed, and ___ if the command line is wrong"
    yield held(PAGE, "exit statuses", f"{sentence}, {more}", ended)
    yield held(CHANGES, "a batch", "a batch in which a command was refused has the exit status ___.", ended[1])
    yield held(PAGE, "--help and --version", "--help, --version | on standard ___, with the exit status ___ |", said)


def files(program: str) -> Iterator[Trial]:
    """What is taken from which file, and in which order."""
    debugger = debugger_beside(program)
    with tempfile.TemporaryDirectory() as folder:
        deck, job, commands, characters = (Path(folder, it) for it in ("a.deck", "a.job", "its.commands", "its.input"))
        deck.write_text(TAKES)
        job.write_text(f"{TAKES}$COMMANDS\nend\n$INPUT\nX\n")
        commands.write_text("si\n")
        characters.write_text("Y\n")
        taken = answer_of([debugger, "--batch", job], input=b"").stdout.decode()
        given = answer_of([debugger, "--input", characters, deck], input=b"end\n").stdout.decode()
        first, alone = (
            stops(answer_of([debugger, *words.split(), "-x", commands, deck], input=b"back\n")) for words in ("", "--batch")
        )
        when = when_answered(debugger, deck)
    yield held(PAGE, "a whole job", "its lines $INPUT and $COMMANDS are then taken, ___.", "too" if "printed X" in taken else "not")
    yield held(PAGE, "--input", "--input FILE | the ___ of the run |", "input" if "printed Y" in given else "output")
    obeyed = {"0.0/0 0.1/1 0.0/0": "first", "0.0/0 0.0/0 0.1/1": "last"}.get(first)
    yield held(PAGE, "-x", "-x FILE | commands to obey ___ |", obeyed)
    yield held(MANUAL, "-x", "Obey the commands in this file ___", obeyed)
    ends = {"0.0/0 0.1/1": ("ends", "after"), "0.0/0 0.1/1 0.0/0": ("goes on", "before")}.get(alone, ("", ""))
    yield held(PAGE, "--batch", "--batch | ___ ___ those commands, or after those of the job, without a prompt", ends)
    yield held(MANUAL, "--batch", "End ___ the commands of .Fl x or of the job", ends[1])
    yield held(PAGE, "when a command is answered", "answers each command ___ it reads the next one", when)
    yield held(MANUAL, "when a command is answered", "Each is answered ___ the next one is read", when)


def when_answered(debugger: str, deck: Path) -> str:
    """Whether a command is answered before or after the next one is read."""
    with subprocess.Popen([debugger, deck], stdin=subprocess.PIPE, stdout=subprocess.PIPE) as session:
        assert session.stdin and session.stdout
        session.stdin.write(b"si\n")
        session.stdin.flush()
        answer = b""
        while b"AT 0.1 " not in answer and select.select([session.stdout], [], [], SECONDS)[0]:
            answer += os.read(session.stdout.fileno(), 1 << 12)
        return "before" if b"AT 0.1 " in answer else "after"


def manual_page(program: str) -> Iterator[Trial]:
    """What the manual page says of commands and options."""
    yield from all_held(debugger_beside(program), MANUAL, retold((*GOING, *STOPPING, *SHOWING, *OPTIONS), IN_MANUAL))


def l6db_sentences(program: str) -> Iterator[Trial]:
    """All of them."""
    for group in (options, files, manual_page):
        yield from group(program)


# Each group, and a sentence of it that is turned round.
TURNED = [
    (options, PAGE, "those after it are obeyed", "those after it are skipped"),
    (files, PAGE, "answers each command before it reads", "answers each command after it reads"),
    (manual_page, MANUAL, "The same, but over a call", "The same, but into a call"),
]
