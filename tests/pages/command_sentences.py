"""What docs/l6.1, docs/command-line.md and docs/robustness.md say in words: calls of the program show which words are right."""
from __future__ import annotations

import os
import re
import resource
import signal
import subprocess
import tempfile
from collections.abc import Iterator

from answers import answer_of
from held import all_held, answered, held, seen_of, streams, told
from job_sentences import FIVE, HELPS, WRONG, read_by, written_by
from listing_sentences import IMAGE, order
from page_tables import TOP, plain, table_with, text_of
from trials import Trial

MANUAL, COMMANDS, ROBUSTNESS, SUMMARY = "docs/l6.1", "docs/command-line.md", "docs/robustness.md", "docs/summary.md"
REFUSED = "card 1: no reading"
TRAPS = " (A,E,5)(A,PD)(B,V,0)(A,PD)\n"
FIRST = 4  # bytes that a file takes
DIFFERS = (  # what is answered to the trace that follows
    "get a 5: 1024, level 3, halved 7 line 2 differs: get b 5: 1032, level 3, halved 0 the other allocator: 1 "
    "the free lists before it: level 3: 1032 level 4: 1040 level 5: 1056 level 6: 1088 level 7: 1152 level 8: 1280 level 9: 1536"
)
COMPARED = "get a 5 = 1024\nget b 5 = 1\nget c 5 = 2\nget d 5\nend 4\n"

IN_MANUAL = [
    told("files", "It opens ___ files, so it takes ___ file names",
         {"error 64": ("no", "no"), "output 0": ("all", "the")}, FIVE, command="run my.deck", look=streams),
    told("--steps", "The run is ___ once it has made .Ar N steps",
         {"5 LIMIT": "stopped", "5 | 5": "warned"}, FIVE, command="run --steps 5"),
    told("the input", "The input of the program follows, to the end of the job. Only the ___ such line counts",
         {"X $INPUT": "first", "card 2: no reading": "last"},
         f" (A,IN,1)(A,PR,1)(PL){'(A,IN,6)' * 6}\n+{'(A,IN,6)' * 7}\n+(A,IN,1)(A,IN,6)(A,PR,6)\n$INPUT\nX\n$INPUT\n"),
    told("separators",
         "A separator begins in column 1 and has ___ but blanks after it; small letters and tabs are read as in a deck. A "
         "part that is missing is ___",
         {"0 | card 2: no reading | TRAP 8": ("nothing", "empty")}, " (A,PD)\n$input\t \n", " (A,PD)\n$INPUT X\n",
         " (A,IN,1)\n"),
    told("column 1", "begins a ___, a blank a ___, a letter a statement ___ a label, and .Sq + ___ a statement",
         {"1 w 2 - w LABELS | 1 w 2 w - w LABELS | 1 w 2 w - w LABELS X | 1 2 w - w LABELS":
             ("comment", "statement", "with", "continues")}, " (PL)\n*(PL)\n", " (PL)\n (PL)\n", " (PL)\nX(PL)\n",
         " (PL)\n+(PL)\n", command="list", look=order),
    told("the parts of a statement", "may come ___ them. A label, .Li DONE or .Li FAIL may ___ them",
         {f"0 | {REFUSED} | {REFUSED}": ("before", "follow"), f"{REFUSED} | 0 | 0": ("after", "precede")},
         " IF (A,E,0) THEN (A,PD) DONE\n", " (A,PD) IF (A,E,0) THEN\n", " DONE (A,PD)\n"),
    told("a store of a trace", "on a store of .Ar M units that is ___ at first",
         {"1024 free, words 1024": "empty", "1024 a, words 1024": "full"}, "map\n", command="trace --store 1"),
    told("lines of a trace", "Blank lines and lines that begin with .Sq # are ___",
         {"get a 5: 1024, level 3, halved 7": "skipped", "line 1: not a call": "refused"}, "# A\n\n \nget a 5 = 1024\nend 1\n",
         command="trace"),
    told("names of a trace", "under a name that holds ___. The line",
         {"get a 5: 1024, level 3, halved 7 line 2: the name holds a block already, or none": "none"}, "get a 5\nget a 5\n",
         command="trace"),
    told("the blocks and pieces of a trace", "Show the blocks and the free pieces, places ___",
         {"get a 512: 1024, level 9, halved 1 1024 a, words 512 1536 free, words 512": "rising"}, "get a 512\nmap\n",
         command="trace --store 1"),
    told("a get that is refused", "A get is refused rightly only if ___ such place is open",
         {"0 | 1": "no", "1 | 0": "one"}, "get a 1024 = 1024\nget b 1 = none\nend 2\n",
         "get a 512 = 1024\nget b 512 = none\nend 2\n", command="trace --any-place --units 1",
         look=lambda answer: str(answer.status)),
    told("the answer that differs",
         "The ___ line at which another allocator answered otherwise is reported, with ___ answers and the free lists ___ "
         "it; ___ after it is done", {DIFFERS: ("first", "both", "before", "nothing")}, COMPARED, command="trace --store 1"),
    told("the end of a printout", "The ___ line of a printout says how the run ended",
         {"5 TRAP 5": "last", "TRAP 5 5": "first"}, TRAPS),
    told("faults", "A fault is ___ line on standard ___. Then ___ is on standard output",
         {"error 4": ("one", "error", "nothing"), "output 4": ("one", "output", "nothing")}, " (A,Q)\n", look=streams),
    told("labels that no card has", "The card names a label that ___ card has",
         {"card 1: no such label | -": "no"}, " X\n", " X\nX DONE\n"),
    told("a line that is no word", "The line is the ___ of the image that is not twelve octal digits",
         {"line 2: not a word": "first", "line 3: not a word": "last"}, "000000000000\nX\nY\n", command="load"),
    told("words of no program", "The words are ___ the image of a program",
         {"not an image": "not"}, "000000000000\n", command="load"),
]
WENT_WRONG = [
    told("where faults go", "A fault is ___ line on standard ___, and then ___ is on standard output, unless",
         {"error 4": ("one", "error", "nothing"), "output 4": ("one", "output", "nothing")}, " (A,Q)\n", look=streams),
    told("no place for a block", "no place for a block | the ___ of the operation, or trap ___, STORE FULL",
         {"FULL | TRAP 7": ("label", "7")}, " (A,GT,1024)(B,GT,1,,X)\nX (FULL,PH)\n", " (A,GT,1024)(B,GT,1)\n",
         command="run --store 1"),
    told("an endless run", "an endless run | what it ___, and == LIMIT",
         {"0 LIMIT": "printed", "LIMIT": "read"}, " (A,PD)\nL L\n", command="run --steps 50"),
    told("too much output", "more output than the limit | trap 14, OUTPUT FULL, and ___ that was printed ___ it",
         {"000000000000 TRAP 14": ("all", "before"), "TRAP 14": ("nothing", "before")}, " (A,PO)(A,PO)\n",
         command="run --output 14"),
    told("endless calls", "endless recursion, contents saved endlessly | trap ___, RETURNS FULL; trap ___, PUSHDOWN FULL",
         {"TRAP 11 | TRAP 10": ("11", "10")}, "X (X,DO)\n", "L (S,FC,A) L\n"),
    told("which line is reported", "l6: line n: not a word | 4 | proved: load: n is the ___ such line",
         {"line 2: not a word": "first", "line 3: not a word": "last"}, "000000000000\nX\nY\n", command="load"),
    told("past the columns", "text after column 72 of a card | nothing: it is ___ (",
         {"1": "ignored", "11": "read"}, f"{' (A,E,1)(A,PD)':<72}(A,PD)\n"),
    told("help", "--help | help, on standard ___ |",
         {"error 64": "error", "output 0": "output"}, FIVE, command="--help", look=streams),
]
STATUSES = {"done": " DONE\n", "fail": " FAIL\n", "trap": " (A,V,0)\n", "limit": "L L\n", "refused": " (A,Q)\n"}
MEANINGS = {  # by how a run ended: what the manual page and the sheet say of the exit status
    "done": ("The run ended by .Li DONE", "DONE"), "fail": ("The run ended by .Li FAIL", "FAIL"),
    "trap": ("The run trapped", "trap"), "limit": ("The run was stopped at its limit of steps", "limit of steps"),
    "refused": ("The job was refused", "the job was refused"),
    "device": ("Memory ran out, or reading or writing failed", "memory or a device failed"),
    "words": ("The command line is wrong", "wrong words"),
}


def statuses(program: str) -> Iterator[Trial]:
    """What each exit status means."""
    ended = {how: answered(program, "run --steps 50", deck).status for how, deck in STATUSES.items()}
    ended["words"] = answered(program, "run my.deck", FIVE).status
    ended["device"] = status_with_folder(program)
    items = dict(re.findall(r"\.It (\d+) (.*?)(?=\.It|\.El)", plain(text_of(MANUAL)).partition(".Sh EXIT STATUS")[2]))
    rows = {row[2]: row[3] for row in table_with(text_of(SUMMARY), "Command", "What it does", "Exit status").rows}
    for how, meanings in MEANINGS.items():
        for page, told_of, meaning in zip((MANUAL, SUMMARY), (items, rows), meanings):
            yield f"{page}: the status where a run ends so: {how}", meaning, told_of.get(str(ended[how]), "")[:len(meaning)]


def status_with_folder(program: str) -> int | str:
    """The exit status where standard input is a folder."""
    with tempfile.TemporaryDirectory() as folder:
        opened = os.open(folder, os.O_RDONLY)
        try:
            ended = answer_of([program, "run"], stdin=opened)
        finally:
            os.close(opened)
    return ended.status if ended.stderr == b"l6: read failed\n" else ended.stderr.decode()


def little_room_for_files() -> None:
    """Leaves files few bytes, so that a write past them fails."""
    signal.signal(signal.SIGXFSZ, signal.SIG_IGN)
    resource.setrlimit(resource.RLIMIT_FSIZE, (FIRST, FIRST))


def devices(program: str) -> Iterator[Trial]:
    """What is seen where a device fails."""
    yield from all_held(program, ROBUSTNESS, WENT_WRONG)
    failed = "folder" if status_with_folder(program) == 5 else None
    yield held(ROBUSTNESS, "a folder as input", "standard input fails, as a ___ does | l6: read failed", failed)
    whole = answered(program, "run", FIVE).stdout
    with tempfile.TemporaryFile() as file, open("/dev/full", "wb") as full:
        told_of = answer_of([program, "run"], input=FIVE.encode(), stdout=file, preexec_fn=little_room_for_files).stderr.decode()
        file.seek(0)
        went = {whole[:FIRST]: "first", whole[-FIRST:]: "last"}.get(file.read())
        on_full = answer_of([program, "run"], input=FIVE.encode(), stdout=full)
        silent = answer_of([program, "run"], input=b" (A,Q)\n", stderr=full).status
    known = went if told_of == f"l6: write failed after {FIRST} bytes\n" else None
    which = "full" if (on_full.stderr, on_full.status) == (b"l6: write failed after 0 bytes\n", 5) else None
    signals = {"5": "no", str(-signal.SIGPIPE): "a"}.get(str(status_of_closed_pipe(program)))
    after = {"4": ("nothing", "still"), "5": ("a fault", "no longer")}.get(str(silent))
    closed = "standard output is closed by its reader | the same, and ___ signal kills the program"
    yield held(ROBUSTNESS, "a full device", "standard output fails, is ___ or takes nothing | l6: write failed", which)
    yield held(ROBUSTNESS, "bytes that went out", "exactly the ___ n bytes of the answer went out", known)
    yield held(ROBUSTNESS, "a closed pipe", closed, signals)
    sentence = "standard error is full or closed | ___; the exit status ___ says what happened"
    yield held(ROBUSTNESS, "a full standard error", sentence, after)


def status_of_closed_pipe(program: str) -> int | str:
    """The exit status where nobody reads standard output."""
    reader, writer = os.pipe()
    os.close(reader)
    try:
        return answer_of([program, "run"], input=FIVE.encode(), stdout=writer).status
    finally:
        os.close(writer)


def calls(program: str) -> Iterator[Trial]:
    """What calls write, and where."""
    yield from all_held(program, MANUAL, IN_MANUAL)
    of_image = answered(program, "load", IMAGE)
    same = [verb for verb in ("list", "run", "asm") if answered(program, verb, FIVE) == of_image]
    yield held(MANUAL, "load", "and the answer is what .Cm ___ writes for that deck", " ".join(same))
    helped, status = written_by(program, HELPS), answered(program, HELPS[0], FIVE).status
    read = " ".join({read_by(program, it) for it in (*HELPS, *WRONG)})
    yield held(MANUAL, "help", "Two more options write to standard ___, and read ___:", (helped, read))
    verb = answered(program, "help run", "")
    same_help = "same" if verb.stdout == answered(program, "run --help", FIVE).stderr else "other"
    where = seen_of(program, "help run", "", look=streams).split()
    sentence = "Help and the version go to standard ___, ___ is read, and the exit status is ___. ./l6 help, also with a verb "
    words = (helped, read, str(status), same_help, *where)
    yield held(COMMANDS, "help", f"{sentence}after it, writes the ___ help to standard ___ with status ___,", words)
    wrong = written_by(program, WRONG)
    yield held(ROBUSTNESS, "wrong words", "what is wrong and where help is, on standard ___; ___ is read", (wrong, read))
    ended = " ".join(str(answered(program, f"run --{it} 50", FIVE).status) for it in ("steps", "step"))
    known = {"0 64": "whole", "0 0": "short"}.get(ended)
    yield held(COMMANDS, "names of options", "An option is known by its ___ name alone", known)


def explained(program: str) -> Iterator[Trial]:
    """What --explain says, and where."""
    alone, more = answered(program, "run", TRAPS), answered(program, "run --explain", TRAPS)
    other = answered(program, "run --explain", FIVE)
    same = "same" if (alone.stdout, alone.status) == (more.stdout, more.status) else "other"
    where = "error" if more.stderr and not alone.stderr and not other.stderr else "output"
    marked = {20: "trapped", 27: "is next"}.get(len(more.stderr.decode().partition("\n")[2].partition("^")[0]))
    sentence = "With --explain standard output and the exit status are the ___ as without it. If the run traps, standard ___ has "
    words = (same, where, str(marked))
    yield held(COMMANDS, "--explain", f"{sentence}the cards of the statement, with the action marked that ___, and", words)
    yield held(MANUAL, "--explain", "standard ___ has, of a run that trapped, the cards of the statement", where)
    yield held(MANUAL, "--explain and standard output", "and the reason; standard output is the ___", same)
    yield held(SUMMARY, "--explain", "run --explain says of a ___ where it was met, and why", "trap" if where == "error" else None)
    terminal = [stream for stream in ("output", "error") if is_explained_at(stream)]
    yield held(COMMANDS, "--explain at a terminal", "At a terminal, where standard ___ is one, ./l6 run has this option of itself",
               " and ".join(terminal))


def is_explained_at(stream: str) -> bool:
    """Whether ./l6 says why a run trapped, where one of its outputs is a terminal and the other is none."""
    ours, theirs = os.openpty()
    output, errors = (theirs, subprocess.PIPE) if stream == "output" else (subprocess.PIPE, theirs)
    ran = subprocess.run([TOP / "l6", "run"], input=TRAPS.encode(), stdout=output, stderr=errors, check=False)
    shown = os.read(ours, 1 << 12) if stream == "error" else ran.stderr
    os.close(ours)
    os.close(theirs)
    return b" because " in shown


def command_sentences(program: str) -> Iterator[Trial]:
    """All of them."""
    for group in (statuses, devices, calls, explained):
        yield from group(program)


# Each group, and a sentence of it that is turned round.
TURNED = [
    (statuses, MANUAL, ".It 2\nThe run trapped", ".It 3\nThe run trapped"),
    (devices, ROBUSTNESS, "and no signal kills", "and a signal kills"),
    (calls, COMMANDS, "Help and the version go to standard error", "Help and the version go to standard output"),
    (explained, MANUAL, "standard output is the same", "standard output is another"),
]
