"""What the manual pages docs/l6.1 and docs/l6db.1, and docs/l6db.md, say of verbs, statuses and commands: calls show the words."""
from __future__ import annotations

import re
import tempfile
from collections.abc import Iterator
from pathlib import Path

from answers import Answer, answer_of
from held import Words, all_held, answered, held, seen_of, streams, told
from option_lists import debugger_beside
from session_sentences import DECK, at, says, stops
from trials import Trial

MANUAL, SESSIONS, PAGE = "docs/l6.1", "docs/l6db.1", "docs/l6db.md"
FIVE = " (A,E,5)(A,PD)\n"
REFUSED = "card 1: no reading"
LONG = f"*{' ' * (1 << 20)}\n"  # a deck that is too long
STACKED = " (A,E,3)(S,FC,A)(S,FD,N)\n"


def shape(answer: Answer[bytes]) -> str:
    """Whether each line is a machine word."""
    return "words one" if re.fullmatch(rb"(?:[0-7]{12}\n)+", answer.stdout) else "other"


def parts(answer: Answer[bytes]) -> str:
    """How many cards, words and labels a listing has."""
    listed, _, labels = answer.stdout.decode("ascii").partition("LABELS\n")
    words = re.findall(r"^ {15}[0-7]{12}$", listed, re.MULTILINE)
    return f"{len(listed.splitlines()) - len(words)} {len(words)} {len(labels.splitlines())}"


def kinds(answer: Answer[bytes]) -> str:
    """The kinds of findings of a check, in their order."""
    return " ".join(re.findall(r"^\d+:\d+: (\w+):", answer.stdout.decode("ascii"), re.MULTILINE))


def last_two(answer: Answer[bytes]) -> str:
    """The last two lines that are printed, in one."""
    return " ".join(" ".join(answer.stdout.decode("ascii").splitlines()[-2:]).split())


VERBS = [
    told("when an answer is written", "reads one .Em job from standard ___, to its ___, and ___ writes its answer to standard ___.",
         {"error 4 | output 0": ("input", "end", "then", "output")}, f"{FIVE} (A,Q)\n", FIVE, look=streams),
    told("asm", "Write the image of the deck: its program as machine ___, ___ on each line", {"words one": ("words", "one")}, FIVE,
         command="asm", look=shape),
    told("list", "its cards, the words of ___ statement, and the ___. .It Cm check", {"4 6 1": ("each", "labels"), "4 2 1": ("one", "labels")},
         " (PL)\nX\n (PL)\n", command="list", look=parts),
    told("check", "a line for each ___ and each ___, with its card", {"error warning": ("error", "warning"), "error": ("error", "deck")},
         f" (A,Q)\n{' (PL)':<72}(PL)\n", command="check", look=lambda it: " ".join(sorted(kinds(it).split()))),
    told("a job's lines", "A job is a deck of cards, ___ on each line", {"AB": "one", REFUSED: "two"}, " (A,PH)\n (B,PH)\n"),
    told("the longest label", "A label has at most ___ characters", {f"A | {REFUSED}": "six", f"{REFUSED} | {REFUSED}": "five"},
         "ABCDEF (A,PH)\n", "ABCDEFG (A,PH)\n"),
    told("how large a block is", "Get a block of at ___ so many words, under", {"get a 5: 1024, level 3, halved 7": "least"}, "get a 5\n",
         command="trace --store 1"),
    told("what is freed", "Free the block that the name ___.", {"get a 5: 1024, level 3, halved 7 free a: joined 7": "holds"},
         "get a 5\nfree a\n", command="trace --store 1"),
    told("clear", "Remove the ___ of statement .Ar s", {"BREAK AT 1 CLEARED 1": "breakpoint", "BREAK AT 1 CLEARED 1 AT 1.0 AFTER 3 STEPS": "label"},
         " (A,PD)\nL (PL)\n$COMMANDS\nbreak 1\nclear 1\ngo\n", command="debug"),
    told("show", "Show the bugs that are ___ 0, and how much has been ___, taken and printed",
         {"A 000000000003 3 CONTENTS 1 DEFINITIONS 0 RETURNS 0 INPUT 0 OUTPUT 0": ("not", "saved")},
         " (A,E,3)(S,FC,A)\n$COMMANDS\nstep 3\nshow\n", command="debug", look=last_two),
    told("draw", "Draw the blocks that are ___ from bugs, and where their fields ___.", {"1 of 2": ("reached", "lead"), "2 of 2": ("lost", "lead")},
         " (0,DN,0,35)(A,GT,1)(A,GT,1)\n$COMMANDS\ngo\ndraw\n", command="debug",
         look=lambda it: f"{it.stdout.count(b'BLOCK ')} of 2"),
    told("what is no card's meaning", "Something on the card has ___ meaning, or the statement that ___ on it is not complete",
         {f"{REFUSED} | card 2: no reading": ("no", "ends"), f"{REFUSED} | {REFUSED}": ("no", "begins")}, " (A,Q)\n", " IF (A,E,0)\n+(A,E,1)\n"),
    told("one part too many", "The card has ___ statement, continuation, test or operation too ___.",
         {"card 17: past a limit": ("one", "many")}, " (A,E,1)\n" + "+\n" * 16),
    told("a part that is too long", "The part is ___ than its limit", {"deck too long": "longer"}, LONG),
]
COMMANDS = [
    at("where a session begins", "shows where its run ___, and then reads commands, ___ on each line", {"0.0/0 3.0/3": ("begins", "one")}, "s"),
    at("step in the manual page", "Go on, or back, to where a statement ___, or to the .Ar n Ns th such ___.",
       {"0.0/0 4.0/7 3.0/3": ("begins", "place")}, "s 2;back"),
    at("stepi in the manual page", "Go .Ar n states on, or ___.", {"0.0/0 3.0/3 0.2/2": "back"}, "si 3;rsi"),
    at("nexti in the manual page", "rni Op Ar n The same, but ___ a call.", {"0.0/0 0.1/1 0.2/2 0.3/10": "over"}, "ni;ni;ni"),
    at("continue in the manual page", "Go on, or back, to where the run ___, or to the", {"0.0/0 3.0/3 3.0/16 3.0/3": "stops"}, "b 3;c;c;rc"),
    at("places in the manual page", "also with a plus sign and how many statements ___ it, the number of a ___, or a colon and the number of a ___.",
       {"0.0/0 4.0/7 | 0.0/0 4.0/7 | 0.0/0 4.0/7": ("after", "statement", "card")}, "b PUT+1;c", "b 4;c", "b :5;c"),
    at("a word that is left out", "and W is ___ if it is left out", {"0.0/0 0.3/3 0.4/4 0.5/5": "0"}, "watch *1024;c;c;c",
       deck=" (0,DN,0,35)(A,GT,2)(AN,E,5)(AN,E,6)\n"),
    says("calls that wait in the manual page", "The calls that wait, in at ___ .Ar n lines", {"and 1 more": "most"}, "s;bt 1"),
    says("who in the manual page", "the block to which it leads was got, ___ written and freed", {"written AT 0.4 AFTER 4 STEPS": "last", "written AT 0.3 AFTER 3 STEPS": "first"},
         "end;who 1024", deck=" (0,DN,0,35)(A,GT,2)(AN,E,5)(AN,E,6)\n", text="written"),
    says("help in the manual page", "___ commands, or what ___ does.", {"yes": ("All", "one")}, "help"),
]
IN_PAGE = [
    at("so many times", "or to where one stops before; N ___ |", {"0.0/0 4.0/7": "times"}, "s 2"),
    at("so many stops", "to the nearest state at which one stops; N ___ |", {"0.0/0 3.0/16": "times"}, "b 3;c 2"),
    says("the last of some cards", "list 20,30 shows the cards 20 to ___ |", {"30 L29 (A,A,1)": "30", "29 L28 (A,A,1)": "29"}, "list 20,30",
         deck="".join(f"L{it} (A,A,1)\n" for it in range(40))),
    says("stack", "the contents and the ___ that are saved", {"not defined": "definitions", "3 000000000003": "fields"}, "end;stack", deck=STACKED),
    at("quit", "ends the ___, as Ctrl-D does", {"0.0/0 3.0/3": "session", "0.0/0 3.0/3 4.0/7": "run"}, "s;quit;s"),
    says("checkpoints", "at which states copies of the machine are ___, to go back from", {"1 CHECKPOINTS": "kept", "0 CHECKPOINTS": "lost"}, "goto 5000;checkpoints",
         deck="L (A,A,1) L\n"),
]


def verbs(program: str) -> Iterator[Trial]:
    """What verbs do, and which faults there are."""
    yield from all_held(program, MANUAL, VERBS)
    trapped = f"{FIVE} (AN,PD)\n"
    plain, explained = answered(program, "run", trapped), answered(program, "run --explain", trapped)
    marked = re.search(rb"\(AN,PD\)\n +\^+\n", explained.stderr)
    yield held(MANUAL, "--explain", "the cards of the statement with the action ___, and the reason; standard output is the ___.",
               ("marked" if marked else "named", "same" if plain.stdout == explained.stdout else "other"))
    helped = answered(program, "run --help", "").stderr
    yield held(MANUAL, "--help", "Write help: on .Nm , or on the verb ___ it", "before" if b"Usage: l6 run" in helped else "after")
    said = answered(program, "--version", "").stderr.decode()
    yield held(MANUAL, "--version", "Write the version of .Nm , and of the ___ that it writes",
               "images" if re.fullmatch(r"l6 [\d.]+, images of version \d\n", said) else "decks")


def statuses(program: str) -> Iterator[Trial]:
    """What else each exit status means."""
    def ends(command: str, *jobs: str) -> set[int | str]:
        """The statuses of a command with these jobs."""
        return {answered(program, command, it).status for it in jobs}
    good = ends("asm", FIVE) | ends("list", FIVE) | ends("debug", f"{FIVE}$COMMANDS\nshow\n") | ends("check", FIVE)
    rows: list[tuple[str, Words | None]] = [
        ("or the deck that was checked has ___ error. .It 1", "no" if good == {0} else "an"),
        ("or an answer ___ from the one in a trace or is ___, or calls of the trace are ___.", ("differs", "wrong", "missing") if (
            ends("trace", "get a 5 = 1032\nend 1\n", "get a 5 = 1024\nend 2\n") | ends("trace --any-place", "get a 5 = 1025\nend 1\n")) == {1} else None),
        ("The job was refused: its deck, image or trace is ___, or a part of it is too ___. A deck that was checked has ___ error", (
            "faulty", "long", "an") if ends("run", " (A,Q)\n", LONG) | ends("load", "X\n") | ends("trace", "X\n") | ends("check", " (A,Q)\n") == {4} else None),
        ("The command line is wrong, or asks for ___ or for the ___.", ("help", "version") if (
            ends("frob", "") | ends("--help", "") | ends("--version", "")) == {64} else None),
    ]
    for sentence, words in rows:
        yield held(MANUAL, sentence.split(" ___")[0], sentence, words)
    debugger = debugger_beside(program)
    missing = answer_of([debugger, "/nowhere/a.deck"], input=b"").status
    refused = {missing, answered(debugger, "-", " (A,Q)\n").status, answered(debugger, "-", LONG).status}
    yield held(SESSIONS, "which jobs are refused", "its deck has ___, a part of it is too ___, or a file ___ be opened",
               ("errors", "long", "can't") if refused == {4} else None)


def commands(program: str) -> Iterator[Trial]:
    """What commands of a session do."""
    debugger = debugger_beside(program)
    rows = [row._replace(look=lambda it: "yes" if it.stdout.count(b"\n") > 20 else "no") if row.subject.startswith("help") else row for row in COMMANDS]
    yield from all_held(debugger, SESSIONS, rows)
    yield from all_held(debugger, PAGE, IN_PAGE)
    ended = [stops(answered(debugger, "--batch -", f"{DECK}$COMMANDS\n{it}")) for it in ("s\nquit\n", "s\n")]
    yield held(SESSIONS, "the end of a session", "End the session, as the ___ of the input does", "end" if len({*ended}) == 1 else "begin")
    with tempfile.TemporaryDirectory() as folder:
        deck, lines, saved = (Path(folder, it) for it in ("a.deck", "a.lines", "a.saved"))
        deck.write_text(DECK)
        lines.write_text("si\nsi\n")
        sourced = stops(answer_of([debugger, deck], input=f"source {lines}\nrsi\n".encode()))
        answer_of([debugger, deck], input=f"s\ns\nb PUT\nsave {saved}\n".encode())
        again = stops(answer_of([debugger, "--batch", "-x", saved, deck], input=b""))
    order = {"0.0/0 0.1/1 0.2/2 0.1/1": "then", "0.0/0 0.1/1 0.0/0": "first"}.get(sourced)
    yield held(PAGE, "source", "obeys the lines of a file, and ___ those that follow", order)
    yield held(SESSIONS, "source", "Obey the lines of a ___. The commands", "file" if order else "session")
    lead = "new" if again.endswith("4.0/7") else "old"
    yield held(PAGE, "save", "the commands that lead a ___ session to where this one is, with its ___,", (lead, "breakpoints"))
    yield held(SESSIONS, "save", "Show the commands that lead a ___ session to this one, or write them into the ___.", (lead, "file"))
    placed = seen_of(debugger, "--batch -", f"{DECK}$COMMANDS\nignore 3\n")
    yield held(SESSIONS, "what is no command here", "Nothing: it is said what ___ in their place", "serves" if "continue N" in placed else "fails")


def manual_sentences(program: str) -> Iterator[Trial]:
    """All of them."""
    for group in (verbs, statuses, commands):
        yield from group(program)


# Each group, and a sentence of it that is turned round.
TURNED = [
    (verbs, MANUAL, "Get a block of at least so many words", "Get a block of at most so many words"),
    (statuses, SESSIONS, "its deck has errors", "its deck has warnings"),
    (commands, SESSIONS, "The calls that wait, in at most", "The calls that wait, in at least"),
]
