"""What docs/language.md says of runs, jobs and the words of the command line: runs and sessions show which words are right."""
from __future__ import annotations

import re
import tempfile
from collections.abc import Iterable, Iterator

from answers import Answer, answer_of
from held import all_held, answered, held, seen_of, streams, told
from page_tables import plain, spans_of, table_with, text_of
from trials import Trial

LANGUAGE, SUMMARY, MANUAL = "docs/language.md", "docs/summary.md", "docs/l6.1"
FIVE = " (A,E,5)(A,PD)\n"
LONG = f"{FIVE}$INPUT\n{'A' * (1 << 20)}A\n"  # a job whose input is too long
SHOWN = "CONTENTS 0 DEFINITIONS 0 RETURNS {} INPUT 0 OUTPUT 0"
CALLS = " (X,DO,W)(A,PD) FAIL\nX (Y,DO,W)(B,PD) DONE\nY DONE\nW (C,PD)\n$COMMANDS\n"
REFUSED = "card 2: no reading"


def written(answer: Answer[bytes]) -> str:
    """What went to standard output, with a mark for each end of a line."""
    return "/".join(answer.stdout.decode().split("\n"))


RUNS = [
    told("action 0", "Action 0 is the statement's ___, actions 1 to k are its k ___, and action k + 1 is its ___",
         {"AT 1.0 AFTER 1 STEPS AT 1.1 AFTER 2 STEPS AT 1.2 AFTER 3 STEPS AT 2.0 AFTER 4 STEPS":
             ("condition", "operations", "exit")},
         " IF (A,E,1) THEN (A,PD)\n (A,PD)\n$COMMANDS\nstep 1\nstep 1\nstep 1\nstep 1\n", command="debug"),
    told("what follows an action",
         "After a condition that is ___ and after an operation, the ___ action follows; after a condition that is ___ true, "
         "the ___ statement;",
         {"AT 0.1 AFTER 1 STEPS AT 0.2 AFTER 2 STEPS AT 1.0 AFTER 3 STEPS AT 2.0 AFTER 4 STEPS":
             ("true", "next", "not", "next")},
         " IF (A,E,0) THEN (A,PD)\n IF (A,E,1) THEN (A,PD)\n$COMMANDS\nstep 1\nstep 1\nstep 1\nstep 1\n", command="debug"),
    told("a return and the end",
         "DONE goes to the action ___ the ___ call that waits, and FAIL to its fail label; that call then ___ waits. If ___ "
         "waits, DONE and FAIL end the run",
         {f"AT 2.1 AFTER 5 STEPS AT 1.2 AFTER 6 STEPS AT 1.2 AFTER 6 STEPS {SHOWN.format(1)} FAIL":
             ("after", "latest", "no longer", "none"),
          f"AT 2.1 AFTER 5 STEPS AT 0.2 AFTER 6 STEPS AT 0.2 AFTER 6 STEPS {SHOWN.format(1)} FAIL":
             ("after", "first", "no longer", "none")}, f"{CALLS}step 5\nstep 1\nshow\ngo\n", command="debug"),
    told("a step that traps", "A step that traps changes ___ but the ending, and is ___ counted",
         {f"TRAP 5 TRAP 5 A 000000000007 7 {SHOWN.format(0)} AT 0.2 AFTER 2 STEPS": ("nothing", "not"),
          f"TRAP 5 TRAP 5 A 000000000007 7 {SHOWN.format(0)} AT 0.2 AFTER 1 STEPS": ("nothing", "also")},
         " (A,E,7)(B,V,0)\n$COMMANDS\ngo\nshow\nback 1\n", command="debug"),
    told("a run at its limit",
         "A run that has ___ ended is stopped when its count of steps reaches its limit. A run that ends with its last step "
         "has ___",
         {"5 | 5 LIMIT": ("not", "ended"), "5 LIMIT | 5 LIMIT": ("not", "stopped")}, FIVE,
         " (A,E,5)(A,E,5)(A,E,5)(A,E,5)(A,PD)\n", command="run --steps 6"),
    told("trap 12", "FAIL returns from a call ___ a fail label; the call ___ on",
         {f"TRAP 12 TRAP 12 {SHOWN.format(1)}": ("without", "waits"),
          f"TRAP 12 TRAP 12 {SHOWN.format(0)}": ("without", "goes")}, " (X,DO)\nX FAIL\n$COMMANDS\ngo\nshow\n",
         command="debug"),
    told("trap 14", "the output would pass its limit; the operation then prints ___",
         {"000000000000 TRAP 14": "nothing", "00000000000000 TRAP 14": "some"}, " (A,PO)(A,PO)\n", command="run --output 14"),
    told("what is printed", "The output of the run; a line feed, if the output is ___ empty and does ___ end in one",
         {"0/== DONE AFTER 5 STEPS/ | 0/== DONE AFTER 6 STEPS/ | == DONE AFTER 2 STEPS/": ("not", "not"),
          "0/== DONE AFTER 5 STEPS/ | 0//== DONE AFTER 6 STEPS/ | == DONE AFTER 2 STEPS/": ("not", "also")}, " (A,PD)\n",
         " (A,PD)(PL)\n", "", look=written),
]
JOBS = [
    told("the separator line",
         "The separator line reads $INPUT, beginning in column 1 and with ___ but blanks after it, to the end of the line "
         "and ___ only to column 72; small letters and tabs are read as ___",
         {f"0 | {REFUSED} | {REFUSED} | {REFUSED}": ("nothing", "not", "anywhere"),
          f"0 | 0 | {REFUSED} | {REFUSED}": ("nothing", "also", "anywhere")}, " (A,PD)\n$input\t \n \n",
         f" (A,PD)\n$INPUT{' ' * 80}X\n", " (A,PD)\n $INPUT\n", " (A,PD)\n$INPUT X\n"),
    told("which line separates", "Only the ___ such line separates: a ___ one is a line of the ___.",
         {"X $INPUT": ("first", "later", "input"), REFUSED: ("last", "earlier", "deck")},
         f" (A,IN,1)(A,PR,1)(PL){'(A,IN,6)' * 6}\n+{'(A,IN,6)' * 7}\n+(A,IN,1)(A,IN,6)(A,PR,6)\n$INPUT\nX\n$INPUT\n"),
    told("a job without a separator", "A job ___ a separator line is a deck with an ___ input",
         {"NO | YES": ("without", "empty")}, " (A,IN,1,X)(YES,PH) DONE\nX (NO,PH)\n",
         " (A,IN,1,X)(YES,PH) DONE\nX (NO,PH)\n$INPUT\n\n"),
    told("the separator of commands", "Their separator line is the ___ line that reads $COMMANDS and is ___ a line $INPUT",
         {"AT 0.1 AFTER 1 STEPS ?? NOT A COMMAND AT 0.2 AFTER 2 STEPS | -": ("first", "before"),
          "AT 0.1 AFTER 1 STEPS | AT 0.1 AFTER 1 STEPS": ("last", "after")}, f"{FIVE}$COMMANDS\nstep 1\n$COMMANDS\nstep 1\n",
         f"{FIVE}$INPUT\n$COMMANDS\nstep 1\n", command="debug"),
    told("that line for other verbs", "For the other verbs such a line does ___ separate",
         {f"{REFUSED} | 5": "not", "5 | 5": "also"}, f"{FIVE}$COMMANDS\nstep 1\n", FIVE),
    told("where a fault goes", "A fault goes to standard ___ as ___ line, and ___ goes to standard output",
         {"error 4 | error 4": ("error", "one", "nothing"), "output 4 | output 4": ("output", "one", "nothing")}, " (A,Q,1)\n",
         " (A,PD)\n X\n", look=streams),
]
HELPS, WRONG = ("--help", "run --help", "--version"), ("nothing", "run --stor 5", "run my.deck")
WRITTEN = {"error 64": "error", "output 0": "output"}
IMAGE = [  # of FIVE, in the first version
    "542651554721", "000000000002", "000000000007", "000020000000", "013077000000", "127777777777", "000000000005", "312077000000",
    "127777777777", "000002000000",
]
SEVERAL = {  # what a verb may be given
    "session": f"{FIVE}$COMMANDS\nstep 1\n", "deck": FIVE, "image": "".join(f"{it}\n" for it in IMAGE),
    "trace": "get a 5 = 1024\nend 1\n",
}
# By what a verb takes and how its answer begins: what is said of it in the manual, on the sheet and in the manual page.
SAID = {
    "deck 5": ("runs the deck with the input", "runs a deck", "Run the deck with the input"),
    "deck 1": ("writes the deck's listing", "writes the listing", "Write the listing of the deck"),
    "deck 0": ("says what is wrong with the deck", "says what is wrong with a deck", "Say what is wrong with the deck"),
    "deck 542651554722": ("writes the deck's image", "writes the image", "Write the image of the deck"),
    "image 5": ("runs the image that is in the deck's place", "runs an image", "Run an image with the input"),
    "image 542651554722": ("rewrites the image that is in the deck's place", "rewrites an image", "Rewrite an image"),
    "session AT": ("obeys commands that show the states", "obeys the commands", "Obey commands that show the states"),
    "trace get": ("answers the calls of an allocator's trace", "answers an allocator's trace", "Do the calls of an allocator's"),
}


def runs(program: str) -> Iterator[Trial]:
    """What happens in a run, and what is printed."""
    yield from all_held(program, LANGUAGE, RUNS)


def parts_of_jobs(program: str) -> Iterator[Trial]:
    """Which lines part a job, and what a fault writes."""
    yield from all_held(program, LANGUAGE, JOBS)
    ignored = [verb for verb in ("run", "list", "check", "asm", "load", "debug") if "too long" not in seen_of(program, verb, LONG)]
    ignored += [verb for verb in ("renew",) if "too long" not in seen_of(program, verb, SEVERAL["image"] + LONG[len(FIVE):])]
    do = "ignore" if ignored == ["list", "check", "asm", "renew"] else None
    yield held(LANGUAGE, "verbs that ignore the input", "list, check, asm and renew ___ the input", do)
    of_image = answered(program, "load", SEVERAL["image"])
    same = [verb for verb in ("list", "run", "asm") if answered(program, verb, FIVE) == of_image]
    yield held(LANGUAGE, "what load prints", "What load prints for a deck's image is what ___ prints for the deck", " ".join(same))


def words(program: str) -> Iterator[Trial]:
    """What help and wrong words write, and what is read then."""
    helped, refused = (written_by(program, commands) for commands in (HELPS, WRONG))
    yield held(LANGUAGE, "where help goes", "l6 --help, l6 run --help and l6 --version answer on standard ___.", helped)
    sentence = "If the words of the command line are wrong, standard ___ says why. After help and after wrong words ___ is read"
    yield held(LANGUAGE, "wrong words", sentence, (refused, " ".join({read_by(program, it) for it in (*HELPS, *WRONG)})))
    options = ("--steps 6", "--steps=6", "--steps 6 --steps 6", "--step 6", "--steps +6")
    *ended, plus = [answered(program, f"run {it}", FIVE).status for it in options]
    given = {"0 0 64 64": ("once", "whole"), "0 0 0 0": ("often", "short")}.get(" ".join(map(str, ended)))
    yield held(LANGUAGE, "how options are given", "Each may be given ___, by its ___ name", given)
    yield held(LANGUAGE, "how a number begins", "A number ___ begin with +", "may" if plus == 0 else "may not")


def written_by(program: str, commands: Iterable[str]) -> str:
    """To which output all of these commands write."""
    return " ".join({WRITTEN.get(seen_of(program, it, FIVE, look=streams), "") for it in commands})


def read_by(program: str, command: str) -> str:
    """How much of a job is read by a command."""
    with tempfile.TemporaryFile() as job:
        job.write(FIVE.encode())
        job.seek(0)
        answer_of([program, *command.split()], stdin=job)
        return {0: "nothing", len(FIVE): "all"}.get(job.seek(0, 1), "a part")


def verbs(program: str) -> Iterator[Trial]:
    """What each verb takes, and what it answers."""
    tables = table_with(text_of(LANGUAGE), "Words", "What is done"), table_with(text_of(SUMMARY), "Command", "What it does")
    told_of = [{spans_of(row[0])[0].split()[1]: plain(row[1]) for row in table.rows} for table in tables]
    told_of.append(dict(re.findall(r"\.It Cm (\w+) (.*?)\.", plain(text_of(MANUAL)).partition("The verbs are")[2])))
    for verb in told_of[0]:
        taken = next((kind for kind, job in SEVERAL.items() if answered(program, verb, job).status == 0), "nothing")
        begins = seen_of(program, verb, SEVERAL.get(taken, "")).split()[0]
        for page, found, said in zip((LANGUAGE, SUMMARY, MANUAL), told_of, SAID.get(f"{taken} {begins}", ("", "", ""))):
            yield f"{page}: what {verb} does", said or None, found.get(verb, "")[:len(said)]


def job_sentences(program: str) -> Iterator[Trial]:
    """All of them."""
    for group in (runs, parts_of_jobs, words, verbs):
        yield from group(program)


# Each group, and a sentence of it that is turned round.
TURNED = [
    (runs, LANGUAGE, "but the ending, and is not counted", "but the ending, and is also counted"),
    (parts_of_jobs, LANGUAGE, "Only the first such line separates", "Only the last such line separates"),
    (words, LANGUAGE, "after wrong words nothing", "after wrong words all"),
    (verbs, MANUAL, "Run an image with", "Rewrite an image with"),
]
