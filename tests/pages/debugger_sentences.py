"""What docs/debugger.md and docs/l6.1 say of `l6 debug` in words: sessions show which words are right."""
from __future__ import annotations

from collections.abc import Iterator

from held import all_held, answered, held, told
from option_lists import debugger_beside
from trials import Trial

PAGE, MANUAL = "docs/debugger.md", "docs/l6.1"
STATES, STRIDE = 100_000, 4_096  # states that a session goes to, and from one checkpoint to the next
FIVE = " (A,E,5)(A,PD)\n"
LOOP = "LOOP (A,A,1)\n IF (A,L,3) THEN LOOP\n"
NONE = "?? NOT A COMMAND"
SHOWN = "CONTENTS 0 DEFINITIONS 0 RETURNS 0 INPUT 0 OUTPUT 0"
FIELDS = " (0,DB,0,1)(0,D9,0,2)(0,DA,0,3)(0,D0,0,4)\n"
BLOCKS = " (C,GT,1)(A,GT,2)(B,E,A)\n"
TRAP = " (A,E,7)(B,V,0)\n"
OUTSIDE = " (1,DN,0,35)(0,DM,0,35)(A,GT,1)(B,GT,1)(S,FC,B)(B,E,0)\n"


def session(deck: str, *commands: str) -> str:
    """A job with these commands, and without an input."""
    return f"{deck}$COMMANDS\n" + "".join(f"{it}\n" for it in commands)


JOBS = [
    told("a job without commands",
         "or has it only ___ $INPUT, then it has no commands: ___ is answered, and the exit status is 0",
         {"- | - | AT 0.1 AFTER 1 STEPS": ("after", "nothing"), "- | AT 0.1 AFTER 1 STEPS | -": ("before", "nothing")}, FIVE,
         f"{FIVE}$INPUT\n$COMMANDS\nstep 1\n", f"{FIVE}$COMMANDS\nstep 1\n$INPUT\n", command="debug"),
    told("a step that traps",
         "A step that traps leads to a state, too, but it is ___ counted, so the count shown is the ___ as before; the "
         "ending line ___ the two states",
         {"AT 0.2 AFTER 2 STEPS == TRAP 5 ZERO DIVISOR AT 0.2 AFTER 2 STEPS AT 0.2 AFTER 2 STEPS":
             ("not", "same", "distinguishes")}, session(TRAP, "step 2", "step 1", "back 1"), command="debug",
         look=lambda answer: " ".join(answer.stdout.decode().split())),
    told("the start", "At the start of a session, state ___ is shown and ___ breakpoint is set",
         {f"AT 0.0 AFTER 0 STEPS {SHOWN}": ("0", "no"), f"AT 0.1 AFTER 1 STEPS {SHOWN}": ("1", "no")},
         session(FIVE, "show", "go"), command="debug"),
    told("letters and blanks", "words separated by blanks or tabs, with letters of ___ case",
         {"AT 0.1 AFTER 1 STEPS AT 0.2 AFTER 2 STEPS": "either", f"AT 0.1 AFTER 1 STEPS {NONE}": "lower"},
         session(FIVE, " step \t1 ", "StEP 1"), command="debug"),
    told("lines without words",
         "A line without words is ___. quit or the end of the commands ends the session, and has ___ answer",
         {"AT 0.1 AFTER 1 STEPS": ("skipped", "no"), f"{NONE} AT 0.1 AFTER 1 STEPS": ("refused", "no")},
         session(FIVE, "", " ", "step 1", "quit", "step 1"), command="debug"),
    told("carriage returns", "A carriage return at a line's end does ___ count",
         {"AT 0.1 AFTER 1 STEPS": "not", NONE: "also"}, session(FIVE, "step 1\r"), command="debug"),
    told("words that are missing", "So step ___ a number, help, and break LOOP ___ a label are answered ?? NOT A COMMAND",
         {" ".join([NONE] * 3): ("without", "with")}, session(LOOP, "step", "help", "break LOOP"), command="debug"),
    told("a line that is no command", "A line that is not a command changes ___",
         {f"AT 0.1 AFTER 1 STEPS {NONE} AT 0.2 AFTER 2 STEPS": "nothing",
          f"AT 0.1 AFTER 1 STEPS {NONE} AT 0.1 AFTER 1 STEPS": "the state"}, session(FIVE, "step 1", "hop", "step 1"),
         command="debug"),
]
COMMANDS = [
    told("step", "goes n states on, at most to the ___ one;",
         {"AT 0.1 AFTER 1 STEPS": "last"}, session(FIVE, "step 1", "step 9"), command="debug"),
    told("back", "goes n states back, at most to the ___;",
         {"AT 0.2 AFTER 2 STEPS AT 0.1 AFTER 1 STEPS AT 0.0 AFTER 0 STEPS": "start"},
         session(FIVE, "step 2", "back 1", "back 9"), command="debug"),
    told("go", "goes to the first ___ state that is at the ___ of a statement with a breakpoint, else to the ___ one",
         {"BREAK AT 0 AT 0.0 AFTER 5 STEPS AT 0.0 AFTER 10 STEPS": ("later", "condition", "last"),
          "BREAK AT 0 AT 0.0 AFTER 0 STEPS": ("earlier", "condition", "last")}, session(LOOP, "break 0", "go", "go", "go"),
         command="debug"),
    told("go from a breakpoint",
         "It always goes ___: if the state is already at a breakpoint, it goes to the ___ time that one is reached",
         {"BREAK AT 0 AT 0.0 AFTER 5 STEPS AT 0.0 AFTER 10 STEPS": ("on", "next"),
          "BREAK AT 0 AT 0.0 AFTER 0 STEPS": ("back", "first")}, session(LOOP, "break 0", "go", "go"), command="debug"),
    told("go without a breakpoint", "If there is ___ breakpoint ahead, go goes to the ___ of the run: here a trap",
         {"BREAK AT 0 CLEARED 0 TRAP 5": ("no", "end"), "BREAK AT 0 CLEARED 0 AT 0.0 AFTER 0 STEPS": ("no", "start")},
         session(TRAP, "break 0", "clear 0", "go"), command="debug"),
    told("clear", "removes the breakpoint of statement s: CLEARED s, ___ if it had ___",
         {"CLEARED 0": ("even", "none"), NONE: ("only", "one")}, session(FIVE, "clear 0"), command="debug"),
    told("a statement that there is not", "If there is ___ statement s, break and clear answer ?? NO SUCH STATEMENT",
         {"BREAK AT 1 ?? NO SUCH STATEMENT ?? NO SUCH STATEMENT": "no"}, session(FIVE, "break 1", "break 2", "clear 2"),
         command="debug"),
    told("the added DONE", "the DONE that is added to every deck is the ___, and ___ have a breakpoint",
         {"BREAK AT 1 AT 1.0 AFTER 4 STEPS": ("last", "can"), "?? NO SUCH STATEMENT": ("last", "can't")},
         session(FIVE, "break 1", "go"), command="debug"),
    told("the bugs that show shows", "the line of the state; the bugs that are ___ 0; how much is saved",
         {f"AT 0.2 AFTER 2 STEPS AT 0.2 AFTER 2 STEPS A 000000000005 5 {SHOWN}": "not"},
         session(" (A,E,5)(B,E,0)\n", "step 2", "show"), command="debug"),
    told("fields and blocks that there are not", "the fields that are ___, or NO FIELDS",
         {"NO FIELDS AT 0.2 AFTER 2 STEPS N 0 0 5": "defined"}, session(" (0,DN,0,5)\n", "fields", "step 2", "fields"),
         command="debug"),
    told("where a block begins", "the words of the block that ___ at place p, or NO BLOCK AT p",
         {"BLOCK 1024 SIZE 2 0 000000000000 1 000000000000 NO BLOCK AT 1025": "begins",
          "NO BLOCK AT 1024 BLOCK 1024 SIZE 2 0 000000000000 1 000000000000": "ends"},
         session(" (A,GT,2)\n", "go", "block 1024", "block 1025"), command="debug"),
    told("the order of what is shown",
         "Bugs are listed in the order of their ___, fields from ___ to ___ and then from ___ to ___, and blocks in the "
         "order of their ___",
         {"0 0 0 4 9 0 0 2 A 0 0 3 B 0 0 1 | A -> 1026 B -> 1026 C -> 1024 BLOCK 1024 SIZE 1 BLOCK 1026 SIZE 2 2 BLOCKS":
             ("letters", "0", "9", "A", "Z", "places")}, session(FIELDS, "go", "fields"), session(BLOCKS, "go", "draw"),
         command="debug"),
    told("store", "each block and each run of ___ words, in the order of their ___ |",
         {"1024 BLOCK 1 1025 FREE 1 1026 BLOCK 2 1028 FREE 8188 3 WORDS USED 8189 FREE": ("free", "places")},
         session(BLOCKS, "go", "store"), command="debug"),
    told("fields outside a block",
         "A field whose word is ___ a block has ___ arrow there, and places that are saved on the pushdown lead ___",
         {"A -> 1024 BLOCK 1024 SIZE 1 1 BLOCKS": ("outside", "no", "nowhere")}, session(OUTSIDE, "go", "draw"),
         command="debug"),
    told("what draw counts", "The last line counts the blocks that are ___",
         {"A -> 1024 BLOCK 1024 SIZE 1 1 BLOCKS | 1024 BLOCK 1 1025 BLOCK 1 LOST 1026 FREE 8190 2 WORDS USED 8190 FREE":
             "reached"}, session(OUTSIDE, "go", "draw"), session(OUTSIDE, "go", "store"), command="debug"),
    told("a block that is lost", "block shows the words of a block, ___ of a ___ one: the number of each",
         {"BLOCK 1025 SIZE 1 0 000000000000": ("even", "lost"), "NO BLOCK AT 1025": ("but not", "lost")},
         session(OUTSIDE, "go", "block 1025"), command="debug"),
    told("from where blocks are reached", "draw draws what the program can still reach: from its ___, along its ___",
         {"A -> 1024 BLOCK 1024 SIZE 1 N -> 1025 BLOCK 1025 SIZE 1 2 BLOCKS": ("bugs", "fields")},
         session(" (0,DN,0,35)(A,GT,1)(AN,GT,1)\n", "go", "draw"), command="debug"),
    told("a lost block", "The block at 1028 is lost, which is a memory leak: draw does ___ reach it",
         {"A -> 1024 BLOCK 1024 SIZE 1 1 BLOCKS": "not"}, session(OUTSIDE, "go", "draw"), command="debug"),
    told("numbers of states", "the start has the number 0, and each step leads to the ___ one",
         {"AT 0.1 AFTER 1 STEPS AT 0.2 AFTER 2 STEPS": "next"}, session(FIVE, "step 1", "step 1"), command="debug"),
    told("the output", "A line feed that is ___ counted follows, if the output is ___ empty and does ___ end in one",
         {"OUTPUT 0 BYTES/AT 0.2 AFTER 2 STEPS/OUTPUT 1 BYTES/0/== DONE AFTER 6 STEPS/OUTPUT 2 BYTES/0/":
             ("not", "not", "not")}, session(" (A,PD)(PL)\n", "out", "step 2", "out", "go", "out"), command="debug",
         look=lambda answer: "/".join(answer.stdout.decode().split("\n"))),
    told("the state before a trap", "The state before the trap has the ___ count",
         {"TRAP 5 AT 0.2 AFTER 2 STEPS": "same", "TRAP 5 AT 0.2 AFTER 1 STEPS": "lesser"}, session(TRAP, "go", "back 1"),
         command="debug"),
    told("a run that goes on from there",
         "A run that goes on from there is the ___ again: the store gives the ___ places, and the input is read again from "
         "the ___ character on",
         {"AT 0.5 AFTER 5 STEPS OUTPUT 5 BYTES 1024A AT 0.0 AFTER 0 STEPS AT 0.5 AFTER 5 STEPS OUTPUT 5 BYTES 1024A":
             ("same", "same", "same")},
         session(" (A,GT,1)(A,PD)(B,IN,1)(B,PR,1)\n", "step 5", "out", "back 9", "step 5", "out", "$INPUT", "AB"),
         command="debug"),
]
IN_MANUAL = [
    told("go", "Go to the ___ statement with a breakpoint, or to the ___ of the run",
         {"BREAK AT 0 AT 0.0 AFTER 5 STEPS AT 0.0 AFTER 10 STEPS": ("next", "end")}, session(LOOP, "break 0", "go", "go", "go"),
         command="debug"),
    told("step and back", "Go .Ar n states ___. .It Ic back Ar n Go .Ar n states ___.",
         {"AT 0.2 AFTER 2 STEPS AT 0.1 AFTER 1 STEPS": ("forward", "back"),
          "AT 0.0 AFTER 0 STEPS AT 0.1 AFTER 1 STEPS": ("back", "forward")}, session(FIVE, "step 2", "back 1"),
         command="debug"),
    told("break and clear", "Ic break Ar s ___ a breakpoint at statement .Ar s . .It Ic clear Ar s ___ the breakpoint",
         {"BREAK AT 0 CLEARED 0": ("Set", "Remove")}, session(FIVE, "break 0", "clear 0", "go"), command="debug"),
    told("show", "Show the bugs that are ___ 0, and how much has been saved",
         {f"AT 0.2 AFTER 2 STEPS AT 0.2 AFTER 2 STEPS A 000000000005 5 {SHOWN}": "not"},
         session(" (A,E,5)(B,E,0)\n", "step 2", "show"), command="debug"),
    told("lost blocks", "Show each block and each run of ___ words, and which blocks are ___",
         {"1024 BLOCK 1 1025 BLOCK 1 LOST 1026 FREE 8190 2 WORDS USED 8190 FREE": ("free", "lost")},
         session(OUTSIDE, "go", "store"), command="debug"),
    told("separators", "Only the ___ such line counts, and only if it is ___ .Li $INPUT",
         {f"AT 0.1 AFTER 1 STEPS {NONE} AT 0.2 AFTER 2 STEPS | -": ("first", "before")},
         session(FIVE, "step 1", "$COMMANDS", "step 1"), f"{FIVE}$INPUT\n$COMMANDS\nstep 1\n", command="debug"),
    told("action 0", "action 0 is the ___. .It",
         {"AT 0.1 AFTER 1 STEPS": "condition"}, session(" IF (A,E,0) THEN (A,PD)\n", "step 1"), command="debug"),
    told("a block that is lost",
         "A block that nothing leads to any more is lost, and is ___ freed by itself; .Ic ___ of the debugger shows it",
         {"1024 BLOCK 1 1025 BLOCK 1 LOST 1026 FREE 8190 2 WORDS USED 8190 FREE": ("never", "store")},
         session(OUTSIDE, "go", "store"), command="debug"),
]


def jobs_of_sessions(program: str) -> Iterator[Trial]:
    """The parts of a job, states, and lines of commands."""
    yield from all_held(program, PAGE, JOBS)


def commands_of_sessions(program: str) -> Iterator[Trial]:
    """What each command does."""
    yield from all_held(program, PAGE, COMMANDS)
    yield from all_held(program, MANUAL, IN_MANUAL)


def checkpoints(program: str) -> Iterator[Trial]:
    """Which checkpoints are kept, by what l6db shows of them: both debuggers have the same history of a run."""
    job = f"L (A,A,1) L\n$COMMANDS\ngoto {STATES}\ncheckpoints\n"
    kept = [int(it) for it in answered(debugger_beside(program), "--batch -", job).stdout.decode().split() if it.isdecimal()]
    ends = STRIDE in kept, STATES // STRIDE * STRIDE in kept
    words = {(False, True): ("newest", "oldest"), (True, False): ("oldest", "newest")}.get(ends)
    yield held(PAGE, "which checkpoints are kept", "then the ___ one replaces the ___", words)
    each = "each" if is_each(kept) else None
    yield held(PAGE, "where checkpoints are", "a checkpoint, is kept at ___ state whose number is a multiple of", each)


def is_each(kept: list[int]) -> bool:
    """Whether of the multiples from one on each is kept."""
    numbers = [it for it in kept if it and it % STRIDE == 0]
    return numbers == [*range(numbers[0], numbers[-1] + 1, STRIDE)] if numbers else False


def debugger_sentences(program: str) -> Iterator[Trial]:
    """All of them."""
    for group in (jobs_of_sessions, commands_of_sessions, checkpoints):
        yield from group(program)


# Each group, and a sentence of it that is turned round.
TURNED = [
    (jobs_of_sessions, PAGE, "with letters of either case", "with letters of lower case"),
    (commands_of_sessions, PAGE, "on the pushdown lead nowhere", "on the pushdown lead there"),
    (checkpoints, PAGE, "the newest one replaces the oldest", "the oldest one replaces the newest"),
]
