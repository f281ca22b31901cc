"""What docs/language.md says of characters, items, chains, each step, traps and faults: decks show which words are right."""
from __future__ import annotations

from collections.abc import Iterator

from answers import Answer
from held import all_held, told
from trials import Trial

LANGUAGE = "docs/language.md"
REFUSED = "card 1: no reading"
FIELD = " (0,DN,0,35)"
SUB = " (A,GT,1024)"  # all of a store of one unit


def named_labels(answer: Answer[bytes]) -> str:
    """The labels of a listing."""
    return " ".join(line.split()[0] for line in answer.stdout.decode("latin-1").partition("LABELS\n")[2].splitlines())


def last_header(answer: Answer[bytes]) -> str:
    """The last word of an image."""
    return answer.stdout.decode("ascii").split()[-1]


def bug_and_steps(answer: Answer[bytes]) -> str:
    """How a session's run ended, the bug that is shown, and after how many steps that was."""
    ending, bug = (line.split() for line in answer.stdout.decode("ascii").splitlines()[1:3])
    return " ".join([*ending[1:3], *bug, ending[-2]])


def status(answer: Answer[bytes]) -> str:
    """The exit status, and whether something is on standard output."""
    return f"{answer.status} {'written' if answer.stdout else 'silent'}"


CHARACTERS = [
    told("codes", "A character's code is its ASCII code ___ 32", {"33": "less", "97": "plus"}, " (A,EH,A)(A,PD)\n"),
    told("what a text denotes", "denotes a word: the number whose digits to base ___ are the characters' codes",
         {"2146": "64", "1090": "32"}, " (A,EH,AB)(A,PD)\n"),
    told("bugs", "words, named by a ___: the registers of the language",
         {f"5 | {REFUSED}": "letter", f"{REFUSED} | 5": "digit"}, " (A,E,5)(A,PD)\n", " (1,E,5)(1,PD)\n"),
    told("the bytes of a comment", "a comment; the rest of the card may have ___ bytes",
         {"A": "any", REFUSED: "few"}, "*\x80(\xff\n (A,PH)\n"),
    told("no labels", "It has 1 to 6 characters, and is ___ DONE ___ FAIL",
         {f"{REFUSED} | {REFUSED} | A": ("not", "or")}, "DONE (PL)\n", "FAIL (PL)\n", "DONES (A,PH)\n"),
    told("a body without a blank", "no blank is needed, so X(PL) has the label ___",
         {"X": "X", "": "none"}, "X(PL)\n", command="list", look=named_labels),
]
ITEMS = [
    told("a group", "from a ( to the ___ ) on the ___ card, ___ another ( between",
         {f"AB | {REFUSED} | {REFUSED}": ("next", "same", "without")}, " (A,PH)(B,PH)\n", " (A,\n+PH)\n", " (A,(PH)\n"),
    told("a word", "or the whole body if it has no group, with its blanks ___ |",
         {"A": "removed", "A B": "kept"}, " (A,PH) D O N E\n (B,PH)\n"),
    told("blanks of a word", "so D O N E is the word ___, and THEN LAST is the ___ word THENLAST",
         {"A | B": ("DONE", "one"), f"A | {REFUSED}": ("DONE", "first")}, " (A,PH) D O N E\n (B,PH)\n",
         " IF (A,E,0) THEN LAST\n (A,PH)\nLAST (B,PH)\n"),
    told("the order of items", "The items of a statement are those of its cards, in ___. They have",
         {"AB": "order", "BA": "reverse"}, " (A,PH)\n+(B,PH)\n"),
    told("the condition word", "If the first item is a word and a group ___ it, that word is the condition word",
         {f"AB | B | {REFUSED}": "follows"}, " IF (A,E,0) THEN (A,PH)\n (B,PH)\n", " IF\n (A,PH)\nIF (B,PH)\n", " X (A,PH)\nX (B,PH)\n"),
    told("a word after the tests", "If that word has more characters, they are the ___, and ___ follows",
         {f"B | {REFUSED}": ("exit", "nothing"), "B | AB": ("exit", "more")},
         " IF (A,E,0) THEN X\n (A,PH)\nX (B,PH)\n", " IF (A,E,0) THEN X (A,PH)\nX (B,PH)\n"),
    told("operations after THEN", "Otherwise operations may ___, and ___ exit after them",
         {"AB | card 2: no reading": ("follow", "one"), f"{REFUSED} | AB": ("precede", "one"), "AB | AB": ("follow", "an")},
         " IF (A,E,0) THEN (A,PH) X\n (C,PH)\nX (B,PH)\n", " IF (A,E,0) THEN (A,PH) X\n+(C,PH) X\nX (B,PH)\n"),
    told("nothing after an exit", "An exit is a label, DONE or FAIL. ___ follows it",
         {f"{REFUSED} | {REFUSED} | {REFUSED}": "Nothing"}, " DONE (A,PH)\n", " FAIL (A,PH)\n", "X X (A,PH)\n"),
    told("elements", "The elements of a group are its parts ___ commas", {"5": "between", REFUSED: "without"}, " (A,E,5)(A,PD)\n"),
    told("what decides how a group is read", "The number of elements of a group, and its ___ element, decide how it is read",
         {"AT 0.2 AFTER 2 STEPS O 0 1 2": "second", "AT 0.2 AFTER 2 STEPS NO FIELDS": "first"},
         " (0,DO,1,2)\n$COMMANDS\nstep 2\nfields\n", command="debug"),
]
READING = [
    told("the first name of a chain", "names, the first a ___. A chain of one name leads to that bug",
         {f"- | {REFUSED}": "letter", f"{REFUSED} | -": "digit"}, f"{FIELD}(A,GT,1)(B,E,AN)\n", " (0,DA,0,35)(B,E,1A)\n"),
    told("an undefined name", "the name must be defined, else the step traps ___;", {"TRAP 1": "1"}, " (A,GT,1)(B,E,AN)\n"),
    told("no block at a pointer", "a block must begin at the pointer, else it traps ___:", {"TRAP 2": "2"}, f"{FIELD}(B,E,AN)\n"),
    told("a word outside of the block", "the field's word must lie in that block, else it traps ___.", {"TRAP 3": "3"},
         " (1,DN,0,35)(A,GT,1)(B,E,AN)\n"),
    told("what a trap does", "What can't be done is a trap: it has a number, and it ___ the run",
         {"A TRAP 2": "ends", "AB": "warns of"}, " (A,PH)(A,FR)(B,PH)\n"),
    told("words of a block are counted", "a window on one word of a block: the number of the word, counted from ___, and its",
         {"5 TRAP 3": "0", "TRAP 3": "1"}, " (0,DN,0,35)(1,DM,0,35)(A,GT,1)(AN,E,5)(AN,PD)(PL)(AM,PD)\n"),
    told("what is read", "To read a chain is to take the ___ of what it leads to: the bits of its window, as a ___",
         {"7": ("content", "number"), "1024": ("place", "number")}, " (0,DN,33,35)(A,GT,1)(AN,E,7)(AN,PD)\n"),
    told("the added statement", "The last one is the plain DONE: ___ condition, ___ operation, the exit ___",
         {"000002000000": ("no", "no", "DONE"), "000003000000": ("no", "no", "FAIL")}, " (A,PD)\n", command="asm", look=last_header),
    told("a label in an exit and in a group", "A label denotes the number of the statement that has it, in an exit and in a group ___",
         {"BC | BC": "alike", "BC | TRAP 12": "apart"}, " X\nX (B,PH)(C,PH)\n", " (X,DO) DONE\nX (B,PH)(C,PH)\n"),
]
PARTS = [
    told("a duplicate's parts", "___ c and reads cd (trap ___ if no block begins there); gets a block of the same size",
         {"TRAP 1 | TRAP 2": ("locates", "2"), "TRAP 2 | TRAP 2": ("reads", "2")}, " (AN,DP,5)\n", " (A,DP,5)\n"),
    told("a duplicate without a place", "If no place is open the run goes to L, or traps ___ |", {"TRAP 7": "7"}, f"{SUB}(B,DP,A)\n",
         command="run --store 1"),
    told("a free of no block", "reads c (trap ___ if no block begins there); ___ that block", {"TRAP 2": ("2", "frees")}, " (A,FR)\n"),
    told("a free's parts", "reads c (trap ___ likewise) and cd; frees the block at c", {"TRAP 2 | TRAP 1": "2", "TRAP 1 | TRAP 1": "1"},
         " (A,FR,BN)\n", " (A,GT,1)(A,FR,BN)\n"),
    told("a take's parts", "___ c and reads cd (1 to 6, else trap 13); takes cd characters ___ the input, and c becomes the ___ that they denote",
         {"TRAP 1 | TRAP 13 | 2146": ("locates", "from", "word"), "TRAP 13 | TRAP 13 | 2146": ("leaves", "from", "word")},
         " (AN,IN,0)\n", " (A,IN,0)\n", " (A,IN,2)(A,PD)\n$INPUT\nAB\n"),
    told("a print's count", "___ c and cd (1 to 6, else trap 13); prints the characters", {"TRAP 1 | TRAP 13": "reads", "TRAP 13 | TRAP 13": "locates"},
         " (AN,PR,0)\n", " (A,PR,0)\n"),
    told("a definition's parts", "reads the three: the word (0 to 1,023), the ___ bit and the ___ bit (0 to 35, in order); trap ___ for any other "
         "numbers; ___ f is that field", {"000000000700 | TRAP 4": ("first", "last", "4", "then")},
         " (0,DN,27,29)(0,DW,0,35)(A,GT,1)(AN,E,7)(AW,PO)\n", " (0,DN,5,4)\n"),
    told("an empty pushdown", "takes the content that was saved last off the pushdown (trap ___ if there is ___), and c ___ it",
         {"TRAP 9 | 3": ("9", "none", "becomes")}, " (R,FC,A)\n", " (A,E,3)(S,FC,A)(A,E,4)(R,FC,B)(B,PD)\n"),
    told("a get's place", "(trap 7 if no place is open); c becomes its ___ |", {"1024": "place", "1": "size"}, " (A,GT,1)(A,PD)\n"),
    told("a shift by the width", "c shifted left by cd places; 0 if cd is at ___ the width", {"0 | 34359738368": "least", "1 | 1": "most"},
         " (A,E,1)(A,L,36)(A,PD)\n", " (A,E,1)(A,L,35)(A,PD)\n"),
    told("octal digits that PO prints", "reads c; prints it as ___ octal digits", {"000000000005": "twelve", "5": "few"}, " (A,E,5)(A,PO)\n"),
    told("what PL prints", "prints a ___ feed", {"A B": "line", "AB": "form"}, " (A,PH)(PL)(B,PH)\n"),
]
TRAPS = [
    told("trap 1", "| 1 | UNDEFINED FIELD | a chain names a field that has ___ definition |", {"TRAP 1 | -": "no", "- | TRAP 1": "a"},
         " (A,GT,1)(A,E,AN)\n", f"{FIELD}(A,GT,1)(A,E,AN)\n"),
    told("trap 2", "| 2 | NOT A BLOCK | ___ block begins at a pointer, or at the place that is to be ___ or duplicated |",
         {"TRAP 2 | TRAP 2 | TRAP 2": ("no", "freed")}, f"{FIELD}(A,E,AN)\n", " (A,FR)\n", " (A,DP,B)\n"),
    told("trap 3", "| 3 | WORD OUTSIDE BLOCK | a field's word lies ___ the block that a chain has reached |",
         {"TRAP 3 | -": "outside", "- | TRAP 3": "inside"}, " (1,DN,0,35)(A,GT,1)(A,E,AN)\n", f"{FIELD}(A,GT,1)(A,E,AN)\n"),
    told("trap 4", "a bit past 35, or bits ___ of order |", {"TRAP 4 | TRAP 4 | -": "out"}, " (0,DN,9,36)\n", " (0,DN,9,8)\n", " (0,DN,8,9)\n"),
    told("trap 7", "| 7 | STORE FULL | ___ place is open for a block, and ___ label is given for that |",
         {"TRAP 7 | A": ("no", "no"), "TRAP 7 | TRAP 7": ("no", "a")}, f"{SUB}(B,GT,1)\n", f"{SUB}(B,GT,1,,X)\nX (A,PH)\n",
         command="run --store 1"),
    told("trap 8", "the input has ___ characters left than are asked for, and ___ label is given for that |",
         {"TRAP 8 | A": ("fewer", "no"), "TRAP 8 | TRAP 8": ("fewer", "a")}, " (B,IN,1)\n", " (B,IN,1,X)\nX (A,PH)\n"),
    told("trap 9", "| 9 | PUSHDOWN EMPTY | ___ is saved that could be restored |", {"TRAP 9 | TRAP 9 | -": "nothing"}, " (R,FC,A)\n", " (R,FD,A)\n",
         " (S,FC,A)(R,FC,A)\n"),
    told("trap 12", "| 12 | NO FAIL EXIT | FAIL returns from a call ___ a fail label; the call waits on |",
         {"TRAP 12 | A": "without", "A | TRAP 12": "with"}, " (X,DO)\nX FAIL\n", " (X,DO,Y)\nX FAIL\nY (A,PH)\n"),
    told("trap 14", "the output would pass its limit; the operation then prints ___ |", {"A TRAP 14": "nothing", "ABC TRAP 14": "a part"},
         " (A,PH)(BCD,PH)\n", command="run --output 3"),
]
JOBS = [
    told("where an input is", "Standard input is one job: a deck and, ___ a separator line, the ___ of its program",
         {"X": ("after", "input"), "TRAP 8": ("before", "output")}, " (A,IN,1)(A,PR,1)\n$INPUT\nX\n"),
    told("where commands are", "For debug the commands come ___ the deck and ___ the input",
         {"AT 0.3 AFTER 3 STEPS OUTPUT 1 BYTES X": ("after", "before"), "-": ("before", "after")},
         " (A,IN,1)(A,PR,1)\n$COMMANDS\nstep 3\nout\n$INPUT\nX\n", command="debug"),
    told("an option with its value", "Each may be given once, by its ___ name, also as --steps=5",
         {"LIMIT": "whole"}, "L L\n", command="run --steps=5"),
    told("which line is no word", "the n-th line of the image is the ___ that is ___ twelve octal digits and a line feed",
         {"line 2: not a word": ("first", "not"), "line 3: not a word": ("last", "not")}, "000000000000\nX\nY\n", command="load"),
    told("words of no program", "each line of the image is a word, but they are the words of ___ program", {"not an image": "no"},
         "000000000000\n", command="load"),
    told("what is written without a run", "If a listing, an image or the answers of a session were written, the exit status is ___",
         {"0 written": "0"}, " (A,V,0)\n", command="asm", look=status),
    told("one card too many", "sixteen cards + after a card (A,E,1) are ___ too many, and card ___ is reported",
         {"card 17: past a limit": ("one", "17")}, " (A,E,1)\n" + "+\n" * 16),
    told("a step that traps", "A step that traps changes ___ but the ending, and is ___ counted",
         {"TRAP 5 A 000000000005 5 2": ("nothing", "not"), "TRAP 5 A 000000000005 5 3": ("nothing", "always")},
         " (A,E,5)(A,V,0)\n$COMMANDS\ngo\nshow\n", command="debug", look=bug_and_steps),
]


def characters_and_items(program: str) -> Iterator[Trial]:
    """Characters, comments, groups and words."""
    yield from all_held(program, LANGUAGE, [*CHARACTERS, *ITEMS])


def parts_of_steps(program: str) -> Iterator[Trial]:
    """How chains are read, and what the parts of operations are."""
    yield from all_held(program, LANGUAGE, [*READING, *PARTS])


def traps_and_jobs(program: str) -> Iterator[Trial]:
    """When each trap happens, and what is in a job."""
    yield from all_held(program, LANGUAGE, [*TRAPS, *JOBS])


def step_sentences(program: str) -> Iterator[Trial]:
    """All of them."""
    for group in (characters_and_items, parts_of_steps, traps_and_jobs):
        yield from group(program)


# Each group, and a sentence of it that is turned round.
TURNED = [
    (characters_and_items, LANGUAGE, "on the same card, without another", "on the same card, before another"),
    (parts_of_steps, LANGUAGE, "locates c and reads cd (trap 2 if", "reads c and reads cd (trap 2 if"),
    (traps_and_jobs, LANGUAGE, "FAIL returns from a call without a", "FAIL returns from a call with a"),
]
