"""What docs/definitions.md says in words of runs and of what the debuggers show: runs and sessions show which words are right."""
from __future__ import annotations

import re
from collections.abc import Iterator

from answers import Answer
from debugger_sentences import session
from held import all_held, told
from option_lists import debugger_beside
from session_sentences import at, says
from trials import Trial

PAGE = "docs/definitions.md"
FIVE = " (A,E,5)(A,PD)\n"
WORDS = " (0,DN,18,35)(1,DV,30,35)(1,DW,0,35)(X,GT,2)(Y,GT,2)(XN,E,Y)(YW,E,71)\n"  # the example of chains
EMPTY = "1024 FREE 8192 0 WORDS USED 8192 FREE"


def whole(answer: Answer[bytes]) -> str:
    """All that is printed, in one line."""
    return " ".join(answer.stdout.decode().split())


STORES = [
    told("bits", "bits side by side in it; bit 0 is the ___.", {"400000000000": "leftmost", "000000000001": "rightmost"},
         " (0,DA,0,0)(0,DW,0,35)(B,GT,1)(BA,E,1)(BW,PO)\n"),
    told("what a window shows", "divided by 2 to the number of bits to the ___ of the window",
         {"3": "right", "805306371": "left"}, " (0,DA,0,34)(0,DW,0,35)(B,GT,1)(BW,E,7)(BA,PD)\n"),
    told("what is put", "what the window shows from the word, and adds the value's ___ bits in its place",
         {"777457777777": "lowest", "777127777777": "highest"},
         " (0,DN,9,14)(0,DW,0,35)(A,GT,1)(AW,EO,777777777777)(AN,EO,12345)(AW,PO)\n"),
    told("where a block may be", "k is at ___ the largest level, the place is a ___ of 2^k",
         {"TRAP 6 | 1028": ("most", "multiple")}, " (A,GT,1025)\n", " (A,GT,1)(B,GT,4)(B,PD)\n"),
    told("moves", "The moves are how often the rule ___ for that get, or ___ for that free; the call",
         {"get a 1: 1024, level 0, halved 10 free a: joined 10": ("halved", "joined"),
          "get a 1: 1024, level 0, joined 10 free a: halved 10": ("joined", "halved")}, "get a 1\nfree a\n",
         command="trace"),
    told("halves", "halved puts the ___ half in front of its list and ___ the ___ one, joined takes the ___ out of its list",
         {"1024 1025 | 1024": ("upper", "keeps", "lower", "buddy"), "2047 2046 | 1024": ("lower", "keeps", "upper", "buddy")},
         " (A,GT,1)(A,PD)(PL)(B,GT,1)(B,PD)\n", " (A,GT,1)(B,GT,1)(A,FR)(B,FR)(A,GT,1024)(A,PD)\n"),
    told("how often pieces are joined", "repeat them, the latter as long as the buddy is ___.",
         {"1024 | 2048": "listed"}, " (A,GT,1)(B,GT,1)(A,FR)(B,FR)(A,GT,1024)(A,PD)\n",
         " (A,GT,1)(B,GT,1)(A,FR)(A,GT,1024)(A,PD)\n"),
    told("the rule", "A get halves from there ___ to the level asked for. A free joins from the block's level ___, and puts the "
         "result in ___ of its list",
         {"1026 | 1024 1024": ("down", "up", "front"), "1024 | 1024 1024": ("down", "up", "the end")},
         " (A,GT,1)(B,GT,1)(C,GT,1)(D,GT,1)(A,FR)(C,FR)(E,GT,1)(E,PD)\n",
         " (A,GT,1)(A,PD)(A,FR)(A,GT,1024)( ,PH)(A,PD)\n"),
]
RUNS = [
    told("the first state", "is the first state, and has ___ definition and ___ block",
         {f"NO FIELDS {EMPTY}": ("no", "no")}, session(FIVE, "fields", "store"), command="debug"),
    told("saved entries", "What is saved is a list, the ___ entry first", {"2": "latest", "1": "oldest"},
         " (A,E,1)(S,FC,A)(A,E,2)(S,FC,A)(R,FC,B)(B,PD)\n"),
    told("push and pop", "puts an entry in ___, and traps if there is ___ room; pop takes the ___ off, and traps if there is ___.",
         {"2 | TRAP 10 | TRAP 9": ("front", "no", "first", "none")}, " (A,E,1)(S,FC,A)(A,E,2)(S,FC,A)(R,FC,B)(B,PD)\n",
         "L (S,FC,A) L\n", " (R,FC,A)\n"),
    told("fields without a definition",
         "a field that has ___ definition can be saved, too. Example: (S,FD,N) of a field N without a definition puts None in "
         "front, and (R,FD,M) then takes it off and leaves M ___ a definition, whatever M was",
         {"NO FIELDS": ("no", "without"), "M 0 0 35": ("no", "with")}, session(" (0,DM,0,35)(S,FD,N)(R,FD,M)\n", "go", "fields"),
         command="debug"),
    told("the parts of a test", "its chain is read, and ___ its operand, and it may trap",
         {"TRAP 1 | TRAP 2": "then", "TRAP 2 | TRAP 1": "before"}, " (0,DM,0,35)\n IF (AN,E,BM) THEN\n",
         " (0,DM,0,35)\n IF (BM,E,AN) THEN\n"),
    told("the order of tests",
         "takes tests from ___ to ___, and gives the answer of the ___ that traps or has that outcome; if none does, the ___ of "
         "the short circuit's answer. Without a condition there is ___, and the answer is ___.",
         {"A | TRAP 1 | - | A": ("left", "right", "first", "opposite", "none", "true")}, " IFANY (A,E,0)(AN,E,0) THEN (A,PH)\n",
         " IFANY (AN,E,0)(A,E,0) THEN (A,PH)\n", " IFANY (A,E,1)(A,E,1) THEN (A,PH)\n", " (A,PH)\n"),
    told("the example of IFNALL", "A,E,0 holds and decides ___. A,G,0 fails, so the answer is ___, and the third test, which would "
         "trap, is ___ taken",
         {"A | TRAP 1": ("nothing", "true", "not")}, " IFNALL (A,E,0)(A,G,0)(AN,E,0) THEN (A,PH)\n",
         " IFNALL (A,E,0)(AN,E,0) THEN (A,PH)\n"),
    told("the same with IFNONE", "With IFNONE, whose stop is a test that ___, the ___ test would decide, and the answer would be "
         "___.",
         {"-": ("holds", "first", "false"), "A": ("fails", "second", "true")}, " IFNONE (A,E,0)(A,G,0)(AN,E,0) THEN (A,PH)\n"),
    told("chains", "takes the names one after another, with the content so far as the ___ pointer, and locus begins at the ___.",
         {"7": ("next", "bug")}, f"{WORDS} (XNV,PD)\n"),
    told("where no block begins", "| XNNV | XNN is 0, and ___ block begins at 0 | trap 2 |", {"TRAP 2": "no", "0": "a"},
         f"{WORDS} (XNNV,PD)\n"),
    told("no definition", "| XM | M has ___ definition | trap 1 |", {"TRAP 1": "no", "0": "a"}, f"{WORDS} (XM,PD)\n"),
    told("a difference", "A bug ___ it all; of 18 bits 262142 is kept, which is 2 ___ 2^18",
         {"68719476734 262142": ("keeps", "below")}, f"{WORDS} (A,E,7)(A,S,9)(A,PD)( ,PH)(XN,E,7)(XN,S,9)(XN,PD)\n"),
    told("an exchange", "reads two chains, and ___ assigns to each what the other had, the ___ one first",
         {"700000000000": ("then", "first"), "500000000000": ("then", "second")},
         " (0,DX,0,1)(0,DY,1,2)(0,DW,0,35)(A,GT,1)(AW,EO,600000000000)(AX,I,AY)\n (AW,PO)\n"),
    told("returns", "they take the ___ return off and go on there, fail at its ___, and it traps if there is ___. If ___ call "
         "waits, "
         "they end the run",
         {"ACD | TRAP 12 | FAIL": ("latest", "label", "none", "no"), "AC | TRAP 12 | FAIL": ("first", "label", "none", "no")},
         " (X,DO)(D,PH) DONE\nX (Y,DO,Z)(B,PH) DONE\nY (A,PH) FAIL\nZ (C,PH) DONE\n", " (X,DO)\nX FAIL\n", " FAIL\n"),
    told("levels", "is the ___ level whose blocks have at ___ so many words, and traps if there is ___;",
         {"1024 1028 | TRAP 6": ("least", "least", "none")}, " (A,GT,3)(A,PD)(PL)(B,GT,1)(B,PD)\n", " (A,GT,1025)\n"),
    told("a place or none", "if it has a place, the rest of the row is done with it, and if it has ___, refuse goes to the label "
         "or ___.",
         {"FULL | TRAP 7 | 1024": ("none", "traps")}, " (A,GT,1024)(B,GT,1,,X)\nX (FULL,PH)\n", " (A,GT,1024)(B,GT,1)\n",
         " (A,GT,1)(A,PD)\n", command="run --store 1"),
    told("a get", "puts a block of ___ at the place and assigns the place to c; ___ the old content of c goes to c2",
         {"000000000000 0 7": ("zeros", "then")}, " (0,DN,0,35)(A,GT,1)(AN,E,7)(A,FR)(A,E,7)(A,GT,1)(AN,PO)(A,FR)\n"
         "+(B,GT,1,BN)( ,PH)(BN,PD)(A,E,7)(A,GT,1,AN)( ,PH)(AN,PD)\n"),
    told("a duplicate", "puts the words of another block there, as they were ___.", {"5": "before", "1024": "after"},
         " (0,DN,0,35)(A,GT,1)(AN,E,5)(AN,DP,A)(ANN,PD)\n"),
    told("a free", "takes a block out, and ___ assigns a number to c, ___ c is a field of that very block",
         {"7 0": ("then", "unless"), "7 TRAP 2": ("then", "even if")},
         " (0,DN,0,35)(A,GT,1)(A,FR,7)(A,PD)\n (A,GT,1)(AN,E,A)(AN,FR,9)(A,GT,1)( ,PH)(AN,PD)\n"),
    told("short lines", "as many of its codes as a line has, with blanks ___ them if there are fewer",
         {"135168": "after", "33": "before"}, " (A,IN,3)(A,PD)\n$INPUT\nA\n"),
    told("bytes without a code", "is the code that a byte is read as, that of ? if it has ___.",
         {"A?B": "none"}, " (A,IN,3)(A,PR,3)\n$INPUT\na\x80b\n"),
    told("too few characters", "If too few are left it takes ___, and goes to the label or ___.",
         {"OK | TRAP 8": ("none", "traps"), "TRAP 8 | TRAP 8": ("some", "traps")},
         f" {'(A,IN,6)' * 8}\n+{'(A,IN,6)' * 5}(A,IN,6,X)\nX (A,IN,2)(OK,PH)\n$INPUT\nA\n", " (A,IN,1)\n"),
    told("last characters", "are those whose codes are the ___ digits of a number", {"EF": "last", "AB": "first"},
         " (A,EH,ABCDEF)(A,PR,2)\n"),
    told("a fail without a label", "Without BAD in the call the return would have ___ label: FAIL would trap at 1.1, and the "
         "return "
         "would ___.",
         {"TRAP 12 TRAP 12 RETURNS 1": ("no", "stay"), "TRAP 12 TRAP 12 RETURNS 0": ("no", "go")},
         session(" (SUB,DO) DONE\nSUB FAIL\nBAD\n", "go", "show"), command="debug",
         look=lambda it: " ".join(re.findall(r"TRAP 12|RETURNS \d+", it.stdout.decode()))),
    told("what is counted", "a step that does not trap is ___ and leads to the next state, and one that traps is ___ counted, but "
         "leads to the last",
         {"TRAP 5 AT 0.2 AFTER 2 STEPS AT 0.1 AFTER 1 STEPS": ("counted", "not")}, session(" (A,E,7)(B,V,0)\n", "go", "back 1",
         "back 1"),
         command="debug"),
]
SHOWN = [
    told("letters", "letters are read as ___. reading_of line", {"AT 0.1 AFTER 1 STEPS": "capitals"}, session(FIVE, "sTEp 1"),
         command="debug"),
    told("step and back", "goes to the number n further ___, or to that of the ___ state; back n to the one n further ___, or to 0",
         {"AT 0.1 AFTER 1 STEPS AT 1.0 AFTER 4 STEPS AT 0.0 AFTER 0 STEPS": ("on", "last", "back")},
         session(FIVE, "step 1", "step 99", "back 2", "back 99"), command="debug"),
    told("go", "So go ___ goes on, unless it is at the ___ state",
         {"BREAK AT 0 == DONE AFTER 6 STEPS == DONE AFTER 6 STEPS": ("always", "last"),
          "BREAK AT 0 AT 0.0 AFTER 0 STEPS == DONE AFTER 6 STEPS": ("never", "last")}, session(FIVE, "break 0", "go", "go"),
         command="debug", look=whole),
    told("blocks in a ring", "Once X and Y are 0 ___ path begins, and ___ is reached, though each block still leads to the ___.",
         {"0 BLOCKS": ("no", "none", "other"), "2 BLOCKS": ("a", "each", "other")},
         session(" (0,DN,18,35)(X,GT,2)(Y,GT,2)(XN,E,Y)(YN,E,X)(X,E,0)(Y,E,0)\n", "go", "draw"), command="debug"),
    told("pushdowns", "Pushdowns are ___ mentioned: what is saved there begins ___ path",
         {"0 BLOCKS": ("not", "no"), "BLOCK 1024 SIZE 1 1 BLOCKS": ("also", "a")},
         session(" (A,GT,1)(S,FC,A)(A,E,0)\n", "go", "draw"), command="debug"),
    told("arrows", "is the line of an arrow from a name to a number, and ___ if ___ block begins at that number",
         {"A -> 1024 BLOCK 1024 SIZE 2 1 BLOCKS": ("nothing", "no")}, session(" (A,GT,2)(B,E,A)(B,A,1)(C,E,5)\n", "go", "draw"),
         command="debug"),
    told("lost blocks", "says of a block that it is lost if it is ___ reached",
         {"1024 BLOCK 1 LOST 1025 BLOCK 1 1026 FREE 8190 2 WORDS USED 8190 FREE": "not",
          "1024 BLOCK 1 1025 BLOCK 1 LOST 1026 FREE 8190 2 WORDS USED 8190 FREE": "also"},
         session(" (A,GT,1)(A,GT,1)\n", "go", "store"), command="debug"),
    told("what is explained", "is these details of a trap, and ___ of another ending",
         {"0 | 0 FAIL": "nothing"}, " (A,PD)\n", " (A,PD) FAIL\n", command="run --explain"),
]
DECK = "NEXT   IF (K,E,0) THEN (A,E,1)\n+      (B,E,2) DONE\n"
SESSIONS = [
    at("watches", "So a watch stops right ___ the step that changed the value, going forward, and right ___ it, going back",
       {"0.0/0 0.2/2 0.1/1": ("after", "before"), "0.0/0 0.1/1 0.2/2": ("before", "after")}, "watch A;c;rc", deck=FIVE),
    says("a chain that can't be followed", "so a chain that can be followed no longer has ___, too",
         {"watch AN: 5 -> can't be followed": "changed"}, "goto 4;watch AN;c",
         deck=" (0,DN,0,35)(A,GT,1)(AN,E,5)\n (A,E,0)(A,PD)\n",
         text="watch"),
    at("temporary breakpoints", "Where the session comes to a temporary breakpoint, it is ___ (",
       {"0.0/0 0.0/5 DONE": "removed", "0.0/0 0.0/5 0.0/10": "kept"}, "tb 0;c;c",
       deck="L (A,A,1)\n IF (A,L,5) THEN L\n"),
    at("finish", "with one less, or ___ where no call waits", {"0.0/0 | 0.0/0 1.0/2 0.2/5": "stay",
         "0.0/0 DONE | 0.0/0 1.0/2 0.2/5": "end"},
       "finish", "s;finish", deck=" (X,DO) DONE\nX (PL) DONE\n"),
    at("an empty line", "An empty line asks for what the ___ one asked for", {"0.0/0 1.0/4 0.0/0 0.1/1 0.2/2": "last",
         "0.0/0 1.0/4 0.0/0 0.1/1 1.0/4": "first"}, "s;back;si;", deck=FIVE),
    says("the exit that is marked", "DONE is marked, and ___ the label nor the +, which are in ___ of the groups",
         {"^^^^": ("neither", "front")}, "goto 3", deck=DECK, text="^^"),
    at("statements of cards", ":7 is the statement of ___ 7, and a label is that of its ___,", {"0.0/0 1.0/3 | 0.0/0 1.0/3":
       ("card", "statement")}, "b :7;c", "b X;c", deck="*\n*\n*\n (PL)\n*\n*\nX (PL)\n"),
]


def stores(program: str) -> Iterator[Trial]:
    """Windows, blocks and the buddy system's rule."""
    yield from all_held(program, PAGE, STORES)


def runs(program: str) -> Iterator[Trial]:
    """What a run does."""
    yield from all_held(program, PAGE, RUNS)


def shown(program: str) -> Iterator[Trial]:
    """What the debugger of jobs shows, and l6db."""
    yield from all_held(program, PAGE, SHOWN)
    yield from all_held(debugger_beside(program), PAGE, SESSIONS)


def definition_runs(program: str) -> Iterator[Trial]:
    """All of them."""
    for group in (stores, runs, shown):
        yield from group(program)


# Each group, and a sentence of it that is turned round.
TURNED = [
    (stores, PAGE, "`halved` puts the upper half", "`halved` puts the lower half"),
    (runs, PAGE, "gives the answer of the first that traps", "gives the answer of the last that traps"),
    (shown, PAGE, "what is saved there begins no path", "what is saved there begins a path"),
]
