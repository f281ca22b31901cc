"""What docs/tutorial.md and docs/answers.md say happens: decks and sessions show which words are right."""
from __future__ import annotations

from collections.abc import Iterator

from check_sentences import positions
from held import all_held, told
from language_sentences import COUNT, decks_of
from listing_sentences import order
from option_lists import debugger_beside
from session_sentences import at
from trials import Trial

LESSON, SOLUTIONS = "docs/tutorial.md", "docs/answers.md"
REFUSED = "card 1: no reading"
LIST = " (0,DN,18,35)(0,DC,0,17)(A,GT,1)(B,GT,1)(AN,E,B)(BC,E,7)(AC,E,3)\n"
SIXTH = " (A,GT,1)(B,GT,2)(C,GT,1)(D,GT,4)(C,FR)"  # the gets of an answer, and its first free

FIRST = [
    told("PD", "and (A,PD) prints A in ___", {"8": "decimal", "000000000010": "octal"}, " (A,E,8)(A,PD)\n"),
    told("how a printout ends", "The ___ line says how the run ended",
         {"5 TRAP 5": "last", "TRAP 5 5": "first"}, " (A,E,5)(A,PD)(B,V,0)\n"),
    told("arithmetic", "(S,M,N) ___ S by N, and (N,A,1) ___ 1 to N. In each of these operations the ___ element changes",
         {"12 5": ("multiplies", "adds", "first"), "3 5": ("multiplies", "adds", "last"), "0 5": ("divides", "adds", "first")},
         " (S,E,3)(N,E,4)(S,M,N)(N,A,1)(S,PD)(PL)(N,PD)\n"),
    told("blanks in a text", "Blanks in the text ___. (PL) ends the line",
         {"A B": "count", "AB": "are left out"}, " (A B,PH)\n"),
    told("IF and NOT", "IF asks whether its test ___, and NOT whether it does ___",
         {"A | - | - | A": ("holds", "not"), "- | A | A | -": ("fails", "too")}, *decks_of("IF"), *decks_of("NOT")),
    told("NOT with a test",
         "NOT (N,G,5) is true if N is ___ greater than 5. Then the run does what follows ___: here, the exit to the label "
         "LOOP. Otherwise it goes on with the ___ statement",
         {"A | B": ("not", "THEN", "next"), "B | A": ("also", "THEN", "next")}, " NOT (N,G,5) THEN (A,PH) DONE\n (B,PH) DONE\n",
         " (N,E,6)\n NOT (N,G,5) THEN (A,PH) DONE\n (B,PH) DONE\n"),
    told("a statement that needs more room", "needs more room goes on to the ___ card, which has + in column 1",
         {"0": "next", REFUSED: "last"}, " (A,E,0)\n+(A,PD)\n"),
    told("the line $INPUT", "The cards ___ at the line $INPUT. What follows that line is ___ part of the program",
         {"-": ("end", "not"), "card 3: no reading": ("begin", "a")}, " (A,E,0)\n$INPUT\n)\n"),
    told("lines of the input", "a ___ line is filled up with ___, and a ___ line is cut off. Small letters are read as ___",
         {"80 | 80 | A B": ("shorter", "blanks", "longer", "capitals"),
          "100 | 1 | A B": ("longer", "blanks", "shorter", "capitals")}, f"{COUNT}{'A' * 100}\n", f"{COUNT}A\n",
         " (A,IN,3)(A,PR,3)\n$INPUT\na b\n"),
    told("the end of the input", "If ___ character is left, the run goes to the label END",
         {"END | A": "no", "A | END": "a"}, " (C,IN,1,END)(A,PH) DONE\nEND (END,PH)\n",
         " (C,IN,1,END)(A,PH) DONE\nEND (END,PH)\n$INPUT\nX\n"),
    told("L, G and H", "L tests for ___ and G for ___. With an H after the letter, the number is written as a ___: (C,LH,0) is",
         {"LESS GREATER SAME": ("less", "greater", "character"), "SAME": ("greater", "less", "character")},
         " (C,E,15)\n IF (C,LH,0) THEN (LESS,PH)(PL)\n (C,E,17)\n IF (C,GH,0) THEN (GREATER,PH)(PL)\n IF (C,EH,1) THEN "
         "(SAME,PH)\n"),
    told("conditions",
         "and is true if at least ___ of them holds. IFALL is true if ___ hold, IFNONE if ___ holds, and IFNALL if not ___ "
         "hold",
         {"A | A | A | - | A | - | - | - | - | - | - | A | - | A | A | A": ("one", "all", "none", "all")},
         *(deck for word in ("IFANY", "IFALL", "IFNONE", "IFNALL") for deck in decks_of(word))),
    told("bugs at the start", "T and N need ___ initial value: every bug is ___ at the start",
         {"0000": ("no", "0")}, " (A,PD)(N,PD)(T,PD)(Z,PD)\n"),
    told("two ways to leave",
         "The exit DONE returns to the operation ___ the call, and N is printed. The exit FAIL goes to the label that the "
         "call ___, SKIP",
         {"B | C": ("after", "names"), "C | B": ("before", "names")}, " (S,DO,X)(B,PH) DONE\nS DONE\nX (C,PH)\n",
         " (S,DO,X)(B,PH) DONE\nS FAIL\nX (C,PH)\n"),
    told("DONE without a call",
         "When ___ call is waiting for its return, DONE ___ the run. ___ this card the run would continue into the subroutine",
         {"A | AB": ("no", "ends", "Without"), "AB | A": ("no", "goes on with", "With")}, " (A,PH) DONE\nSUB (B,PH) DONE\n",
         " (A,PH)\nSUB (B,PH) DONE\n"),
    told("a group in two positions", "After IF, (R,E,0) is a ___: is R 0? As an ___, the same group makes R 0",
         {"50": ("test", "operation"), "00": ("operation", "test")}, " (R,E,5)\n IF (R,E,0) THEN DONE\n (R,PD)(R,E,0)(R,PD)\n"),
    told("Y and V", "R the ___ of N divided by D; with V for Y it would be the ___",
         {"2 3": ("remainder", "quotient"), "3 2": ("quotient", "remainder")},
         " (R,E,17)(R,Y,5)(S,E,17)(S,V,5)(R,PD)(PL)(S,PD)\n"),
]
BLOCKS = [
    told("bits", "word 0 of a block, bits 0 to 17, counted from the ___",
         {"000001000000": "left", "000000000001": "right"}, " (0,DL,0,17)(0,DW,0,35)(B,GT,1)(BL,E,1)(BW,PO)\n"),
    told("a get", "gets a block of one word, full of ___, and makes B its ___",
         {"000000000000 1024": ("zeros", "place")}, " (0,DW,0,35)(B,GT,1)(BW,PO)(PL)(B,PD)\n"),
    told("what does not fit", "64 does not fit there: ___ its ___ six bits are kept, which are 0. ___ other bit changes",
         {"000001000700": ("only", "last", "No"), "000001000701": ("only", "first", "No")},
         " (0,DR,30,35)(0,DW,0,35)(B,GT,1)(BW,EO,1000777)(BR,E,64)(BW,PO)\n"),
    told("what a chain leads to", "Every name of a chain but the ___ leads to one more block",
         {"7": "last", "3": "first"}, f"{LIST} (ANC,PD)\n"),
    told("a block in front", "then LN, in the ___ block, becomes what L ___ before",
         {"7": ("new", "was"), "1024": ("new", "is")}, " (0,DN,18,35)(L,E,7)(L,GT,1,LN)(LN,PD)\n"),
    told("a place that is cut", "a place is cut to its ___ 6 bits when it is stored",
         {"6": "last", "16": "first"}, " (0,DN,30,35)(A,GT,1)(B,E,1030)(AN,E,B)(AN,PD)\n"),
    told("where a chain leads", "A chain ___ goes into the middle of a block, or to a place where ___ block is",
         {"TRAP 2 | TRAP 2": ("never", "no"), "- | TRAP 2": ("also", "no")}, " (0,DN,0,35)(A,GT,2)(A,A,1)(B,E,AN)\n",
         " (0,DN,0,35)(A,E,5000)(B,E,AN)\n"),
    told("cards with +", "A card with + in column 1 continues the statement ___ it",
         {"0": "before", REFUSED: "after"}, " (A,E,0)\n+(A,PD)\n"),
    told("I", "(x,I,y) ___ x and y", {"21": "interchanges", "22": "copies"}, " (A,E,1)(B,E,2)(A,I,B)(A,PD)(B,PD)\n"),
    told("a free with a link", "LN is read ___ the block is freed",
         {"7": "before", "TRAP 2": "after"}, " (0,DN,18,35)(L,GT,1)(LN,E,7)(L,FR,LN)(L,PD)\n"),
    told("room for 1024 words", "A block of 1,024 words fits there only if ___ of these words is in use",
         {"2048 | 1024": "none", "1024 | 1024": "one"}, " (A,GT,1)(B,GT,1024)(B,PD)\n", " (A,GT,1)(A,FR)(B,GT,1024)(B,PD)\n"),
    told("the pushdown",
         "(S,FC,A) ___ the content of A, and (R,FC,A) ___ the content that was saved ___. What is saved ___ comes back ___,",
         {"21": ("saves", "restores", "last", "last", "first"), "12": ("saves", "restores", "first", "first", "first")},
         " (A,E,1)(S,FC,A)(A,E,2)(S,FC,A)(R,FC,A)(A,PD)(R,FC,A)(A,PD)\n"),
    told("the store's own lists",
         "If there is ___ block of the right size, it halves a ___ one, and it joins halves that are ___ again",
         {"1024 | 1024": ("no", "larger", "free")}, " (A,GT,1)(A,PD)\n", " (A,GT,1)(B,GT,1)(A,FR)(B,FR)(A,GT,1024)(A,PD)\n"),
]
LAST = [
    told("listings", "Each card has its number. The ___ card of a statement also has the statement's number, counted from 0",
         {"1 0 (PL) 2 + 000010000000 340077000000 1 DONE 000002000000 LABELS": "first"}, " (PL)\n+\n", command="list"),
    told("comments in a listing", "Comments have ___. ___ a statement come its machine words",
         {"1 2 w - w LABELS | 1 - w LABELS": ("none", "After"), "1 w 2 - w LABELS | 1 - w LABELS": ("none", "Before")},
         " (PL)\n+\n", "* C\n", command="list", look=order),
    told("what a check goes on to", "It goes on ___ an error, so it finds those of ___ statements",
         {"1:5e 2:5e": ("after", "all"), "1:5e": ("to", "few")}, " (A,Q,1)\n (A,Q,1)\n", command="check", look=positions),
    told("other characters", "Such characters are allowed in comments ___. A byte-order mark",
         {"- | card 1: no reading": "only", "- | -": "too"}, "* \xc3\xa9\n", " (\xc3\xa9,PH)\n"),
    told("a byte-order mark", "cannot be seen, but makes card 1 unreadable, ___ if that is a comment",
         {REFUSED: "even", "-": "but not"}, "\xef\xbb\xbf* A COMMENT\n"),
    told("where a comment is",
         "A comment needs a card of its own, with * in column 1, ___ #. Words after the groups are the ___. So a comment of "
         "one word is taken for a ___,",
         {"- | card 1: no reading | card 1: no such label": ("not", "exit", "label")}, "* ONE\n", "# ONE\n", " (A,PD) ONE\n"),
    told("a blank before $INPUT", "The line must begin in column 1. ___ it is a card, and so are ___ lines after it",
         {"card 2: no reading": ("Otherwise", "all"), "X": ("Perhaps", "no")}, " (A,IN,1)(A,PR,1)\n $INPUT\nX\n"),
    told("below 0", "There are ___ signs, and one less than 0 is the ___ number",
         {"card 1: no reading | 68719476735": ("no", "largest")}, " (A,E,-5)(A,PD)\n", " (A,S,1)(A,PD)\n"),
    told("no ELSE", "if the test does ___ hold, the run goes on with the ___ statement",
         {"B | A": ("not", "next")}, " IF (A,E,1) THEN (A,PH) DONE\n (B,PH) DONE\n (C,PH)\n",
         " IF (A,E,0) THEN (A,PH) DONE\n (B,PH)\n"),
    told("labels of breakpoints", "but those for breakpoints take ___ alone, and go is *continue*",
         {"?? NOT A COMMAND BREAK AT 0": "numbers", "BREAK AT 0 BREAK AT 0": "labels"}, "X (PL)\n$COMMANDS\nbreak X\nbreak 0\n",
         command="debug"),
]
SESSIONS = [
    at("c", "c, for *continue*, runs to the ___ breakpoint", {"0.0/0 3.0/3": "next"}, "b 3;b 4;c"),
    at("rc", "goes back to right ___ the step that changed it",
       {"0.0/0 DONE 0.1/27": "before", "0.0/0 DONE 0.2/28": "after"}, "end;watch I;rc"),
    at("delete", "delete takes ___ breakpoints and watches away",
       {"0.0/0 DONE": "all", "0.0/0 3.0/3": "some"}, "b 3;watch I;delete;c"),
    at("s, back and next", "s goes on to the ___ statement, back back to the one ___, next goes ___ a call, and",
       {"0.0/0 3.0/3 4.0/7 3.0/3 | 0.0/0 1.0/11": ("next", "before", "over")}, "s;s;back", "n"),
]
IN_ANSWERS = [
    told("vowels", "Small letters are read as ___, so five tests are enough. If ___ holds, the third statement goes on",
         {"A | C": ("capitals", "none"), "C | A": ("small letters", "one")},
         " (C,IN,1)\n IFANY (C,EH,A)(C,EH,E) THEN (A,PH) DONE\n (C,PH)\n$INPUT\na\n",
         " (C,IN,1)\n IFANY (C,EH,A)(C,EH,E) THEN (A,PH) DONE\n (C,PH)\n$INPUT\nb\n"),
    told("an interchange", "Both contents are read ___ either half changes",
         {"654321123456": "before", "654321654321": "after"},
         " (0,DL,0,17)(0,DR,18,35)(0,DW,0,35)(B,GT,1)(BW,EO,123456654321)\n (BL,I,BR)(BW,PO)\n"),
    told("past the columns", "and everything after column 72 is ignored ___ a message",
         {"1": "without"}, f"{' (A,E,1)(A,PD)':<72}(A,PD)\n"),
    told("the last digit", "The last digit is kept ___ all others are printed",
         {"100110": "until", "011001": "before"},
         " (N,E,38)(BITS,DO) DONE\nBITS (S,FC,N)(N,V,2)\n IF (N,G,0) THEN (BITS,DO)\n (R,FC,N)(N,Y,2)(N,PD) DONE\n"),
    told("buddies", "is freed, its buddy 1024 is ___ use. When the first block is freed, both are ___ into two words at 1024",
         {"1032 | 1024": ("in", "joined"), "1024 | 1024": ("out of", "joined")}, f"{SIXTH}\n (E,GT,2)(E,PD)\n",
         f"{SIXTH}(A,FR)\n (E,GT,2)(E,PD)\n"),
]


def lessons(program: str) -> Iterator[Trial]:
    """Sections 1 to 4."""
    yield from all_held(program, LESSON, FIRST)


def lessons_on_blocks(program: str) -> Iterator[Trial]:
    """Sections 5 to 10."""
    yield from all_held(program, LESSON, BLOCKS)


def last_lessons(program: str) -> Iterator[Trial]:
    """Sections 11 and 12, and cards without a reading."""
    yield from all_held(program, LESSON, LAST)
    yield from all_held(debugger_beside(program), LESSON, SESSIONS)


def answers_to_exercises(program: str) -> Iterator[Trial]:
    """What is said of the answers."""
    yield from all_held(program, SOLUTIONS, IN_ANSWERS)


def lesson_sentences(program: str) -> Iterator[Trial]:
    """All of them."""
    for group in (lessons, lessons_on_blocks, last_lessons, answers_to_exercises):
        yield from group(program)


# Each group, and a sentence of it that is turned round.
TURNED = [
    (lessons, LESSON, "the operation after the call, and N is printed", "the operation before the call, and N is printed"),
    (lessons_on_blocks, LESSON, "`LN` is read before the block", "`LN` is read after the block"),
    (last_lessons, LESSON, "one less than 0 is the largest number", "one less than 0 is the smallest number"),
    (answers_to_exercises, SOLUTIONS, "ignored without a message", "ignored with a message"),
]
