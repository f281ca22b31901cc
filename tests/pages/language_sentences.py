"""What docs/language.md says of fields, chains, tests, operations, places and the input: decks show which words are right."""
from __future__ import annotations

from collections.abc import Iterator

from held import all_held, seen_of, told
from page_tables import spans_of, table_with, text_of
from trials import Trial

LANGUAGE = "docs/language.md"
FOUR = " (A,GT,512)(B,GT,512)(C,GT,512)(D,GT,512)"  # halves of two units
COUNT = "LOOP (A,IN,1,END)(N,A,1) LOOP\nEND (N,PD)\n$INPUT\n"  # prints how many characters an input has

CHAINS = [
    told("the place of a block", "Its place is the number of its ___ word",
         {"1024 1026": "first", "1025 1026": "last"}, " (A,GT,2)(A,PD)(PL)(B,GT,1)(B,PD)\n"),
    told("from where bits are counted", "its first and last bit, counted from 0 on the ___",
         {"400000000000": "left", "000000000001": "right"}, " (0,DA,0,0)(0,DW,0,35)(B,GT,1)(BA,E,1)(BW,PO)\n"),
    told("definitions",
         "A run defines the names 0 to 9 and A to Z as fields, and ___ redefine them; at the start ___ is defined",
         {"TRAP 1 | -": ("may", "none"), "- | -": ("may", "each"), "TRAP 1 | TRAP 4": ("may not", "none")}, " (A,E,AN)\n",
         " (0,DN,0,35)(0,DN,0,17)\n"),
    told("whose a field is", "A field belongs to ___ block: it shows the ___ bits of any block",
         {"63 63": ("no", "same"), "63": ("one", "same")},
         " (0,DN,30,35)(0,DW,0,35)(A,GT,1)(AW,EO,777777)(B,GT,2)(BW,EO,777777)\n (AN,PD)(PL)(BN,PD)\n"),
    told("what a chain leads to", "The content of that field is the ___ pointer, and the ___ field is what the chain leads to",
         {"7": ("next", "last"), "1025": ("last", "first")},
         " (0,DN,18,35)(0,DC,0,17)(A,GT,1)(B,GT,1)(AN,E,B)(BC,E,7)(AC,E,3)\n (ANC,PD)\n"),
    told("where no block begins", "the middle of a block is ___ enough, nor is a block that was ___;",
         {"TRAP 2 | TRAP 2": ("not", "freed"), "- | TRAP 2": ("also", "freed")}, " (0,DN,0,35)(A,GT,2)(A,A,1)(B,E,AN)\n",
         " (0,DN,0,35)(A,GT,2)(B,E,A)(A,FR)(B,E,BN)\n"),
    told("which bits an assignment changes",
         "To assign a number to a chain changes ___ those bits, and keeps as many of the number's ___ bits",
         {"777457777777": ("only", "lowest"), "000450000000": ("also", "lowest"), "777127777777": ("only", "highest")},
         " (0,DN,9,14)(0,DW,0,35)(A,GT,1)(AW,EO,777777777777)(AN,EO,12345)(AW,PO)\n"),
    told("the order of the parts", "The parts of an operation are taken from ___ to ___, and the ___ trap met is the answer",
         {"TRAP 1 | TRAP 2": ("left", "right", "first"), "TRAP 5 | TRAP 1": ("right", "left", "first")}, " (AN,V,0)\n",
         " (0,DM,0,35)(BM,V,AN)\n"),
]
CONDITIONS = [
    told("a condition that is true",
         "If the condition of a statement is ___, its operations are done and its exit is taken. Otherwise the ___ statement "
         "follows",
         {"A | B": ("true", "next"), "B | A": ("false", "next")}, " IF (A,E,0) THEN (A,PH) DONE\n (B,PH) DONE\n (C,PH)\n",
         " IF (A,E,1) THEN (A,PH) DONE\n (B,PH) DONE\n (C,PH)\n"),
    told("the order of tests", "Tests are taken from ___ to ___, and ___ is taken once the answer is decided",
         {"A | TRAP 1": ("left", "right", "none"), "TRAP 1 | A": ("right", "left", "none")},
         " IFANY (A,E,0)(AN,E,0) THEN (A,PH)\n", " IFANY (AN,E,0)(A,E,0) THEN (A,PH)\n"),
    told("a test that traps", "If a test that is ___ traps, that is the trap of the step",
         {"TRAP 1 | TRAP 1 | A": "taken", "A | TRAP 1 | A": "passed over"}, " IFANY (AN,E,0)(A,E,0) THEN (A,PH)\n",
         " IFALL (A,E,0)(AN,E,0) THEN\n", " IFNALL (A,E,1)(AN,E,0) THEN (A,PH)\n"),
    told("the parts of a test", "c is read ___, and then cd",
         {"TRAP 1 | TRAP 2": "first", "TRAP 2 | TRAP 1": "last"}, " (0,DM,0,35)\n IF (AN,E,BM) THEN\n",
         " (0,DM,0,35)\n IF (BM,E,AN) THEN\n"),
]
OPERATIONS = [
    told("an operation that traps", "an operation that traps has done ___",
         {"TRAP 1 NO FIELDS 1024 FREE 8192 0 WORDS USED 8192 FREE": "nothing",
          "TRAP 1 NO FIELDS 1024 BLOCK 1 LOST 1025 FREE 8191 1 WORDS USED 8191 FREE": "a part"},
         " (A,GT,1,BN)\n$COMMANDS\ngo\nfields\nstore\n", command="debug"),
    told("what is cut", "___ what c becomes is cut to its width; cd is ___ cut before",
         {"0": ("Only", "not"), "TRAP 5": ("Also", "always")}, " (0,DF,0,0)(B,GT,1)(BF,E,1)(BF,V,2)(BF,PD)\n"),
    told("below 0, and past the width",
         "a difference below 0 counts ___ from 2 to the width, and a shift may ___ bits on the ___:",
         {"777777777776 | 000000000002": ("down", "lose", "left"), "000000000000 | 000000000003": ("up", "keep", "left")},
         " (A,E,7)(A,S,9)(A,PO)\n", " (A,EO,400000000001)(A,L,1)(A,PO)\n"),
    told("pushdowns", "A pushdown is a list of saved items, from which the ___ is taken off first",
         {"2": "latest", "1": "oldest"}, " (A,E,1)(S,FC,A)(A,E,2)(S,FC,A)(R,FC,B)(B,PD)\n"),
    told("which content is restored", "takes the content that was saved ___ off the pushdown",
         {"2": "last", "1": "first"}, " (A,E,1)(S,FC,A)(A,E,2)(S,FC,A)(R,FC,B)(B,PD)\n"),
    told("the order of an interchange", "then c becomes what c2 was, and ___ that c2 what c was",
         {"700000000000": "after", "500000000000": "before"},
         " (0,DX,0,1)(0,DY,1,2)(0,DW,0,35)(A,GT,1)(AW,EO,600000000000)(AX,I,AY)\n (AW,PO)\n"),
    told("a definition that is restored", "f gets the definition that was saved ___, or ___ if that was saved",
         {"64 | TRAP 1": ("last", "none"), "0 | TRAP 1": ("first", "none")},
         " (S,FD,N)(0,DN,0,35)(S,FD,N)(0,DN,0,5)(R,FD,N)(A,GT,1)(AN,E,64)\n (AN,PD)\n",
         " (S,FD,N)(0,DN,0,35)(R,FD,N)(A,GT,1)(A,E,AN)\n"),
    told("a get with a second chain",
         "then, ___ the block exists and c is its place, c2 is located and becomes the ___ content of c. If that traps, ___ "
         "block was got",
         {"TRAP 2 OUTPUT 1 BYTES 7 1024 FREE 8192 0 WORDS USED 8192 FREE": ("when", "old", "no"),
          "TRAP 2 OUTPUT 1 BYTES 7 1024 BLOCK 1 1025 FREE 8191 1 WORDS USED 8191 FREE": ("when", "old", "the")},
         " (A,E,7)(0,DN,0,35)(A,GT,1,AN)(AN,PD)(A,FR)(A,GT,1,BN)\n$COMMANDS\ngo\nout\nstore\n", command="debug"),
    told("a get with a label", "but if ___ place is open the run goes to L, and c2 is ___ looked at",
         {"FULL | OPEN": ("no", "not"), "TRAP 1 | OPEN": ("no", "first")},
         " (A,GT,1024)(B,GT,1,BN,X)(OPEN,PH) DONE\nX (FULL,PH)\n", " (B,GT,1,C,X)(OPEN,PH) DONE\nX (FULL,PH)\n",
         command="run --store 1"),
    told("when a get is refused", "A get or a duplicate is refused only if ___ place is open for its size",
         {"TRAP 7 | -": "no", "- | TRAP 7": "a"}, f"{FOUR}(A,FR)(C,FR)\n (E,GT,1024)\n", f"{FOUR}(A,FR)(B,FR)\n (E,GT,1024)\n",
         command="run --store 2"),
    told("free words that are apart", "There may be as many free words, but ___ side by side at such a place",
         {"TRAP 7": "not", "-": "all"}, f"{FOUR}(A,FR)(C,FR)\n (E,GT,1024)\n", command="run --store 2"),
    told("a free with a content", "frees the block at c, and c becomes what cd ___. If c lay in that block, it is ___ with it",
         {"7 TRAP 2": ("was", "gone"), "7 5": ("was", "kept")},
         " (0,DN,0,35)(A,GT,1)(AN,E,7)(A,FR,AN)(A,PD)(PL)\n (A,GT,1)(B,E,A)(AN,FR,5)(BN,PD)\n"),
    told("what PR prints", "prints the characters whose codes are the cd ___ digits of c to base 64",
         {"EF": "last", "AB": "first"}, " (A,EH,ABCDEF)(A,PR,2)\n"),
    told("zeros that PD prints", "prints it in decimal, ___ leading zeros",
         {"12": "without", "00000000012": "with"}, " (A,E,12)(A,PD)\n"),
    told("what PH prints", "prints the text in ___:", {"HELLO": "capitals", "hello": "small letters"}, " (hello,PH)\n"),
]
SPELLINGS = [
    told("suffixes", "Each letter may have the suffix O, with an ___ number, or H, with a ___: (A,EO,17), (A,EH,Y)",
         {"A": ("octal", "text"), "B": ("decimal", "text")},
         " (A,E,15)(B,E,57)\n IFALL (A,EO,17)(B,EH,Y) THEN (A,PH) DONE\n (B,PH)\n"),
    told("O with a suffix", "(A,OO,7) is the operation O with an ___ number, or the ___ O in the position of a test",
         {"15 A": ("octal", "test"), "15 B": ("octal", "operation")},
         " (A,E,8)(A,OO,7)(A,PD)(PL)\n IF (A,OO,17) THEN (A,PH) DONE\n (B,PH)\n"),
    told("DO and DP", "With two or three elements DO is a ___, and with three or five DP gets a ___ of a block",
         {"A7 | 5": ("call", "copy"), "B7 | 5": ("definition", "copy")},
         " (0,DO,0,35)(0,DP,0,35)(S,DO) DONE\nS (A,PH)(A,GT,1)(AO,E,7)(AP,PD) DONE\n",
         " (0,DN,0,35)(A,GT,1)(AN,E,5)(B,DP,A)(BN,PD)\n"),
    told("a get", "gets a block of ___, with as many words as the ___ power of two that is at ___ cd",
         {"000000000000 1024 1028": ("zeros", "least", "least"), "000000000000 1024 1026": ("zeros", "greatest", "most")},
         " (3,DW,0,35)(A,GT,3)(AW,PO)(PL)(A,PD)(PL)(B,GT,1)(B,PD)\n"),
    told("a duplicate",
         "gets a block of the ___ size and with the ___ words; c becomes its ___. If ___ place is open the run goes to L",
         {"5 TRAP 3 | FULL": ("same", "same", "place", "no"), "0 TRAP 3 | FULL": ("same", "other", "place", "no")},
         " (1,DN,0,35)(2,DM,0,35)(A,GT,2)(AN,E,5)(B,DP,A)(BN,PD)(PL)(BM,PD)\n",
         " (A,GT,1024)(B,DP,A,,X)(OPEN,PH) DONE\nX (FULL,PH)\n", command="run --store 1"),
    told("a free", "frees that block, and c becomes ___ |",
         {"0 TRAP 2": "0", "1024 TRAP 2": "its place"}, " (0,DN,0,35)(A,GT,1)(B,E,A)(A,FR)(A,PD)(PL)(BN,PD)\n"),
    told("blocks side by side", "Blocks are got and freed by a run, and ___ two of them share a word",
         {"1": "no", "2": "any"}, " (0,DN,0,35)(A,GT,1)(B,GT,1)(AN,E,1)(BN,E,2)(AN,PD)\n"),
]
EXITS = [
    told("a return", "the exit DONE returns to the action ___ the call, the exit FAIL goes to ___ |",
         {"AB | AC": ("after", "L2"), "AC | AB": ("before", "L")}, " (SUB,DO,X)(B,PH) DONE\nSUB (A,PH) DONE\nX (C,PH)\n",
         " (SUB,DO,X)(B,PH) DONE\nSUB (A,PH) FAIL\nX (C,PH)\n"),
    told("no exit", "| none | to the ___ statement |", {"AB": "next", "AC": "last"}, " (A,PH)\n (B,PH) DONE\n (C,PH)\n"),
    told("a label as an exit", "| a label | to ___ statement |",
         {"AC": "its", "AB": "the next"}, " (A,PH) X\n (B,PH) DONE\nX (C,PH)\n"),
    told("the exit DONE", "| DONE | to the action ___ the ___ call that waits for its return; if ___ waits, the run ends, DONE",
         {"CBA | A": ("after", "latest", "none"), "CA | A": ("after", "first", "none")},
         " (X,DO)(A,PH) DONE\nX (Y,DO)(B,PH) DONE\nY (C,PH) DONE\n", " (A,PH) DONE\n (B,PH)\n"),
    told("the exit FAIL",
         "| FAIL | to the fail label of the ___ call that waits (trap 12 if it has ___); if ___ waits, the run ends, FAIL",
         {"AB | TRAP 12 | FAIL": ("latest", "none", "none"), "AC | TRAP 12 | FAIL": ("first", "none", "none")},
         " (X,DO,W) DONE\nX (A,PH)(Y,DO,Z)\nY FAIL\nZ (B,PH) DONE\nW (C,PH)\n", " (X,DO)\nX FAIL\n", " FAIL\n"),
    told("a run that goes to a label", "A run that goes to a label goes to the ___ of its statement",
         {"AT 1.0 AFTER 2 STEPS": "condition", "AT 1.1 AFTER 2 STEPS": "operations"}, " X\nX (A,PD)\n$COMMANDS\nstep 2\n",
         command="debug"),
]
PLACES = [
    told("which piece a get takes",
         "A get takes the ___ piece of the ___ size that is large enough and whose list is ___ empty",
         {"1026 | 1029": ("first", "smallest", "not"), "1024 | 1029": ("last", "smallest", "not")},
         " (A,GT,1)(B,GT,1)(C,GT,1)(D,GT,1)(A,FR)(C,FR)(E,GT,1)(E,PD)\n", " (A,GT,4)(B,GT,1)(C,GT,4)(D,GT,1)(D,PD)\n"),
    told("which half is given",
         "it is halved: the ___ half goes to the ___ of the list of its size, and the ___ half is halved further, or given",
         {"1024 1025": ("upper", "front", "lower"), "2047 2046": ("lower", "front", "upper")},
         " (A,GT,1)(A,PD)(PL)(B,GT,1)(B,PD)\n"),
    told("where a free puts a block",
         "A free puts the block at the ___ of the list of its size. But if its buddy, the ___ half of the piece that the "
         "block was halved from, is ___ and whole, the two are ___ first",
         {"1026 | 1024": ("front", "other", "free", "joined"), "1024 | 1024": ("end", "other", "free", "joined")},
         " (A,GT,1)(B,GT,1)(C,GT,1)(D,GT,1)(A,FR)(C,FR)(E,GT,1)(E,PD)\n", " (A,GT,1)(B,GT,1)(A,FR)(B,FR)(E,GT,2)(E,PD)\n"),
]
INPUTS = [
    told("lines of the input", "a ___ line is cut off, and a ___ line, an empty one too, is filled up with ___.",
         {"80 | 80 | 80 | A B": ("longer", "shorter", "blanks"), "100 | 1 | 0 | AB": ("shorter", "longer", "blanks")},
         f"{COUNT}{'A' * 100}\n", f"{COUNT}A\n", f"{COUNT}\n", " (A,IN,3)(A,PR,3)\n$INPUT\nA B\n"),
    told("bytes without a code", "A byte ___ a code reads as ?",
         {"A?B": "without", "?A?": "with"}, " (A,IN,3)(A,PR,3)\n$INPUT\na\x80b\n"),
    told("from line to line", "a run takes them in order, ___ from one line into the next",
         {"BCDEF": "also", "B": "but not"},
         f" (A,IN,6){'(A,IN,6)' * 7}\n+{'(A,IN,6)' * 5}(A,IN,1)(A,IN,6)(A,PR,6)\n$INPUT\n{'B':>80}\nCDEF\n"),
    told("an empty input", "An empty input has ___ line and so ___ character", {"0": ("no", "no"), "80": ("a", "a")}, COUNT),
]
# By what is printed where both of two tests hold, the first, the second and neither: what is said of the condition.
TRUE_IF = {
    "A | - | - | -": "all tests hold", "A | A | A | -": "some test holds", "- | - | - | A": "no test holds",
    "- | A | A | A": "not all tests hold", "A | -": "its test holds", "- | A": "its test does not hold",
}
HOLDS, DIFFERS, TRAPS = "(A,E,0)", "(A,E,1)", "(AN,E,0)"  # a test that holds, one that does not, and one that traps
SINGLE = {"IF", "NOT"}  # words with one test


def decks_of(word: str) -> list[str]:
    """Decks that print A where a condition is true, with each pair of tests, or with each test."""
    tests = [HOLDS, DIFFERS] if word in SINGLE else [one + other for one in (HOLDS, DIFFERS) for other in (HOLDS, DIFFERS)]
    return [f" {word} {it} THEN (A,PH)\n" for it in tests]


def conditions(program: str) -> Iterator[Trial]:
    """What makes each condition true, and which tests are taken."""
    yield from all_held(program, LANGUAGE, CONDITIONS)
    for word, told_of, *_ in table_with(text_of(LANGUAGE), "Word", "True if").rows[1:]:
        name = spans_of(word)[0]
        yield f"{LANGUAGE}: when {name} is true", TRUE_IF.get(seen_of(program, "run", *decks_of(name))), told_of
    for words, by, then, otherwise in table_with(text_of(LANGUAGE), "Word", "It is decided by the first test that").rows:
        for name in spans_of(words):
            yield f"{LANGUAGE}: what decides {name}", decided(program, name), (by, then, otherwise)


def decided(program: str, word: str) -> tuple[str, str, str]:
    """Which test decides a condition, so that none after it is taken; what it is then; and what if there is no such test."""
    second = "" if word in SINGLE else TRAPS
    tests = {"holds": HOLDS, "does not hold": DIFFERS}
    firsts = {how: seen_of(program, "run", f" {word} {test}{second} THEN (A,PH)\n") for how, test in tests.items()}
    decides = [how for how, what in firsts.items() if what == "-" or (what == "A" and second)]
    other = HOLDS if decides == ["does not hold"] else DIFFERS
    none = seen_of(program, "run", f" {word} {other}{'' if word in SINGLE else other} THEN (A,PH)\n")
    return " ".join(decides), "true" if firsts[decides[0]] == "A" else "false", "true" if none == "A" else "false"


def chains(program: str) -> Iterator[Trial]:
    """Blocks, fields and chains."""
    yield from all_held(program, LANGUAGE, CHAINS)


def operations(program: str) -> Iterator[Trial]:
    """What operations and exits do."""
    yield from all_held(program, LANGUAGE, [*OPERATIONS, *SPELLINGS, *EXITS])


def places_and_inputs(program: str) -> Iterator[Trial]:
    """Which place a get gives, and what a run takes of its input."""
    yield from all_held(program, LANGUAGE, [*PLACES, *INPUTS])


def language_sentences(program: str) -> Iterator[Trial]:
    """All of them."""
    for group in (chains, conditions, operations, places_and_inputs):
        yield from group(program)


# Each group, and a sentence of it that is turned round.
TURNED = [
    (chains, LANGUAGE, "and the last field is what", "and the first field is what"),
    (conditions, LANGUAGE, "| `IFANY` | holds | true |", "| `IFANY` | holds | false |"),
    (operations, LANGUAGE, "content that was saved last off", "content that was saved first off"),
    (places_and_inputs, LANGUAGE, "the upper half goes", "the lower half goes"),
]
