"""What the sheet docs/summary.md says in words: decks show which words are right."""
from __future__ import annotations

from collections.abc import Iterator

from held import all_held, told
from trials import Trial

SHEET = "docs/summary.md"
CARDS = [
    told("columns", "Columns 2 to 72 count; anything after column 72 is ___",
         {"1": "ignored", "11": "read"}, f"{' (A,E,1)(A,PD)':<72}(A,PD)\n"),
    told("the line $INPUT", "A line $INPUT, from column 1 on, ___ the deck and ___ the input",
         {"X": ("ends", "begins"), "card 3: no reading": ("begins", "ends")}, " (A,IN,1)(A,PR,1)\n$INPUT\nX)\n"),
    told("what is optional", "Operations and exit are ___;",
         {"- | -": "optional", "card 1: no reading | card 1: no reading": "needed"}, " IF (A,E,0) THEN\n",
         " IF (A,E,0) THEN X\nX\n"),
    told("IF, NOT and no exit", "IF, NOT | its one test ___, does ___ hold | none | the ___ statement",
         {"AB | B | B | AB": ("holds", "not", "next"), "B | AB | AB | B": ("does not hold", "also", "next")},
         " IF (A,E,0) THEN (A,PH)\n (B,PH)\n", " IF (A,E,1) THEN (A,PH)\n (B,PH)\n", " NOT (A,E,0) THEN (A,PH)\n (B,PH)\n",
         " NOT (A,E,1) THEN (A,PH)\n (B,PH)\n"),
    told("IFALL, IFANY and a label", "IFALL, IFANY | ___ tests hold, ___ test holds | a label | ___ statement",
         {"AC | B | AC | B": ("all", "some", "its"), "AC | AC | AC | B": ("some", "some", "its")},
         " IFALL (A,E,0)(A,E,0) THEN (A,PH) X\n (B,PH) DONE\nX (C,PH)\n",
         " IFALL (A,E,0)(A,E,1) THEN (A,PH) X\n (B,PH) DONE\nX (C,PH)\n",
         " IFANY (A,E,0)(A,E,1) THEN (A,PH) X\n (B,PH) DONE\nX (C,PH)\n",
         " IFANY (A,E,1)(A,E,1) THEN (A,PH) X\n (B,PH) DONE\nX (C,PH)\n"),
    told("IFNONE, IFNALL and DONE",
         "IFNONE, IFNALL | ___ test holds, not ___ tests hold | DONE | ___ the ___ call; ___ a call it ends the run",
         {"A | - | A | - | CBA": ("no", "all", "after", "latest", "without"),
          "A | - | A | - | CA": ("no", "all", "after", "first", "without")}, " IFNONE (A,E,1)(A,E,1) THEN (A,PH) DONE\n",
         " IFNONE (A,E,0)(A,E,1) THEN (A,PH)\n", " IFNALL (A,E,0)(A,E,1) THEN (A,PH) DONE\n",
         " IFNALL (A,E,0)(A,E,0) THEN (A,PH)\n", " (X,DO)(A,PH) DONE\nX (Y,DO)(B,PH) DONE\nY (C,PH) DONE\n"),
    told("no condition, and FAIL", "none | ___ | FAIL | the fail label of the ___ call; ___ a call it ends the run",
         {"AB | FAIL": ("always", "latest", "without"), "AC | FAIL": ("always", "first", "without")},
         " (X,DO,W) DONE\nX (A,PH)(Y,DO,Z)\nY FAIL\nZ (B,PH) DONE\nW (C,PH)\n", " FAIL\n"),
]
GROUPS = [
    told("exchanges", "(c,I,c2) | ___ c and c2",
         {"21": "interchanges", "22": "copies"}, " (A,E,1)(B,E,2)(A,I,B)(A,PD)(B,PD)\n"),
    told("definitions", "defines the field f: word, ___ bit, ___ bit:",
         {"000077000000 | TRAP 4": ("first", "last")}, " (0,DN,12,17)(0,DW,0,35)(A,GT,1)(AN,EO,77)(AW,PO)\n",
         " (0,DN,17,12)\n"),
    told("contents", "saves the content of c, restores the content saved ___",
         {"2": "last", "1": "first"}, " (A,E,1)(S,FC,A)(A,E,2)(S,FC,A)(R,FC,B)(B,PD)\n"),
    told("definitions that are saved", "saves the definition of f, restores the definition saved ___",
         {"64": "last", "0": "first"}, " (0,DN,0,5)(S,FD,N)(0,DN,0,35)(S,FD,N)(0,DN,0,1)(R,FD,N)(A,GT,1)\n+(AN,E,64)(AN,PD)\n"),
    told("a get", "gets a block of at ___ cd words, all ___; c becomes its ___",
         {"000000000000 1024 1028": ("least", "0", "place"), "000000000000 1024 1026": ("most", "0", "place")},
         " (0,DW,0,35)(A,GT,3)(AW,PO)(PL)(A,PD)(PL)(B,GT,1)(B,PD)\n"),
    told("a get with another chain", "then c2 becomes the ___ c; goes to L if there is ___ place",
         {"7 FULL": ("old", "no"), "1024 FULL": ("new", "no")},
         " (A,E,7)(0,DN,0,35)(A,GT,1024,AN)(AN,PD)(PL)(B,GT,1,,X)(OPEN,PH) DONE\nX (FULL,PH)\n", command="run --store 1"),
    told("a copy", "gets a ___ of the block at cd; goes to L if there is ___ place",
         {"5 5 FULL": ("copy", "no"), "5 0 FULL": ("block", "no")},
         " (0,DN,0,35)(A,GT,512)(AN,E,5)(B,DP,A)(AN,PD)(PL)(BN,PD)(PL)\n (C,DP,A,,X)(OPEN,PH) DONE\nX (FULL,PH)\n",
         command="run --store 1"),
    told("a free", "frees the block at c; c becomes ___, or cd as it ___ |",
         {"0 7": ("0", "was"), "1024 7": ("its place", "was")},
         " (A,GT,1)(A,FR)(A,PD)(PL)(0,DN,0,35)(A,GT,1)(AN,E,7)(A,FR,AN)(A,PD)\n"),
    told("a call", "calls L; its exit ___ goes to L2",
         {"B | C": "FAIL", "C | B": "DONE"}, " (S,DO,X)(B,PH) DONE\nS DONE\nX (C,PH)\n",
         " (S,DO,X)(B,PH) DONE\nS FAIL\nX (C,PH)\n"),
    told("what is taken of the input", "takes 1 to 6 characters into c; goes to L if ___ are left",
         {"TRAP 13 | TRAP 13 | AB | END": "fewer", "TRAP 13 | TRAP 13 | END | AB": "more"}, " (A,IN,0)\n", " (A,IN,7)\n",
         " (A,IN,2,X)(A,PR,2) DONE\nX (END,PH)\n$INPUT\nAB\n", " (A,IN,2,X)(A,PR,2) DONE\nX (END,PH)\n"),
    told("characters that are printed", "prints the ___ 1 to 6 characters of c",
         {"EF": "last", "AB": "first"}, " (A,EH,ABCDEF)(A,PR,2)\n"),
    told("numbers that are printed", "(c,PD), (c,PO) | prints c in ___, as twelve ___ digits",
         {"8 000000000010": ("decimal", "octal"), "000000000010 8": ("octal", "decimal")}, " (A,E,8)(A,PD)(PL)(A,PO)\n"),
    told("suffixes", "(A,EO,17) is ___ 17, (A,EH,AB) the ___ AB",
         {"15 2146": ("octal", "text"), "17 2146": ("decimal", "text")}, " (A,EO,17)(A,PD)(PL)(A,EH,AB)(A,PD)\n"),
]


def cards(program: str) -> Iterator[Trial]:
    """Cards, conditions and exits."""
    yield from all_held(program, SHEET, CARDS)


def groups(program: str) -> Iterator[Trial]:
    """What operations do."""
    yield from all_held(program, SHEET, GROUPS)


def sheet_sentences(program: str) -> Iterator[Trial]:
    """All of them."""
    for group in (cards, groups):
        yield from group(program)


# Each group, and a sentence of it that is turned round.
TURNED = [
    (cards, SHEET, "ends the deck and begins the input", "begins the deck and ends the input"),
    (groups, SHEET, "restores the content saved last", "restores the content saved first"),
]
