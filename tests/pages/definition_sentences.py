"""What docs/definitions.md says in words of decks and of what they spell: decks show which words are right."""
from __future__ import annotations

from collections.abc import Iterator

from held import all_held, seen_of, told
from listing_sentences import IMAGE, OLD, order
from trials import Trial

PAGE = "docs/definitions.md"
FIVE = " (A,E,5)(A,PD)\n"
NO_READING = "card 1: no reading"
READS = " (A,IN,1)(A,PR,1)(PL)\n"

JOBS = [
    told("the head of a job", "The *head* of a job is what comes ___ its line $INPUT, and its input is what ___ that line",
         {"X": ("before", "follows"), "A": ("after", "precedes")}, f"{READS}$INPUT\nX\n"),
    told("halves", "the lines ___ the first separator line are one half, those ___ it the other, and that line is in ___.",
         {"X": ("before", "after", "neither"), "$": ("before", "after", "both")}, f"{READS}$INPUT\nX\n"),
    told("a separator line",
         "without its line feed and a carriage return ___ that, it reads as the separator's word with ___ but blanks ___ it",
         {"X | X | card 4: no reading": ("before", "nothing", "after")}, f"{READS}$INPUT\r\nX\n", f"{READS}$input \t\nX\n",
         f"{READS}*\n*\n $INPUT\nX\n"),
    told("a job without a separator line", "A job of the first line alone is all ___.",
         {"TRAP 8": "head", "-": "input"}, " (A,IN,1)\n"),
    told("a tab and a small letter", "a tab as a ___, a small letter as its ___.",
         {"5": ("blank", "capital")}, " (A,E,5)\t(a,pd)\n"),
    told("codes", "ASCII code ___ that of the blank, for the 64 characters from the ___ to the ___, and ___ for any other byte",
         {f"33 | 0 | 63 | {NO_READING}": ("less", "blank", "underscore", "None")}, " (A,EH,A)(A,PD)\n", " (A,EH, )(A,PD)\n",
         " (A,EH,_)(A,PD)\n", " (A,EH,~)(A,PD)\n"),
    told("a last line", "a last line ___ one counts if it has a byte", {"5": "without", "-": "with"}, FIVE[:-1]),
    told("carriage returns", "takes ___ carriage return off a line's ___",
         {f"0 | {NO_READING} | {NO_READING}": ("one", "end"), f"0 | 0 | {NO_READING}": ("each", "end")}, " (A,PD)\r\n",
         " (A,PD)\r\r\n", "\r (A,PD)\n"),
    told("columns", "keeps the ___ 72 bytes of a line", {"5": "first", NO_READING: "last"}, f"{' (A,E,5)(A,PD)':<72}(X)\n"),
]
CARDS = [
    told("skipped cards", "| *, or anything if ___ columns are blank, or ___ column at all | ___ |",
         {f"0 | {NO_READING}": ("all", "no", "skipped")}, "*X\n   \n\n (A,PD)\n", "X) \n"),
    told("plain cards", "| a blank | ___, with the other columns as its ___ |", {"0": ("plain", "body")}, " (A,PD)\n"),
    told("continued cards", "| + | ___, with the other columns as its ___ |",
         {"0": ("continued", "body")}, " IF (A,E,0) THEN\n+(A,PD)\n"),
    told("labelled cards", "| a letter | ___, with the ___ run of letters and digits and, ___ it, its body |",
         {"B": ("labelled", "longest", "after"), "card 1: no such label": ("labelled", "shortest", "after")},
         " AB1\n (A,PH)\nAB1(B,PH)\n"),
    told("unknown cards", "| anything else | ___ |", {NO_READING: "unknown", "-": "skipped"}, "?X\n"),
    told("a tab", "A tab counts as a ___ here and everywhere", {"0": "blank"}, "\t(A,\tPD)\n"),
    told("numbers of cards", "each card's number is one ___ than the last",
         {"card 2: no reading": "more", NO_READING: "less"}, " (A,PD)\n (Q)\n"),
    told("blanks outside of parentheses", "is part of a word, but a blank is ___ there", {"0": "nothing"},
         " (A,PD) DO NE\n (Q,PH)\n"),
    told("blanks outside of groups", "outside of groups blanks ___;", {"0": "vanish"}, " (A,PD) DO NE\n (Q,PH)\n"),
    told("two words", "THEN NEXT would be ___ word, THENNEXT", {"B": "one", NO_READING: "no"},
         " IF (A,E,0) THEN NEXT\n (A,PH)\nNEXT (B,PH)\n"),
    told("an unclosed group", "a ( is unclosed if ___ ) follows or another ( comes ___ it",
         {f"{NO_READING} | {NO_READING} | 0": ("no", "before")}, " (A,PD\n", " ((A,PD)\n", " (A,PD)\n"),
    told("a spelling", "is a text with its blanks left ___ and its small letters as ___.",
         {"0": ("out", "capitals")}, " ( a, p d )\n"),
    told("an operand", "reads it as a chain or, if it is none, as a ___ number", {"10": "decimal", "8": "octal"},
         " (A,E,10)(A,PD)\n"),
    told("elements that may be empty", "has ___ chain if there are only blanks, and nothing_given takes blanks ___.",
         {f"1024 | {NO_READING}": ("no", "alone")}, " (A,GT,1, ,X)(A,PD) DONE\nX\n", " (A,GT,1)(B,DP,A,C,X) DONE\nX\n"),
    told("numbers", "at ___ one digit, blanks left ___, and a value ___ 2^36",
         {f"12 | 68719476735 | {NO_READING} | {NO_READING}": ("least", "out", "below")}, " (A,E,1 2)(A,PD)\n",
         " (A,E,68719476735)(A,PD)\n", " (A,E,68719476736)\n", " (A,E,)\n"),
    told("blanks of a text", "Here every character ___, even a blank", {"135202": "counts", "2146": "vanishes"},
         " (A,EH,A B)(A,PD)\n"),
    told("an octal number", "18 is ___ octal number", {NO_READING: "no", "16": "an"}, " (A,EO,18)(A,PD)\n"),
]
READ = [
    told("labels", "at most 6 letters and digits, the ___ a letter, and ___ DONE ___ FAIL",
         {f"B | {NO_READING} | {NO_READING} | {NO_READING}": ("first", "neither", "nor")}, " A12345\nA12345 (B,PH)\n",
         "1A (B,PH)\n",
         "DONE (B,PH)\n", "FAIL (B,PH)\n"),
    told("words as labels", "and THEN and IF are ___, too. DONE and SEVENTH are ___.",
         {f"B | B | {NO_READING} | {NO_READING}": ("labels", "none")}, " THEN\n (A,PH)\nTHEN (B,PH)\n", " IF\n (A,PH)\nIF (B,PH)\n",
         "DONE (B,PH)\n", "SEVENTH (B,PH)\n"),
    told("suffixes", "no suffix for a chain or a ___ number, O for an ___ number, H for a ___.",
         {"17 15 2146": ("decimal", "octal", "text"), "15 17 2146": ("octal", "decimal", "text")},
         " (A,E,17)(A,PD)( ,PH)(A,EO,17)(A,PD)( ,PH)(A,EH,AB)(A,PD)\n"),
    told("which element is the word", "In a group of one, that element is looked up, and else the ___ one",
         {f"0 | {NO_READING}": "second", f"{NO_READING} | 0": "first"}, " (A,PD)\n", " (PD,A)\n"),
    told("FC and FD", "with FC and FD the ___ element then says whether to save or to restore",
         {f"7 | {NO_READING}": "first", f"{NO_READING} | 7": "last"}, " (A,E,7)(S,FC,A)(R,FC,B)(B,PD)\n",
         " (A,E,7)(A,FC,S)(B,FC,R)(B,PD)\n"),
    told("groups of four", "any other spelling must be D and a ___, and ___ the field of that name",
         {"7 | TRAP 1": ("name", "defines")}, " (0,DP,18,35)(A,GT,1)(AP,E,7)(AP,PD)\n", " (A,GT,1)(AP,E,7)\n"),
    told("how statements are named", "An operation of a deck names statements by ___.",
         {f"A | {NO_READING}": "labels", f"{NO_READING} | A": "numbers"}, " (X,DO) DONE\nX (A,PH) DONE\n",
         " (1,DO) DONE\nX (A,PH) DONE\n"),
    told("I and suffixes", "| A,IO,7 | ___: I is ___ among the twelve letters, so it takes ___ suffix |",
         {NO_READING: ("none", "not", "no"), "-": ("Swap", "one", "a")}, " (A,IO,7)\n"),
    told("a condition word alone", "A condition word alone is ___, as an exit to the label of that name",
         {"B": "whole"}, " IF\n (A,PH)\nIF (B,PH)\n"),
    told("what is no prefix", "is ___ prefix, since IF has ___ test; nor are any items with one ___ NEXT",
         {f"{NO_READING} | {NO_READING} | A": ("no", "one", "after")}, " IF (A,E,0)(A,E,0) THEN (A,PH)\n",
         "NEXT IF (A,G,0) THEN NEXT (A,PD)\n", " IF (A,E,0) THEN (A,PH)\n"),
    told("THEN with an exit", "IF (A,G,0) THENNEXT is ___: the body is one ___.",
         {"B": ("whole", "exit"), NO_READING: ("no prefix", "word")}, " IF (A,E,0) THENNEXT\n (A,PH)\nNEXT (B,PH)\n"),
    told("the first statement", "no card continues a statement ___ the first", {f"{NO_READING} | 0": "before"}, "+(A,PD)\n",
         " (A,PD)\n+(A,A,1)\n"),
    told("what cards say",
         "A skipped card says ___. A plain card denotes ___ statement, and so does a labelled one, whose run of letters and "
         "digits must be a ___. A continued card belongs to the statement ___. An unknown card makes the deck say ___ at all",
         {f"AB | {NO_READING} | {NO_READING}": ("nothing", "one", "label", "before", "nothing")},
         " (X,DO) DONE\n* C\n (Q,PH)\nX (A,PH)\n*\n+(B,PH) DONE\n", "SEVENTH (A,PH)\n", "? (A,PH)\n"),
    told("skipped cards of a statement", "cards that continue it; skipped cards may be ___.",
         {"AB": "between", "card 3: no reading": "before"}, " (A,PH)\n*\n+(B,PH)\n"),
    told("two labels", "A label that is in the list ___ is a fault, twice_labelled, with the number of ___ card",
         {"card 3: label given twice": ("already", "its"), "card 1: label given twice": ("already", "the first")}, "X\nY\nX\n"),
    told("which fault comes first", "So a label given twice anywhere comes ___ a label that is missing anywhere",
         {"card 3: label given twice": "before", "card 1: no such label": "after"}, " Y\nX\nX\n"),
    told("the order of labels", "takes a statement's operations in order and ___ its exit, and the ___ fault counts",
         {"card 1: no such label | card 1: no such label": ("then", "first"),
          "card 2: no such label | card 2: no such label": ("before", "last")}, " (Q,DO)\n+ Y\n", " (Q,DO)\n+(R,DO)\n"),
    told("the plain DONE", "takes the statements in order, and puts plain_done ___ them.",
         {"1 w - w LABELS": "after", "- w 1 w LABELS": "before"}, " (PL)\n", command="list", look=order),
]
CHECKED = [
    told("up to which line", "All this is said of the deck up to its ___ line that reads as one which separates the parts of a job",
         {"2:2": "first", "3:1": "last"}, " (PL)\n $INPUT\n(\n", command="check",
         look=lambda it: it.stdout.decode().split(": ")[0]),
    told("which is an error", "these are the first two, and just the ___ is an error",
         {"2:2": "second", "1:2": "first"}, " (PL)\n $INPUT\n(\n", command="check",
         look=lambda it: it.stdout.decode().split(": ")[0]),
    told("a definition that traps", "(0,DN,18,36) is a bad definition, and (0,DN,A,36) ___, whatever A is",
         {"0 errors, 1 warning | 0 errors, 1 warning": "too", "0 errors, 1 warning | 0 errors, 0 warnings": "not"},
         " (0,DN,18,36)\n", " (0,DN,A,36)\n", command="check", look=lambda it: it.stdout.decode().splitlines()[-1]),
    told("a statement that names itself",
         "no way leads on from statement 0, which ___ leaves by DONE: card 2 is ___ of, although statement 1 names itself",
         {"2:1: warning": ("always", "warned")}, " (PL) DONE\nX (PL) X\n", command="check",
         look=lambda it: ":".join(it.stdout.decode().split(":")[:3])),
    told("numbers in a listing", "gives the statement's number on its ___ card alone",
         {"      1     0   (PL)/      2        +(PL)": "first", "      1         (PL)/      2     0  +(PL)": "last"},
         " (PL)\n+(PL)\n",
         command="list", look=lambda it: "/".join(it.stdout.decode().splitlines()[:2])),
    told("the end of a listing",
         "its words follow card 3, which shows ___ number. Then comes DONE with the number 2, and NEXT with 1",
         {"1 w 2 3 w - w LABELS NEXT 3        + THEN (A,PD)(A,S,1) NEXT": "no"},
         " (A,E,3)\nNEXT IF (A,G,0)\n+ THEN (A,PD)(A,S,1) NEXT\n", command="list",
         look=lambda it: f"{order(it)} {next(row for row in it.stdout.decode().splitlines() if row[6:7] == '3').strip()}"),
]


def verbs(program: str) -> Iterator[Trial]:
    """What verbs write, and what a loader says of a damaged text."""
    image, listing, run, loaded, renewed = (
        seen_of(program, verb, job) for verb, job in zip(("asm", "list", "run", "load", "renew"), (FIVE, FIVE, FIVE, IMAGE, OLD))
    )
    plain_image = " ".join(IMAGE.split())
    kinds = ["image" if image == plain_image else "listing", "listing" if listing.endswith("LABELS") else "image"]
    kinds += ["runs" if run == "5" else "writes", "same" if loaded == run else "other",
         "second" if renewed == plain_image else "first"]
    sentence = "asm writes its ___, list its ___, and run ___ it with the input. For load the head is the text of an image, which "
    sentence += "is run in the ___ way, and for renew one that is rewritten in the ___ version"
    yield from all_held(program, PAGE, [told("verbs", sentence, {run: tuple(kinds)}, FIVE)])
    header = image.split()
    ending = "statements" if header[1] == f"{2:012o}" else "words"
    what = "body" if header[2] == f"{len(header) - 3:012o}" else "image"
    yield from all_held(program, PAGE, [
        told("the words of a program", "the magic word, how many ___ there are, how many words the ___ has, and the body",
             {run: (ending, what)}, FIVE),
        told("fields of a word", "is the word of some fields, the ___ one leftmost",
             {"01": "first", "00": "last"}, FIVE, command="asm", look=lambda it: it.stdout.split()[4][:2].decode()),
        told("what is written", "What is written is of the ___ version: statement_words, words_of and text_of are these",
             {run: "second" if image == plain_image and image != " ".join(OLD.split()) else "first"}, FIVE),
        told("damaged texts", "the first deck's text ___ its last byte is NotWords 10, and ___ its last line it is NotAnImage",
             {"line 10: not a word | not an image": ("without", "without")}, IMAGE[:-1], IMAGE[:-13], command="load"),
    ])


def jobs_and_cards(program: str) -> Iterator[Trial]:
    """Jobs, lines, cards, items and elements."""
    yield from all_held(program, PAGE, [*JOBS, *CARDS])


def readings(program: str) -> Iterator[Trial]:
    """Labels, operations, statements and what decks spell."""
    yield from all_held(program, PAGE, READ)


def checked(program: str) -> Iterator[Trial]:
    """What is wrong with a deck, and listings."""
    yield from all_held(program, PAGE, CHECKED)


def definition_sentences(program: str) -> Iterator[Trial]:
    """All of them."""
    for group in (jobs_and_cards, readings, checked, verbs):
        yield from group(program)


# Each group, and a sentence of it that is turned round.
TURNED = [
    (jobs_and_cards, PAGE, "outside of groups blanks vanish", "outside of groups blanks count"),
    (readings, PAGE, "A continued card belongs to the statement before", "A continued card belongs to the statement after"),
    (checked, PAGE, "and just the second is an\nerror", "and just the first is an\nerror"),
    (verbs, PAGE, "the first one leftmost", "the last one leftmost"),
]
