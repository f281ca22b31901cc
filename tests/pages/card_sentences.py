"""What docs/language.md says of lines, columns, labels, items, elements and faults: decks show which words are right."""
from __future__ import annotations

import re
from collections.abc import Iterator

from held import all_held, answered, seen_of, told
from page_tables import plain, table_with, text_of
from trials import Trial

LANGUAGE = "docs/language.md"
REFUSED = "card 1: no reading"
LONG = 72  # columns
PAST = f"{' (A,E,1)(A,PD)':<{LONG}}(A,PD)\n"  # a card with a group past its columns
CARDS = 15  # with +, of a statement
MUCH = "* COMMENT\n" * (1 << 17)  # a part that is too long
SIXTY = " (A,E,1)\n" + ("+" + "(A,E,1)" * 6 + "\n") * 10  # and one more: operations on 11 cards

LINES = [
    told("small letters and tabs", "A small letter is read as its ___, and a tab as a ___. ___ other byte has a code",
         {f"A B | {REFUSED}": ("capital", "blank", "No"), "a B | -": ("small letter", "blank", "Any")}, "\t(a\tb,PH)\n",
         " (\x80,PH)\n"),
    told("a last line", "A last line ___ one counts if it has at least ___ byte",
         {"5 | -": ("without", "one"), "- | -": ("with", "no")}, " (A,E,5)(A,PD)", ""),
    told("carriage returns", "If the last byte of a line is a carriage return, that byte is ___; ___ one is.",
         {f"5 | {REFUSED}": ("dropped", "only"), "5 | 5": ("dropped", "more than")}, " (A,E,5)(A,PD)\r\n",
         " (A,E,5)(A,PD)\r\r\n"),
    told("lines that count", "Cards are counted from 1, and ___ lines count",
         {"card 4: no reading": "all", REFUSED: "few"}, "* ONE\n\n \n)\n"),
    told("which bytes are columns", "Only the ___ 72 bytes of a line are its columns. Anything after them is ___;",
         {"1": ("first", "ignored"), "11": ("last", "read")}, PAST),
    told("blank cards", "A card whose columns are ___ blank, or that has ___, is ___.",
         {"1": ("all", "none", "skipped"), "card 2: no reading": ("all", "none", "refused")}, " (A,E,1)\n\n   \n\t\n+(A,PD)\n"),
    told("other columns 1", "A card with anything else in column 1 has ___ reading",
         {f"{REFUSED} | {REFUSED}": "no", "0": "a"}, "# ONE\n", "5 (A,PD)\n"),
]
LABELS = [
    told("which run is the label", "The label of a card is the ___ run of letters and digits that begins in column 1",
         {"12": "longest", REFUSED: "shortest"}, "A1B2(A,A,1)(A,PD)\n IF (A,L,2) THEN A1B2\n"),
    told("where the body begins", "The body begins ___ after it; ___ blank is needed",
         {"0": ("immediately", "no"), REFUSED: ("later", "a")}, "X(A,PD)\n"),
    told("words that are labels", "Any other word ___ be a label, even IF, THEN and DO",
         {"000": "may", REFUSED: "may not"}, "IF (A,PD)\nTHEN (A,PD)\nDO (A,PD)\n"),
    told("a label alone", "A statement ___ be a label alone. It does ___, and the ___ statement follows",
         {"1": ("may", "nothing", "next"), "-": ("may", "nothing", "last")}, "X\n (A,E,1)(A,PD)\n"),
    told("which statement is continued", "A card with + in column 1 continues the ___ statement",
         {"0": "latest", "00": "first"}, " (A,PD)\n IF (A,N,0) THEN (A,PD)\n+(A,PD)\n"),
    told("cards with + alone", "A + card ___ items counts, too",
         {f"card {CARDS + 2}: past a limit": "without", "0": "with"}, " (A,PD)\n" + "+\n" * (CARDS + 1)),
    told("cards between", "Comments and skipped cards ___ count, and may be ___, also between the cards of a statement",
         {"0": ("don't", "anywhere"), "card 17: past a limit": ("do", "anywhere"),
          "card 3: no reading": ("don't", "elsewhere")}, " (A,PD)\n" + "+\n* C\n\n" * CARDS),
]
ITEMS = [
    told("blanks alone", "Blanks alone are ___ an item", {"0": "not", REFUSED: "also"}, " (A,PD)   \n"),
    told("blanks in a word", "___ blanks are removed from a word", {"-": "All", REFUSED: "No"}, " D O N E\n (A,PD)\n"),
    told("items on two cards", "___ item continues on another card: TH on one card and EN on the next are ___ words",
         {"card 2: no reading | -": ("No", "two"), "- | -": ("An", "one")}, " IF (A,E,0)\n+TH\n+EN\n", " IF (A,E,0)\n+TH EN\n"),
    told("what may be left out", "In both forms the operations and the exit are ___",
         {"-": "optional", REFUSED: "needed"}, " IF (A,E,0) THEN\nX\n"),
    told("how many tests", "The tests follow: ___ for IF and NOT, ___ or more for the others",
         {f"{REFUSED} | {REFUSED} | 0 | -": ("one", "one"), "0 | 0 | 0 | -": ("one or more", "one")},
         " IF (A,E,0)(B,E,0) THEN (A,PD)\n", " NOT (A,E,0)(B,E,0) THEN (A,PD)\n", " IFALL (A,E,0)(B,E,0) THEN (A,PD)\n",
         " IFANY (A,E,0) THEN\n"),
    told("after the exit of THEN", "If that word has more characters, they are the exit, and ___ follows",
         {f"{REFUSED} | -": "nothing", "- | -": "an operation"}, " IF (A,E,0) THENX (A,PD)\nX\n", " IF (A,E,0) THENX\nX\n"),
    told("after an exit", "An exit is a label, DONE or FAIL. ___ follows it",
         {f"{REFUSED} | card 2: no reading": "Nothing", "- | 0": "A group"}, " DONE (A,PD)\n", " DONE\n+(A,PD)\n"),
    told("what the card decides",
         "The position of an item among the others decides what it is. The card that it is on does ___ matter",
         {"0 | 0": "not", f"0 | {REFUSED}": "also"}, " IF (A,E,0) THEN (A,E,0)(A,PD) DONE\n",
         " IF\n+(A,E,0)\n+THEN\n+(A,E,0)(A,PD)\n+DONE\n"),
]
ELEMENTS = [
    told("blanks in elements", "Blanks in them are ___, so ( A, E, 5 ) is (A,E,5)",
         {"5 | 5": "ignored", REFUSED: "refused"}, " ( A, E, 5 )(A,PD)\n", " (A,E,5)(A,PD)\n"),
    told("blanks in texts",
         "Only in a text do ___ characters count, blanks too: in the ___ element of (text,PH) and in the ___ element of a "
         "spelling",
         {"A B | 0 | 2112": ("all", "first", "last"), "AB | 0 | 33": ("few", "first", "last")}, " (A B,PH)\n",
         " (A,EH, )(A,PD)\n", " (A,EH,A )(A,PD)\n"),
    told("leading zeros of a number", "leading zeros ___ matter", {"7": "don't", REFUSED: "do"}, " (A,E,007)(A,PD)\n"),
    told("chains and numbers", "a number exactly if it ___ with a digit, else a ___ |",
         {f"{REFUSED} | 5": ("begins", "chain"), "0 | 5": ("ends", "chain")}, " (A,E,0B)(A,PD)\n",
         " (0,D1,0,35)(B,GT,1)(B1,E,5)(A,E,B1)(A,PD)\n"),
    told("blanks inside an element", "Blanks may also be ___ an element: 0 0 5 is 5",
         {"5": "inside", REFUSED: "around"}, " (A,E,0 0 5)(A,PD)\n"),
    told("empty elements", "An element is ___ empty, except the ___ one of (c,GT,cd,,L)",
         {f"{REFUSED} | - | {REFUSED}": ("never", "fourth"), f"{REFUSED} | {REFUSED} | -": ("never", "third")}, " (A,GT,4,)\n",
         " (A,GT,4,,X)\nX\n", " (A,GT,,B,X)\nX\n"),
    told("other suffixes", "___ other spelling has a suffix: (A,IO,B) has ___ reading",
         {REFUSED: ("No", "no"), "-": ("Any", "a")}, " (A,IO,B)\n"),
]
FAULTS = [
    told("which part is too long",
         "A job that is too long; then its ___ or image; then its ___, if the verb takes it; then its ___.",
         {"deck too long | input too long | commands too long": ("deck", "input", "commands"),
          "commands too long | input too long | deck too long": ("commands", "input", "deck")},
         f"{MUCH}$COMMANDS\n{MUCH}$INPUT\n{MUCH}", f" (PL)\n$COMMANDS\n{MUCH}$INPUT\n{MUCH}", f" (PL)\n$COMMANDS\n{MUCH}",
         command="debug"),
    told("cards before labels",
         'The ___ "no reading" or "past a limit". Cards are taken in ___; comments and skipped cards have ___ fault',
         {"card 5: no reading": ("first", "order", "no"), "card 2: label given twice": ("last", "order", "no")},
         "X (PL)\nX (PL)\n*)\n\n)\n)\n"),
    told("a statement that isn't whole",
         "A statement that isn't whole is reported at its ___ card, even if that is a + card ___ items",
         {"card 2: no reading": ("last", "without"), REFUSED: ("first", "with")}, " IF (A,E,0)\n+\n* C\n\n (PL)\n"),
    told("the added DONE is not counted", "The DONE that every deck gets ___ counted here",
         {"-": "isn't", "card 65534: past a limit": "is"}, "A\n" + " DONE\n" * 65_533),
    told("form and count", "The form of a group is checked ___ the group is counted",
         {"card 12: past a limit | card 12: no reading": "before", "card 12: past a limit | card 12: past a limit": "after"},
         SIXTY + "+(A,E,1)(A,E,2)(A,E,3)\n", SIXTY + "+(A,E,1)(A,E,2)(A,Q,3)\n"),
    told("what is checked at the next card",
         "On a card that has no +, the end of the statement ___ it is checked ___: is that statement whole?",
         {REFUSED: ("before", "first"), "card 2: no reading": ("before", "last")}, " IF (A,E,0)\n5 (PL)\n"),
    told("items in order", "then the items from ___ to ___. The end of the last statement comes ___",
         {"card 12: no reading | card 12: past a limit": ("left", "right", "last"),
          "card 12: past a limit | card 12: no reading": ("right", "left", "last")}, SIXTY + "+(A,Q,1)(A,E,2)(A,E,3)(A,E,4)\n",
         SIXTY + "+(A,E,1)(A,E,2)(A,E,3)(A,Q,4)\n"),
    told("labels given twice", "The ___ card whose label an earlier card has",
         {"card 3: label given twice": "first", "card 4: label given twice": "last"}, " (PL)\nX (PL)\nX (PL)\nX (PL)\n"),
    told("labels that no card has", "The first card that names a label that ___ card has, in a group ___ as an exit",
         {"card 1: no such label | card 1: no such label": ("no", "or"),
          "card 1: no such label | card 2: no such label": ("no", "and not")}, " (PL) NEXT\n LAST\n", " (NEXT,DO)\n LAST\n"),
    told("too long, not too many", "A label, a chain, a text or a number that is too long or too large has ___ reading",
         {" | ".join([REFUSED] * 4): "no", " | ".join(["card 1: past a limit"] * 4): "a"}, "COUNTER (PL)\n", " (ABCDEFG,E,5)\n",
         " (A,EH,ABCDEFG)\n", " (A,E,68719476736)\n"),
]
# By what is printed, which statements have numbers and which labels there are: what the second card is.
KINDS = {
    ("0", "0", ""): "a comment", ("00", "0 1", ""): "a statement without a label", ("00", "0 1", "X"): "a statement with a label",
    ("00", "0", ""): "continues the latest statement",
}


def lines_and_labels(program: str) -> Iterator[Trial]:
    """Lines, columns and labels."""
    yield from all_held(program, LANGUAGE, [*LINES, *LABELS])


def columns_one(program: str) -> Iterator[Trial]:
    """What column 1 makes of a card."""
    table = table_with(text_of(LANGUAGE), "Column 1", "What the card is").rows
    rows = {plain(column): re.split("[;,]", kind)[0] for column, kind, _ in table}
    for name, column in {"*": "*", "a blank": " ", "a letter": "X", "+": "+"}.items():
        deck = f" (A,PD)\n{column}(A,PD)\n"
        cards, _, labels = answered(program, "list", deck).stdout.decode().partition("LABELS\n")
        numbers = re.findall(r"^ {6}\d {5}(\d) ", cards, re.MULTILINE)
        kind = KINDS.get((seen_of(program, "run", deck), " ".join(numbers), labels[:6].strip()))
        yield f"{LANGUAGE}: a card with {name} in column 1", kind, rows.get(name)


def items_and_elements(program: str) -> Iterator[Trial]:
    """Items and their order, elements and suffixes."""
    yield from all_held(program, LANGUAGE, [*ITEMS, *ELEMENTS])


def faults(program: str) -> Iterator[Trial]:
    """Which card a fault reports, and which fault comes first."""
    yield from all_held(program, LANGUAGE, FAULTS)


def card_sentences(program: str) -> Iterator[Trial]:
    """All of them."""
    for group in (lines_and_labels, columns_one, items_and_elements, faults):
        yield from group(program)


# Each group, and a sentence of it that is turned round.
TURNED = [
    (lines_and_labels, LANGUAGE, "Only the first 72 bytes", "Only the last 72 bytes"),
    (columns_one, LANGUAGE, "a statement without a label; columns", "a statement with a label; columns"),
    (items_and_elements, LANGUAGE, "count, blanks too: in the first", "count, blanks too: in the last"),
    (faults, LANGUAGE, "is checked before the group", "is checked after the group"),
]
