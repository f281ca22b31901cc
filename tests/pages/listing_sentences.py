"""What docs/listing.md and docs/image.md say in words: listings and images of decks show which words are right."""
from __future__ import annotations

import itertools
import re
from collections.abc import Iterator

from answers import Answer
from held import all_held, answered, held, told
from trials import Trial

LISTING, IMAGES, MANUAL = "docs/listing.md", "docs/image.md", "docs/l6.1"
FIVE = " (A,E,5)(A,PD)\n"
WORDS = [
    "542651554722", "000000000002", "000000000007", "000020000000", "013077000000", "127777777777", "000000000005", "312077000000",
    "127777777777", "000002000000",
]
IMAGE = "".join(f"{it}\n" for it in WORDS)  # of FIVE
OLD = IMAGE.replace("722", "721", 1)  # the same in version 1
ADDED = "/            1   DONE/               000002000000/LABELS/"  # the end of a listing of one statement
NOT_ONE = "not an image"
COMMA = IMAGE[:26] + "000000000005\n000010000000\n336077000000\n000000000001\n140000000000\n000002000000\n"  # prints a comma
BEGIN, TEST, ROW = "1 0 IF (A,E,0) THEN (A,PD) 101010000000", "013077000000 127777777777 000000000000", "312077000000 127777777777"
OLD_CALL = [  # the image in version 1 of a deck with a call and its fail label
    "542651554721", "000000000004", "000000000011", "000012000000", "264077010002", "000000000001", "000013000000", "013077000000",
    "127777777777", "000000000005", "000002000000", "000002000000",
]
MANY = 4_096  # statements, one too many for version 1
LARGE = "".join(f"{it}\n" for it in (f"{MANY:012o}", f"{MANY:012o}", *["000000000000"] * (MANY - 1), "000002000000"))


def lines(answer: Answer[bytes]) -> str:
    """What is written, with a mark for each end of a line."""
    return "/".join(answer.stdout.decode("latin-1").split("\n"))


def order(answer: Answer[bytes]) -> str:
    """The numbers of cards in a listing, w for words, a dash for what is on no card, and the labels."""
    kinds = []
    for line in answer.stdout.decode("latin-1").splitlines():
        card = re.match(r" {1,6}(\d+)(?: |$)", line)
        other = "w" if re.fullmatch(r" {15}[0-7]{12}", line) else "-" if line.startswith(" ") else line.split()[0]
        kinds.append(card[1] if card else other)
    return " ".join(kind for kind, _ in itertools.groupby(kinds))


CARDS = [
    told("numbers and names",
         "A number is ___-aligned in its places, and a name is ___-aligned; the other places have ___. Each line ___ in a "
         "line feed",
         {"      1     0  X DONE/               000002000000/            1   DONE/               000002000000/LABELS/X          0/":
             ("right", "left", "blanks", "ends")}, "X DONE\n", command="list", look=lines),
    told("cards that have a line", "and each card has a line, ___ a comment and a blank card",
         {"1 2 - w LABELS": "even", "- w LABELS": "but not"}, "* C\n\n", command="list", look=order),
    told("what a column shows", "for a small letter its ___, for a tab a ___. A byte ___ a code shows ?.",
         {"1 *A B? 0 DONE 000002000000 LABELS": ("capital", "blank", "without"),
          "1 *a B? 0 DONE 000002000000 LABELS": ("small letter", "blank", "without")}, "*a\tb\x80\n", command="list"),
    told("bytes without a code", "Such bytes can ___ be in comments; otherwise the deck would have been ___",
         {"card 1: no reading": ("only", "refused")}, " (A\x80,PH)\n", command="list"),
    told("what is no column",
         "A carriage return that is the ___ byte of its line is ___ column, and anything after column 72 is ___ shown",
         {"1 *A 0 DONE 000002000000 LABELS | 1 * 0 DONE 000002000000 LABELS": ("last", "no", "not"),
          "1 *A? 0 DONE 000002000000 LABELS | 1 * 0 DONE 000002000000 LABELS": ("last", "a", "not")}, "*a\r\n", f"{'*':<72}X\n",
         command="list"),
    told("blanks of a line", "Blanks at the ___ of a line are ___. So the line of a blank card is its ___",
         {"      1  /      2        * X/            0   DONE/               000002000000/LABELS/":
             ("beginning", "dropped", "number"),
          "      1/      2        * X/            0   DONE/               000002000000/LABELS/": ("end", "dropped", "number")},
         "   \n* X  \n", command="list", look=lines),
    told("where the words come", "___ the last card of a statement come the words that the statement has",
         {"1 2 w - w LABELS": "After", "1 w 2 - w LABELS": "Before"}, " (A,E,1)\n+(A,PD)\n", command="list", look=order),
    told("which words come", "in order: its ___, its ___, its ___. Each has a line",
         {f"{BEGIN} {TEST} {ROW} 1 DONE 000002000000 LABELS": ("header", "tests", "operations"),
          f"{BEGIN} {ROW} {TEST} 1 DONE 000002000000 LABELS": ("header", "operations", "tests")}, " IF (A,E,0) THEN (A,PD)\n",
         command="list"),
    told("words and comments",
         "If a card ___ it continues the statement, then that card or a later one is the statement's ___ card, and the words "
         "come ___. If the next statement or the deck's end comes first, the words come ___ the comment",
         {"1 2 3 w 4 - w LABELS": ("after", "last", "there", "before"),
          "1 w 2 3 w 4 - w LABELS": ("after", "first", "there", "before"),
          "1 2 3 4 w - w LABELS": ("after", "last", "there", "after")}, " (A,E,1)\n* C\n+(A,PD)\n* D\n", command="list",
         look=order),
    told("the added statement", "It comes ___ the last card, as if on a card ___ a number",
         {"1 w 2 - w LABELS": ("after", "without"), "- w 1 w 2 LABELS": ("before", "without")}, " (PL)\n* C\n", command="list",
         look=order),
    told("the order of labels", "and then a line for each label, in the order of the ___:",
         {"1 w 2 w - w LABELS B A": "cards", "1 w 2 w - w LABELS A B": "names"}, "B (A,E,1)\nA DONE\n", command="list",
         look=order),
]
TEXTS = [
    told("the lines of an image", "twelve octal digits, the ___ first, ___ leading zeros, and a line feed",
         {" ".join(WORDS): ("highest", "including"), " ".join(it[::-1] for it in WORDS): ("lowest", "including")}, FIVE,
         command="asm"),
    told("what else is in a line", "___ else is allowed: ___ blank, ___ carriage return, ___ line without its line feed",
         {"line 1: not a word | line 1: not a word | line 10: not a word | 5": ("Nothing", "no", "no", "no"),
          "5 | 5 | 5 | 5": ("Much", "a", "a", "a")}, IMAGE.replace("\n", " \n", 1), IMAGE.replace("\n", "\r\n", 1), IMAGE[:-1],
         IMAGE, command="load"),
    told("which line is the fault",
         "load looks at ___ lines first. The ___ line that is not twelve octal digits and a line feed is its fault",
         {"line 2: not a word": ("all", "first"), "line 3: not a word": ("all", "last"), NOT_ONE: ("few", "first")},
         "000000000000\nX\nY\n", command="load"),
    told("other texts", "___ other text that is no image is NotAnImage, ___ an empty one",
         {f"{NOT_ONE} | {NOT_ONE}": ("Every", "even"), f"{NOT_ONE} | -": ("Every", "but not")}, "000000000000\n", "",
         command="load"),
    told("what is no image",
         "A text is not an image if a bit that must be zero is ___, if a word ___ the last statement, if a count is ___, if "
         "a print text ___ a comma, or if a target is ___ statement",
         {" | ".join([NOT_ONE] * 5): ("not", "follows", "wrong", "has", "no")}, IMAGE.replace("000020000000", "000020000001"),
         f"{IMAGE}000000000000\n", IMAGE.replace("0002\n", "0003\n", 1), COMMA, IMAGE.replace("000020000000", "000021000005"),
         command="load"),
    told("more statements than there may be", "An image of ___ statements than its version allows is no image",
         {f"{NOT_ONE} | -": "more", f"- | {NOT_ONE}": "fewer"}, f"542651554721\n{LARGE}", f"542651554722\n{LARGE}",
         command="load"),
    told("which versions there are",
         "The program writes version 2. Version 1, in which a program has at most 4,095 statements, ___ still be loaded",
         {"5 | 5": "can", "not an image | 5": "can't"}, OLD, IMAGE, command="load"),
    told("what renew reads and writes", "reads an image of ___ version and writes the version ___ image of the same program",
         {f"{' '.join(WORDS)} | {' '.join(WORDS)}": ("either", "2"),
          f"{OLD.replace(chr(10), ' ').strip()} | {' '.join(WORDS)}": ("either", "1")}, OLD, IMAGE, command="renew"),
]
BITS = [
    told("the count of statements",
         "The number of statements of the program, ___ the plain DONE that ends it. 3. The number of words that ___",
         {" ".join(WORDS): ("including", "follow"), " ".join(WORDS).replace("0002", "0001", 1): ("without", "follow")}, FIVE,
         command="asm"),
    told("from where bits are counted", "In a word, bits are numbered from 0, the ___, to 35",
         {"542651554722 000000000002 000000000005 101000000000 013077000000 127777777777 000000000000 000002000000": "leftmost",
          "542651554722 000000000002 000000000005 000000000101 013077000000 127777777777 000000000000 000002000000":
             "rightmost"}, " IF (A,E,0) THEN\n", command="asm"),
    told("operands that there are not", "Only operands that ___ have words, and they are in order",
         {f"542651554722 000000000002 000000000005 000020000000 {ROW} 340077000000 000002000000": "exist"}, " (A,PD)(PL)\n",
         command="asm"),
    told("a target in version 1", "Bits 18 to 23 of a header are 0, and the ___ twelve bits are the target",
         {"LIMIT | not an image": "last", "not an image | LIMIT": "first"},
         f"{OLD[:26]}000000000002\n000001000000\n000002000000\n", f"{OLD[:26]}000000000002\n000001000002\n000002000000\n",
         command="load --steps 9"),
    told("a label in version 1", "bit 23 is 1 if it ___ a label, and the ___ twelve bits are the number of the statement",
         {"- | not an image": ("has", "last"), "not an image | -": ("has not", "last")}, "".join(f"{it}\n" for it in OLD_CALL),
         "".join(f"{it}\n" for it in OLD_CALL).replace("077010002", "077000002"), command="load"),
]


def listings(program: str) -> Iterator[Trial]:
    """What is where in a listing."""
    yield from all_held(program, LISTING, CARDS)


def texts_of_images(program: str) -> Iterator[Trial]:
    """Which texts are images."""
    yield from all_held(program, IMAGES, [*TEXTS, *BITS])
    renewed = answered(program, "renew", OLD)
    same = [verb for verb in ("list", "asm", "run") if answered(program, verb, FIVE) == renewed]
    yield held(MANUAL, "what renew writes", "in the current version: the one that .Cm ___ writes", " ".join(same))


def listing_sentences(program: str) -> Iterator[Trial]:
    """All of them."""
    for group in (listings, texts_of_images):
        yield from group(program)


# Each group, and a sentence of it that is turned round.
TURNED = [
    (listings, LISTING, "in the order of the cards: the label", "in the order of the names: the label"),
    (texts_of_images, IMAGES, "`load` looks at all lines first", "`load` looks at few lines first"),
]
