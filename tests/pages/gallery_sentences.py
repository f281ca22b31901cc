"""What docs/gallery.md says in words of its decks: they are run, changed and gone through, and show which words are right."""
from __future__ import annotations

import math
import re
from collections.abc import Iterator

from answers import Answer
from held import all_held, answered, held, seen_of, told
from page_tables import TOP
from trials import Trial

PAGE = "docs/gallery.md"


def deck(name: str, *changes: tuple[str, str], data: str = "") -> str:
    """A deck of examples/ with these changes, each a text and what comes in its place, and with other data if there are some."""
    text = (TOP / "examples" / f"{name}.deck").read_text("latin-1")
    for old, new in changes:
        assert old in text, f"{name}.deck without {old}"
        text = text.replace(old, new, 1)
    return text.partition("$INPUT")[0] + f"$INPUT\n{data}\n" if data else text


def gone_through(text: str, *commands: str) -> str:
    """A deck as a job with commands of the debugger."""
    cards, line, data = text.partition("$INPUT")
    return cards + "$COMMANDS\n" + "".join(f"{it}\n" for it in commands) + line + data


def first_line(answer: Answer[bytes]) -> str:
    """The first line that is printed."""
    return answer.stdout.decode().splitlines()[0].strip()


def second_line(answer: Answer[bytes]) -> str:
    """The second line that is printed."""
    return answer.stdout.decode().splitlines()[1].strip()


def arrows(answer: Answer[bytes]) -> str:
    """The lines of a drawing, without those of blocks."""
    return " ".join(it.strip() for it in answer.stdout.decode().splitlines() if " -> " in it)


def lost(answer: Answer[bytes]) -> str:
    """How many blocks are lost in the last map, and how many there are."""
    text = answer.stdout.decode()
    text = text[text.rfind("\n1024 ") :]
    return f"{text.count('LOST')} of {text.count('BLOCK')}"


def are_odd(answer: Answer[bytes]) -> str:
    """Whether the stars of a picture are just where the numbers of Pascal's triangle are odd."""
    rows = answer.stdout.decode().splitlines()[:-1]
    stars = [[at for at, cell in enumerate(row) if cell == "*"] for row in rows]
    middle = len(rows) - 1
    return str(all(it == [middle - n + 2 * k for k in range(n + 1) if math.comb(n, k) % 2] for n, it in enumerate(stars)))


def products(answer: Answer[bytes]) -> str:
    """How many words the blocks of each line have together."""
    rows = [row.split() for row in answer.stdout.decode().splitlines()[:-1]]
    return " ".join(sorted({str(int(row[0]) * int(row[-1])) for row in rows}))


LISTS = [
    told("the roads", "(XR,GT,2,XRN) puts a road at the ___ of the roads of X",
         {"ALBANY TO BOSTON 170": "front", "ALBANY TO NASHUA 150": "end"}, deck("scan"), look=first_line),
    told("the halves of towns and roads", "R and T are the same bits, the ___ half of word 0", {"R 0 0 17 T 0 0 17": "left"},
         gone_through(deck("scan"), "go", "fields"), command="debug",
         look=lambda it: " ".join(re.findall(r"^[RT] .*$", it.stdout.decode(), re.MULTILINE))),
    told("a road more", "in place of YTC each line names the town that is one road further ___.",
         {"ALBANY TO NASHUA 170": "on", "ALBANY TO BOSTON 170": "back"}, deck("scan", ("(YTC,PR,6)", "(YTRTC,PR,6)")),
         look=first_line),
    told("a queue", "Elements join a queue at the ___ and leave it at the ___.",
         {"A IS SERVED": ("end", "front"), "B IS SERVED": ("front", "front")}, deck("queue", data="AB-."), look=first_line),
    told("the ring of a queue", "it leads to the ___ block, and the last block leads to the ___.",
         {"Q -> 1026 N -> 1025 N -> 1026 N -> 1024": ("last", "first")}, gone_through(deck("queue", data="ABC."), "go", "draw"),
         command="debug", look=arrows),
    told("one that joins", "gets a block ___ the last and the first", {"Q -> 1026 N -> 1025 N -> 1026 N -> 1024": "between"},
         gone_through(deck("queue", data="ABC."), "go", "draw"), command="debug", look=arrows),
    told("one that is served", "frees the first block by (QN,FR,QNN), so that the ___ block leads to the ___.",
         {"Q -> 1026 N -> 1026 N -> 1025": ("last", "second")}, gone_through(deck("queue", data="ABC-."), "go", "draw"),
         command="debug", look=arrows),
    told("an empty queue", "If the first block is also the ___, the ring is ___ with it. If there is ___ ring, TAKE leaves by ___,",
         {"A IS SERVED NOBODY WAITS": ("last", "gone", "no", "FAIL")}, deck("queue", data="A--.")),
    told("a word that is used again", "A was served, and its word, at 1024, has been given to ___:",
         {"43": "C", "42": "B", "45": "E"}, gone_through(deck("queue"), "break 5", "go", "go", "block 1024"), command="debug",
         look=lambda it: it.stdout.decode().split()[-1][:2]),
    told("who leaves", "every ___ one has to leave", {"3 6 9": "third", "2 4 6": "second"}, deck("josephus"),
         look=lambda it: " ".join(it.stdout.decode().split()[:3])),
    told("the last to leave", "Number 16 is the ___ to leave", {"16": "last"}, deck("josephus"),
         look=lambda it: it.stdout.decode().splitlines()[1].split()[-1]),
    told("the same with another step", "in place of (P,E,PNN) every ___ one leaves", {"3 6 9": "third", "2 4 6": "second"},
         deck("josephus", ("(P,E,PNN)", "(P,E,PN)")), look=lambda it: " ".join(it.stdout.decode().split()[:3])),
]
TREES = [
    told("the walk of a tree", "a walk meets them in ___ order", {"DEIKLN": "alphabetical", "LINKED": "their"}, deck("tree"),
         look=first_line),
    told("the links of a tree", "the links to the ___ and the ___ subtree, or 0 for an empty one",
         {"L -> 1026 R -> 1028": ("left", "right")}, gone_through(deck("tree", data="BAC."), "break 4", "go", "draw"),
         command="debug",
         look=lambda it: " ".join(arrows(it).split()[6:])),
    told("the last letter", "The bug X still leads to E, whose ___ subtree got the last letter",
         {"L -> 1034": "left", "R -> 1034": "right"}, gone_through(deck("tree"), "break 4", "go", "draw"), command="debug",
         look=lambda it: " ".join(arrows(it).split()[-3:])),
    told("what is freed", "It is got at place 1024, so ___ nodes were freed", {"1024": "all", "2048": "some"}, deck("tree"),
         look=second_line),
    told("a letter that is there", "A letter that is already there goes to the ___.", {"R -> 1026": "right", "L -> 1026": "left"},
         gone_through(deck("tree", data="NN."), "break 4", "go", "draw"), command="debug",
              look=lambda it: " ".join(arrows(it).split()[-3:])),
    told("subtrees that are forgotten", "the ___ subtrees are forgotten. The second line is 2048, since words of the ___ unit are "
         "still in use",
         {"2048": ("left", "first")}, deck("tree", ("(S,FC,XL)(X,FR,XR)(FREE,DO)(R,FC,X) FREE", "(X,FR,XR) FREE")),
         look=second_line),
    told("the code of a blank", "since a blank has the ___ code", {"0": "lowest", "63": "highest"}, " (A,EH, )(A,PD)\n"),
    told("a letter that is appended", "shifts X six bits to the ___, and", {"64": "left", "0": "right"}, " (X,E,1)(X,L,6)(X,PD)\n"),
    told("the end of a line of words", "so the blanks at its end ___ its last word from the ___ line",
         {"AB     1 CD     1": ("separate", "next"), "ABCD   1": ("join", "next")}, deck("words", data="AB\nCD"),
         look=lambda it: " ".join(it.stdout.decode().splitlines()[:-1])),
    told("tests that change places", "the word is read ___, even if there is ___ next block: == TRAP 2", {"TRAP 2": ("first",
         "no")},
         deck("words", ("(PN,N,0)(PNW,L,X)", "(PNW,L,X)(PN,N,0)"))),
    told("names that collide", "and LOOP and POOL collide: they are in ___ list", {"POOL LOOP": "one"}, deck("symbols"),
         look=lambda it: " ".join(re.findall(r"[A-Z]+(?= *=)",
              next(r for r in it.stdout.decode().splitlines() if "LOOP  =" in r)))),
    told("where the lists are shown", "The ___ lines of the printout show the lists", {"LIST": "last"}, deck("symbols"),
         look=lambda it: it.stdout.decode().splitlines()[-2].split()[0]),
    told("a table that grows", "When more than ___ of its slots are used, it is replaced by a table of ___ the size",
         {"2 KEYS IN 4 SLOTS | 3 KEYS IN 8 SLOTS": ("half", "twice")}, deck("hash", data="ANT BEE"), deck("hash",
         data="ANT BEE CAT"),
         look=lambda it: it.stdout.decode().splitlines()[-2]),
    told("the next slot", "so the next one is tried, and slot 0 ___ the last", {"SLOT 0: BBC 1 SLOT 3: ABC 1": "after"},
         deck("hash", data="ABC BBC"), look=lambda it: " ".join(it.stdout.decode().splitlines()[:2])),
    told("a key whose slot is taken", "a key whose slot is taken goes into the ___ free slot",
         {"SLOT 0: ABD 1 SLOT 1: BBD 1": "next"},
         deck("hash", data="ABD BBD"), look=lambda it: " ".join(it.stdout.decode().splitlines()[:2])),
    told("what becomes of the old table", "inserts ___ key of the old table O into the new one, and ___ O",
         {"6 KEYS 0 of 1": ("every", "frees")}, gone_through(deck("hash"), "go", "out", "store"), command="debug",
         look=lambda it: f"{' '.join(re.findall(r'6 KEYS', it.stdout.decode()))} {lost(it)}"),
    told("a table that does not grow", "Four keys ___ it, and the search for a fifth ___ finds an empty slot", {"LIMIT": ("fill",
         "never")},
         deck("hash", ("(GROW,DO)", "(Q,E,0)"))),
    told("long names", "two names are the same if ___ their pieces are", {"1 2 1": "all", "1 1 1": "some"},
         deck("strings", data="ABCDEFG ABCDEFH ABCDEFG"), look=first_line),
    told("a piece with blanks", "fills the last piece with blanks on the ___, so that", {"AB     = 1": "right",
         "    AB = 1": "left"},
         deck("strings", data="AB"), look=lambda it: it.stdout.decode().splitlines()[1]),
    told("names of which one begins the other", "IFALL is true if ___ names end here, IFANY if just one of them does: LIST is ___ "
         "LISTS",
         {"1 2 1": ("both", "not"), "1 1 1": ("both", "also")}, deck("strings", data="LIST LISTS LIST"), look=first_line),
]
NUMBERS = [
    told("multiples that are out of the block", "the run ___ when 144 should be crossed out",
         {"TRAP 3": "traps"}, deck("sieve", ("IF (M,G,100)", "IF (M,G,200)")),
         look=lambda it: it.stdout.decode().split("== ")[1][:6]),
    told("cells", "a cell is alive if exactly ___ of its two neighbours is alive in this one", {"*.* *...*": "one",
         "*.* *.*.*": "each"},
         deck("cells"), look=lambda it: " ".join(row.strip(".") for row in it.stdout.decode().splitlines()[1:3])),
    told("stars", "with a star where a number is ___.", {"True": "odd", "False": "even"}, deck("cells"), look=are_odd),
    told("digits of a long number", "The last digit is the ___ of the list", {"000000": "first", "000001": "last"},
         gone_through(deck("factor"), "go", "block 1024"), command="debug", look=lambda it: it.stdout.decode().split()[-1][:6]),
    told("a full store", "So the store keeps ___ for itself", {"8192": "nothing"}, deck("full"), look=products),
    told("blocks of three words", "A block of three words takes ___.", {"2048 BLOCKS OF SIZE 3": "four"},
         deck("full", ("(S,E,1)", "(S,E,3)")), look=first_line),
    told("a get in another unit", "So the 100 words are got in the ___ unit, at 2048", {"100 WORDS AT 2048": "second"},
         deck("buddy"),
         look=first_line),
    told("a get in the first unit", "The 50 words take 64, and are got in the ___ unit, at 1088", {"50 WORDS AT 1088": "first"},
         deck("buddy"),
         look=second_line),
    told("a block that is left", "so a block of 1,024 words does ___ fit there, and the printout says 2048",
         {"1024 WORDS AT 2048": "not", "1024 WORDS AT 1024": "also"}, deck("buddy"), look=lambda it: it.stdout.decode().splitlines()[2]),
    told("a block that is freed", "After that block is freed, the unit is ___ again", {"1024 WORDS AT 1024": "whole"}, deck("buddy"),
         look=lambda it: it.stdout.decode().splitlines()[3]),
    told("what has no mark", "then goes over *all* blocks and frees those ___ a mark", {"F E C 3 of 7": "without"},
         gone_through(deck("collect"), "break 5", "go", "store", "go", "out"), command="debug",
         look=lambda it: f"{' '.join(re.findall(r'FREES (.)', it.stdout.decode()))} {lost(it)}"),
    told("a cycle back to the root", "stops at a block that is marked already. So the cycle from D back to the root does ___ harm",
         {"DONE": "no", "LIMIT": "much"}, deck("collect"), look=lambda it: it.stdout.decode().split("== ")[1].split()[0]),
    told("nothing is garbage", "Then ___ is garbage, and ___ seven blocks are kept", {"GFEDCBA": ("nothing", "all")},
         deck("collect", ("(TLLR,E,T)", "(TLLR,E,TR)")), look=lambda it: "".join(re.findall(r"KEEPS (.)", it.stdout.decode()))),
    told("counts of links", "When A no longer leads to B, B is ___, and D has ___ link left. When T no longer leads to A, then A, "
         "C and D are ___.",
         {"B0 D1 A0 C0 D0": ("freed", "one", "freed")}, deck("counts"),
         look=lambda it: " ".join("".join(pair) for pair in re.findall(r"(.) HAS (.)", it.stdout.decode())[:5])),
    told("a helper", "X is only a helper, and is ___ counted", {"000002": "not", "000003": "also"},
         gone_through(deck("counts"), "break 3", "go", "block 1030"), command="debug",
              look=lambda it: it.stdout.decode().split()[-1][:6]),
    told("a ring that is lost", "After T no longer leads to E, its count is ___ 1, because of F. So ___ are kept for ever",
         {"E HAS 1 2 of 2": ("still", "both")}, gone_through(deck("counts"), "go", "out", "store"), command="debug",
         look=lambda it: f"{' '.join(re.findall('E HAS .', it.stdout.decode()))} {lost(it)}"),
    told("a ring that is none", "F does not lead back to E, and ___ are freed, too", {"0 of 0": "both"},
         gone_through(deck("counts", ("(XL,E,T)(TK,A,1)", "")), "go", "store"), command="debug", look=lost),
]


def lists(program: str) -> Iterator[Trial]:
    """Lists and rings."""
    yield from all_held(program, PAGE, LISTS)


def trees(program: str) -> Iterator[Trial]:
    """Trees and tables."""
    yield from all_held(program, PAGE, TREES)
    printed = [answered(program, "run", it).stdout.decode().splitlines() for it in (deck("strings"), deck("strings", ("(FREE,DO)",
         "")))]
    steps = [int(it[-1].split()[3]) for it in printed]
    words = "same" if printed[0][:-1] == printed[1][:-1] else "other", "fewer" if steps[1] < steps[0] else "more"
    yield held(PAGE, "pieces that are not freed", "Without (FREE,DO) the ___ names and numbers are printed, in ___ steps", words)


def numbers(program: str) -> Iterator[Trial]:
    """Numbers, bits and storage."""
    yield from all_held(program, PAGE, NUMBERS)
    rows = [row.split() for row in answered(program, "run", deck("matrix")).stdout.decode().splitlines()[10:14]]
    table = [[int(it) for it in row] for row in rows]
    is_sum = all(table[i][j] == table[i - 1][j] + table[i][j - 1] for i in range(1, 4) for j in range(1, 4))
    yield held(PAGE, "the product", "each element is the sum of its neighbours ___ and on the ___.", ("above",
         "left") if is_sum else None)
    session = (TOP / "examples/lost.session").read_text("latin-1")
    drawn, blocks = re.findall(r"^(\d) BLOCKS", answered(program, "debug", session).stdout.decode(), re.MULTILINE), seen_of(program,
         "debug", session)
    words = ("third" if drawn[:1] == ["2"] and " LOST" in blocks else "second", "nothing" if " LOST" in blocks else "much")
    yield held(PAGE, "a lost block", "The drawing has two blocks, and the map has a ___ one, to which ___ leads:", words)


def gallery_sentences(program: str) -> Iterator[Trial]:
    """All of them."""
    for group in (lists, trees, numbers):
        yield from group(program)


# Each group, and a sentence of it that is turned round.
TURNED = [
    (lists, PAGE, "Elements join a queue at the end and leave it at the front",
    "Elements join a queue at the front and leave it at the end"),
    (trees, PAGE, "already there goes to\n  the right", "already there goes to\n  the left"),
    (numbers, PAGE, "frees those without a mark", "frees those with a mark"),
]
