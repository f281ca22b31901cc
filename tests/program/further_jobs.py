"""Further random jobs, made from a number, for what those of hostile_jobs.py seldom reach.

Some decks spell all forms of the manual in odd ways, some have few faults of each kind; others fill the
pushdowns, the calls and the store, take the input to its end, or are looked at in long sessions. Images are
made by the model, in either version.
"""
from __future__ import annotations

import random
import re
from collections.abc import Callable
from dataclasses import dataclass

from hostile_jobs import CHARACTERS, altered_image, broken
from model.cards import assemble
from model.faults import Fault
from model.images import image_of
from model.programs import Chain, Condition, Exit, Number, Operand, Program, Row, Statement, Text

# The forms of groups, as the manual has them. A part between < and > is made by the Speller.
TESTS = ["<c>,<test>,<cd>", "<c>,<test>O,<octal>", "<c>,<test>H,<text>"]
OPERATIONS = """
    <c>,<sum>,<cd>  <c>,<sum>O,<octal>  <c>,<sum>H,<text>
    <c>,I,<c>  <cd>,D<f>,<cd>,<cd>  0,DN,18,35  1,DV,0,17  S,FC,<c>  R,FC,<c>  S,FD,<f>  R,FD,<f>
    <c>,GT,<cd>  <bug>,GT,<size>  <c>,GT,<cd>,<c>  <bug>,GT,<size>,<c>  <c>,GT,<cd>,<c>,<L>  <bug>,GT,<cd>,,<L>
    <c>,DP,<cd>  <c>,DP,<cd>,,<L>  <c>,FR  <c>,FR,<cd>
    <L>,DO  <L>,DO,<L>  <c>,IN,<cd>  <bug>,IN,<size>,<L>  <c>,PR,<cd>  <bug>,PR,<size>  <c>,PD  <c>,PO
    <long>,PH  PL
""".split()
WRONG = """
    <c>,Q,<cd>  <c>,<sum>  <c>,IO,<c>  <c>,IH,<c>  <c>,<test>X,<cd>  <cd>,E,<cd>  <c>,E,  <c>,EO,8  <c>,EH,
    <c>,E,68719476736  <c>,E,000000000000000000068719476735  <c>,EO,777777777777  <c>,EO,1000000000000
    <c>,EH,SEVENTH  ABCDEFG,PD  A,E,ABCDEFG  1A,PD  A,E,1A  A-B,PD  ,PD  0,DNN,1,2  0,D-,1,2  0,D,1,2
    <c>,GT,<cd>,  <c>,GT,<cd>,<c>,  <c>,GT,<cd>,,  <c>,GT,<cd>,<c>,<L>,<L>
    <c>,DP,<cd>,<c>,<L>  <c>,DP,<cd>,<L>  <c>,FR,<cd>,<c>  S,FD,NN  T,FC,<c>  S,FE,<c>
    NO,DO  DONE,DO  <L>,DO,FAIL  SEVENTH,DO  <bug>,IN,1,NO  <c>,IN,1,  <c>,IN  <c>,PR  <c>,PD,<c>
    ~,PH  <c>,EH,~  ,PH  <long>,PH,  A,B,PH  <sixty>,PH  <sixty>.,PH  PL,PL  P,L
""".split()
TEXTS = ("PH", "H,")  # found in the forms that have a text, in which blanks count
LABELS = ["L", "IF", "THEN", "X9", "LABEL6", "NONE"]
CONDITIONS = ["IF", "NOT", "IFALL", "IFANY", "IFNONE", "IFNALL"]
NUMBERS = ["0", "1", "2", "5", "6", "7", "18", "35", "36", "1024", "1025", "00012"]

PARTS: dict[str, Callable[[random.Random], str]] = {
    "c": lambda chance: chance.choice("ABXYZ") + "".join(
        chance.choices("NNVF0Z9", k=chance.choice([0, 0, 0, 1, 2, 5]))),
    "bug": lambda chance: chance.choice("ABXYZ"),
    "number": lambda chance: chance.choice([*NUMBERS, str(chance.randrange(2**36))]),
    "cd": lambda chance: PARTS[chance.choice(["c", "number"])](chance),
    "size": lambda chance: str(chance.randint(1, 6)),
    "octal": lambda chance: f"{chance.choice([chance.randrange(2**36), chance.randint(0, 9)]):o}",
    "text": lambda chance: "".join(chance.choices(CHARACTERS, k=chance.randint(1, 6))),
    "long": lambda chance: "".join(chance.choices(CHARACTERS, k=chance.choice([1, 6, 7, 20, 59]))),
    "sixty": lambda chance: "".join(chance.choices(CHARACTERS, k=60)),
    "f": lambda chance: chance.choice("NVF0Z9"),
    "test": lambda chance: chance.choice("ENGLOZ"),
    "sum": lambda chance: chance.choice("EASMVYNOXCLR"),
}

# Operands of which some are wrong in any program.
OPERANDS: dict[type, list[Operand]] = {
    Chain: [Chain((9,)), Chain((10, 36)), Chain((10,)), Chain((35, 0, 9, 10, 35, 34))],
    Number: [Number(0), Number(5), Number(2**36 - 1)],
    Text: [Text("A,"), Text("("), Text(")A"), Text("_" * 60), Text("_" * 61)],
}


@dataclass(frozen=True)
class Job:
    """A job: the program's words, and what standard input gives."""

    words: list[str]
    stdin: bytes


def job_of(number: int) -> Job:
    """The job of a number."""
    chance = random.Random(f"further {number}")
    makers = [spelled_job, image_job, deep_job, churned_job, aliased_job, input_job, parted_job, worded_job]
    return chance.choices(makers, [25, 18, 13, 15, 15, 8, 3, 3])[0](chance)


def spelled_job(chance: random.Random) -> Job:
    """A job of which the deck has statements of all forms."""
    deck = Speller(chance).deck()
    words = chance.choice([["asm"], ["list"], ["run", "--steps", "500"], ["debug", "--steps", "500"]])
    rest = b"$COMMANDS\n" + commands(chance, 60) if words[0] == "debug" else b""
    return Job(words, deck + rest + an_input(chance))


def image_job(chance: random.Random) -> Job:
    """A job with an image of either version: whole, altered, or of what is no program."""
    many = b" (PL)\n" * chance.choice([4_094, 4_095])  # as many statements as version 1 has room for, or one more
    deck = chance.choices([Speller(chance).deck(), churned_deck(chance), many], [66, 28, 6])[0]
    try:
        program = assemble(deck).program
    except Fault:
        program = []
    if program and chance.random() < 0.4:
        break_rule(chance, program)
    image = image_of(program, chance.choice([1, 2]))
    if chance.random() < 0.4:
        image = altered_image(chance, image)
    words = chance.choice([["renew"], ["load", "--steps", "2000"]])
    return Job(words, image + an_input(chance))


def break_rule(chance: random.Random, program: Program) -> None:
    """Changes a program in one place, so that it is perhaps none."""
    statement = chance.choice(program)
    row = chance.choice([*statement.tests, *statement.operations, Row("PL")])
    targets = [None, 0, len(program) - 1, len(program), 4_095]
    texts = [row for one in program for row in one.operations if row.name == "PH"]
    choice = chance.randint(0, 9)
    if texts and choice < 2:
        chance.choice(texts).operands[0] = chance.choice(OPERANDS[Text])
    elif choice == 2:
        program.insert(chance.randint(0, len(program)), Statement())
    elif choice == 3:
        statement.condition = chance.choice(list(Condition))
    elif choice == 4:
        statement.exit, statement.target = chance.choice(list(Exit)), chance.choice(targets)
    elif choice == 5:
        row.target = chance.choice(targets)
    elif choice == 6:
        row.field_name = chance.choice([None, 0, 35, 36])
    elif choice == 7:
        at = chance.randint(0, len(row.operands))
        row.operands.insert(at, chance.choice(OPERANDS[chance.choice([Chain, Number])]))
    elif row.operands:
        at = chance.randrange(len(row.operands))
        row.operands[at] = chance.choice(OPERANDS[type(row.operands[at])])


def deep_job(chance: random.Random) -> Job:
    """A job that reaches the limits of the pushdowns and of the calls that wait, or stays below them."""
    depth = chance.choice([1, 3, 1_023, 1_024, 1_025])
    back = chance.choice([depth, depth - 1, depth + 1, 2])
    save, restore = chance.choice([("S,FC,C", "R,FC,A"), ("S,FD,N", "R,FD,7"), ("S,FC,C", "R,FC,AN")])
    label = chance.choice(["", ",BAD"])
    leave = chance.choice(["DONE", "FAIL"])
    decks = [
        f" (CALL,DO{label})(C,PD) {leave}\nCALL (C,A,1)\n IF (C,L,{depth}) THEN (CALL,DO{label}) {leave}\n"
        f" (BOTTOM,PH) {leave}\nBAD (B,A,1)(B,PD)(PL) {chance.choice(['DONE', 'FAIL'])}\n",
        f" (0,DN,{chance.randint(0, 35)},35)\nSAVE (C,A,1)({save})\n IF (C,L,{depth}) THEN SAVE\n"
        f"BACK (D,A,1)({restore})\n IF (D,L,{back}) THEN BACK\n (A,PD)( ,PH)(D,PO)\n",
    ]
    deck = chance.choice(decks).encode("ascii")
    if chance.random() < 0.3:
        number = chance.choice(["0", "7", "6", "A"])
        deck = f" (A,{chance.choice(['IN', 'PR'])},{number})(A,PD)\n".encode("ascii") + deck
    return with_verb(chance, deck, 9_000)


def churned_job(chance: random.Random) -> Job:
    """A job that gets and frees many blocks."""
    return with_verb(chance, churned_deck(chance), chance.choice([300, 3_000, 9_000]))


def churned_deck(chance: random.Random) -> bytes:
    """A deck with a list into which it puts blocks, and from which it takes some out, at random."""
    extra = chance.choice(
        ["", "", "(LN,DP,LN,,DROP)", "(X,DP,LN,,DROP)(XN,E,X)", "(S,FC,LN)", "(LNF,E,T)", "(Y,I,LNF)"])
    first, last = sorted([chance.randint(0, 35), chance.randint(0, 35)])
    cards = [
        f" (0,DN,18,35)(0,DV,0,17)({chance.choice([0, 0, 1, 3])},DF,{first},{last})",
        f" (S,E,{chance.randint(0, 2**36 - 1)})(L,GT,{chance.choice([1, 2, 8])})",
        f"LOOP (C,A,1)(S,M,{chance.choice([5, 13, 8_189])})(S,A,{chance.choice([1, 7, 99_991])})(T,E,S)(T,R,20)",
        f" (K,E,T)(K,Y,{chance.choice([1, 3, 9, 40, 300, 1_024])})(K,A,1)",
        f" IF (T,O,{chance.choice([1, 3, 2, 5])}) THEN DROP",
        f" (LN,GT,K,LNN,DROP){extra}(LNV,E,C)(LN,PD)( ,PH) NEXT",
        f"DROP (Q,E,L)(J,E,T)(J,Y,{chance.choice([1, 3, 10, 30])})",
        "WALK IFALL (QN,N,0)(J,G,0) THEN (Q,E,QN)(J,S,1) WALK",
        " IF (QN,E,0) THEN NEXT",
        " (QN,PD)(-,PH)(QN,FR,QNN)",
        f"NEXT IF (C,L,{chance.choice([5, 50, 400])}) THEN LOOP",
    ]
    return "".join(card + "\n" for card in cards).encode("ascii")


def aliased_job(chance: random.Random) -> Job:
    """A session with chains that lead to the same bits, or by way of what the operation changes."""
    cards = [" (0,DN,18,35)", " (A,GT,2)(AN,E,A)(B,GT,4)(BN,E,A)(C,E,B)"]
    for field in "FG":
        first, last = sorted([chance.randint(0, 35), chance.randint(0, 35)])
        cards[0] += f"({chance.choice([0, 0, 1])},D{field},{first},{last})"
    for _ in range(chance.choice([1, 2, 4, 8])):
        place, other = (chance.choice("ABC") + "N" * chance.choice([0, 1, 1, 2]) for _ in range(2))
        bits, others = (chance.choice("ABC") + "N" * chance.choice([0, 0, 1]) + chance.choice("FG") for _ in range(2))
        cards.append(chance.choice([
            f" ({place},I,{other})", f" ({bits},I,{others})", f" ({bits},I,{place})", f" ({bits},IN,6)",
            f" ({bits},E,{chance.randrange(2**36)})", f" ({bits},{chance.choice('EASXCLR')},{others})",
            f" ({place},DP,{other})", f" ({place}N,DP,{place})", f" ({bits},DP,{place})",
            f" ({place},GT,2,{other})", f" ({place},GT,1,{place}N)", f" ({place},GT,2,{place}{bits[-1]})",
            f" ({place},FR,{other})", f" ({place},FR,{place}N)", f" ({place}N,FR,{place})",
            f" (S,FC,{place})({other},FR)(R,FC,{bits})",
        ]))
    asked = ["go", "show", "draw", "store", *[f"block {at}" for at in range(1_024, 1_040, 2)], "back 3", "show"]
    deck = "\n".join([*cards, "$COMMANDS", *asked, ""]).encode("ascii")
    return Job(["debug", "--store", "1"], deck + an_input(chance, always=True))


def input_job(chance: random.Random) -> Job:
    """A job that takes its input to the end, and prints it."""
    take = chance.choice(["1", "2", "3", "4", "5", "6", "6", "B"])
    end = chance.choice([",END", ",END", ""])
    out = chance.choice([f"(A,PR,{take})", "(A,PO)(PL)", "(A,PD)( ,PH)", "(AN,PR,6)"])
    deck = f" (B,E,{chance.randint(1, 7)})(0,DN,0,35)\nMORE (A,IN,{take}{end}){out} MORE\nEND (END,PH)\n"
    return with_verb(chance, deck.encode("ascii"), 900, always=True)


def parted_job(chance: random.Random) -> Job:
    """A job with a part that is about as long as it may be, or with two."""
    verb = chance.choice(["run", "asm", "debug", "debug", "load", "renew"])
    most = {"deck": 2**23 if verb in ("load", "renew") else 2**20, "commands": 2**20, "input": 2**20}
    long = chance.sample(list(most), chance.choice([1, 1, 2]))
    lengths = {part: most[part] + chance.choice([-1, 0, 1, 1]) if part in long else 3 for part in most}
    deck = b"*" * (lengths["deck"] - 1) + b"\n" if "deck" in long else chance.choice([b" (PL)\n", b"5\n"])
    rest = b"$COMMANDS\n" + b"go".ljust(lengths["commands"] - 1) + b"\n" if verb == "debug" else b""
    return Job([verb], deck + rest + b"$INPUT\n" + b"A" * lengths["input"])


def worded_job(chance: random.Random) -> Job:
    """A job with words of which most are wrong, or at the end of a range."""
    verb = chance.choice(["run", "run", "load", "debug", "asm", "list", "renew", "helps", "Run", ""])
    words = [verb]
    for _ in range(chance.choice([0, 1, 1, 2])):
        option = chance.choice(["--store", "--steps", "--output", "--stor", "--help", "-s", "store", "--STORE"])
        value = chance.choice(["0", "1", "255", "256", "007", "1000000000", "1000000001", "16777216", "16777217",
                          "", "-1", "1.5", "0x5", "9" * 30])
        words += chance.choice([[option, value], [f"{option}={value}"], [option]])
    return Job(words[chance.choice([0, 0, 0, 0, 1]):], b" (PL)(5,PH)\n")


def with_verb(chance: random.Random, deck: bytes, steps: int, always: bool = False) -> Job:
    """The job that runs or debugs a deck, perhaps always with an input."""
    verb = chance.choice(["run", "debug"])
    words = [verb, f"--steps={steps}", "--store", chance.choice(["1", "1", "2", "8"])]
    if chance.random() < 0.1:
        words += ["--output", str(chance.randint(0, 50))]
    rest = b"$COMMANDS\n" + commands(chance, steps) if verb == "debug" else b""
    return Job(words, deck + rest + an_input(chance, always))


def commands(chance: random.Random, steps: int) -> bytes:
    """Commands of a session that looks at states all over a run."""
    numbers: dict[str, Callable[[], int]] = {
        "step": lambda: chance.randint(0, chance.choice([3, 30, steps])),
        "back": lambda: chance.randint(0, chance.choice([3, 30, steps])),
        "break": lambda: chance.randint(0, 12),
        "clear": lambda: chance.randint(0, 12),
        "block": lambda: 1_024 + chance.choice([1, 2, 8, 32, 256]) * chance.randint(0, chance.choice([3, 40])),
    }
    names = "step step step go back break clear block block block draw store show fields out".split()
    lines = []
    for _ in range(chance.choice([3, 10, 25])):
        name = chance.choice(names)
        lines.append(f"{name} {numbers[name]()}\n" if name in numbers else f"{name}\n")
    return "".join(lines).encode("ascii")


def an_input(chance: random.Random, always: bool = False) -> bytes:
    """An input after its separator line, or none."""
    if chance.random() < 0.6 and not always:
        return b""
    lines = []
    for _ in range(chance.choice([0, 1, 2, 5])):
        lines.append(bytes(chance.randrange(256) for _ in range(chance.choice([0, 1, 6, 79, 80, 81, 90]))))
    ends = chance.choice([b"\n", b"\r\n", b"\r\r\n"])
    mark = b"$INPUT\n"
    if chance.random() < 0.1:
        mark = chance.choice([b"$input\t \r\n", b"$INPUT".ljust(80) + b"\n", b"$INPUT".ljust(80) + b"X\n"])
    return mark + ends.join(lines) + chance.choice([ends, b"", b"\r"])


class Speller:
    """Spells statements of all forms, on cards that are laid out in odd ways."""

    def __init__(self, chance: random.Random) -> None:
        self.chance = chance
        self.wrong = chance.choice([0, 0, 0, 0.02, 0.1])  # how often a part of a card is wrong
        self.labels = chance.sample(LABELS, chance.randint(1, len(LABELS)))
        self.unused = list(self.labels)

    def deck(self) -> bytes:
        """The bytes of a deck."""
        chance = self.chance
        cards = []
        for _ in range(chance.choice([1, 2, 4, 8])):
            cards += self.cards()
        while self.unused:
            cards.append(self.unused.pop() + " (PL)")
        if chance.random() < self.wrong * 4:
            label = chance.choice([*LABELS, "DONE", "SEVENTH", "5", "(PL)", "+", "A~"])
            cards.append(label + chance.choice(["", " (PL)"]))
        text = "".join(card + chance.choice(["\n", "\n", "\n", "\r\n"]) for card in cards)
        if chance.random() < 0.2:
            text = text.lower()
        deck = text.encode("ascii")
        return broken(chance, deck) + b"\n" if chance.random() < self.wrong else deck

    def cards(self) -> list[str]:
        """The cards of a statement, perhaps with comments and blank cards between them."""
        chance = self.chance
        gaps = chance.choice(["", " ", "  \t"])
        often = chance.choice([0, 0.05, 0.5])  # how often a new card begins
        label = self.unused.pop() if self.unused and chance.random() < 0.5 else " "
        cards, added = [label], 0
        for item in self.items():
            full = 72 < len(cards[-1]) + len(gaps + item)
            if (full or chance.random() < often) and (added < 15 or chance.random() < self.wrong):
                cards += chance.choice([[], [], [], [], ["* NOTE (", ""], ["\t"]])
                cards.append("+")
                added += 1
            cards[-1] += gaps + item
        return cards

    def items(self) -> list[str]:
        """The items of a statement."""
        chance = self.chance
        items: list[str] = []
        if chance.random() < 0.5:
            word = chance.choice(["NONE", "IFSOME"] if chance.random() < self.wrong else CONDITIONS)
            count = 1 if word in ("IF", "NOT") else chance.choice([1, 2, 3, 62, 63])
            count += chance.random() < self.wrong
            items += [self.spread(word), *[self.group(TESTS) for _ in range(count)], self.spread("THEN")]
        count = chance.choice([0, 1, 2, 4]) if chance.random() < 0.95 else chance.choice([62, 63])
        forms = ["PL"] if 10 < count else OPERATIONS
        items += [self.group(forms) for _ in range(count + (chance.random() < self.wrong))]
        if chance.random() < 0.4:
            items.append(self.spread(chance.choice([*self.labels, "DONE", "FAIL"])))
        if items and chance.random() < self.wrong * 2:
            item = chance.choice(["THEN", "DONE", "NONE", "SEVENTH", "IF", "(PL)", ")", "A,B"])
            items.insert(chance.randint(0, len(items)), item)
        if items and chance.random() < self.wrong * 2:
            items.pop(chance.randrange(len(items)))
        return items

    def group(self, forms: list[str]) -> str:
        """A group of one of these forms."""
        chance = self.chance
        form = chance.choice(WRONG if chance.random() < self.wrong else forms)
        body = re.sub(r"<(\w+)>", lambda part: self.part(part[1]), form)
        if chance.random() < 0.3 and not any(text in form for text in TEXTS):
            body = self.spread(body)
        return f"({body})"

    def spread(self, text: str) -> str:
        """A text with a few blanks in it."""
        for _ in range(self.chance.choice([0, 0, 1, 3])):
            at = self.chance.randint(0, len(text))
            text = text[:at] + self.chance.choice([" ", "\t", "   "]) + text[at:]
        return text

    def part(self, name: str) -> str:
        """What replaces a part of a form."""
        if name == "L":
            return self.chance.choice(self.labels)
        return PARTS[name](self.chance)
