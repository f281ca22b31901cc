"""Hostile jobs, made from a number: decks, inputs, images and commands.

Most decks are read and run for a while: they define fields, link blocks, call subroutines and print.
In others something is broken, as a character, a card or a number. Images are those of such decks,
whole or altered.
"""
from __future__ import annotations

import random
from dataclasses import dataclass

POINTERS = "ABCXYZ"  # the bugs that most often hold places
COUNTERS = "KMT"  # those that most often hold numbers
FIELDS = "NVF07"  # of which N most often holds a place
LABELS = ["L", "LOOP", "X1", "ABCDEF", "Q"]
NUMBERS = [
    0, 1, 2, 3, 4, 5, 6, 7, 8, 16, 17, 18, 31, 32, 35, 36, 37, 63, 64, 65, 99, 127, 128, 129, 130, 255, 256,
    1023, 1024, 1025, 8192, 262_143, 262_144, 2**35, 2**36 - 2, 2**36 - 1,
]
SIZES = [1, 1, 1, 2, 2, 3, 4, 7, 8, 16, 33, 64, 128, 512, 1_024]
CHARACTERS = " !\"#$%&'*+-./0123456789:;<=>?@ABCDEFGHIJKLMNOPQRSTUVWXYZ[\\]^_"
BROKEN = b"(),+*$ \t\r\n\0\x7f\x80\xff09AEZaz_?-"
MARKS = [b"542651554722\n", b"542651554721\n"]  # the first lines of images, of either version


@dataclass(frozen=True)
class Job:
    """A job: the program's words, its deck, and what follows the deck, or its image."""

    words: list[str]
    deck: bytes
    rest: bytes
    alter: random.Random | None = None  # alters the image that takes the deck's place

    @property
    def has_image(self) -> bool:
        """Whether an image takes the deck's place."""
        return self.words[0] in ("load", "renew")

    def stdin(self, image: bytes) -> bytes:
        """What standard input gives, in which an image replaces the deck if its verb takes one."""
        if not self.has_image:
            return self.deck + self.rest
        return (altered_image(self.alter, image) if self.alter else image) + self.rest


def job_of(number: int) -> Job:
    """The job of a number."""
    chance = random.Random(number)
    verb = chance.choices(["run", "debug", "load", "renew", "asm", "list"], [48, 25, 13, 4, 4, 6])[0]
    deck = Deck(chance).text()
    deck += b"" if deck.endswith(b"\n") else b"\n"
    rest = commands(chance) if verb == "debug" else b""
    rest += an_input(chance)
    alter = chance if verb in ("load", "renew") and chance.random() < 0.8 else None
    return Job([verb, *options(chance, verb, number % 2 == 0)], deck, rest, alter)


def options(chance: random.Random, verb: str, is_explained: bool) -> list[str]:
    """The program's options: a small store and few steps, so that a job takes little time."""
    if verb in ("asm", "list", "renew"):
        return []
    explained = ["--explain"] if verb == "run" and is_explained else []
    steps = chance.choice([60, 300, 1_000, 3_000, 12_000]) if chance.random() < 0.95 else chance.randint(0, 9)
    words = [*explained, "--steps", str(steps), "--store", chance.choice(["1", "2", "3", "8", "8", "64"])]
    return words + (["--output", str(chance.choice([0, 1, 5, 60, 1_000, 100_000]))] if chance.random() < 0.3 else [])


class Deck:
    """A deck that is made."""

    def __init__(self, chance: random.Random) -> None:
        self.chance = chance
        self.labels = chance.sample(LABELS, chance.randint(1, len(LABELS)))
        self.unused = list(self.labels)
        self.is_solid = chance.random() < 0.6  # then few of its chains lead nowhere

    def text(self) -> bytes:
        """The deck's bytes."""
        chance = self.chance
        cards = self.prologue() if chance.random() < 0.9 else []
        for _ in range(chance.choice([0, 1, 2, 3, 5, 8, 13, 40])):
            cards += self.statement()
        cards += [f"{label} (PL)" for label in self.unused if chance.random() < 0.99]
        jump = f" {chance.choice(self.labels)}"
        if chance.random() < 0.5:
            cards.append(jump)
        cards = [self.dressed(card) for card in cards]
        ends = chance.choice(["\n", "\n", "\n", "\r\n"])
        text = (ends.join(cards) + (ends if chance.random() < 0.9 else "")).encode("ascii")
        return broken(chance, text) if chance.random() < 0.15 else text

    def prologue(self) -> list[str]:
        """Cards that define fields, and get blocks and link them, some in a ring."""
        chance = self.chance
        groups = ["(0,DN,18,35)", "(1,DV,0,35)", f"(0,DF,{chance.randint(0, 17)},17)"]
        word = 1 if self.is_solid else chance.randint(0, 3)
        groups.append(f"({word},D0,{chance.randint(0, 20)},{chance.randint(20, 35)})")
        if chance.random() < 0.3:
            groups.append("(127,D7,35,35)")
        bugs = [bug for bug in POINTERS if self.is_solid or chance.random() < 0.85]
        sizes = [size for size in SIZES if 1 < size] if self.is_solid else SIZES
        groups += [f"({bug},GT,{chance.choice(sizes)})" for bug in bugs]
        groups += [f"({bug}N,E,{chance.choice(bugs)})" for bug in bugs if self.is_solid or chance.random() < 0.5]
        return laid_out(" ", groups)

    def statement(self) -> list[str]:
        """The cards of a statement."""
        chance = self.chance
        label = self.unused.pop() if self.unused and chance.random() < 0.4 else ""
        items = self.condition() if chance.random() < 0.3 else []
        items += [self.operation() for _ in range(chance.choice([0, 1, 1, 2, 3, 5, 9, 20]))]
        if chance.random() < 0.003:
            items += ["(PL)"] * chance.choice([55, 62, 63, 64])
        if chance.random() < 0.35:
            items.append(chance.choice([*self.labels, *self.labels, "DONE", "FAIL"]))
        return laid_out(f"{label} ", items)

    def condition(self) -> list[str]:
        """The items of a condition, up to THEN."""
        chance = self.chance
        word = chance.choice(["IF", "NOT", "IFALL", "IFANY", "IFNONE", "IFNALL"])
        count = 1 if word in ("IF", "NOT") else chance.choice([1, 2, 3, 5])
        tests = [f"({self.chain()},{self.valued(chance.choice('ENGLOZ'))})" for _ in range(count)]
        if chance.random() < 0.3:
            tests[0] = f"({self.place()},{chance.choice('EN')},{chance.choice(['0', self.place()])})"
        return [word, *tests, "THEN"]

    def dressed(self, card: str) -> str:
        """A card in small letters, with tabs, or with words past column 72; or with another before it."""
        chance = self.chance
        choice = chance.random()
        if choice < 0.05:
            return card.lower()
        if choice < 0.08:
            return card.replace(" ", "\t")
        if choice < 0.11:
            return card.ljust(72) + "(WORDS"
        return chance.choice(["* A COMMENT", "", "   \t"]) + "\n" + card if choice < 0.16 else card

    def number(self) -> str:
        """A number at some limit, or a small one."""
        chance = self.chance
        if chance.random() < 0.002:
            return chance.choice(["68719476736", "9" * 25, "0" * 30 + "7"])
        return str(chance.choice(NUMBERS) if chance.random() < 0.5 else chance.randint(0, 9))

    def place(self) -> str:
        """A chain that most often holds a place."""
        return self.chance.choice(POINTERS) + "N" * self.chance.choices(range(7), [700, 200, 50, 20, 10, 20, 0.1])[0]

    def chain(self) -> str:
        """A chain, most often one that holds a number."""
        chance = self.chance
        if chance.random() < 0.5:
            return chance.choice(COUNTERS)
        return self.place()[:5] + chance.choice("VF0" if self.is_solid and chance.random() < 0.99 else FIELDS)

    def operand(self) -> str:
        """A chain or a number."""
        return self.chain() if self.chance.random() < 0.4 else self.number()

    def valued(self, name: str) -> str:
        """A name with its operand, a number of which may be spelled in octal or as a text."""
        chance = self.chance
        choice = chance.random()
        if choice < 0.08:
            return f"{name}O,{oct(chance.choice(NUMBERS))[2:]}"
        if choice < 0.14:
            return f"{name}H,{self.characters(6)}"
        return f"{name},{self.operand()}"

    def characters(self, most: int) -> str:
        """A text, in which most characters are those of a group's texts."""
        return "".join(self.chance.choice(CHARACTERS) for _ in range(self.chance.randint(1, most)))

    def ending(self) -> str:
        """The end of a group that may have a label."""
        label = "NO" if self.chance.random() < 0.003 else self.chance.choice(self.labels)
        return f",{label})" if self.chance.random() < 0.6 else ")"

    def operation(self) -> str:
        """An operation."""
        chance = self.chance
        kinds = [self.arithmetic, self.store, self.printing, self.saving, self.other]
        return chance.choices(kinds, [50, 25, 20, 2, 5] if self.is_solid else [40, 25, 15, 8, 12])[0]()

    def arithmetic(self) -> str:
        """An operation on a field, or a place that is put into another one."""
        if self.chance.random() < 0.25:
            return f"({self.place()},E,{self.place() if self.is_solid or self.chance.random() < 0.9 else '0'})"
        return f"({self.chain()},{self.valued(self.chance.choice('EEAAASMVYNOXCLR'))})"

    def store(self) -> str:
        """A get, a duplication or a free."""
        chance = self.chance
        chain = self.place() if chance.random() < 0.9 else self.chain()
        if self.is_solid and chance.random() < 0.9:
            return f"({chain[:5]},GT,{chance.choice(SIZES[3:])},{chain[:5]}N,{chance.choice(self.labels)})"
        size = str(chance.choice(SIZES)) if chance.random() < 0.9 else self.operand()
        end = self.ending()
        choice = chance.random()
        if choice < 0.5:
            second = self.place() + "N" * (len(chain) < 5) if chance.random() < 0.4 else ""
            second = f",{second}" if second or end != ")" else ""
            return f"({chain},GT,{size}{second}{end}"
        if choice < 0.65:
            source = self.place() if chance.random() < 0.9 else self.operand()
            return f"({chain},DP,{source}{',' if end != ')' else ''}{end}"
        return f"({chain},FR)" if chance.random() < 0.5 else f"({chain},FR,{chance.choice(['0', self.place()])})"

    def printing(self) -> str:
        """A print, or characters of the input."""
        chance = self.chance
        choice = chance.randint(0, 5)
        count = str(chance.randint(1, 6)) if self.is_solid or chance.random() < 0.9 else self.operand()
        if choice == 0:
            return f"({self.characters(chance.choice([3, 12, 60]))},PH)"
        if choice == 1:
            return f"({self.chain()},PR,{count})"
        if choice == 2:
            return f"({self.chain()},IN,{count}{self.ending()}"
        return ["(PL)", f"({self.chain()},PD)", f"({self.chain()},PO)"][choice - 3]

    def saving(self) -> str:
        """A save or a restore, of contents or of definitions."""
        way = self.chance.choice("SSSR" if self.is_solid else "SSR")
        field = self.chance.choice("N0" if self.is_solid else FIELDS)
        return self.chance.choice([f"({way},FC,{self.chain()})", f"({way},FD,{field})"])

    def other(self) -> str:
        """A call, an exchange, a definition, or what is no operation."""
        chance = self.chance
        choice = chance.random()
        if choice < 0.4:
            return f"({chance.choice(self.labels)},DO{self.ending()}"
        if choice < 0.6:
            return chance.choice([f"({self.chain()},I,{self.chain()})", f"({self.place()},I,{self.place()})"])
        if choice < 0.995:
            bits = sorted([chance.randint(0, 36), chance.randint(0, 35)])
            parts = [str(chance.choice([0, 0, 1, 2, 127, 1_023, 1_024])), *map(str, bits)]
            parts = [self.operand() if chance.random() < 0.1 else part for part in parts]
            return f"({parts[0]},D{chance.choice(FIELDS)},{parts[1]},{parts[2]})"
        return chance.choice(["()", "(A)", "(A,E)", "(A,Q,1)", "(1,E,2)", "(A,E,1", "A,E,1)", "((PL)", "(,,,)"])


def laid_out(start: str, items: list[str]) -> list[str]:
    """The cards of a statement of these items, a new card where one is full."""
    cards = [start]
    for item in items:
        gap = "" if item.startswith("(") else " "
        if 72 < len(cards[-1]) + len(gap + item):
            cards.append("+")
        cards[-1] += gap + item
    return cards


def broken(chance: random.Random, text: bytes) -> bytes:
    """A text with a few bytes, or lines, other than they were."""
    for _ in range(chance.choice([1, 1, 1, 2, 5])):
        at = chance.randint(0, len(text))
        piece = bytes(chance.choices(BROKEN, k=chance.choice([1, 1, 2])))
        choice = chance.randint(0, 5)
        if choice == 0:
            text = text[:at] + piece + text[at:]
        elif choice == 1:
            text = text[:at] + text[at + 1:]
        elif choice == 2:
            text = text[:at] + piece + text[at + len(piece):]
        elif choice == 3:
            text = text[:at]
        else:
            lines = text.splitlines(keepends=True)
            text = b"".join(shuffled(chance, lines))
    return text


def shuffled(chance: random.Random, lines: list[bytes]) -> list[bytes]:
    """Lines of which one is left out, doubled, replaced by another, or moved."""
    if not lines:
        return lines
    at, other = chance.randrange(len(lines)), chance.randrange(len(lines))
    kept = lines[:at] + lines[at + 1:]
    return chance.choice([
        kept,
        lines[:at] + [lines[at]] * chance.choice([2, 3, 17]) + lines[at + 1:],
        kept[:other] + [lines[at]] + kept[other:],
        lines[:at] + [lines[other]] + lines[at + 1:],
    ])


def an_input(chance: random.Random) -> bytes:
    """An input after its separator line, or none."""
    if chance.random() < 0.5:
        return b""
    mark = chance.choice([b"$INPUT\n", b"$INPUT\n", b"$input \t\r\n"])
    if chance.random() < 0.05:
        mark = chance.choice([b"$INPUT", b"$INPUTS\n", b" $INPUT\n", b"$ INPUT\n", b"$INPU\n", b"$COMMANDS\n"])
    if chance.random() < 0.1:
        return mark + bytes(chance.randrange(256) for _ in range(chance.randint(0, 300)))
    lines = [
        "".join(chance.choice(CHARACTERS.lower() + ",()") for _ in range(chance.choice([0, 1, 5, 79, 80, 81, 200])))
        for _ in range(chance.randint(0, 4))
    ]
    return mark + chance.choice(["\n", "\r\n"]).join(lines).encode("ascii")


def commands(chance: random.Random) -> bytes:
    """Commands after their separator line, or none."""
    if chance.random() < 0.03:
        return b""
    lines = []
    for _ in range(chance.choice([0, 1, 3, 5, 8, 15])):
        name = chance.choice("step step go back back break clear show fields block draw store out quit".split())
        count = chance.choice([0, 1, 2, 3, 5, 10, 37, 100, 128, 130, 4_095, 4_096, 4_097, 9_000, 10**9])
        line = f"{name} {count}" if name in ("step", "back", "break", "clear", "block") else name
        if name == "quit" and chance.random() < 0.8:
            line = "draw"
        if chance.random() < 0.1:
            line = chance.choice([line.upper(), f"\t{line}  ", line.replace(" ", " \t 00"), line + " 1", name, "",
                             f"{name} {10**9 + 1}", f"{name} -1", f"{name} 1x", f"{name}1", "hop", "\0"])
        lines.append(line)
    mark = chance.choice(["$COMMANDS", "$COMMANDS", "$commands\t"])
    text = "\n".join([mark, *lines]) + chance.choice(["\n", "", "\r\n"])
    return text.encode("ascii") + (b"" if text.endswith("\n") else b"\n")


def altered_image(chance: random.Random, image: bytes) -> bytes:
    """An image of which a bit, a digit, a word or a line is another, or that says another version."""
    lines = image.splitlines(keepends=True)
    if not lines or chance.random() < 0.05:
        return broken(chance, image)
    if chance.random() < 0.1:
        return b"".join([chance.choice(MARKS), *lines[1:]])
    for _ in range(chance.choice([1, 1, 1, 2, 4])):
        at = chance.randrange(len(lines))
        choice = chance.random()
        if choice < 0.5:
            word = int(lines[at][:12] or b"0", 8) if lines[at][:12].isdigit() and b"8" not in lines[at] else 0
            lines[at] = b"%012o\n" % (word ^ (1 << chance.randrange(36)))
        elif choice < 0.7:
            lines[at] = b"%012o\n" % chance.choice(NUMBERS)
        elif choice < 0.9:
            lines = shuffled(chance, lines)
        else:
            lines[at] = broken(chance, lines[at])
        lines = lines or [MARKS[0]]
    return b"".join(lines)
