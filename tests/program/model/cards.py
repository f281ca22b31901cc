"""Cards: the statements that a deck spells, and the faults of cards."""
from __future__ import annotations

from collections.abc import Iterator
from dataclasses import dataclass, field
from enum import Enum, auto

from .characters import LETTERS, NAMES, characters_of, lines_of
from .faults import Fault, NoReading, PastLimit
from .groups import EXIT_WORDS, Group, is_label, read_operation, read_test
from .programs import ROWS_LIMIT, STATEMENTS_LIMIT, Condition, Exit, Program, Statement

COLUMNS = 72
CONTINUATIONS_LIMIT = 15  # `+` cards of a statement
CONDITION_WORDS = [condition.name for condition in Condition if condition != Condition.NONE]


class Read(Enum):
    """What was read of a statement so far, which tells what may follow."""

    NOTHING = auto()
    WORD = auto()  # a word alone: a condition word if a group follows, or else the exit
    TESTS = auto()  # a condition word and a test
    OPERATIONS = auto()  # THEN, or an operation
    EXIT = auto()


@dataclass
class Spelled:
    """A statement as its cards spell it, with the cards on which names of labels stand."""

    first_card: int
    last_card: int
    label: str = ""
    statement: Statement = field(default_factory=Statement)
    continuations: int = 0
    read: Read = Read.NOTHING
    word: str = ""  # that of the exit, or perhaps of the condition
    word_card: int = 0
    groups: list[tuple[int, Group]] = field(default_factory=list)


@dataclass
class Assembly:
    """What a deck spells: its cards, the statements that stand on them, and the program."""

    cards: list[str]
    spelled: list[Spelled]
    program: Program


def assemble(deck: bytes) -> Assembly:
    """Reads a deck."""
    cards = [characters_of(line[:COLUMNS]) for line in lines_of(deck)]
    spelled = DeckReader().read_deck(cards)
    give_numbers(spelled)
    program = [one.statement for one in spelled] + [Statement(exit=Exit.DONE)]
    return Assembly(cards, spelled, program)


class DeckReader:
    """Reads cards in order, up to the first that has no reading or is past a limit."""

    def __init__(self) -> None:
        self.spelled: list[Spelled] = []

    @property
    def latest(self) -> Spelled:
        """The latest statement."""
        return self.spelled[-1]

    def read_deck(self, cards: list[str]) -> list[Spelled]:
        """Reads all cards, and answers their statements."""
        for number, columns in enumerate(cards, 1):
            if columns.strip(" ") and columns[0] != "*":
                self.read_card(number, columns)
        self.end_statement()
        return self.spelled

    def read_card(self, number: int, columns: str) -> None:
        """Reads a card that is no comment and not blank."""
        if columns[0] != "+":
            self.end_statement()
        try:
            start = self.continue_statement if columns[0] == "+" else self.begin_statement
            for item in items_of(start(number, columns)):
                if item.startswith("("):
                    self.read_group(number, item[1:-1])
                else:
                    self.read_word(number, item)
        except NoReading:
            raise Fault(f"card {number}: no reading") from None
        except PastLimit:
            raise Fault(f"card {number}: past a limit") from None

    def end_statement(self) -> None:
        """Ends the latest statement, if there is one; a statement that isn't whole has a fault."""
        if not self.spelled:
            return
        if self.latest.read == Read.TESTS:
            raise Fault(f"card {self.latest.last_card}: no reading")
        if self.latest.read == Read.WORD:
            self.take_exit()

    def continue_statement(self, number: int, columns: str) -> str:
        """Continues the latest statement, and answers the card's body."""
        if not self.spelled:
            raise NoReading
        if self.latest.continuations == CONTINUATIONS_LIMIT:
            raise PastLimit
        self.latest.continuations += 1
        self.latest.last_card = number
        return columns[1:]

    def begin_statement(self, number: int, columns: str) -> str:
        """Begins a statement, and answers the card's body, which stands behind the label, if it has one."""
        if columns[0] not in " " + LETTERS:
            raise NoReading
        # The added DONE is a statement of the program, too.
        if len(self.spelled) + 1 == STATEMENTS_LIMIT:
            raise PastLimit
        self.spelled.append(Spelled(number, number))
        if columns[0] == " ":
            return columns[1:]
        body = columns.lstrip(NAMES)
        label = columns[:len(columns) - len(body)]
        if not is_label(label):
            raise NoReading
        self.latest.label = label
        return body

    def read_group(self, number: int, body: str) -> None:
        """Reads a group, which is a test or an operation by its place among the items."""
        latest = self.latest
        if latest.read == Read.WORD:
            if latest.word not in CONDITION_WORDS:
                raise NoReading
            latest.statement.condition = Condition[latest.word]
            latest.read = Read.TESTS
        if latest.read == Read.EXIT:
            raise NoReading
        if latest.read == Read.TESTS:
            group, rows = read_test(body), latest.statement.tests
            if rows and latest.statement.condition in (Condition.IF, Condition.NOT):
                raise NoReading
        else:
            latest.read = Read.OPERATIONS
            group, rows = read_operation(body), latest.statement.operations
        if len(rows) == ROWS_LIMIT:
            raise PastLimit
        rows.append(group.row)
        latest.groups.append((number, group))

    def read_word(self, number: int, word: str) -> None:
        """Reads a word, which is a condition word, THEN or an exit by its place among the items."""
        latest = self.latest
        if latest.read in (Read.WORD, Read.EXIT):
            raise NoReading
        if latest.read == Read.TESTS:
            if not word.startswith("THEN"):
                raise NoReading
            word = word.removeprefix("THEN")
            latest.read = Read.OPERATIONS
            if not word:
                return
        # A condition word has the form of a label, too.
        if word not in EXIT_WORDS and not is_label(word):
            raise NoReading
        latest.word, latest.word_card = word, number
        if latest.read == Read.NOTHING:
            latest.read = Read.WORD
        else:
            self.take_exit()

    def take_exit(self) -> None:
        """Takes the latest statement's word as its exit."""
        latest = self.latest
        latest.read = Read.EXIT
        latest.statement.exit = Exit[latest.word] if latest.word in EXIT_WORDS else Exit.LABEL


def items_of(body: str) -> Iterator[str]:
    """The items of a body in order: groups with their parentheses, and words without blanks."""
    while body:
        if body.startswith("("):
            group, closing, body = body.partition(")")
            if not closing or "(" in group[1:]:
                raise NoReading
            yield group + closing
        else:
            word = body.partition("(")[0]
            body = body[len(word):]
            if word.strip(" "):
                yield word.replace(" ", "")


def give_numbers(spelled: list[Spelled]) -> None:
    """Gives each label the number of its statement, where it is named."""
    numbers: dict[str, int] = {}
    for number, one in enumerate(spelled):
        if one.label in numbers:
            raise Fault(f"card {one.first_card}: label given twice")
        if one.label:
            numbers[one.label] = number
    for one in spelled:
        for card, group in one.groups:
            group.row.called = number_of_label(numbers, group.called, card)
            group.row.target = number_of_label(numbers, group.target, card)
        if one.statement.exit == Exit.LABEL:
            one.statement.target = number_of_label(numbers, one.word, one.word_card)


def number_of_label(numbers: dict[str, int], label: str | None, card: int) -> int | None:
    """The number of the statement that has a label, where a card names one."""
    if label is None:
        return None
    if label not in numbers:
        raise Fault(f"card {card}: no such label")
    return numbers[label]
