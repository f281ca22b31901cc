"""Images: the words of a program, the program of words, and both as a text."""
from __future__ import annotations

from .characters import character_with, code_of
from .faults import Fault, NotAnImage
from .programs import (
    OPERATIONS, PRINTED_LIMIT, STATEMENTS_LIMIT, TESTS, Chain, Condition, Exit, Number, Operand, Program, Row,
    Statement, Text, is_program,
)

MARKS = {1: 0o542651554721, 2: 0o542651554722}  # by versions
STATEMENTS_LIMITS = {1: 4_095, 2: STATEMENTS_LIMIT}
NO_NAME = 63
KINDS: dict[type, int] = {Chain: 1, Number: 2, Text: 3}


def image_of(program: Program, version: int = 2) -> bytes:
    """The text of a program's image."""
    return b"".join(b"%012o\n" % word for word in words_of(program, version))


def words_of(program: Program, version: int) -> list[int]:
    """The words of a program's image."""
    words = [word for statement in program for word in words_of_statement(statement, version)]
    return [MARKS[version], len(program), len(words), *words]


def words_of_statement(statement: Statement, version: int = 2) -> list[int]:
    """The words of a statement: its header, its tests, its operations."""
    counts = len(statement.tests) << 27 | len(statement.operations) << 21
    words = [statement.condition << 33 | counts | statement.exit << 18 | (statement.target or 0)]
    for row in statement.tests:
        words += words_of_row(row, TESTS, version)
    for row in statement.operations:
        words += words_of_row(row, OPERATIONS, version)
    return words


def words_of_row(row: Row, names: list[str], version: int) -> list[int]:
    """The words of a row: what it is, by its place among these names, and its operands."""
    operands = row.operands if row.called is None else [Number(row.called)]
    word = names.index(row.name) + 1 << 30
    for operand, shift in zip(operands, (28, 26, 24)):
        word |= KINDS[type(operand)] << shift
    word |= (NO_NAME if row.field_name is None else row.field_name) << 18
    if row.target is not None:
        word |= row.target + 1 if version == 2 else 1 << 12 | row.target
    return [word, *(word for operand in operands for word in words_of_operand(operand))]


def words_of_operand(operand: Operand) -> list[int]:
    """The words of an operand."""
    if isinstance(operand, Number):
        return [operand.value]
    if isinstance(operand, Chain):
        return packed(list(operand.names), NO_NAME)
    codes = [code_of(character) for character in operand.characters]
    return [len(codes), *packed(codes, 0)]


def packed(numbers: list[int], filling: int) -> list[int]:
    """Words that have six numbers each, six bits wide, and a filling in what is left of the last word."""
    words = []
    for start in range(0, len(numbers), 6):
        word = 0
        for number in (numbers[start:start + 6] + [filling] * 5)[:6]:
            word = word << 6 | number
        words.append(word)
    return words


def unpacked(word: int) -> list[int]:
    """The six numbers in a word."""
    return [word >> shift & 63 for shift in (30, 24, 18, 12, 6, 0)]


def load(text: bytes) -> Program:
    """The program of which a text is the image."""
    words = words_of_text(text)
    try:
        reader = WordReader(words)
        program = reader.read_program()
        # What was read comes to the same words only if no bit, filling and count of them is off.
        if not is_program(program) or words_of(program, reader.version) != words:
            raise NotAnImage
    except NotAnImage:
        raise Fault("not an image") from None
    return program


def words_of_text(text: bytes) -> list[int]:
    """The words of a text, each line of which must be twelve octal digits and a line feed."""
    lines = text.split(b"\n")
    rest = lines.pop()
    for number, line in enumerate(lines, 1):
        if len(line) != 12 or line.strip(b"01234567"):
            raise Fault(f"line {number}: not a word")
    if rest:
        raise Fault(f"line {len(lines) + 1}: not a word")
    return [int(line, 8) for line in lines]


class WordReader:
    """Reads words in order. It looks at no more than it needs to read on."""

    def __init__(self, words: list[int]) -> None:
        self.left = iter(words)
        self.version = 0

    def word(self) -> int:
        """Takes the next word."""
        for word in self.left:
            return word
        raise NotAnImage

    def read_program(self) -> Program:
        """Reads a program, which may break the rules of programs."""
        mark, count, _ = self.word(), self.word(), self.word()
        if mark not in MARKS.values():
            raise NotAnImage
        self.version = 1 if mark == MARKS[1] else 2
        if count > STATEMENTS_LIMITS[self.version]:
            raise NotAnImage
        return [self.read_statement() for _ in range(count)]

    def read_statement(self) -> Statement:
        """Reads a statement."""
        word = self.word()
        condition, leaving = word >> 33, word >> 18 & 7
        if condition not in list(Condition) or leaving not in list(Exit):
            raise NotAnImage
        tests = [self.read_row(TESTS) for _ in range(word >> 27 & 63)]
        operations = [self.read_row(OPERATIONS) for _ in range(word >> 21 & 63)]
        target = word & 2**18 - 1 if leaving == Exit.LABEL else None
        return Statement(Condition(condition), tests, operations, Exit(leaving), target)

    def read_row(self, names: list[str]) -> Row:
        """Reads a row, of which the code tells the place of its name among these."""
        word = self.word()
        code, name = word >> 30, word >> 18 & 63
        if not 1 <= code <= len(names):
            raise NotAnImage
        kinds = [word >> shift & 3 for shift in (28, 26, 24)]
        row = Row(names[code - 1], [self.read_operand(kind) for kind in kinds if kind])
        if row.name == "DO":
            row.called = self.called_by(row)
        row.field_name = None if name == NO_NAME else name
        row.target = self.target_of(word)
        return row

    def called_by(self, row: Row) -> int:
        """Takes the number of the statement that is called off a row's operands."""
        called = row.operands.pop() if len(row.operands) == 1 else None
        if not isinstance(called, Number):
            raise NotAnImage
        return called.value

    def target_of(self, word: int) -> int | None:
        """The statement to which the label of a row leads, if it has one."""
        if self.version == 1:
            return word & 2**12 - 1 if word >> 12 & 1 else None
        number = word & 2**18 - 1
        return number - 1 if number else None

    def read_operand(self, kind: int) -> Operand:
        """Reads an operand of a kind that there is."""
        word = self.word()
        if kind == KINDS[Number]:
            return Number(word)
        if kind == KINDS[Chain]:
            return Chain(tuple(name for name in unpacked(word) if name != NO_NAME))
        if word > PRINTED_LIMIT:
            raise NotAnImage
        codes = [code for _ in range(0, word, 6) for code in unpacked(self.word())]
        return Text("".join(map(character_with, codes[:word])))
