"""Programs: statements, their rows with operands, and the rules by which they are a program."""
from __future__ import annotations

from dataclasses import dataclass, field
from enum import IntEnum
from typing import Union

from .characters import DIGITS, NAMES, WORD_LIMIT

STATEMENTS_LIMIT = 65_535
ROWS_LIMIT = 63  # tests of a statement, and operations
NAMES_LIMIT = 6  # names of a chain
PRINTED_LIMIT = 60  # characters of a text that is printed


class Condition(IntEnum):
    """The condition of a statement, by its number in an image."""

    NONE, IF, NOT, IFALL, IFANY, IFNONE, IFNALL = range(7)


class Exit(IntEnum):
    """The exit of a statement, by its number in an image."""

    NONE, LABEL, DONE, FAIL = range(4)


@dataclass(frozen=True)
class Chain:
    """A chain: the numbers of its names, of which the first is a bug's."""

    names: tuple[int, ...]


@dataclass(frozen=True)
class Number:
    """A number that stands in a row."""

    value: int


@dataclass(frozen=True)
class Text:
    """A text that a row prints."""

    characters: str


Operand = Union[Chain, Number, Text]


@dataclass
class Row:
    """A test or an operation."""

    name: str
    operands: list[Operand] = field(default_factory=list)
    field_name: int | None = None  # the number of the field that is defined, saved or restored
    called: int | None = None  # the statement that DO calls
    target: int | None = None  # the statement of the label behind the operands


@dataclass
class Statement:
    """A condition with its tests, operations, and an exit."""

    condition: Condition = Condition.NONE
    tests: list[Row] = field(default_factory=list)
    operations: list[Row] = field(default_factory=list)
    exit: Exit = Exit.NONE
    target: int | None = None  # the statement of the exit's label


Program = list[Statement]


@dataclass(frozen=True)
class Form:
    """What a row may have beside its name.

    The kinds of its operands are letters: c for a chain, n for a number, t for a text.
    """

    kinds: tuple[str, ...]
    has_field: bool = False
    may_have_label: bool = False


# Names of rows, in the order of their codes in an image, which count from 1.
TESTS = ["E", "N", "G", "L", "O", "Z"]
ARITHMETIC = ["E", "A", "S", "M", "V", "Y", "N", "O", "X", "C", "L", "R"]
OPERATIONS = [
    *ARITHMETIC, "I", "D", "SFC", "RFC", "SFD", "RFD", "GT", "DP", "FR", "DO", "IN", "PR", "PD", "PO", "PH",
    "PL",
]

PAIR = Form(("cc", "cn"))
FORMS = {
    **{name: PAIR for name in [*TESTS, *ARITHMETIC]},
    "I": Form(("cc",)),
    "D": Form(tuple(a + b + c for a in "cn" for b in "cn" for c in "cn"), has_field=True),
    "SFC": Form(("c",)),
    "RFC": Form(("c",)),
    "SFD": Form(("",), has_field=True),
    "RFD": Form(("",), has_field=True),
    "GT": Form(("cc", "cn", "ccc", "cnc"), may_have_label=True),
    "DP": Form(("cc", "cn"), may_have_label=True),
    "FR": Form(("c", "cc", "cn")),
    "DO": Form(("",), may_have_label=True),
    "IN": Form(("cc", "cn"), may_have_label=True),
    "PR": PAIR,
    "PD": Form(("c",)),
    "PO": Form(("c",)),
    "PH": Form(("t",)),
    "PL": Form(("",)),
}


def is_program(program: Program) -> bool:
    """Whether statements are a program: they keep all rules, and end in the plain DONE."""
    count = len(program)
    if not 1 <= count <= STATEMENTS_LIMIT or program[-1] != Statement(exit=Exit.DONE):
        return False
    return all(is_statement(statement, count) for statement in program)


def is_statement(statement: Statement, count: int) -> bool:
    """Whether a statement may stand in a program of so many statements."""
    tests, operations = statement.tests, statement.operations
    return (
        has_its_tests(statement)
        and len(operations) <= ROWS_LIMIT
        and all(row.name in TESTS and is_row(row, count) for row in tests)
        and all(row.name in OPERATIONS and is_row(row, count) for row in operations)
        and (statement.exit == Exit.LABEL) == (statement.target is not None)
        and is_target(statement.target, count)
    )


def has_its_tests(statement: Statement) -> bool:
    """Whether a statement has as many tests as its condition wants."""
    tests = len(statement.tests)
    if statement.condition == Condition.NONE:
        return tests == 0
    if statement.condition in (Condition.IF, Condition.NOT):
        return tests == 1
    return 1 <= tests <= ROWS_LIMIT


def is_row(row: Row, count: int) -> bool:
    """Whether a row may stand in a program of so many statements."""
    form = FORMS[row.name]
    return (
        "".join(map(kind_of, row.operands)) in form.kinds
        and all(map(is_operand, row.operands))
        and (row.field_name is not None) == form.has_field
        and (row.field_name is None or row.field_name < len(NAMES))
        and (row.called is not None) == (row.name == "DO")
        and is_target(row.called, count)
        and (row.target is None or form.may_have_label)
        and is_target(row.target, count)
    )


def kind_of(operand: Operand) -> str:
    """The letter of an operand's kind."""
    return "c" if isinstance(operand, Chain) else "n" if isinstance(operand, Number) else "t"


def is_operand(operand: Operand) -> bool:
    """Whether an operand is a chain, a number or a text that a row may have."""
    if isinstance(operand, Chain):
        names = operand.names
        if not 1 <= len(names) <= NAMES_LIMIT or names[0] < len(DIGITS):
            return False
        return all(name < len(NAMES) for name in names)
    if isinstance(operand, Text):
        characters = operand.characters
        return 1 <= len(characters) <= PRINTED_LIMIT and not set(characters) & set(",()")
    return operand.value < WORD_LIMIT


def is_target(target: int | None, count: int) -> bool:
    """Whether a target, if there is one, is one of so many statements."""
    return target is None or target < count
