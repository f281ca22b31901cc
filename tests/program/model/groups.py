"""Groups: the elements between two parentheses, read as a test or as an operation."""
from __future__ import annotations

from dataclasses import dataclass

from .characters import DIGITS, LETTERS, NAMES, NO_CODE, WORD_LIMIT, number_of_digits, number_of_text
from .faults import NoReading
from .programs import ARITHMETIC, NAMES_LIMIT, PRINTED_LIMIT, TESTS, Chain, Number, Operand, Row, Text

LABEL_LIMIT = 6  # characters of a label
TEXT_LIMIT = 6  # characters of a text that stands for a number
EXIT_WORDS = ("DONE", "FAIL")


@dataclass
class Group:
    """What a group says: a row, and the labels to which the deck will give numbers."""

    row: Row
    called: str | None = None
    target: str | None = None


def is_spelled(text: str, limit: int) -> bool:
    """Whether a text is a letter and then letters or digits, and not longer than a limit."""
    return 1 <= len(text) <= limit and text[0] in LETTERS and all(character in NAMES for character in text)


def is_label(text: str) -> bool:
    """Whether a text may be a label."""
    return is_spelled(text, LABEL_LIMIT) and text not in EXIT_WORDS


def read_test(body: str) -> Group:
    """Reads what stands between the parentheses as a test."""
    elements = elements_of(body)
    row = read_pair(elements, body, TESTS) if len(elements) == 3 else None
    if row is None:
        raise NoReading
    return Group(row)


def read_operation(body: str) -> Group:
    """Reads what stands between the parentheses as an operation."""
    elements = elements_of(body)
    if elements == ["PL"]:
        return Group(Row("PL"))
    readers = {2: read_two, 3: read_three, 4: read_four, 5: read_five}
    if len(elements) not in readers:
        raise NoReading
    return readers[len(elements)](elements, body)


def elements_of(body: str) -> list[str]:
    """The elements of a group, without their blanks."""
    return body.replace(" ", "").split(",")


def read_pair(elements: list[str], body: str, names: list[str]) -> Row | None:
    """Reads a row of two operands that has one of these names, perhaps with a suffix; none if it has not."""
    first, name, last = elements
    if name in names:
        return Row(name, [chain_of(first), chain_or_number_of(last)])
    if len(name) != 2 or name[0] not in names or name[1] not in "OH":
        return None
    if name[1] == "O":
        number = number_of(last, 8)
    else:
        text = text_of(body.split(",")[2], TEXT_LIMIT)
        number = Number(number_of_text(text))
    return Row(name[0], [chain_of(first), number])


def read_two(elements: list[str], body: str) -> Group:
    """Reads an operation of two elements."""
    first, name = elements
    if name == "DO":
        return Group(Row("DO"), called=label_of(first))
    if name == "PH":
        return Group(Row("PH", [Text(text_of(body.split(",")[0], PRINTED_LIMIT))]))
    if name in ("PD", "PO", "FR"):
        return Group(Row(name, [chain_of(first)]))
    raise NoReading


def read_three(elements: list[str], body: str) -> Group:
    """Reads an operation of three elements."""
    row = read_pair(elements, body, ARITHMETIC)
    if row is not None:
        return Group(row)
    first, name, last = elements
    if name == "I":
        return Group(Row("I", [chain_of(first), chain_of(last)]))
    if name == "FC" and first in ("S", "R"):
        return Group(Row(first + name, [chain_of(last)]))
    if name == "FD" and first in ("S", "R"):
        return Group(Row(first + name, field_name=field_of(last)))
    if name == "DO":
        return Group(Row("DO"), called=label_of(first), target=label_of(last))
    if name in ("GT", "DP", "FR", "IN", "PR"):
        return Group(Row(name, [chain_of(first), chain_or_number_of(last)]))
    raise NoReading


def read_four(elements: list[str], _body: str) -> Group:
    """Reads an operation of four elements."""
    first, name, third, last = elements
    if len(name) == 2 and name[0] == "D":
        numbers = [chain_or_number_of(element) for element in (first, third, last)]
        return Group(Row("D", numbers, field_name=field_of(name[1])))
    operands: list[Operand] = [chain_of(first), chain_or_number_of(third)]
    if name == "GT":
        return Group(Row("GT", [*operands, chain_of(last)]))
    if name == "IN":
        return Group(Row("IN", operands), target=label_of(last))
    raise NoReading


def read_five(elements: list[str], _body: str) -> Group:
    """Reads an operation of five elements: one with a label for a store that has no place open."""
    first, name, third, fourth, last = elements
    operands: list[Operand] = [chain_of(first), chain_or_number_of(third)]
    if name == "GT" and fourth:
        operands.append(chain_of(fourth))
    elif name not in ("GT", "DP") or fourth:
        raise NoReading
    return Group(Row(name, operands), target=label_of(last))


def label_of(element: str) -> str:
    """The label that an element is."""
    if not is_label(element):
        raise NoReading
    return element


def chain_of(element: str) -> Chain:
    """The chain that an element is."""
    if not is_spelled(element, NAMES_LIMIT):
        raise NoReading
    return Chain(tuple(map(NAMES.index, element)))


def chain_or_number_of(element: str) -> Operand:
    """The number that an element is, if it begins with a digit, or else the chain."""
    return number_of(element, 10) if element and element[0] in DIGITS else chain_of(element)


def number_of(element: str, base: int) -> Number:
    """The number that the digits of an element are to a base."""
    value = number_of_digits(element, WORD_LIMIT - 1, base)
    if value is None:
        raise NoReading
    return Number(value)


def text_of(element: str, limit: int) -> str:
    """The text that an element with its blanks is."""
    if not 1 <= len(element) <= limit or NO_CODE in element:
        raise NoReading
    return element


def field_of(element: str) -> int:
    """The number of the field whose name an element is."""
    if len(element) != 1 or element not in NAMES:
        raise NoReading
    return NAMES.index(element)
