"""What is said of a trap with --explain: the cards of its statement, with the action marked, and the reason."""
from __future__ import annotations

import re

from .cards import COLUMNS
from .characters import NAMES, lines_of
from .programs import Statement
from .state import Ending, State

ADDED = "      the DONE that follows the last card\n"
NUMBER = 5  # columns of a card's number
REASONS = [  # each at the number of its trap
    "", "a chain names a field that has no definition",
    "no block begins where a chain or an operand leads: a link was not set, or the block there was freed",
    "the word of a field is past the end of the block to which the chain leads",
    "a definition has a word past 1023, a bit past 35, or a first bit after its last", "a division by 0",
    "a block of no word, or of more than 1024, was asked for",
    "no place is open for a block of this size, and the operation has no label for that",
    "the input has too few characters left, and the operation has no label for that",
    "nothing is saved that could be restored", "the pushdown has all the entries that it may have",
    "as many calls wait for their return as may: a recursion without an end?",
    "FAIL returns from a call that has no fail label", "fewer than 1 or more than 6 characters are asked for",
    "the output would pass its limit (--output)",
]


def explanation_of(state: State, deck: bytes) -> bytes:
    """What is said of the last state of a deck's run: nothing, unless it has trapped."""
    if state.ending != Ending.TRAP:
        return b""
    lines = [line.decode("latin-1") for line in lines_of(deck)]
    numbers = cards_of_statements(lines)
    said = ADDED
    if state.statement < len(numbers):
        cards = [(number, lines[number - 1]) for number in numbers[state.statement]]
        said = "".join(marked(cards, state.program[state.statement], state.action))
    return f"{said}      because {REASONS[state.trap]}\n".encode("latin-1")


def cards_of_statements(lines: list[str]) -> list[list[int]]:
    """The numbers of the cards of each statement."""
    statements: list[list[int]] = []
    for number, line in enumerate(lines, 1):
        columns = line[:COLUMNS]
        if not columns.strip(" \t") or columns[0] == "*":
            continue
        if columns[0] != "+":
            statements.append([])
        statements[-1].append(number)
    return statements


def marked(cards: list[tuple[int, str]], statement: Statement, action: int) -> list[str]:
    """The lines of a statement's cards, each with the line of marks that it needs."""
    places = [(number, *found.span()) for number, line in cards for found in groups_of(line)]
    tests, operations = len(statement.tests), len(statement.operations)
    chosen = places[:tests] if action == 0 else places[tests + action - 1:tests + action]
    lines = []
    for number, line in cards:
        columns = [at for card, start, end in chosen for at in range(start, end) if card == number]
        if action > operations:
            columns = columns_of_exit(number, line, places)
        lines.append(f"{number:{NUMBER}} {line}\n" + line_of_marks(line, set(columns)))
    return lines


def groups_of(line: str) -> list[re.Match[str]]:
    """The groups on a card."""
    return list(re.finditer(r"\([^)]*\)", line[:COLUMNS]))


def columns_of_exit(number: int, line: str, places: list[tuple[int, int, int]]) -> list[int]:
    """The columns of a card that are not blank, and follow the last of all groups, the label and column 1."""
    start = max(1, len(line) - len(line.lstrip(NAMES + NAMES.lower())))
    if places and number < places[-1][0]:
        return []
    if places and number == places[-1][0]:
        start = places[-1][2]
    return [at for at in range(start, min(len(line), COLUMNS)) if line[at] not in " \t"]


def line_of_marks(line: str, columns: set[int]) -> str:
    """The line below a card, up to the last mark: a tab stands below a tab."""
    if not columns:
        return ""
    below = "".join("^" if at in columns else "\t" if line[at] == "\t" else " " for at in range(max(columns) + 1))
    return " " * (NUMBER + 1) + below + "\n"
