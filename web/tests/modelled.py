"""The states of a run by the model of the language (tests/program/model), with all that the page says of them."""
from __future__ import annotations

import re
import sys
from dataclasses import dataclass, field
from pathlib import Path

sys.path.insert(0, str(Path(__file__).resolve().parents[2] / "tests/program"))

from model.cards import COLUMNS, Assembly, assemble  # noqa: E402
from model.characters import LETTERS, NAMES, characters_of, lines_of  # noqa: E402
from model.debugger import Session  # noqa: E402
from model.drawing import arrows_of, places_reached  # noqa: E402
from model.machine import take_step  # noqa: E402
from model.programs import Condition, Exit, Row  # noqa: E402
from model.state import Definition, Ending, Options, State, Trap, characters_of_input  # noqa: E402

GROUP = re.compile(r"\(([^()]*)\)")
EXIT = re.compile(r"(?:THEN\s*)?([A-Z][A-Z0-9]*)\s*$")


@dataclass
class Part:
    """A part of a statement, where it is in the deck: its card, its columns, counted from 0, and what it says."""

    card: int
    begin: int
    end: int
    text: str


@dataclass
class Saved:
    """A call that waits, or what is saved: the number of the state before, where that is, what, and its value."""

    number: int
    statement: int
    operation: str
    value: object = None


@dataclass
class Moment:
    """A state: all that the debugger knows of it, and what waits and is saved, oldest first."""

    number: int
    steps: int
    line: str
    ending: str
    statement: int
    action: int
    bugs: dict[str, int]
    fields: dict[str, tuple[int, int, int]]
    blocks: dict[int, list[int]]
    reached: set[int]
    links: dict[int, list[tuple[str, int]]]
    free: dict[int, int]
    taken: int
    output: str
    wanted: int | None
    calls: list[Saved] = field(default_factory=list)
    contents: list[Saved] = field(default_factory=list)
    definitions: list[Saved] = field(default_factory=list)

    def free_piece(self, place: int) -> tuple[int, int]:
        """The free piece with a word: its place and its size, which is 0 where there is none."""
        return next(((at, size) for at, size in self.free.items() if at <= place < at + size), (0, 0))


class Run:
    """A run of a deck, up to so many states."""

    def __init__(self, deck: str, text: str = "", most: int = 400, **options: int) -> None:
        self.deck, self.text = deck, text
        self.options = Options(**options)
        self.assembly: Assembly = assemble(deck.encode("latin-1"))
        self.parts = parts_of(deck, self.assembly)
        state = State(self.assembly.program, characters_of_input(text.encode("latin-1")), self.options)
        self.saved: dict[str, list[Saved]] = {"calls": [], "contents": [], "definitions": []}
        self.moments = [self.moment(state, 0)]
        while not state.is_last and len(self.moments) < most:
            before = self.moments[-1]
            take_step(state)
            self.note(state, before)
            self.moments.append(self.moment(state, before.number + 1))

    @property
    def is_whole(self) -> bool:
        """Whether the last state of the run is among them."""
        return self.moments[-1].ending != ""

    def moment(self, state: State, number: int) -> Moment:
        """A state as it is now."""
        session = Session(state.program, "", self.options)
        session.state = state
        line = session.line()[0]
        store = state.store
        found = Moment(
            number, state.steps, line, line.split()[1] if line.startswith("==") else "", state.statement, state.action,
            {name: bug for name, bug in zip(LETTERS, state.bugs) if bug},
            {NAMES[name]: (it.word, it.first, it.last) for name, it in sorted(state.fields.items())},
            {place: list(words) for place, words in sorted(store.blocks.items())},
            places_reached(state), {place: arrows_of(state, place) for place in store.blocks},
            {place: size for size, places in store.free_lists.items() for place in places},
            state.taken, state.output.decode("ascii"), None,
            *(list(self.saved[name]) for name in ("calls", "contents", "definitions")),
        )
        found.wanted = self.wanted(state, found)
        return found

    def wanted(self, state: State, moment: Moment) -> int | None:
        """The words that the get asks for which is the next step that shows something, if that is a get."""
        row = self.operation_at(*self.next_shown(moment))
        try:
            return state.read(row.operands[1]) if row and row.name == "GT" else None
        except Trap:
            return None

    def operation_at(self, statement: int, action: int) -> Row | None:
        """The operation that is done at a spot."""
        operations = self.assembly.program[statement].operations if statement < len(self.assembly.program) else []
        return operations[action - 1] if 0 < action <= len(operations) else None

    def is_silent(self, statement: int, action: int) -> bool:
        """Whether a step from a spot on shows nothing: there is no condition to be asked, or no exit."""
        own = self.assembly.program[statement]
        if action == 0:
            return own.condition == Condition.NONE
        return action > len(own.operations) and own.exit == Exit.NONE

    def next_shown(self, moment: Moment) -> tuple[int, int]:
        """The spot from which the next step goes that shows something."""
        statement, action = moment.statement, moment.action
        while self.is_silent(statement, action):
            statement, action = (statement, 1) if action == 0 else (statement + 1, 0)
        return statement, action

    def number_after(self, moment: Moment) -> int:
        """The number of the state to which Step leads."""
        statement, action, number = moment.statement, moment.action, moment.number
        while self.is_silent(statement, action):
            statement, action = (statement, 1) if action == 0 else (statement + 1, 0)
            number += 1
        return number + 1

    def note(self, state: State, before: Moment) -> None:
        """Notes what a step saved, called or took back."""
        if state.ending == Ending.TRAP:
            return
        amounts = {"calls": len(state.calls), "contents": len(state.contents), "definitions": len(state.definitions)}
        values = {"calls": None, "contents": state.contents[-1] if state.contents else None,
                  "definitions": window_of(state.definitions[-1]) if state.definitions else None}
        for name, amount in amounts.items():
            saved = self.saved[name]
            if amount > len(saved):
                text = self.parts[before.statement][before.action].text
                saved.append(Saved(before.number, before.statement, text, values[name]))
            elif amount < len(saved):
                saved.pop()


def window_of(definition: Definition | None) -> tuple[int, int, int] | None:
    """A definition as a word and two bits."""
    return (definition.word, definition.first, definition.last) if definition else None


def parts_of(deck: str, assembly: Assembly) -> list[dict[int, Part]]:
    """Of each statement its parts by their actions: the condition, the operations, and the exit, each if there is one."""
    cards = [characters_of(line[:COLUMNS]) for line in lines_of(deck.encode("latin-1"))]
    groups: list[list[Part]] = []
    bodies: list[list[tuple[int, str]]] = []
    for number, card in enumerate(cards):
        if not card.strip() or card[0] == "*":
            continue
        if card[0] != "+":
            groups.append([])
            bodies.append([])
        bodies[-1].append((number, card))
        own = card[0] + GROUP.sub(lambda it: it[0], card[1:])
        groups[-1] += [Part(number, it.start(), it.end(), it[0]) for it in GROUP.finditer(own)]
    found: list[dict[int, Part]] = []
    for one, parts_of_one, body in zip(assembly.program, groups, bodies):
        tests, operations = parts_of_one[:len(one.tests)], parts_of_one[len(one.tests):]
        parts = {index: part for index, part in enumerate(operations, 1)}
        if tests:
            parts[0] = condition_part(body, tests)
        if one.exit != Exit.NONE:
            parts[len(operations) + 1] = exit_part(body[-1])
        found.append(parts)
    return found


def condition_part(body: list[tuple[int, str]], tests: list[Part]) -> Part:
    """Where a condition is: its word up to its last test, or to the end of its card."""
    for number, card in body:
        word = re.compile(r"(?:IFALL|IFANY|IFNONE|IFNALL|IF|NOT)(?=\s*\()").search(card)
        if word:
            end = tests[-1].end if tests[-1].card == number else COLUMNS
            return Part(number, word.start(), end, f"{word[0]} {''.join(it.text for it in tests)}")
    raise AssertionError("no card has the condition")


def exit_part(card: tuple[int, str]) -> Part:
    """Where an exit is: the last word of the statement's last card."""
    number, text = card
    found = EXIT.search(text)
    assert found
    return Part(number, found.start(1), found.end(1), found[1])
