"""The debugger: commands that show the states of a run, forward and back."""
from __future__ import annotations

from collections.abc import Callable, Iterator
from itertools import islice

from .characters import LETTERS, NAMES, lines_of, number_of_digits
from .drawing import drawing_of, map_of
from .machine import take_step
from .printout import ending_line, whole_lines
from .programs import Program
from .state import Options, State

NUMBER_LIMIT = 1_000_000_000
NOT_A_COMMAND = ["?? NOT A COMMAND"]


class Session:
    """The state that is shown, its number, and the statements that are marked."""

    def __init__(self, program: Program, characters: str, options: Options) -> None:
        self.start: Callable[[], State] = lambda: State(program, characters, options)
        self.state = self.start()
        self.number = 0
        self.marks: set[int] = set()
        self.plain: dict[str, Callable[[], list[str]]] = {
            "GO": self.go,
            "SHOW": self.show,
            "FIELDS": self.fields,
            "DRAW": lambda: drawing_of(self.state),
            "STORE": lambda: map_of(self.state),
            "OUT": self.out,
        }
        self.numbered: dict[str, Callable[[int], list[str]]] = {
            "STEP": self.step,
            "BACK": self.back,
            "BREAK": self.mark,
            "CLEAR": self.clear,
            "BLOCK": self.block,
        }

    def transcript(self, commands: bytes) -> bytes:
        """The answers to commands, up to `quit`."""
        answers = []
        for words in map(words_of, lines_of(commands)):
            if words == ["QUIT"]:
                break
            if words:
                answers += self.answer(words)
        return "".join(line + "\n" for line in answers).encode("ascii")

    def answer(self, words: list[str]) -> list[str]:
        """The lines that answer a command."""
        name, *numbers = words
        if name in self.plain and not numbers:
            return self.plain[name]()
        number = number_of_digits(numbers[0], NUMBER_LIMIT) if len(numbers) == 1 else None
        if name in self.numbered and number is not None:
            return self.numbered[name](number)
        return NOT_A_COMMAND

    def line(self) -> list[str]:
        """The line of the state."""
        state = self.state
        if state.is_last:
            return [ending_line(state)]
        return [f"AT {state.statement}.{state.action} AFTER {state.steps} STEPS"]

    def forward(self) -> Iterator[State]:
        """Goes to one later state after another, up to the last one."""
        while not self.state.is_last:
            take_step(self.state)
            self.number += 1
            yield self.state

    def step(self, count: int) -> list[str]:
        """Goes so many states on."""
        for _ in islice(self.forward(), count):
            pass
        return self.line()

    def go(self) -> list[str]:
        """Goes to the first later state that stands at the condition of a marked statement."""
        for state in self.forward():
            if state.action == 0 and state.statement in self.marks:
                break
        return self.line()

    def back(self, count: int) -> list[str]:
        """Goes so many states back: a run from the start is the same again."""
        number = max(self.number - count, 0)
        self.state, self.number = self.start(), 0
        return self.step(number)

    def mark(self, statement: int) -> list[str]:
        """Marks a statement."""
        if statement >= len(self.state.program):
            return ["?? NO SUCH STATEMENT"]
        self.marks.add(statement)
        return [f"BREAK AT {statement}"]

    def clear(self, statement: int) -> list[str]:
        """Takes the mark off a statement."""
        if statement >= len(self.state.program):
            return ["?? NO SUCH STATEMENT"]
        self.marks.discard(statement)
        return [f"CLEARED {statement}"]

    def show(self) -> list[str]:
        """The bugs that are not 0, and how much is saved, taken and printed."""
        state = self.state
        bugs = [f"{letter} {bug:012o} {bug}" for letter, bug in zip(LETTERS, state.bugs) if bug]
        saved = f"CONTENTS {len(state.contents)} DEFINITIONS {len(state.definitions)}"
        others = f"RETURNS {len(state.calls)} INPUT {state.taken} OUTPUT {len(state.output)}"
        return [*self.line(), *bugs, f"{saved} {others}"]

    def fields(self) -> list[str]:
        """The fields that are defined."""
        defined = sorted(self.state.fields.items())
        return [f"{NAMES[name]} {one.word} {one.first} {one.last}" for name, one in defined] or ["NO FIELDS"]

    def block(self, place: int) -> list[str]:
        """The words of a block."""
        if place not in self.state.store.blocks:
            return [f"NO BLOCK AT {place}"]
        words = self.state.store.blocks[place]
        lines = [f"{number:4} {word:012o}" for number, word in enumerate(words)]
        return [f"BLOCK {place} SIZE {len(words)}", *lines]

    def out(self) -> list[str]:
        """What has been printed."""
        output = self.state.output
        lines = whole_lines(output).decode("ascii").split("\n")
        return [f"OUTPUT {len(output)} BYTES", *lines[:-1]]


def words_of(line: bytes) -> list[str]:
    """The words of a command's line, in capitals. Nothing but blanks and tabs parts them."""
    return [word for word in line.upper().decode("latin-1").replace("\t", " ").split(" ") if word]
