"""Tries what the debugger that answers at once says of blocks, beside the model of tests/program/model/.

The model lists all states of a run with the words of all blocks. From that list it is worked out by which steps a
block was got, last written and freed (`who`), and where one stops who watches a word of a block (`watch *`).
"""
from __future__ import annotations

import random
import re
from collections.abc import Callable, Iterator
from dataclasses import dataclass
from pathlib import Path

from answers import answer_of
from further_jobs import aliased_job, churned_deck
from model.cards import assemble
from model.machine import take_step
from model.state import Options, State, characters_of_input
from trials import Trial

LIVES = 120  # decks of whose blocks one asks
STEPS = 1_000  # of a run of one
ASKED = 12  # questions of each deck
STOPS = 700  # of those who watch words, at least, within runs
KNOWN = re.compile(
    r"^(?:BLOCK \d+ (?:SIZE \d+|IS FREED)|NO BLOCK AT \d+, NOW OR BEFORE"
    r"|(?:got|written|freed) AT \d+\.\d+ AFTER \d+ STEPS)", re.MULTILINE)


@dataclass(frozen=True)
class Seen:
    """What the model shows of a state."""

    position: tuple[int, int]
    blocks: dict[int, tuple[int, ...]]

    def word(self, place: int, index: int) -> int | None:
        """A word of the block at a place, if there is one."""
        words = self.blocks.get(place, ())
        return words[index] if index < len(words) else None


def states_of(deck: bytes) -> list[Seen]:
    """All states of the run of a deck."""
    state = State(assemble(deck).program, characters_of_input(b""), Options(store=1, steps=STEPS))
    seen = [seen_of(state)]
    while not state.is_last:
        take_step(state)
        seen.append(seen_of(state))
    return seen


def seen_of(state: State) -> Seen:
    """What is seen of a state."""
    blocks = {place: tuple(words) for place, words in state.store.blocks.items()}
    return Seen((state.statement, state.action), blocks)


def life(states: list[Seen], at: int, place: int) -> list[str]:
    """What is shown of the block at a place in a state: which it is, and its steps."""
    blocks = [state.blocks.get(place) for state in states]
    end, freed = at, None
    if blocks[at] is None:
        freed = latest(at, lambda n: blocks[n] is not None and blocks[n + 1] is None)
        if freed is None:
            return [f"NO BLOCK AT {place}, NOW OR BEFORE"]
        end = freed
    got = latest(end, lambda n: blocks[n] is None and blocks[n + 1] is not None)
    assert got is not None
    written = latest(end, lambda n: blocks[n] != blocks[n + 1], got + 1)
    now = blocks[at]
    head = f"BLOCK {place} IS FREED" if now is None else f"BLOCK {place} SIZE {len(now)}"
    steps = [("got", got), ("written", written), ("freed", freed)]
    return [head] + [f"{did} {line_of(states, n)}" for did, n in steps if n is not None]


def latest(end: int, holds: Callable[[int], bool], first: int = 0) -> int | None:
    """The latest number before one, from a first one on, of which something holds."""
    return next((n for n in range(end - 1, first - 1, -1) if holds(n)), None)


def line_of(states: list[Seen], number: int) -> str:
    """The line of a state, which is not the last one."""
    statement, action = states[number].position
    return f"AT {statement}.{action} AFTER {number} STEPS"


def random_deck(chance: random.Random) -> bytes:
    """A deck that gets, writes and frees blocks."""
    if chance.random() < 0.5:
        return churned_deck(chance)
    return aliased_job(chance).stdin.partition(b"$COMMANDS\n")[0]


def random_run(name: str) -> tuple[random.Random, bytes, list[Seen], list[int]]:
    """Chance by a name, a random deck, the states of its run, and the places at which blocks begin in them."""
    chance = random.Random(name)
    deck = random_deck(chance)
    states = states_of(deck)
    return chance, deck, states, sorted({place for state in states for place in state.blocks}) or [1_024]


def answered(program: str, folder: Path, deck: bytes, lines: list[str]) -> str:
    """What is answered to lines of a session with a deck."""
    (folder / "my.deck").write_bytes(deck)
    words = [program, "--store", "1", "--steps", str(STEPS), str(folder / "my.deck")]
    return answer_of(words, input="\n".join(lines).encode() + b"\n", preexec_fn=None).stdout.decode("ascii")


def lives(program: str, folder: Path) -> Iterator[Trial]:
    """The lives of blocks, at random states of random decks; the session stays where it is."""
    told = set[str]()
    for number in range(LIVES):
        chance, deck, states, places = random_run(f"lives {number}")
        lines, wanted, numbers = [], [], []
        for _ in range(ASKED):
            at, place = chance.randrange(len(states)), chance.choice([*places, *places, *places, 2_047])
            lines += [f"goto {at}", f"who {place}", "stats"]
            wanted += life(states, at, place)
            numbers.append(at)
        told |= {re.sub(r"\d+(\.\d+)?", "N", line) for line in wanted}
        made = answered(program, folder, deck, lines)
        found = [int(it) for it in re.findall(r"^STATE (\d+) ", made, re.MULTILINE)]
        yield f"lives {number}", wanted, KNOWN.findall(made)
        yield f"who stays, {number}", (ASKED, numbers), (len(found), found)
    yield "each kind of line that is printed of a block", {"BLOCK N SIZE N", "BLOCK N IS FREED", "NO BLOCK AT N, NOW OR BEFORE",
                                        *(f"{did} AT N AFTER N STEPS" for did in ("got", "written", "freed"))}, told


def words_watched(program: str, folder: Path) -> Iterator[Trial]:
    """Words of blocks that are watched, at random states of random decks, and with a chain beside them."""
    within, kinds = 0, set[tuple[str, int]]()
    for number in range(LIVES):
        chance, deck, states, places = random_run(f"words {number}")
        watched = [(chance.choice(places), chance.choice([0, 0, 1, 2])) for _ in range(chance.choice([1, 1, 2, 3]))]
        lines = [f"watch *{place}+{word}" if word else f"watch *{place}" for place, word in watched]
        goals = []
        for _ in range(ASKED):
            at, command = chance.randrange(len(states)), chance.choice(["c", "rc"])
            lines += [f"goto {at}", command, "stats"]
            goals.append(goal_of(states, at, command, watched))
            kinds.add((command, len(watched)))
            within += 0 < goals[-1] < len(states) - 1
        made = answered(program, folder, deck, lines)
        found = [int(it) for it in re.findall(r"^STATE (\d+) ", made, re.MULTILINE)]
        yield f"words {number}: {lines[:len(watched)]}", (ASKED, goals), (len(found), found)
    yield "ways on and back, by one to three words, and stops within a run", (2 * 3, True), (len(kinds), within > STOPS)


def goal_of(states: list[Seen], at: int, command: str, watched: list[tuple[int, int]]) -> int:
    """The number of the state at which one stops that goes on or back."""
    values = [[state.word(place, word) for place, word in watched] for state in states]
    last = len(states) - 1
    if command == "c":
        return next((n for n in range(at + 1, last + 1) if values[n] != values[n - 1]), last)
    return next((n for n in range(at - 1, -1, -1) if values[n] != values[n + 1]), 0)
