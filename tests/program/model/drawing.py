"""What a program can still come to: the drawing of it, and the map of the store, which tells what is lost."""
from __future__ import annotations

from .characters import LETTERS, NAMES
from .state import State
from .store import UNIT


def drawing_of(state: State) -> list[str]:
    """The answer to `draw`."""
    blocks = state.store.blocks
    lines = [f"{letter} -> {bug}" for letter, bug in zip(LETTERS, state.bugs) if bug in blocks]
    reached = sorted(places_reached(state))
    for place in reached:
        lines.append(f"BLOCK {place} SIZE {len(blocks[place])}")
        lines += [f"  {name} -> {pointer}" for name, pointer in arrows_of(state, place)]
    return [*lines, f"{len(reached)} BLOCKS"]


def arrows_of(state: State, place: int) -> list[tuple[str, int]]:
    """The fields of a block that hold the place of a block, and that place."""
    words = state.store.blocks[place]
    arrows = []
    for name, definition in sorted(state.fields.items()):
        if definition.word < len(words):
            pointer = definition.window_on(words).read()
            if pointer in state.store.blocks:
                arrows.append((NAMES[name], pointer))
    return arrows


def places_reached(state: State) -> set[int]:
    """The places of the blocks to which bugs lead, or fields of blocks that are reached."""
    reached: set[int] = set()
    waiting = [bug for bug in state.bugs if bug in state.store.blocks]
    while waiting:
        place = waiting.pop()
        if place not in reached:
            reached.add(place)
            waiting += [pointer for _, pointer in arrows_of(state, place)]
    return reached


def map_of(state: State) -> list[str]:
    """The answer to `store`."""
    store = state.store
    reached = places_reached(state)
    lines = []
    behind = UNIT  # the place behind the blocks that were told
    used = 0
    for place, words in sorted(store.blocks.items()):
        lines += free_line(behind, place)
        lines.append(f"{place} BLOCK {len(words)}" + ("" if place in reached else " LOST"))
        behind = place + len(words)
        used += len(words)
    lines += free_line(behind, store.end)
    return [*lines, f"{used} WORDS USED {store.end - UNIT - used} FREE"]


def free_line(place: int, end: int) -> list[str]:
    """The line of the free words from a place to an end, if there are any."""
    return [f"{place} FREE {end - place}"] if place < end else []
