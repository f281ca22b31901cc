"""Reads the answers to `draw` and `store` in a debugger's transcript.

A transcript has no commands in it, but each kind of answer has its own form. The lines of states divide
it: the answers to `fields` and `block` belong to the drawings of the same state.
"""
from __future__ import annotations

import re
from dataclasses import dataclass

STATE = re.compile(r"^(?=AT \d+\.\d+ AFTER|== )", re.M)
OUTPUT = re.compile(r"^OUTPUT (\d+) BYTES\n", re.M)
FIELD = re.compile(r"^([0-9A-Z]) (\d+) (\d+) (\d+)$", re.M)
WORDS = re.compile(r"^BLOCK (\d+) SIZE \d+\n((?: +\d+ [0-7]{12}\n)+)", re.M)
ARROW = re.compile(r"^ *([0-9A-Z]) -> (\d+)$", re.M)
BLOCK = re.compile(r"^BLOCK (\d+) SIZE (\d+)\n((?:  [0-9A-Z] -> \d+\n)*)", re.M)
DRAWING = re.compile(rf"^((?:[A-Z] -> \d+\n)*)((?:{BLOCK.pattern})+)(\d+) BLOCKS$", re.M)
STRETCH = re.compile(r"^(\d+) (BLOCK|FREE) (\d+)( LOST)?$", re.M)
MAP = re.compile(r"^((?:\d+ (?:BLOCK|FREE) \d+(?: LOST)?\n)+)(\d+) WORDS USED (\d+) FREE$", re.M)

WORD_BITS = 36


@dataclass(frozen=True)
class Field:
    """The definition of a field: a word of a block, and the first and the last bit in that word."""

    name: str
    word: int
    first: int
    last: int

    def value(self, words: list[int]) -> int:
        """Its value in a block of these words, which must include its own word."""
        return words[self.word] >> (WORD_BITS - 1 - self.last) & ((1 << self.width) - 1)

    @property
    def width(self) -> int:
        """Its number of bits."""
        return self.last - self.first + 1


@dataclass(frozen=True)
class Block:
    """A block of a drawing."""

    place: int
    size: int
    arrows: dict[str, int]  # the place of the block that each linking field leads to
    words: list[int]  # empty if the transcript has no `block` for it


@dataclass(frozen=True)
class Drawing:
    """The answer to `draw`."""

    bugs: dict[str, int]  # the place of the block that each linking bug leads to
    blocks: list[Block]
    fields: list[Field]  # in the order of their bits; empty if the transcript has no `fields`


@dataclass(frozen=True)
class Stretch:
    """A block, or a run of free words."""

    place: int
    size: int
    kind: str  # block, lost or free

    @property
    def end(self) -> int:
        """The place after it."""
        return self.place + self.size


@dataclass(frozen=True)
class StoreMap:
    """The answer to `store`."""

    stretches: list[Stretch]
    used: int
    free: int


def without_output(transcript: str) -> str:
    """A transcript without the program's output, which may look like anything."""
    kept, rest = "", transcript
    while found := OUTPUT.search(rest):
        kept += rest[: found.start()]
        printed = rest[found.end() :][: int(found[1])]
        rest = rest[found.end() + len(printed) :]
        if printed and not printed.endswith("\n"):
            rest = rest.removeprefix("\n")
    return kept + rest


def arrows_of(lines: str) -> dict[str, int]:
    """The place that each name in these lines leads to."""
    return {name: int(place) for name, place in ARROW.findall(lines)}


def drawing_of(answer: re.Match[str], state: str) -> Drawing:
    """The drawing of an answer, with the fields and words of the same state."""
    fields = [Field(name, *map(int, numbers)) for name, *numbers in FIELD.findall(state)]
    words = {int(place): [int(line.split()[1], 8) for line in lines.splitlines()]
             for place, lines in WORDS.findall(state)}
    blocks = [Block(int(place), int(size), arrows_of(lines), words.get(int(place), []))
              for place, size, lines in BLOCK.findall(answer[2])]
    if len(blocks) != int(answer.groups()[-1]):
        raise ValueError(f"{len(blocks)} blocks are drawn, but {answer.groups()[-1]} are counted")
    fields.sort(key=lambda it: (it.word, it.first, it.last, it.name))
    return Drawing(arrows_of(answer[1]), blocks, fields)


def map_of(answer: re.Match[str]) -> StoreMap:
    """The map of an answer."""
    stretches = [Stretch(int(place), int(size), "lost" if lost else kind.lower())
                 for place, kind, size, lost in STRETCH.findall(answer[1])]
    if any(left.end != right.place for left, right in zip(stretches, stretches[1:])):
        raise ValueError("a map with a gap")
    used = sum(it.size for it in stretches if it.kind != "free")
    free = sum(it.size for it in stretches if it.kind == "free")
    if [used, free] != [int(answer[2]), int(answer[3])]:
        raise ValueError(f"a map of {used} words used and {free} free, with other sums")
    return StoreMap(stretches, used, free)


def drawings_and_maps(transcript: str) -> tuple[list[Drawing], list[StoreMap]]:
    """The drawings that have a block, and the maps, each in the order of the transcript."""
    states = STATE.split(without_output(transcript))
    drawings = [drawing_of(answer, state) for state in states for answer in DRAWING.finditer(state)]
    return drawings, [map_of(answer) for state in states for answer in MAP.finditer(state)]
