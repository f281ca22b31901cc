"""Traces of an allocator's calls, and their answers."""
from __future__ import annotations

import re
from dataclasses import dataclass, field

from .faults import Fault
from .store import SIZES, UNIT, Store

MOST_CALLS = 1_000_000
MOST_NUMBER = 999_999_999
NAME_LIMIT = 64  # bytes
LARGEST = len(SIZES) - 1

LINE = re.compile(
    rb"(?:get (?P<name>\S+) (?P<words>\d+)(?: = (?P<place>none|\d+(?: words (?P<size>\d+))?))?"
    rb"|free (?P<freed>\S+)(?: = (?P<joined>\d+))?"
    rb"|(?P<shown>lists|map|stats)|end (?P<end>\d+))"
)


@dataclass
class Tracer:
    """A store, the blocks that the names hold, and what is counted."""

    units: int
    held: dict[bytes, tuple[int, int, int]] = field(default_factory=dict)  # place, level and words asked for
    refused: int = 0
    fragmented: int = 0

    def __post_init__(self) -> None:
        self.store = Store(self.units)

    def lists(self) -> list[str]:
        """The free lists, a line for each that is not empty."""
        lists = [
            f"level {level}: {' '.join(map(str, self.store.free_lists[size]))}"
            for level, size in enumerate(SIZES) if self.store.free_lists[size]
        ]
        return lists or ["no free piece"]

    def pieces(self) -> list[str]:
        """The blocks and the free pieces, places rising."""
        pieces = {place: f"{name.decode()}, words {2**level}" for name, (place, level, _) in self.held.items()}
        for size, places in self.store.free_lists.items():
            pieces.update((place, f"free, words {size}") for place in places)
        return [f"{place} {pieces[place]}" for place in sorted(pieces)]

    def stats(self) -> list[str]:
        """How much of the store is used."""
        given = sum(2**level for _, level, _ in self.held.values())
        wanted = sum(words for _, _, words in self.held.values())
        lists = self.store.free_lists
        counts = [f"level {level}: free pieces {len(lists[size])}" for level, size in enumerate(SIZES) if lists[size]]
        largest = [f"largest free level {max(level for level, size in enumerate(SIZES) if lists[size])}"] if counts else []
        return [
            f"words in blocks {given}, asked for {wanted}, wasted {given - wanted}",
            f"free words {self.units * UNIT - given}", *counts, *largest,
            f"gets refused {self.refused}, because of fragmentation {self.fragmented}",
        ]

    def get(self, name: bytes, words: int) -> tuple[str, object]:
        """Gets a block; the answer, and its place or none."""
        if words > UNIT:
            self.refused += 1
            return "none", None
        before = pieces_of(self.store)
        place = self.store.get(words)
        level = next(level for level, size in enumerate(SIZES) if words <= size)
        if place is None:
            self.refused += 1
            free = self.units * UNIT - sum(2**level for _, level, _ in self.held.values())
            self.fragmented += free >= 2**level
            return "none", None
        self.held[name] = (place, level, words)
        # each halving leaves one free piece more, and the get takes one
        return f"{place}, level {level}, halved {pieces_of(self.store) - before + 1}", place

    def free(self, name: bytes) -> tuple[str, object]:
        """Frees a block; the answer, and how often its piece was joined."""
        before = pieces_of(self.store)
        self.store.free(self.held.pop(name)[0])
        joined = before - pieces_of(self.store) + 1  # each joining leaves one less, and the free adds one
        return f"joined {joined}", joined


def pieces_of(store: Store) -> int:
    """How many free pieces a store has."""
    return sum(map(len, store.free_lists.values()))


def answer_of_trace(text: bytes, units: int) -> tuple[bytes, bytes, int]:
    """What goes to both outputs for a trace, and the exit status."""
    calls: list[tuple[int, re.Match[bytes]]] = []
    end: tuple[int, int, int] | None = None  # its line, how many answers it tells, and how many calls are before it
    lines = lines_of(text)
    for number, line in enumerate(lines, 1):
        words = line.replace(b"\t", b" ").split()
        if not words or words[0].startswith(b"#"):
            continue
        call = LINE.fullmatch(b" ".join(words))
        if call is None or not is_right(call):
            is_cut = number == len(lines) and not text.endswith(b"\n")
            raise Fault(f"line {number}: not a call{': the trace is cut off' * is_cut}")
        if call["end"]:
            end = end or (number, int(call["end"]), len(calls))
            continue
        if len(calls) == MOST_CALLS:
            raise Fault(f"line {number}: too many calls")
        calls.append((number, call))
    answers, is_right_so_far = answers_to(calls, units)
    notes, is_whole = notes_on([call for _, call in calls], end, bool(text) and not text.endswith(b"\n"))
    return text_of(answers), text_of([f"l6: {note}" for note in notes]), int(not (is_right_so_far and is_whole))


def notes_on(
    calls: list[re.Match[bytes]], end: tuple[int, int, int] | None, is_cut: bool
) -> tuple[list[str], bool]:
    """Why answers may not have been compared, and whether all is there."""
    is_compared = any(call["place"] or call["joined"] for call in calls)
    notes = ["the last line has no line feed: it may be cut off"] * (is_cut and is_compared)
    answers = sum(call["shown"] is None for call in calls)
    if answers == 0:
        if calls and end is None:
            return notes, True
        return [*notes, f"{f'line {end[0]}: ' if end else ''}the trace has no get and no free"], False
    if end is None:
        return notes + ["the trace may be cut off: it has no line end"] * is_compared, True
    if end[2] < len(calls):
        return [*notes, f"line {end[0]}: calls follow the line end"], False
    if end[1] != answers:
        wrong = "the trace is cut off, or has lines too many: its gets and frees are"
        return [*notes, f"line {end[0]}: {wrong} {answers}"], False
    return (notes, True) if is_compared else ([*notes, "no answer was compared"], False)


def answers_to(calls: list[tuple[int, re.Match[bytes]]], units: int) -> tuple[list[str], bool]:
    """The answers to calls up to the first that is wrong, and whether none is."""
    tracer = Tracer(units)
    answers: list[str] = []
    for number, call in calls:
        if call["shown"]:
            shown = {b"lists": tracer.lists, b"map": tracer.pieces, b"stats": tracer.stats}[call["shown"]]
            answers += shown()
            continue
        name = call["name"] or call["freed"]
        if (name in tracer.held) == (call["name"] is not None):
            return [*answers, f"line {number}: the name holds a block already, or none"], False
        before = tracer.lists()
        if call["name"]:
            what = " ".join(("get", name.decode(), str(int(call["words"]))))
            answer, value = tracer.get(name, int(call["words"]))
            place, size = place_and_size(call)
            is_known, said = call["place"] is not None, "none" if place is None else f"{place}{f', words {size}' * (size is not None)}"
            is_other = value != place or (size is not None and size != 2 ** tracer.held[name][1])
        else:
            what = " ".join(("free", name.decode()))
            answer, value = tracer.free(name)
            other = int(call["joined"]) if call["joined"] else None
            is_known, said, is_other = other is not None, f"joined {other}", value != other
        if is_known and is_other:
            answers += [f"line {number} differs: {what}: {answer}", f"the other allocator: {said}"]
            return [*answers, "the free lists before it:", *before], False
        answers.append(f"{what}: {answer}")
    return answers, True


def place_and_size(call: re.Match[bytes]) -> tuple[int | None, int | None]:
    """The place that a get was answered with, and the size, where they are said."""
    if call["place"] in (None, b"none"):
        return None, None
    return int(call["place"].split()[0]), int(call["size"]) if call["size"] else None


def is_right(call: re.Match[bytes]) -> bool:
    """Whether the numbers and the name of a call are in range."""
    numbers = [int(call[part]) for part in ("words", "joined", "end") if call[part]]
    numbers += [number for number in place_and_size(call) if number is not None]
    name = call["name"] or call["freed"] or b"-"
    some = call["words"] is None or int(call["words"]) > 0
    return some and max(numbers, default=0) <= MOST_NUMBER and len(name) <= NAME_LIMIT and name != b"="


def lines_of(text: bytes) -> list[bytes]:
    """The lines of a text, without a carriage return at their ends."""
    lines = text.split(b"\n")
    if lines[-1] == b"":
        lines.pop()
    return [line[:-1] if line.endswith(b"\r") else line for line in lines]


def text_of(lines: list[str]) -> bytes:
    """The text of these lines."""
    return "".join(f"{line}\n" for line in lines).encode()
