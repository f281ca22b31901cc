"""The judge of any allocator's answers, by what each place is in."""
from __future__ import annotations

from dataclasses import dataclass, field

Finding = tuple[int, str, int | None]  # the line, the kind, and the place, size or number that is named


@dataclass
class Judge:
    """So many units of 2^largest places, from the first one on, and the blocks that the names hold."""

    largest: int
    units: int
    first: int
    taken: set[int] = field(default_factory=set)
    held: dict[str, tuple[int, int] | None] = field(default_factory=dict)  # place and level; none if misplaced

    @property
    def end(self) -> int:
        """The place after the last one."""
        return self.first + (self.units << self.largest)

    def is_open(self, level: int, place: int) -> bool:
        """Whether a block of a level may be at a place."""
        size = 2**level
        within = self.first <= place and place + size <= self.end
        return place % size == 0 and within and self.taken.isdisjoint(range(place, place + size))

    def lowest(self, level: int) -> int | None:
        """The lowest open place of a level."""
        places = range(0, self.end, 2**level)
        return next((place for place in places if self.is_open(level, place)), None)

    def get(self, name: str, words: int, place: int | None, size: int | None) -> tuple[str, int | None] | None:
        """What is wrong with a get that was answered with a place, or with none."""
        if name in self.held:
            return "held", None
        level = next((it for it in range(self.largest + 1) if words <= 2**it), None)
        if place is None:
            found = None if level is None else self.lowest(level)
            return None if found is None else ("refused", found)
        self.held[name] = None
        if level is None:
            return "too large", None
        if not self.is_open(level, place):
            return self.hindrance(level, place)
        self.held[name] = place, level
        self.taken.update(range(place, place + 2**level))
        return None if size in (None, 2**level) else ("size", 2**level)

    def hindrance(self, level: int, place: int) -> tuple[str, int | None]:
        """Why a block of a level may not be at a place."""
        if place % 2**level:
            return "misaligned", None
        if place < self.first or self.end < place + 2**level:
            return "outside", None
        blocks = (block for block in self.held.values() if block is not None)
        return "overlaps", next(at for at, other in sorted(blocks) if at < place + 2**level and place < at + 2**other)

    def free(self, name: str, joined: int | None) -> tuple[str, int | None] | None:
        """What is wrong with a free."""
        if name not in self.held:
            return "not held", None
        block = self.held.pop(name)
        if block is None:
            return None
        place, level = block
        self.taken.difference_update(range(place, place + 2**level))
        right = 0
        while level + right < self.largest:
            whole = 2 ** (level + right + 1)
            if not self.is_open(level + right + 1, place // whole * whole):
                break
            right += 1
        return None if joined in (None, right) else ("not joined", right)


def findings_of(text: str, largest: int, units: int, first: int) -> list[Finding]:
    """What is found of a trace whose lines are calls that have answers."""
    judge = Judge(largest, units, first)
    findings: list[Finding] = []
    for number, line in enumerate(text.splitlines(), 1):
        verb, name, *rest = line.split()
        if verb == "end":
            continue
        if verb == "get":
            size = int(rest[4]) if len(rest) > 3 else None
            found = judge.get(name, int(rest[0]), None if rest[2] == "none" else int(rest[2]), size)
        else:
            found = judge.free(name, int(rest[1]) if rest else None)
        if found is not None:
            findings.append((number, *found))
    return findings
