#!/usr/bin/env python3
"""Makes a trace for `l6 trace --any-place` of what record.c has recorded.

record.py CALLS > TRACE answers each get by a buddy system of its own, which takes the piece that was listed last: so the trace
can be judged, and its sizes and lives are those of the program. --piece is how many bytes a smallest piece has, --levels and
--units are as for `l6 trace`, and --most is how many gets and frees are taken, or fewer, if a trace may not have so many bytes.
If the record has no end, that is said on standard error, and the trace is made of its whole lines.
"""
from __future__ import annotations

import argparse
import sys
from collections.abc import Iterator
from dataclasses import dataclass, field
from pathlib import Path

MOST_BYTES, MOST_WORDS = 16_777_216, 999_999_999  # of a trace, and of a get
END = ".\n"  # the last line of a record


@dataclass
class Buddy:
    """So many units of 2^largest places, from that place on."""

    largest: int
    units: int
    lists: list[dict[int, None]] = field(init=False)  # of each level, its free pieces, the last one in front

    def __post_init__(self) -> None:
        self.lists = [{} for _ in range(self.largest + 1)]
        for unit in range(self.units, 0, -1):
            self.lists[-1][unit << self.largest] = None

    def get(self, level: int) -> int | None:
        """The place of a block, or none."""
        found = next((it for it in range(level, self.largest + 1) if self.lists[it]), None)
        if found is None:
            return None
        place, _ = self.lists[found].popitem()
        while found > level:
            found -= 1
            self.lists[found][place + (1 << found)] = None
        return place

    def free(self, place: int, level: int) -> int:
        """How often the piece of a block is joined."""
        first = level
        while level < self.largest and (place ^ 1 << level) in self.lists[level]:
            del self.lists[level][place ^ 1 << level]
            place &= ~(1 << level)
            level += 1
        self.lists[level][place] = None
        return level - first


def calls_of(file: Path) -> Iterator[tuple[str, int]]:
    """The address of each block that was given or freed, and its size, or -1 where it was freed."""
    with file.open(encoding="ascii") as lines:
        for line in lines:
            if line == END:
                return
            if line.endswith("\n"):
                sign, address, *size = line.split()
                yield address, int(size[0]) if sign == "+" else -1
    print(f"record.py: {file} is cut off: the program was killed, or it could not be written", file=sys.stderr)


def answers_of(file: Path, buddy: Buddy, piece: int) -> Iterator[str]:
    """A line for each call, with the answer of the buddy system."""
    blocks: dict[str, tuple[int, int]] = {}
    for address, size in calls_of(file):
        if address in blocks:  # (if it is got again, the program's library freed it in another way)
            yield f"free {address} = {buddy.free(*blocks.pop(address))}"
        if size < 0:  # (if it holds none, it was refused, or got before recording began)
            continue
        words = min(max(1, -(-size // piece)), MOST_WORDS)
        level = (words - 1).bit_length()
        place = buddy.get(level) if level <= buddy.largest else None
        yield f"get {address} {words} = {'none' if place is None else place}"
        if place is not None:
            blocks[address] = place, level


def trace_of(file: Path, buddy: Buddy, piece: int, most: int) -> Iterator[str]:
    """The lines of the trace."""
    left, count = MOST_BYTES - len("end 1000000\n"), 0
    for line in answers_of(file, buddy, piece):
        left -= len(line) + 1
        if count == most or left < 0:
            break
        count += 1
        yield line
    yield f"end {count}"


def main() -> int:
    """Writes the trace."""
    parser = argparse.ArgumentParser(description=__doc__.split("\n", 1)[0])
    parser.add_argument("calls", type=Path, metavar="CALLS")
    parser.add_argument("--piece", type=int, default=16)
    parser.add_argument("--levels", type=int, default=20)
    parser.add_argument("--units", type=int, default=4)
    parser.add_argument("--most", type=int, default=1_000_000)
    options = parser.parse_args()
    for line in trace_of(options.calls, Buddy(options.levels, options.units), options.piece, options.most):
        print(line)
    return 0


if __name__ == "__main__":
    sys.exit(main())
