#!/usr/bin/env python3
"""Draws a trace over its calls: how many places are in blocks, and how many the largest free piece has.

draw.py < TRACE > PICTURE reads gets and frees with the answers of any allocator, or those of `l6 trace`. What is free follows
from the blocks alone. A block that is where none may be is left out. --levels, --units, --first and --piece are as for
`l6 trace --any-place`. The picture is one of SVG.
"""
from __future__ import annotations

import argparse
import re
import sys
from collections.abc import Iterable, Iterator
from dataclasses import dataclass, field

LINE = re.compile(r"get (\S+) (\d+)(?: = |: )(\d+|none)\b|free (\S+?)(?: = \d+|: joined \d+)?$")
WIDTH, HEIGHT = 900, 300
LEFT, RIGHT, ABOVE, BELOW = 80, 20, 30, 30  # the room beside the lines
COLUMNS = 400  # of the picture: each shows the worst of its calls


@dataclass
class Pieces:
    """The free pieces of the places from a first one up to an end: each is as large as the blocks let it be."""

    largest: int
    first: int
    end: int
    free: list[set[int]] = field(init=False)  # of each level
    used: int = 0

    def __post_init__(self) -> None:
        self.free = [set() for _ in range(self.largest + 1)]
        place = self.first
        while place < self.end:
            level = min(self.largest, (self.end - place).bit_length() - 1)
            while place % (1 << level):
                level -= 1
            self.free[level].add(place)
            place += 1 << level

    def take(self, level: int, place: int) -> bool:
        """Puts a block at a place, if it is open."""
        if place % (1 << level):
            return False
        above = next((it for it in range(level, self.largest + 1) if place >> it << it in self.free[it]), None)
        if above is None:
            return False
        self.free[above].remove(place >> above << above)
        for half in range(level, above):
            self.free[half].add((place >> half ^ 1) << half)
        self.used += 1 << level
        return True

    def give(self, level: int, place: int) -> None:
        """Takes the block at a place out again."""
        self.used -= 1 << level
        while level < self.largest and place ^ 1 << level in self.free[level]:
            self.free[level].remove(place ^ 1 << level)
            place &= ~(1 << level)
            level += 1
        self.free[level].add(place)

    def largest_free(self) -> int:
        """How many places the largest free piece has."""
        return next((1 << level for level in range(self.largest, -1, -1) if self.free[level]), 0)


def points_of(lines: Iterable[str], pieces: Pieces, piece: int) -> Iterator[tuple[int, int]]:
    """After each call how many places are in blocks, and how many the largest free piece has."""
    blocks: dict[str, tuple[int, int]] = {}
    for line in lines:
        call = LINE.match(line.strip())
        if not call:
            continue
        got, words, answer, freed = call.groups()
        if freed in blocks:
            pieces.give(*blocks.pop(freed))
        elif got and answer != "none" and got not in blocks and int(answer) % piece == 0:
            level = (max(1, -(-int(words) // piece)) - 1).bit_length()
            if level <= pieces.largest and pieces.take(level, int(answer) // piece):
                blocks[got] = level, int(answer) // piece
        yield pieces.used, pieces.largest_free()


def picture(points: list[tuple[int, int]], places: int) -> str:
    """Both numbers over the calls. A column has the most places in blocks of its calls, and the least largest piece."""
    step = max(1, -(-len(points) // COLUMNS))
    columns = [points[at:at + step] for at in range(0, len(points), step)] or [[(0, places)]]
    most = max(1, *(max(point) for point in points)) if points else places
    wide, high = WIDTH - LEFT - RIGHT, HEIGHT - ABOVE - BELOW

    def line(values: list[int]) -> str:
        return " ".join(
            f"{LEFT + at * wide / max(1, len(values) - 1):.1f},{HEIGHT - BELOW - value * high / most:.1f}"
            for at, value in enumerate(values)
        )

    used = line([max(point[0] for point in column) for column in columns])
    free = line([min(point[1] for point in column) for column in columns])
    down = HEIGHT - BELOW
    return "\n".join((
        f'<svg xmlns="http://www.w3.org/2000/svg" viewBox="0 0 {WIDTH} {HEIGHT}" font-family="sans-serif" font-size="12">',
        f"<title>{len(points)} calls in {places} places</title>",
        f'<rect width="{WIDTH}" height="{HEIGHT}" fill="white"/>',
        f'<rect x="{LEFT}" y="{ABOVE}" width="{wide}" height="{high}" fill="none" stroke="#888"/>',
        *(
            f'<text x="{LEFT - 6}" y="{down - high * part / 2 + 4:.0f}" text-anchor="end">{most * part // 2}</text>'
            for part in range(3)
        ),
        f'<text x="{LEFT}" y="{HEIGHT - 10}">0</text>',
        f'<text x="{WIDTH - RIGHT}" y="{HEIGHT - 10}" text-anchor="end">{len(points)} calls</text>',
        f'<polyline points="{free}" fill="none" stroke="#d62728" stroke-width="1.5"/>',
        f'<polyline points="{used}" fill="none" stroke="#1f77b4" stroke-width="1.5"/>',
        f'<text x="{LEFT}" y="{ABOVE - 10}" fill="#1f77b4">places in blocks</text>',
        f'<text x="{LEFT + 130}" y="{ABOVE - 10}" fill="#d62728">places in the largest free piece</text>',
        "</svg>", "",
    ))


def main() -> int:
    """Writes the picture."""
    parser = argparse.ArgumentParser(description=__doc__.split("\n", 1)[0])
    parser.add_argument("--levels", type=int, default=10)
    parser.add_argument("--units", type=int, default=8)
    parser.add_argument("--first", type=int)
    parser.add_argument("--piece", type=int, default=1)
    options = parser.parse_args()
    first = 1 << options.levels if options.first is None else options.first
    places = options.units << options.levels
    points = list(points_of(sys.stdin, Pieces(options.levels, first, first + places), options.piece))
    sys.stdout.write(picture(points, places))
    return 0


if __name__ == "__main__":
    sys.exit(main())
