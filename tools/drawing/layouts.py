"""Draws blocks word for word, as they lie in the store, as an SVG text.

Each word is a row of 36 bits, with its place on the left and its fields to scale. A field that leads to a
block has an arrow, on the side of the half of the word where the field begins. A bug has an arrow, too.
"""
from __future__ import annotations

from collections.abc import Iterator
from dataclasses import dataclass
from html import escape

from graphs import value_of
from transcripts import WORD_BITS, Block, Drawing, Field

BIT = 16  # the width of a bit
HEIGHT = 34  # of a row
GAP = 10  # between two blocks
SIDE = 120  # the room for arrows, left and right
PLACE = 64  # the width of the box with a place
TOP = 44  # of the first row
NARROW = 40  # a field that is at most so wide has its value below its name
SMALL = ' font-size="11"'  # the letters of a narrow field
NEAR = 22  # two numbers that are closer than this are set one above the other
FARTHEST = 6  # the rank of the arrows that go out most

Ends = tuple[float, float]  # the heights at which an arrow begins and ends

HEAD = """\
<svg xmlns="http://www.w3.org/2000/svg" width="{width}" height="{height}" \
viewBox="0 0 {width} {height}" role="img" font-family="Helvetica,Arial,sans-serif" font-size="14">
<title>{title}</title>
<defs><marker id="head" viewBox="0 0 10 10" refX="10" refY="5" markerWidth="9" markerHeight="9" \
orient="auto"><path d="M0 1 L10 5 L0 9 z"/></marker></defs>
<rect width="{width}" height="{height}" fill="white"/>
"""
LEFT = SIDE + PLACE  # of bit 0
RIGHT = LEFT + WORD_BITS * BIT


@dataclass(frozen=True)
class Row:
    """A word of a block, and the height of its middle."""

    block: Block
    word: int
    middle: float


def is_whole(drawing: Drawing) -> bool:
    """Whether the transcript has all that the picture shows: the fields, and the words of each block."""
    return bool(drawing.fields) and all(block.words for block in drawing.blocks)


def rows_of(drawing: Drawing) -> list[Row]:
    """The rows, in the order of their places."""
    rows, top = [], TOP
    for block in drawing.blocks:
        for word in range(block.size):
            rows.append(Row(block, word, top + HEIGHT / 2))
            top += HEIGHT
        top += GAP
    return rows


def box(left: float, middle: float, width: float, fill: str) -> str:
    """A box of a row."""
    top = middle - HEIGHT / 2
    size = f'width="{width:g}" height="{HEIGHT}"'
    return f'<rect x="{left:g}" y="{top:g}" {size} fill="{fill}" stroke="black"/>\n'


def text(left: float, middle: float, words: str, look: str = "") -> str:
    """A text whose middle is at a point."""
    safe = escape(words, quote=False)
    return f'<text x="{left:g}" y="{middle + 5:g}" text-anchor="middle"{look}>{safe}</text>\n'


def drawn_row(row: Row, fields: list[Field]) -> str:
    """A word: its place, all its bits, and its fields."""
    drawn = box(SIDE, row.middle, PLACE, "#eeeeee")
    drawn += text(SIDE + PLACE / 2, row.middle, str(row.block.place + row.word))
    drawn += box(LEFT, row.middle, WORD_BITS * BIT, "#d9d9d9")
    for field in fields:
        if field.word != row.word:
            continue
        width = field.width * BIT
        left = LEFT + field.first * BIT
        drawn += box(left, row.middle, width, "#eef4fb")
        centre, value = left + width / 2, value_of(field, row.block)
        if width > NARROW:
            drawn += text(centre, row.middle, f"{field.name} {value}")
        else:
            drawn += text(centre, row.middle - 8, field.name, SMALL)
            drawn += text(centre, row.middle + 7, value, SMALL)
    return drawn


def bits(fields: list[Field]) -> str:
    """The numbers of the first and the last bits of fields, above the rows, so that none touch."""
    shown = {0, WORD_BITS - 1} | {bit for it in fields for bit in (it.first, it.last)}
    drawn = text(SIDE + PLACE / 2, TOP - 14, "bit", ' font-size="12"')
    before, is_raised = float("-inf"), False
    for bit in sorted(shown):
        middle = LEFT + (bit + 0.5) * BIT
        is_raised = middle - before < NEAR and not is_raised
        drawn += text(middle, TOP - (26 if is_raised else 14), str(bit), ' font-size="12"')
        before = middle
    return drawn


def arrow(ends: Ends, rank: int, is_left: bool) -> str:
    """An arrow from one row to another, on one side; an arrow of a higher rank goes further out."""
    start, end = ends
    edge, out = (SIDE, -1) if is_left else (RIGHT, 1)
    far = edge + out * (36 + 14 * rank)
    path = f"M{edge:g} {start:g} C{far:g} {start:g} {far:g} {end:g} {edge:g} {end:g}"
    return f'<path d="{path}" fill="none" stroke="black" stroke-width="1.4" marker-end="url(#head)"/>\n'


def ranks(arrows: list[Ends]) -> Iterator[tuple[Ends, int]]:
    """The arrows of a side with their ranks: two of one rank share no height, and short ones are first."""
    taken: list[tuple[Ends, int]] = []
    for ends in sorted(arrows, key=lambda ends: (abs(ends[0] - ends[1]), ends)):
        near = {rank for it, rank in taken if min(it) <= max(ends) and min(ends) <= max(it)}
        rank = next(it for it in range(len(arrows)) if it not in near)
        taken.append((ends, rank))
        yield ends, min(rank, FARTHEST)


def links(drawing: Drawing, rows: list[Row]) -> str:
    """The arrows of the fields."""
    heights = {(row.block.place, row.word): row.middle for row in rows}
    sides: dict[bool, list[Ends]] = {True: [], False: []}
    for row in rows:
        for field in drawing.fields:
            if field.word == row.word and field.name in row.block.arrows:
                ends = row.middle + 6, heights[row.block.arrows[field.name], 0] - 6
                sides[field.first < WORD_BITS // 2].append(ends)
    return "".join(arrow(*it, is_left) for is_left, arrows in sides.items() for it in ranks(arrows))


def svg(drawing: Drawing, name: str) -> str:
    """The picture."""
    rows = rows_of(drawing)
    height = round(rows[-1].middle + HEIGHT / 2) + 16
    drawn = HEAD.format(width=RIGHT + SIDE, height=height, title=f"{name}: blocks, word for word")
    drawn += bits(drawing.fields)
    for row in rows:
        drawn += drawn_row(row, drawing.fields)
    firsts = {row.block.place: row.middle for row in rows if row.word == 0}
    beside: dict[int, int] = {}  # how many bugs lead to a place
    for bug, place in drawing.bugs.items():
        left = 16 + 24 * beside.setdefault(place, 0)
        beside[place] += 1
        drawn += text(left, firsts[place], bug, ' font-size="18" font-weight="bold"')
    for place, count in beside.items():
        path = f"M{16 + 24 * count - 10} {firsts[place]:g} H{SIDE}"
        drawn += f'<path d="{path}" stroke="black" stroke-width="1.4" marker-end="url(#head)"/>\n'
    return drawn + links(drawing, rows) + "</svg>\n"
