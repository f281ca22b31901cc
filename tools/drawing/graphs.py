"""Writes a drawing of blocks as a text for Graphviz's program dot.

A bug is a plain node. A block is a record: its place, and below it its fields. A field that leads to a
block has an arrow. If the transcript has the fields and the block's words, every other field shows its
value: as a number, and also as a character if it is six bits wide. A whole word whose first character is
no blank is shown as a text of six characters instead.
"""
from __future__ import annotations

from transcripts import WORD_BITS, Block, Drawing, Field

CHARACTER_BITS = 6
FIRST_CHARACTER = 32  # the ASCII code of the character with the code 0
SPECIAL = '\\"{}|<>'  # in a label


def quoted(text: str) -> str:
    """The spelling of a text in a label."""
    return "".join("\\" + character if character in SPECIAL else character for character in text)


def characters(value: int) -> str:
    """The six characters of a word."""
    ends = range(WORD_BITS - CHARACTER_BITS, -1, -CHARACTER_BITS)
    return "".join(chr((value >> end) % (1 << CHARACTER_BITS) + FIRST_CHARACTER) for end in ends)


def value_of(field: Field, block: Block) -> str:
    """The value of a field in a block whose words are known: a number, with a character, or a text."""
    value = field.value(block.words)
    if field.width == WORD_BITS and not characters(value).startswith(" "):
        return f"'{characters(value).rstrip()}'"
    if field.width == CHARACTER_BITS and value:
        return f"{value} '{chr(value + FIRST_CHARACTER)}'"
    return str(value)


def cells(block: Block, fields: list[Field]) -> list[str]:
    """The parts of a block's record, in the order of their bits where that is known."""
    shown = [it for it in fields if it.word < block.size and (it.name in block.arrows or block.words)]
    known = {it.name for it in shown}
    parts = []
    for it in shown:
        is_link = it.name in block.arrows
        parts.append(f"<{it.name}>{it.name}" if is_link else quoted(f"{it.name} {value_of(it, block)}"))
    return parts + [f"<{name}>{name}" for name in block.arrows if name not in known]


def record(block: Block, fields: list[Field], is_wide: bool) -> str:
    """A block's label: its place before its fields, or above them.

    Dot puts the parts of a record side by side, and the parts in braces one below the other. In a drawing
    from left to right it does the opposite.
    """
    parts = cells(block, fields)
    if is_wide:
        return "{" + "|".join([f"{block.place}:", *parts]) + "}"
    return f"{{{block.place}|{{{'|'.join(parts)}}}}}" if parts else f"{{{block.place}}}"


def dot(drawing: Drawing, name: str) -> str:
    """The text for dot: a list is drawn from left to right, and anything with branches downwards."""
    is_wide = all(len(set(block.arrows.values())) < 2 for block in drawing.blocks)
    direction, side = ("LR", "") if is_wide else ("TB", ":s")
    lines = [
        f'digraph "{name}" {{',
        f"  graph [rankdir={direction}, bgcolor=white, ranksep=0.4, nodesep=0.3];",
        '  node [fontname="Helvetica,Arial,sans-serif", fontsize=14, height=0.3];',
        "  edge [arrowsize=0.8];",
    ]
    lines += [f'  {bug} [shape=plaintext, fontsize=18, label="{bug}"];' for bug in drawing.bugs]
    for block in drawing.blocks:
        label = record(block, drawing.fields, is_wide)
        look = 'shape=record, style=filled, fillcolor="#eef4fb"'
        lines.append(f'  b{block.place} [{look}, label="{label}"];')
    lines += [f"  {bug} -> b{place};" for bug, place in drawing.bugs.items()]
    for block in drawing.blocks:
        lines += [f"  b{block.place}:{name}{side} -> b{place};" for name, place in block.arrows.items()]
    return "\n".join([*lines, "}", ""])
