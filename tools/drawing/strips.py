"""Draws a map of a store as an SVG text: strips of words, one below the other.

A strip is a unit of 1,024 words. If all blocks lie in a first part of the first unit, the strip is the
smallest such part of 16, 32, .. words, so that small blocks can be seen. Blocks are dark, lost blocks
hatched and free words white, so that they differ without colours, too.
"""
from __future__ import annotations

from dataclasses import dataclass

from transcripts import StoreMap, Stretch

UNIT = 1_024  # words
LEAST = 16  # words of a strip
LEFT, TOP = 28, 44  # of the first strip
WIDTH, HEIGHT = 1_024, 54  # of a strip
ROW = 112  # from a strip to the next one
MARKS = 8  # places that are written below a strip
FONT = 14
DIGIT = 0.56 * FONT  # the width of a digit, about
LETTER = 0.48 * FONT  # that of a letter

HEAD = """\
<svg xmlns="http://www.w3.org/2000/svg" width="{width}" height="{height}" \
viewBox="0 0 {width} {height}" role="img" font-family="Helvetica,Arial,sans-serif" font-size="14">
<title>{title}</title>
<defs>
<pattern id="lost" width="8" height="8" patternUnits="userSpaceOnUse" patternTransform="rotate(45)">
<rect width="8" height="8" fill="#fff4e6"/><rect width="3" height="8" fill="#c2410c"/>
</pattern>
</defs>
<rect width="{width}" height="{height}" fill="white"/>
"""
FILLS = {"block": "#2b6299", "lost": "url(#lost)", "free": "white"}
INKS = {"block": "white", "lost": "black", "free": "#333333"}
MEANINGS = {"block": "a block", "lost": "a lost block, to which nothing leads", "free": "free words"}


@dataclass(frozen=True)
class Strip:
    """A part of the store that is drawn as one strip, and the top of its picture."""

    place: int
    size: int
    top: int

    @property
    def end(self) -> int:
        """The place after it."""
        return self.place + self.size

    def across(self, place: int) -> float:
        """The x coordinate of a place."""
        return LEFT + (place - self.place) * WIDTH / self.size


def strips_of(store: StoreMap) -> list[Strip]:
    """The strips that show all blocks."""
    start = store.stretches[0].place
    used = [it for it in store.stretches if it.kind != "free"]
    end = max((it.end for it in used), default=start)
    size = LEAST
    while size < UNIT and size < end - start:
        size *= 2
    units = sorted({(it.place - start) // size for it in used}) or [0]
    return [Strip(start + unit * size, size, TOP + at * ROW) for at, unit in enumerate(units)]


def rectangle(left: float, top: float, width: float, height: float, look: str) -> str:
    """A rectangle."""
    return f'<rect x="{left:g}" y="{top:g}" width="{width:g}" height="{height:g}" {look}/>\n'


def text(left: float, top: float, words: str, look: str = 'text-anchor="middle"') -> str:
    """A text whose middle is at `left`, unless `look` says otherwise."""
    return f'<text x="{left:g}" y="{top:g}" {look}>{words}</text>\n'


def label(left: float, right: float, top: float, stretch: Stretch) -> str:
    """The place and the size of a stretch, in its part of a strip; set upright where that is narrow."""
    lines = [str(stretch.place), f"{stretch.kind if stretch.kind != 'block' else 'size'} {stretch.size}"]
    middle, width = (left + right) / 2, right - left
    ink = f'text-anchor="middle" fill="{INKS[stretch.kind]}"'
    wide = [line for line in lines if len(line) * DIGIT + 6 <= width]
    if wide:
        room = max(len(line) for line in wide) * DIGIT + 4
        height = len(wide) * (FONT + 4) + 2
        above = top + (HEIGHT - height) / 2
        drawn = "" if stretch.kind == "block" else rectangle(
            middle - room / 2, above, room, height, 'rx="3" fill="white"')
        for at, line in enumerate(wide):
            drawn += text(middle, above + FONT + at * (FONT + 4), line, ink)
        return drawn
    if width < FONT + 4:
        return ""
    look = f'{ink} transform="rotate(-90 {middle + 5:g} {top + HEIGHT / 2:g})"'
    back = rectangle(middle - 8, top + 6, 16, HEIGHT - 12, 'rx="3" fill="white"')
    return ("" if stretch.kind == "block" else back) + text(middle + 5, top + HEIGHT / 2, lines[0], look)


def drawn_strip(strip: Strip, stretches: list[Stretch]) -> str:
    """A strip: the parts of stretches that lie in it, and the places below it."""
    drawn = ""
    for it in stretches:
        if it.end <= strip.place or it.place >= strip.end:
            continue
        left = strip.across(max(it.place, strip.place))
        right = strip.across(min(it.end, strip.end))
        look = f'fill="{FILLS[it.kind]}" stroke="black"'
        drawn += rectangle(left, strip.top, right - left, HEIGHT, look)
        drawn += label(left, right, strip.top, it)
    for at in range(MARKS):
        place = strip.place + at * strip.size // MARKS
        left, below = strip.across(place), strip.top + HEIGHT
        drawn += f'<path d="M{left:g} {below} v6" stroke="black"/>\n'
        drawn += text(left, below + 20, str(place), 'text-anchor="middle" font-size="12" fill="#333333"')
    return drawn


def legend(top: int, shown: int, store: StoreMap) -> str:
    """The meanings of the fills, and the number of words that are not shown."""
    drawn, left = "", LEFT
    for kind in ("block", "lost", "free"):
        if all(it.kind != kind for it in store.stretches):
            continue
        drawn += rectangle(left, top, 28, 18, f'fill="{FILLS[kind]}" stroke="black"')
        drawn += text(left + 36, top + 14, MEANINGS[kind], "")
        left += round(36 + len(MEANINGS[kind]) * LETTER + 28)
    hidden = store.used + store.free - shown
    if hidden:
        words = f"not shown: {hidden} more words, all free"
        drawn += text(LEFT + WIDTH, top + 14, words, 'text-anchor="end"')
    return drawn


def svg(store: StoreMap, name: str) -> str:
    """The picture."""
    strips = strips_of(store)
    below = strips[-1].top + HEIGHT + 36
    title = f"{name}: {store.used} words used, {store.free} free"
    drawn = HEAD.format(width=WIDTH + 2 * LEFT, height=below + 32, title=title)
    drawn += text(LEFT, 28, title, 'font-size="16" font-weight="bold"')
    for strip in strips:
        drawn += drawn_strip(strip, store.stretches)
    return drawn + legend(below, sum(it.size for it in strips), store) + "</svg>\n"
