#!/usr/bin/env python3
"""Makes pictures of the debugger's transcripts: of its drawings, and of its maps of the store; and of traces.

pictures.py remakes the pictures of all transcripts in examples/, in docs/pictures/.
pictures.py TRANSCRIPT FOLDER makes the pictures of one transcript in a folder.

The first answer to `draw` in NAME.transcript becomes NAME-draw-1.dot, a text for Graphviz. The first
answer to `store` becomes the picture NAME-store-1.svg. The second ones have a 2, and so on. An answer
`0 BLOCKS` has no picture. If Graphviz's program `dot` is installed, it makes NAME-draw-1.svg.

The first map in NAME.answers, which are those to a trace, becomes NAME-trace.svg.

If `fields`, and `block` for each block, were asked in the same state as a drawing, the first such drawing
also becomes NAME.svg, which shows the blocks word for word.
"""
from __future__ import annotations

import re
import shutil
import subprocess
import sys
from pathlib import Path

sys.path.insert(0, str(Path(__file__).resolve().parent / "drawing"))
import layouts
import strips
from crates import TOP
from graphs import dot
from transcripts import StoreMap, Stretch, drawings_and_maps

EXAMPLES = TOP / "examples"
PICTURES = TOP / "docs" / "pictures"


def texts_of(name: str, transcript: str) -> dict[str, str]:
    """The texts of a transcript's pictures, by file name."""
    drawings, maps = drawings_and_maps(transcript)
    texts = {}
    for at, drawing in enumerate(drawings, 1):
        texts[f"{name}-draw-{at}.dot"] = dot(drawing, name)
    for at, store in enumerate(maps, 1):
        texts[f"{name}-store-{at}.svg"] = strips.svg(store, f"{name}, map {at}")
    texts |= {f"{name}.svg": layouts.svg(it, name) for it in drawings[::-1] if layouts.is_whole(it)}
    return texts


def texts_of_trace(name: str, answers: str) -> dict[str, str]:
    """The text of a trace's picture, by file name: the first map that was answered."""
    lines = re.findall(r"^(\d+) (.*), words (\d+)$", answers, re.MULTILINE)
    stretches: list[Stretch] = []
    for place, what, size in lines:
        if stretches and int(place) < stretches[-1].end:
            break  # another map
        stretches.append(Stretch(int(place), int(size), "free" if what == "free" else "block"))
    used = sum(it.size for it in stretches if it.kind == "block")
    store = StoreMap(stretches, used, sum(it.size for it in stretches) - used)
    return {f"{name}-trace.svg": strips.svg(store, f"{name}, the map of a trace")}


def draw(file: Path) -> None:
    """Draws a file with Graphviz, into an .svg file beside it."""
    if shutil.which("dot"):
        subprocess.run(["dot", "-Tsvg", file, "-o", file.with_suffix(".svg")], check=True)
    else:
        print(f"{file.name}: not drawn, since the program dot is not installed", file=sys.stderr)


def make(transcript: Path, folder: Path) -> None:
    """Makes the pictures of a transcript."""
    for name, text in texts_of(transcript.stem, transcript.read_text("ascii")).items():
        file = folder / name
        file.write_text(text, "ascii")
        if file.suffix == ".dot":
            draw(file)


def main(words: list[str]) -> None:
    """Makes the pictures that the words ask for."""
    if len(words) == 2:
        make(Path(words[0]), Path(words[1]))
    elif words:
        sys.exit(__doc__)
    else:
        for transcript in sorted(EXAMPLES.glob("*.transcript")):
            make(transcript, PICTURES)
        for answers in sorted(EXAMPLES.glob("*.answers")):
            for name, text in texts_of_trace(answers.stem, answers.read_text("ascii")).items():
                (PICTURES / name).write_text(text, "ascii")


if __name__ == "__main__":
    main(sys.argv[1:])
