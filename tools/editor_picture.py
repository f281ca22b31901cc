#!/usr/bin/env python3
"""Makes docs/pictures/editor.svg: what neovim shows of a deck with errors, by the language server.

editor_picture.py [L6ED] takes the server of dist/ if none is named. It needs neovim, 0.7.2 or later; the lines of the
screen are what that shows, cell by cell, with editors/vim and editors/neovim/l6.lua. `tests/program/editors.py --whole`
makes the picture again and compares it.
"""
from __future__ import annotations

import json
import os
import subprocess
import sys
import tempfile
from html import escape
from pathlib import Path

from crates import TOP

PICTURE = TOP / "docs" / "pictures" / "editor.svg"
EDITORS = TOP / "editors"
SCREEN = TOP / "tools" / "drawing" / "screen.lua"
SECONDS = 90  # for neovim, on a busy machine
DECK = """\
* COUNTS THE LETTERS OF A LINE
       (0,DN,18,35)(N,E,0)
NEXT   (A,IN,1)
       IF (A,EH,.) THEN STOP
       IF (A,GE,10) THEN NEXT
       (N,A,1) NEXTT
       (N,PD)(PL) DONE
"""
LINE, CELL = 20, 8.4  # the height of a line, and the width of a letter
MARGIN = 12
INKS = {
    "Plain": "#24292f", "Comment": "#6e7781", "Error": "#b3261e", "Warn": "#8a5a00", "Function": "#2b6299", "Label": "#2b6299",
    "Conditional": "#7a3e9d", "Statement": "#7a3e9d", "Operator": "#7a3e9d", "Number": "#0b6e4f", "String": "#0b6e4f",
}


def screen_of(server: Path) -> list[list[tuple[str, str]]]:
    """The lines of the screen: the pieces of each, with their kinds."""
    with tempfile.TemporaryDirectory(prefix="l6-screen-") as folder:
        Path(folder, "l6ed").symlink_to(server.resolve())
        Path(folder, "wrong.deck").write_text(DECK, "ascii")
        words = ["nvim", "--headless", "-u", "NONE", "-i", "NONE", "-n", "--cmd", f"set runtimepath+={EDITORS / 'vim'}",
                 "--cmd", "syntax on", "-c", f"luafile {EDITORS / 'neovim' / 'l6.lua'}", "-c", f"luafile {SCREEN}"]
        path = {**os.environ, "PATH": f"{folder}:{os.environ['PATH']}", "HOME": folder, "XDG_STATE_HOME": folder}
        ran = subprocess.run(words, cwd=folder, env=path, capture_output=True, text=True, timeout=SECONDS, check=True)
    lines: list[list[tuple[str, str]]] = json.loads(ran.stdout.splitlines()[-1])
    return lines


def svg(lines: list[list[tuple[str, str]]]) -> str:
    """The picture of a screen."""
    width = max(sum(len(text) for text, _ in line) for line in lines) * CELL + 2 * MARGIN
    height = len(lines) * LINE + 2 * MARGIN
    parts = [f'<svg xmlns="http://www.w3.org/2000/svg" width="{width:.0f}" height="{height}" '
             f'viewBox="0 0 {width:.0f} {height}" role="img" font-family="Menlo,Consolas,monospace" font-size="14">\n'
             "<title>neovim with a deck that has errors</title>\n"
             f'<rect width="{width:.0f}" height="{height}" rx="6" fill="#ffffff" stroke="#8c959f"/>\n']
    for row, line in enumerate(lines, 1):
        column = 0
        for text, kind in line:
            if text.strip():
                blanks = len(text) - len(text.lstrip())
                length = len(text.strip()) * CELL
                parts.append(f'<text x="{MARGIN + (column + blanks) * CELL:.1f}" y="{MARGIN + row * LINE - 6}" fill="{INKS.get(kind, INKS["Plain"])}" '
                             f'textLength="{length:.1f}" xml:space="preserve">{escape(text.strip(), quote=False)}</text>\n')
            column += len(text)
    return "".join([*parts, "</svg>\n"])


if __name__ == "__main__":
    if len(sys.argv) > 2:
        sys.exit(__doc__)
    PICTURE.write_text(svg(screen_of(Path(sys.argv[1]) if sys.argv[1:] else TOP / "dist" / "l6ed")), "utf-8")
