"""What is completed at the terminal of l6db: which words may stand where one types, of a deck by hand; and which file is the deck.

Used by terminal.py.
"""
from __future__ import annotations

import json
import subprocess
import sys
from collections.abc import Iterator
from pathlib import Path
from typing import Any

from trials import Trial

TERMINAL = Path(__file__).resolve().parents[2] / "terminal"
DECK = """* NONE (X,DX,0,1)
START  (B,DN,0,17)(b,E,1)
       (W,D2,18,35)
next   IF (C,E,0) THEN START
LAST   (W,E,0) DONE
$INPUT
OTHER  (Z,DQ,0,1)
"""
ASKING = """import json, sys
from pathlib import Path
sys.path.insert(0, sys.argv[1])
from deck import Deck, path_in
from lines import Lines
lines = Lines(Deck([sys.argv[2]]), Path(sys.argv[1], "words"))
completed, words = json.load(sys.stdin)
print(json.dumps([[lines.completions(text, before) for before, text in completed], [str(path_in(it)) for it in words]]))
"""
# What is before the cursor on the line, of it the word that is typed, and what completes it.
COMPLETED: list[tuple[str, str, list[str]]] = [
    ("", "rel", ["reload "]),
    ("", "VI", ["view "]),
    ("", "nothing", []),
    ("b ", "", ["LAST ", "NEXT ", "START "]),
    ("B ", "l", ["LAST "]),
    ("until ", "St", ["START "]),
    ("p ", "", ["B", "C", "W"]),
    ("p/o ", "", ["B", "C", "W"]),
    ("watch ", "b", ["B2", "BN"]),
    ("watch ", "BNNNN", ["BNNNN2", "BNNNNN"]),
    ("watch ", "BNNNNN", []),
    ("info ", "f", ["fields ", "frame "]),
    ("help ", "rel", ["reload "]),
    ("nothing ", "", []),
    ("save ", "ROOM/m", ["ROOM/more/", "ROOM/my.deck "]),
]
# The words of a command line, and the file of the deck.
NAMED: list[tuple[list[str], str]] = [
    (["my.deck"], "my.deck"),
    (["--input", "in", "-x", "commands", "--store", "8", "my.deck"], "my.deck"),
    (["--echo", "my.deck", "--steps", "9"], "my.deck"),
    (["--prompt", "> "], "-"),
    ([], "-"),
]


def asked(room: Path, deck: str, completed: list[tuple[str, str]]) -> Any:
    """What the front end completes of a deck, and which files it takes for the deck."""
    ran = subprocess.run(
        [sys.executable, "-B", "-c", ASKING, str(TERMINAL), str(room / deck)], input=json.dumps([completed, [it for it, _ in NAMED]]),
        env={"HOME": str(room), "XDG_STATE_HOME": str(room)}, capture_output=True, text=True, check=True)
    return json.loads(ran.stdout)


def completed_words(room: Path) -> Iterator[Trial]:
    """The words of a deck, those of none, and the files."""
    (room / "my.deck").write_text(DECK, "utf-8")
    (room / "more").mkdir()
    here = [(before, text.replace("ROOM", str(room)), [it.replace("ROOM", str(room)) for it in expected])
            for before, text, expected in COMPLETED]
    completed, named = asked(room, "my.deck", [(before, text) for before, text, _ in here])
    for (before, text, expected), actual in zip(here, completed, strict=True):
        yield f"what completes {before}{Path(text).name}", expected, actual
    for (words, expected_file), file in zip(NAMED, named, strict=True):
        yield f"the deck of {' '.join(words)}", expected_file, file
    yield "what completes a place of a deck that can't be found", [[], []], asked(room, "none", [("b ", ""), ("p ", "")])[0]
