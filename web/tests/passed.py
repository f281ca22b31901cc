#!/usr/bin/env python3
"""Which page passed the long trials in Chromium, as the file `passed` beside this script has it.

It has a sum (SHA-256) of the page, of the decks that it is tried with, and of all trials; and how many trials these
were. If a byte of that has changed, they are made again.

passed.py tries that, prints what differs, and last 'N passed, M failed'.
"""
from __future__ import annotations

import hashlib
import re
import shutil
import sys
import tempfile
from collections.abc import Iterator
from pathlib import Path

sys.dont_write_bytecode = True
HERE = Path(__file__).resolve().parent
TOP = HERE.parents[1]
sys.path.insert(0, str(TOP / "tests/harness"))

from trials import Trial, report  # noqa: E402

FILE = "web/tests/passed"
READ = ("dist/l6.html", "examples/*", "web/tests/*.py", "web/tests/*.js", "web/tests/*.mjs", "web/tests/*.json", "tests/harness/*.py")
LINE = re.compile(r"(?P<sum>[0-9a-f]{64}) (?P<count>[1-9][0-9]*)\n")


def sum_of(top: Path) -> str:
    """The sum of all on which it depends whether a page passes."""
    total = hashlib.sha256()
    for file in sorted({file for pattern in READ for file in top.glob(pattern) if file.is_file()}):
        total.update(f"{file.relative_to(top)} {hashlib.sha256(file.read_bytes()).hexdigest()}\n".encode())
    return total.hexdigest()


def known(top: Path = TOP) -> int | None:
    """How many long trials the page passed, just as it and they are; None if that is not known."""
    file = top / FILE
    found = LINE.fullmatch(file.read_text("utf-8")) if file.is_file() else None
    return int(found["count"]) if found and found["sum"] == sum_of(top) else None


def note(count: int, top: Path = TOP) -> None:
    """Notes that the page passed so many long trials."""
    (top / FILE).write_text(f"{sum_of(top)} {count}\n", "utf-8")


def count_of(parts: list[tuple[int, int]], wanted: int) -> int | None:
    """How many long trials passed by parts of so many that passed and failed; None if one failed, or a part is missing."""
    return sum(right for right, _ in parts) if len(parts) == wanted and not any(wrong for _, wrong in parts) else None


def trials() -> Iterator[Trial]:
    """What is known of a page is of just that page, its decks and these trials."""
    names = ("dist/l6.html", "examples/first.deck", "web/tests/passed.py", "web/tests/decks.json", "web/tests/seen.js", "tests/harness/trials.py")
    with tempfile.TemporaryDirectory() as folder:
        top = Path(folder)
        for name in names:
            (top / name).parent.mkdir(parents=True, exist_ok=True)
            shutil.copy(TOP / name, top / name)
        yield "of a new page", None, known(top)
        note(7, top)
        yield "of one that passed", 7, known(top)
        for name in names:
            whole = (top / name).read_bytes()
            (top / name).write_bytes(whole + b"\n")
            yield f"if {name} has changed", None, known(top)
            (top / name).write_bytes(whole)
        yield "if all is as it was", 7, known(top)
        (top / "web/tests/trial_new.py").write_text("")
        yield "if there are more trials", None, known(top)
    yield "what passed by two parts", 7, count_of([(3, 0), (4, 0)], 2)
    yield "what passed if one failed", None, count_of([(3, 0), (4, 1)], 2)
    yield "what passed by one part of two", None, count_of([(3, 0)], 2)


if __name__ == "__main__":
    sys.exit(report(trials()))
