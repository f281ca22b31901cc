#!/usr/bin/env python3
"""Sees that the edits that the prover must refuse can be compiled, without proving anything.

An edit is written for the code as it is. Where a function is rewritten, the old text may still be there, and
the new one name what is gone: a bad edit, which tests/edits/edits.py meets only in a check of its own. Here many
edits of a crate are compiled at once, in a copy, which takes seconds. If that copy can't be compiled, each half
of them is tried, and so on, down to the edits that can't be compiled alone.

    python3 tests/edits/compiled_edits.py            tries those of all crates that are proved
    python3 tests/edits/compiled_edits.py l6_check   tries those of a crate

It needs Rattle's toolchain. The last line is 'N passed, M failed'.
"""
from __future__ import annotations

import argparse
import re
import shutil
import subprocess
import sys
from collections.abc import Iterator
from pathlib import Path

sys.path[:0] = [str(Path(__file__).resolve().parents[1] / it) for it in ("harness", "../tools")]
from crates import Crate, read_crates
from edit_bench import FOLDER
from edit_files import BadEdit, Edit
from rooms import room_of
from trials import Trial, report

ERROR = re.compile(r"^(?:\./)?src/\S+?:\d+:\d+: error.*", re.M)


class Workshop:
    """A copy of a crate in which edits are compiled."""

    def __init__(self, crate: Crate, folder: Path) -> None:
        self._crate, self._folder = crate, folder

    def faults(self, edits: list[Edit]) -> Iterator[tuple[Edit, str]]:
        """The edits that can't be compiled, and why."""
        while edits:
            applied, left = self._apply(edits)
            why = self._why_not() if applied else ""
            if not why:
                edits = left
            elif len(applied) == 1:
                yield applied[0], why
                edits = left
            else:
                half = len(applied) // 2
                yield from self.faults(applied[:half])
                yield from self.faults(applied[half:])
                edits = left

    def _apply(self, edits: list[Edit]) -> tuple[list[Edit], list[Edit]]:
        """Edits the copy as far as the texts are there once; returns the edits that are in it, and those that are not."""
        source = self._folder / "src"
        shutil.rmtree(source)
        shutil.copytree(self._crate.folder / "src", source)
        applied, left = [], []
        for edit in edits:
            try:
                edit.apply(self._folder, self._crate.name)
                applied.append(edit)
            except BadEdit:
                left.append(edit)
        # (one that can't be applied to the code as it is, `tests/edits/edits.py --texts` reports)
        return applied, left if applied else []

    def _why_not(self) -> str:
        """The first error of the compiler, or nothing if there is none."""
        ended = subprocess.run(
            ["rt", "check", "--only", ""], cwd=self._folder, capture_output=True, text=True, check=False
        )
        found = ERROR.search(ended.stdout + ended.stderr)
        return found[0] if found else ""


def trials(crates: list[Crate]) -> Iterator[Trial]:
    """A trial for each edit of these crates."""
    for crate in crates:
        edits = [Edit(path) for path in sorted((crate.folder / FOLDER).glob("*.edit"))]
        if not edits:
            continue
        with room_of(crate) as folder:
            faults = {edit.name: why for edit, why in Workshop(crate, folder).faults(edits)}
        for edit in edits:
            yield f"{crate.name}/{edit.name}", "compiled", faults.get(edit.name, "compiled")


def main() -> int:
    """Compiles the edits, prints what became of them, and returns the exit status."""
    parser = argparse.ArgumentParser(description=__doc__.split("\n", 1)[0])
    parser.add_argument("crates", nargs="*", metavar="CRATE", help="only the edits of these crates")
    options = parser.parse_args()
    known = read_crates()
    return report(trials([known[name] for name in options.crates or known]))


if __name__ == "__main__":
    sys.exit(main())
