"""Which edits the prover refused, as the file verdicts beside this script has it.

A verdict is a line: the crate, the name of the edit, and a sum (SHA-256) of all that it depends on. That is the
edit; the sources of the crate, and what those below it promise (promises.py), with their lines of crates.txt; the
logic of the toolchain; and the scripts by which an edit is tried and its check is read. If a byte of that has changed,
the edit is tried again. Only that an edit is refused is ever written: one that is not refused, or is a bad edit, is
tried each time.

The toolchain's line names a kit and its logic. Kits of one logic accept the same proofs, so a verdict depends on
the logic alone. What another kit's search finds, the sample tells: the gate tries again all edits of a few crates,
which the commit chooses. No crate is among them that has much code below it: all of that would be proved again for it,
and what its verdicts depend on changes with nearly every version, so its edits are tried again soon enough.
"""
from __future__ import annotations

import contextlib
import fcntl
import functools
import hashlib
import os
import re
import subprocess
import tempfile
from collections.abc import Container, Iterable, Iterator, Mapping
from pathlib import Path

from crates import TOP, Crate, rows_of
from edit_files import Edit
from promises import read_of
from prove import toolchain

FILE = TOP / "tests/edits/verdicts"
# The scripts on which a verdict depends: how an edit is put in place and checked, and how the check is read.
HARNESS = ("edit_bench.py", "edit_copies.py", "edit_files.py", "check_report.py")
LINE = re.compile(r"(?P<crate>\w+) (?P<edit>\w+) (?P<sum>[0-9a-f]{64})(?P<by_proof> by a proof alone)?")
SAMPLE = 20  # of so many edits that were refused before at least one is tried again


class Verdicts:
    """The edits of a crate, as it is now, that the prover refused before."""

    def __init__(self, crate: Crate, is_believed: bool) -> None:
        self._crate = crate
        self._sum = sum_of(crate)
        self._refused = dict(read(crate.name)) if is_believed else {}

    def refused(self, edit: Edit) -> bool | None:
        """None if it is not known that an edit is refused, else whether only a proof by hand refused it."""
        known = self._refused.get(edit.name)
        return known[1] if known and known[0] == self.sum_with(edit) else None

    def write(self, refused: Iterable[tuple[Edit, bool]], names: Iterable[str]) -> None:
        """Writes which edits were refused, unless something that this depends on has changed meanwhile.

        The crate's other edits of these names keep their lines. One that is gone or was not refused loses its own.
        """
        if sum_of(self._crate) != self._sum:
            return
        with locked(FILE.parent):
            known = dict(read(self._crate.name))
            known |= {edit.name: (self.sum_with(edit), by_proof) for edit, by_proof in refused}
            kept = set(names)
            replace_lines(self._crate.name, {name: it for name, it in known.items() if name in kept})

    def sum_with(self, edit: Edit) -> str:
        """The sum of all that the verdict on an edit depends on."""
        return hashlib.sha256(self._sum.encode() + edit.path.read_bytes()).hexdigest()


def read(crate: str) -> Iterator[tuple[str, tuple[str, bool]]]:
    """The verdicts on a crate's edits: their names, their sums, and whether only a proof refused them."""
    for line in lines():
        found = LINE.fullmatch(line)
        if found and found["crate"] == crate:
            yield found["edit"], (found["sum"], found["by_proof"] is not None)


def lines() -> list[str]:
    """The lines of the file; none where it is not there."""
    return FILE.read_text("utf-8", "replace").splitlines() if FILE.is_file() else []


def replace_lines(crate: str, verdicts: Mapping[str, tuple[str, bool]]) -> None:
    """Replaces the lines of a crate. The file is replaced at once, so that nobody reads a part of it."""
    others = [line for line in lines() if not line.startswith(f"{crate} ")]
    own = [
        f"{crate} {name} {total}{' by a proof alone' if by_proof else ''}"
        for name, (total, by_proof) in verdicts.items()
    ]
    with contextlib.suppress(OSError):
        handle, new = tempfile.mkstemp(dir=FILE.parent, prefix=f"{FILE.name}.")
        with os.fdopen(handle, "w", encoding="utf-8") as opened:
            opened.writelines(f"{line}\n" for line in sorted([*others, *own]))
        os.chmod(new, 0o644)
        os.replace(new, FILE)


@contextlib.contextmanager
def locked(folder: Path) -> Iterator[None]:
    """Keeps others that write verdicts waiting."""
    handle = os.open(folder, os.O_RDONLY)
    try:
        fcntl.flock(handle, fcntl.LOCK_EX)
        yield
    finally:
        os.close(handle)


def sum_of(crate: Crate) -> str:
    """A sum of all that the verdicts on a crate's edits depend on but the edits."""
    read = (f"{file.relative_to(TOP)} {hashlib.sha256(text.encode()).hexdigest()}" for file, text in read_of(crate))
    parts = (logic(), rows_of((*crate.below, crate)), *read, harness_sum())
    return hashlib.sha256("\n".join(parts).encode()).hexdigest()


def logic() -> str:
    """The toolchain's line from the word `logic` on: what is proved does not depend on more of it."""
    return toolchain().partition(" logic ")[2] or toolchain()


@functools.cache
def harness_sum() -> str:
    """A sum of the scripts by which edits are tried."""
    total = hashlib.sha256()
    for file in (*(TOP / "tests/edits" / name for name in HARNESS), TOP / "tools/rooms.py"):
        total.update(f"{file.name} {hashlib.sha256(file.read_bytes()).hexdigest()}\n".encode())
    return total.hexdigest()


def sample(sizes: Mapping[str, int], commit: str, costly: Container[str] = ()) -> set[str]:
    """The crates whose edits are tried again, by how many edits each has: they have a twentieth of all.

    A commit chooses them, so that each has its turn, but for those that are costly. They are whole crates, since all
    edits of a crate begin with one proof of it.
    """
    chosen: set[str] = set()
    wanted = -(-sum(sizes.values()) // SAMPLE)
    for name in sorted(sizes, key=lambda it: hashlib.sha256(f"{commit} {it}".encode()).hexdigest()):
        if sum(sizes[it] for it in chosen) >= wanted:
            break
        if name not in costly:
            chosen.add(name)
    return chosen


def commit() -> str:
    """The commit that is checked out; empty where there is no repository."""
    ran = subprocess.run(["git", "rev-parse", "HEAD"], cwd=TOP, capture_output=True, text=True)
    return ran.stdout.strip()
