"""The crates of the repository, as crates.txt lists them."""
from __future__ import annotations

import functools
from dataclasses import dataclass
from pathlib import Path

TOP = Path(__file__).resolve().parent.parent
SOURCES = ("src", "specs", "proofs")  # the folders of a crate that its check reads


@dataclass(frozen=True)
class Crate:
    """A crate, and the crates of this repository that it uses, at once or through others."""

    name: str
    below: tuple[Crate, ...]  # each after those that it uses

    @property
    def folder(self) -> Path:
        """Where it is."""
        return TOP / "crates" / self.name

    @property
    def is_program(self) -> bool:
        """Whether it is a program, and not a library."""
        return (self.folder / "src" / "main.rt").is_file()

    @property
    def is_static(self) -> bool:
        """Whether it is a static library, which other languages link, and which no crate here uses."""
        return any(row.partition(":")[0].split() == [self.name, "staticlib"] for row in listed())

    @functools.cached_property
    def lines(self) -> int:
        """How many lines of code it has, from which the work of its check is estimated."""
        files = (self.folder / "src").rglob("*.rt")
        return sum(file.read_text("utf-8").count("\n") for file in files if file.is_file())

    @property
    def memory(self) -> int:
        """How many bytes its check takes at most, as measured."""
        return 1_000_000_000 + 800_000 * self.lines


def read_crates() -> dict[str, Crate]:
    """The crates by their names, each after those that it uses."""
    uses = dict(map(uses_of, listed()))
    crates: dict[str, Crate] = {}

    def add(name: str) -> Crate:
        """Adds a crate, after those that it uses."""
        if name not in crates:
            own = [add(library) for library in uses[name] if library in uses]
            below = dict.fromkeys(it for library in own for it in (*library.below, library))
            crates[name] = Crate(name, tuple(below))
        return crates[name]

    for name in uses:
        add(name)
    return crates


def is_source(file: Path) -> bool:
    """Whether a file of a crate is one that the prover reads: not a hidden one, nor one that an editor left."""
    return file.suffix in (".rt", ".antt") and not any(part.startswith(".") for part in file.parts)


def listed() -> list[str]:
    """The lines of crates.txt, without comments."""
    rows = (TOP / "crates.txt").read_text("utf-8").splitlines()
    return [row for row in (line.partition("#")[0].strip() for line in rows) if row]


def uses_of(row: str) -> tuple[str, list[str]]:
    """The name of a line's crate, and the libraries that it uses, those of the kit among them."""
    name, _, libraries = row.partition(":")
    return name.split()[0], libraries.split()


def rows_of(crates: tuple[Crate, ...]) -> str:
    """The lines of crates.txt for these crates."""
    names = {crate.name for crate in crates}
    return "".join(f"{row}\n" for row in listed() if uses_of(row)[0] in names)
