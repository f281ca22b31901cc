"""Trials of tools/module.py: which module a program has, where one is kept, where dist/ has one, and where it is built again.

The compiler and the linker are stand-ins: a module compiles to an object of the same bytes, unless it is DAMAGED, and an
object links to the program that has these bytes. So nothing is proved, and each step that is left out is seen.
"""
from __future__ import annotations

import contextlib
import io
import lzma
import sys
import tempfile
from collections.abc import Iterator
from dataclasses import dataclass, field
from pathlib import Path
from typing import Any
from unittest import mock

import module
import notices
from crates import read_crates
from trials import Trial

RIGHT, OTHER, DAMAGED = b"the right one", b"another one", b"damaged"
NOT_OF_THESE = "what these sources build is not {}: prove and build it again (./l6 --help)"


@dataclass
class Room:
    """A folder with what is kept of the program l6 and what dist/ has, and what was done there."""

    folder: Path
    built: bytes = RIGHT  # what a build makes
    done: list[str] = field(default_factory=list)

    @property
    def program(self) -> Path:
        """The program whose module is wanted."""
        return self.folder / "l6"

    @property
    def note(self) -> Path:
        """The note of what is kept."""
        return self.folder / "kept/l6/made_from"

    def compiled(self, _rattle: Path, made: module.Built) -> bool:
        """A stand-in for the compiler."""
        self.done.append("compiled")
        made.object.write_bytes(made.module.read_bytes())
        return made.module.read_bytes() != DAMAGED

    def links_to(self, _rattle: Path, built: module.Built, program: Path) -> bool:
        """A stand-in for the linker."""
        return built.object.read_bytes() == program.read_bytes()

    def build(self, _rattle: Path, _crate: object, folder: Path) -> None:
        """A stand-in for a build of the program."""
        self.done.append("built")
        for name in ("program.o", "module.bc"):
            (folder / name).write_bytes(self.built)

    def packed(self, name: str, data: bytes | None) -> None:
        """Puts a module into dist/, packed; or bytes that are no packed module."""
        (self.folder / f"{name}.bc.xz").write_bytes(b"no module" if data is None else lzma.compress(data))

    def keeps(self, kept: bytes, of: str) -> None:
        """Keeps an object, with a note that it is of some sources."""
        self.note.parent.mkdir(parents=True)
        built = module.Built(self.note.with_name("program.o"), self.note.with_name("module.bc"))
        for file in (built.object, built.module):
            file.write_bytes(kept)
        with mock.patch.object(module, "sources_sum", lambda _: of):
            self.note.write_text(module.note_of(read_crates()["l6"], built), "utf-8")


@contextlib.contextmanager
def room() -> Iterator[Room]:
    """A room, in which tools/module.py works with the stand-ins."""
    with tempfile.TemporaryDirectory(prefix="l6-kept-") as folder:
        made = Room(Path(folder))
        made.program.write_bytes(RIGHT)
        stand_ins: dict[str, Any] = {
            "KEPT": made.folder / "kept", "DIST": made.folder, "sources_sum": lambda _: "these sources", "kit": lambda: Path("kit"),
            "compiled": made.compiled, "links_to": made.links_to, "build": made.build,
        }
        with mock.patch.multiple(module, **stand_ins):
            yield made


def taken(made: Room) -> tuple[str, list[str], bool]:
    """The object that is taken, or why none is; what was done for it; and whether a note of it is kept."""
    try:
        built = module.built_again(Path("kit"), made.program)
    except module.Stop as why:
        return str(why), made.done, made.note.exists()
    is_noted = made.note.is_file() and made.note.read_text("utf-8") == module.note_of(read_crates()["l6"], built)
    return built.object.read_text("ascii"), made.done, is_noted


# What is kept and of which sources, what dist/ has, and what a build makes; then what is taken, and what was done for it.
ROWS: tuple[tuple[str, tuple[bytes, str] | None, bytes | None, bytes, list[str]], ...] = (
    ("what is kept of these sources", (RIGHT, "these sources"), None, OTHER, []),
    ("what is kept of other sources", (RIGHT, "other sources"), RIGHT, OTHER, ["compiled"]),
    ("what is kept and is another program", (OTHER, "these sources"), RIGHT, OTHER, ["compiled"]),
    ("the module of dist/", None, RIGHT, OTHER, ["compiled"]),
    ("a module of dist/ that is another program's", None, OTHER, RIGHT, ["compiled", "built"]),
    ("a module of dist/ that does not compile", None, DAMAGED, RIGHT, ["compiled", "built"]),
    ("a module of dist/ that is not packed", None, None, RIGHT, ["built"]),
)


def kept_modules() -> Iterator[Trial]:
    """Of which module a program is made, and what is said of modules that dist/ has."""
    for what, kept, in_dist, built, done in ROWS:
        with room() as made:
            made.built = built
            made.packed("l6", in_dist)
            if kept:
                made.keeps(*kept)
            yield f"a program by {what}", (RIGHT.decode(), done, True), taken(made)
    with room() as made:
        made.built = OTHER
        made.packed("l6", None)
        made.keeps(OTHER, "these sources")
        yield "a program of other sources than these", (NOT_OF_THESE.format(made.program), ["built"], False), taken(made)
    yield from said_of_modules()
    missing = "the program is not there: prove and build it first (./l6 --help), or name it"
    with room() as made:
        rows: tuple[tuple[tuple[Path, ...], str], ...] = (
            ((), missing), ((made.program,), str(made.program)), ((made.folder / "none", made.program), str(made.program)))
        for there, taken_one in rows:
            with mock.patch.object(module, "PROGRAMS", there):
                yield f"the program of {len(there)} places", taken_one, program_taken()
    of_others = {"l6": notices.WORKS, "l6db": notices.WORKS, "l6ed": notices.WORKS_OF_EDITORS}
    yield "programs without the instruction of simdutf8", [it for it, works in of_others.items() if "simdutf8" in works.values()], [
        it for it in of_others if module.without_shuffle(it)]


def program_taken() -> str:
    """The program that is taken where none is named, or why none is."""
    try:
        return str(module.program_of([]))
    except module.Stop as why:
        return str(why)


def said_of_modules() -> Iterator[Trial]:
    """What tools/module.py says of the modules that dist/ has, by itself."""
    with room() as made, contextlib.redirect_stdout(io.StringIO()) as said:
        others = made.folder / "l6db", made.folder / "l6ed"
        for other in others:
            other.write_bytes(RIGHT)
        for name, data in (("l6", RIGHT), ("l6db", None), ("l6ed", OTHER)):
            made.packed(name, data)
        statuses = []
        for programs in ([made.program], [others[0], made.program], [made.program, others[1]]):
            with mock.patch.object(sys, "argv", ["module.py", *map(str, programs)]):
                statuses.append(module.main())
    lines = [f"dist/{it.name}.bc.xz is not the module of {it}; tools/make_dist makes it again" for it in others]
    yield "modules that dist/ has, and that it has not", ([0, 1, 1], lines), (statuses, said.getvalue().splitlines())
