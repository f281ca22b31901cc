#!/usr/bin/env python3
"""Which definitions of specs/ a definition rests on, and how many lines they have.

reached.py MODULE NAME, as in `reached.py l6.JobResult JobResult`, prints each file and what of it is
reached, in the order in which a reader meets it who follows each name at its first mention, and
last how many definitions and lines there are. A definition's lines are its own and those of the
comment above it. Types of the code, such as `Trap`, are named in contracts too, but defined in src/.
"""
from __future__ import annotations

import re
import sys
from dataclasses import dataclass, field

from crates import TOP

WORD = re.compile(r"[^\s(){};,]+")
HEAD = re.compile(r"(?:pub |abbrev |unfoldable )+(?:record |data )?(\S+)")
USE = re.compile(r"(?:pub )?use Rattle\.(\w+)\.specs\.([\w.]+?)(?:\.\{([^}]*)\}| as (\S+))?$")


@dataclass
class Definition:
    """A definition: its name and its lines."""

    name: str
    lines: list[str] = field(default_factory=list)


class Module:
    """A file of specs/: its definitions, and the names that it brings in."""

    def __init__(self, crate: str, name: str) -> None:
        self.crate, self.name = crate, name
        self.file = TOP / "crates" / crate / "specs" / (name.replace(".", "/") + ".antt")
        self.definitions: dict[str, Definition] = {}
        self.brought: dict[str, tuple[str, str, str]] = {}  # crate, module and name of each
        self.aliases: dict[str, tuple[str, str]] = {}  # crate and module of each
        self._read()

    def _read(self) -> None:
        """Reads the file."""
        comment: list[str] = []
        latest: Definition | None = None
        for line in self.file.read_text("utf-8").splitlines():
            use = USE.match(line)
            head = HEAD.match(line)
            if use:
                self._bring(*use.groups())
            elif head and head[1] and head[1] not in self.definitions:
                latest = self.definitions[head[1]] = Definition(head[1], [*comment, line])
                comment = []
            elif not line.strip():
                comment = []
                latest = None
            elif latest:
                latest.lines.append(line)
            else:
                comment.append(line)

    def _bring(self, crate: str, module: str, names: str | None, alias: str | None) -> None:
        """Notes the names that a `use` brings in."""
        if module.startswith("declared.") or not (TOP / "crates" / crate).is_dir():
            return
        if alias:
            self.aliases[alias] = (crate, module)
        for name in (names or "").split(","):
            own, _, given = name.strip().partition(" as ")
            if own:
                self.brought[given or own] = (crate, module, own)


class Reach:
    """What is reached from a definition, in the order of first mention."""

    def __init__(self) -> None:
        self._modules: dict[tuple[str, str], Module] = {}
        self.found: dict[tuple[str, str, str], Definition] = {}

    def follow(self, crate: str, module: str, name: str) -> None:
        """Adds a definition, and then what it names."""
        where = self._module(crate, module)
        definition = where.definitions.get(name) or self._of_constructor(where, name)
        if definition is None and name in where.brought:  # by a `pub use`
            self.follow(*where.brought[name])
            return
        if definition is None:
            sys.exit(f"{crate}/specs/{module}.antt defines no {name}")
        key = (crate, module, definition.name)
        if key in self.found:
            return
        self.found[key] = definition
        for line in definition.lines:
            if not line.lstrip().startswith("--"):
                for word in WORD.findall(line):
                    self._mention(where, word)

    def _mention(self, where: Module, word: str) -> None:
        """Follows a word of a definition, if it names another one."""
        first, _, rest = word.partition(".")
        if first in where.aliases and rest:
            crate, module = where.aliases[first]
            self.follow(crate, module, rest)
            return
        names = {word, first, f"◌{word}◌", f"◌{word}"}
        for name in names:
            if name in where.brought:
                self.follow(*where.brought[name])
            elif name in where.definitions:
                self.follow(where.crate, where.name, name)

    def _of_constructor(self, where: Module, name: str) -> Definition | None:
        """The type of which the name is a constructor."""
        for definition in where.definitions.values():
            if any(re.match(rf"\s+(?:pub )?{re.escape(name)} :", line) for line in definition.lines):
                return definition
        return None

    def _module(self, crate: str, module: str) -> Module:
        """A module, which is read once."""
        key = (crate, module)
        if key not in self._modules:
            self._modules[key] = Module(crate, module)
        return self._modules[key]


def counted(root: str, name: str) -> tuple[Reach, int]:
    """What is reached from a definition of a module, as `l6.JobResult JobResult`, and how many lines it has."""
    crate, _, module = root.partition(".")
    reach = Reach()
    reach.follow(crate, module, name)
    return reach, sum(len(it.lines) for it in reach.found.values())


def main() -> None:
    """Prints what a definition rests on."""
    reach, lines = counted(sys.argv[1], sys.argv[2])
    files: dict[tuple[str, str], list[str]] = {}
    for crate, module, name in reach.found:
        files.setdefault((crate, module), []).append(name)
    for (crate, module), names in files.items():
        print(f"{crate}/specs/{module.replace('.', '/')}.antt: {', '.join(names)}")
    print(f"{len(reach.found)} definitions, {lines} lines, in {len(files)} files")


if __name__ == "__main__":
    main()
