"""Edits that the prover must refuse: what their files say, and which functions they change.

An edit is a file of lines. 'file: src/lib.rt' names a file of the crate's code; 'old: TEXT' and
'new: TEXT' after it replace a text that is there exactly once. Further pairs apply to what the
earlier ones made. The lines of a file stay as many as they are. A line 'refused by: CALL' says which
public call refuses the edit; tools/tables.py lists the edits of each call by it.
"""
from __future__ import annotations

import functools
import re
from dataclasses import dataclass
from pathlib import Path

# A function's first line, and that of an impl or a trait, in the layout of rt fmt.
FUNCTION = re.compile(r"( *)(?:pub(?:\([^)]*\))? )?(?:const )?fn (\w+)")
IMPL = re.compile(r"impl(?:<.*?>)? (?:(?P<of>.+?) for )?(?P<type>\w+)[^{]*\{?$")
TRAIT = re.compile(r"(?:pub(?:\([^)]*\))? )?trait (?P<type>\w+)")


class BadEdit(Exception):
    """An edit that cannot be applied: why not."""


@dataclass(frozen=True)
class Function:
    """A function of a crate, and where it is."""

    name: str  # the end of the name that a check prints, which for a method begins at its type
    file: str
    first: int  # its first line
    last: int  # its last line
    is_of_trait: bool  # whether it is a trait's method, or an implementation of one

    def has(self, file: str, line: int) -> bool:
        """Whether a line of a file is one of its lines."""
        return file == self.file and self.first <= line <= self.last


@dataclass(frozen=True)
class Edit:
    """A file of edits."""

    path: Path

    @property
    def name(self) -> str:
        return self.path.stem

    @functools.cached_property
    def pairs(self) -> list[tuple[str, str, str]]:
        """The file, the old text and the new one of each replacement."""
        pairs, file, old = [], "", None
        for line in self.path.read_text("utf-8").splitlines():
            word, _, text = line.partition(":")
            text = text.removeprefix(" ")
            if word == "file":
                file = text.strip()
            elif word == "old":
                old = text
            elif word == "new" and old and file:
                pairs.append((file, old, text))
                old = None
            elif line.strip() and word != "refused by":
                raise BadEdit(f"a line that is not understood: {line[:60]}")
        if not pairs or old is not None:
            raise BadEdit("it has no whole pair of an old and a new text")
        return pairs

    def apply(self, folder: Path, crate: str) -> frozenset[Function | None]:
        """Edits the crate in a folder, wholly or not at all; returns the functions that it changes.

        None among them means something outside of functions, such as a constant or a type.
        """
        changed: set[Function | None] = set()
        texts: dict[str, str] = {}
        for file, old, new in self.pairs:
            source = folder / file
            if not file.startswith("src/") or ".." in file or not source.is_file():
                raise BadEdit(f"{file} is no file of the crate's code")
            text = texts.get(file) or source.read_text("utf-8")
            if text.count(old) != 1:
                raise BadEdit(f"an old text is in {file} {text.count(old)} times, and not once")
            line = text[: text.index(old)].count("\n")
            changed.add(function_at(text.splitlines(), line, file, crate))
            texts[file] = text.replace(old, new)
        for file, text in texts.items():
            (folder / file).write_text(text, "utf-8")
        return frozenset(changed)


def function_at(lines: list[str], line: int, file: str, crate: str) -> Function | None:
    """The function that has a line of a file, counted from 0, or None."""
    for first in range(line, -1, -1):
        begins = FUNCTION.match(lines[first])
        if begins is None:
            continue
        indent, name = begins.groups()
        last = next((n for n in range(first, len(lines)) if lines[n] == f"{indent}}}"), None)
        if last is None or last < line:
            return None
        module = file.removeprefix("src/").removesuffix(".rt").replace("/", "::")
        path = [crate] if module in ("lib", "main") else [crate, module]
        # (a check lists a method in its type's module, wherever the impl is)
        owner, is_of_trait = owner_of(lines, first) if indent else ("", False)
        path = [owner] if owner else path
        return Function("::".join([*path, name]), file, first + 1, last + 1, is_of_trait)
    return None


def owner_of(lines: list[str], line: int) -> tuple[str, bool]:
    """The name under which a check lists the methods of the impl or the trait that a line is in.

    The second value says whether they are a trait's.
    """
    heads = ((IMPL.match(row) or TRAIT.match(row)) for row in reversed(lines[:line]))
    found = next(filter(None, heads))
    of = found.groupdict().get("of") or ""
    return found["type"] + "".join(re.findall(r"\b[A-Z]\w*", of)), bool(of or found.re is TRAIT)
