"""Copies of functions, each with an edit, beside the functions themselves.

Only one edit of a function can be tried in place in a check. Copies under names of their own can be tried
together: nobody calls them, and they call what is not edited. One of the copies of a function has no edit.
If that one is not proved, the function can't be copied (its proof may be cited elsewhere), and
its edits are tried in place.
"""
from __future__ import annotations

import re
import shutil
from collections.abc import Iterable
from dataclasses import dataclass
from itertools import count
from pathlib import Path

from edit_files import BadEdit, Edit, Function, function_at

PROOFS = "proofs"


@dataclass(frozen=True)
class Copied:
    """Where an edited copy of a function is, and where the one without an edit is."""

    edited: Function
    unedited: Function


def copy_functions(edits: Iterable[tuple[Edit, Function]], folder: Path, crate: str) -> dict[Edit, Copied]:
    """Copies the function of each edit, in the crate in a folder; returns where the copies are.

    What cannot be copied is left out.
    """
    numbers = count(1)
    names: dict[Edit, tuple[Function, str, str]] = {}
    plain: dict[Function, str] = {}
    # (from the last line up, so that no copy moves a function that is still to be copied)
    for edit, function in sorted(edits, key=lambda it: (it[1].file, it[1].first), reverse=True):
        edited = f"edited_{next(numbers)}"
        try:
            if function not in plain:
                copy_function(folder, function, without := f"edited_{next(numbers)}", [])
                plain[function] = without
            copy_function(folder, function, edited, edit.pairs)
        except BadEdit:
            continue
        names[edit] = function, edited, plain[function]
    return {
        edit: Copied(found(folder, function, edited, crate), found(folder, function, unedited, crate))
        for edit, (function, edited, unedited) in names.items()
    }


def copy_function(folder: Path, function: Function, ending: str, pairs: list[tuple[str, str, str]]) -> None:
    """Puts a copy after a function, with its proof; the ending goes to its name, the edits into its text."""
    own = function.name.rpartition("::")[2]
    file = folder / function.file
    lines = file.read_text("utf-8").splitlines(keepends=True)
    text = "".join(lines[heading_of(lines, function.first - 1):function.last])
    text = re.sub(rf"\bfn {own}\b", f"fn {own}_{ending}", text, count=1)
    for _, old, new in pairs:
        if text.count(old) != 1:
            raise BadEdit("an old text is not in its function, or not once")
        text = text.replace(old, new)
    copy_proof(folder / PROOFS, function, own, ending)
    file.write_text("".join([*lines[:function.last], "\n", text, *lines[function.last:]]), "utf-8")


def heading_of(lines: list[str], first: int) -> int:
    """The first line of a function's head: of the comments and attributes above it."""
    indent = len(lines[first]) - len(lines[first].lstrip())
    while first > 0 and lines[first - 1].strip() and lines[first - 1].startswith(" " * indent):
        if indent == 0 and not lines[first - 1].startswith(("//", "#", " ", ")")):
            break
        first -= 1
    return first


def copy_proof(proofs: Path, function: Function, name: str, ending: str) -> None:
    """Copies the folder of a function's proof, if it has one, under the name of its copy."""
    path = function.name.split("::")
    path = path[1:] if len(path) > 2 or path[0].islower() else path
    folders = [it for it in proofs.rglob(path[-1]) if it.is_dir() and it.parts[-len(path):] == tuple(path)]
    if len(folders) > 1:
        raise BadEdit("it is not clear which proof is its function's")
    for folder in folders:
        copy = folder.with_name(f"{name}_{ending}")
        shutil.copytree(folder, copy)
        dotted = ".".join(folder.relative_to(proofs.parent).parts)
        for file in copy.rglob("*.antt"):
            text = file.read_text("utf-8")
            file.write_text(re.sub(rf"\b{re.escape(dotted)}\b", f"{dotted}_{ending}", text), "utf-8")


def found(folder: Path, function: Function, ending: str, crate: str) -> Function:
    """The copy of a function with this ending of its name."""
    lines = (folder / function.file).read_text("utf-8").splitlines()
    own = function.name.rpartition("::")[2]
    line = next(n for n, row in enumerate(lines) if re.search(rf"\bfn {own}_{ending}\b", row))
    copy = function_at(lines, line, function.file, crate)
    assert copy is not None
    return copy
