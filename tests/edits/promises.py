"""What a crate promises to those above it: all that a check of a crate above reads of it.

Of a crate below, a check reads the definitions, the types and constants, the clauses of functions, and those lemmas and
inner definitions that are cited. It reads neither what a function does nor what no other crate can call. So a verdict
on an edit outlives a change of these in a crate below.

A source is read in the layout of rt fmt: the body of a function begins with a line `{` of the function's own
indentation, or at the end of its heading if it has no clause, and ends with the next line `}` of that indentation. What
isn't understood is kept, so at worst a verdict ends too early.
"""
from __future__ import annotations

import re
from collections.abc import Iterable, Iterator
from pathlib import Path

from crates import SOURCES, Crate, is_source

FUNCTION = re.compile(r"(?P<indent> *)(?P<public>pub(?:\((?P<inside>[^)]*)\))? )?(?:unsafe )?fn \w")
BLOCK = re.compile(r"(?:pub(?:\([^)]*\))? )?(?:unsafe )?(?P<kind>impl|trait)\b")
# Attributes that lead the search for a proof or the making of code, and promise nothing.
HINT = re.compile(r" *#\[(?:inline|tactic|cold)\b[^\]]*\]$")
IMPORT = re.compile(r" *(?P<word>(?:ghost )?use) (?P<path>[\w.:]+?)(?:\.|::)(?:\{(?P<names>[^}]*)\}|(?P<name>\w+)(?: as \w+)?);$")
CITED = re.compile(r"\bRattle\.(\w+)\.(proofs|specs\.inner)\.([A-Z]\w*)")


def read_of(crate: Crate) -> Iterator[tuple[Path, str]]:
    """All that a check of a crate reads of this repository: its files and some of those below, and what of each."""
    read = {file: file.read_text("utf-8") for file in source_files(crate, SOURCES)}
    for below in crate.below:
        read |= {file: promises(file.read_text("utf-8")) for file in source_files(below, ("src",))}
        definitions = (file for file in source_files(below, ("specs",)) if file.parent.name != "inner")
        read |= {file: file.read_text("utf-8") for file in definitions}
    read |= cited(read.values(), crate.below)
    yield from sorted(read.items())


def source_files(crate: Crate, parts: Iterable[str]) -> Iterator[Path]:
    """The files of some folders of a crate that the prover reads."""
    for part in parts:
        for file in sorted((crate.folder / part).rglob("*")):
            if file.is_file() and is_source(file.relative_to(crate.folder)):
                yield file


def cited(texts: Iterable[str], below: Iterable[Crate]) -> dict[Path, str]:
    """The files of lemmas and inner definitions below that some texts cite, that those files cite, and so on."""
    folders = {crate.name: crate.folder for crate in below}
    found: dict[Path, str] = {}
    waiting = list(texts)
    while waiting:
        for crate, part, module in CITED.findall(waiting.pop()):
            file = folders.get(crate, Path()) / part.replace(".", "/") / f"{module}.antt"
            if file not in found and file.is_file():
                found[file] = file.read_text("utf-8")
                waiting.append(found[file])
    return found


def promises(source: str) -> str:
    """What of a source a crate above may read: all but comments, bodies, private functions, and imports for these alone."""
    kept: list[str] = []
    imports: list[re.Match[str]] = []
    lines = [line for line in source.splitlines() if line.strip() and not line.lstrip().startswith("//")]
    at, is_shared = 0, False
    while at < len(lines):
        line = lines[at]
        block, function, imported = BLOCK.match(line), FUNCTION.match(line), IMPORT.match(line)
        if block:  # the methods of a trait, and of an impl of one, are as public as the trait
            is_shared = block["kind"] == "trait" or " for " in line
        if function:
            heading, at = function_at(lines, at, function["indent"])
            if function["public"] and not function["inside"] or is_shared and function["indent"]:
                kept += heading
            continue
        if imported:
            imports.append(imported)
        elif not HINT.match(line):
            kept.append(line)
        at += 1
    text = "\n".join(kept)
    return "\n".join([*used_imports(imports, text), text])


def function_at(lines: list[str], first: int, indent: str) -> tuple[list[str], int]:
    """The heading and the clauses of the function that begins at a line, and the line after its body."""
    for at in range(first, len(lines)):
        line = lines[at]
        opens = line == indent + "{" or line.endswith(" {") and (at == first or line.startswith(indent + ")"))
        if opens and indent + "}" in lines[at:]:
            return lines[first:at + 1], lines.index(indent + "}", at) + 1
        if line.endswith((";", "{}")):
            return lines[first:at + 1], at + 1
    return lines[first:], len(lines)


def used_imports(imports: Iterable[re.Match[str]], text: str) -> list[str]:
    """The names that a text may use of some imports, each with where it comes from."""
    used = set()
    for imported in imports:
        for name in (imported["names"] or imported["name"]).split(","):
            shown = name.rpartition(" as ")[2].strip()
            if all(part in text for part in shown.split("◌")):
                used.add(f"{imported['word']} {imported['path']} {name.strip()}")
    return sorted(used)
