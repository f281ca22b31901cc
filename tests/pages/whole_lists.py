"""Which files have a line for each trap or for each operation, so that a new one touches them.

What tools/tables.py writes needs no hand. Each other file here is one more to be changed with a new trap or
operation: architecture.md says how many those are, and these trials that no further one has come.
"""
from __future__ import annotations

import re
from collections.abc import Iterable, Iterator

from page_tables import TOP, text_of
from trials import Trial

TRAPS, OPERATIONS = "crates/l6_steps/specs/Trap.antt", "crates/l6_prog/src/operation.rt"
OF_NAMES = {  # files with the names of all traps
    TRAPS, "crates/l6_steps/src/trap.rt", "docs/language.md", "tests/program/cases.jsonl",
    "docs/summary.md", "docs/l6.1",  # (tools/tables.py writes these)
}
OF_VARIANTS = {TRAPS, "crates/l6_steps/src/trap.rt", "crates/l6_marks/src/reason.rt", "crates/l6_marks/specs/Reasons.antt"}
OF_OPERATIONS = 26  # files with a line for each operation, by its variant
LIST = 0.8  # of the words make a list
FOLDERS = ("crates", "docs", "library", "ports", "terminal", "tests", "tools", "web")
MADE = {"out", "__pycache__"}  # folders of what is made


def trials() -> Iterator[Trial]:
    """All of them."""
    names = re.findall(r'codes "([A-Z ]+)"', text_of(TRAPS))
    yield "files with the names of all traps", OF_NAMES, files_with(names)
    variants = re.findall(r"^trap_number (\w+)", text_of(TRAPS), re.MULTILINE)
    yield "files with all traps by their variants", OF_VARIANTS, files_with(variants)
    enum = text_of(OPERATIONS).partition("pub enum Op")[2].partition("\n}")[0]
    operations = re.findall(r"^    ([A-Z]\w+)", enum, re.MULTILINE)
    yield "how many operations there are", 28, len(operations)
    yield "how many files have all operations", OF_OPERATIONS, len(files_with(operations))


def files_with(words: Iterable[str]) -> set[str]:
    """The files of these folders in which nearly all of these words stand."""
    patterns = [re.compile(rf"\b{word}\b") for word in words]
    found = (it for folder in FOLDERS for it in (TOP / folder).rglob("*") if it.is_file() and not MADE & set(it.parts))
    files = [it for it in found if it.suffix != ".defect"]  # (a defect may be a list that is too many)
    texts = {str(it.relative_to(TOP)): it.read_bytes().decode("utf-8", "replace") for it in files}
    return {it for it, text in texts.items() if sum(bool(one.search(text)) for one in patterns) >= LIST * len(patterns)}
