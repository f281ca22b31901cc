"""Trials of tools/tables.py: cells and rows by hand, and pages with another table, which are found and written again."""
from __future__ import annotations

import contextlib
import io
import re
import shutil
import sys
from collections.abc import Iterator
from pathlib import Path
from tempfile import TemporaryDirectory
from typing import Any
from unittest import mock

import tables
from crates import TOP
from tables import Row, Trap
from trials import Trial

KNOWN = {"one_two", "a_b_c", "d_e_f"}  # edits of a crate
CALLS = {  # cells, and the calls that they name
    "`Region::read`": ("Region::read",), "`open`, `close`": ("open", "close"),
    "`Buddy`: `get`, `free`": ("Buddy::get", "Buddy::free"), "`Buddy`'s `get`": ("Buddy::get",), "the deck": ("the deck",),
}
CELLS = (  # what stands in a cell, the edits that it must have, and what stands there then
    ("`a_b_c`", {"a_b_c"}, "`a_b_c`"), ("`d_e_f` and `a_b_c`", {"a_b_c", "d_e_f"}, "`d_e_f` and `a_b_c`"),
    ("", {"a_b_c"}, "`a_b_c`"), ("`a_b_c`; more", {"a_b_c", "d_e_f"}, "`a_b_c`, `d_e_f`; more"),
    ("it has `a_b_c`, `d_e_f` too", {"d_e_f"}, "it has `d_e_f` too"),
    ("a law", set[str](), "a law"), ("a law", {"one_two"}, "`one_two`; a law"), ("`gone_with_it`", {"one_two"}, "`one_two`"),
    ("`one_two`", {"a_b_c"}, "`a_b_c`"), ("", set[str](), ""),
)
TRAPS = [Trap(str(number), name, "when") for number, name in ((1, "ONE TRAP"), (2, "TWO TRAPS"), (3, "THREE TRAPS"))]
SUMMARY = f"before\n{tables.SUMMARY_HEAD}| 1 | ONE TRAP (a note) | 9 | OLD TRAP |\n\nbehind\n"
MADE = f"before\n{tables.SUMMARY_HEAD}| 1 | ONE TRAP (a note) | 3 | THREE TRAPS |\n| 2 | TWO TRAPS |  |  |\n\nbehind\n"
# Of each page a text in a table, and what stands in its place until the page is written again.
ALTERED = {
    tables.MEASUREMENTS: ("| `l6_word` | ", "| `l6_word` | 9"), tables.CONTRACTS: ("`word_of_37_bits`", "`word_of_38_bits`"),
    tables.SUMMARY: ("STORE FULL", "STORE EMPTY"), tables.MANUAL: ("STORE FULL", "STORE EMPTY"),
}


def made_tables() -> Iterator[Trial]:
    """All of them."""
    for cell, calls in CALLS.items():
        yield f"the calls of the cell {cell}", calls, tables.calls_in(cell)
    for cell, edits, expected in CELLS:
        yield f"the cell {cell!r} with {sorted(edits)}", expected, tables.cell_of(cell, edits, KNOWN)
    row = Row("l6_raw", ("Region::read", "Region::write"), "what is read is there")
    for call, promise, is_its in (("Region::write", "", True), ("Region::read", "what is read", True),
                                  ("Region::read", "is there", False), ("Region", "", False), ("Region::fill", "what", False)):
        yield f"whether a row is that of {call}, {promise!r}", is_its, tables.is_of(row, call, promise)
    with mock.patch.object(tables, "traps", lambda: TRAPS):
        yield "a summary of three traps", MADE, tables.summary(SUMMARY)
        page = "before\nThe traps are\n9 OLD\nand\n8 OLDER.\nbehind.\n"
        made = "before\nThe traps are\n1 ONE TRAP,\n2 TWO TRAPS\nand\n3 THREE TRAPS.\nbehind.\n"
        yield "a manual of three traps", made, tables.manual(page)
    its = [file.stem for file in TOP.glob("crates/*/edits/*.edit")
           if re.search(r"^refused by: Region::read(?:$|: )", file.read_text("utf-8"), re.MULTILINE)]
    _, wrong = tables.contracts(tables.CONTRACTS.read_text("utf-8").replace("| `Region::read` |", "| `Region::look` |"))
    found = [it.partition(":")[0].rpartition("/")[2] for it in wrong]
    yield "edits of a call without a row", (sorted(its), True), (sorted(found), found != [])
    yield from pages()


def pages() -> Iterator[Trial]:
    """Of pages of which one is another, that one is named, and written again."""
    for file, (old, new) in ALTERED.items():
        with TemporaryDirectory(prefix="l6-tables-") as folder:
            stand_ins: dict[str, Any] = {"TOP": Path(folder)}
            for name in ("MEASUREMENTS", "CONTRACTS", "SUMMARY", "MANUAL"):
                stand_ins[name] = Path(shutil.copy(getattr(tables, name), folder))
            text, altered = file.read_text("utf-8"), Path(folder, file.name)
            altered.write_text(text.replace(old, new, 1), "utf-8")
            ends: list[tuple[int, bool]] = []
            with mock.patch.multiple(tables, **stand_ins), contextlib.redirect_stdout(io.StringIO()) as said:
                for words in ("--check", "", "--check"):
                    with mock.patch.object(sys, "argv", ["tables.py", *words.split()]):
                        ends.append((tables.main(), altered.read_text("utf-8") == text))
        line = f"{file.name} has a table that is not as it is made: tools/tables.py writes it\n"
        expected = True, line, [(1, False), (0, True), (0, True)]
        yield f"{file.name} with another table", expected, (old in text, said.getvalue(), ends)
