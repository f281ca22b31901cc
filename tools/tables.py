#!/usr/bin/env python3
"""Makes the tables of the pages that are counted off the sources.

tables.py writes them, and tables.py --check only says which are not as they would be written. These are

- the crates in docs/measurements.md: how many functions, lines and edits each has. What was measured is kept.
- the edits of each call in docs/contracts.md. An edit says which call refuses it, by a line
  `refused by: CALL`, or `refused by: CALL: PROMISE` where a call has several rows; PROMISE is how the row's
  promise begins.
- the traps in docs/summary.md and docs/l6.1, which are those of the table in docs/language.md. What the summary
  says in brackets behind a name is kept.

The exit status is 1 if something is not as it would be written, or an edit has no row.
"""
from __future__ import annotations

import re
import sys
from collections.abc import Iterator
from dataclasses import dataclass
from pathlib import Path

from crates import TOP, Crate, read_crates

MEASUREMENTS = TOP / "docs" / "measurements.md"
CONTRACTS = TOP / "docs" / "contracts.md"
LANGUAGE, SUMMARY, MANUAL = (TOP / "docs" / name for name in ("language.md", "summary.md", "l6.1"))
HEAD = "| Crate | Functions | Code | Definitions | Proofs | Edits | Trying them |"
EDITS_HEAD = "| Call | What it promises | Clause | Edit that is refused |"
RULE = re.compile(r"\|(?:-+\|)+")
FUNCTION = re.compile(r"^ *(?:pub(?:\([^)]*\))? )?(?:const )?fn \w+", re.MULTILINE)
SPAN = re.compile(r"`([^`]+)`")
REFUSED_BY = re.compile(r"^refused by: (?P<call>[^\n]+?)(?:: (?P<promise>[^\n]+))?$", re.MULTILINE)
TRAP = re.compile(r"^\| (?P<number>\d+) \| (?P<name>[A-Z][A-Z ]+[A-Z]) \| (?P<when>[^|\n]+) \|$", re.MULTILINE)
SUMMARY_HEAD = "| Trap | Name | Trap | Name |\n|---|---|---|---|\n"
NOTE = re.compile(r"\| \d+ \| (?P<name>[A-Z ]+[A-Z]) (?P<note>\([^|]+\)) (?=\|)")
TESTS = "l6_tests"  # the crate of tests has nothing that is counted


@dataclass(frozen=True)
class Row:
    """A row of a crate's contracts."""

    crate: str
    calls: tuple[str, ...]  # those that the row is about, which a row above may name
    promise: str


def lines_in(folder: Path, pattern: str) -> int:
    """How many lines the files of a folder have."""
    return sum(file.read_text("utf-8").count("\n") for file in folder.rglob(pattern))


def row_of(crate: Crate, measured: str) -> str:
    """The row of a crate: what is counted, and what was measured."""
    code = "\n".join(file.read_text("utf-8") for file in sources_of(crate))
    counts = [
        len(FUNCTION.findall(code)),
        crate.lines,
        lines_in(crate.folder / "specs", "*.antt"),
        lines_in(crate.folder / "proofs", "*.antt"),
        len(list(crate.folder.glob("edits/*.edit"))),
    ]
    return f"| `{crate.name}` | {' | '.join(map(str, counts))} | {measured} |"


def sources_of(crate: Crate) -> Iterator[Path]:
    """The files of a crate's code, without tests."""
    for file in sorted((crate.folder / "src").rglob("*.rt")):
        if "tests" not in file.with_suffix("").relative_to(crate.folder).parts:
            yield file


def measurements(text: str) -> str:
    """The page of measurements with its table of crates as it is now."""
    before, _, after = text.partition(f"{HEAD}\n")
    rule, *rows = after.split("\n\n")[0].splitlines()
    rest = after.partition("\n\n")[2]
    measured = {SPAN.findall(row)[0]: row.split("|")[-2].strip() for row in rows}
    made = [
        row_of(crate, measured.get(crate.name, "")) for crate in read_crates().values() if crate.name != TESTS
    ]
    return "\n".join([f"{before}{HEAD}", rule, *made, "", rest])


def contracts(text: str) -> tuple[str, list[str]]:
    """The page of contracts with the edits of each call as they are now, and what is wrong with edits."""
    edits = {crate.name: edits_of(crate) for crate in read_crates().values()}
    rows = list(rows_of(text))
    found: dict[Row, set[str]] = {row: set() for _, row in rows}
    wrong = []
    for crate, names in edits.items():
        for name, places in names.items():
            fitting = {
                row for row in found if row.crate == crate and any(is_of(row, *place) for place in places)
            }
            for row in fitting:
                found[row].add(name)
            if len(fitting) != len(places):
                wrong.append(f"{crate}/{name}: {len(places)} lines `refused by`, and {len(fitting)} rows")
    lines = text.splitlines()
    for at, row in rows:
        cells = lines[at].split(" | ")
        cells[-1] = cell_of(cells[-1].removesuffix("|").strip(), found[row], set(edits[row.crate])) + " |"
        lines[at] = " | ".join(cells).replace("|  |", "| |") if cells[-1] == " |" else " | ".join(cells)
    return "\n".join([*lines, ""]), wrong


def edits_of(crate: Crate) -> dict[str, list[tuple[str, str]]]:
    """The edits of a crate: the calls that refuse each, and how the promise begins where that is said."""
    return {
        file.stem: [(it["call"], it["promise"] or "") for it in REFUSED_BY.finditer(file.read_text("utf-8"))]
        for file in sorted(crate.folder.glob("edits/*.edit"))
    }


def is_of(row: Row, call: str, promise: str) -> bool:
    """Whether a row is that of a call, and of a promise if one is said."""
    return call in row.calls and row.promise.startswith(promise)


def rows_of(text: str) -> Iterator[tuple[int, Row]]:
    """The rows of the tables of calls, and their lines."""
    crate, is_table = "", False
    calls: tuple[str, ...] = ()
    for at, line in enumerate(text.splitlines()):
        if line.startswith("## "):
            crate = line.removeprefix("## ")
        is_table = line == EDITS_HEAD or (is_table and line.startswith("|"))
        if is_table and line != EDITS_HEAD and not RULE.fullmatch(line):
            cells = [cell.strip() for cell in line.strip("|").split(" | ")]
            calls = calls_in(cells[0]) if cells[0] else calls
            yield at, Row(crate, calls, cells[1].replace("`", ""))


def calls_in(cell: str) -> tuple[str, ...]:
    """The calls of a cell, as in `Region::read`; `Buddy`: `get`, `free` are Buddy::get and Buddy::free."""
    of_type = re.match(r"`(\w+)`(?::|'s) (.*)", cell)
    if of_type:
        return tuple(f"{of_type[1]}::{name}" for name in SPAN.findall(of_type[2]))
    return tuple(SPAN.findall(cell)) or (cell,)


def cell_of(cell: str, edits: set[str], known: set[str]) -> str:
    """A cell with these edits; it stays as it is if it has just these, and what it says besides stays."""
    named = [
        it for it in SPAN.findall(cell) if it in known or re.fullmatch(r"[a-z0-9]+(?:_[a-z0-9]+){2,}", it)
    ]
    if set(named) == edits:
        return cell
    listed = ", ".join(f"`{name}`" for name in sorted(edits))
    if not named:
        return f"{listed}; {cell}" if cell and edits else listed or cell
    start, end = cell.index(f"`{named[0]}`"), cell.rindex(f"`{named[-1]}`") + len(named[-1]) + 2
    return cell[:start] + listed + cell[end:]


@dataclass(frozen=True)
class Trap:
    """A trap, as docs/language.md has it."""

    number: str
    name: str
    when: str  # it happens


def traps() -> list[Trap]:
    """All traps, in order."""
    found = TRAP.finditer(LANGUAGE.read_text("utf-8"))
    return [Trap(it["number"], it["name"], it["when"].replace("`", "")) for it in found]


def summary(text: str) -> str:
    """The summary, with its table of traps: the second half beside the first."""
    before, _, after = text.partition(SUMMARY_HEAD)
    table, _, rest = after.partition("\n\n")
    notes = {it["name"]: f" {it['note']}" for line in table.splitlines() for it in NOTE.finditer(line)}
    cells = [f"{it.number} | {it.name}{notes.get(it.name, '')}" for it in traps()]
    if len(cells) % 2:
        cells.append(" | ")
    half = len(cells) // 2
    rows = [f"| {left} | {right} |" for left, right in zip(cells[:half], cells[half:])]
    return "\n".join([f"{before}{SUMMARY_HEAD}{rows[0]}", *rows[1:], "", rest])


def manual(text: str) -> str:
    """The manual page, with its list of traps."""
    before, start, after = text.partition("The traps are\n")
    rest = after.partition(".\n")[2]
    *first, last = (f"{it.number} {it.name}" for it in traps())
    listed = ",\n".join(first)
    return f"{before}{start}{listed}\nand\n{last}.\n{rest}"


def main() -> int:
    """Writes the tables, or checks them; returns the exit status."""
    if sys.argv[1:] not in ([], ["--check"]):
        sys.exit(__doc__)
    page, wrong = contracts(CONTRACTS.read_text("utf-8"))
    made = {MEASUREMENTS: measurements(MEASUREMENTS.read_text("utf-8")), CONTRACTS: page,
            SUMMARY: summary(SUMMARY.read_text("utf-8")), MANUAL: manual(MANUAL.read_text("utf-8"))}
    for file, text in made.items():
        if file.read_text("utf-8") != text and sys.argv[1:]:
            wrong.append(
                f"{file.relative_to(TOP)} has a table that is not as it is made: tools/tables.py writes it"
            )
        elif file.read_text("utf-8") != text:
            file.write_text(text, "utf-8")
    print(*wrong, sep="\n", end="\n" if wrong else "")
    return 1 if wrong else 0


if __name__ == "__main__":
    sys.exit(main())
