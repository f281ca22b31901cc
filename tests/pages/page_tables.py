"""Tables of pages, as text: what a row says under each heading."""
from __future__ import annotations

import re
import shlex
import sys
from collections.abc import Callable, Iterator
from dataclasses import dataclass
from pathlib import Path

from trials import Trial, report

TOP = Path(__file__).resolve().parents[2]
SPAN = re.compile(r"`([^`]*)`")


@dataclass(frozen=True)
class Table:
    """A table of a page."""

    section: str  # the heading above it
    head: list[str]
    rows: list[list[str]]

    def column(self, name: str, of: int = 0) -> list[str]:
        """The cells under a heading; `of` counts the columns with that heading."""
        at = [number for number, cell in enumerate(self.head) if cell == name][of]
        return [row[at] for row in self.rows]


ALTERED: dict[str, str] = {}  # the texts of pages with a defect, while a canary is made


def text_of(page: str) -> str:
    """The text of a page, by its name from the top of the repository on."""
    return ALTERED[page] if page in ALTERED else (TOP / page).read_text("utf-8")


def canary(page: str, old: str, new: str, group: Callable[[], Iterator[Trial]]) -> Trial:
    """The first trial of a group that fails if a page has a defect, or one that passes if there is none."""
    text = text_of(page)
    if old in text:
        ALTERED[page] = text.replace(old, new, 1)
        try:
            wrong = next((it for it in group() if it[1] != it[2]), None)
        finally:
            del ALTERED[page]
        if wrong:
            return wrong
    return f"{page} with {new!r} in the place of {old!r}", True, True


def wrong_lines(folder: str) -> str:
    """A program that writes many lines, none of which is right."""
    program = Path(folder, "wrong")
    program.write_text("#!/bin/sh\nyes wrong | head -n 40\n")
    program.chmod(0o755)
    return str(program)


def other_status(folder: str, program: str) -> str:
    """A program that writes what another one does, and ends with a status that none has."""
    wrapper = Path(folder, "other status")
    wrapper.write_text(f"#!/bin/sh\n{shlex.quote(program)} \"$@\"\nexit 77\n")
    wrapper.chmod(0o755)
    return str(wrapper)


def report_of(usage: str | None, trials: Callable[[str], Iterator[Trial]], canaries: Callable[[str], Iterator[Trial]]) -> int:
    """Makes the trials of a script on pages, on the program that its command line names; returns the exit status."""
    if len(sys.argv) != 2:
        sys.exit(usage)
    program = str(Path(sys.argv[1]).resolve())
    return report(trials(program), canaries(program))


def tables_of(text: str) -> list[Table]:
    """The tables of a page, in their order."""
    tables: list[Table] = []
    section, lines = "", [*text.splitlines(), ""]
    for at, line in enumerate(lines):
        if line.startswith("#"):
            section = line.lstrip("# ")
        elif re.fullmatch(r" *\|[-| ]+\|", line):
            tables.append(Table(section, cells_of(lines[at - 1]), []))
            for row in lines[at + 1 :]:
                if not row.lstrip().startswith("|"):
                    break
                tables[-1].rows.append(cells_of(row))
    return tables


def cells_of(line: str) -> list[str]:
    """The cells of a row. A bar in a code span divides nothing."""
    safe = SPAN.sub(
        lambda found: found[0].replace("|", "\0"), line.strip().removeprefix("|").removesuffix("|")
    )
    return [cell.strip().replace("\0", "|") for cell in safe.split("|")]


def table_with(text: str, *head: str) -> Table:
    """The first table whose headings begin so."""
    return next(table for table in tables_of(text) if table.head[: len(head)] == list(head))


def spans_of(text: str) -> list[str]:
    """The code spans of a text."""
    return SPAN.findall(text)


def plain(text: str) -> str:
    """A text of a page in one line, without the marks of spans and bold words."""
    return " ".join(text.replace("`", "").replace("**", "").split())
