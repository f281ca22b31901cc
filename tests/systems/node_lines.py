"""The trials that the lines of the scripts around the modules for Node are run by the trials before them."""
from __future__ import annotations

from collections import defaultdict
from collections.abc import Iterator
from pathlib import Path

from ran_lines import Ran, counted_in_node, lines_with_code
from trials import Trial

MOST_NOT_RUN = 2  # per cent of the lines of a script


def node_lines(room: Path, programs: dict[Path, tuple[Path, ...]]) -> Iterator[Trial]:
    """All of these trials, of programs and the scripts that each is made of, by what Node wrote to a folder.

    A line of a script counts as run if one of the programs that have it has run it.
    """
    ran = {program.resolve().as_uri(): Ran(program.read_text("utf-8")) for program in programs}
    for address, functions in counted_in_node(room):
        if address in ran:
            ran[address].add(functions)
    lines_run: dict[Path, set[int]] = defaultdict(set)
    for program, scripts in programs.items():
        of_program = ran[program.resolve().as_uri()]
        for script in scripts:
            own = script.read_text("utf-8")
            before, found, _ = of_program.text.partition(own)
            yield f"{program.name} has {script.name} in it", own, found
            lines_run[script] |= {it - before.count("\n") for it in of_program.lines()}
    for script, lines in lines_run.items():
        own = script.read_text("utf-8")
        not_run = sorted(it for it in lines_with_code(own) if it not in lines)
        most = len(lines_with_code(own)) * MOST_NOT_RUN // 100
        shown = [f"{it}: {own.splitlines()[it - 1].strip()}" for it in not_run]
        yield f"{MOST_NOT_RUN} per cent of the lines of {script.name} need not be run", [], shown if len(shown) > most else []
