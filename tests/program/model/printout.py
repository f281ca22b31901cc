"""Printouts: what a run prints, and the line that tells how it has ended."""
from __future__ import annotations

import re
from pathlib import Path

from .machine import take_step
from .state import Ending, State

PAGE = Path(__file__).resolve().parents[3] / "docs" / "language.md"
ROW = re.compile(r"^\| \d+ \| ([A-Z][A-Z ]+[A-Z]) \| .+ \|$", re.MULTILINE)  # of its table of traps
TRAPS = ["", *ROW.findall(PAGE.read_text("utf-8"))]  # names, each at the number of its trap
AT_LIMIT = 3  # the exit status of a run that was stopped


def printout_of(state: State) -> tuple[bytes, int]:
    """Runs on to the last state, and answers what is printed, and the exit status."""
    while not state.is_last:
        take_step(state)
    status = AT_LIMIT if state.ending is None else state.ending.value
    return whole_lines(state.output) + ending_line(state).encode("ascii") + b"\n", status


def whole_lines(output: bytes) -> bytes:
    """An output, with a line feed if it is not empty and does not end in one."""
    return bytes(output) + (b"\n" if output and not output.endswith(b"\n") else b"")


def ending_line(state: State) -> str:
    """The line that tells how a run has ended whose last state this is."""
    how = "LIMIT" if state.ending is None else state.ending.name
    if state.ending == Ending.TRAP:
        how = f"TRAP {state.trap} {TRAPS[state.trap]} AT {state.statement}.{state.action}"
    return f"== {how} AFTER {state.steps} STEPS"
