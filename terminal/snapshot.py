"""Snapshots: the commands that lead a new session to where one is, as the engine's `save` shows them. That they do is
proved. They name breakpoints by labels, so they also serve where the deck has changed.
"""
from __future__ import annotations

import re

from engine import Engine

GOAL = re.compile(r"^goto (\d+)$", re.MULTILINE)


class Snapshot:
    """What a session has, as commands give it."""

    def __init__(self, lines: list[str]) -> None:
        self.lines = lines

    @staticmethod
    def of(engine: Engine) -> Snapshot:
        """That of a session."""
        return Snapshot(engine.ask("save").splitlines())

    @property
    def number(self) -> int:
        """The number of the state."""
        found = GOAL.search("\n".join(self.lines))
        return int(found[1]) if found else 0

    def at_start(self) -> Snapshot:
        """The same at the start of the run."""
        return Snapshot([GOAL.sub("goto 0", line) for line in self.lines])

    def bring(self, engine: Engine) -> list[str]:
        """Brings a session that begins to this one; answers the commands that have no place there any longer."""
        # (the commands of -x and of the job may have set something)
        engine.ask("delete")
        while "taken off" in engine.ask("undisplay 1"):
            pass
        return [line for line in self.lines if not is_obeyed(engine.ask(line))]


def is_obeyed(answer: str) -> bool:
    """Whether a command that sets something was obeyed."""
    return not answer.startswith(("No such", "No breakpoint is there", "Not a"))
