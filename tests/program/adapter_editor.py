"""An editor that speaks to the debug adapter, and a deck that it debugs."""
from __future__ import annotations

import sys
from pathlib import Path
from typing import Any

sys.path.insert(0, str(Path(__file__).resolve().parents[1] / "harness"))
from peers import Frames

DOUBLE = """* TAKES A LIST OF TWO BLOCKS APART, FROM ITS HEAD L
       (0,DV,0,17)(0,DN,18,35)
       (M,GT,1)(MV,E,8)
       (L,GT,1)(LV,E,7)(LN,E,M)
       (DROP,DO)(DROP,DO)(M,FR) DONE
* FREES THE FIRST BLOCK, AND L LEADS TO THE NEXT ONE
DROP   (K,E,LN)(L,FR)(L,E,K) DONE
"""


class Editor:
    """An editor that speaks to the adapter."""

    def __init__(self, program: list[str]) -> None:
        self.frames = Frames([*program, "dap"])
        self.number = 0  # of the last request
        self.numbers: list[int] = []  # of the messages that came
        self.events: list[dict[str, Any]] = []  # that came and were not waited for
        self.printed = ""  # so far

    def take(self) -> dict[str, Any] | None:
        """The next message, or None if the adapter has ended."""
        message: dict[str, Any] | None = self.frames.take()
        if message:
            self.numbers.append(message["seq"])
        if message and message.get("event") == "output" and message["body"]["category"] == "stdout":
            self.printed += message["body"]["output"]
        return message

    def ask(self, command: str, **arguments: object) -> dict[str, Any]:
        """The answer to a request."""
        self.number += 1
        self.frames.send({"seq": self.number, "type": "request", "command": command, "arguments": arguments})
        while True:
            message = self.take()
            if message is None or message["type"] == "response":
                return message or {}
            self.events.append(message)

    def event(self, name: str) -> dict[str, Any]:
        """The body of the next event of this name."""
        while True:
            message = self.events.pop(0) if self.events else self.take()
            if message is None or message["event"] == name:
                body: dict[str, Any] = (message or {}).get("body", {})
                return body

    def stands(self) -> tuple[str, str, int]:
        """Why the run stands, and where: the name and the line of the first frame."""
        why = self.event("stopped")["reason"]
        frame = self.ask("stackTrace", threadId=1)["body"]["stackFrames"][0]
        return why, frame["name"], frame["line"]

    def move(self, command: str, **arguments: object) -> tuple[str, str, int]:
        """Where a request leads."""
        self.ask(command, **arguments)
        return self.stands()

    def value(self, text: str) -> str:
        """What an expression reads as, or why it does not."""
        answered = self.ask("evaluate", expression=text)
        return str(answered["body"]["result"] if answered["success"] else answered["message"])

    def variables(self, number: int) -> list[dict[str, Any]]:
        """The variables of a number."""
        listed: list[dict[str, Any]] = self.ask("variables", variablesReference=number)["body"]["variables"]
        return listed

    def calls(self, frame: int = 0) -> list[tuple[int, str]]:
        """The calls that are ahead: what each is asked for by, and its text."""
        listed = self.ask("stepInTargets", frameId=frame)["body"]["targets"]
        return [(one["id"], one["label"]) for one in listed]

    def breakpoints(self, deck: Path, *wanted: dict[str, object]) -> list[dict[str, Any]]:
        """What is said of breakpoints on cards."""
        made: list[dict[str, Any]] = self.ask(
            "setBreakpoints", source={"path": str(deck)}, breakpoints=list(wanted))["body"]["breakpoints"]
        return made

    def end(self) -> int:
        """Closes the session; the exit status of the adapter."""
        self.ask("disconnect")
        return self.frames.end()


KEPT = {"uri", "variablesReference", "id", "dataId", "scopes"}  # parts of a message by which one asks for further ones


def other(value: Any) -> Any:
    """A value with other numbers and texts, and with yes for no; what one asks by stays."""
    if isinstance(value, dict):
        return {name: it if name in KEPT else other(it) for name, it in value.items()}
    if isinstance(value, list):
        return list(map(other, value))
    if value is None or isinstance(value, bool):
        return value if value is None else not value
    return value + 1 if isinstance(value, (int, float)) else f"?{value}"


class OtherEditor(Editor):
    """An editor to which all that the adapter says is something else."""

    def take(self) -> dict[str, Any] | None:
        """The next message, as it is; but what is printed is something else."""
        message = super().take()
        if message and message.get("event") == "output":
            self.printed += "?"
        return message

    def ask(self, command: str, **arguments: object) -> dict[str, Any]:
        """The answer to a request, and what it says otherwise."""
        changed: dict[str, Any] = other(super().ask(command, **arguments))
        return changed

    def event(self, name: str) -> dict[str, Any]:
        """The body of the next event of this name, and what it says otherwise."""
        changed: dict[str, Any] = other(super().event(name))
        return changed

    def value(self, text: str) -> str:
        """Something else, whatever an expression reads as."""
        self.ask("evaluate", expression=text)
        return "?"

    def end(self) -> int:
        """Closes the session; another exit status."""
        return super().end() + 1


def launched(program: list[str], deck: Path, **options: object) -> Editor:
    """An editor that has launched a deck, and may set breakpoints."""
    editor = Editor(program)
    editor.ask("initialize", adapterID="l6")
    editor.ask("launch", program=str(deck), **options)
    editor.event("initialized")
    return editor
