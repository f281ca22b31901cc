"""Messages to `l6ed`, and what it answers: all of them are written at once, and its answers read to the end."""
from __future__ import annotations

import functools
import json
import re
from collections.abc import Mapping
from dataclasses import dataclass
from pathlib import Path
from typing import Any

from answers import answer_of
from page_tables import TOP

DECK = "file:///a.deck"
Request = tuple[str, Mapping[str, object]]  # what is asked, and what is given with it
HEAD = re.compile(rb"Content-Length: \d+\r\n\r\n")


def part(value: Any, *path: str | int) -> Any:
    """A part of an answer by its path, or nothing if there is none."""
    for step in path:
        try:
            value = value[step]
        except (KeyError, IndexError, TypeError):
            return None
    return value


@dataclass(frozen=True)
class Said:
    """What `l6ed` said."""

    messages: list[dict[str, Any]]
    status: int | str

    def answer(self, number: int) -> Any:
        """The answer to the request of a number, whole."""
        return next((it for it in self.messages if number in (it.get("id"), it.get("request_seq"))), {})

    def findings(self) -> list[Any]:
        """The findings that came last."""
        listed = [part(it, "params", "diagnostics") for it in self.messages if it.get("method") == "textDocument/publishDiagnostics"]
        last: list[Any] = listed[-1] if listed and listed[-1] else []
        return last

    def events(self, name: str) -> list[Any]:
        """The bodies of the events of a name."""
        return [it.get("body") for it in self.messages if it.get("event") == name]


def server_beside(program: str) -> str:
    """The program l6ed that was made with a program l6: in the same folder, or of the crate beside it."""
    beside = Path(program).with_name(Path(program).name.replace("l6", "l6ed", 1))
    return str(beside if beside.is_file() else TOP / "crates/l6ed/out/l6ed")


@functools.cache
def said(program: str, what: str, given: bytes) -> Said:
    """What `l6ed` says to an input."""
    ended = answer_of([server_beside(program), what], input=given)
    messages = []
    for text in HEAD.split(ended.stdout):
        try:
            messages += [it] if text and isinstance(it := json.loads(text), dict) else []
        except ValueError:
            messages.append({})
    return Said(messages, ended.status)


def framed(*messages: object) -> bytes:
    """Messages as they are sent; bytes are sent as they are, in a frame."""
    texts = [it if isinstance(it, bytes) else json.dumps(it).encode() for it in messages]
    return b"".join(b"Content-Length: %d\r\n\r\n%s" % (len(text), text) for text in texts)


def served(program: str, deck: str, *asked: Request, ends: bool = True) -> Said:
    """What the language server says of a deck; requests have the numbers 2, 3 and on."""
    messages: list[object] = [
        {"jsonrpc": "2.0", "id": 1, "method": "initialize", "params": {"capabilities": {}}},
        {"jsonrpc": "2.0", "method": "textDocument/didOpen", "params": {"textDocument": {
            "uri": DECK, "languageId": "l6", "version": 1, "text": deck}}},
    ]
    for number, (method, given) in enumerate(asked, 2):
        messages.append({"jsonrpc": "2.0", "id": number, "method": method, "params": dict[str, object](textDocument={"uri": DECK}) | dict(given)})
    if ends:
        messages += [{"jsonrpc": "2.0", "id": 0, "method": "shutdown"}, {"jsonrpc": "2.0", "method": "exit"}]
    return said(program, "lsp", framed(*messages))


def at(line: int, character: int, **more: object) -> dict[str, object]:
    """What a request gives that asks of a position, both counted from 0 on."""
    return {"position": {"line": line, "character": character}, **more}


def debugged(program: str, *asked: Request, ends: bool = True) -> Said:
    """What the debug adapter says to requests, whose numbers are 2, 3 and on."""
    last: list[Request] = [("disconnect", {})] if ends else []
    requests: list[Request] = [("initialize", {"adapterID": "l6"}), *asked, *last]
    return said(program, "dap", framed(*(
        {"seq": number, "type": "request", "command": command, "arguments": given} for number, (command, given) in enumerate(requests, 1))))
