"""Which lines of JavaScript were run, by what V8 counts (its precise coverage), in Node or a browser.

V8 says of each function how often its parts were run: ranges of characters, an outer one before those in it.
"""
from __future__ import annotations

import json
import re
from collections.abc import Iterable, Iterator
from pathlib import Path
from typing import Any

COMMENT = re.compile(r"/\*.*?\*/", re.DOTALL)
NO_CODE = re.compile(r"[\s{}()\[\];,]*(?://.*)?")  # what a line without code has
IN_NODE = "NODE_V8_COVERAGE"  # a variable of the environment: a folder, to which Node writes what it counted


class Ran:
    """A script, and which of its characters were run."""

    def __init__(self, text: str) -> None:
        if text and max(map(ord, text)) > 0xFFFF:
            raise ValueError("a character of a script is two units of it, and V8 counts those")
        self.text, self._ran = text, bytearray(len(text))

    def add(self, functions: Iterable[dict[str, Any]]) -> None:
        """Adds what was counted of its functions."""
        counted = bytearray(len(self.text))
        for function in functions:
            for part in function["ranges"]:
                first, last = part["startOffset"], part["endOffset"]
                counted[first:last] = (b"\1" if part["count"] else b"\0") * (last - first)
        both = int.from_bytes(counted, "big") | int.from_bytes(self._ran, "big")
        self._ran = bytearray(both.to_bytes(len(self.text), "big"))

    def lines(self) -> set[int]:
        """The lines, from 1 on, of which something was run."""
        found, first = set(), 0
        for number, line in enumerate(self.text.splitlines(keepends=True), 1):
            blank = len(line) - len(line.lstrip())
            if any(self._ran[first + blank:first + len(line.rstrip())]):
                found.add(number)
            first += len(line)
        return found


def lines_with_code(text: str) -> set[int]:
    """The lines of a script, from 1 on, that have more than brackets and comments."""
    bare = COMMENT.sub(lambda it: "\n" * it[0].count("\n"), text)
    return {number for number, line in enumerate(bare.splitlines(), 1) if not NO_CODE.fullmatch(line)}


def counted_in_node(folder: Path) -> Iterator[tuple[str, list[dict[str, Any]]]]:
    """The address of each script that Node ran, and its functions, by the files that Node wrote to a folder."""
    for written in folder.glob("coverage-*.json"):
        for script in json.loads(written.read_text("utf-8"))["result"]:
            yield script["url"], script["functions"]
