"""The cases of cases.jsonl: jobs with their answers.

The answers were worked out by hand from docs/language.md, or by the model of tests/program/model/, which was written
from the manual alone. None was taken from the program. A case is a line of JSON:

    name            what it shows
    args            the program's words, a list; ["run"] if left out
    stdin           what standard input gives
    stdout, stderr  what must go out; nothing if left out; a null stderr means any text but none
    status          the exit status
    refused         true where each request for memory is refused in turn; then a debugger's stdout is a
                    list of its answers
    memory          the group of cases that make equally many requests for memory, if it is in one:
                    such cases are alike except for how many steps are made and how much is printed

Each character of a text is one byte. A text may be a list, in which [text, n] stands for n times
that text, and [text, m, n] for that text once for each number from m to n, which is put in five
digits in the place of each # of it.
"""
from __future__ import annotations

import json
from collections.abc import Iterator
from pathlib import Path
from typing import Any

from answers import Answer, answer

CASES = Path(__file__).resolve().parent / "cases.jsonl"


def read_cases() -> Iterator[Case]:
    """All cases, in their order."""
    return map(Case, CASES.read_text("ascii").splitlines())


def text_of(value: str | list[Any]) -> bytes:
    """The bytes of a text of a case."""
    if isinstance(value, str):
        return value.encode("latin-1")
    return b"".join(text_of(part) if isinstance(part, str) else repeated(*part) for part in value)


def repeated(text: str | list[Any], first: int, last: int | None = None) -> bytes:
    """A text so many times, or once for each number from the first to the last."""
    if last is None:
        return text_of(text) * first
    assert isinstance(text, str)
    return b"".join(text_of(text.replace("#", f"{n:05}")) for n in range(first, last + 1))


class Case:
    """A line of cases.jsonl. Long texts are made where they are asked for, and are not kept."""

    def __init__(self, line: str) -> None:
        self._case: dict[str, Any] = json.loads(line)
        self.name: str = self._case["name"]
        self.args: list[str] = self._case.get("args", ["run"])
        self.has_free_text: bool = self._case.get("stderr", "") is None
        self.is_refused_memory: bool = self._case.get("refused", False)
        self.memory: str | None = self._case.get("memory")

    @property
    def stdin(self) -> bytes:
        """What standard input gives."""
        return text_of(self._case.get("stdin", ""))

    @property
    def expected(self) -> Answer[bytes]:
        """The expected answer, in which a free text is none."""
        stderr = self._case.get("stderr", "") or ""
        return answer(text_of(self._case.get("stdout", "")), text_of(stderr), self._case["status"])

    @property
    def prefixes(self) -> list[bytes]:
        """What may have gone out when memory ran out: nothing, or a debugger's first answers, but not all."""
        is_session = self.args[:1] == ["debug"] and isinstance(self._case.get("stdout"), list)
        answers = self._case["stdout"] if is_session else []
        return [text_of(answers[:count]) for count in range(len(answers) or 1)]
