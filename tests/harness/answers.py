"""Answers of a program: what it writes to its two outputs, and its exit status."""
from __future__ import annotations

import resource
import subprocess
from collections.abc import Sequence
from dataclasses import dataclass
from pathlib import Path
from typing import Any, AnyStr, Generic

SECONDS = 20  # for one run of a program
ROOM = 48 << 20  # bytes of addresses that a program has


@dataclass(frozen=True)
class Answer(Generic[AnyStr]):
    """What a program wrote to its two outputs, both as bytes or both as texts, and its exit status."""

    stdout: AnyStr
    stderr: AnyStr
    status: int | str  # a text says that the program did not end


def answer(stdout: bytes = b"", stderr: bytes = b"", status: int | str = 0) -> Answer[bytes]:
    """An answer in bytes."""
    return Answer(stdout, stderr, status)


def leave_little_room() -> None:
    """Leaves this process few addresses, so that a request for far too much memory is refused."""
    resource.setrlimit(resource.RLIMIT_AS, (ROOM, ROOM))


def answer_of(
    command: Sequence[str | bytes | Path], *, seconds: int = SECONDS, **options: Any
) -> Answer[bytes]:
    """The answer of a command, which is killed if it takes too long; options are those of `run`.

    It has little room, unless the options say what is called before it.
    """
    pipes = {"stdout": subprocess.PIPE, "stderr": subprocess.PIPE}
    options = {**pipes, "preexec_fn": leave_little_room, **options}
    try:
        ended = subprocess.run(command, timeout=seconds, **options)
    except subprocess.TimeoutExpired:
        return answer(status=f"none within {seconds} seconds")
    return answer(ended.stdout or b"", ended.stderr or b"", ended.returncode)
