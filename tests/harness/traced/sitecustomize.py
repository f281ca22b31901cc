"""Notes which lines of the repository's scripts a process of Python runs. Python imports this file before any other
where its folder is on the path ($PYTHONPATH), and it does something where $L6_TRACED names a folder: there each process
writes what it ran, as `python_lines.py` reads it.

A function whose lines were all run is watched no longer, so that this costs little.
"""
from __future__ import annotations

import atexit
import json
import os
import sys
import threading
from types import CodeType, FrameType
from typing import Any

FOLDER = os.environ.get("L6_TRACED", "")
TOP = os.path.dirname(os.path.dirname(os.path.dirname(os.path.dirname(os.path.abspath(__file__))))) + "/"
COPIED = "/checkout/top/"  # in the names of files of small checkouts
waiting: dict[CodeType, set[int]] = {}  # the lines of each function that were not run
names: dict[CodeType, str] = {}  # of the files of functions, from the top of the repository on


def name_of(code: CodeType) -> str:
    """The file of a function of the repository; nothing if it is of another."""
    file = os.path.abspath(code.co_filename)
    if COPIED in file:
        return file.partition(COPIED)[2]
    return file.removeprefix(TOP) if file.startswith(TOP) else ""


def begin(frame: FrameType, _event: str, _argument: Any) -> Any:
    """A function begins."""
    code = frame.f_code
    left = waiting.get(code)
    if left is None:
        name = name_of(code)
        left = {line for *_, line in code.co_lines() if line} if name else set()
        waiting[code] = left
        if name:
            names[code] = name
    left.discard(code.co_firstlineno)
    return step if left else None


def step(frame: FrameType, event: str, _argument: Any) -> Any:
    """A line is run."""
    if event == "line":
        left = waiting[frame.f_code]
        left.discard(frame.f_lineno)
        if not left:
            return None
    return step


def write() -> None:
    """Writes which lines were run, by file."""
    sys.settrace(None)
    ran: dict[str, set[int]] = {}
    for code, name in list(names.items()):
        ran.setdefault(name, set()).update({line for *_, line in code.co_lines() if line} - waiting[code])
    if ran and os.path.isdir(FOLDER):
        with open(os.path.join(FOLDER, f"python-{os.getpid()}.json"), "w", encoding="utf-8") as opened:
            json.dump({name: sorted(lines) for name, lines in ran.items()}, opened)


if FOLDER:
    atexit.register(write)
    threading.settrace(begin)
    sys.settrace(begin)
