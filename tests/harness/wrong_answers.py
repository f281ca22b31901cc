#!/usr/bin/env python3
"""Makes the trials of a script while each program answers wrong in one way, and prints how many pass all the same.

    python3 tests/harness/wrong_answers.py WAY SCRIPT [WORDS..]

A trial that passes then does not look at that part of an answer. The ways are

    output     the last letter or digit of standard output is another one
    before     standard output begins with an empty line more
    behind     standard output ends with an empty line more
    case       capitals and small letters of standard output are exchanged
    order      the last two lines of standard output are exchanged
    digits     each digit of standard output is another one
    errors     the last letter or digit of standard error is another one
    status     the exit status is another one
    signal     where the exit status is not 0, a signal of that number ended the program
    shown      each letter and digit that a terminal shows is another one
    pages      each number of a page from 20 on is another one (the first ones name things, as traps)

What a script calls for its own ends, and can't do without, is left as it is: compilers, git, and all that must end well
(`check=True`). Canaries are not looked at, since all is wrong. The last line is 'N passed, M failed'.
"""
from __future__ import annotations

import re
import runpy
import subprocess
import sys
from collections.abc import Callable, Iterator
from pathlib import Path
from typing import Any
from unittest import mock

HARNESS = Path(__file__).resolve().parent
TOP = HARNESS.parents[1]
sys.path.insert(0, str(HARNESS))
import terminals
import trials

TOOLS = {"git", "cc", "c++", "rt", "mypy", "shellcheck", "emacs", "nvim", "vim", "make_dist"}
OF_PAGES = {".md", ".1"}
LAST = re.compile(r"[A-Za-z0-9](?=[^A-Za-z0-9]*\Z)")
DIGIT = re.compile(r"\d")
PATIENCE = 10  # seconds for what is waited for at a terminal, since something else is shown
FIRST = 20  # number of a page that is changed
NUMBER = re.compile(r"(?<![\w#/.-])\d+(?![\w/])")


def another(character: str) -> str:
    """Another letter or digit."""
    return chr(ord(character) - 1) if character in "9zZ" else chr(ord(character) + 1)


def with_last(text: str) -> str:
    """A text whose last letter or digit is another one."""
    return LAST.sub(lambda it: another(it[0]), text)


def with_digits(text: str) -> str:
    """A text whose digits are others."""
    return DIGIT.sub(lambda it: str((int(it[0]) + 1) % 10), text)


def with_numbers(text: str) -> str:
    """A text whose numbers are greater by one."""
    return NUMBER.sub(lambda it: str(int(it[0]) + (int(it[0]) >= FIRST)).zfill(len(it[0])), text)


def with_order(text: str) -> str:
    """A text whose last two lines are exchanged."""
    *others, before, last = ["", "", *text.splitlines(keepends=True)]
    return "".join((*others, last, before))


OF_OUTPUT: dict[str, Callable[[str], str]] = {
    "output": with_last, "before": "\n{}".format, "behind": "{}\n".format, "case": str.swapcase, "order": with_order,
    "digits": with_digits,
}


def on_either(change: Callable[[str], str], text: Any) -> Any:
    """What a change of texts makes of a text or of bytes; nothing stays nothing."""
    if isinstance(text, bytes):
        return change(text.decode("latin-1")).encode("latin-1")
    return change(text) if text else text


def changed(way: str, ended: subprocess.CompletedProcess[Any]) -> subprocess.CompletedProcess[Any]:
    """What is seen of a program that answers wrong in this way."""
    if way in OF_OUTPUT:
        ended.stdout = on_either(OF_OUTPUT[way], ended.stdout)
    elif way == "errors":
        ended.stderr = on_either(with_last, ended.stderr)
    elif way == "status":
        ended.returncode += 1
    elif way == "signal":
        ended.returncode = -ended.returncode
    return ended


def running(way: str) -> Callable[..., subprocess.CompletedProcess[Any]]:
    """What stands in place of `subprocess.run`."""
    plain = subprocess.run

    def run(words: Any, *more: Any, **options: Any) -> subprocess.CompletedProcess[Any]:
        ended = plain(words, *more, **options)
        named = Path(str(words[0])).name if isinstance(words, (list, tuple)) else str(words)
        return ended if options.get("check") or named in TOOLS else changed(way, ended)

    return run


def showing() -> Callable[..., bytes]:
    """What stands in place of `Pseudoterminal.until`: it waits for the same, and other letters and digits were shown."""
    plain = terminals.Pseudoterminal.until

    def until(terminal: terminals.Pseudoterminal, text: bytes) -> bytes:
        shown = plain(terminal, text).decode("latin-1")
        return "".join(another(it) if it.isascii() and it.isalnum() else it for it in shown).encode("latin-1")

    return until


def reading() -> Callable[..., str]:
    """What stands in place of `Path.read_text`: the numbers of pages are others."""
    plain = Path.read_text

    def read_text(file: Path, *more: Any, **options: Any) -> str:
        text = plain(file, *more, **options)
        return with_numbers(text) if file.suffix in OF_PAGES and TOP in file.resolve().parents else text

    return read_text


def no_canaries(_: object) -> Iterator[str]:
    """The canaries that are missed: none are looked at."""
    yield from ()


def main(way: str, script: str, words: list[str]) -> None:
    """Makes the trials of a script."""
    sys.argv = [script, *words]
    sys.path.insert(0, str(Path(script).resolve().parent))
    with mock.patch.object(trials, "missed_canaries", no_canaries), mock.patch.object(subprocess, "run", running(way)):
        if way == "shown":
            with mock.patch.object(terminals.Pseudoterminal, "until", showing()), mock.patch.object(terminals, "SECONDS", PATIENCE):
                runpy.run_path(script, run_name="__main__")
        elif way == "pages":
            with mock.patch.object(Path, "read_text", reading()):
                runpy.run_path(script, run_name="__main__")
        else:
            runpy.run_path(script, run_name="__main__")


if __name__ == "__main__":
    main(sys.argv[1], sys.argv[2], sys.argv[3:])
