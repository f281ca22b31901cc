#!/usr/bin/env python3
"""Lists the statements of our scripts in Python, and the lines of those of the shell, that steps of ./test do not run.

    python3 tests/harness/python_lines.py STEP..     makes these steps, and lists what they leave out of their scripts
    python3 tests/harness/python_lines.py            the same of all steps but the page, which has lists of its own

Scripts of the shell are those that trials call in small checkouts (checkout.py); bash runs them then.

It is no step: a statement that is left out may be for a failure, which a step that passes does not run.
"""
from __future__ import annotations

import ast
import json
import os
import re
import subprocess
import sys
import tempfile
from collections.abc import Iterator
from pathlib import Path

TOP = Path(__file__).resolve().parents[2]
FOLDERS = ("tests", "tools", "terminal", "bench", "library")
NOT_COUNTED = {"page", "edits", "defects"}  # steps
TRACED = re.compile(r"^\++ line (\S+):(\d+): ", re.MULTILINE)
# Lines of the shell that are no command by themselves: comments, words around commands, patterns, ends of longer commands.
NO_COMMAND = re.compile(
    r"\s*(?:#.*|else|fi|done|esac|then|do|;;|[{}()]+(?: .*)?|(?:\w+\(\)) [({]|.*\) ;;|[^(]*\)|(?:\|\||&&|\|).*|-\w.*|\\\(.*|\".*)?")
QUIET = (ast.FunctionDef, ast.AsyncFunctionDef, ast.ClassDef, ast.Import, ast.ImportFrom, ast.Pass)


def scripts() -> list[Path]:
    """The scripts of Python."""
    files = [file for folder in FOLDERS for file in (TOP / folder).rglob("*") if file.is_file() and "__pycache__" not in file.parts]
    return sorted(file for file in files if file.suffix == ".py" or (not file.suffix and is_python(file)))


def is_python(file: Path) -> bool:
    """Whether a file without an ending is a script of Python."""
    with open(file, "rb") as opened:
        return opened.readline().endswith(b"python3\n")


def statements(file: Path) -> Iterator[tuple[int, int]]:
    """The first and the last line of each statement in a function, of one with statements in it those before them."""
    for function in ast.walk(ast.parse(file.read_text("utf-8"))):
        if not isinstance(function, (ast.FunctionDef, ast.AsyncFunctionDef)):
            continue
        for node in ast.walk(function):
            is_text = isinstance(node, ast.Expr) and isinstance(node.value, ast.Constant)
            if not isinstance(node, ast.stmt) or node is function or isinstance(node, QUIET) or is_text:
                continue
            body = getattr(node, "body", None)
            yield node.lineno, (body[0].lineno - 1 if body else node.end_lineno or node.lineno)


def left_out(folder: Path) -> Iterator[tuple[str, list[int], int]]:
    """Each script of which something was run: its statements that were not, by line, and how many it has."""
    ran: dict[str, set[int]] = {}
    for written in folder.glob("python-*.json"):
        for name, lines in json.loads(written.read_text("utf-8")).items():
            ran.setdefault(name, set()).update(lines)
    for file in scripts():
        name = str(file.relative_to(TOP))
        if name in ran:
            every = set(statements(file))
            missed = [first for first, last in every if ran[name].isdisjoint(range(first, max(first, last) + 1))]
            yield name, sorted(missed), len(every)


def lines_of_shell(folder: Path) -> Iterator[tuple[str, list[int], int]]:
    """Each script of the shell of which something was run: its lines with a command that were not, and how many it has."""
    trace = folder / "shell.trace"
    ran: dict[str, set[int]] = {}
    for name, line in TRACED.findall(trace.read_text("utf-8", "replace") if trace.exists() else ""):
        ran.setdefault(os.path.normpath(name).rpartition("/top/")[2], set()).add(int(line))
    for name, lines in sorted(ran.items()):
        if (TOP / name).is_file():
            text = re.sub(r"<< '?END'?\n.*?^END$", lambda it: "\n" * it[0].count("\n"), (TOP / name).read_text("utf-8"),
                          flags=re.DOTALL | re.MULTILINE)
            every = [number for number, line in enumerate(text.splitlines(), 1) if not NO_COMMAND.fullmatch(line)]
            yield name, [it for it in every if it not in lines], len(every)


def main() -> int:
    """Makes the steps, and lists what they leave out; answers the exit status."""
    listed = subprocess.run(["./test", "--list"], cwd=TOP, capture_output=True, text=True, check=True).stdout.split()
    steps = sys.argv[1:] or [it for it in listed if it not in NOT_COUNTED]
    with tempfile.TemporaryDirectory(prefix="l6-traced-") as room:
        known = {**os.environ, "L6_TRACED": room, "PYTHONPATH": str(TOP / "tests/harness/traced"), "PYTHONDONTWRITEBYTECODE": "1"}
        for step in steps:
            ran = subprocess.run(["./test", "--only", step], cwd=TOP, env=known, capture_output=True, text=True)
            print((ran.stdout.splitlines() or ["no count"])[-1], f"in {step}", flush=True)
        missed = total = 0
        for name, lines, count in (*left_out(Path(room)), *lines_of_shell(Path(room))):
            missed, total = missed + len(lines), total + count
            text = (TOP / name).read_text("utf-8").splitlines()
            for line in lines:
                print(f"  {name}:{line}: {text[line - 1].strip()[:100]}")
    print(f"{missed} of {total} statements are not run, {100 * missed / max(total, 1):.2f} per cent")
    return 0


if __name__ == "__main__":
    sys.exit(main())
