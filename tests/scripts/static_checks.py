#!/usr/bin/env python3
"""Checks scripts without running them, the types of Python's and the shell's, and how sources are set out.

static_checks.py prints what mypy and shellcheck say, and which sources `rt fmt` would set out otherwise, and
last 'N passed, M failed'. Each script and each crate is a trial. If mypy or shellcheck, both Debian's packages,
is not installed, that is said, and a trial of its files is whether Python or the shell can read them. Without
Rattle's toolchain the sources are not looked at.
"""
from __future__ import annotations

import ast
import os
import re
import shutil
import subprocess
import sys
import tempfile
from collections.abc import Iterable, Iterator
from concurrent.futures import ThreadPoolExecutor
from dataclasses import dataclass
from pathlib import Path

sys.path.insert(0, str(Path(__file__).resolve().parents[1] / "harness"))
import idle_code
import said_messages
from kept import kept_folder
from trials import Trial, report

TOP = Path(__file__).resolve().parents[2]
BAD_PYTHON = "def length(text: str) -> int:\n    return text\n"
BAD_SHELL = "#!/bin/sh\nrm $1\n"
BAD_SOURCE = "fn one()->u8{1}\n"
NO_SCRIPTS = {".git", "crates", "dist", "docs", "examples"}  # folders
MADE = {"out", "__pycache__"}  # folders of what is made
CODE = ("*.rt", "*.antt", "*.py", "*.js", "*.mjs", "*.c", "*.sh")
LONG, LONGEST, ONE_IN = 400, 600, 20  # lines of a file, and of how many files one may be long
DECLARED = re.compile(r"^(?:pub |abbrev )*([a-z][\w'+-]*) :(?!:)", re.MULTILINE)  # names that a file declares
CLEAN = ""  # what is said of a file without a fault


@dataclass(frozen=True)
class Group:
    """Scripts of Python that import each other by their names alone."""

    folders: tuple[str, ...]  # whose modules they import
    files: tuple[Path, ...]
    flags: tuple[str, ...] = ("--strict",)


def python_groups() -> list[Group]:
    """All scripts of Python. Those of web/tests have answers of a browser, which are of any type."""
    folders = (*(f"tests/{folder.name}" for folder in sorted(TOP.glob("tests/*/"))), "tools", "tools/drawing")
    shared = tuple(sorted([*TOP.glob("tests/**/*.py"), *TOP.glob("tools/**/*.py")]))
    bench = tuple(TOP / "bench" / name for name in ("run", "checked.py", "editing.py", "measure.py", "placing.py", "workloads.py"))
    groups = [
        Group(folders, shared),
        Group(("bench", *folders), bench),
        Group(("web/tests", *folders), tuple(sorted(TOP.glob("web/tests/*.py"))), ()),
        Group(("library/python",), tuple(sorted(TOP.glob("library/python/*.py")))),
    ]
    known = {file for group in groups for file in group.files}
    others = [file for file in scripts() if first_line(file).endswith(" python3") and file not in known]
    return [*groups, *(Group(("tools", str(file.parent.relative_to(TOP))), (file,)) for file in others)]


def shell_scripts() -> list[Path]:
    """All scripts of the shell, by their first lines; those that are sourced have no such line."""
    files = [it for it in scripts() if first_line(it).endswith(("/sh", " bash"))]
    return [*files, *sorted(TOP.glob("tools/*.sh"))]


def scripts() -> Iterator[Path]:
    """All files that may be run."""
    folders = [it for it in TOP.iterdir() if it.is_dir() and it.name not in NO_SCRIPTS]
    files = [it for it in TOP.iterdir() if it.is_file()]
    for folder in folders:
        files += [it for it in folder.rglob("*") if it.is_file() and MADE.isdisjoint(it.parts)]
    yield from (file for file in sorted(files) if first_line(file).startswith("#!"))


def first_line(file: Path) -> str:
    """The first line of a file."""
    with open(file, "rb") as opened:
        return opened.readline().decode("utf-8", "replace").rstrip("\n")


def said_by_mypy(group: Group) -> dict[Path, str]:
    """What mypy says of each file of a group."""
    path = ":".join(str(TOP / folder) for folder in group.folders)
    # (what was read before is kept, so that the next time takes a second)
    kept = kept_folder(f"mypy-{group.files[0].stem}")
    cache = kept if kept else Path(os.devnull)
    ended = subprocess.run(
        [
            "mypy",
            *group.flags,
            "--cache-dir",
            cache,
            "--scripts-are-modules",
            "--no-error-summary",
            *group.files,
        ],
        env={**os.environ, "MYPYPATH": path},
        capture_output=True,
        text=True,
        cwd=TOP,
    )
    said = dict.fromkeys(group.files, CLEAN)
    for line in (ended.stdout + ended.stderr).splitlines():
        file = TOP / line.partition(":")[0]
        said[file] = said.get(file, "") + line + "\n"
    if ended.returncode and not any(said.values()):
        said[group.files[0]] = f"mypy ended with status {ended.returncode}\n"
    return said


def said_by_shellcheck(file: Path) -> str:
    """What shellcheck says of a file."""
    ended = subprocess.run(["shellcheck", "-x", file], capture_output=True, text=True, cwd=TOP)
    return ended.stdout + ended.stderr


def said_by_python(file: Path) -> str:
    """What Python says of a file that it reads and does not run."""
    try:
        compile(file.read_bytes(), str(file), "exec")
    except SyntaxError as error:
        return str(error)
    return CLEAN


def said_by_shell(file: Path) -> str:
    """What the shell says of a file that it reads and does not run."""
    shell = "bash" if "bash" in first_line(file) else "sh"
    return subprocess.run([shell, "-n", file], capture_output=True, text=True).stderr


def said_by_formatter(crate: Path) -> str:
    """What `rt fmt` says of a crate's sources, which it would change: it runs on a copy of them."""
    with tempfile.TemporaryDirectory() as room:
        copy = Path(room, "crates", crate.name)
        for part in ("src", "specs", "proofs"):
            if (crate / part).is_dir():
                shutil.copytree(crate / part, copy / part)
        Path(room, "crates.txt").write_text(f"{crate.name}:\n")
        ended = subprocess.run(["rt", "fmt"], capture_output=True, text=True, cwd=copy)
    return ended.stdout + ended.stderr


def lengths() -> Iterator[Trial]:
    """No file of code is too long, and few are long."""
    ran = subprocess.run(["git", "ls-files", *CODE], cwd=TOP, capture_output=True, text=True)
    files = [TOP / name for name in ran.stdout.splitlines() if (TOP / name).is_file()] or code_files()
    files = [it for it in files if it.relative_to(TOP).parts[0] != "dist"]
    counts = {str(file.relative_to(TOP)): file.read_bytes().count(b"\n") for file in files}
    yield f"files with more than {LONGEST} lines", [], too_long(counts)
    yield f"one file in {ONE_IN} has more than {LONG} lines", True, are_few_long(counts)


def too_long(counts: dict[str, int]) -> list[str]:
    """The files that are too long, of files and how many lines each has."""
    return [name for name, count in counts.items() if count > LONGEST]


def are_few_long(counts: dict[str, int]) -> bool:
    """Whether few of these files are long."""
    return sum(count > LONG for count in counts.values()) * ONE_IN <= len(counts)


def hyphens() -> Iterator[Trial]:
    """Names with a hyphen are those of the prover's goals: lemmas of ours have underscores."""
    for crate in sorted(it.parent for it in TOP.glob("crates/*/proofs")):
        files = [file for part in ("specs", "proofs") for file in crate.glob(f"{part}/**/*.antt")]
        ours = [name for file in files for name in hyphened(file.read_text("utf-8"))]
        yield f"lemmas of {crate.name} with a hyphen", [], ours


def hyphened(text: str) -> list[str]:
    """The names with a hyphen that a file of definitions or proofs declares and that are no goals."""
    names = [it[1] for it in DECLARED.finditer(text)]
    return [name for name in names if "-" in name and not re.search(rf"\bgoal\.{re.escape(name)}(?![\w'-])", text)]


def code_files() -> list[Path]:
    """The files of code, where git is missing."""
    return [file for pattern in CODE for file in TOP.rglob(pattern) if MADE.isdisjoint(file.parts)]


def comparisons() -> Iterator[Trial]:
    """No script compares an expression with itself: neither by == or !=, nor as a trial's two values, nor as a pair's."""
    for file in [it for group in python_groups() for it in group.files]:
        same = [it.lineno for it in ast.walk(ast.parse(file.read_text("utf-8"))) if is_of_itself(it)]
        yield f"comparisons with itself in {file.relative_to(TOP)}, by line", [], same


def is_of_itself(node: ast.AST) -> bool:
    """Whether a comparison, a trial that is yielded, a pair that is returned, or a call of `same` has an expression twice."""
    if isinstance(node, ast.Compare):
        return ast.dump(node.left) == ast.dump(node.comparators[0])
    if isinstance(node, ast.Yield) and isinstance(node.value, ast.Tuple) and len(node.value.elts) == 3:
        _, expected, actual = node.value.elts
    elif isinstance(node, ast.Return) and isinstance(node.value, ast.Tuple) and len(node.value.elts) == 2:
        expected, actual = node.value.elts
        if not isinstance(expected, ast.Call):
            return False
    elif isinstance(node, ast.Call) and isinstance(node.func, ast.Attribute) and node.func.attr == "same":
        if len(node.args) != 3:
            return False
        _, expected, actual = node.args
    else:
        return False
    return ast.dump(expected) == ast.dump(actual)


def is_there(tool: str) -> bool:
    """Whether a tool is there; says if it is not."""
    if shutil.which(tool):
        return True
    print(f"skipped: {tool} is not installed")
    return False


def trials() -> Iterator[Trial]:
    """All trials."""
    for group in python_groups():
        said = said_by_mypy(group) if is_there("mypy") else {it: said_by_python(it) for it in group.files}
        yield from (trial(f"the types of {name_of(file)}", what) for file, what in said.items())
    judge = said_by_shellcheck if is_there("shellcheck") else said_by_shell
    yield from (trial(f"the shell of {name_of(file)}", judge(file)) for file in shell_scripts())
    if is_there("rt"):
        crates = sorted(it.parent for it in TOP.glob("crates/*/src"))
        with ThreadPoolExecutor(os.cpu_count()) as pool:
            yield from map(trial, (f"how {it.name} is set out" for it in crates), pool.map(said_by_formatter, crates))
    known = {file for group in python_groups() for file in group.files} | set(shell_scripts())
    yield "scripts that nothing checks", [], [name_of(it) for it in scripts() if it not in known]
    yield from lengths()
    yield from comparisons()
    yield from idle_code.trials(TOP, list(dict.fromkeys(it for group in python_groups() for it in group.files)))
    yield from hyphens()
    yield from said_messages.trials()


def trial(name: str, said: str) -> Trial:
    """The trial that nothing is said of a file."""
    return name, CLEAN, said


def name_of(file: Path) -> str:
    """The name of a file from the top of the repository on."""
    return str(file.relative_to(TOP)) if file.is_relative_to(TOP) else file.name


def canaries() -> Iterable[Trial]:
    """A file of each kind that must not be clean."""
    with tempfile.TemporaryDirectory() as folder:
        python, shell = Path(folder, "bad.py"), Path(folder, "bad.sh")
        python.write_text(BAD_PYTHON if shutil.which("mypy") else "def")
        shell.write_text(BAD_SHELL if shutil.which("shellcheck") else "if")
        said = said_by_mypy(Group((), (python,)))[python] if shutil.which("mypy") else said_by_python(python)
        yield "a wrong type", CLEAN, said
        judge = said_by_shellcheck if shutil.which("shellcheck") else said_by_shell
        yield "a wrong word of the shell", CLEAN, judge(shell)
        if shutil.which("mypy"):
            python.write_text("def same(text):\n    return text\n")
            yield "a function without types", CLEAN, said_by_mypy(Group((), (python,)))[python]
        yield "a file of 601 lines", [], too_long({"one": 600, "another": 601})
        yield "one long file of 19", True, are_few_long({"long": 401, **{f"short {it}": 400 for it in range(18)}})
        for text in ("a == a", "one(1) != one(1)", "yield 'a', b[0], b[0]", "page.same('a', b, b)", "return one(1), one(1)"):
            kinds = (ast.Compare, ast.Yield, ast.Call, ast.Return)
            node = next(it for it in ast.walk(ast.parse(text)) if isinstance(it, kinds))
            yield f"a comparison with itself: {text}", False, is_of_itself(node)
        yield "a lemma with a hyphen", [], hyphened("pub lines-of : goal.lines\nlines-of c = refl\n")
        if shutil.which("rt"):
            source = Path(folder, "bad", "src", "lib.rt")
            source.parent.mkdir(parents=True)
            source.write_text(BAD_SOURCE)
            yield "a source that is not set out as the others are", CLEAN, said_by_formatter(Path(folder, "bad"))


if __name__ == "__main__":
    sys.exit(report(trials(), canaries()))
