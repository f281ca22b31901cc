"""Each message of our scripts is seen by a trial: the longest part of it that is no variable stands in the tests.

A message whose text changes in a script alone is then in no test any longer.
"""
from __future__ import annotations

import ast
import re
from collections.abc import Iterator
from pathlib import Path

from trials import Trial

TOP = Path(__file__).resolve().parents[2]
SHELL = ("l6", "l6db", "l6ed", "install", "test", "tools/program.sh", "tools/note.sh", "tools/make_dist", "tools/make_deb",
         "terminal/start.sh", "library/shared")
PYTHON = ("tools/*.py", "terminal/*.py", "library/*.py", "library/python/*.py", "ports/build", "ports/bundle", "ports/libraries")
JAVASCRIPT = ("ports/*.js",)
SAID = re.compile(r"(?<![\w-])(?:complain|fail|echo|printf) +(?:'((?:[^'])*)'|\"((?:[^\"\\]|\\.)*)\")")
VARIABLE = re.compile(r"\$\{[^}]*\}|\$\(\(.*?\)\)|\$\([^)]*\)?|\$\w+|\$[*@#$?!]|\\`|\\n|%[sd]|`|\n")
IN_SCRIPT = re.compile(r"\"((?:l6(?:db|ed)?: |Stopped|Not a )(?:[^\"\\]|\\.)*)\"|`(l6: (?:[^`\\]|\\.)*)`")
SPEAKING = {"print", "exit", "write", "Stop", "SystemExit"}  # calls of Python by which something is said; and errors
SHORT = 8  # letters of a text that could be anywhere
# Messages that no trial can have said, and why.
UNSEEN = {
    "not drawn, since the program dot is not installed": "dot is not called by a test",
    "waiting for another check to finish in": "two checks of one crate at once are tried by their count",
    "Stopped: the session is at the start": "it takes a second Ctrl-C within milliseconds",
    ".antt defines no": "all that the pages ask tools/reached.py for is there",
    "the sources can't be summed": "the sum of the same files was made before, or nothing is",
    "the provenance of": "as that",
    "has no line": "a file of the system",
    "(after: dpkg --add-architecture arm64)": "the packages are there where programs are made",
    "_*; local: *; }": "it is no message, but what the linker exports",
    "was made by": "the text around it is in a trial",
    "tools/make_dist makes it again": "of a module that is not the one of dist/, which the gate alone looks at",
    "prove and build it again (./l6 --help)": "what these sources build is what was built",
}


def longest(text: str) -> str:
    """The longest part of a message that is no variable."""
    return max((part.strip(" :;") for part in VARIABLE.split(text)), key=len)


def of_shell(text: str) -> Iterator[str]:
    """The messages of a script of the shell."""
    for found in SAID.finditer(text):
        yield longest(found[1] or found[2] or "")


def of_python(text: str) -> Iterator[str]:
    """The messages of a script of Python."""
    for node in ast.walk(ast.parse(text)):
        if not isinstance(node, ast.Call):
            continue
        name = node.func.attr if isinstance(node.func, ast.Attribute) else getattr(node.func, "id", "")
        if name in SPEAKING or name.endswith("Error"):
            for word in node.args:
                parts = word.values if isinstance(word, ast.JoinedStr) else [word]
                texts = [it.value for it in parts if isinstance(it, ast.Constant) and isinstance(it.value, str)]
                yield max((longest(it) for it in texts), key=len, default="")


def of_javascript(text: str) -> Iterator[str]:
    """The messages of a script of JavaScript."""
    for found in IN_SCRIPT.finditer(text):
        yield longest(found[1] or found[2])


def messages() -> Iterator[tuple[str, str]]:
    """Each message that is long enough to be known by its text, and its file."""
    for names, reading in ((SHELL, of_shell), (PYTHON, of_python), (JAVASCRIPT, of_javascript)):
        for file in sorted(it for name in names for it in TOP.glob(name)):
            for text in reading(file.read_text("utf-8")):
                if len(text) >= SHORT and " " in text:
                    yield str(file.relative_to(TOP)), text


def texts_of_tests() -> str:
    """What all tests say, without the ends of texts that go on in the next line."""
    files = [*TOP.glob("tests/**/*.py"), *TOP.glob("tests/**/*.jsonl"), *TOP.glob("bench/run")]
    whole = "\n".join(it.read_text("utf-8") for it in sorted(files) if it.name != Path(__file__).name)
    return re.sub(r"[\"']\s*\n?\s*f?b?[\"']", "", whole)


def trials() -> Iterator[Trial]:
    """Each message is in a test, and those that are in none are still there."""
    tests = texts_of_tests()
    known = list(messages())
    for name in dict.fromkeys(file for file, _ in known):
        unseen = [text for file, text in known if file == name and text not in tests and text not in UNSEEN]
        yield f"messages of {name} that no trial has", [], unseen
    yield "messages that are said to be in no trial, and are not there", set(), UNSEEN.keys() - {text for _, text in known}
    yield "a message that is in no test", ["it is not there, and never was"], [
        it for it in of_shell('complain "$1: it is not there, and never was"\n') if it not in tests]
    yield "messages of a script", ["one of two", "and another"], [*of_python('print(f"{1} one of two", file=2)\nraise Stop("and another")\n')]
