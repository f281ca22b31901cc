"""Words in code spans of the pages: each is a word of the sources, of a deck, or of an example of the same page.

So a word that was mistyped, or whose function is gone, is found. An option in a page is one of a program or of a script.
"""
from __future__ import annotations

import re
from collections.abc import Iterator

from page_tables import TOP, spans_of, text_of
from trials import Trial

BLOCK = re.compile(r"^( *)```.*?^\1```$", re.DOTALL | re.MULTILINE)
WORD = re.compile(r"[A-Za-z_][A-Za-z0-9_]{2,}")
OPTION = re.compile(r"(?<![\w-])--[a-z][\w-]*")
# Folders whose files have the words, with the endings of those that named.py does not read.
MORE = ("library/**/*.h", "library/**/*.rs", "library/**/*.pc", "editors/**/*.*", "examples/*.deck", "examples/*.session", "docs/*.1")
SCRIPTS = ("install", "test", "l6", "l6db", "l6ed", "tools/*", "tests/*/*.py", "web/*", "web/tests/*.py", "ports/*", "library/*.py", "bench/*")
# Words of others: of editors and their packages, of systems, of the toolchain, and of another debugger.
OF_OTHERS = {
    "ALECodeAction", "ALEFindReferences", "ALEHover", "ALERename", "exepath", "askForTargets", "helix", "reverse_continue", "step_into", "toggle_breakpoint",
    "CDLL", "chdir", "getcwd", "graphviz", "sudo", "zshrc", "axioms", "plant", "rattle_env", "rattle_env_at",
}
# Words of decks and names that are made up in a sentence, to say what is meant.
MADE_UP = {
    "B12", "KLNNOOTW", "NXT", "PROCES", "SING", "SUBJECT", "SUBJECTS", "THENLAST", "THENNEXT", "THERE", "XDA", "XNNV", "YTRTC", "module_what_it_breaks",
}
OF_RT = {"--list-axioms", "--test"}  # options of the toolchain


def span_words(pages: list[str], known: frozenset[str], options: str) -> Iterator[Trial]:
    """The words in spans of these pages that are nowhere else, and the options that no program and no script has."""
    files = [file for pattern in MORE for file in TOP.glob(pattern) if file.is_file()]
    everywhere = known | OF_OTHERS | MADE_UP | {it for file in files for it in WORD.findall(file.read_text("utf-8", "replace"))}
    scripts = [file for pattern in SCRIPTS for file in TOP.glob(pattern) if file.is_file()]
    given = {*OPTION.findall(options), *OF_RT, *(it for file in scripts for it in OPTION.findall(file.read_text("utf-8", "replace")))}
    for page in pages:
        text = text_of(page)
        blocks = {it for block in BLOCK.finditer(text) for it in WORD.findall(block[0])}
        spans = {it for span in spans_of(BLOCK.sub("", text)) for it in WORD.findall(span)}
        yield f"{page}: words in spans that are nowhere else", [], sorted(spans - everywhere - blocks)
        named = OPTION.findall(text.replace("Fl -", "--"))
        yield f"{page}: options that nothing has", [], sorted({*named} - given)
