"""What each editor takes the columns of a deck for, with its file of editors/.

A deck's columns have roles, by hand. neovim and Emacs are asked themselves. Kate and VS Code are not at hand: their files are
followed here by the rules that their manuals have for them, as far as these files use them.
"""
from __future__ import annotations

import json
import os
import re
import shutil
import subprocess
import tempfile
from collections.abc import Iterator
from pathlib import Path
from typing import Any
from xml.etree import ElementTree

from page_tables import TOP, canary, text_of
from trials import Trial

KATE, VSCODE, EMACS = "editors/kate/l6.xml", "editors/vscode/syntaxes/l6.tmLanguage.json", "editors/emacs/l6-mode.el"
SMALL_TOO = ' insensitive="true"'  # of a rule that is for small letters, too
CARDS = f"""* A (A,E,5)
LOOP   (A,EO,17)(B,E,17)(HI 5,PH)(PL) IF (A,E,5) THEN DONE{' ' * 14}(A,E,5)
+      (A,PD) FAIL     (0,DP,18,35) (B,A,A)
$INPUT
"""
COLOURED = CARDS + CARDS.lower()
IN_CAPITALS = {  # what stands on a line in a column, by hand
    (1, 1): "Comment", (1, 8): "Comment", (2, 1): "Label", (2, 9): "Group", (2, 11): "Operation", (2, 14): "Octal",
    (2, 22): "Number", (2, 26): "Text", (2, 29): "Text", (2, 31): "Operation", (2, 35): "Operation", (2, 39): "Word",
    (2, 55): "Exit", (2, 73): "Ignored", (2, 77): "Ignored", (3, 1): "Continuation", (3, 11): "Operation", (3, 15): "Exit",
    (3, 25): "Number", (3, 27): "Operation", (3, 33): "Number", (3, 40): "Operation", (3, 42): "Group",
    (4, 1): "Separator",
}
COLOURS = IN_CAPITALS | {(line + CARDS.count("\n"), column): role for (line, column), role in IN_CAPITALS.items()}
# The names of these in VS Code, and in Emacs, which shows numbers and what continues a statement as other text.
SCOPES = {
    "Comment": "comment.line.star.l6", "Label": "entity.name.function.l6", "Group": "meta.group.l6",
    "Operation": "keyword.operator.l6", "Octal": "constant.numeric.octal.l6", "Number": "constant.numeric.l6",
    "Text": "string.unquoted.l6", "Word": "keyword.control.l6", "Exit": "keyword.control.l6",
    "Ignored": "comment.line.past-column-72.l6", "Continuation": "punctuation.separator.continuation.l6",
    "Separator": "keyword.control.directive.l6",
}
FACES = {
    "Comment": "font-lock-comment-face", "Label": "font-lock-function-name-face", "Operation": "font-lock-builtin-face",
    "Text": "font-lock-string-face", "Word": "font-lock-keyword-face", "Exit": "font-lock-keyword-face", "Ignored": "shadow",
    "Separator": "font-lock-preprocessor-face",
}
NEOVIM = r"""
vim.cmd("set rtp^=%(top)s/editors/vim")
vim.cmd("filetype plugin on")
vim.cmd("syntax on")
vim.cmd("edit %(deck)s")
for _, at in ipairs({ %(places)s }) do
  print(vim.fn.synIDattr(vim.fn.synID(at[1], at[2], 1), "name") .. "\n")
end
vim.cmd("qall!")
"""
IN_EMACS = """(progn
  (find-file "%s")
  (font-lock-set-defaults)
  (font-lock-default-fontify-buffer)
  (dolist (at '(%s))
    (goto-char (point-min))
    (forward-line (1- (car at)))
    (forward-char (1- (cdr at)))
    (princ (format "%%s\\n" (get-text-property (point) 'face)))))"""


class Kate:
    """Kate's file: contexts with rules, of which the first that matches at a column counts."""

    def __init__(self, text: str) -> None:
        tree = ElementTree.fromstring(text)
        self.contexts = {it.get("name", ""): it for it in tree.iter("context")}
        self.words = {it.get("name"): {word.text for word in it} for it in tree.iter("list")}
        self.styles = {it.get("name") for it in tree.iter("itemData")}

    def length(self, rule: ElementTree.Element, line: str, at: int) -> int:
        """How many characters a rule takes at a column; 0 if it does not match there."""
        if rule.get("column") not in (None, str(at)):
            return 0
        if rule.tag == "DetectChar":
            return int(line[at] == rule.get("char"))
        flags = re.IGNORECASE if rule.get("insensitive") == "true" else 0
        found = re.compile(r"\b\w+\b" if rule.tag == "keyword" else rule.get("String", ""), flags).match(line, at)
        is_taken = found and (rule.tag != "keyword" or found[0].upper() in self.words[rule.get("String")])
        return len(found[0]) if found and is_taken else 0

    def entered(self, stack: list[str], name: str) -> list[str]:
        """The contexts after a rule, or the end of a line, that leads to a context."""
        pops = name.count("#pop")
        left = stack[:len(stack) - pops]
        return left if pops or name == "#stay" else [*left, name]

    def styles_of(self, line: str) -> list[str]:
        """The style of each column."""
        stack = [next(iter(self.contexts))]
        shown: list[str] = []
        while len(shown) < len(line):
            context = self.contexts[stack[-1]]
            lengths = ((rule, self.length(rule, line, len(shown))) for rule in context)
            rule, length = next(((rule, length) for rule, length in lengths if length), (context, 1))
            shown += [rule.get("attribute", "")] * length
            stack = stack if rule is context else self.entered(stack, rule.get("context", ""))
        return shown


def with_captures(pattern: dict[str, Any], match: re.Match[str], shown: list[str]) -> None:
    """Gives the groups of a match the scopes that a pattern has for them, and for what is in them."""
    for number, its in pattern.get("captures", {}).items():
        start, end = match.span(int(number))
        spans = [(start, end, its["name"])] if "name" in its else [
            (start + it.start(), start + it.end(), inner["name"])
            for inner in its["patterns"] for it in re.finditer(inner["match"], match[int(number)])]
        for first, behind, scope in spans:
            shown[first:behind] = [scope] * (behind - first)


def scopes_of(grammar: dict[str, Any], line: str) -> list[str]:
    """The innermost scope of each column by a grammar of VS Code: the first pattern that matches soonest counts."""
    group: dict[str, Any] = {}
    shown: list[str] = []
    while len(shown) < len(line):
        patterns = [{"name": group["name"], "match": group["end"]}, *group["patterns"]] if group else grammar["patterns"]
        found = [(re.compile(it.get("match") or it["begin"]).search(line, len(shown)), it) for it in patterns]
        matched = [(it.start(), number, it, pattern) for number, (it, pattern) in enumerate(found) if it and it[0]]
        start, number, match, pattern = min(matched, key=lambda it: it[:2], default=(len(line), -1, None, None))
        shown += [group.get("name", "")] * (start - len(shown))
        if match and pattern:
            shown += [pattern.get("name") or group.get("name", "")] * len(match[0])
            with_captures(pattern, match, shown)
            group = {} if group and number == 0 else pattern if "begin" in pattern else group
    return shown


def by_file() -> Iterator[Trial]:
    """What Kate and VS Code take the columns for, by their files."""
    kate, grammar = Kate(text_of(KATE)), json.loads(text_of(VSCODE))
    lines = COLOURED.splitlines()
    styles, scopes = [kate.styles_of(line) for line in lines], [scopes_of(grammar, line) for line in lines]
    for (line, column), role in COLOURS.items():
        expected = "Normal Text" if role == "Group" else role
        yield f"{KATE}: line {line}, column {column}", expected, styles[line - 1][column - 1]
        yield f"{VSCODE}: line {line}, column {column}", SCOPES[role], scopes[line - 1][column - 1]
    named = {it.get("attribute") for context in kate.contexts.values() for it in (context, *context)}
    yield f"the styles of {KATE}", named, kate.styles
    led = {it.get("context", "") for context in kate.contexts.values() for it in context}
    yield f"the contexts of {KATE}", {*kate.contexts} - {"Card"}, {it for it in led if not it.startswith("#")}


def asked(words: list[str | Path], folder: str) -> list[str]:
    """What an editor prints."""
    ran = subprocess.run(words, capture_output=True, text=True, timeout=120, env={**os.environ, "HOME": folder})
    return (ran.stdout + ran.stderr).split()


def by_editors() -> Iterator[Trial]:
    """What neovim and Emacs take the columns for."""
    with tempfile.TemporaryDirectory() as folder:
        deck, script = Path(folder, "a.deck"), Path(folder, "script.lua")
        deck.write_text(COLOURED, "ascii")
        if shutil.which("nvim"):
            places = ", ".join(f"{{{line}, {column}}}" for line, column in COLOURS)
            script.write_text(NEOVIM % {"top": TOP, "deck": deck, "places": places}, "utf-8")
            words = ["nvim", "--headless", "-u", "NONE", "-i", "NONE", "-n", "-c", f"luafile {script}"]
            yield "colours in neovim", [f"l6{role}" for role in COLOURS.values()], asked([*words], folder)
        else:
            print("skipped: colours in neovim: it is missing")
        if shutil.which("emacs"):
            places = " ".join(f"({line} . {column})" for line, column in COLOURS)
            found = asked(["emacs", "-Q", "--batch", "-l", TOP / EMACS, "--eval", IN_EMACS % (deck, places)], folder)
            yield "colours in Emacs", [FACES.get(role, "nil") for role in COLOURS.values()], [
                it if FACES.get(role) else "nil" for role, it in zip(COLOURS.values(), found)]
        else:
            print("skipped: colours in Emacs: it is missing")


def colours() -> Iterator[Trial]:
    """All of them."""
    yield from by_file()
    yield from by_editors()


def capital_canaries() -> Iterator[Trial]:
    """What Kate takes small letters for, where one of its rules is for capitals alone."""
    for line in text_of(KATE).splitlines():
        if SMALL_TOO in line:
            yield canary(KATE, line, line.replace(SMALL_TOO, ""), by_file)
