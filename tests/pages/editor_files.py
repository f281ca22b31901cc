"""The files of editors/ and the lines of settings in the pages: columns, keys, and what takes findings apart.

Patterns for findings are tried on what `l6 check` says, as an editor would use them: those of VS Code here, that of Vim
in neovim, where it is installed.
"""
from __future__ import annotations

import json
import os
import re
import shutil
import subprocess
import tempfile
from collections.abc import Iterator
from pathlib import Path

from answers import answer_of
from editor_colours import colours
from model import cards, groups, programs
from page_tables import TOP, plain, spans_of, tables_of, text_of
from trials import Trial

COMMANDS, PAGE = "docs/command-line.md", "docs/editors.md"
VIM, NEOVIM = "editors/vim/ftplugin/l6.vim", "editors/neovim/l6.lua"
BODY = groups.LABEL_LIMIT + 1  # columns before the body of a card with the longest label and a blank
# Numbers of the files: a file, a pattern whose group is the number, and the number.
NUMBERS = (
    (VIM, r"setlocal colorcolumn=(\d+)", cards.COLUMNS + 1),
    (VIM, r"column (\d+) is the last", cards.COLUMNS),
    (VIM, r"shiftwidth=(\d+)", BODY),
    (VIM, r"softtabstop=(\d+)", BODY),
    ("editors/vim/syntax/l6.vim", r"\\%>(\d+)v", cards.COLUMNS),
    ("editors/vim/syntax/l6.vim", r"l6Label /\^\\a\\w\\\{0,(\d+)\}", groups.LABEL_LIMIT - 1),
    ("editors/emacs/l6-mode.el", r'"\^\.\\\\\{(\d+)\\\\\}', cards.COLUMNS),
    ("editors/emacs/l6-mode.el", r"\[A-Za-z0-9\]\\\\\{0,(\d+)\\\\\}\\\\_>", groups.LABEL_LIMIT - 1),
    ("editors/emacs/l6-mode.el", r"indent-line-to (\d+)\)", BODY),
    ("editors/emacs/l6-mode.el", r"move-to-column (\d+) ", BODY),
    ("editors/emacs/l6-mode.el", r"into column (\d+)\.", BODY + 1),
    ("editors/vscode/package.json", r'"editor.rulers": \[(\d+)\]', cards.COLUMNS),
    ("editors/vscode/package.json", r'"editor.tabSize": (\d+)', BODY),
    ("editors/vscode/syntaxes/l6.tmLanguage.json", r"\^\.\{(\d+)\}", cards.COLUMNS),
    ("editors/vscode/syntaxes/l6.tmLanguage.json", r"\[A-Za-z0-9\]\{0,(\d+)\}", groups.LABEL_LIMIT - 1),
    ("editors/kate/l6.xml", r'attribute="Ignored" context="#stay" String=".\+\$" column="(\d+)"', cards.COLUMNS),
    ("editors/kate/l6.xml", r"\[A-Z0-9\]\{0,(\d+)\}", groups.LABEL_LIMIT - 1),
    (PAGE, r"leads to column (\d+)", BODY + 1),
    (PAGE, r"mark at column (\d+)", cards.COLUMNS + 1),
    (PAGE, r"a ruler at column (\d+)", cards.COLUMNS),
)
KEYS = {  # what the page says that a key does, and the call of neovim
    "goes to the definition": "definition", "lists its uses": "references", "says what is under the cursor": "hover",
    "renames": "rename", "offers a fix": "code_action",
}
# A deck with an error, and a warning; and where each is, by hand.
DECK = f" (A,ZZ,5)\nLOOP (A,PD){' ' * 72}X\n"
FOUND = [(1, 5, "error"), (2, 84, "warning")]
QUICKFIX = r"""
vim.cmd("set rtp^=%(top)s/editors/vim")
vim.cmd("filetype plugin on")
vim.cmd("edit " .. vim.fn.fnameescape([[%(deck)s]]))
%(further)s
vim.cmd("%(command)s")
for _, it in ipairs(vim.fn.getqflist()) do
  if it.valid == 1 then print(string.format("%%d:%%d:%%s:%%s", it.lnum, it.col, it.type, vim.fn.bufname(it.bufnr))) end
end
vim.cmd("qall!")
"""
# Whether keys are those of a deck, and of another text that is opened after it.
MAPPED = r"""
vim.cmd("luafile %(top)s/editors/neovim/l6.lua")
vim.cmd("edit %(deck)s")
for _, key in ipairs({ %(keys)s }) do print(key .. " deck " .. tostring(vim.fn.maparg(key, "n") ~= "") .. "\n") end
vim.cmd("edit %(deck)s.txt")
for _, key in ipairs({ %(keys)s }) do print(key .. " text " .. tostring(vim.fn.maparg(key, "n") ~= "") .. "\n") end
vim.cmd("qall!")
"""
MAPS = ("gd", "gr", "K", "<F2>", "<F4>")
# A session of nvim-dap that watches the first of two chains, and not the second.
WATCHING = r"""
local asked
package.loaded.dap = { adapters = {}, configurations = {}, session = function()
  return { request = function(_, what, given, answer)
    asked = { what, given.breakpoints[1].dataId, given.breakpoints[2].dataId }
    answer(nil, { breakpoints = { { verified = true }, { verified = false } } })
  end }
end }
vim.cmd("luafile %(top)s/editors/neovim/l6.lua")
vim.cmd("L6Watch MV LN")
print("\n" .. table.concat(asked, " ") .. "\n")
vim.cmd("qall!")
"""
# Where each file lists the words that are no groups: conditions, THEN, and the exits that are no labels.
WORDS = {
    "editors/kate/l6.xml": r"<item>(\w+)</item>", "editors/vim/syntax/l6.vim": r"^syntax keyword l6(?:Word|Exit) (.*)$",
    "editors/emacs/l6-mode.el": r"\((IF\b.*\bFAIL)\b", "editors/vscode/syntaxes/l6.tmLanguage.json": r"\((IF\b.*\bFAIL)\b",
}


def numbers() -> Iterator[Trial]:
    """The columns of cards and the lengths of labels."""
    for file, pattern, number in NUMBERS:
        yield f"{file}: {pattern}", {str(number)}, set(re.findall(pattern, text_of(file)))


def keys() -> Iterator[Trial]:
    """The keys that the page names are those that the file for neovim sets."""
    table = re.search(r"local keys = \{(.*)\}", text_of(NEOVIM))
    pairs = re.findall(r'(?:\["<(\w+)>"\]|(\w+)) = "(\w+)"', table[1] if table else "")
    told = plain(text_of(PAGE)).partition("Open a deck.")[2].partition("While one types")[0]
    said = re.findall(r"(\w+) ((?:goes to|lists|says|renames|offers)[^,.]*)", told)
    calls = {key: next((KEYS[words] for words in KEYS if what.startswith(words)), what) for key, what in said}
    yield f"the keys of {PAGE}", {special or key: call for special, key, call in pairs}, calls


def matchers() -> Iterator[tuple[str, dict[str, object]]]:
    """The patterns for findings of VS Code, and where they are."""
    package = json.loads(text_of("editors/vscode/package.json"))
    yield "editors/vscode/package.json", package["contributes"]["problemMatchers"][0]["pattern"]
    settings = re.findall(r"^```json\n(.*?)^```$", text_of(COMMANDS), re.DOTALL | re.MULTILINE)
    yield COMMANDS, json.loads(settings[0])["tasks"][0]["problemMatcher"]["pattern"]


def findings(program: str) -> Iterator[Trial]:
    """Each pattern takes each finding apart."""
    with tempfile.TemporaryDirectory() as folder:
        deck, listed = Path(folder, "a deck.deck"), Path(folder, "findings")
        deck.write_text(DECK, "ascii")
        listed.write_bytes(answer_of([program, "check", "--name", str(deck)], input=DECK.encode()).stdout)
        for where, pattern in matchers():
            found = [re.match(str(pattern["regexp"]), line) for line in listed.read_text("utf-8").splitlines()]
            parts = [[it[int(str(pattern[name]))] for name in ("file", "line", "column", "severity")] for it in found if it]
            yield f"findings by {where}", [[str(deck), str(line), str(column), kind] for line, column, kind in FOUND], parts
        if not shutil.which("nvim"):
            print("skipped: findings in neovim: it is missing")
            return
        lines = re.findall(r"^```vim\n(.*?)^```$", text_of(COMMANDS), re.DOTALL | re.MULTILINE)
        for where, further in ((VIM, ""), (COMMANDS, f"vim.cmd([[{lines[0]}]])")):
            expected = [f"{line}:{column}:{kind[0]}:{deck}" for line, column, kind in FOUND]
            yield f"findings by {where}, in neovim", expected, quickfix(deck, f"cgetfile {listed}", further)


def words_of_cards() -> Iterator[Trial]:
    """The words that each editor colours are all that there are."""
    words = {*(it.name for it in programs.Condition), "THEN", *(it.name for it in programs.Exit)} - {"NONE", "LABEL"}
    for file, pattern in WORDS.items():
        listed = " ".join(re.findall(pattern, text_of(file), re.MULTILINE))
        yield f"the words in {file}", sorted(words), sorted(re.findall(r"[A-Z]+", listed))


def watched_in_neovim() -> Iterator[Trial]:
    """`:L6Watch` asks that chains are watched, and names those that are not."""
    if not shutil.which("nvim"):
        print("skipped: chains that are watched in neovim: it is missing")
        return
    with tempfile.TemporaryDirectory() as folder:
        script = Path(folder, "script.lua")
        script.write_text(WATCHING % {"top": TOP}, "utf-8")
        words = ["nvim", "--headless", "-u", "NONE", "-i", "NONE", "-n", "-c", f"luafile {script}"]
        ran = subprocess.run(words, capture_output=True, text=True, timeout=120, env={**os.environ, "HOME": folder})
        said = [line.strip() for line in (ran.stdout + ran.stderr).splitlines() if line.strip()]
        yield "chains that are watched in neovim", ["not watched: LN", "setDataBreakpoints MV LN"], said


def quickfix(deck: Path, command: str, further: str = "") -> list[str]:
    """What neovim finds in a deck by a command, after further settings."""
    script = deck.with_name("script.lua")
    script.write_text(QUICKFIX % {"top": TOP, "deck": deck, "further": further, "command": command}, "utf-8")
    words = ["nvim", "--headless", "-u", "NONE", "-i", "NONE", "-n", "-c", f"luafile {script}"]
    known = {**os.environ, "HOME": str(deck.parent), "PATH": f"{deck.parent}:{os.environ['PATH']}"}
    ran = subprocess.run(words, capture_output=True, text=True, timeout=120, env=known)
    return [it for it in (ran.stdout + ran.stderr).splitlines() if re.match(r"\d+:\d+:", it)]


def made_by_an_editor(program: str) -> Iterator[Trial]:
    """`:make` checks the deck that is edited, whatever its name is, and finds what is wrong with it."""
    if not shutil.which("nvim"):
        print("skipped: :make in neovim: it is missing")
        return
    for name in ("plain.deck", "a deck's & 100%.deck"):
        with tempfile.TemporaryDirectory() as folder:
            deck = Path(folder, name)
            deck.write_text(DECK, "ascii")
            deck.with_name("l6").symlink_to(Path(program).resolve())
            expected = [f"{line}:{column}:{kind[0]}:{deck}" for line, column, kind in FOUND]
            yield f"what :make finds in {name}", expected, quickfix(deck, "silent make!")


def keys_of_decks_alone() -> Iterator[Trial]:
    """The keys of the file for neovim are those of decks, and other texts keep theirs."""
    if not shutil.which("nvim"):
        print("skipped: keys in neovim: it is missing")
        return
    with tempfile.TemporaryDirectory() as folder:
        deck, script, server = (Path(folder, name) for name in ("a.deck", "script.lua", "l6ed"))
        deck.write_text(DECK, "ascii")
        server.write_text("#!/bin/sh\nexec cat > /dev/null\n", "ascii")  # (a server that answers nothing)
        server.chmod(0o755)
        script.write_text(MAPPED % {"top": TOP, "deck": deck, "keys": ", ".join(f'"{it}"' for it in MAPS)}, "utf-8")
        words = ["nvim", "--headless", "-u", "NONE", "-i", "NONE", "-n", "-c", f"luafile {script}"]
        known = {**os.environ, "HOME": folder, "PATH": f"{folder}:{os.environ['PATH']}"}
        ran = subprocess.run(words, capture_output=True, text=True, timeout=120, env=known)
        expected = [f"{key} {where}" for key in MAPS for where in ("deck true", "text false")]
        found = re.findall(r"\S+ (?:deck|text) \w+", ran.stdout + ran.stderr)
        yield "the keys of decks in neovim", sorted(expected), sorted(found)


def launched_in_emacs() -> Iterator[Trial]:
    """The deck that is run from Emacs is the one of the configuration, or else that of the buffer."""
    if not shutil.which("emacs"):
        print("skipped: launches in Emacs: it is missing")
        return
    said = []
    for words in ("'(:type \"l6\" :program \"other.deck\")", "'(:type \"l6\")"):
        asked = f'(progn (setq buffer-file-name "own.deck") (princ (l6-debug-provider (copy-sequence {words}))))'
        ran = subprocess.run(["emacs", "-Q", "--batch", "-l", TOP / "editors/emacs/l6-mode.el", "--eval", asked],
                             capture_output=True, text=True, timeout=120)
        said += re.findall(r":program (\S+?)[ )]", ran.stdout) or [ran.stdout + ran.stderr]
    yield "the decks that are launched in Emacs", ["other.deck", "own.deck"], said


def commands_of_emacs() -> Iterator[Trial]:
    """The commands in the page's table are those of the file for Emacs, and each does something of its own."""
    text = text_of("editors/emacs/l6-mode.el")
    known = set(re.findall(r"^\(defun (l6-[\w-]+) \([^()]*\)\n +\"[^\"]*\"\n +\(interactive", text, re.MULTILINE))
    rows = (row for table in tables_of(text_of(PAGE)) for row in table.rows)
    told = {name for row in rows for name in spans_of(row[0]) if re.fullmatch(r"l6-[a-z-]+", name)}
    yield "the commands of Emacs", known - {"l6-indent-line"}, told


def vscode() -> Iterator[Trial]:
    """In VS Code decks have what each kind of contribution needs: breakpoints, a debugger, colours and settings."""
    package = json.loads(text_of("editors/vscode/package.json"))
    its = package["contributes"]
    languages = [it["id"] for it in its["languages"]]
    yield "languages with breakpoints in VS Code", languages, [it["language"] for it in its.get("breakpoints", [])]
    yield "languages with a debugger in VS Code", [languages], [it.get("languages") for it in its.get("debuggers", [])]
    yield "languages with colours in VS Code", languages, [it["language"] for it in its.get("grammars", [])]
    beside = TOP / "editors/vscode"
    named = [it["configuration"] for it in its["languages"]] + [it["path"] for it in its["grammars"]] + [it["program"] for it in its["debuggers"]]
    yield "files that VS Code does not find", [], [it for it in named if not (beside / it).is_file()]
    grammar = json.loads(text_of("editors/vscode/syntaxes/l6.tmLanguage.json"))
    yield "the grammar in VS Code", [grammar["scopeName"]], [it["scopeName"] for it in its["grammars"]]
    yield "what decks are in VS Code", [[".deck"]], [it["extensions"] for it in its["languages"]]
    settings = its["configurationDefaults"][f"[{languages[0]}]"]
    yield "blanks in VS Code", (True, False), (settings["editor.insertSpaces"], settings["editor.detectIndentation"])
    debugger = its["debuggers"][0]
    launch = debugger["configurationAttributes"]["launch"]
    yield "how a run begins in VS Code", [(debugger["type"], "launch", "${file}", True)], [
        (it["type"], it["request"], it["program"], it["stopOnEntry"]) for it in debugger["initialConfigurations"]]
    yield "the deck that is run from VS Code if none is named", "${file}", launch["properties"]["program"].get("default")
    row = next(row for table in tables_of(text_of(PAGE)) for row in table.rows if row[0] == "launches a deck")
    options = {it for it in spans_of(row[1]) if it.isalpha()} - {"noDebug"}
    yield "what a run is given in VS Code", (["program"], options), (launch["required"], {*launch["properties"]})


def words_and_task_of_vscode(program: str) -> Iterator[Trial]:
    """What is a word for VS Code, the task that checks a deck, and the script that runs the adapter."""
    language = json.loads(text_of("editors/vscode/language-configuration.json"))
    found = re.findall(language["wordPattern"], "NEXT   (A,EO,17)(XN2,P,B) DONE")
    yield "words in VS Code", ["NEXT", "A", "EO", "17", "XN2", "P", "B", "DONE"], found
    yield "brackets in VS Code", [[["(", ")"]]] * 3, [language[it] for it in ("brackets", "autoClosingPairs", "surroundingPairs")]
    task = json.loads(text_of("editors/vscode/tasks.json"))["tasks"][0]
    matchers = json.loads(text_of("editors/vscode/package.json"))["contributes"]["problemMatchers"]
    yield "the task in VS Code", (["$" + it["name"] for it in matchers], {"kind": "build", "isDefault": True}, True), (
        [task["problemMatcher"]], task["group"], f"the task *{task['label']}*" in plain(text_of(PAGE)))
    with tempfile.TemporaryDirectory(prefix="l6-vscode-") as folder:
        deck = Path(folder, "a deck.deck")
        deck.write_text(" (A,E,5\n", "ascii")
        for name, text in (("l6", f'#!/bin/sh\nexec "{program}" "$@"\n'), ("l6ed", '#!/bin/sh\necho l6ed "$@"\n')):
            Path(folder, name).write_text(text, "ascii")
            Path(folder, name).chmod(0o755)
        path = {**os.environ, "PATH": f"{folder}:{os.environ['PATH']}"}
        told = [subprocess.run(words, env=path, capture_output=True, text=True).stdout for words in (
            ["sh", "-c", task["command"].replace("${file}", str(deck))], ["sh", str(TOP / "editors/vscode/dap.sh")])]
    yield "what the task in VS Code says", f"{deck}:1:", told[0][:len(f"{deck}:1:")]
    yield "what dap.sh of VS Code runs", "l6ed dap\n", told[1]


def manual_page() -> Iterator[Trial]:
    """The exit statuses that the manual page of l6ed has, and the longest message, 16 MiB."""
    text = text_of("docs/l6ed.1")
    rows = re.findall(r"^\.It (\d+)\n((?:(?!\.(?:It|El)).*\n)*)", text, re.MULTILINE)
    yield "the exit statuses in docs/l6ed.1", {
        "0": "The editor said that it is over, or .Fl -help or .Fl -version was asked for.",
        "1": "The input ended without that.", "4": "What came is no message.",
        "5": "Memory ran out, or standard input or standard output failed.", "64": "The words are wrong.",
    }, {status: " ".join(what.split()) for status, what in rows}
    yield "the longest message in docs/l6ed.1", [str(16 << 20)], re.findall(r"at most (\d+)\.", text)


def editor_files(program: str) -> Iterator[Trial]:
    """All of them."""
    yield from manual_page()
    yield from numbers()
    yield from keys()
    yield from keys_of_decks_alone()
    yield from launched_in_emacs()
    yield from commands_of_emacs()
    yield from vscode()
    yield from words_and_task_of_vscode(program)
    yield from made_by_an_editor(program)
    yield from colours()
    yield from words_of_cards()
    yield from watched_in_neovim()
    yield from findings(program)
