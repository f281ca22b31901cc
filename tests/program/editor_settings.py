"""Trials of what vim, neovim and Emacs make of a deck by the files of editors/: settings that come and go, and cards in small letters."""
from __future__ import annotations

import json
import os
import shutil
import subprocess
import tempfile
from collections.abc import Iterator
from pathlib import Path

from trials import Trial

EDITORS = Path(__file__).resolve().parents[2] / "editors"
SECONDS = 120  # for an editor, on a machine that is busy
CARDS = ("LOOP   IF (A,EH,.)(B,E,17) THEN STOP", "       (B,EO,17)(A B,PH)(PL) DONE", "$INPUT")
OPTIONS = ("commentstring", "comments", "expandtab", "shiftwidth", "softtabstop", "wrap", "colorcolumn", "makeprg", "errorformat")
# What a deck has of these, by what a card is: a comment begins in column 1, a body in column 8, and 72 columns count.
OF_DECKS = {"commentstring": "* %s", "comments": "b:*", "expandtab": "1", "shiftwidth": "7", "softtabstop": "7", "wrap": "0", "colorcolumn": "73"}
VIM = r"""
set nocompatible
let &runtimepath = '{editors}/vim,' . &runtimepath
filetype plugin on
syntax on
let g:options = {options}
function! Values()
  return map(copy(g:options), 'string(eval("&" . v:val))')
endfunction
let g:plain = Values()
edit {deck}
let g:own = Values()
setlocal shiftwidth=3
runtime! ftplugin/l6.vim
let g:kept = &l:shiftwidth
let g:kinds = map(range(1, line('$')), 'map(range(1, col([v:val, "$"]) - 1), "synIDattr(synID(" . v:val . ", v:val, 1), ''name'')")')
execute b:undo_ftplugin
let g:after = Values()
call writefile([json_encode([g:plain, g:own, g:kept, g:kinds, g:after])], '{said}')
quitall!
"""
NEOVIM = """
local begun, attached, said = 0, {{}}, {{}}
vim.lsp.start_client = function() begun = begun + 1; return 5 end
vim.lsp.buf_attach_client = function(buffer, client) table.insert(attached, client) end
print = function(text) table.insert(said, text) end
vim.cmd("luafile {editors}/neovim/l6.lua")
vim.cmd("edit {deck}")
vim.cmd("edit {deck}.deck")
vim.cmd("L6Watch A")
vim.fn.writefile({{ begun .. " " .. table.concat(attached, " "), table.concat(said, " ") }}, "{said}")
vim.cmd("qall!")
"""
EMACS = """
(load "{editors}/emacs/l6-mode.el")
(find-file "{deck}")
(font-lock-ensure)
(let ((faces nil))
  (goto-char (point-min))
  (while (not (eobp))
    (push (format "%s" (get-text-property (point) 'face)) faces)
    (forward-char))
  (princ (mapconcat #'identity (reverse faces) "\\n")))
"""


def started(folder: Path, words: list[str]) -> str:
    """What an editor writes to a file of a folder, or to standard output."""
    said = folder / "said"
    said.unlink(missing_ok=True)
    known = {**os.environ, "HOME": str(folder), "TERM": "dumb"}
    ran = subprocess.run(words, stdin=subprocess.DEVNULL, capture_output=True, text=True, timeout=SECONDS, env=known)
    return said.read_text("utf-8") if said.is_file() else ran.stdout


def in_vim(folder: Path, cards: tuple[str, ...]) -> str:
    """What vim says of a deck."""
    deck, script = folder / "own.deck", folder / "script.vim"
    deck.write_text("".join(f"{it}\n" for it in cards), "ascii")
    script.write_text(VIM.format(editors=EDITORS, options=list(OPTIONS), deck=deck, said=folder / "said"), "utf-8")
    return started(folder, ["vim", "-es", "-u", "NONE", "-i", "NONE", "-n", "-S", str(script)])


def vim_settings(folder: Path) -> Iterator[Trial]:
    """What vim sets for a deck, and sets back; and the colours of cards in small letters."""
    plain, own, kept, kinds, after = json.loads(in_vim(folder, CARDS))
    values = {name: value.strip("'") for name, value in zip(OPTIONS, own) if name in OF_DECKS}
    yield "settings: of a deck in vim", OF_DECKS, values
    yield "settings: which vim leaves as they were", [], [name for name, was, value in zip(OPTIONS, plain, own) if was == value]
    yield "settings: set once in vim", 3, kept
    yield "settings: after a deck in vim", dict(zip(OPTIONS, plain)), dict(zip(OPTIONS, after))
    small = json.loads(in_vim(folder, tuple(it.lower() for it in CARDS)))[3]
    shown = {kind for line in kinds for kind in line}
    yield "settings: kinds of text in vim", True, shown >= {"l6Label", "l6Word", "l6Exit", "l6Operation", "l6Octal", "l6Number", "l6Text", "l6Separator"}
    yield "settings: small letters in vim", kinds, small


def neovim_settings(folder: Path) -> Iterator[Trial]:
    """Two decks have one server in neovim, and of a run that is not there something is said."""
    deck, script = folder / "own.deck", folder / "script.lua"
    script.write_text(NEOVIM.format(editors=EDITORS, deck=deck, said=folder / "said"), "utf-8")
    said = started(folder, ["nvim", "--headless", "-u", "NONE", "-i", "NONE", "-n", "-c", f"luafile {script}"])
    yield "settings: the server of two decks in neovim", "1 5 5\nno run is debugged\n", said


def emacs_settings(folder: Path) -> Iterator[Trial]:
    """The faces of cards in small letters in Emacs."""
    deck, script = folder / "own.deck", folder / "script.el"
    script.write_text(EMACS.format(editors=EDITORS, deck=deck), "utf-8")
    faces: list[list[str]] = []
    for cards in (CARDS, tuple(it.lower() for it in CARDS)):
        deck.write_text("".join(f"{it}\n" for it in cards), "ascii")
        faces.append(started(folder, ["emacs", "-Q", "--batch", "-l", str(script)]).splitlines())
    yield "settings: kinds of text in Emacs", True, len({*faces[0]}) >= 5 and len(faces[0]) == sum(len(it) + 1 for it in CARDS)
    yield "settings: small letters in Emacs", faces[0], faces[1]


def settings_trials() -> Iterator[Trial]:
    """Those of the editors that are installed."""
    for name, trials in (("vim", vim_settings), ("nvim", neovim_settings), ("emacs", emacs_settings)):
        if not shutil.which(name):
            print(f"skipped: settings of {name}: it is missing")
            continue
        with tempfile.TemporaryDirectory(prefix="l6-settings-") as folder:
            yield from trials(Path(folder))
