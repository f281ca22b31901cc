"""Editors that are driven without a screen, where they are installed."""
from __future__ import annotations

import os
import re
import shutil
import tempfile
from collections.abc import Iterator
from pathlib import Path

from adapter import session_of
from answers import answer, answer_of
from trials import Trial

TOP = Path(__file__).resolve().parents[2]
PAGE = "docs/editors.md"
SECONDS = 120  # for a session of an editor on a machine that is busy
NEOVIM = r"""
local function fail(what) print("FAILED " .. what); vim.cmd("cquit") end
local function wait(what, holds) if not vim.wait(60000, holds, 20) then fail(what) end end
local function same(what, expected, actual) if expected ~= actual then fail(what .. ": " .. tostring(actual)) end end
local function text() return table.concat(vim.api.nvim_buf_get_lines(0, 0, -1, true), "\n") end
local function found() return #vim.diagnostic.get(0) end
local function ask(method, line, column)
  vim.api.nvim_win_set_cursor(0, { line, column })
  local about = vim.lsp.util.make_position_params()
  about.context = { includeDeclaration = true }
  for _, said in pairs(vim.lsp.buf_request_sync(0, "textDocument/" .. method, about, 60000)) do return said.result end
end
same("the kind of the text", "l6", vim.bo.filetype)
wait("a finding", function() return found() == 1 end)
vim.ui.select = function(all, _, choose) choose(all[1]) end
vim.api.nvim_win_set_cursor(0, { 2, 15 })
vim.api.nvim_feedkeys(vim.api.nvim_replace_termcodes("<F4>", true, true, true), "x", false)
wait("a fix", function() return text() == "LOOP   (A,PD)\n       (A,PD) LOOP" end)
wait("nothing after the fix", function() return found() == 0 end)
vim.api.nvim_buf_set_text(0, 1, 14, 1, 18, { "GONE" })
wait("a finding after a change", function() return found() == 1 end)
vim.api.nvim_buf_set_text(0, 1, 14, 1, 18, { "LOOP" })
wait("nothing after a change back", function() return found() == 0 end)
vim.api.nvim_win_set_cursor(0, { 2, 15 })
vim.api.nvim_feedkeys("gd", "x", false)
wait("the definition", function() return vim.api.nvim_win_get_cursor(0)[1] == 1 end)
same("hover", "`(c,PD)`", ask("hover", 2, 9).contents.value:sub(1, 8))
same("references", 2, #ask("references", 1, 0))
same("highlights", 2, #ask("documentHighlight", 2, 15))
same("symbols", "LOOP", ask("documentSymbol", 1, 0)[1].name)
same("completion", "v:lua.vim.lsp.omnifunc", vim.bo.omnifunc)
same("words of operations", true, #ask("completion", 1, 10) > 20)
vim.api.nvim_win_set_cursor(0, { 1, 0 })
vim.lsp.buf.rename("AGAIN")
wait("a rename", function() return text() == "AGAIN   (A,PD)\n       (A,PD) AGAIN" end)
local client = vim.lsp.get_active_clients()[1].id
vim.lsp.stop_client(client)
wait("the end", function() return vim.lsp.client_is_stopped(client) end)
print("OK")
vim.cmd("qall!")
"""
WAITS = r"""
(defun fail (&rest words) (message "FAILED %%s" (apply #'format words)) (kill-emacs 1))
(defun wait (what holds)
  (let ((end (+ (float-time) 60)))
    (while (not (funcall holds))
      (when (> (float-time) end) (fail "%%s" what))
      (accept-process-output nil 0.05))))
(defun same (what expected actual) (unless (equal expected actual) (fail "%%s: %%S" what actual)))
"""
EMACS = WAITS + r"""
(package-initialize)
(unless (locate-library "eglot") (message "NO EGLOT") (kill-emacs 0))
%(emacs)s
(require 'eglot)
(setq eglot-sync-connect t eglot-send-changes-idle-time 0 eglot-confirm-server-initiated-edits nil)
(find-file "%(deck)s")
(run-hooks 'post-command-hook)
(wait "connection" (lambda () (eglot-current-server)))
(defun found () (flymake-start) (length (flymake-diagnostics)))
(wait "a finding" (lambda () (= 1 (found))))
(goto-char (point-min)) (search-forward "LOPP") (replace-match "LOOP")
(eglot--signal-textDocument/didChange)
(wait "nothing after a change" (lambda () (= 0 (found))))
(defun ask (method) (jsonrpc-request (eglot-current-server) method (eglot--TextDocumentPositionParams)))
(backward-char 2)
(xref-find-definitions (symbol-name (symbol-at-point)))
(same "definition" 1 (line-number-at-pos))
(search-forward "PD")
(same "hover" "`(c,PD)`" (substring (plist-get (plist-get (ask :textDocument/hover) :contents) :value) 0 8))
(same "completion" t (> (length (ask :textDocument/completion)) 20))
(goto-char (point-min))
(eglot-rename "AGAIN")
(same "rename" "AGAIN   (A,PD)\n       (A,PD) AGAIN\n" (buffer-string))
(set-buffer-modified-p nil)
(eglot-shutdown (eglot-current-server))
(message "OK")
(kill-emacs 0)
"""
LSP_MODE = WAITS + r"""
(package-initialize)
(add-to-list 'load-path "~/.local/share/emacs/site-lisp")
(require 'l6-mode)
(unless (locate-library "lsp-mode") (message "NO LSP-MODE") (kill-emacs 0))
(setq lsp-session-file (make-temp-file "lsp") lsp-auto-guess-root t lsp-enable-snippet nil lsp-completion-enable nil
      lsp-headerline-breadcrumb-enable nil lsp-diagnostics-provider :none lsp-restart 'ignore lsp-idle-delay 0.05)
(require 'lsp-mode)
%(lsp_mode)s
(lsp-workspace-folders-add (file-name-directory "%(deck)s"))
(find-file "%(deck)s")
(lsp)
(wait "a finding" (lambda () (= 1 (length (lsp--get-buffer-diagnostics)))))
(goto-char (point-min)) (search-forward "LOPP") (replace-match "LOOP")
(wait "no finding after a change" (lambda () (= 0 (length (lsp--get-buffer-diagnostics)))))
(backward-char 2)
(lsp-find-definition)
(wait "definition" (lambda () (= 1 (line-number-at-pos))))
(same "hover" "`LOOP`" (substring (gethash "value" (gethash "contents" (lsp-request
  "textDocument/hover" (lsp--text-document-position-params)))) 0 6))
(lsp-rename "AGAIN")
(same "rename" "AGAIN   (A,PD)\n       (A,PD) AGAIN\n" (buffer-string))
(set-buffer-modified-p nil)
(message "OK")
(kill-emacs 0)
"""
VIM = r"""
function! Say(text)
  call writefile([a:text], '%(said)s', 'a')
endfunction
if empty(globpath(&packpath, 'pack/*/opt/ale'))
  call Say('NO ALE')
  quitall!
endif
%(vimrc)s
let g:ale_linters_explicit = 1
let g:ale_linters = {'l6': ['l6ed']}
let g:ale_lint_delay = 0
function! Waits(what, holds)
  for i in range(3000)
    if a:holds()
      return
    endif
    sleep 20m
  endfor
  call Say('FAILED ' . a:what)
  cquit
endfunction
function! Main()
  edit %(deck)s
  call Waits('the kind of the text', {-> &filetype ==# 'l6'})
  call ale#Queue(0)
  call Waits('a finding', {-> len(ale#engine#GetLoclist(bufnr(''))) == 1})
  call cursor(2, 15)
  normal! cwLOOP
  call ale#Queue(0)
  call Waits('no finding after a change', {-> empty(ale#engine#GetLoclist(bufnr('')))})
  call cursor(2, 16)
  ALEGoToDefinition
  call Waits('definition', {-> line('.') == 1})
  call Say('OK')
  quitall!
endfunction
autocmd VimEnter * ++nested call Main()
"""
DEBUGGED = WAITS + r"""
(package-initialize)
(add-to-list 'load-path "~/.local/share/emacs/site-lisp")
(require 'l6-mode)
(unless (require 'dap-mode nil t) (message "NO DAP-MODE") (kill-emacs 0))
(setq dap-auto-configure-features nil dap-print-io nil dap-breakpoints-file (make-temp-file "breakpoints"))
(defvar stops 0)
(defvar shown "")
(add-hook 'dap-stopped-hook (lambda (&rest _) (setq stops (1+ stops))))
(advice-add 'lsp--error :before (lambda (&rest words) (setq shown (apply #'format words))))
(defvar said "")
(advice-add 'message :before (lambda (&rest words) (when (car words) (setq said (apply #'format words)))))
(defun says (what expected)
  (setq said "")
  (funcall what)
  (wait expected (lambda () (equal said expected))))
(find-file "%(debugged)s")
(goto-char (point-min))
(forward-line 6)
(dap-breakpoint-add)
(dap-debug (list :type "l6" :request "launch" :name "L6" :program "%(debugged)s" :stopOnEntry t))
(defvar session (dap--cur-session))
(defun place ()
  (let ((frame (elt (gethash "stackFrames" (dap-request session "stackTrace" :threadId 1)) 0)))
    (format "%%s %%s" (gethash "name" frame) (gethash "line" frame))))
(defun stands (what count at)
  (wait what (lambda () (>= stops count)))
  (same what at (place)))
(stands "the entry" 1 "0.0 2")
(dap-continue session 1)
(stands "the first block is freed" 2 "DROP 4.0 7")
(dap-continue session 1)
(stands "the second block is freed" 3 "DROP 4.0 7")
(dap-continue session 1)
(wait "a trap" (lambda () (string-match "NOT A BLOCK" shown)))
(says (lambda () (l6-evaluate "M")) "1024 000000002000 no block")
(says (lambda () (l6-evaluate "MV")) "this is no chain and no number, or the chain can't be followed")
(dap-breakpoint-delete-all)
(says (lambda () (l6-watch "MV 5")) "MV is watched, 5 is not watched")
(setq stops 0)
(l6-reverse-continue)
(stands "who freed the block" 1 "DROP 4.2 7")
(l6-step-back)
(stands "a step back" 2 "DROP 4.0 7")
(says (lambda () (l6-evaluate "M")) "1024 000000002000 block of 1")
(says (lambda () (l6-watch "")) "")
(dap-step-out session)
(stands "out of the call" 3 "3.3 5")
(says (lambda () (l6-stop-at "DROP NONE")) "DROP is set, NONE is no label")
(l6-reverse-continue)
(stands "back to the label" 4 "DROP 4.0 7")
(l6-evaluate ":goto 4")
(wait "a state by its number" (lambda () (equal (place) "1.0 3")))
(dap-next session)
(stands "the next statement" 5 "2.0 4")
(says (lambda () (l6-stop-at "")) "")
(dap-next session)
(stands "the statement with two calls" 6 "3.0 5")
(cl-letf (((symbol-function 'completing-read) (lambda (_ calls &rest _) (car (nth 1 calls)))))
  (l6-step-into))
(stands "into the second call" 7 "DROP 4.0 7")
(says (lambda () (l6-evaluate "L")) "1024 000000002000 block of 1")
(says #'l6-step-into "No call is ahead in the statement")
(dap-disconnect session)
(message "OK")
(kill-emacs 0)
"""
JUDGE = r"""package main

import (
	"bufio"
	"fmt"
	"io"
	"os"

	dap "github.com/google/go-dap"
)

func main() {
	stream := bufio.NewReader(os.Stdin)
	for count := 0; ; count++ {
		body, err := dap.ReadBaseMessage(stream)
		if err == io.EOF {
			fmt.Println(count, "messages")
			return
		}
		if err == nil {
			_, err = dap.DecodeProtocolMessage(body)
		}
		if err != nil {
			fmt.Println("FAILED", err, string(body))
			os.Exit(1)
		}
	}
}
"""
# What stands in the place of a text of a script, and what is then said: an answer that is another one, and a wait in vain.
OTHERWISE: dict[str, tuple[tuple[dict[str, str], str], ...]] = {
    "neovim": (({'same("references", 2': 'same("references", 3'}, "FAILED references: 2"),
               ({"found() == 1": "found() == 9", "60000, holds": "100, holds"}, "FAILED a finding")),
    "eglot": (({'(same "definition" 1': '(same "definition" 2'}, "FAILED definition: 1"),
              ({"(= 1 (found))": "(= 9 (found))", "(float-time) 60": "(float-time) 0.1"}, "FAILED a finding")),
    "dap-mode": (({'"the entry" 1 "0.0 2"': '"the entry" 1 "0.0 3"'}, 'FAILED the entry: "0.0 2"'),),
    "ALE": (({"(bufnr(''))) == 1": "(bufnr(''))) == 9", "range(3000)": "range(3)"}, "FAILED a finding"),),
}
GO_DAP = Path("/usr/share/gocode/src/github.com/google/go-dap")  # of Debian's package
DECK = "LOOP   (A,PD)\n       (A,PD) LOPP\n"


def client_trials(program: list[str], debugged: str) -> Iterator[Trial]:
    """A session of each editor that is installed, with what docs/editors.md says in a home folder that has nothing else:
    what is wrong is shown; and who freed a block, of a deck that has one freed twice."""
    with tempfile.TemporaryDirectory() as folder:
        deck, twice = Path(folder, "a.deck"), Path(folder, "twice.deck")
        link, script = Path(folder, "bin", "l6ed"), Path(folder, "script")
        link.parent.mkdir()
        link.symlink_to(Path(program[0]).resolve())
        known = {key: it for key, it in os.environ.items() if not key.startswith("XDG_")}
        known = {**known, "HOME": folder, "PATH": f"{link.parent}:{os.environ['PATH']}"}
        yield from installed(folder, known)
        names = {"deck": str(deck), "debugged": str(twice), "emacs": figure("(add-to-list 'load-path"),
                 "lsp_mode": figure("(with-eval-after-load 'lsp-mode")}
        twice.write_text(debugged, "ascii")
        for name, needed, text in (("nvim", "neovim", NEOVIM), ("emacs", "eglot", EMACS), ("emacs", "lsp-mode", LSP_MODE),
                                   ("emacs", "dap-mode", DEBUGGED)):
            for changed, expected in told_otherwise(text, needed):
                deck.write_text(DECK, "ascii")
                script.write_text(changed % names, "utf-8")
                words = ["--headless", "-i", "NONE", "-n", str(deck), "-c", f"luafile {script}"]
                yield from session(name, words if name == "nvim" else ["--batch", "-l", str(script)], known, needed, expected)
        for changed, expected in told_otherwise(VIM, "ALE"):
            deck.write_text(DECK, "ascii")
            yield from vim_session(folder, changed, names, known, expected)
        yield from judged(folder, program, twice)


def told_otherwise(text: str, package: str) -> Iterator[tuple[str, str]]:
    """A script and what it says where all is well, and with each change of it, by which it must see something else."""
    yield text, "OK"
    for changes, said in OTHERWISE.get(package, ()):
        changed = text
        for old, new in changes.items():
            if old not in changed:
                raise ValueError(f"{old} is not in the script for {package}")
            changed = changed.replace(old, new)
        yield changed, said


def judged(folder: str, program: list[str], deck: Path) -> Iterator[Trial]:
    """The messages of a session, decoded by a library of others that has the types of the debug adapter's protocol."""
    if not shutil.which("go") or not GO_DAP.is_dir():
        print("skipped: google/go-dap: it is missing")
        return
    said = answer_of([*program, "dap"], input=session_of(deck)).stdout
    script = Path(folder, "judge.go")
    script.write_text(JUDGE, "utf-8")
    known = {**os.environ, "GO111MODULE": "off", "GOPATH": str(GO_DAP.parents[3]), "GOCACHE": f"{folder}/cache"}
    made = answer_of(["go", "run", str(script)], seconds=SECONDS, env=known, input=said, preexec_fn=None)
    count = said.count(b"Content-Length: ")
    yield "clients: google/go-dap", (f"{count} messages\n", 0), (made.stdout.decode(errors="replace"), made.status)


def installed(folder: str, known: dict[str, str]) -> Iterator[Trial]:
    """What docs/editors.md says is done in a home folder: what is installed below it, and its lines for a shell."""
    words = [str(TOP / "install"), "--program", str(TOP / "dist/l6"), f"{folder}/.local"]
    made = answer_of(words, seconds=SECONDS, env=known, preexec_fn=None)
    yield "clients: what is installed", 0, made.status
    lines = re.findall(r"^```sh\n(.*?)^```", (TOP / PAGE).read_text("utf-8"), re.MULTILINE | re.DOTALL)
    yield "clients: what is installed by the page", './install "$HOME/.local"\n', lines[0]
    done = answer_of(["sh", "-ec", "".join(lines[1:])], seconds=SECONDS, env=known, cwd=TOP, preexec_fn=None)
    yield "clients: the lines of the page for a shell", answer(), done


def figure(beginning: str) -> str:
    """The lines of a figure of docs/editors.md that begins so: what a reader copies."""
    page = (TOP / PAGE).read_text("utf-8")
    found = re.search(rf"^```figure\n({re.escape(beginning)}.*?)^```", page, re.MULTILINE | re.DOTALL)
    return found[1] if found else ""


def vim_session(folder: str, text: str, names: dict[str, str], known: dict[str, str], expected: str) -> Iterator[Trial]:
    """A session of Vim with ALE, by the lines of docs/editors.md. Vim without a screen says nothing, and writes a file."""
    said = Path(folder, "said")
    said.unlink(missing_ok=True)
    script = Path(folder, "script.vim")
    script.write_text(text % {**names, "said": str(said), "vimrc": figure("source $VIMRUNTIME")}, "utf-8")
    if not shutil.which("vim"):
        print("skipped: vim: it is missing")
        return
    words = ["vim", "-N", "-u", str(script), "-i", "NONE", "-n", "-es"]
    status = answer_of(words, seconds=SECONDS, env=known, preexec_fn=None).status
    spoken = said.read_text("utf-8") if said.is_file() else "nothing\n"
    if spoken == "NO ALE\n":
        print("skipped: vim: ALE is missing")
        return
    yield f"clients: vim with ALE: {expected}", (f"{expected}\n", int(expected != "OK")), (spoken, status)


def session(editor: str, words: list[str], known: dict[str, str], package: str, expected: str) -> Iterator[Trial]:
    """A session of an editor, or a line that says that it or its package is missing."""
    if not shutil.which(editor):
        print(f"skipped: {editor}: it is missing")
        return
    said = answer_of([editor, *words], seconds=SECONDS, env=known, preexec_fn=None)
    if f"NO {package.upper()}".encode() in said.stderr:
        print(f"skipped: {editor}: {package} is missing")
        return
    spoken = (said.stdout + said.stderr).decode(errors="replace")
    last = re.findall(r"FAILED .*", spoken) or spoken.splitlines()[-1:]
    yield f"clients: {editor} with {package}: {expected}", ([expected], int(expected != "OK")), (last, said.status)
