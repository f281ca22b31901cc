"""The trials of the debugger for Node at a terminal: its own editing, history, completion and Ctrl-C.

They run on pseudoterminals, as those of the front end in Python do. Waits are for texts.
"""
from __future__ import annotations

import os
import re
import signal
import subprocess
import sys
import time
from collections.abc import Iterator
from pathlib import Path

sys.path[:0] = [str(Path(__file__).resolve().parents[1] / it) for it in ("harness", "program")]
from l6db import LIST
from terminal import AFTER_A_KEY, PROMPT, SPIN, Terminal
from trials import Trial

DIST = Path(__file__).resolve().parents[2] / "dist"
MOST_STEPS = "1000000000"
ESCAPES = re.compile(rb"\x1b\[[0-9;?]*[A-Za-z]")  # by which a terminal moves the cursor, and clears


def node_front(command: list[str], folder: Path) -> Iterator[Trial]:
    """All trials of a session that somebody types."""
    deck, spin, bad, begun = (folder / name for name in ("list.deck", "spin.deck", "bad.deck", "begun.commands"))
    deck.write_bytes(LIST)
    spin.write_bytes(SPIN)
    bad.write_bytes(b" (A,ZZ,5)\n")
    begun.write_bytes(b"display A\nbreak 2\n")
    state = str(folder / "state")

    def begin(*words: str) -> Terminal:
        return Terminal([*command, *words], XDG_STATE_HOME=state)

    terminal = begin(str(deck))
    shown = terminal.until(PROMPT)
    yield "where a run begins", True, b"AT 0.0 AFTER 0 STEPS" in shown
    yield completed(terminal, b"break SH", b"OW", b"Breakpoint at 4 SHOW")
    yield completed(terminal, b"finis", b"h", b"No call waits")
    yield terminal.has("on to a stop", b"c\r", b"AT 4.0")
    yield terminal.has("a line is edited", b"p Kx\x7f\r", b"K = ")
    yield terminal.has("an empty line repeats the last one", b"\r", b"K = ")
    yield terminal.has("Ctrl-C at the prompt drops the line", b"junk\x03", b"^C")
    yield terminal.has("and the session goes on", b"info\r", b"break 4 SHOW")
    yield "Ctrl-D ends it", 0, terminal.end()
    terminal = begin(str(deck))
    terminal.until(PROMPT)
    yield terminal.has("a line of the session before", b"\x1b[A\r", b"info")
    terminal.give(b"quit\r")
    yield "quit ends it", 0, terminal.status()
    yield from stopped(begin(str(spin), "--steps", MOST_STEPS, "-x", str(begun)))
    yield from labels(command, folder)
    yield from elsewhere(command, folder)
    yield from endings(command, folder)
    yield from plain(command, folder, deck)
    terminal = begin(str(bad))
    yield "a deck with errors", (True, 4), (b"no operation is spelled `ZZ`" in terminal.until(b"warnings"), terminal.status())


def labels(command: list[str], folder: Path) -> Iterator[Trial]:
    """Labels are completed as the deck's cards have them, and nothing of its input, of another file or of a value."""
    deck, told, begun = folder / "labels.deck", folder / "its.input", folder / "its.commands"
    deck.write_bytes(b" (A,E,5)\nSIXLET (A,PD)\nsmall1 (A,PD)\nX(A,PD)\n$input\nPAYING 5\n")
    told.write_bytes(b"RECEIPT\n")
    begun.write_bytes(b"STATS\n")
    terminal = Terminal([*command, "--input", str(told), "-x", str(begun), "--steps", "9", str(deck)],
                        XDG_STATE_HOME=str(folder / "state"))
    terminal.until(PROMPT)
    yield completed(terminal, b"break SIX", b"LET", b"Breakpoint at 1 SIXLET")
    yield completed(terminal, b"break smal", b"L1", b"Breakpoint at 2 SMALL1")
    for typed in (b"break PAY", b"break REC", b"break STA"):
        terminal.give(typed)
        terminal.until(typed)
        terminal.give(b"\t")
        time.sleep(AFTER_A_KEY)
        terminal.give(b"\r")
        shown = terminal.until(b"No such")
        terminal.until(PROMPT)
        yield f"{typed.decode()} is not completed", [], re.findall(rb"ING|EIPT|TS", shown)
    yield "Ctrl-D ends it then", 0, terminal.end()


def elsewhere(command: list[str], folder: Path) -> Iterator[Trial]:
    """A label of six letters is completed; a state's folder that is no whole path is passed over; a folder is no deck."""
    deck, home = folder / "letters.deck", folder / "home"
    deck.write_bytes(b" (A,E,5)\nSIXLET (A,PD)\n")
    terminal = Terminal([*command, str(deck)], XDG_STATE_HOME="no/whole/path", HOME=str(home))
    terminal.until(PROMPT)
    yield completed(terminal, b"break SIX", b"LET", b"Breakpoint at 1 SIXLET")
    yield "Ctrl-D ends it there", 0, terminal.end()
    kept = home / ".local/state/l6/l6db_history"
    yield "the history in the home folder", True, kept.is_file() and "break SIX" in kept.read_text("utf-8")
    ran = subprocess.run([*command, str(folder)], capture_output=True, text=True, stdin=subprocess.DEVNULL)
    native = subprocess.run([DIST / "l6db", folder], capture_output=True, text=True, stdin=subprocess.DEVNULL)
    yield "a folder as a deck", (native.returncode, native.stderr), (ran.returncode, ran.stderr)


def endings(command: list[str], folder: Path) -> Iterator[Trial]:
    """An engine that is killed ends the session; a deck without a label; a module for which there is no memory."""
    deck = folder / "plain.deck"
    deck.write_bytes(b" (A,E,5)(A,PD)\n")
    terminal = Terminal([*command, str(deck)], XDG_STATE_HOME=str(folder / "state"))
    terminal.until(PROMPT)
    terminal.give(b"break X\t\r")
    yield "no label is offered where there is none", True, b"No such" in terminal.until(b"No such")
    terminal.until(PROMPT)
    for engine in children_of(terminal.process):
        os.kill(engine, signal.SIGKILL)
    terminal.give(b"si\r")
    yield "the status where the engine is killed", 5, terminal.status()
    words = [command[0], "--wasm-max-mem-pages=1", *command[1:], str(deck)]
    ran = subprocess.run(words, capture_output=True, text=True, stdin=subprocess.DEVNULL)
    yield "memory refused to the debugger", (5, "", "l6db: out of memory\n"), (ran.returncode, ran.stdout, ran.stderr)


def plain(command: list[str], folder: Path, deck: Path) -> Iterator[Trial]:
    """With some words, or at a terminal that is dumb, the engine is alone: it shows where the run begins, and no line is edited."""
    for words in (["--batch", "-x", os.devnull], ["--echo"], ["--prompt", "? "], ["--prompt=? "], ["TERM=dumb"], ["L6DB_PLAIN=1"]):
        options = [it for it in words if not it[0].isupper()]
        further = {} if options else {words[0].partition("=")[0]: words[0].partition("=")[2]}
        terminal = Terminal([*command, *options, str(deck)], XDG_STATE_HOME=str(folder / "state"), **further)
        shown = terminal.until(b"AFTER 0 STEPS")
        if words[0] != "--batch":
            terminal.give(b"\x04")
        yield f"{' '.join(words)} at a terminal", (True, 0), (b"AT 0.0 AFTER 0 STEPS" in shown and PROMPT not in shown, terminal.status())


def children_of(process: int) -> list[int]:
    """The processes that a process has begun."""
    found = []
    for status in Path("/proc").glob("[0-9]*/stat"):
        try:
            fields = status.read_text("utf-8", "replace").rpartition(")")[2].split()
        except OSError:
            continue
        if int(fields[1]) == process:
            found.append(int(status.parent.name))
    return found


def completed(terminal: Terminal, typed: bytes, rest: bytes, text: bytes) -> Trial:
    """The trial that Tab completes what is typed, and that the line is then obeyed. (Tab in a paste is a blank.)"""
    terminal.give(typed)
    terminal.until(typed)
    terminal.give(b"\t")
    terminal.until(rest)
    return terminal.has(f"{typed.decode()} is completed", b"\r", text)


def said(terminal: Terminal, line: bytes) -> list[str]:
    """The lines that are shown after a line, without what moves the cursor."""
    terminal.give(line + b"\r")
    terminal.until(b"\n")
    shown = ESCAPES.sub(b"", terminal.until(PROMPT).removesuffix(PROMPT)).decode("ascii", "replace")
    return [it.rstrip() for it in re.split(r"[\r\n]+", shown) if it.strip()]


def stopped(terminal: Terminal) -> Iterator[Trial]:
    """Ctrl-C in a long command leaves the session where it was, with all that is set in it."""
    terminal.until(PROMPT)
    for line in (b"undisplay A", b"delete 2", b"break LOOP if (A,E,5)", b"watch C", b"display B", b"goto 40", b"tbreak 3"):
        said(terminal, line)
    before = said(terminal, b"info") + said(terminal, b"stats")[:1]
    yield "what is set before", 5, len(before)
    terminal.give(b"end\r")
    terminal.until(b"Ctrl-C stops the command")
    yield terminal.has("Ctrl-C in a long command", b"\x03", b"Stopped: the session is where it was before")
    yield "what is set after it", before, said(terminal, b"info") + said(terminal, b"stats")[:1]
    yield "Ctrl-D ends it after that", 0, terminal.end()
