#!/usr/bin/env python3
"""Tries l6db at a terminal: the front end of terminal/, its launcher, and what is there without Python.

terminal.py PROGRAM [--whole] prints each difference, and last 'N passed, M failed'. PROGRAM is l6db. It runs on
pseudoterminals, so no screen is needed. Waits are for texts, but for some after a key. With --whole, as in the gate,
50 commands are stopped at random moments, and else six.
"""
from __future__ import annotations

import contextlib
import fcntl
import os
import random
import re
import shutil
import signal
import struct
import subprocess
import sys
import tempfile
import termios
import time
from collections.abc import Iterator
from pathlib import Path

sys.path.insert(0, str(Path(__file__).resolve().parents[1] / "harness"))
from completed_words import completed_words
from l6db import LIST
from terminals import SECONDS, Pseudoterminal
from trials import Trial, groups_asked_for, report

TOP = Path(__file__).resolve().parents[2]
FRONT = [sys.executable, "-I", str(TOP / "terminal/l6db.py")]
PROMPT = b"(l6db) "
AFTER_A_KEY = 0.3  # seconds: a signal right after a key, before readline waits again, shows at the next key alone
FEW, MANY = 6, 50  # commands that are stopped at random moments
GOES_ON = b" s; Ctrl-C stops the command, not the session"
MOST_SOURCES = 1_000  # files that are obeyed for one line
IN_VIEW = 9  # cards at the top of the terminal
LISTED = 50  # words of three letters or more in the help, at least
SPIN = b"""* COUNTS FOR EVER
       (A,E,0)
LOOP   (A,A,1)(B,E,A)
       IF (A,E,1) THEN (C,E,5)
       (D,E,1) LOOP
"""
# The tools that the launcher uses when neither Python nor rlwrap is there.
TOOLS = ("sh", "awk", "basename", "cat", "cmp", "cut", "dirname", "find", "grep", "mkdir", "mv", "readlink", "rm", "sed",
         "sha256sum", "sort", "stty", "tr", "uname", "uniq", "xargs")


class Terminal(Pseudoterminal):
    """A program on a pseudoterminal of 30 rows and 90 columns, without colours."""

    def __init__(self, command: list[str], **further: str) -> None:
        plain = {"TERM": "xterm", "NO_COLOR": "1", "PAGER": "cat", "HOME": "/nowhere"}
        super().__init__(command, {**os.environ, **plain, **further})
        self.resize(30, 90)

    def resize(self, rows: int, columns: int) -> None:
        """Gives the terminal another size."""
        fcntl.ioctl(self.device, termios.TIOCSWINSZ, struct.pack("HHHH", rows, columns, 0, 0))

    def has(self, name: str, keys: bytes, text: bytes) -> Trial:
        """The trial that a text is shown after keys, and that the prompt comes then."""
        self.give(keys)
        shown = self.until(text)
        if self.was_found:
            shown += self.until(PROMPT)
        return name, (True, True), (text in shown, shown.endswith(PROMPT))

    def answer(self, line: bytes) -> bytes:
        """What is shown up to the next prompt, after a line and its echo."""
        self.give(line + b"\r")
        return self.until(b"\n") + self.until(PROMPT)

    def end(self) -> int:
        """Ends it by Ctrl-D; answers its status."""
        time.sleep(AFTER_A_KEY)
        self.give(b"\x04")
        return self.status()


class Bench:
    """Decks in a folder, and the front end over an engine; and how many commands are stopped."""

    def __init__(self, engine: str, folder: Path, interruptions: int) -> None:
        self.engine, self.folder, self.interruptions = engine, folder, interruptions
        self.deck, self.spin = folder / "my.deck", folder / "spin.deck"
        self.deck.write_bytes(LIST)
        self.spin.write_bytes(SPIN)

    def begin(self, *words: str | Path, **further: str) -> Terminal:
        """A session with these words, at its first prompt."""
        given = [str(it) for it in words or (self.deck,)]
        terminal = Terminal([*FRONT, self.engine, *given], XDG_STATE_HOME=str(self.folder / "state"), **further)
        terminal.until(PROMPT)
        return terminal

    def engines(self) -> set[str]:
        """The engines of its sessions that run. (Other steps run the same program meanwhile.)"""
        found, own = set(), os.fsencode(f"XDG_STATE_HOME={self.folder / 'state'}")
        for folder in Path("/proc").glob("[0-9]*"):
            with contextlib.suppress(OSError):
                if os.readlink(folder / "exe") == os.path.realpath(self.engine) and own in (folder / "environ").read_bytes().split(b"\0"):
                    found.add(folder.name)
        return found


def editing(bench: Bench) -> Iterator[Trial]:
    """Lines are completed, repeated, dropped, searched and kept."""
    terminal = bench.begin()
    yield terminal.has("Tab completes a command", b"finis\t\r", b"No call waits")
    yield terminal.has("Tab completes a label", b"b NEX\t\r", b"Breakpoint at 5 NEXT")
    terminal.give(b"p K\t")
    shown = terminal.until(b"KV")
    yield "Tab completes a chain", [True, True], [it in shown for it in (b"KN", b"KV")]
    yield terminal.has("a chain in the place of another one", b"\x15p L\r", b"L = 0")
    yield terminal.has("an empty line", b"si\r", b"AFTER 1 STEPS")
    yield terminal.has("an empty line repeats the last one", b"\r", b"AFTER 2 STEPS")
    terminal.give(b"quit")
    terminal.until(b"quit")
    time.sleep(AFTER_A_KEY)
    yield terminal.has("Ctrl-C drops the line", b"\x03", b"^C")
    yield terminal.has("Ctrl-C drops nothing else", b"stats\r", b"STATE 2 ")
    (bench.folder / "my.lines").write_bytes(b"stats\n")
    yield terminal.has("Tab completes a file", f"source {bench.folder}/my.li\t\r".encode(), b"STATE 2 ")
    yield terminal.has("Tab completes what info tells", b"info breakp\t\r", b"5 NEXT")
    yield terminal.has("a search in the history", b"\x12NEX\r", b"Breakpoint at 5 NEXT")
    yield "the status after Ctrl-D", 0, terminal.end()
    terminal = bench.begin()
    yield terminal.has("the history of the session before", b"\x10\r", b"Breakpoint at 5 NEXT")
    terminal.end()
    for name, mode in (("l6db_history", 0o600), (".", 0o700)):  # (some libraries have the file's mode from the mask alone)
        kept = bench.folder / "state/l6" / name
        yield f"who may read the history: {kept.name}", mode, kept.stat().st_mode & 0o777


def files(bench: Bench) -> Iterator[Trial]:
    """Stops are saved and brought back, and a deck that was changed is read again."""
    saved = bench.folder / "my.stops"
    terminal = bench.begin()
    for line, said in (
        (b"b 6", b"Breakpoint at 6 NEXT+1"), (b"tb 3", b"Temporary breakpoint at 3 MAKE+2"), (b"watch LN", b"watch"),
        (b"display K", b"display"), (b"c", b"AT 1.2"), (f"save {saved}".encode(), b"5 commands"),
    ):
        yield line.decode().replace(str(saved), "FILE"), True, said in terminal.answer(line)
    bench.deck.write_bytes(LIST.replace(b"MAKE ", b"       (Z,E,1)\nMAKE "))
    yield terminal.has("a deck that has changed", b"s 0\r", f"{bench.deck} has changed: reload reads it again".encode())
    yield "it is said once that it has changed", False, b"has changed" in terminal.answer(b"s 0")
    shown = terminal.answer(b"reload")
    told_of_it = f"Read {bench.deck} again".encode(), b" AFTER 6 STEPS"
    yield "reload, and where it leads", [True, True], [it in shown for it in told_of_it]
    shown = terminal.answer(b"info")
    for stop in (b"break 7 NEXT+1", b"tbreak 4 MAKE+2", b": LN", b": K"):
        yield f"reload keeps {stop.decode()}", True, stop in shown
    yield terminal.has("reload keeps the state", b"stats\r", b"STATE 6 ")
    bench.deck.write_bytes(LIST.replace(b"(L,GT,1)", b"(L,GQ,1)"))
    shown = terminal.answer(b"RELOAD")  # (words are taken in capitals, too)
    said_of_it = b"The deck has errors; the session is still with the one before.", b"error", b" STEPS"
    yield "a deck with errors", [True, True, False], [it in shown for it in said_of_it]
    yield terminal.has("a deck with errors leaves the session", b"stats\r", b"STATE 6 ")
    for word, deck in ((b"run", LIST), (b"r", b"* IT IS ANOTHER\n" + LIST), (b"restart", LIST)):
        bench.deck.write_bytes(deck)
        yield terminal.has(f"{word.decode()} reads the deck again", word + b"\r", f"Read {bench.deck} again".encode())
    terminal.answer(b"b SHOW")
    bench.deck.write_bytes(LIST.replace(b"SHOW", b"SHED"))
    yield terminal.has("a breakpoint whose label is gone", b"reload\r", b"No place there for: break SHOW\r\n")
    bench.deck.write_bytes(LIST)
    terminal.answer(b"reload")
    terminal.answer(b"delete")
    yield terminal.has("source", b"source " + str(saved).encode() + b"\r", b"Breakpoint at 6 NEXT+1")
    (bench.folder / "two.lines").write_bytes(b"display K\ndisplay L\n")
    told = bench.begin("-x", bench.folder / "two.lines", bench.deck)
    yield told.has("a deck after the commands that are given", b"b SHO\t\r", b"Breakpoint at 4 SHOW")
    shown = told.answer(b"info")
    yield "the displays of these commands", [1, 1], [shown.count(it) for it in (b": K", b": L")]
    for line in (b"undisplay K", b"undisplay L", b"reload"):
        told.answer(line)
    shown = told.answer(b"info")
    yield "displays that were taken off do not come back", [0, 0], [shown.count(it) for it in (b": K", b": L")]
    told.end()
    at = bench.deck.stat().st_mtime_ns
    bench.deck.write_bytes(LIST.replace(b"(LV,E,7)", b"(LV,E,9)"))
    os.utime(bench.deck, ns=(at, at - at % 1_000_000_000 + (at + 1_000_000) % 1_000_000_000))
    yield terminal.has("a deck of as many bytes, changed within a second", b"s 0\r", b"has changed")
    yield terminal.has("source of no file", b"source nothing\r", b"nothing: No such file")
    yield terminal.has("save into no folder", b"save no/where\r", b"no/where: No such file")
    terminal.end()


def sources(bench: Bench) -> Iterator[Trial]:
    """Files that name further ones, or themselves, and one that ends the session."""
    own, outer, inner, last = (bench.folder / f"{name}.lines" for name in ("own", "outer", "inner", "last"))
    own.write_text(f"si\nsource {own}\nsi\n", "utf-8")
    outer.write_text(f"# a comment\n\nsource {inner}\nb SHOW\n", "utf-8")
    inner.write_text("b MAKE\n", "utf-8")
    last.write_text("b MAKE\nquit\nb SHOW\n", "utf-8")
    terminal = bench.begin()
    shown = terminal.answer(f"source {outer}".encode())
    yield "a file that names another one", True, 0 <= shown.find(b"Breakpoint at 1 MAKE") < shown.find(b"Breakpoint at 4 SHOW")
    yield "a comment in a file", False, b"a comment" in shown
    shown = terminal.answer(f"source {own}".encode())
    said = b"own.lines: 1000 files were obeyed before it; no more are, for one line"
    yield "a file that names itself", (MOST_SOURCES, True), (shown.count(b"\nsi\r"), said in shown)
    yield terminal.has("the session after it", b"info\r", b"break 4 SHOW")
    yield terminal.has("no line of it is left", b"stats\r", b"STATE ")
    yield "a file in which the session ends", (True, False, 0), ended_by(terminal, f"source {last}\r".encode())


def ended_by(terminal: Terminal, keys: bytes) -> tuple[bool, bool, int]:
    """Of keys that end a session: whether one breakpoint is set, whether another one is, and the status."""
    terminal.give(keys)
    shown = terminal.until(b"quit\r\n") + terminal.until(PROMPT)
    return b"Breakpoint at 1 MAKE" in shown, b"Breakpoint at 4 SHOW" in shown, terminal.status()


def stops(bench: Bench) -> Iterator[Trial]:
    """Ctrl-C in a long command leaves the session as it was, and no engine is left behind."""
    terminal = bench.begin("--steps", "1000000000", bench.spin)
    terminal.answer(b"watch C")
    terminal.answer(b"display A")
    terminal.answer(b"tb 0")
    terminal.answer(b"goto 200000000")
    before = settled(terminal)
    yield "the session before Ctrl-C", (b"STATE 200000000 ", 3), (before[0], len(before[1]))
    terminal.give(b"rc\r")
    yield "it is shown that a command goes on", True, GOES_ON in terminal.until(GOES_ON)
    terminal.give(b"\x03")
    shown = terminal.until(b"as before") + terminal.until(PROMPT)
    yield "Ctrl-C stops the command", True, b"Stopped: the session is at state 200000000, as before" in shown
    yield "the session after Ctrl-C", before, settled(terminal)
    chance = random.Random(1)
    for number in range(bench.interruptions):
        terminal.give(chance.choice([b"rc\r", b"c\r", b"end\r", b"rc 3\r"]))
        terminal.until(b"\n")
        time.sleep(chance.uniform(0.05, 1.5))
        terminal.give(b"\x03")
        shown = terminal.until(PROMPT)
        if b"as before" not in shown:  # (the command had ended; Ctrl-C then drops a line, and the stops are set again)
            terminal.until(PROMPT)
            for line in (b"delete", b"watch C", b"tb 0", b"goto 200000000"):
                terminal.answer(line)
        yield f"the session after a command that may be stopped, {number}", before, settled(terminal)
    engines = bench.engines()
    yield "an engine before its front end is killed", 1, len(engines)
    os.kill(terminal.process, signal.SIGKILL)
    terminal.status()
    end = time.monotonic() + SECONDS
    while bench.engines() & engines and time.monotonic() < end:
        time.sleep(0.05)
    yield "an engine whose front end was killed", set(), bench.engines() & engines


def stopped_reloads(bench: Bench) -> Iterator[Trial]:
    """Ctrl-C while a deck is read again leaves the session with the one before, and no further engine; so in a file."""
    begun, lines = bench.folder / "begun.commands", bench.folder / "long.lines"
    begun.write_bytes(b"")
    lines.write_bytes(b"watch C\nrc\nb 1\n")
    terminal = bench.begin("--steps", "1000000000", "-x", begun, bench.spin)
    terminal.answer(b"tb 0")
    terminal.answer(b"goto 999999999")
    before, engines = settled(terminal), bench.engines()
    yield "the session before it is stopped", (b"STATE 999999999 ", 1, 1), (before[0], len(before[1]), len(engines))
    bench.spin.write_bytes(SPIN.replace(b"COUNTS", b"WILL COUNT"))
    for name, further in (("on the way to its state", b""), ("as it begins", b"end\nstart\n" * 5)):
        begun.write_bytes(further)
        for line in (b"reload", b"run"):
            stopped = stopped_at_once(terminal, line, b"Stopped: the session is still with the deck before")
            yield f"Ctrl-C in {line.decode()}, {name}", True, stopped
            yield f"the session after {line.decode()}, {name}", before, settled(terminal)
            yield f"the engines after {line.decode()}, {name}", engines, bench.engines()
    yield "Ctrl-C in a command of a file", True, stopped_at_once(terminal, f"source {lines}".encode(), b"as before")
    yield "the line after it", False, b"break 1" in terminal.answer(b"info")
    terminal.end()
    starting = Terminal([*FRONT, bench.engine, "-x", str(begun), "--steps", "1000000000", str(bench.spin)])
    shown = starting.until(b"Ctrl-C stops")
    starting.give(b"\x03")
    shown += starting.until(PROMPT)
    yield "Ctrl-C before the first prompt", (False, 130), (b"Traceback" in shown, starting.status())


def stopped_at_once(terminal: Terminal, line: bytes, text: bytes) -> bool:
    """Whether Ctrl-C in the midst of what a line asks for has a text shown, and the prompt."""
    terminal.give(line + b"\r")
    terminal.until(b"Ctrl-C stops the command")
    terminal.give(b"\x03")
    shown = terminal.until(text)
    return (shown + terminal.until(PROMPT)).endswith(PROMPT) and shown.endswith(text)


def settled(terminal: Terminal) -> tuple[bytes, list[bytes]]:
    """The state of a session and what it stops at, as it says them."""
    state = re.search(rb"STATE \d+ ", terminal.answer(b"stats"))
    info = re.findall(rb"^(?:t?break|watch|display) .*$", terminal.answer(b"info").replace(b"\r", b""), re.MULTILINE)
    return (state[0] if state else b""), info


def terminals(bench: Bench) -> Iterator[Trial]:
    """Ctrl-Z and fg, a terminal of another size, cards in view, colours, and a terminal without any."""
    # (a process group without a shell is never stopped by the terminal, so a shell is needed)
    terminal = Terminal(["bash", "--norc", "-i"], XDG_STATE_HOME=str(bench.folder / "state"))
    terminal.give(" ".join([*FRONT, bench.engine, str(bench.deck)]).encode() + b"\r")
    terminal.until(PROMPT)
    terminal.answer(b"si")
    terminal.give(b"sta")
    terminal.until(b"sta")
    time.sleep(AFTER_A_KEY)
    terminal.give(b"\x1a")
    yield "Ctrl-Z", True, b"Stopped" in terminal.until(b"Stopped")
    terminal.give(b"fg\r")
    again = PROMPT + b"sta"
    yield "the prompt after fg, and what was typed", True, terminal.until(again).endswith(again)
    yield terminal.has("fg", b"ts\r", b"STATE 1 ")
    terminal.give(b"\x04")
    os.kill(terminal.process, signal.SIGHUP)
    terminal.status()
    terminal = bench.begin()
    terminal.give(b"View\r")
    yield "cards in view", True, b"\x1b[11;30r" in terminal.until(b"\x1b[11;30r")
    terminal.until(PROMPT)
    terminal.resize(24, 70)
    terminal.give(b"s\r")
    yield "cards in view after a resize", True, b"\x1b[11;24r" in terminal.until(b"\x1b[11;24r")
    terminal.until(PROMPT)
    time.sleep(AFTER_A_KEY)
    terminal.give(b"\x04")
    yield "the terminal is given back", True, b"\x1b[r" in terminal.until(b"\x1b[r")
    terminal.status()
    terminal = bench.begin(NO_COLOR="")
    terminal.give(b"view\r")
    terminal.until(PROMPT)
    terminal.give(b"si\r")
    marked = b"\x1b[7m(0,DV,0,17)\x1b[27m"
    yield "the columns that are marked in view", True, marked in terminal.until(marked)
    terminal.until(PROMPT)
    terminal.end()
    long = bench.folder / "long.deck"
    long.write_bytes(b" (A,A,1)\n" * 12)
    terminal = bench.begin(long)
    for line, card, first in ((b"view", 1, 1), (b"until 5", 6, 2), (b"until 11", 12, 4)):
        shown = re.findall(rb"\x1b\[(\d);1H\x1b\[2K([^\x1b]*)", terminal.answer(line))[-IN_VIEW:]
        cards = (f"{it:5}  (A,A,1)" for it in range(first, first + IN_VIEW))
        expected = [(str(row), f">{it[1:]}" if int(it[:5]) == card else it) for row, it in enumerate(cards, 1)]
        yield f"cards in view after {line.decode()}", expected, [(row.decode(), it.decode()) for row, it in shown]
    terminal.end()
    for pager, is_paged in (("sed s/^/paged:/", True), ("", False), ("is-not-there", False)):
        terminal = bench.begin(PAGER=pager)
        terminal.resize(12, 90)
        found = [b"paged:" in terminal.answer(line) for line in (b"s 0", b"help", b"s 0")]
        yield f"short and long answers with the pager {pager!r}", [False, is_paged, False], found
        terminal.end()
    for name, no_color, is_painted in (("a terminal with colours", "", True), ("NO_COLOR", "1", False)):
        terminal = bench.begin(NO_COLOR=no_color)
        yield name, is_painted, b"\x1b[1mAT 0.1" in terminal.answer(b"si")
        terminal.end()


def cards_in_view(bench: Bench) -> Iterator[Trial]:
    """The cards in view are those around the one that comes next, and no row is empty at either end of the deck."""
    deck = bench.folder / "twenty.deck"
    deck.write_bytes(b" (A,A,1)\n" * 20)
    terminal = bench.begin(deck)
    for line, first in ((b"view", 1), (b"until 3", 1), (b"until 9", 6), (b"until 19", 12)):
        rows = dict(re.findall(rb"\x1b\[(\d+);1H\x1b\[2K>? *(\d+) ", terminal.answer(line)))
        expected = {row: first + row - 1 for row in range(1, IN_VIEW + 1)}
        yield f"the cards in view after {line.decode()}", expected, {int(row): int(card) for row, card in rows.items()}
    terminal.end()


def faults(bench: Bench) -> Iterator[Trial]:
    """What is wrong with a deck or the words is said as the engine says it."""
    bad = bench.folder / "bad.deck"
    bad.write_bytes(b" (A,E,5)\n (A,ZZ,5)\n")
    for words in ([str(bad)], ["nothing.deck"], ["--units", "3", str(bench.deck)]):
        named = f"the words {' '.join(words[:2])}".replace(str(bench.folder), "FOLDER")
        by_front, by_engine = said([*FRONT, bench.engine, *words]), said([bench.engine, *words])
        yield named, by_engine, by_front
        yield f"{named} are wrong", True, by_front[0] != 0


def launcher(bench: Bench) -> Iterator[Trial]:
    """./l6db chooses the front end, rlwrap or the engine; scripts see the engine alone."""
    state = {"XDG_STATE_HOME": str(bench.folder / "state")}
    words = [str(TOP / "l6db"), str(bench.folder / "a deck of * mine.deck")]
    Path(words[1]).write_bytes(LIST)
    elsewhere = Terminal(["sh", "-c", 'cd / && exec "$0" "$1"', *words], **state)
    elsewhere.until(PROMPT)
    yield elsewhere.has("./l6db from another folder", b"b NEX\t\r", b"Breakpoint at 5 NEXT")
    elsewhere.end()
    terminal = Terminal(words, **state)
    terminal.until(PROMPT)
    yield terminal.has("./l6db with Python", b"b NEX\t\r", b"Breakpoint at 5 NEXT")
    terminal.end()
    tools = bench.folder / "tools"
    tools.mkdir()
    for name in TOOLS:
        if there := shutil.which(name):
            (tools / name).symlink_to(there)
    cases: tuple[tuple[str, dict[str, str]], ...] = (
        ("./l6db without Python", {"PATH": str(tools)}),
        ("./l6db that is to be plain", {"L6DB_PLAIN": "1"}),
        ("./l6db at a dumb terminal", {"TERM": "dumb"}),
    )
    for name, further in cases:
        terminal = Terminal(words, **state, **further)
        terminal.until(PROMPT)
        yield terminal.has(name, b"si\r", b"AFTER 1 STEPS")
        yield terminal.has(f"{name} has no commands of its own", b"view\r", b"Not a command")
        terminal.give(b"\x04")
        yield f"the status of {name}", 0, terminal.status()
    if shutil.which("rlwrap"):
        for name in ("rlwrap", "perl"):
            (tools / name).symlink_to(shutil.which(name) or name)
        terminal = Terminal(words, PATH=str(tools), XDG_STATE_HOME=str(bench.folder / "of rlwrap"))
        terminal.until(PROMPT)
        yield terminal.has("./l6db with rlwrap", b"si\r", b"AFTER 1 STEPS")
        yield terminal.has("rlwrap completes a command", b"finis\t\r", b"No call waits")
        time.sleep(AFTER_A_KEY)
        terminal.give(b"\x03")
        yield terminal.has("Ctrl-C with rlwrap", b"stats\r", b"STATE 1 ")
        terminal.end()
        kept = bench.folder / "of rlwrap/l6/l6db_history"
        yield "the history of rlwrap", True, kept.is_file() and "stats\n" in kept.read_text("utf-8")
    else:
        print("skipped: rlwrap: it is missing")
    terminal = Terminal([words[0], "--echo", words[1]], **state)
    terminal.until(b"AFTER 0 STEPS")
    terminal.give(b"view\r\x04")
    yield "./l6db --echo at a terminal is the engine alone", True, b"Not a command" in terminal.until(b"Not a command")
    terminal.status()
    for given in (["--prompt", "next>"], ["--prompt=next>"]):
        terminal = Terminal([words[0], *given, words[1]], **state)
        terminal.until(b"next>")
        terminal.give(b"view\r\x04")
        yield f"./l6db {' '.join(given)} at a terminal is the engine alone", True, b"Not a command" in terminal.until(b"Not a command")
        terminal.status()
    terminal = Terminal([words[0], "--batch", "-x", "/dev/null", words[1]], **state)
    shown, status = terminal.until(b"AFTER 0 STEPS"), terminal.status()
    yield "./l6db --batch at a terminal", (True, 0), (b"AT 0.0 AFTER 0 STEPS" in shown and PROMPT not in shown, status)
    for given in (["--batch", "-x", "/dev/null"], ["--help"], ["--version"]):
        yield f"./l6db {' '.join(given)}", said([bench.engine, *given, *words[1:]]), said([words[0], *given, *words[1:]])
    placed = bench.folder / "placed"
    shutil.copytree(TOP / "terminal", placed, ignore=shutil.ignore_patterns("__pycache__"))
    terminal = Terminal([*FRONT[:-1], str(placed / "l6db.py"), bench.engine, words[1]], **state)
    terminal.until(PROMPT)
    terminal.end()
    files = sorted(it.name for it in (TOP / "terminal").iterdir() if it.name != "__pycache__")
    yield "what is in the folder of the front end after a session", files, sorted(it.name for it in placed.iterdir())
    front = bench.folder / "front"
    front.mkdir()
    (front / "python3").write_text("#!/bin/sh\necho the front end\n", "ascii")
    (front / "python3").chmod(0o755)
    for given in (["--help"], ["-h"], ["--version"], ["-V"], [words[1]]):
        terminal = Terminal([words[0], *given], PATH=f"{front}:{os.environ['PATH']}", **state)
        name = f"whether ./l6db {given[0]} at a terminal has a front end".replace(words[1], "DECK")
        yield name, given == [words[1]], b"the front end" in terminal.until(b"\n")
        terminal.status()
    lines = b"si\ninfo\n"
    yield "./l6db over pipes", said([bench.engine, *words[1:]], lines), said(words, lines)


def said(words: list[str], given: bytes = b"") -> tuple[int, bytes, bytes]:
    """What a command answers over pipes."""
    ran = subprocess.run(words, capture_output=True, input=given)
    return ran.returncode, ran.stdout, ran.stderr


def without_readline(bench: Bench) -> Iterator[Trial]:
    """Without readline lines are read as they are typed."""
    script = bench.folder / "plain.py"
    script.write_text(
        "import sys\nsys.modules['readline'] = None\n"
        f"sys.path.insert(0, {str(TOP / 'terminal')!r})\nfrom front import play\nsys.exit(play(sys.argv[1], sys.argv[2:]))\n"
    )
    terminal = Terminal([sys.executable, str(script), bench.engine, str(bench.deck)])
    terminal.until(PROMPT)
    yield terminal.has("a line without readline", b"si\r", b"AFTER 1 STEPS")
    yield "the status without readline", 0, terminal.end()


def words_of_completion(bench: Bench) -> Iterator[Trial]:
    """The words that are completed are those that the engine's help lists, and the engine knows each."""
    known = (TOP / "terminal/words").read_text("utf-8").split()
    yield "the order of the words", sorted(set(known)), known
    ran = subprocess.run([bench.engine, str(bench.deck)], input=b"help\n", capture_output=True)
    listed = set()
    for row in ran.stdout.decode().splitlines():
        for column in (row[1:24], row[40:62]) if row.startswith(" ") and len(row) > 40 else (row[1:24],):
            if row.startswith(" "):
                listed |= {it for it in re.split(r"[|, ]+", column.partition("[")[0]) if re.fullmatch(r"[a-z-]{3,}", it)}
    yield "words of the help that are not completed", (set(), True), (listed - set(known) - {"fin"}, len(listed) > LISTED)
    # (of one word that is none it is said, so what is said of a word that is none is seen)
    given = "".join(f"help {word}\n" for word in [*known, "nothing"]).encode()
    ran = subprocess.run([bench.engine, "--echo", str(bench.deck)], input=given, capture_output=True)
    yield "words that the engine does not know", (1, len(known) + 1), (
        ran.stdout.count(b"\nNot a command: "), ran.stdout.count(b"\nhelp "))


def completed(bench: Bench) -> Iterator[Trial]:
    """What is completed of a deck by hand."""
    room = bench.folder / "completed"
    room.mkdir()
    yield from completed_words(room)


def trials(engine: str, is_whole: bool) -> Iterator[Trial]:
    """All trials, each group with a folder of its own."""
    groups = (editing, files, sources, stops, stopped_reloads, terminals, cards_in_view, faults, launcher, without_readline, words_of_completion, completed)
    asked = groups_asked_for(group.__name__ for group in groups)
    for group in (it for it in groups if it.__name__ in asked):
        with tempfile.TemporaryDirectory(prefix="l6-terminal-") as folder:
            for name, expected, actual in group(Bench(engine, Path(folder), MANY if is_whole else FEW)):
                yield f"{group.__name__}: {name}", expected, actual


class Showing(Terminal):
    """A terminal that shows these texts, each where one waits for something, and ends with a status of its own."""

    def __init__(self, *texts: bytes) -> None:
        self._texts, self.was_found = list(texts), True

    def give(self, keys: bytes) -> None:
        """Takes keys, and does nothing."""

    def until(self, text: bytes) -> bytes:
        """The next text, whatever is waited for."""
        return self._texts.pop(0) if self._texts else b""

    def status(self) -> int:
        """The status."""
        return 77


def canaries() -> Iterator[Trial]:
    """What is shown is another text, or has no prompt; and sessions, ends and answers that are others."""
    yield Showing(b"other", PROMPT).has("a text that is not shown", b"", b"text")
    yield Showing(b"text", b"other").has("a prompt that does not come", b"", b"text")
    yield "an end with another status", 0, Showing().end()
    one, *others = (
        settled(Showing(b"", state, b"", stops)) for state, stops in (
            (b"STATE 1 ", b"break 1\n"), (b"STATE 2 ", b"break 1\n"), (b"STATE 1 ", b"break 2\n"), (b"STATE 1 ", b"break 1\nwatch A\n")))
    for number, other in enumerate(others):
        yield f"another session, {number}", one, other
    for shown in ((b"other", PROMPT), (b"text", b"other")):
        yield f"a command that is not stopped: {shown[0].decode()}", True, stopped_at_once(Showing(b"", *shown), b"", b"text")
    for shown in ((b"Breakpoint at 4 SHOW", b""), (b"Breakpoint at 1 MAKE", b"Breakpoint at 4 SHOW"), (b"", b"")):
        yield f"ended by other lines: {shown[0].decode()}", (True, False), ended_by(Showing(*shown), b"")[:2]
    yield "ended with another status", 0, ended_by(Showing(b"Breakpoint at 1 MAKE"), b"")[2]
    for words in ("echo b", "echo a >&2", "echo a; exit 1"):
        yield f"another answer: {words}", said(["sh", "-c", "echo a"]), said(["sh", "-c", words])


if __name__ == "__main__":
    if len(sys.argv) < 2 or sys.argv[2:] not in ([], ["--whole"]):
        sys.exit(__doc__)
    sys.exit(report(trials(str(Path(sys.argv[1]).resolve()), bool(sys.argv[2:])), canaries()))
