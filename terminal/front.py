"""A session at a terminal, between the lines that are typed and the engine."""
from __future__ import annotations

import os
import shlex
import shutil
import signal
import subprocess
import sys
from collections import deque
from collections.abc import Iterator
from contextlib import contextmanager
from pathlib import Path

from deck import Deck
from engine import Ended, Engine
from lines import Lines
from snapshot import Snapshot
from view import Paint, View

PROMPT = "(l6db) "
CLEARED = "\r\033[2K"  # the line of the cursor
QUITTING = {"quit", "q", "exit"}
RUNNING = {"run", "r", "restart"}
WORDS = Path(__file__).resolve().parent / "words"
MOST_SOURCES = 1_000  # files that are obeyed for one line that is typed, as many as the engine obeys in a session


@contextmanager
def unbroken() -> Iterator[None]:
    """Ctrl-C counts for nothing meanwhile: what is asked on the way takes no time, and a pager knows it itself."""
    before = signal.signal(signal.SIGINT, signal.SIG_IGN)
    try:
        yield
    finally:
        signal.signal(signal.SIGINT, before)


class Front:
    """A session at a terminal."""

    def __init__(self, words: list[str]) -> None:
        self._words = words  # the engine and what it is started with
        self._deck = Deck(words[1:])
        self._engine = Engine(words)
        self._paint = Paint()
        self._view = View(self._deck, self._paint)
        self._lines = Lines(self._deck, WORDS)
        self._last, self._is_reading = "", False
        self._waiting: deque[str] = deque()  # the lines of files that are obeyed
        self._sources = 0  # how many files these are
        self._told = self._deck.stamp  # of the file, when it was last said that it has changed
        self._own = {"reload": self._reload_and_show, "source": self._source, "save": self._save, "view": self._keep_view}

    def run(self) -> int:
        """Obeys lines up to the end; answers the exit status."""
        self._show(self._engine.first)
        signal.signal(signal.SIGCONT, lambda *_: self._go_on())
        try:
            while self._obey_next():
                pass
        except Ended:
            status, said = self._engine.last_words()
            sys.stderr.write(said)
            return status
        finally:
            self._lines.keep()
            self._view.leave()
        return 0

    def _obey_next(self) -> bool:
        """Reads a line and obeys it. Answers whether the session goes on."""
        self._tell_changes()
        self._view.fit()
        self._is_reading = True
        try:
            line = self._lines.read(PROMPT)
        except KeyboardInterrupt:
            print("^C")
            return True
        except EOFError:
            print()
            return False
        finally:
            self._is_reading = False
        self._last = line if line.strip() else self._last
        try:
            return self._obey_typed(self._last)
        except KeyboardInterrupt:  # (what goes on as before is said where that is known)
            return True

    def _go_on(self) -> None:
        """Shows the prompt again after Ctrl-Z and fg: readline waits for a key before it does."""
        self._view.frame()
        if self._is_reading:
            sys.stdout.write(f"\r{PROMPT}{self._lines.typed}")
            sys.stdout.flush()

    def _tell_changes(self) -> None:
        """Says once that the file of the deck has changed."""
        now = self._deck.stamp_now()
        if now not in (self._told, self._deck.stamp):
            self._told = now
            print(self._paint.put("33", f"{self._deck.path} has changed: reload reads it again"))

    def _obey_typed(self, line: str) -> bool:
        """Obeys a line that is typed, and those of the files that it names. Answers whether the session goes on.

        The lines wait here, and not in calls: a file may name itself.
        """
        self._waiting.clear()
        self._sources = 0
        goes_on = self._obey(line)
        while goes_on and self._waiting:
            line = self._waiting.popleft()
            print(self._paint.put("2", line))
            goes_on = self._obey(line)
        return goes_on

    def _obey(self, line: str) -> bool:
        """Obeys a line. Answers whether the session goes on."""
        verb, _, rest = line.strip().partition(" ")
        verb, rest = verb.lower(), rest.strip()
        if verb in QUITTING and not rest:
            return False
        if verb in self._own:
            self._own[verb](rest)
            return True
        if verb in RUNNING and self._deck.stamp_now() != self._deck.stamp:
            self._reload()
        if verb:
            self._give(line)
        return True

    def _give(self, line: str) -> None:
        """Gives a line to the engine, and shows the answer. Ctrl-C stops the command."""
        with unbroken():
            before = Snapshot.of(self._engine)
        try:
            text = self._engine.ask(line)
        except KeyboardInterrupt:
            self._come_back(before)
        else:
            self._show(text)

    def _come_back(self, before: Snapshot) -> None:
        """Comes back to where the session was before a command, by another engine. What waits is obeyed no longer."""
        with unbroken():
            self._waiting.clear()
            self._engine.stop()
        print(f"{CLEARED}Stopped: the session is at state {before.number}, as before")
        while True:
            try:
                self._engine = Engine(self._words)
                before.bring(self._engine)
                break
            except KeyboardInterrupt:
                self._engine.stop()
                before = before.at_start()
                print(f"{CLEARED}Stopped: the session is at the start")
        self._show_place()

    def _show(self, text: str) -> None:
        """Shows an answer, by a pager where it is longer than the terminal."""
        self._view.follow(text)
        self._view.draw()
        height = shutil.get_terminal_size().lines - self._view.rows
        painted = self._paint.answer(text)
        pager = shlex.split(os.environ.get("PAGER", "less"))
        if text.count("\n") >= height and sys.stdout.isatty() and pager and shutil.which(pager[0]):
            self._view.leave()
            with unbroken():
                subprocess.run(
                    pager, input=painted.encode("utf-8", "surrogateescape"), check=False, env={"LESS": "-FRX", **os.environ}
                )
            self._view.frame()
            return
        sys.stdout.write(painted)
        sys.stdout.flush()

    def _show_place(self) -> None:
        """Shows where the session is."""
        with unbroken():
            text = self._engine.ask("step 0")
        self._show(text)

    def _reload_and_show(self, _: str) -> None:
        """Debugs the deck as its file is now, and shows where that leads."""
        if self._reload():
            self._show_place()

    def _reload(self) -> bool:
        """Debugs the deck as its file is now, at the state of the same number. Answers whether it does.

        Ctrl-C stops it, and the command that it belongs to; then the session goes on with the deck before.
        """
        with unbroken():
            before = Snapshot.of(self._engine)
        self._told = self._deck.stamp_now()
        try:
            return self._read_again(before)
        except KeyboardInterrupt:
            print(f"{CLEARED}Stopped: the session is still with the deck before")
            raise

    def _read_again(self, before: Snapshot) -> bool:
        """Takes an engine for the deck as its file is now, at that snapshot; answers whether there is one."""
        engine = None
        try:
            engine = Engine(self._words)
            lost = before.bring(engine)
        except KeyboardInterrupt:
            if engine:
                engine.stop()
            raise
        except Ended:
            print("The deck has errors; the session is still with the one before.")
            said = subprocess.run([*self._words, "--batch"], stdin=subprocess.DEVNULL, capture_output=True, check=False)
            sys.stdout.write(said.stderr.decode("utf-8", "replace"))
            return False
        with unbroken():
            self._engine.stop()
            self._engine = engine
            self._deck.read()
        print(f"Read {self._deck.path} again")
        for line in lost:
            print(f"No place there for: {line}")
        return True

    def _source(self, name: str) -> None:
        """Has the lines of a file obeyed, before those that wait; a line that begins with a # is a comment."""
        self._sources += 1
        if self._sources > MOST_SOURCES:
            self._waiting.clear()
            print(f"{name}: {MOST_SOURCES} files were obeyed before it; no more are, for one line")
            return
        try:
            lines = Path(name).expanduser().read_text("utf-8").splitlines()
        except (OSError, UnicodeDecodeError) as error:
            print(f"{name or 'source'}: {reason_of(error)}")
            return
        self._waiting.extendleft(reversed([line for line in lines if line.strip() and not line.startswith("#")]))

    def _save(self, name: str) -> None:
        """Writes the commands that lead a new session to this one, or shows them where no file is named."""
        if not name:
            self._give("save")
            return
        with unbroken():
            lines = Snapshot.of(self._engine).lines
        try:
            Path(name).expanduser().write_text("".join(f"{line}\n" for line in lines), "utf-8")
        except OSError as error:
            print(f"{name or 'save'}: {reason_of(error)}")
            return
        print(f"{name}: {len(lines)} commands")

    def _keep_view(self, word: str) -> None:
        """Keeps cards in view, or not."""
        self._view.leave()
        self._view.is_on = word.lower() != "off"
        self._show_place()
        self._view.frame()


def reason_of(error: Exception) -> str:
    """Why a file can't be read or written."""
    return (isinstance(error, OSError) and error.strerror) or "it is no text in UTF-8"


def play(program: str, words: list[str]) -> int:
    """Plays a session; answers the exit status."""
    try:
        front = Front([program, *words])
    except Ended:
        # (what is wrong with the deck or the words is the engine's to say)
        return subprocess.run([program, *words], stdin=subprocess.DEVNULL, check=False).returncode
    except KeyboardInterrupt:  # (the commands of -x or of the job went on)
        return 128 + signal.SIGINT
    return front.run()
