"""The engine: the proved program l6db, over pipes, asked one line at a time.

It is started with --echo, so it repeats each line before its answer. To each line a second one is added, a mark
that is drawn for each engine, so that nothing which a deck prints can be taken for it. What comes is the line, its
answer, the mark, and that the mark is no command.
"""
from __future__ import annotations

import os
import select
import subprocess
import sys
import time

PATIENCE = 0.5  # seconds until it is shown that a command goes on
GLANCE = 0.1  # seconds between two looks whether there is an answer
PIECE = 1 << 16  # bytes that are read at a time
WRONG = b"Not a command: help lists them\n"


class Ended(Exception):
    """The engine has ended."""


class Engine:
    """An engine that runs."""

    def __init__(self, words: list[str]) -> None:
        # (a session of its own: Ctrl-C and Ctrl-Z at the terminal are not for it, and its end is that of its input)
        self._process = subprocess.Popen(
            [*words, "--echo"], stdin=subprocess.PIPE, stdout=subprocess.PIPE, stderr=subprocess.PIPE,
            start_new_session=True,
        )
        self._mark = f"mark-{os.urandom(8).hex()}\n".encode()
        try:
            self.first = self._talk(b"")
        except KeyboardInterrupt:  # (nobody else knows this engine)
            self.stop()
            raise

    def ask(self, line: str) -> str:
        """The answer to a line that has words."""
        return self._talk(line.encode("utf-8", "surrogateescape") + b"\n")

    def _talk(self, given: bytes) -> str:
        """What is shown after a line, or at the beginning."""
        assert self._process.stdin and self._process.stdout
        end = self._mark + WRONG
        try:
            self._process.stdin.write(given + self._mark)
            self._process.stdin.flush()
        except BrokenPipeError as broken:
            raise Ended from broken
        shown, progress = b"", Progress()
        try:
            while not shown.endswith(end):
                if not select.select([self._process.stdout], [], [], GLANCE)[0]:
                    progress.show()
                    continue
                more = os.read(self._process.stdout.fileno(), PIECE)
                if not more:
                    raise Ended
                shown += more
        finally:
            progress.clear()
        return shown[len(given):-len(end)].decode("utf-8", "surrogateescape")

    def stop(self) -> None:
        """Ends it at once. A run follows from its deck, input and options, so nothing is lost but time."""
        self._process.kill()
        self._process.wait()

    def last_words(self) -> tuple[int, str]:
        """The status with which it ended, and what it wrote to standard error."""
        assert self._process.stderr
        return self._process.wait(), self._process.stderr.read().decode("utf-8", "replace")


class Progress:
    """A line that says that a command goes on."""

    def __init__(self) -> None:
        self._begun = time.monotonic()
        self._is_shown = False

    def show(self) -> None:
        """Shows it, once the patience is over."""
        took = time.monotonic() - self._begun
        if took > PATIENCE and sys.stderr.isatty():
            sys.stderr.write(f"\r\033[2K{took:5.1f} s; Ctrl-C stops the command, not the session")
            sys.stderr.flush()
            self._is_shown = True

    def clear(self) -> None:
        """Takes it away."""
        if self._is_shown:
            sys.stderr.write("\r\033[2K")
            sys.stderr.flush()
