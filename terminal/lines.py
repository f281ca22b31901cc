"""The lines that are typed: edited, kept and completed where there is readline."""
from __future__ import annotations

import os
from pathlib import Path

from deck import Deck

try:
    import readline
except ImportError:
    readline = None  # type: ignore[assignment]

MOST_LINES = 2_000  # of the history
OWN = ["reload", "view"]  # commands of the front end
# What follows the words of the engine's commands, for completion.
AT_PLACE = set("break b tbreak tb until u advance delete d clear enable disable condition list l".split())
AT_CHAIN = set("watch unwatch display undisplay print p block x who".split())
AT_FILE = {"source", "save"}
AT_COMMAND = {"help", "h"}
AT_INFO = {"info", "i"}
INFO = "breakpoints watchpoints display checkpoints program locals fields frame stack line source".split()
MOST_NAMES = 6  # of a chain


class Lines:
    """Lines of a terminal."""

    def __init__(self, deck: Deck, words: Path) -> None:
        self._deck = deck
        self._known = sorted({*words.read_text("utf-8").split(), *OWN})
        self._file = history_file()
        self._found: list[str] = []
        if readline is None:
            return
        try:
            readline.read_history_file(self._file)
        except OSError:
            pass  # (there is none yet)
        readline.set_history_length(MOST_LINES)
        readline.set_completer_delims(" \t")
        readline.set_completer(self._complete)
        is_editline = "libedit" in (readline.__doc__ or "")
        readline.parse_and_bind("bind ^I rl_complete" if is_editline else "tab: complete")
        if not is_editline:
            readline.parse_and_bind("set show-all-if-ambiguous on")

    def read(self, prompt: str) -> str:
        """A line that is typed."""
        return input(prompt)

    @property
    def typed(self) -> str:
        """What is typed of the line so far."""
        return readline.get_line_buffer() if readline else ""

    def keep(self) -> None:
        """Writes the history, which others may not read."""
        if readline is None:
            return
        before = os.umask(0o077)
        try:
            self._file.parent.mkdir(parents=True, exist_ok=True)
            readline.write_history_file(self._file)
        except OSError:
            pass  # (a session is worth more than its history)
        finally:
            os.umask(before)

    def _complete(self, text: str, number: int) -> str | None:
        """What completes a word, one after another."""
        if number == 0:
            self._found = self.completions(text, readline.get_line_buffer()[:readline.get_begidx()])
        return self._found[number] if number < len(self._found) else None

    def completions(self, text: str, before: str) -> list[str]:
        """What completes a word, after what is before it on the line."""
        words = before.split()
        verb = words[0].lower().partition("/")[0] if words else ""
        if verb in AT_CHAIN:
            names = self._deck.fields if text else self._deck.bugs
            return [text.upper() + it for it in names] if len(text) < MOST_NAMES else []
        folded = text.lower()
        found = [it for it in self._offered(verb, text) if it.lower().startswith(folded)]
        return [it if it.endswith("/") else f"{it} " for it in found]

    def _offered(self, verb: str, text: str) -> list[str]:
        """All that may stand after the word of a command, or at the beginning of a line."""
        if not verb or verb in AT_COMMAND:
            return self._known
        if verb in AT_PLACE:
            return self._deck.labels
        if verb in AT_INFO:
            return INFO
        if verb in AT_FILE:
            folder = Path(text).parent if "/" in text else Path()
            return sorted(f"{it}/" if it.is_dir() else str(it) for it in folder.glob("*"))
        return []


def history_file() -> Path:
    """The file of the history, in the folder for the state of programs."""
    state = os.environ.get("XDG_STATE_HOME", "")
    folder = Path(state) if state.startswith("/") else Path.home() / ".local" / "state"
    return folder / "l6" / "l6db_history"
