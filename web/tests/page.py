"""The page in a browser, as the trials in Chromium use it, and the count of what was right."""
from __future__ import annotations

import json
import sys
from collections.abc import Callable
from pathlib import Path

from browser import Browser

TOP = Path(__file__).resolve().parent.parent.parent
TRIALS: list[Callable[[Page], None]] = []
SHOWN = 600  # characters of what differs
NOTE = """(async () => {
    while (document.body.classList.contains('busy')) await new Promise(it => setTimeout(it, 10));
    return document.getElementById('run-note').textContent;
})()"""


class Page:
    """The page in a browser, and the count of what was right."""

    def __init__(self, browser: Browser, file: Path) -> None:
        self.browser, self.file = browser, file
        self.passed = self.failed = 0
        self.trial = ""

    def open(self, fragment: str = "", keeps: bool = False) -> None:
        """Opens the page, without what was typed into it before, unless that is to be kept."""
        if not keeps:
            self.browser.value("window.l6 && (clearTimeout(l6.keeper?.timer), localStorage.removeItem('l6.work'))")
        self.browser.open(self.file, fragment)
        self.value("l6.telling")

    def put(self, deck: str, text: str = "", **options: int) -> None:
        """Puts a job into the page, as an opened file does."""
        job = json.dumps({"deck": deck, "input": text, "options": options})
        self.value(f"l6.library.example = null, l6.put({job})")

    def example(self, key: str, state: int | None = None) -> None:
        """Opens an example, and goes to one of its states."""
        self.value(f"l6.library.openExample({json.dumps(key)})")
        if state is not None:
            self.do(f"l6.state({state})")

    def value(self, script: str):
        """What a script answers."""
        return self.browser.value(script)

    def do(self, script: str):
        """Has the page do something, and waits until it is done, and the run is read.

        A picture that is drawn before the run is read may be another one, so it must not depend on the machine
        which of the two a trial sees.
        """
        return self.value(f"(async () => {{ await ({script}); await l6.telling; }})()")

    def becomes(self, what: str, script: str, want: object) -> None:
        """Waits until a script answers what it must, and says what it does answer."""
        text = json.dumps(want, separators=(",", ":"), ensure_ascii=False)
        try:
            self.browser.wait(f"(async () => JSON.stringify((await ({script})) ?? null) === {json.dumps(text)})()")
        except AssertionError:
            pass
        self.same(what, self.value(script), want)

    def took(self, act: Callable[[], object]) -> tuple[float, float]:
        """The milliseconds of processor time that something takes: of the page's main thread, and of all threads."""
        begun = self.browser.processor_time()
        act()
        ended = self.browser.processor_time()
        return ended[0] - begun[0], ended[1] - begun[1]

    def click(self, name: str) -> None:
        """Clicks a control, and waits until what it began is done."""
        self.browser.click(f"#{name}")
        self.settle()

    def key(self, key: str, modifiers: int = 0) -> None:
        self.browser.key(key, modifiers=modifiers)
        self.settle()

    def settle(self) -> None:
        """Waits until nothing is done any more, and the run is read."""
        self.browser.wait("!l6.isBusy")
        self.value("l6.telling")

    def fill(self, name: str, text: str | int, event: str = "input") -> None:
        """Puts a text into a box, as if it were typed."""
        value = json.dumps(str(text))
        self.value(f"(e => {{ e.value = {value}; e.dispatchEvent(new Event('{event}')); }})({element(name)})")

    def focus(self, name: str, cursor: int | None = None) -> None:
        """Puts the focus into a text box, and the cursor at a place in it."""
        self.value(f"{element(name)}.focus()")
        if cursor is not None:
            self.value(f"{element(name)}.setSelectionRange({cursor}, {cursor})")

    def text(self, name: str) -> str:
        """The text of an element."""
        return self.value(f"{element(name)}.textContent")

    def note(self) -> str:
        """What the page tells, after what takes longer than a moment."""
        return self.value(NOTE)

    def box(self, name: str) -> str:
        """What a box holds."""
        return self.value(f"{element(name)}.value")

    def label(self, name: str) -> str:
        """What a screen reader says of an element."""
        return self.value(f"{element(name)}.getAttribute('aria-label')")

    def count(self, selector: str) -> int:
        """How many elements there are."""
        return self.value(f"document.querySelectorAll({json.dumps(selector)}).length")

    def state(self) -> int:
        return self.value("l6.view?.state.number ?? -1")

    def same(self, what: str, got: object, want: object) -> None:
        self.right(what, got == want, f"got {got!r}, want {want!r}")

    def right(self, what: str, is_right: bool | tuple[object, ...], tell: str = "") -> None:
        """Counts whether something is right; of a tuple, whether all of its parts are."""
        if is_right and (not isinstance(is_right, tuple) or all(is_right)):
            self.passed += 1
        else:
            self.failed += 1
            print(f"{self.trial}: {what}: {tell[:SHOWN]}")

    def has(self, what: str, text: str, part: str) -> None:
        self.right(what, part in text, f"{part!r} is not in {text!r}")


def element(name: str) -> str:
    """The script of an element with an id."""
    return f"document.getElementById({json.dumps(name)})"


def trial(function: Callable[[Page], None]) -> Callable[[Page], None]:
    """Puts a function among the trials."""
    TRIALS.append(function)
    return function


if __name__ == "__main__":
    sys.exit("page.py is no program")
