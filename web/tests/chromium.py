#!/usr/bin/env python3
"""Tries the page in headless Chromium, as its readers do.

chromium.py [PAGE] prints what differs, and last 'N passed, M failed'. With --tell it names each trial, and
how long it took; with --only NAME it does that one alone, with --part I/N each N-th, from the I-th on, with --long
those of large things, of whole runs and of the lesson, and with --quick all others. With --pictures FOLDER it writes
a picture of each deck of the gallery there, for you to look at.
"""
from __future__ import annotations

import contextlib
import io
import os
import sys
import time
from collections.abc import Callable
from pathlib import Path

sys.dont_write_bytecode = True

import trial_runs  # noqa: E402, F401
import trial_decks  # noqa: E402, F401
import trial_controls  # noqa: E402, F401
import trial_class  # noqa: E402, F401
import trial_store  # noqa: E402, F401
import trial_large  # noqa: E402, F401
import trial_lesson  # noqa: E402, F401
import trial_stays  # noqa: E402, F401
import trial_walks  # noqa: E402, F401
import trial_views  # noqa: E402, F401
import trial_outside  # noqa: E402, F401
import trial_seldom  # noqa: E402, F401
import trial_looks  # noqa: E402
import trial_lines  # noqa: E402, F401
import trial_small  # noqa: E402, F401
import trial_tasks  # noqa: E402, F401
import trial_kept  # noqa: E402, F401
import trial_hands  # noqa: E402, F401
import trial_letters  # noqa: E402, F401
import trial_marks  # noqa: E402, F401
import trial_model  # noqa: E402, F401
import trial_ways  # noqa: E402, F401
import trial_told  # noqa: E402, F401
import trial_style  # noqa: E402, F401
import trial_beside  # noqa: E402, F401
import trial_exact  # noqa: E402, F401
import trial_edges  # noqa: E402, F401
import trial_ends  # noqa: E402, F401
import trial_names  # noqa: E402, F401
import trial_asked  # noqa: E402, F401
import trial_said  # noqa: E402, F401
from browser import Browser, NotBegun  # noqa: E402
from lines import LINES, CountedBrowser  # noqa: E402
from page import TOP, TRIALS, Page  # noqa: E402
from replayed import Kept, Watched, asleep  # noqa: E402


MOST_LOOKS = 1000  # of a trial that is made again: that of all states has more, takes long, and is tried in harness_trials.py
LONG = ("trial_large", "trial_lesson", "trial_walks")  # modules whose trials take long


def canaries(page: Watched) -> None:
    """What is wrong must be counted as wrong, and so must a look at nothing: if it is not, no trial says anything."""
    def breaks(_: Page) -> None:
        raise AssertionError("it must be counted")

    def differs(got: object, want: object) -> Callable[[Page], None]:
        return lambda it: it.same("what is there, and what is to be", got, want)

    looks: list[Callable[[Page], None]] = [
        lambda it: it.same("1", 1, 2),
        lambda it: it.has("2", "ab", "c"),
        lambda it: it.has("text in none", "", "c"),
        lambda it: it.right("3", False),
        breaks,
        *(differs(*both) for pair in ((1, 0), ("a", ""), ([1], []), (None, ""), (True, False)) for both in (pair, pair[::-1])),
    ]
    with contextlib.redirect_stdout(io.StringIO()):
        for look in looks:
            try_one(page, look)
        try_watched(page, lambda it: it.right("4", it.value("1") != "it is none"))
    if (page.passed, page.failed) != (1, len(looks) + 1):
        sys.exit("chromium.py does not count what is wrong")
    page.passed = page.failed = 0


def try_one(page: Page, one: Callable[[Page], None]) -> None:
    """Does one trial. Whatever breaks it, the others are tried."""
    try:
        one(page)
    except NotBegun:
        raise
    except Exception as error:
        page.right("it ends", False, f"{type(error).__name__}: {error}")


def try_watched(page: Watched, one: Callable[[Page], None]) -> None:
    """Does one trial, and then again on what the browser answered, but wrong: all that it looks at must see that."""
    browser, failed = page.browser, page.failed
    page.browser = kept = Kept(browser)
    page.begin()
    try:
        try_one(page, one)
    finally:
        page.browser = browser
    if page.failed == failed and len(page.looks) <= MOST_LOOKS:
        page.same("what is right of a page that is wrong, too", asleep(one, page, kept.calls), [])


def try_all(page: Watched, trials: list[Callable[[Page], None]], tells: bool) -> None:
    """Does some trials, as long as the page begins."""
    for one in trials:
        page.trial = one.__name__.replace("_", " ")
        begun = time.monotonic()
        try:
            try_watched(page, one)
            try_one(page, lambda it: it.same("the page has no troubles", it.browser.troubles(), []))
        except NotBegun as error:
            page.right("the page begins", False, str(error))
            return
        if tells:
            print(f"{time.monotonic() - begun:5.1f} s  {page.trial}", file=sys.stderr, flush=True)


def chosen(words: list[str]) -> list[Callable[[Page], None]]:
    """The trials that the words of the command line ask for; those words are taken out."""
    def taken(name: str) -> str:
        if name not in words:
            return ""
        at = words.index(name)
        value = words[at + 1]
        del words[at:at + 2]
        return value

    only, part = taken("--only"), taken("--part")
    trials = [it for it in TRIALS if it.__name__ == only.replace(" ", "_")] if only else TRIALS
    if "--quick" in words or "--long" in words:
        trials = [it for it in trials if (it.__module__ in LONG) == ("--long" in words)]
    first, step = map(int, part.split("/")) if part else (1, 1)
    return trials[first - 1::step]


def main() -> int:
    """Tries all; answers the exit status."""
    words = sys.argv[1:]
    folder = Path(words.pop(words.index("--pictures") + 1)) if "--pictures" in words else None
    trials = chosen(words)
    files = [Path(it) for it in words if not it.startswith("--")]
    file = files[0] if files else TOP / "dist" / "l6.html"
    counted = os.environ.get(LINES, "")
    with CountedBrowser() if counted else Browser() as browser:
        if folder:
            trial_looks.pictures(browser, file, folder)
            return 0
        page = Watched(browser, file)
        canaries(page)
        try_all(page, trials, "--tell" in words)
        if isinstance(browser, CountedBrowser):
            browser.write(Path(counted))
    print(f"{page.passed} passed, {page.failed} failed")
    return 1 if page.failed else 0


if __name__ == "__main__":
    sys.exit(main())
