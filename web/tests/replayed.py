"""Whether trials in Chromium look at what the page answers: each is made again, without a browser, on answers that are wrong.

What the browser answered in a trial is kept (`Kept`). On answers that are wrong in a way, from one of them on (`Wrong`), what a
trial looks at must come to fail. `asleep` names what does not, in none of the ways: it says the same of any page.
"""
from __future__ import annotations

import contextlib
import copy
import io
import json
import re
from collections import Counter
from collections.abc import Callable, Iterator
from pathlib import Path
from typing import Any

from browser import NotBegun
from page import Page

Call = tuple[str, str, Any]  # a method of the browser, what it was called with, and what it answered
Way = Callable[[Any, int], Any]  # makes an answer a wrong one, by its number
Look = tuple[str, int]  # what is looked at, and how often that was looked at before
FAR = 100_000  # by which a number is another one
MOST_PARTS = 12  # of a list that are looked at one by one
NEAR = 6  # answers just before what is looked at
EVERY = 3  # of the answers: all of them are wrong, or each third one, so that two that are compared are not wrong alike

# Letters and digits, and others in their place: of a hexadecimal digit another one, so that a colour stays one.
OTHERS = str.maketrans("abcdefghijklmnopqrstuvwxyzABCDEFGHIJKLMNOPQRSTUVWXYZ0123456789",
                       "bcdefahijklmnopqrstuvwxyzgBCDEFAHIJKLMNOPQRSTUVWXYZG1234567890")
SIGNS = re.compile(r"&\w+;|\w+")  # a sign of XML by its name, or letters and digits


class Ended(Exception):
    """More is asked than the browser was asked before."""


class Kept:
    """A browser that keeps what it answers."""

    def __init__(self, browser: Any) -> None:
        self._browser = browser
        self.calls: list[Call] = []

    def __getattr__(self, name: str) -> Any:
        own = getattr(self._browser, name)

        def called(*words: object, **more: object) -> object:
            try:
                found = own(*words, **more)
            except (AssertionError, NotBegun) as error:
                self.calls.append((name, repr((words, more)), error))
                raise
            kept = words[0].read_bytes() if name == "picture" and isinstance(words[0], Path) else copy.deepcopy(found)
            self.calls.append((name, repr((words, more)), kept))
            return found
        return called


class Wrong:
    """A browser that answers what another one did, but wrong from one of its answers on."""

    def __init__(self, calls: list[Call], is_wrong: Callable[[int], bool], way: Way, first: int = 0) -> None:
        self._calls, self._is_wrong, self._way, self._first = calls, is_wrong, way, first
        self._left: dict[tuple[str, str], list[int]] = {}
        for at, (name, words, _) in enumerate(calls):
            self._left.setdefault((name, words), []).append(at)
        self._oldest = {call: places[0] for call, places in self._left.items()}
        self.at = -1  # the number of the last answer

    def __getattr__(self, name: str) -> Any:
        def called(*words: object, **more: object) -> object:
            # (where the words depend on a wrong answer, it is the next call of this kind)
            left = self._left.get((name, repr((words, more))))
            at = left.pop(0) if left else self._next(name)
            self.at = max(self.at, at)
            found = self._found(at)
            if isinstance(found, Exception):
                raise found
            if name == "picture" and isinstance(words[0], Path):
                words[0].write_bytes(found)
                return None
            return found
        return called

    def _found(self, at: int) -> Any:
        """An answer, or what is raised."""
        name, words, right = self._calls[at]
        found = copy.deepcopy(right)
        if at < self._first or not self._is_wrong(at) or (found is None and name != "value"):
            return found
        if self._way is stuck:
            return copy.deepcopy(self._calls[self._oldest[name, words]][2])
        return type(found)(self._way(str(found), at)) if isinstance(found, Exception) else self._way(found, at)

    def _next(self, name: str) -> int:
        found = next((at for at in range(self.at + 1, len(self._calls)) if self._calls[at][0] == name), None)
        if found is None:
            raise Ended(name)
        return found


class Watched(Page):
    """A page of which is noted what is looked at, whether it was right, and how many answers came before."""

    browser: Any  # a Browser, or what stands for one

    def __init__(self, browser: Any, file: Path) -> None:
        super().__init__(browser, file)
        self.begin()

    def begin(self) -> None:
        """Notes from now on what is looked at."""
        self.looks: list[tuple[Look, bool, int]] = []
        self._times: Counter[str] = Counter()

    def right(self, what: str, is_right: bool | tuple[object, ...], tell: str = "") -> None:
        parts = is_right if isinstance(is_right, tuple) else (is_right,)
        self._note(what, bool(parts) and all(parts))
        if len(parts) > 1:
            self._note_parts(what, [bool(it) for it in parts], [True] * len(parts))
        super().right(what, is_right, tell)

    def same(self, what: str, got: object, want: object) -> None:
        if isinstance(got, list) and isinstance(want, list) and 1 < len(want) <= MOST_PARTS:
            self._note_parts(what, got, want)
        super().same(what, got, want)

    def _note_parts(self, what: str, got: list[Any], want: list[Any]) -> None:
        """Notes each part of what is looked at, but what is wrong, which may be nothing of a wrong page, too."""
        for at, part in enumerate(want):
            if part != []:
                self._note(f"{what}, part {at + 1}", len(got) == len(want) and got[at] == part)

    def _note(self, what: str, is_right: bool) -> None:
        calls = len(self.browser.calls) if isinstance(self.browser, Kept) else 0
        self.looks.append(((what, self._times[what]), is_right, calls))
        self._times[what] += 1


def more(value: Any, at: int) -> Any:
    """A greater number, a longer text or list."""
    if isinstance(value, bool):
        return not value
    if isinstance(value, (int, float)):
        return value + at + 1
    if isinstance(value, str):
        return f"{value}{at}"
    if isinstance(value, list):
        return [*each(more, value, at), at]
    return {**each(more, value, at), f"{at}": at} if isinstance(value, dict) else each(more, value, at) if value else at


def less(value: Any, at: int) -> Any:
    """A lower number, a text without its begin that goes backwards."""
    if isinstance(value, bool):
        return not value
    if isinstance(value, (int, float)):
        return -at - 1
    if isinstance(value, (str, bytes)):
        return value[1:][::-1]
    return each(less, value, at) if value else ""


def nothing(value: Any, at: int) -> Any:
    """No number, text or list; where there was none, one."""
    if isinstance(value, (bool, int, float)):
        return type(value)(not value)
    if isinstance(value, str):
        return "" if value else str(at)
    if isinstance(value, list):
        return [] if value else [at]
    return each(nothing, value, at) if value else []


def mixed(value: Any, at: int) -> Any:
    """One part is wrong in one way, and the next one in another."""
    if isinstance(value, (dict, list)) and value:
        return each(mixed, value, at)
    return (less, more, nothing)[at % 3](value, at)


def mixed_otherwise(value: Any, at: int) -> Any:
    """The same, by other ways."""
    return mixed(value, at + 1)


def other(value: Any, at: int) -> Any:
    """Other letters and digits, among the same signs; an object as a text with others in its values."""
    if isinstance(value, str) and value.startswith("{"):
        with contextlib.suppress(ValueError):
            return json.dumps(each(other, json.loads(value), at))
    if isinstance(value, dict):
        return {other(key, at): other(it, at + place) for place, (key, it) in enumerate(value.items())}
    if isinstance(value, str):
        return SIGNS.sub(lambda it: it[0] if it[0].startswith("&") else it[0].translate(OTHERS), value)
    return each(other, value, at) if isinstance(value, (dict, list, tuple)) and value else less(value, at)


def numbers_alone(value: Any, at: int) -> Any:
    """Far greater numbers, and the same texts."""
    if isinstance(value, (int, float)) and not isinstance(value, bool):
        return value + FAR + at
    return each(numbers_alone, value, at) if isinstance(value, (dict, list, tuple)) else value


def stuck(value: Any, _at: int) -> Any:
    """What was answered to the same question the first time: nothing goes on."""
    return value


def each(way: Way, value: Any, at: int) -> Any:
    """A list, a pair or a table of which each part is wrong in a way, and no two alike."""
    if isinstance(value, dict):
        return dict(zip(value, each(way, list(value.values()), at)))
    return type(value)(way(it, at + place) for place, it in enumerate(value)) if isinstance(value, (list, tuple)) else value


WAYS: tuple[Way, ...] = (more, nothing, less, mixed, mixed_otherwise, other, numbers_alone, stuck)


def asleep(one: Callable[[Page], None], watched: Watched, calls: list[Call]) -> list[str]:
    """What a trial looked at that says the same whatever the browser answers, but what stands behind what was waited for."""
    left = {look: before for look, _, before in watched.looks if not (before and calls[before - 1][0] == "wait")}

    def see(is_wrong: Callable[[int], bool], way: Way, first: int) -> int:
        page = again(one, watched.file, Wrong(calls, is_wrong, way, first))
        for look, is_right, _ in page.looks:
            if not is_right:
                left.pop(look, None)
        return max(first, page.browser.at) + 1

    for is_wrong, way in ((part, way) for part in parts() for way in WAYS):
        first = 0
        while left and first < len(calls):
            first = see(is_wrong, way, first)
    # (what comes before may decide what is looked at: it is right where just answers before are wrong, or those to one question)
    for look, before in list(left.items()):
        for at, way in ((at, way) for at in range(before - 1, max(before - 1 - NEAR, -1), -1) for way in WAYS):
            if look in left:
                see(lambda _: True, way, at)
            if look in left:
                see(same_question(calls, at), way, 0)
    return [what for (what, time), _, _ in watched.looks if (what, time) in left]


def same_question(calls: list[Call], at: int) -> Callable[[int], bool]:
    """Which answers are to the same question as one of them."""
    return lambda other: calls[other][:2] == calls[at][:2]


def again(one: Callable[[Page], None], file: Path, browser: Wrong) -> Watched:
    """Makes a trial again, up to where it breaks on what it can't be answered."""
    page = Watched(browser, file)
    with contextlib.redirect_stdout(io.StringIO()), contextlib.suppress(Exception):
        one(page)
    return page


def parts() -> Iterator[Callable[[int], bool]]:
    """Which answers are wrong: all, or one in so many."""
    yield lambda _: True
    for first in range(EVERY):
        yield lambda at: at % EVERY == first
