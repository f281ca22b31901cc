"""Trials, and the count that ends a script of tests."""
from __future__ import annotations

import dataclasses
import multiprocessing
import os
from collections.abc import Callable, Iterable, Iterator, Mapping

from answers import Answer, answer, answer_of

Trial = tuple[str, object, object]  # a name, what is expected, and the actual value
SHOWN = 300  # characters of a value
BEFORE = 40  # how many of them come before the first difference of two texts
ONLY = "L6_ONLY"  # a variable of the environment: only trials with this text in their names are made


def report(trials: Iterable[Trial], canaries: Iterable[Trial] = ()) -> int:
    """Makes the trials, prints their differences and the count, and returns the exit status.

    First come canaries, none of which may pass: an answer that is wrong in one part, and those of the script.
    If one of them passes, the script does not see what it is to look at, and no trial counts as passed.
    """
    missed = list(missed_canaries(canaries))
    if missed:
        print(*(f"a canary that must fail, or one that must pass: {name}" for name in missed), sep="\n")
    passed, failed = tally(filter(is_chosen, trials))
    if missed:
        print(f"0 passed, {len(missed) + failed} failed")
        return 1
    print(f"{passed} passed, {failed} failed")
    return 1 if failed else 0


def tally(trials: Iterable[Trial], is_shown: bool = True) -> tuple[int, int]:
    """How many trials pass, and how many fail; the differences are shown."""
    passed = failed = 0
    for name, expected, actual in trials:
        if expected == actual:
            passed += 1
            if is_shown and ONLY in os.environ:
                print(f"passed: {name}", flush=True)
            continue
        failed += 1
        if is_shown:
            print(name, *differences(expected, actual), sep="\n", flush=True)
    return passed, failed


def missed_canaries(canaries: Iterable[Trial]) -> Iterator[str]:
    """The names of the canaries that are not counted as they must be."""
    right, *wrong = answer_canaries(answer_of(["sh", "-c", CANARY]))
    if tally([right], is_shown=False) != (1, 0):
        yield right[0]
    for canary in (*wrong, *canaries):
        if tally([canary], is_shown=False) != (0, 1):
            yield canary[0]


# A command of the shell that has an answer with no part empty.
CANARY = "echo out; echo err >&2; exit 3"


def answer_canaries(actual: Answer[bytes]) -> Iterator[Trial]:
    """The right answer of the command above, and an answer that is wrong in each part."""
    yield "a right answer", answer(b"out\n", b"err\n", 3), actual
    yield "a wrong standard output", answer(b"Out\n", b"err\n", 3), actual
    yield "a wrong standard error", answer(b"out\n", b"Err\n", 3), actual
    yield "a wrong exit status", answer(b"out\n", b"err\n", 0), actual


def first_wrong(what: str, trials: Iterable[Trial]) -> Trial:
    """A canary: the first of some trials that fails, as one must on what is wrong; one that passes if none does."""
    return next((it for it in trials if it[1] != it[2]), (f"{what}: nothing is seen", True, True))


def few_pass(what: str, most: int, trials: Iterable[Trial]) -> Trial:
    """A canary: of some trials on what is wrong at most so many pass, since no more depend on something else."""
    return f"{what}: more than {most} pass", True, sum(it[1] == it[2] for it in trials) > most


def at_least(least: int, what: str, trials: Iterable[Trial]) -> Iterator[Trial]:
    """Trials, and then one that there were so many. The number is changed with the tests."""
    count = 0
    for count, trial in enumerate(trials, 1):
        yield trial
    yield f"at least {least} trials: {what}", least, min(count, least)


def is_chosen(trial: Trial) -> bool:
    """Whether a trial counts: if only some are to be made, those with a text in their names do."""
    return os.environ.get(ONLY, "") in trial[0]


def is_asked_for(name: str) -> bool:
    """Whether the trial of just this name is to be made, and no other."""
    return os.environ.get(ONLY) == name


def groups_asked_for(names: Iterable[str]) -> set[str]:
    """The groups that are to be made, of some whose trials have names that begin `GROUP:`: all, or the one asked for."""
    groups = set(names)
    group, colon, _ = os.environ.get(ONLY, "").partition(":")
    return {group} if colon and group in groups else groups


def named(group: str, trials: Iterable[Trial]) -> Iterator[Trial]:
    """Trials with the name of their group before their own."""
    return ((f"{group}: {name}", expected, actual) for name, expected, actual in trials)


def side_by_side(groups: Mapping[str, Callable[[], Iterable[Trial]]], processes: int) -> Iterator[Trial]:
    """The trials of groups, each with its group's name, in the order of the groups.

    A group is made in a process of its own, a few at a time, so that what one changes of its process is no other's.
    """
    with multiprocessing.get_context("fork").Pool(processes, _take_over, [groups], maxtasksperchild=1) as pool:
        for group, trials in zip(groups, pool.imap(_made, groups), strict=True):
            yield from named(group, trials)


_taken: dict[str, Callable[[], Iterable[Trial]]] = {}  # in a process of `side_by_side`: the groups


def _take_over(groups: Mapping[str, Callable[[], Iterable[Trial]]]) -> None:
    """Begins a process, which has the groups from the one that it was parted from."""
    _taken.update(groups)


def _made(group: str) -> list[Trial]:
    """The trials of a group."""
    return list(_taken[group]())


def differences(expected: object, actual: object) -> Iterator[str]:
    """The lines that show how two values differ."""
    expected_parts, actual_parts = parts_of(expected), parts_of(actual)
    if expected_parts.keys() != actual_parts.keys():
        expected_parts, actual_parts = {"": expected}, {"": actual}
    for part, value in expected_parts.items():
        if value != actual_parts[part]:
            left, right = shown(value, actual_parts[part])
            label = f"{part}: " if part else ""
            yield f"  {label}expected {left}"
            yield f"  {' ' * len(label)}actual   {right}"


def parts_of(value: object) -> dict[str, object]:
    """The parts of a value, by their names; a value without parts is one without a name."""
    if isinstance(value, dict):
        parts = value
    elif dataclasses.is_dataclass(value) and not isinstance(value, type):
        parts = {field.name: getattr(value, field.name) for field in dataclasses.fields(value)}
    else:
        return {"": value}
    flat: dict[str, object] = {}
    for name, part in parts.items():
        flat |= {f"{name} {inner}".strip(): it for inner, it in parts_of(part).items()}
    return flat


def shown(expected: object, actual: object) -> tuple[str, str]:
    """Two values as texts; of long texts only what is around their first difference."""
    if isinstance(expected, str) and isinstance(actual, str):
        return around(len(os.path.commonprefix([expected, actual])), expected, actual)
    if isinstance(expected, bytes) and isinstance(actual, bytes):
        return around(len(os.path.commonprefix([expected, actual])), expected, actual)
    return repr(expected)[:SHOWN], repr(actual)[:SHOWN]


def around(same: int, *texts: str | bytes) -> tuple[str, str]:
    """What is around the first difference of two texts, which comes after so many that are the same."""
    start = max(same - BEFORE, 0)
    left, right = (f"{it[start:start + SHOWN]!r}, length {len(it)}" for it in texts)
    return left, right
