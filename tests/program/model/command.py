"""The words of a command, and what it answers."""
from __future__ import annotations

from collections.abc import Callable
from dataclasses import dataclass

from .characters import number_of_digits
from .faults import Fault
from .jobs import CHECK, RUNNING, VERBS, answer_of_job
from .state import Options

WRONG_WORDS = 64  # the exit status
EXPLAIN = "--explain"  # an option of `run` alone
RANGES = {"--store": (1, 255), "--steps": (0, 1_000_000_000), "--output": (0, 16_777_216)}


@dataclass(frozen=True)
class Answer:
    """What goes to the two outputs, and the exit status."""

    stdout: bytes
    stderr: bytes
    status: int


def answer_of(words: list[str], read: Callable[[], bytes]) -> Answer:
    """The answer to a command. Where its words are wrong, its job is not read."""
    try:
        verb, options, is_explained = command_of(words)
        stdout, said, status = answer_of_job(verb, read(), options)
    except Fault as fault:
        return Answer(b"", fault.line.encode("ascii", "replace"), fault.status)
    return Answer(stdout, said if is_explained else b"", status)


def command_of(words: list[str]) -> tuple[str, Options, bool]:
    """The verb and the options that words say, and whether a trap is explained."""
    if not words or words[0] not in (*VERBS, CHECK) or "--help" in words:
        raise Fault(f"words: {'|'.join(VERBS)} [--store M] [--steps N] [--output N]", WRONG_WORDS)
    verb, *rest = words
    given: dict[str, int] = {}
    is_explained = verb == "run" and EXPLAIN in rest
    if is_explained:
        rest.remove(EXPLAIN)
    while rest:
        option, equals, value = rest.pop(0).partition("=")
        if option not in RANGES or option in given or verb not in RUNNING:
            raise Fault(f"{option} can't stand here", WRONG_WORDS)
        if not equals:
            value = rest.pop(0) if rest else ""
        given[option] = value_of(option, value)
    return verb, Options(**{option.removeprefix("--"): value for option, value in given.items()}), is_explained


def value_of(option: str, value: str) -> int:
    """The number that is given to an option, which has a range."""
    least, most = RANGES[option]
    number = number_of_digits(value, most)
    if number is None or number < least:
        raise Fault(f"{option} has a number from {least} to {most}", WRONG_WORDS)
    return number
