"""What shells complete is what the programs take: after each verb just its options, and first just the verbs."""
from __future__ import annotations

import re
import subprocess
from collections.abc import Callable, Iterator
from pathlib import Path

from trials import Trial

TOP = Path(__file__).resolve().parents[2]
WITHOUT_VERBS = ("l6db", "l6ed")  # programs
LIST = re.compile(r"^ +(?:-\w, )?(--[\w-]+)", re.MULTILINE)
Offered = Callable[[str], set[str]]  # the words that a shell offers for the last word of a line


def help_of(program: str, *words: str) -> str:
    """The help of a program of dist/ on some words."""
    ran = subprocess.run([TOP / "dist" / program, *words, "--help"], stdin=subprocess.DEVNULL, capture_output=True, text=True)
    return ran.stdout + ran.stderr


def verbs_of(program: str) -> list[str]:
    """The verbs of a program, by its help; none if it has none."""
    listed = help_of(program).partition("Commands:\n")[2].partition("\n\n")[0]
    return re.findall(r"^  (\w+) ", listed, re.MULTILINE)


def options_by_help(offered: Offered, shell: str) -> Iterator[Trial]:
    """What a shell offers after each verb, and in place of one."""
    verbs = verbs_of("l6")
    letters = sorted({it[0] for it in verbs})
    yield f"the verbs that {shell} offers", set(verbs), {word for letter in letters for word in offered(f"l6 {letter}")}
    for verb in verbs:
        if verb != "help":
            yield f"the options of {verb} in {shell}", set(LIST.findall(help_of("l6", verb))), offered(f"l6 {verb} --")
    for program in WITHOUT_VERBS:
        yield f"the options of {program} in {shell}", set(LIST.findall(help_of(program))), offered(f"{program} --")
