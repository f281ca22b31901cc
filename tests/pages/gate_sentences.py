"""What README, CONTRIBUTING and the README files of dist/, ports/ and tests/ say of our scripts: in small checkouts they are called.

What ./test itself does is read in it: each of its steps, with the command and whether it is one of the gate alone.
"""
from __future__ import annotations

import re
import tempfile
from collections.abc import Iterator
from pathlib import Path
from typing import NamedTuple

from answers import Answer, answer_of
from checkout import UNPROVED, Checkout, is_of_shell
from page_tables import TOP, spans_of, table_with, text_of
from told import either, the_one, told
from trials import Trial

README, HELPING, TESTS, DIST, COMMANDS, PORTS = (
    "README.md", "CONTRIBUTING.md", "tests/README.md", "dist/README.md", "docs/command-line.md", "ports/README.md")
TOOLS = {"python3": "Python 3", "cc": "a C compiler"}  # as pages name them
MAIN, STATIC = "dist/l6", "dist/l6-static"


class Step(NamedTuple):
    """A step of ./test."""

    name: str
    script: str  # of Python, from the top on
    is_of_gate: bool  # and of that alone


def steps() -> Iterator[Step]:
    """The steps of ./test."""
    text = text_of("test").partition("steps() {")[2].partition("\n}\n")[0].replace("\\\n", " ")
    is_of_gate = False
    for line in filter(str.strip, text.splitlines()):
        word = line.split()[0]
        is_of_gate = {"if": "is_gate" in line and "again" not in line, "else": False, "fi": False}.get(word, is_of_gate)
        script = re.search(r"\b((?:tests|web)/\S+\.py)\b", line)
        if word == "step":
            yield Step(line.split()[1], script[1] if script else "", is_of_gate)


def made_of(ran: Answer[str]) -> str:
    """What the program that ran says that it was made of."""
    return next((f"{line}\n" for line in ran.stdout.splitlines() if line.startswith("made of ")), "")


def which(ran: Answer[str]) -> str:
    """Which program ran."""
    return ("".join(re.findall(r"^this is (\S+)", ran.stdout, re.MULTILINE)) or "l6") if ran.status == 0 else "none"


def launched(checkout: Checkout) -> Iterator[Trial]:
    """Which program ./l6 runs, as it is and after sources have changed."""
    as_it_is = which(checkout.run("l6", has_rt=False))
    whole = checkout.top.joinpath(MAIN).read_text()
    seen = []
    for old, new in (("", "\n# more"), ("", "")):
        checkout.write(MAIN, whole + new + old)
        seen.append(which(checkout.run("l6", has_rt=False)))
    note = checkout.top / f"{MAIN}.provenance"
    lines = note.read_text()
    note.write_text(re.sub(r"(?m)^sources .", "sources x", lines))
    seen.append(which(checkout.run("l6", has_rt=False)))
    note.write_text(lines)
    elsewhere = which(checkout.run("l6", has_rt=False, REFUSES="l6"))
    order = "first" if as_it_is == "l6" else "last"
    both = either(seen == ["l6-static", "l6", "l6-static"], "both", " ".join(seen))
    yield told(DIST, r"\./l6 runs the (\w+) program that is for this system, (\w+), and has (\w+) sums right, and (\w+) other",
               order, either(elsewhere == "l6-static", "starts", elsewhere), both, either(both == "both", "no", "each"))


def changed(checkout: Checkout) -> Iterator[Trial]:
    """What becomes of a source that is edited."""
    checkout.calls()
    old, source = checkout.made_of, checkout.top / "crates/l6/src/main.rt"
    source.write_text(f"{source.read_text()}-- edited\n")
    ran = checkout.run("l6")
    proved, runs = bool(checkout.calls()), made_of(ran)
    yield told(README, r"\./l6 (\w+) runs a program that was (\w+) made from the sources in the checkout",
               {checkout.made_of: "never", old: "also"}.get(runs, runs), "not")
    yield told(README, r"If you edit a source, \./l6 proves and builds the program (\w+) \(", either(proved, "first", "never"))
    named = "which" if "crates/l6/src/main.rt" in ran.stderr else "how many"
    yield told(COMMANDS, r"Where the sources have changed, it says (\w+) of them, and proves and builds the program (\w+)\.",
               named, either(proved and runs == checkout.made_of, "first", "last"))
    source.write_text(f"{source.read_text()}-- {UNPROVED}\n")
    before = {it: it.read_bytes() for it in sorted((checkout.top / "dist").iterdir())}
    made = checkout.run("tools/make_dist")
    after = {it: it.read_bytes() for it in sorted((checkout.top / "dist").iterdir())}
    yield told(DIST, r"It proves (\w+) crate first, and writes (\w+) if one is (\w+) proved",
               either(made.status != 0, "every", "no"), either(before == after, "nothing", "much"), "not")


def checkouts(_program: str) -> Iterator[Trial]:
    """What the scripts do in small checkouts."""
    for group in (launched, changed):
        with tempfile.TemporaryDirectory() as folder:
            yield from group(Checkout(Path(folder, "checkout")))


def testing(_program: str) -> Iterator[Trial]:
    """What ./test needs and does, as far as it says so itself."""
    test = text_of("test")
    needed = [TOOLS[it] for it in re.findall(r"^for tool in (.*); do$", test, re.MULTILINE)[0].split()]
    for page, pattern in (
        (README, r"It takes a few minutes, and needs (Python 3) and (a C compiler)\. The page"),
        (HELPING, r"\./test takes a few minutes, and needs (Python 3) and (a C compiler)\. With"),
    ):
        yield told(page, pattern, *needed)
    ends = re.findall(r'^echo "\$(\w+) passed, \$(\w+) failed"\n\[ "\$failed" = 0 \]\n?\Z', test, re.MULTILINE)
    yield told(README, r"The (\w+) line is N (\w+), M (\w+):", "last", *(ends[0] if ends else ("", "")))
    yield told(TESTS, r"runs all of it and (\w+) with N (\w+), M (\w+);", either(bool(ends), "ends", "begins"), *(ends[0] if ends else ("", "")))
    compared = "byte" if "if cmp -s \"$here\" \"$there\"; then" in test else "line"
    yield told(README, r"compares the program that results with that of dist/, (\w+) for (\w+), and tries edits", compared, compared)
    yield told(HELPING, r"makes all programs again and compares them (\w+) for (\w+), and", compared, compared)
    proves = re.findall(r'step proofs "[^"]*" (\w+) ci', test)
    there = either(bool(list(TOP.glob(proves[0])) + list(TOP.glob(f"tools/{proves[0]}"))), "now", "not")
    yield told(README, r"It needs Rattle's toolchain \((\w+) on the path\), which is (\w+) in this repository", proves[0], there)
    alone = re.findall(r"^alone='(.*)'$", test, re.MULTILINE)[0].split()
    yield told(TESTS, r"Steps run (\w+ by \w+), but for those that \./test lists as (\w+)\.", either(
        "while [ \"$(jobs -rp | wc -l)\" -ge \"$at_once\" ]" in test, "side by side", "one by one"), either(bool(alone), "alone", "first"))


def scripts_of_steps(_program: str) -> Iterator[Trial]:
    """Which scripts are steps, by the table of folders and by the table of changes."""
    known = list(steps())
    yield "steps that are read in ./test", answer_of(["./test", "--list"], cwd=TOP, preexec_fn=None).stdout.decode().split(), [
        name for name in dict.fromkeys(it.name for it in known if not it.is_of_gate)]
    for folder, _, cell in table_with(text_of(TESTS), "Folder", "What is tried").rows:
        plain, _, of_gate = re.sub(r"\(.*?\)", "", cell).partition("in the gate")
        place = f"tests/{spans_of(folder)[0]}"
        here = {it.script.removeprefix(place): it.is_of_gate for it in known if it.script.startswith(place)}
        said = {**dict.fromkeys(spans_of(plain), False), **dict.fromkeys(spans_of(of_gate), True)}
        yield f"{TESTS}: the scripts of {place} that are steps", here, said
    rows = {what: spans_of(then) for what, then in table_with(text_of(HELPING), "If you change", "then").rows}
    by_step = {it.name: f"python3 {it.script}" for it in known}
    yield f"{HELPING}: what is run after a page was changed", [f"{by_step['pages']} dist/l6"], rows["a page"][:1]
    yield f"{HELPING}: what is run after a script was changed", [by_step["launcher"], by_step["install"]], rows["a script"][:2]
    others = sorted(it.name for it in TOP.iterdir() if it.is_file() and is_of_shell(it) and not it.read_bytes().startswith(b"#!/bin/sh\n"))
    yield told(HELPING, r"the scripts but \./(\w+) are for any (\w+) shell", *(others or ["none"]), "POSIX")


def building(_program: str) -> Iterator[Trial]:
    """What the scripts that make programs do, as they say it themselves."""
    module, build = text_of("tools/module.py"), text_of("ports/build")
    kinds = dict.fromkeys(re.findall(r"\$program_name-(\w+)", text_of("tools/program.sh")))
    yield told(PORTS, r"makes the static programs, l6-(\w+) \(x86-64\) and l6-(\w+), and those of l6db and l6ed",
               *kinds)
    wrapped = "main" if "--wrap=main" in build + module else "nothing"
    yield told(PORTS, r"which has kept the words \(--wrap=(\w+)\)", wrapped)
    yield told(PORTS, r"and (\w+) unless the object file links, (\w+) for byte, to", the_one({
        "stops": "sys.exit" in module or "raise" in module}), "byte")


def gate_sentences(program: str) -> Iterator[Trial]:
    """All of them."""
    for group in (checkouts, testing, scripts_of_steps, building):
        yield from group(program)


# Each group, and a sentence of it that is turned round.
TURNED = [
    (checkouts, README, "never runs a program that was not made", "also runs a program that was not made"),
    (testing, README, "The last line is", "The first line is"),
    (scripts_of_steps, HELPING, "`python3 tests/scripts/launcher.py` and", "`python3 tests/scripts/release.py` and"),
    (building, PORTS, "links, byte for byte, to", "links, line for byte, to"),
]
