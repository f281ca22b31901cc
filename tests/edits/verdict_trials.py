#!/usr/bin/env python3
"""Tries that an edit which was refused is not tried again until something changes that this depends on, and that
each edit can be applied to the code as it is.

verdict_trials.py prints each difference, and last 'N passed, M failed'. tests/edits/edits.py is called in a small
checkout with a stand-in for rt, by which a function that answers 2 is not proved.
"""
from __future__ import annotations

import ast
import os
import shutil
import subprocess
import sys
import tempfile
from collections.abc import Iterator
from pathlib import Path
from typing import Any

sys.path[:0] = [str(Path(__file__).resolve().parents[1] / it) for it in ("harness", "../tools")]
from answers import Answer
from checkout import TOP, WRONG, Checkout, Idle, without_files
from edit_verdicts import FILE, HARNESS, LINE, SAMPLE, sample
from promise_trials import CHANGES_BELOW, LOW, promised
from trials import ONLY, Trial, few_pass, first_wrong, groups_asked_for, named, report

RT = f'''#!{sys.executable}
"""A stand-in for rt: proves all functions but those that answer 2."""
import os, sys
from pathlib import Path
state = Path(os.environ["STAND_IN"])
verb = sys.argv[1]
if verb == "version":
    print((state / "version").read_text())
    sys.exit(0)
with open(state / "log", "a") as log:
    log.write(f"{{verb}} {{Path.cwd().name}}\\n")
if verb == "lib" and "UNPROVED" in Path("src/lib.rt").read_text():
    sys.exit(1)
if verb == "lib":
    Path("out/rlib").mkdir(parents=True, exist_ok=True)
    Path("out/rlib/stamp").write_text("made")
    sys.exit(0)
name, wrong, unproved = "", False, False
for line, text in enumerate(Path("src/lib.rt").read_text().splitlines(), 1):
    if text.startswith("fn "):
        name, wrong = text.split()[1].partition("(")[0], False
    elif text == "    2":
        wrong = unproved = True
        print(f"fn l6_word::{{name}}: not proved")
        print(f"note: src/lib.rt:{{line}}:5: it is not proved that it answers 1")
    elif text == "}}":
        print(f"fn l6_word::{{name}}: proved") if not wrong else None
print("logic=not-proved functions=2" if unproved else "logic=proved functions=2")
sys.exit(1 if unproved else 0)
'''
CODE = "fn give() -> u8 {\n    1\n}\n\nfn take() -> u8 {\n    4\n}\n"
REFUSED = "file: src/lib.rt\nold:     1\nnew:     2\n"
NOT_REFUSED = "file: src/lib.rt\nold:     4\nnew:     5\n"
CHECKED = "check l6_word"
# The scripts that report what was found, and that choose what is tried: they decide no verdict.
CHOOSING = {"trials.py", "answers.py", "edits.py", "edit_verdicts.py", "promises.py"}
VERDICTS = "tests/edits/verdicts"


class Edits:
    """A checkout with an edit that is refused, and perhaps one that is not."""

    def __init__(self, folder: Path) -> None:
        self.checkout = Checkout(folder)
        self.top = self.checkout.top
        leave_out = shutil.ignore_patterns("__pycache__", "*.jsonl", FILE.name)
        shutil.copytree(TOP / "tests", self.top / "tests", ignore=leave_out)
        self.verdicts = self.top / VERDICTS
        self.first = folder / "first"
        self.first.mkdir()
        (self.first / "rt").write_text(RT)
        (self.first / "rt").chmod(0o755)
        self.checkout.write("crates/l6_word/src/lib.rt", CODE)
        self.checkout.write("crates/l6_word/edits/give_answers_two.edit", REFUSED)

    def tried(self, *words: str) -> tuple[Answer[str], bool]:
        """What tests/edits/edits.py answers, and whether it had anything checked."""
        self.checkout.calls()
        where: dict[str, Any] = {"FIRST": str(self.first)}
        actual = self.checkout.run("tests/edits/edits.py", "l6_word", *words, **where)
        return actual, CHECKED in self.checkout.calls()

    def trial(self, name: str, is_checked: bool, *words: str, count: str = "1 passed, 0 failed") -> Trial:
        """The trial that the edits are tried, or that they are known to be refused."""
        actual, was_checked = self.tried(*words)
        return name, (count, is_checked), (actual.stdout.splitlines()[-1], was_checked)


def changes(edits: Edits) -> Iterator[Trial]:
    """A verdict holds until a byte has changed of what it depends on, and is then written again."""
    yield edits.trial("all anew", True, "--anew")
    yield edits.trial("after all anew", False)
    for name in (
        "crates/l6_word/src/lib.rt",
        "crates/l6_word/specs/Lib.antt",
        "crates/l6_word/proofs/Lib.antt",
        "crates/l6_word/edits/give_answers_two.edit",
        "tests/edits/check_report.py",
        "tests/edits/edit_bench.py",
        "tools/rooms.py",
    ):
        file = edits.top / name
        before = file.read_bytes()
        comment = b"\n" if name.endswith(".edit") else b"# another\n" if name.endswith(".py") else b"-- another\n"
        file.write_bytes(before + comment)
        yield edits.trial(f"after a change of {name}", True)
        yield edits.trial(f"the second time after a change of {name}", False)
        file.write_bytes(before)
        yield edits.trial(f"without that change of {name}", True)
    edits.checkout.write("crates/l6/src/main.rt", "another main\n")
    yield edits.trial("after a change of a crate above", False)
    edits.checkout.write("crates.txt", (edits.top / "crates.txt").read_text() + "l6_more:\n")
    yield edits.trial("after a crate that it does not use", False)
    for version, is_checked in (("a kit logic one", True), ("another kit logic one", False), ("a kit logic two", True)):
        edits.checkout.set_version(version)
        yield edits.trial(f"with the toolchain {version}", is_checked)


def crates_below(edits: Edits) -> Iterator[Trial]:
    """A verdict depends on what the crates below its own promise, and on no more of them."""
    edits.checkout.write("crates.txt", "l6_low:\nl6_word: l6_low\nl6: l6_word\n")
    edits.checkout.write("crates/l6_word/specs/Own.antt", "use Rattle.l6_low.proofs.Cited.{cited}\n")
    for name, text in LOW.items():
        edits.checkout.write(f"crates/l6_low/{name}", text)
    yield edits.trial("over another crate", True)
    yield edits.trial("over another crate, the second time", False)
    for what, name, old, new, is_checked in CHANGES_BELOW:
        edits.checkout.write(f"crates/l6_low/{name}", LOW[name].replace(old, new))
        yield f"the change of {what}", True, old in LOW[name] and old != new
        yield edits.trial(f"after a change of {what} below", is_checked)
        edits.checkout.write(f"crates/l6_low/{name}", LOW[name])
        if is_checked:
            yield edits.trial(f"without the change of {what} below", True)


def verdicts(edits: Edits) -> Iterator[Trial]:
    """Only that an edit is refused is written; a line that is wrong, cut off or not there is found."""
    edits.checkout.write("crates/l6_word/edits/take_answers_five.edit", NOT_REFUSED)
    edits.checkout.write("crates/l6_word/edits/take_is_not_there.edit", NOT_REFUSED.replace("4", "6"))
    for which in ("the first time", "the second time"):
        yield edits.trial(f"an edit that is not refused, {which}", True, count="1 passed, 2 failed")
    two = "file: src/lib.rt\nold: u8\nnew: u16\n"  # (a text that is there twice)
    edits.checkout.write("crates/l6_word/edits/take_is_twice_there.edit", two)
    actual, _ = edits.tried()
    yield "what is said of an edit that is not refused", True, "NOT REFUSED: the crate is proved" in actual.stdout
    yield "an old text that is there twice", True, "BAD EDIT: an old text is in src/lib.rt 2 times" in actual.stdout
    for name in ("take_answers_five", "take_is_not_there", "take_is_twice_there"):
        (edits.top / f"crates/l6_word/edits/{name}.edit").unlink()
    yield edits.trial("the edit that was refused beside them", False)
    (whole,) = edits.verdicts.read_text().splitlines()
    yield "the line of a verdict", True, LINE.fullmatch(whole) is not None
    for what, text in (
        ("half a line", whole[:-9]),
        ("a wrong sum", whole[:-4] + ("0000" if whole[-4:] != "0000" else "1111")),
        ("another edit's line", whole.replace("give_answers_two", "give_answers_three")),
        ("another crate's line", whole.replace("l6_word", "l6_prog")),
        ("no line", ""),
    ):
        edits.verdicts.write_text(f"{text}\n")
        yield edits.trial(f"with {what}", True)
    edits.verdicts.unlink()
    yield edits.trial("with no file", True)
    yield edits.trial("once it is written again", False)
    yield "what is written again", True, whole in edits.verdicts.read_text().splitlines()
    edits.checkout.write("crates/l6_word/edits/give_answers_two_again.edit", REFUSED.replace("    1", " 1").replace("    2", " 2"))
    edits.tried()
    (edits.top / "crates/l6_word/edits/give_answers_two_again.edit").unlink()
    edits.tried("--anew")
    yield "an edit that is gone", [whole], edits.verdicts.read_text().splitlines()


def samples(edits: Edits) -> Iterator[Trial]:
    """A verdict that is not true is found by the sample, or with --anew; each crate comes into the sample."""
    edits.tried("--anew")
    edits.checkout.write("crates/l6_word/edits/give_answers_two.edit", NOT_REFUSED)
    edits.tried()
    true = edits.verdicts.read_text() if edits.verdicts.is_file() else ""
    yield "an edit that is not refused any longer", False, "give_answers_two" in true
    edits.verdicts.write_text(forged(edits))
    yield edits.trial("a verdict that is not true, believed", False)
    yield edits.trial("a verdict that is not true, in the sample", True, "--sample", count="0 passed, 1 failed")
    edits.verdicts.write_text(forged(edits))
    yield edits.trial("a verdict that is not true, with all anew", True, "--anew", count="0 passed, 1 failed")
    sizes = {f"crate_{n}": n for n in range(1, 26)}
    found = [sample(sizes, f"commit {n}") for n in range(500)]
    least = -(-sum(sizes.values()) // SAMPLE)
    yield "the least size of a sample", True, all(sum(sizes[it] for it in names) >= least for names in found)
    yield "the crates of 500 samples", set(sizes), set.union(*found)
    cheap = [sample(sizes, f"commit {n}", {"crate_25", "crate_3"}) for n in range(500)]
    yield "the crates of 500 samples but those that are costly", set(sizes) - {"crate_25", "crate_3"}, set.union(*cheap)
    yield "of how many edits one is tried again", 20, SAMPLE


def forged(edits: Edits) -> str:
    """The line by which the edit that is there would be believed to be refused."""
    edits.checkout.write("tests/edits/forge.py", FORGING)
    return edits.checkout.run("tests/edits/forge.py", FIRST=str(edits.first)).stdout


# Prints the line of a verdict that nothing has come to.
FORGING = """
import sys
from pathlib import Path
sys.path[:0] = [str(Path(__file__).resolve().parents[1] / it) for it in ("harness", "../tools")]
from crates import read_crates
from edit_files import Edit
from edit_verdicts import Verdicts
crate = read_crates()["l6_word"]
edit = Edit(crate.folder / "edits/give_answers_two.edit")
print("l6_word", edit.name, Verdicts(crate, False).sum_with(edit))
"""


def copies(edits: Edits) -> Iterator[Trial]:
    """Two edits of one function are tried in copies of it, in one check; a crate that is not proved fails."""
    edits.checkout.write(
        "crates/l6_word/edits/give_answers_two_again.edit",
        REFUSED.replace("old:     1", "old: 1").replace("new:     2", "new: 2"),
    )
    actual, _ = edits.tried("--anew")
    said = "2 of 2 edits refused" in actual.stdout and "in 1 checks" in actual.stdout
    yield "two edits of one function", ("2 passed, 0 failed", True), (actual.stdout.splitlines()[-1], said)
    (edits.top / "crates/l6_word/edits/give_answers_two_again.edit").unlink()
    edits.checkout.write("crates/l6_word/src/lib.rt", CODE + "// UNPROVED\n")
    actual, was_checked = edits.tried("--anew")
    failed = actual.stdout.splitlines()[-1]
    yield "a crate that is not proved", ("0 passed, 1 failed", 1, False), (failed, actual.status, was_checked)
    edits.checkout.write("crates/l6_word/src/lib.rt", CODE)


def scripts() -> Iterator[Trial]:
    """The scripts of tests/edits/ that edits.py uses are those on which a verdict depends."""
    used: set[str] = {"edits.py"}
    waiting = ["edits.py"]
    while waiting:
        for node in ast.walk(ast.parse((TOP / "tests/edits" / waiting.pop()).read_text("utf-8"))):
            name = f"{node.module}.py" if isinstance(node, ast.ImportFrom) else ""
            if name not in used and (TOP / "tests/edits" / name).is_file():
                used.add(name)
                waiting.append(name)
    yield "the scripts of a verdict", sorted(used - CHOOSING), sorted(HARNESS)


def known() -> Iterator[Trial]:
    """The lines of this checkout's file: each is whole, stands in order, and names an edit that is there."""
    lines = (TOP / VERDICTS).read_text("utf-8").splitlines()
    yield "how many verdicts there are", True, len(lines) > len(edits_known()) // 2
    yield from lines_known(lines, edits_known())


def edits_known() -> set[str]:
    """The edits of this checkout, as a verdict names them."""
    return {f"{file.parents[1].name} {file.stem}" for file in TOP.glob("crates/*/edits/*.edit")}


def lines_known(lines: list[str], edits: set[str]) -> Iterator[Trial]:
    """Lines of verdicts on edits."""
    names = [" ".join(line.split()[:2]) for line in lines]
    yield "verdicts that are no lines", [], [line for line in lines if not LINE.fullmatch(line)]
    yield "the order of the verdicts", sorted(lines), lines
    yield "edits with two verdicts", [], sorted({it for it in names if names.count(it) > 1})
    yield "verdicts on edits that are not there", [], sorted(set(names) - edits)


def texts() -> Iterator[Trial]:
    """The edits of this checkout can be applied: each old text stands once in the code as it is."""
    whole = {name: value for name, value in os.environ.items() if name != ONLY}  # (it would print what passes)
    ran = subprocess.run([sys.executable, "-B", TOP / "tests/edits/edits.py", "--texts"], env=whole, capture_output=True, text=True)
    *wrong, count = ran.stdout.splitlines() or [""]
    yield "edits that can't be applied", ([], 0, ""), (wrong, ran.returncode, ran.stderr)
    yield "how edits that can be applied are counted", f"{len(edits_known())} passed, 0 failed", count


def trials() -> Iterator[Trial]:
    """All trials, or those of the group that is asked for; each of the last ones in a checkout of its own."""
    alone, groups = (scripts, known, texts, promised), (verdicts, samples, changes, copies, crates_below)
    asked = groups_asked_for(group.__name__ for group in (*alone, *groups))
    for group in alone:
        if group.__name__ in asked:
            yield from named(group.__name__, group())
    for of_edits in groups:
        if of_edits.__name__ in asked:
            with tempfile.TemporaryDirectory() as folder:
                yield from named(of_edits.__name__, of_edits(Edits(Path(folder))))


class OtherEdits(Edits):
    """A checkout whose scripts do nothing, and answer something else."""

    def __init__(self, whole: Edits, folder: Path) -> None:
        self.checkout = Idle(whole.checkout, folder)
        self.top, self.verdicts, self.first = self.checkout.top, self.checkout.top / VERDICTS, folder / "first"

    def tried(self, *words: str) -> tuple[Answer[str], bool]:
        """Another answer."""
        return Answer(*WRONG), False


# How many trials of groups are about texts of their own, or about an edit that is not tried.
PASSING = {"samples": 5, "crates_below": len(CHANGES_BELOW)}


def canaries() -> Iterator[Trial]:
    """Scripts that try no edit, and lines of verdicts that are wrong."""
    with tempfile.TemporaryDirectory() as folder:
        whole = Edits(Path(folder) / "checkout")
        whole.verdicts.write_text("nothing\n")
        for group in (verdicts, samples, changes, copies, crates_below):
            other = OtherEdits(whole, Path(folder) / group.__name__)
            yield few_pass(f"{group.__name__} where no edit is tried", PASSING.get(group.__name__, 0), without_files(group(other)))
    line, other_line = (f"a_crate an_edit {digit * 64}" for digit in "12")
    for what, lines in (("no line", ["nothing"]), ("another order", [other_line, line]), ("two verdicts", [line, other_line]),
                        ("an edit that is not there", [line.replace("an_edit", "no_edit")])):
        yield first_wrong(what, lines_known(lines, {"a_crate an_edit"}))


if __name__ == "__main__":
    sys.exit(report(trials(), canaries()))
