"""Trials of defects.py itself, in a small checkout whose steps see a defect, see none, or fail without one.

If it took each defect for one that is found, or tried none, the step `defects` would say nothing.
"""
from __future__ import annotations

import subprocess
import tempfile
from collections.abc import Iterator
from pathlib import Path
from typing import Any
from unittest import mock

import defects
from defects import BadDefect, Defect, read_defect
from trials import Trial

TEST = """#!/bin/sh
# A stand-in for ./test
step() { :; }
step sees "a step that sees it" python3 tests/sees/sees.py
step blind "one that does not" python3 tests/sees/sees.py
step fails "one that always fails" python3 tests/sees/sees.py
step names "one that is named at the end, with a count that is right" python3 tests/sees/sees.py
step ten "one of ten trials" python3 tests/sees/sees.py
step none "one of no trial" python3 tests/sees/sees.py
is_right=yes
grep -q right file || is_right=''
case $2:$is_right in
    sees:yes | blind:*) echo "1 passed, 0 failed" ;;
    ten:*) echo "10 passed, 0 failed" ;;
    none:*) echo "0 passed, 0 failed" ;;
    names:yes) echo "1 passed, 0 failed" ;;
    names:) printf '\\nfailed: names; status 1\\n1 passed, 0 failed\\n' ;;
    *) echo "0 passed, 1 failed" && exit 1 ;;
esac
"""
DEFECT = "file: file\nold: right\\n\nnew: wrong\\tly\\n\nstep: {step}\n"
# The processor seconds that the trials of choosing reckon with, whatever a gate has.
TIMES: dict[str, Any] = {"COSTS": {}, "OTHERWISE": 15, "OF_GROUP": 6, "TIME": 200, "TIME_AGAIN": 60, "FEW": 60}
BAD = {
    "no step": "file: file\nold: right\nnew: wrong\n",
    "no new text": "file: file\nold: right\nstep: sees\n",
    "no pair": "file: file\nstep: sees\n",
    "another word": "file: file\nold: right\nnew: wrong\nstep: sees\nwhy: so\n",
}


def small_checkout(top: Path) -> None:
    """Makes the checkout."""
    for name, text in {"test": TEST, "file": "all\nis right\n", "tests/sees/sees.py": "import trials\n", "tests/harness/trials.py": "",
                       "other": "text\n"}.items():
        (top / name).parent.mkdir(parents=True, exist_ok=True)
        (top / name).write_text(text, "utf-8")
    (top / "test").chmod(0o755)
    subprocess.run(["git", "init", "-q"], cwd=top, check=True)


def written(top: Path, name: str, text: str) -> Defect:
    """A defect whose file has this text."""
    file = top / "tests/defects/small" / f"{name}.defect"
    file.parent.mkdir(parents=True, exist_ok=True)
    file.write_text(text, "utf-8")
    return read_defect(file)


def reading(top: Path) -> Iterator[Trial]:
    """What a file of a defect says, and files that say too little."""
    defect = written(top, "one", DEFECT.format(step="sees") + "trial: a: b\n")
    expected = ("small/one", "sees", "a: b", [("file", "right\n", "wrong\tly\n")])
    yield "a defect that is read", expected, (defect.name, defect.step, defect.trial, defect.pairs)
    for what, text in BAD.items():
        try:
            made = str(written(top, "bad", text).pairs)
        except BadDefect:
            made = "refused"
        yield f"a defect with {what}", "refused", made
    (top / "tests/defects/small/bad.defect").unlink()


def trying(top: Path) -> Iterator[Trial]:
    """Whether a defect is found, and what becomes of one that is not, or that can't be put in place."""
    for step, ending in (("sees", "found"), ("names", "found"), ("blind", "the step blind finds nothing")):
        became = defects.tried(written(top, step, DEFECT.format(step=step)))
        yield f"a defect for the step {step}", ending, became[:len(ending)]
    for what, text in (("not there", "left"), ("there twice", "i")):
        became = defects.tried(written(top, "bad", DEFECT.format(step="sees").replace("right\\n", text)))
        yield f"an old text that is {what}", "BAD DEFECT", became[:10]
    (top / "tests/defects/small/bad.defect").unlink()
    yield "the checkout itself", "all\nis right\n", (top / "file").read_text("utf-8")
    yield "a step without a defect", "passes", defects.passes("sees", "")
    yield "a step of ten trials without a defect", "passes", defects.passes("ten", "")
    yield "a step without a trial", "no trial of none has a word in its name", defects.passes("none", "a word")
    yield "a step that fails without one", "0 passed, 1 failed\n", defects.passes("fails", "")


def keys(top: Path) -> Iterator[Trial]:
    """A verdict depends on the defect, the files that it changes and the scripts of its step, and on nothing else."""
    defect = written(top, "sees", DEFECT.format(step="sees"))
    before = defect.key
    for name, is_other in (("file", True), ("tests/sees/sees.py", True), ("tests/harness/trials.py", True), ("other", False),
                           ("tests/defects/small/sees.defect", True)):
        defects.scripts_of.cache_clear()
        text = (top / name).read_text("utf-8")
        (top / name).write_text(f"{text}\n", "utf-8")
        yield f"a verdict after a change of {name}", is_other, defect.key != before
        (top / name).write_text(text, "utf-8")


def choosing(top: Path) -> Iterator[Trial]:
    """Of those without a verdict as many are tried as there is time for, and some of the others; all, if that is asked."""
    known = [Defect(top / f"small/{number}.defect", "sees") for number in range(400)]
    subprocess.run(["git", "-c", "user.name=one", "-c", "user.email=one@localhost", "commit", "-q", "--allow-empty", "-m", "one"],
                   cwd=top, check=True)
    yield "what has just changed in a checkout of one commit", set(), defects.just_changed()
    with mock.patch.object(Defect, "key", "a sum"), mock.patch.multiple(defects, **TIMES):
        with mock.patch.object(defects, "known", dict):
            for step, trial, count in (("sees", "", 13), ("sees", "a group:", 33)):
                of_step = [Defect(it.path, step, trial) for it in known]
                yield f"how many of 400 are tried by {trial or 'a step'}", count, len(defects.chosen(of_step, False, "a commit"))
            changed = [Defect(it.path, "sees", "", [("other", "", "")] if number % 40 == 0 else []) for number, it in enumerate(known)]
            with mock.patch.object(defects, "just_changed", lambda: {top / "other"}):
                chosen = {it.name for it in defects.chosen(changed, False, "a commit")}
            yield "those whose files have just changed", set(), {it.name for it in changed if it.pairs} - chosen
            with mock.patch.object(defects, "TIME", 0):
                yield "how many are tried where there is no time", 1, len(defects.chosen(known, False, "a commit"))
        for sum_of, least, most in (("a sum", 1, 4), ("another sum", 13, 13)):
            with mock.patch.object(defects, "known", lambda: {it.name: sum_of for it in known}):
                count = len(defects.chosen(known, False, "a commit"))
                yield f"how many of 400 are tried with {sum_of}", True, least <= count <= most
                others = [it.name for it in defects.chosen(known, False, "another commit")]
                yield f"what other commits choose with {sum_of}", False, others == [
                    it.name for it in defects.chosen(known, False, "a commit")]
                yield f"how many of 400 are tried with {sum_of} if all are asked for", 400, len(defects.chosen(known, True, ""))
                few = 4 if sum_of == "another sum" else 0
                yield f"how many of 400 are tried with {sum_of} if the gate is late", few, len(defects.chosen(known, False, "", True))


def whole(_top: Path) -> Iterator[Trial]:
    """A defect that is found has a verdict, and another has none."""
    made = {name: (expected, actual) for name, expected, actual in defects.trials("small/", False, False)}
    seen = {name: expected == actual for name, (expected, actual) in made.items()}
    expected = {"small/blind, by blind": False, "small/names, by names": True, "small/one, by sees": True, "small/sees, by sees": True}
    yield "what is found", expected, seen
    found = [line.split()[0] for line in defects.VERDICTS.read_text("utf-8").splitlines()]
    yield "what has a verdict", ["small/names", "small/one", "small/sees"], found


def trials() -> Iterator[Trial]:
    """All of them."""
    with tempfile.TemporaryDirectory(prefix="l6-defects-") as room:
        top = Path(room)
        small_checkout(top)
        here = top / "tests/defects"
        with mock.patch.multiple(defects, TOP=top, HERE=here, VERDICTS=here / "verdicts"):
            for group in (reading, trying, keys, choosing, whole):
                defects.scripts_of.cache_clear()
                yield from group(top)
    defects.scripts_of.cache_clear()
