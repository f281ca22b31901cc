#!/usr/bin/env python3
"""Tries that the tests find defects: each is put into a copy of this checkout, in which a step must then fail.

What edits are for proofs, these are for tests. A defect is a file NAME.defect in a folder of this one, by what has
the defect: scripts, the page, programs for other systems, the library, pages, the model, or the tests themselves. It
has lines

    file: install             the file that is changed
    old: TEXT                 a text that is in it just once; \\n, \\t and \\\\ in it are a line feed, a tab and a \\
    new: TEXT                 what stands in its place
    step: install             the step of ./test that must fail
    trial: removals:          perhaps: only the trials with this in their names count, for speed

and perhaps more pairs. A step fails by a trial that fails, or by having other trials than tests/counts says. (Of some
trials nothing says how many there are.) Of the page `trial` is one trial in Chromium.

defects.py tries those on which verdicts (beside this script) has no verdict of the files as they are, as many as it has
time for by the COSTS of their steps, and of the others at most a twentieth: first those whose files or scripts have changed since the
commit before, then as the commit chooses. With --few, for a gate that is late, it tries a few of the first kind and none of the others.
With --all all are tried, with --only WORD those with a word in their names. What a step found is written to verdicts. The last line is
'N passed, M failed'.
"""
from __future__ import annotations

import argparse
import ast
import base64
import functools
import gzip
import hashlib
import os
import re
import shutil
import subprocess
import sys
import tempfile
from collections.abc import Iterable, Iterator
from concurrent.futures import ThreadPoolExecutor
from dataclasses import dataclass, field
from itertools import accumulate, chain
from pathlib import Path

HERE = Path(__file__).resolve().parent
TOP = HERE.parents[1]
sys.path.insert(0, str(HERE.parent / "harness"))
from trials import ONLY, Trial, report

VERDICTS = HERE / "verdicts"
LINE = re.compile(r"(?P<name>[\w/]+) (?P<sum>[0-9a-f]{64})")
SAMPLE = 20  # of so many defects that were found before one is tried again
# How many processor seconds a step takes, about; others take OTHERWISE, and a group of trials a fifth of it, at least
# OF_GROUP. Of those without a verdict so many are tried that they take TIME together, but at least LEAST_TRIED, and of the
# others so many that they take TIME_AGAIN. Each is tried once more without the defect, so on four processors that is two
# minutes, and five on two that are slow.
COSTS = {"named": 45, "facts": 10, "sentences": 45, "tables": 2, "formats": 2, "pictures": 2, "pages": 5, "bundle": 4, "reports": 2,
         "memory-words": 4, "traces": 20, "verdicts": 50, "gate": 75, "scripts-read": 50, "ports": 140, "editors": 30, "terminal": 20,
         "launcher": 100, "library": 25, "release": 40, "install": 30, "memory": 45, "model": 30}
OTHERWISE, OF_GROUP, TIME, TIME_AGAIN, LEAST_TRIED = 15, 6, 100, 40, 1
FEW = 60  # the processor seconds for those without a verdict, where the gate is late
AT_ONCE = 4
SECONDS = 900  # for a step
ESCAPES = {"n": "\n", "t": "\t"}
LEAST = 430  # defects that there are
# The folders of modules that scripts of trials import by their names alone.
MODULES = ("tests/harness", "tests/*", "tests/program/model", "tools", "tools/drawing")
PAGE = "page"  # the step of which a trial is made in Chromium
COUNT = re.compile(r"^(\d+) passed, (\d+) failed$")
OF_NODE = {  # scripts, and the programs made of them
    "ports/command.js": ("l6.mjs",), "ports/session.js": ("l6db.mjs",), "ports/server.js": ("l6ed.mjs",),
    "ports/engine.js": ("l6db.mjs", "l6ed.mjs"),
}
MODULE = re.compile(r"const MODULE = `([^`]*)`")
PROVENANCE = """
top=$PWD && . tools/program.sh && file=dist/$1 &&
    provenance_of "$file" "toolchain $(toolchain_of "$file")
$(cat "$file.made_of")" > "$file.new" && mv "$file.new" "$file.provenance" && rm -f "$file.made_of" dist/kept.wasm
"""


class BadDefect(Exception):
    """A defect that can't be put in place: why not."""


@dataclass
class Defect:
    """A file of defects."""

    path: Path
    step: str = ""
    trial: str = ""
    pairs: list[tuple[str, str, str]] = field(default_factory=list)  # a file, the old text, the new one

    @property
    def name(self) -> str:
        """Its folder and its name."""
        return f"{self.path.parent.name}/{self.path.stem}"

    @property
    def files(self) -> set[Path]:
        """The files that a verdict on it depends on: those that it changes, and those that find it."""
        return {TOP / name for name, _, _ in self.pairs} | set(scripts_of(self.step))

    @property
    def cost(self) -> int:
        """How many processor seconds it takes, about."""
        of_step = COSTS.get(self.step, OTHERWISE)
        return min(of_step, max(OF_GROUP, of_step // 5)) if self.trial and self.step != PAGE else of_step

    @property
    def key(self) -> str:
        """A sum of all that a verdict on it depends on, and of itself."""
        total = hashlib.sha256(self.path.read_bytes())
        for file in sorted(self.files):
            total.update(f"{file.relative_to(TOP)} {sum_of(file, file.stat().st_mtime_ns)}\n".encode())
        return total.hexdigest()

    def fits(self) -> str:
        """`once` if each old text is there just once, or what is wrong."""
        with tempfile.TemporaryDirectory() as room:
            for name in {name for name, _, _ in self.pairs}:
                Path(room, name).parent.mkdir(parents=True, exist_ok=True)
                shutil.copy(TOP / name, Path(room, name))
            try:
                self.apply(Path(room))
            except BadDefect as why:
                return str(why)
        return "once"

    def apply(self, top: Path) -> None:
        """Puts it into a copy of the checkout."""
        for name, old, new in self.pairs:
            file = top / name
            text = file.read_text("utf-8")
            if text.count(old) != 1:
                raise BadDefect(f"an old text is in {name} {text.count(old)} times")
            file.write_text(text.replace(old, new), "utf-8")


@functools.cache
def sum_of(file: Path, _written: int) -> str:
    """The sum of what a file holds that was written last at this time: hundreds of defects depend on the same files."""
    return hashlib.sha256(file.read_bytes()).hexdigest()


def read_defect(path: Path) -> Defect:
    """Reads the file of a defect."""
    defect, name, old = Defect(path), "", None
    for line in path.read_text("utf-8").splitlines():
        word, _, text = line.partition(":")
        text = re.sub(r"\\(.)", lambda it: ESCAPES.get(it[1], it[1]), text.removeprefix(" "))
        if word == "file":
            name = text
        elif word == "old":
            old = text
        elif word == "new" and old is not None:
            defect.pairs.append((name, old, text))
            old = None
        elif word in ("step", "trial"):
            setattr(defect, word, text)
        else:
            raise BadDefect(f"{path.name} has a line {line!r}")
    if not defect.pairs or not defect.step or old is not None:
        raise BadDefect(f"{path.name} has no pair of texts, or no step")
    return defect


@functools.cache
def scripts_of(step: str) -> tuple[Path, ...]:
    """The scripts of a step: its own, those that it imports, one by way of another, and those of Node; of the page all."""
    text = (TOP / "test").read_text("utf-8")
    found = re.findall(rf"^ *step {step} .*?((?:web/tests|tests/\w+|bench)/\w+(?:\.py)?)", text, re.MULTILINE | re.DOTALL)
    if not found:
        raise BadDefect(f"there is no step {step}")
    if step == PAGE:
        return tuple(sorted(it for it in (TOP / found[0]).parent.iterdir() if it.suffix in (".py", ".mjs")))
    scripts, waiting = {TOP / found[0]}, [TOP / found[0]]
    folders = (*MODULES, str((TOP / found[0]).parent.relative_to(TOP)))
    modules = {file.stem: file for folder in folders for file in TOP.glob(f"{folder}/*.py")}
    while waiting:
        for name in imported(waiting.pop()):
            if name in modules and modules[name] not in scripts:
                scripts.add(modules[name])
                waiting.append(modules[name])
    return tuple(sorted({*scripts, *(TOP / found[0]).parent.glob("*.mjs")}))


def imported(script: Path) -> set[str]:
    """The names of the modules that a script imports; of a package, those of its parts, too."""
    found: set[str] = set()
    for node in ast.walk(ast.parse(script.read_text("utf-8"))):
        if isinstance(node, ast.Import):
            found.update(alias.name for alias in node.names)
        elif isinstance(node, ast.ImportFrom) and node.module:
            found |= {*node.module.split("."), *(alias.name for alias in node.names)}
    return found


def sources() -> list[str]:
    """The files of the checkout."""
    ran = subprocess.run(["git", "ls-files", "-z", "--cached", "--others", "--exclude-standard"], cwd=TOP,
                         capture_output=True, check=True)
    return [name for name in ran.stdout.decode().split("\0") if name and (TOP / name).is_file()]


def copy_checkout(top: Path) -> None:
    """Copies the checkout, so that what a step writes changes nothing here."""
    for name in sources():
        target = top / name
        target.parent.mkdir(parents=True, exist_ok=True)
        shutil.copy2(TOP / name, target, follow_symlinks=False)


def finds(step: str, trial: str, top: Path) -> tuple[bool, str]:
    """Whether a step of a copy, or a trial of it, fails; and the end of what was printed."""
    words, environment = ["./test", "--only", step], os.environ | ({ONLY: trial} if trial else {})
    if step == PAGE and trial:
        page = top / "dist/l6.html"
        bundled = subprocess.run(["web/bundle", "--same-module", str(page)], cwd=top, capture_output=True, text=True)
        if bundled.returncode:
            return True, bundled.stdout + bundled.stderr
        words = [sys.executable, "web/tests/chromium.py", str(page), "--only", trial]
    ran = subprocess.run(words, cwd=top, env=environment, stdin=subprocess.DEVNULL, capture_output=True, text=True,
                         errors="replace", timeout=SECONDS)
    last = (ran.stdout.splitlines() or [""])[-1]
    found = COUNT.match(last)
    # (a defect in ./test itself may leave the count as it is, and the step is named all the same)
    is_named = f"\nfailed: {step}; status " in ran.stdout
    return is_named or (ran.returncode != 0 and found is not None and found[2] != "0"), ran.stdout[-1500:]


def make_again(files: Iterable[str], top: Path) -> None:
    """Makes the programs for Node again whose scripts were changed, so that what they do is tried.

    Else a step would only say that they are made of other scripts.
    """
    for name in dict.fromkeys(name for file in files for name in OF_NODE.get(file, ())):
        words = ["dist/l6.html", f"dist/{name}"]
        if name != "l6.mjs":
            packed = MODULE.search((top / "dist" / name).read_text("utf-8"))
            (top / "dist/kept.wasm").write_bytes(gzip.decompress(base64.b64decode(packed[1] if packed else "")))
            words = ["--module", "dist/kept.wasm", f"dist/{name}"]
        for command in (["ports/bundle", *words], ["sh", "-c", PROVENANCE, "sh", name]):
            ran = subprocess.run(command, cwd=top, capture_output=True, text=True)
            if ran.returncode:
                raise BadDefect(f"{name} can't be made: {ran.stderr}")


def tried(defect: Defect) -> str:
    """What becomes of a defect: `found`, or why not."""
    with tempfile.TemporaryDirectory(prefix="l6-defect-") as room:
        copy_checkout(Path(room))
        try:
            defect.apply(Path(room))
            make_again([file for file, _, _ in defect.pairs], Path(room))
        except BadDefect as why:
            return f"BAD DEFECT: {why}"
        try:
            is_found, said = finds(defect.step, defect.trial, Path(room))
        except subprocess.TimeoutExpired:
            return f"the step {defect.step} takes more than {SECONDS} seconds"
    return "found" if is_found else f"the step {defect.step} finds nothing: ..{said[-300:]}"


def passes(step: str, trial: str) -> str:
    """What a step says in a copy without a defect: `passes`, or what fails."""
    with tempfile.TemporaryDirectory(prefix="l6-defect-") as room:
        copy_checkout(Path(room))
        try:
            is_found, said = finds(step, trial, Path(room))
        except subprocess.TimeoutExpired:
            return f"it takes more than {SECONDS} seconds"
    if said.splitlines()[-1:] == ["0 passed, 0 failed"]:
        return f"no trial of {step} has {trial} in its name"
    return said if is_found else "passes"


def known() -> dict[str, str]:
    """The sums of the defects that were found before."""
    lines = VERDICTS.read_text("utf-8").splitlines() if VERDICTS.is_file() else []
    return {found["name"]: found["sum"] for found in map(LINE.fullmatch, lines) if found}


def write(verdicts: dict[str, str]) -> None:
    """Writes the verdicts. It is done after each defect, so that what was found is kept if this is ended."""
    VERDICTS.write_text("".join(f"{name} {key}\n" for name, key in sorted(verdicts.items())), "utf-8")


def chosen(defects: list[Defect], is_all: bool, commit: str, is_few: bool = False) -> list[Defect]:
    """The defects that are tried: of those without a verdict of the files as they are the first ones, those whose files have
    just changed and then in an order that the commit makes, and some of the others; or all of them; or a few of the first kind."""
    before, changed = known(), just_changed()
    def place_of(name: str) -> int:
        return int(hashlib.sha256(f"{commit} {name}".encode()).hexdigest(), 16)
    unknown = sorted((it for it in defects if before.get(it.name) != it.key),
                     key=lambda it: (changed.isdisjoint(it.files), place_of(it.name)))
    others = [it for it in defects if before.get(it.name) == it.key and place_of(it.name) % SAMPLE == 0]
    sampled = sorted(others, key=lambda it: place_of(it.name))
    taken = within(unknown, FEW, 1) if is_few else within(unknown, TIME, LEAST_TRIED) | within(sampled, TIME_AGAIN, 1)
    return [it for it in defects if is_all or it.name in taken]


def within(defects: list[Defect], time: int, least: int) -> set[str]:
    """The names of the first defects, as many as there is time for, but at least so many."""
    ends = accumulate(it.cost for it in defects)
    return {it.name for at, (it, end) in enumerate(zip(defects, ends)) if end <= time or at < least}


def just_changed() -> set[Path]:
    """The files that have changed since the commit before the last one; none where that is not known."""
    ran = subprocess.run(["git", "diff", "--name-only", "HEAD~1"], cwd=TOP, capture_output=True, text=True)
    return {TOP / name for name in ran.stdout.splitlines()}


def read_all(word: str) -> list[Defect]:
    """All defects with a word in their names."""
    return [it for it in map(read_defect, sorted(HERE.glob("*/*.defect"))) if word in it.name]


def trials(word: str, is_all: bool, is_few: bool) -> Iterator[Trial]:
    """The trials that each step passes without a defect, and that each defect is found."""
    defects = read_all(word)
    commit = subprocess.run(["git", "rev-parse", "HEAD"], cwd=TOP, capture_output=True, text=True).stdout
    wanted = chosen(defects, is_all or bool(word), commit, is_few)
    verdicts = known() if word else {}
    waiting = [it for it in defects if it not in wanted and known().get(it.name) != it.key]
    verdicts |= {it.name: it.key for it in defects if it not in (*wanted, *waiting)}
    with ThreadPoolExecutor(AT_ONCE) as pool:
        plain = {(it.step, it.trial): pool.submit(passes, it.step, it.trial) for it in wanted}
        runs = {it.name: pool.submit(tried, it) for it in wanted}
        for defect in wanted:
            alone, became = plain[defect.step, defect.trial].result(), runs[defect.name].result()
            if alone != "passes":
                became = f"the step {defect.step} fails without a defect, too: ..{alone[-300:]}"
            if became == "found":
                verdicts[defect.name] = defect.key
            else:
                verdicts.pop(defect.name, None)
            write(verdicts)
            yield f"{defect.name}, by {defect.step}", "found", became
    before = known()
    for defect in defects:
        if defect in waiting:
            yield f"{defect.name}, which is not tried yet, and could be", "once", defect.fits()
        elif defect not in wanted:
            yield f"{defect.name}, as it was found before", before[defect.name], defect.key
    write(verdicts)
    if not word:
        yield "how many defects there are", True, len(defects) >= LEAST


def main() -> int:
    """Tries defects; returns the exit status."""
    parser = argparse.ArgumentParser(description=__doc__.split("\n", 1)[0])
    parser.add_argument("--only", default="", metavar="WORD", help="only defects with this in their names")
    parser.add_argument("--all", action="store_true", help="try those that were found before, too")
    parser.add_argument("--few", action="store_true", help="try a few of those without a verdict, and no others")
    options = parser.parse_args()
    own = own_trials.trials() if not options.only else ()
    return report(chain(own, trials(options.only, options.all, options.few)))


if __name__ == "__main__":
    sys.modules["defects"] = sys.modules["__main__"]
    import own_trials  # (which tries this script, and imports it)

    sys.exit(main())
