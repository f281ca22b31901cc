#!/usr/bin/env python3
"""Tests the page, dist/l6.html: all of it where node, binaryen and browsers are there.

all.py PROGRAM [--quick | --unless-passed] makes the page again and compares it byte for byte with the one that is handed out;
runs the cases, examples and random jobs through the page's module, in node, against their answers and those
of the program; and tries the page in headless Chromium, and in Firefox. It says what it skips. Its parts run
side by side; each says how much it has tried, and less than is written here is a failure. Last it says which lines
of web/src none of them ran, of which there may be few.
With --quick the module is not made again, which takes two minutes, and the long trials, of large things, of whole
runs and of the lesson, are left out; the page is bundled again with the module that it has. With --unless-passed the
long ones count without being made again if this page passed them before (passed.py). The last line is 'N passed, M
failed'.
"""
from __future__ import annotations

import os
import re
import shutil
import subprocess
import sys
import tempfile
from collections.abc import Iterator
from concurrent.futures import ThreadPoolExecutor, wait
from pathlib import Path

sys.dont_write_bytecode = True
HERE = Path(__file__).resolve().parent
WEB = HERE.parent
TOP = WEB.parent
PAGE = TOP / "dist" / "l6.html"
AT_ONCE = 4  # parts
LEAST_IN_CHROMIUM = [1000, 4700, 1050]  # trials of each part into which those in Chromium are parted
LEAST_OF_LONG = [100, 100]  # and of the long ones
LONG = "the long trials in Chromium"
NEW_MANUAL = ["--new-manual"] if shutil.which("markdown_py") else []
COUNT = re.compile(r"^(\d+) passed, (\d+) failed$")
MOST_NOT_RUN = {"quick": 2.0, "all": 2.0}  # per cent of the lines of web/src that no trial need run

import passed as passed_before  # noqa: E402
from browser import find_browser  # noqa: E402
from firefox import find_firefox  # noqa: E402
from lines import LINES, lines_not_run, shown  # noqa: E402
from ran_lines import IN_NODE  # noqa: E402


class Part:
    """A part of the tests: the tools that it needs, what it is, its command, and the least that it tries."""

    def __init__(self, needs: set[str], name: str, command: list[str], least: int) -> None:
        self.needs, self.name, self.command, self.least = needs, name, command, least


def counted(part: Part, room: str) -> tuple[str, int, int]:
    """Runs a part; answers what it prints but its count, and its counts. What it ran is written to a room."""
    ran = subprocess.run(
        part.command, stdout=subprocess.PIPE, stderr=subprocess.STDOUT, text=True, errors="replace",
        env={**os.environ, LINES: room, IN_NODE: room},
    )
    *lines, last = ran.stdout.splitlines() or [""]
    found = COUNT.match(last)
    if not found:
        return "\n".join([*lines, last, f"no count at the end, status {ran.returncode}"]), 0, 1
    passed, failed = map(int, found.groups())
    if passed + failed < part.least:
        lines.append(f"{passed + failed} were tried, and {part.least} is the least")
        failed += 1
    return "\n".join(lines), passed, failed or int(ran.returncode != 0)


def made_again(program: Path, is_quick: bool) -> tuple[str, int, int]:
    """Makes the page again, and compares it with the one that is handed out."""
    with tempfile.TemporaryDirectory(prefix="l6-page-") as folder:
        page = Path(folder, "l6.html")
        bundle = [str(WEB / "bundle"), *(["--same-module"] if is_quick else NEW_MANUAL), str(page)]
        for words in ([bundle] if is_quick else [[str(WEB / "build"), str(program)], bundle]):
            ran = subprocess.run(words, stdout=subprocess.PIPE, stderr=subprocess.STDOUT, text=True)
            if ran.returncode:
                return ran.stdout, 0, 1
        if page.read_bytes() != PAGE.read_bytes():
            return f"{PAGE.relative_to(TOP)} is not the page that {Path(bundle[0]).name} makes", 0, 1
    return "", 1, 0


def lines_run(room: str, is_quick: bool) -> tuple[str, int, int]:
    """Whether the parts ran the lines of web/src, but for few; answers those that none did, and the counts."""
    not_run, every = lines_not_run(Path(room))
    share = 100 * len(not_run) / every
    most = MOST_NOT_RUN["quick" if is_quick else "all"]
    said = f"{len(not_run)} of {every} lines of web/src are run by no trial, {share:.2f} per cent"
    if share <= most:
        return said, 1, 0
    return "\n".join([f"{said}, and {most} is the most:", *shown(not_run)]), 0, 1


def missing() -> Iterator[str]:
    """The tools that are not there."""
    for name in ("node", "tsc", "wasm-opt", "rt"):
        if shutil.which(name) is None:
            yield name
    if not find_browser():
        yield "chromium"
    if not find_firefox():
        yield "firefox"


def parts(program: Path, has_long: bool) -> Iterator[Part]:
    """The parts, the longest first."""
    for name, option, leasts in ((LONG, "--long", LEAST_OF_LONG), ("the page in Chromium", "--quick", LEAST_IN_CHROMIUM)):
        for number, least in enumerate(leasts, 1):
            if has_long or name != LONG:
                shard = [sys.executable, str(HERE / "chromium.py"), option, "--part", f"{number}/{len(leasts)}"]
                yield Part({"chromium"}, f"{name}, {number} of {len(leasts)}", shard, least)
    random = [sys.executable, str(HERE / "random_jobs.py"), str(program)]
    yield Part({"node"}, "random jobs in node", random, 3000)
    yield Part({"node"}, "the parts of the page in node", ["node", str(HERE / "parts.mjs")], 920)
    yield Part({"node"}, "the small functions in node", ["node", str(HERE / "small.mjs")], 410)
    yield Part({"node"}, "the ways of arrows in node", ["node", str(HERE / "routes.mjs")], 190)
    yield Part({"node"}, "the provenance in node", ["node", str(HERE / "provenance.mjs")], 69)
    yield Part({"node"}, "the layout in node", ["node", str(HERE / "layout.mjs")], 91)
    yield Part({"node"}, "the camera in node", ["node", str(HERE / "camera.mjs")], 15)
    yield Part({"node"}, "the cases in node", ["node", str(HERE / "cases.mjs")], 620)
    yield Part({"tsc"}, "the types of the scripts", [sys.executable, str(HERE / "check_types.py")], 1)
    yield Part({"firefox"}, "the page in Firefox", [sys.executable, str(HERE / "firefox.py")], 11)
    yield Part(set(), "what is known of a page", [sys.executable, str(HERE / "passed.py")], 13)
    yield Part(set(), "what the tests of the page are made of", [sys.executable, str(HERE / "harness_trials.py")], 175)


def main() -> int:
    """Runs the tests; answers the exit status."""
    program, is_quick = Path(next(word for word in sys.argv[1:] if not word.startswith("--"))).resolve(), "--quick" in sys.argv
    known = passed_before.known() if "--unless-passed" in sys.argv else None
    gone = set(missing())
    done = []
    with tempfile.TemporaryDirectory(prefix="l6-lines-") as room, \
            ThreadPoolExecutor(min(AT_ONCE, os.cpu_count() or 1)) as pool:
        if not is_quick and gone & {"wasm-opt", "rt"}:
            print(f"skipped: the page made again: {', '.join(sorted(gone & {'wasm-opt', 'rt'}))} is missing")
            done.append(("the page bundled again", pool.submit(made_again, program, True)))
        else:
            done.append(("the page made again", pool.submit(made_again, program, is_quick)))
        for part in parts(program, not is_quick and known is None):
            if part.needs & gone:
                print(f"skipped: {part.name}: {', '.join(part.needs & gone)} is missing")
            else:
                done.append((part.name, pool.submit(counted, part, room)))
        if gone & {"chromium", "node"}:
            print("skipped: the lines of web/src that are run: Chromium or Node is missing")
        else:
            wait(future for _, future in done)
            done.append(("the lines of web/src that are run", pool.submit(lines_run, room, is_quick or known is not None)))
        return told([(name, *future.result()) for name, future in done], known)


def told(results: list[tuple[str, str, int, int]], known: int | None) -> int:
    """Prints what came of the parts, and the count; answers the exit status. If the long trials passed, it is noted."""
    if known is not None:
        results.insert(1, (LONG, "this page passed them before", known, 0))
    for name, text, right, wrong in results:
        print(f"web: {name}: {right} passed, {wrong} failed", flush=True)
        print(f"{text}\n" if text else "", end="", flush=True)
    long = [(right, wrong) for name, _, right, wrong in results if name.startswith(LONG)]
    count = passed_before.count_of(long, len(LEAST_OF_LONG))
    if known is None and count is not None:
        passed_before.note(count)
    passed, failed = sum(right for _, _, right, _ in results), sum(wrong for _, _, _, wrong in results)
    print(f"{passed} passed, {failed} failed")
    return 1 if failed else 0


if __name__ == "__main__":
    sys.exit(main())
