#!/usr/bin/env python3
"""Checks that ./test fails if one of its steps does, and that it makes all of them.

gate.py prints each difference, and last 'N passed, M failed'. ./test is called in a small checkout, with a
python3 that tests nothing: it notes what it is asked for, and prints a count. Of each step in turn it has a
trial fail, ends with another status, prints no count, or has tried nothing. Harnesses are tried, too: what
they print if an answer is wrong.
"""
from __future__ import annotations

import os
import re
import shutil
import signal
import subprocess
import sys
import tempfile
import time
from collections.abc import Callable, Iterator
from pathlib import Path
from unittest import mock

sys.path[:0] = [str(Path(__file__).resolve().parents[1] / it) for it in ("harness", "program", "systems")]
from answers import Answer, answer_of
from checkout import TOP, WRONG, Checkout, Idle
from lines_of_node import lines_that_are_run
from trials import ONLY, Trial, at_least, few_pass, first_wrong, groups_asked_for, named, report, tally

import same_answers

# The steps of ./test and of the gate, in their order: the words by which each is known.
STEPS = [
    "tests/scripts/gate.py",
    "tests/scripts/static_checks.py",
    "tests/scripts/out_of_memory.py",
    "tests/edits/check_report_trials.py",
    "tests/edits/verdict_trials.py",
    "tests/pages/picture_trials.py",
    "tests/program/program.py",
    "tests/program/refused_memory.py",
    "tests/program/model_jobs.py",
    "tests/program/check_decks.py",
    "bench/run",
    "tests/program/traces.py",
    "tests/systems/library.py",
    "tests/pages/documents.py",
    "tests/pages/facts.py",
    "tests/pages/sentences.py",
    "tests/pages/table_decks.py",
    "tests/pages/format_pages.py",
    "tests/pages/named.py",
    "tests/program/l6db.py",
    "tests/program/terminal.py",
    "tests/program/editors.py",
    "tests/scripts/launcher.py",
    "tests/scripts/install.py",
    "tests/scripts/script_words.py",
    "tests/scripts/bundled_page.py",
    "web/tests/all.py",
    "tests/systems/ports.py",
    "tests/scripts/release.py",
]
GATE_STEPS = ["rt ci", *STEPS, "tests/defects/sight.py", "tests/defects/defects.py", "tests/edits/edits.py"]
PACKAGES = {  # without which tests are left out
    "binaryen", "nodejs", "chromium", "mypy", "shellcheck", "qemu-user-static", "busybox-static", "zsh", "fish",
    "lintian", "firefox-esr", "node-typescript", "python3-markdown", "rlwrap", "pkgconf", "neovim",
    "emacs-nox", "vim-nox",
}
OF_EDITORS = {  # for which .ci/run asks dpkg
    "elpa-eglot", "elpa-lsp-mode", "elpa-dap-mode", "vim-ale", "golang-github-google-go-dap-dev", "golang-go",
}
LIBRARIES = {"x86_64": "musl-dev", "aarch64": "musl-dev:arm64"}  # of C, by processor
# What else tests look for: it is there, or tests are left out with a word.
FURTHER_TOOLS = {"bash", "c++", "cc", "cargo", "cp", "dpkg-deb", "find", "git", "go", "nm", "rt", "rustc", "sort", "yes"}
# Scripts of tests/ that ./test does not call.
NOT_A_STEP = {"adapter.py", "compiled_edits.py", "hostile.py", "loose_words.py", "python_lines.py", "same_answers.py", "wrong_answers.py"}

STAND_IN = """#!/bin/sh
# A stand-in for python3 and rt: notes its words, and prints a count, which $HOW makes a bad one in what $FAILS
# names, with colons between.
words="${0##*/} $*${L6_ONLY+ of $L6_ONLY}"
[ "$*" = version ] && exec cat "$STAND_IN/version"
echo "$words" >> "$STAND_IN/steps"
how=well
IFS=:
for one in $FAILS; do
    case "$words" in *"$one"*) how=$HOW ;; esac
done
case $how in
    well) echo "99999 passed, 0 failed" ;;
    fewer-trials) echo "99998 passed, 0 failed" ;;
    more-trials) echo "100000 passed, 0 failed" ;;
    skipped) echo "skipped: a tool: it is missing"; echo "99998 passed, 0 failed" ;;
    skipped-as-asked) echo "skipped: a tool: as was asked"; echo "99998 passed, 0 failed" ;;
    skipped-and-more) echo "skipped: a tool: it is missing"; echo "100000 passed, 0 failed" ;;
    a-failed-trial) echo "99999 passed, 1 failed" ;;
    three-failed-trials) echo "99999 passed, 3 failed"; exit 1 ;;
    a-status) echo "99999 passed, 0 failed"; exit 1 ;;
    a-status-of-*) echo "99999 passed, 0 failed"; exit "${how##*-}" ;;
    no-count) echo "99999 passed" ;;
    no-trial) echo "0 passed, 0 failed" ;;
    until=*) # another step has begun
        times=0
        while ! grep -q "${how#until=}" "$STAND_IN/steps" && [ "$times" -lt 100 ]; do
            sleep 0.1
            times=$((times + 1))
        done
        [ "$times" -lt 100 ] && echo "99999 passed, 0 failed"
        ;;
    before=*) # another step begins
        sleep 1
        grep -q "${how#before=}" "$STAND_IN/steps" || echo "99999 passed, 0 failed"
        ;;
    works) # for two seconds of processor time
        trap "echo '99999 passed, 0 failed'; exit 0" XCPU
        ulimit -S -t 2
        while :; do :; done
        ;;
    sleeps) echo $$ >> "$STAND_IN/sleepers"; exec sleep 60 ;;
esac
"""
HOWS = ["a-failed-trial", "a-status", "no-count", "no-trial", "fewer-trials", "more-trials", "skipped-and-more",
        "a-status-of-2", "a-status-of-137", "a-status-of-139"]
# The options that steps have in ./test, and in the gate, where nothing is left out.
OPTIONS = {
    (): {"run": ["--check"], "all.py": ["--quick"], "ports.py": ["--quick"], "release.py": ["--quick"]},
    ("--prove",): {"run": ["--check"], "library.py": ["--prove"], "all.py": ["--unless-passed"], "terminal.py": ["--whole"], "editors.py": ["--whole"],
                   "edits.py": ["--sample"]},
}
NONE = "none of these steps"
COUNTED = 99_999  # trials that the stand-in has
COUNTS = "".join(
    f"{name} {2 if name == 'dist' else COUNTED} {2 if name == 'dist' else COUNTED}\n"
    for name in (TOP / "tests/counts").read_text("utf-8").split()[::3]
)
OF_SHELL = "dist"  # the step of the gate that is no script
MODULE = "tools/module.py"  # what it calls


class Gate:
    """A checkout with ./test, in which nothing is tested."""

    def __init__(self, folder: Path) -> None:
        self.checkout = Checkout(folder)
        self._names: dict[tuple[str, ...], list[str]] = {}
        self.top = self.checkout.top
        (self.top / "bench").mkdir()
        for name in ("test", "bench/run"):
            shutil.copy(TOP / name, self.top / name)
        self.first = folder / "first"
        self.first.mkdir()
        for name in ("python3", "rt"):
            (self.first / name).write_text(STAND_IN)
            (self.first / name).chmod(0o755)
        built = self.top / "crates/l6/out/l6"  # what rt ci would build
        built.parent.mkdir(parents=True)
        shutil.copy(self.top / "dist/l6", built)
        self.counts = self.top / "tests/counts"
        self.checkout.write("tests/counts", COUNTS)

    def test(self, *words: str, fails: str = NONE, how: str = "well", late: int = 140) -> tuple[Answer[str], list[str]]:
        """What ./test answers if a step fails, and what it called. The gate is late after so many minutes."""
        log = self.checkout.state / "steps"
        log.unlink(missing_ok=True)
        actual = self.checkout.run("test", *words, FIRST=str(self.first), FAILS=fails, HOW=how, L6_LATE=str(late))
        calls = log.read_text().splitlines() if log.exists() else []
        return actual, [call for call in calls if MODULE not in call]

    def begin(self, fails: str, how: str) -> subprocess.Popen[bytes]:
        """Begins ./test, in which some steps fail."""
        path = f"{self.first}:{self.checkout.folder / 'whole'}:{os.environ['PATH']}"
        given = {"PATH": path, "STAND_IN": str(self.checkout.state), "FAILS": fails, "HOW": how}
        # (what runs beside a shell, as this may, ignores that one is interrupted, and so would ./test)
        return subprocess.Popen([self.top / "test"], env=os.environ | given, stdout=subprocess.DEVNULL, stderr=subprocess.DEVNULL,
                                preexec_fn=lambda: signal.signal(signal.SIGINT, signal.SIG_DFL))

    def names(self, *words: str) -> list[str]:
        """The names of the steps, as they are said when each begins."""
        if words not in self._names:
            said = self.test(*words)[0].stderr
            self._names[words] = [
                it
                for it in re.findall(r"^test: \S+ +\d+ of \d+, (\S+):", said, re.MULTILINE)
                if it != OF_SHELL
            ]
        return self._names[words]


def last_line(actual: Answer[str]) -> tuple[str, int | str]:
    """The last line of an answer, and its status."""
    return (actual.stdout.splitlines() or [""])[-1], actual.status


def known_in(steps: list[str], calls: list[str]) -> list[str]:
    """The steps that calls are, in the order of the steps, since some run side by side; then calls that are none."""
    found = [next((step for step in steps if step in call), call) for call in calls]
    return sorted(found, key=lambda it: steps.index(it) if it in steps else len(steps))


def steps_that_fail(gate: Gate) -> Iterator[Trial]:
    """Each step in turn fails: so does the whole, all steps are made, and the failure is shown at the end."""
    for words, steps in (((), STEPS), (("--prove",), GATE_STEPS)):
        name = " ".join(["./test", *words])
        actual, calls = gate.test(*words)
        count = 99_999 * len(steps) + (2 if words else 0)
        yield f"{name} with all steps well", (f"{count} passed, 0 failed", 0), last_line(actual)
        yield f"the steps of {name}", steps, known_in(steps, calls)
        yield f"what {name} says of failures then", [], failures_in(actual)
        yield f"the options of the steps of {name}", OPTIONS[words], options_of(calls)
    # (each step fails once, beside others that do not)
    for which in range(2):
        yield from steps_fail(gate, (), STEPS[which::2], HOWS[which])
    for how in HOWS:
        yield from steps_fail(gate, (), STEPS[:1], how)
    for step in (GATE_STEPS[0], *GATE_STEPS[-5:]):
        yield from steps_fail(gate, ("--prove",), [step], HOWS[1])


def steps_fail(gate: Gate, words: tuple[str, ...], failing: list[str], how: str) -> Iterator[Trial]:
    """Some steps fail in some way. They alone are named at the end."""
    actual, calls = gate.test(*words, fails=":".join(failing), how=how)
    steps, names = GATE_STEPS if words else STEPS, gate.names(*words)
    count = last_line(actual)[0].rpartition(", ")[2]
    wrong = [names[steps.index(step)] for step in failing]
    expected = (f"{len(failing)} failed", 1, wrong, len(names))
    what = f"./test {' '.join(words)}: {how} of {', '.join(failing)}"
    yield what, expected, (count, actual.status, failures_in(actual), len(calls))


def steps_side_by_side(gate: Gate) -> Iterator[Trial]:
    """Steps run beside others, but for those that take all processors. What each prints is shown whole, in their order."""
    name = "a step that ends when the next one has begun"
    actual, _ = gate.test(fails="tests/program/program.py", how="until=tests/program/model_jobs.py")
    yield name, 0 if (os.cpu_count() or 1) > 1 else actual.status, actual.status
    counts = [line for line in actual.stdout.splitlines() if line.endswith(" failed")]
    yield f"what is shown after {name}", ["99999 passed, 0 failed"] * len(STEPS), counts[:-1]
    for step, following in ((STEPS[-4], STEPS[-3]), (STEPS[-3], STEPS[-2]), (STEPS[-2], STEPS[-1])):
        actual, _ = gate.test(fails=step, how=f"before={following}")
        yield f"{step} ends before {following} begins", 0, actual.status


def interruptions(gate: Gate) -> Iterator[Trial]:
    """Where ./test is interrupted, its steps end, too."""
    for kind, status in ((signal.SIGINT, 130), (signal.SIGTERM, 143)):
        sleepers = gate.checkout.state / "sleepers"
        sleepers.write_text("")
        begun = gate.begin(fails="tests/", how="sleeps")
        end = time.monotonic() + 60
        while not sleepers.read_text() and time.monotonic() < end:
            time.sleep(0.1)
        begun.send_signal(kind)
        yield f"the status after {kind.name}", status, begun.wait(120)
        while any(map(runs, sleepers.read_text().split())) and time.monotonic() < end:
            time.sleep(0.1)
        slept = sleepers.read_text().split()
        yield f"what runs after {kind.name}", (True, []), (bool(slept), [it for it in slept if runs(it)])


def runs(process: str) -> bool:
    """Whether a process runs. (One that has ended may be listed for a while, without its words.)"""
    try:
        return bool(Path("/proc", process, "cmdline").read_bytes())
    except OSError:
        return False


def options_of(calls: list[str]) -> dict[str, list[str]]:
    """The options of each script that is called with some, by its name."""
    found = {Path(call.split()[1]).name: re.findall(r"(?<= )--\S+", call) for call in calls}
    return {name: options for name, options in found.items() if options}


def failures_in(actual: Answer[str]) -> list[str]:
    """The titles of the steps that are named as failed at the end."""
    return re.findall(r"^failed: (.*); status \d+$", actual.stdout, re.MULTILINE)


def other_programs(gate: Gate) -> Iterator[Trial]:
    """The gate fails if the program that is built is not that of dist/."""
    built = gate.top / "crates/l6/out/l6"
    whole = built.read_bytes()
    built.write_bytes(whole + b"# another\n")
    actual, _ = gate.test("--prove")
    said = "\ndist/l6 has other bytes than the program of these sources; tools/make_dist makes it again\n" in actual.stdout
    yield "another program", (1, True, ["dist"]), (actual.status, said, failures_in(actual))
    built.write_bytes(whole)
    actual, _ = gate.test("--prove", fails=MODULE, how="a-status")
    yield "another module", (1, ["dist"]), (actual.status, failures_in(actual))
    gate.checkout.write("crates/l6/src/main.rt", "another main\n")
    actual, _ = gate.test("--prove")
    said = "\ndist/l6 is not the program of these sources; tools/make_dist makes it again\n" in actual.stdout
    yield "a program of other sources", (1, True, ["dist"]), (actual.status, said, failures_in(actual))


def no_program(gate: Gate) -> Iterator[Trial]:
    """If no program belongs to the sources and none can be built, nothing is tested."""
    gate.checkout.write("crates/l6/src/main.rt", "another main\n")
    actual, calls = gate.test(fails="tools/prove.py", how="a-status")
    called = [call.rpartition("/")[2] for call in calls]
    yield "no program", (1, "", ["prove.py l6"]), (actual.status, actual.stdout.partition("99999")[0], called)


def words_of_the_command(gate: Gate) -> Iterator[Trial]:
    """Which words ./test takes, and what they do."""
    for words in (("-x",), ("--only",), ("--only", ""), ("--anew",), ("--prove", "x"), ("--only", "a", "b")):
        actual, calls = gate.test(*words)
        yield f"the words {words}", (64, "", []), (actual.status, actual.stdout, calls)
        yield f"what is said of the words {words}", USAGE, actual.stderr
    actual, calls = gate.test("--list")
    names = actual.stdout.splitlines()
    yield "--list", (0, len(STEPS), len(STEPS), []), (actual.status, len(names), len(set(names)), calls)
    for at in (0, 5, len(names) - 1):
        actual, calls = gate.test("--only", names[at])
        yield f"--only {names[at]}", ([STEPS[at]], 0), (known_in(STEPS, calls), actual.status)
    actual, _ = gate.test("--only", "install", fails="tests/", how="a-status")
    yield "--only a step that fails", ("99999 passed, 1 failed", 1), last_line(actual)
    actual, _ = gate.test("--only", "install", fails="tests/", how="three-failed-trials")
    yield "--only a step of which three trials fail", ("99999 passed, 3 failed", 1), last_line(actual)
    actual, calls = gate.test("--only", "no word")
    yield "--only a trial", ([step for step in STEPS[1:] if step != "web/tests/all.py"], 0), (known_in(STEPS, calls), actual.status)
    yield "--only a trial, what is asked for", True, all(call.endswith(" of no word") for call in calls)
    actual, _ = gate.test("--only", "no word", fails="tests/", how="no-trial")
    yield "--only a trial of one step", 0, actual.status
    actual, _ = gate.test("--only", "no such trial", fails=" ", how="no-trial")
    yield "--only a trial that is not there", ("0 passed, 1 failed", 1), last_line(actual)
    yield "what is said of it", True, "\nno trial has no such trial in its name\n" in actual.stdout
    path = {"PATH": str(gate.checkout.folder / "plain")}
    actual = gate.checkout.run_words([shutil.which("bash") or "bash", str(gate.top / "test")], gate.top, path)
    said = "test: python3 is not on the path; README.md says what is needed\n"
    yield "a tool that is missing", Answer("", said, 1), actual
    _, calls = gate.test("--prove", "--anew")
    tried = [call for call in calls if "edits.py" in call]
    yield "--anew", ["python3 tests/edits/edits.py --sample --anew"], tried
    _, calls = gate.test("--prove", late=0)
    tried = [call for call in calls if "edits.py" in call or "defects.py" in call]
    yield "a gate that is late", ["python3 tests/defects/defects.py --few", "python3 tests/edits/edits.py"], tried


def counts(gate: Gate) -> Iterator[Trial]:
    """A step has just as many trials as was recorded; if it says that it skips some, it may have fewer."""
    for how, words, status in (
        ("skipped", (), 0),
        ("skipped", ("--prove",), 0),
        ("skipped-as-asked", (), 1),
        ("skipped-as-asked", ("--prove",), 0),
        ("fewer-trials", ("--prove",), 1),
        ("more-trials", (), 1),
        ("more-trials", ("--prove",), 1),
    ):
        actual, _ = gate.test(*words, fails="tests/program/program.py", how=how)
        yield f"./test {' '.join(words)}: {how}", status, actual.status
    for how, said in (
        ("fewer-trials", "program: 99998 trials, and tests/counts says 99999; if they are right, ./test --record\n"),
        ("no-count", f"python3 tests/program/program.py {gate.top}/dist/l6: no count at the end, status 0\n"),
    ):
        actual, _ = gate.test(fails="tests/program/program.py", how=how)
        yield f"what is said of {how}", True, f"\n{said}" in actual.stdout
    gate.test("--record", fails="tests/program/program.py", how="fewer-trials")
    recorded = COUNTS.replace(f"program {COUNTED}", f"program {COUNTED - 1}", 1)
    yield "what is recorded", recorded, gate.counts.read_text()
    gate.counts.write_text("".join(line for line in COUNTS.splitlines(True) if not line.startswith("model ")))
    actual, _ = gate.test()
    yield "a step without a recorded count", (1, ["model"]), (actual.status, failures_in(actual))
    gate.test("--prove", "--record")
    yield "what is recorded of it", f"model - {COUNTED}", gate.counts.read_text().splitlines()[-1]
    gate.counts.unlink()
    actual, _ = gate.test()
    yield "without recorded counts", 1, actual.status


def another_kit(gate: Gate) -> Iterator[Trial]:
    """Another kit than that of dist/ fails nothing by its name; if its bytes differ, answers are compared."""
    compares = "same_answers.py"
    actual, calls = gate.test("--prove")
    yield "with the kit of dist/", [], [call for call in calls if compares in call]
    took = re.search(r"^test: \d+ minutes, \d+ processor minutes$", actual.stderr, re.MULTILINE)
    yield "the minutes that the gate has taken", True, took is not None
    for step, name in (("tests/pages/facts.py", "facts"), (GATE_STEPS[-1], "edits")):
        actual, _ = gate.test("--prove", fails=step, how="works")
        longest = re.search(r"^test: processor seconds of the longest steps: (\w+) [23]\b", actual.stderr, re.MULTILINE)
        yield f"the step that took longest, where {name} works", name, longest and longest[1]
    gate.checkout.set_version("another kit")
    actual, calls = gate.test("--prove")
    said = "\ndist/l6 was made by a toolchain, and this is another kit\n" in actual.stdout
    yield "with another kit and the same bytes", (True, 0, []), (said, actual.status, [it for it in calls if compares in it])
    built = gate.top / "crates/l6/out/l6"
    whole = built.read_bytes()
    built.write_bytes(whole + b"# other bytes\n")
    actual, calls = gate.test("--prove")
    yield "with another kit and other bytes", 0, actual.status
    said = "\ndist/l6: the bytes differ, so what both answer is compared, and no program is made again\n" in actual.stdout
    yield "what is said with another kit and other bytes", True, said
    yield "what is compared then", 1, len([call for call in calls if compares in call])
    yield "what is made again then", [], [it for it in calls if "web/tests/all.py" in it and "--quick" not in it]
    actual, _ = gate.test("--prove", fails=compares, how="a-status")
    yield "with another kit and another answer", 1, actual.status
    gate.checkout.set_version("a toolchain")
    actual, _ = gate.test("--prove")
    yield "with the kit of dist/ and other bytes", 1, actual.status
    built.write_bytes(whole)


USAGE = """\
usage: ./test [--only NAME]
       ./test --list
       ./test --prove [--anew]
       ./test [--prove] --record
"""
HARNESS = f"""
import os, sys
sys.path.insert(0, {str(TOP / "tests/harness")!r})
from answers import answer
from trials import report
right = answer(b"out", b"err", 3)
made = [("right", right, answer(b"out", b"err", 3)), ("stdout", right, answer(b"on", b"err", 3)),
        ("stderr", right, answer(b"out", b"", 3)), ("status", right, answer(b"out", b"err", 0))]
sys.exit(report([it for it in made if it[0] in sys.argv[1]], [("a canary", 1, int(sys.argv[2]))]))
"""
SHOWN = {
    "stdout": "stdout\n  stdout: expected b'out', length 3\n          actual   b'on', length 2\n",
    "stderr": "stderr\n  stderr: expected b'err', length 3\n          actual   b'', length 0\n",
    "status": "status\n  status: expected 3\n          actual   0\n",
}


def harness(names: str, canary: int, **environment: str) -> Answer[str]:
    """The answer of a script of trials, of which some fail."""
    ended = subprocess.run(
        [sys.executable, "-c", HARNESS, names, str(canary)],
        capture_output=True,
        text=True,
        env={"PATH": "/usr/bin:/bin", **environment},
    )
    return Answer(ended.stdout, ended.stderr, ended.returncode)


def harnesses() -> Iterator[Trial]:
    """A script of trials reports each part of an answer that is wrong, and a canary that passes."""
    yield "a right answer", Answer("1 passed, 0 failed\n", "", 0), harness("right", 2)
    for part, text in SHOWN.items():
        yield f"a wrong {part}", Answer(f"{text}1 passed, 1 failed\n", "", 1), harness(f"right {part}", 2)
    all_of_it = "".join(SHOWN.values()) + "1 passed, 3 failed\n"
    yield "all that is wrong", Answer(all_of_it, "", 1), harness("right stdout stderr status", 2)
    passed = harness("right", 1)
    yield "a canary that passes", (("0 passed, 1 failed", 1), True), (
        last_line(passed),
        "a canary" in passed.stdout,
    )
    also_wrong = harness("right stdout", 1)
    yield "a canary that passes, and a trial that fails", (("0 passed, 2 failed", 1), True), (
        last_line(also_wrong), SHOWN["stdout"] in also_wrong.stdout)
    room = answer_of(["sh", "-c", "ulimit -v"]).stdout
    yield "the addresses that a program has, in KiB", b"49152\n", room
    begun = time.monotonic()
    yield "a program that does not end", "none within 1 seconds", answer_of(["sleep", "60"], seconds=1).status
    yield "how long one waits for it", True, time.monotonic() - begun < 15
    yield "a program that a signal kills", -15, answer_of(["sh", "-c", "kill $$"]).status
    few = list(at_least(2, "trials", [("one", 1, 1)]))
    yield "one trial where two are the least", [("one", 1, 1), ("at least 2 trials: trials", 2, 1)], few
    yield "one trial that is wrong", ("b", 1, 2), first_wrong("what", [("a", 1, 1), ("b", 1, 2)])
    for most, is_missed in ((0, True), (1, False)):
        canary = few_pass("what", most, [("a", [1], [1]), ("b", [1], [2])])  # (equal lists are not the same one)
        yield f"one of two passes, where {most} may", is_missed, canary[1] == canary[2]
    yield "no trial that is wrong", True, tally([first_wrong("what", [("a", [1], [1])])], is_shown=False) == (1, 0)
    for asked, expected in (("", {"a", "b"}), ("b: it", {"b"}), ("b:", {"b"}), ("c: it", {"a", "b"}), ("b", {"a", "b"})):
        with mock.patch.dict(os.environ, {ONLY: asked}):
            yield f"the groups that are made for {asked!r}", expected, groups_asked_for(["a", "b"])
    only = harness("right stderr", 2, **{ONLY: "stderr"})
    yield "the trials of a name", Answer(f"{SHOWN['stderr']}0 passed, 1 failed\n", "", 1), only


def scripts() -> Iterator[Trial]:
    """Each script of tests/ is a step, and the machine that runs the gate calls it."""
    made = {file.name for file in (TOP / "tests").glob("*/*.py") if file.read_text("utf-8").startswith("#!")}
    steps = {Path(step).name for step in GATE_STEPS if step.startswith("tests/")}
    yield "the scripts of tests/", sorted(made - NOT_A_STEP), sorted(steps)
    text = (TOP / ".ci/run").read_text("utf-8")
    installed = {package for package in PACKAGES if re.search(rf"\w:{package}[ ;\n]", text)}
    yield "what .ci/run installs", PACKAGES, installed
    last = text.rstrip().splitlines()[-1]
    yield "what .ci/run ends in", True, re.fullmatch(r"exec .*/\.\./test\" --prove", last) is not None


def tools_of_tests() -> Iterator[Trial]:
    """Each tool that tests look for is known: by a wrong name of one its tests would all be left out."""
    scripts = (it for folder in ("tests", "web/tests") for it in (TOP / folder).rglob("*.py"))
    looked = {name for script in scripts for name in re.findall(r'which\("([^"]+)"\)', script.read_text("utf-8"))}
    installed = set(re.findall(r" ([\w-]+):[\w-]+", (TOP / ".ci/run").read_text("utf-8")))
    yield "what tests look for and .ci/run does not install", FURTHER_TOOLS, looked - installed


def machine_of_the_gate() -> Iterator[Trial]:
    """.ci/run installs the packages whose tools are missing, where it may, and is then the gate, whose status it has."""
    everything = PACKAGES | OF_EDITORS | {*LIBRARIES.values()}
    cases: list[tuple[int, str, set[str]]] = [
        (0, "none", everything), (1_000, "none", set()),
        *((0, processor, everything - {package}) for processor, package in LIBRARIES.items()),
    ]
    for user, processor, expected in cases:
        with tempfile.TemporaryDirectory() as folder:
            room, log = Path(folder), Path(folder, "log")
            library = room / f"lib/{processor}-linux-musl/libc.a"
            for needed in (room / ".ci", room / "bin", library.parent):
                needed.mkdir(parents=True)
            library.touch()
            (room / ".ci/run").write_text((TOP / ".ci/run").read_text("utf-8").replace("/usr/lib/", f"{room}/lib/"), "utf-8")
            for name, text in {"test": "echo the gate with $*; exit 3", "bin/id": f"echo {user}",
                               "bin/apt-get": f'echo "$*" >> "{log}"', "bin/dpkg": f'[ "$1" != -s ] && echo "dpkg $*" >> "{log}"'}.items():
                (room / name).write_text(f"#!/bin/sh\n{text}\n")
                (room / name).chmod(0o755)
            for name in ("bash", "dirname"):
                (room / "bin" / name).symlink_to(shutil.which(name) or name)
            path = {"PATH": str(room / "bin")}
            ended = subprocess.run([room / "bin/bash", room / ".ci/run"], env=path, capture_output=True, text=True)
            calls = log.read_text().splitlines() if log.exists() else []
            yield f"packages that the user {user} installs, with the library of {processor}", expected, {it.split()[-1] for it in calls if "install" in it.split()}
            order = [it for it in calls if "install" not in it.split()]
            yield f"what the user {user} does before, with the library of {processor}", (
                ["dpkg --add-architecture arm64", "update"] if expected else []), order
            yield f"what the user {user} has then, with the library of {processor}", ("the gate with --prove", 3), (ended.stdout.splitlines()[-1], ended.returncode)


def answers_of_another_kit() -> Iterator[Trial]:
    """What programs of two toolchains answer is compared: that of one is not taken for that of the other."""
    with tempfile.TemporaryDirectory() as folder:
        one, another = Path(folder, "one"), Path(folder, "another")
        for program, said in ((one, "run list"), (another, "run check")):
            program.write_text(f'#!/bin/sh\ncase "{said}" in *"$1"*) cat ;; *) exit 3 ;; esac\n', "utf-8")
            program.chmod(0o755)
        jobs: list[same_answers.Job] = [(verb, [verb], b"a deck\n") for verb in ("run", "list", "check")]
        with mock.patch.object(same_answers, "jobs_of", lambda _: jobs), mock.patch.object(same_answers, "DECKS", [one]):
            cases: tuple[tuple[Path, list[str]], ...] = ((one, []), (another, ["list", "check"]))
            for other, differing in cases:
                wrong = [name for name, expected, actual in same_answers.compared(str(one), str(other)) if expected != actual]
                yield f"what differs from {other.name}", [f"the same answer: {verb}" for verb in differing], wrong


ON_CHECKOUTS: tuple[Callable[[Gate], Iterator[Trial]], ...] = (
    steps_that_fail, steps_side_by_side, interruptions, counts, other_programs, another_kit, no_program, words_of_the_command,
)
ALONE: tuple[Callable[[], Iterator[Trial]], ...] = (
    harnesses, scripts, lines_that_are_run, tools_of_tests, machine_of_the_gate, answers_of_another_kit,
)


def trials() -> Iterator[Trial]:
    """All trials, each group of the first kind on a checkout of its own."""
    asked = groups_asked_for(group.__name__ for group in (*ON_CHECKOUTS, *ALONE))
    for group in (it for it in ON_CHECKOUTS if it.__name__ in asked):
        with tempfile.TemporaryDirectory() as folder:
            yield from named(group.__name__, group(Gate(Path(folder) / "checkout")))
    for alone in (it for it in ALONE if it.__name__ in asked):
        yield from named(alone.__name__, alone())


class OtherGate(Gate):
    """A checkout with a ./test that does nothing, and answers something else."""

    def __init__(self, whole: Gate, folder: Path) -> None:
        self.checkout = Idle(whole.checkout, folder)
        self.top, self.counts = self.checkout.top, self.checkout.top / "tests/counts"

    def test(self, *words: str, fails: str = NONE, how: str = "well", late: int = 140) -> tuple[Answer[str], list[str]]:
        """Another answer, and another call."""
        return Answer(*WRONG), ["python3 nothing"]

    def begin(self, fails: str, how: str) -> subprocess.Popen[bytes]:
        """Begins what is not ended by a signal, and ends otherwise."""
        sleepers = self.checkout.state / "sleepers"
        return subprocess.Popen(["sh", "-c", f"trap '' INT TERM; echo $$ >> '{sleepers}'; sleep 1; exit 77"])

    def names(self, *words: str) -> list[str]:
        """Other names of the steps."""
        return ["nothing"] * len(GATE_STEPS)


# How many trials of groups expect that nothing runs, is made, named or compared.
PASSING = {"steps_that_fail": 2, "interruptions": 2, "another_kit": 2}


def canaries() -> Iterator[Trial]:
    """A ./test that does nothing: groups see it."""
    with tempfile.TemporaryDirectory() as folder:
        whole = Gate(Path(folder) / "checkout")
        for group in ON_CHECKOUTS:
            other = OtherGate(whole, Path(folder) / group.__name__)
            yield few_pass(f"{group.__name__} with a ./test that does nothing", PASSING.get(group.__name__, 0), group(other))


if __name__ == "__main__":
    sys.exit(report(trials(), canaries()))
