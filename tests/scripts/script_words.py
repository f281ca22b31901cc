#!/usr/bin/env python3
"""Tries what launcher.py and install.py leave out: words of scripts, other systems, checks that are killed.

scripts.py prints each difference, and last 'N passed, M failed'. It works on small checkouts of its own
(checkout.py), with stand-ins for rt and for commands of the system.
"""
from __future__ import annotations

import functools
import hashlib
import os
import shutil
import signal
import subprocess
import sys
import tempfile
import time
from collections.abc import Callable, Iterator
from pathlib import Path

sys.path[:0] = [str(Path(__file__).resolve().parents[1] / it) for it in ("harness", "../tools")]
from answers import Answer
from checkout import PLAIN, TOP, UNPROVED, Checkout, Group, on_checkouts
from kept_modules import kept_modules
from made_tables import made_tables
from proving import proving
from module import Edit, Stop, call, edited, program_of
from shared_rooms import shared_rooms
from trials import CANARY, Trial, report

# A stand-in for sort: another order than that of bytes, unless that is asked for.
SORT = '#!/bin/sh\n[ "${{LC_ALL-}}" = C ] && exec {sort} "$@"\nexec {sort} -r "$@"\n'
# A stand-in for cp: writes only the beginning of a file, and says that all is well.
CUTTING = '#!/bin/sh\nfor file; do from=$into; into=$file; done\nhead -c 40 "$from" > "$into"\n'
# A stand-in for rt: a check is killed each time.
KILLING = """#!/bin/sh
[ "$1" = version ] && exec cat "$STAND_IN/version"
echo "$1" >> "$STAND_IN/killed"
exit 247
"""
# A stand-in for rt: a check fails, and says why.
FAILING_CHECK = """#!/bin/sh
[ "$1" = version ] && exec cat "$STAND_IN/version"
echo why
echo why else >&2
exit 1
"""
# A stand-in for rt: a check takes long enough for another one to begin beside it.
SLOW = """#!/bin/sh
[ "$1" = version ] && exec cat "$STAND_IN/version"
echo "$1" >> "$STAND_IN/slow"
sleep 1
mkdir -p out/rlib
echo made > out/rlib/stamp
"""
# A program that starts, and fails to run a deck.
FAILING = '#!/bin/sh\n[ "$*" != --version ] || exit 64\nexit 1\n'
# A stand-in for macOS's command: it prints a sum of 256 bits only if that is asked for.
SHASUM = """#!{python}
import hashlib, sys
words = sys.argv[1:]
kind = "sha256" if words[:2] == ["-a", "256"] else "sha1"
files = words[2:] if kind == "sha256" else words
for name in files or ["-"]:
    data = sys.stdin.buffer.read() if name == "-" else open(name, "rb").read()
    print(f"{{hashlib.new(kind, data).hexdigest()}}  {{name}}")
"""
# Stand-ins for the commands that install files: they do nothing.
NOTHING = "#!/bin/sh\nexit 0\n"


def first_on_the_path(checkout: Checkout, name: str, **scripts: str) -> str:
    """A folder with these commands, to be the first on the path."""
    folder = checkout.folder / name
    folder.mkdir()
    for command, text in scripts.items():
        (folder / command).write_text(text)
        (folder / command).chmod(0o755)
    return str(folder)


def words(checkout: Checkout) -> Iterator[Trial]:
    """Only --prove and --version alone are the script's own; all other words are the program's."""
    for given in (("--prove", "x"), ("x", "--prove"), ("--version", "x"), ("--prove", "--version"), ("",)):
        printed = checkout.made_of + "".join(f"<{word}>\n" for word in given)
        yield f"the words {given}", Answer(printed, "", 7), checkout.run(
            "l6", *given, has_rt=False, STATUS="7"
        )
    actual = checkout.run("l6", "--version", has_rt=False, STATUS="64")
    yield "the status of --version", (64, f"{checkout.made_of}<--version>\n"), (actual.status, actual.stdout)


def proofs_that_fail(checkout: Checkout) -> Iterator[Trial]:
    """If a crate is not proved, --prove fails and says nothing else, also if it was proved before."""
    actual = checkout.run("l6", "--prove")
    yield "--prove", (0, True), (actual.status, "is proved" in actual.stderr)
    for crate in ("l6", "l6_word"):
        checkout.write(f"crates/{crate}/specs/Lib.antt", UNPROVED)
        actual = checkout.run("l6", "--prove")
        said = ("is proved" in actual.stderr, "the program was not built" in actual.stderr, actual.stdout)
        yield f"--prove with {crate} not proved", (1, (False, True, "")), (actual.status, said)
        checkout.write(f"crates/{crate}/specs/Lib.antt", "proved again\n")


def other_systems(checkout: Checkout) -> Iterator[Trial]:
    """The program of dist/ is for one system and one processor, and is run on no other."""
    for system in ("Linux riscv64", "Linux aarch64", "Linux i686", "Darwin x86_64", "FreeBSD amd64"):
        first = first_on_the_path(checkout, system, uname=f"#!/bin/sh\necho {system}\n")
        actual = checkout.run("l6", has_rt=False, FIRST=first)
        yield f"dist/l6 on {system}", False, actual.stdout.startswith(checkout.made_of)
    yield "dist/l6 here", checkout.made_of, checkout.run("l6", has_rt=False).stdout


def sums(checkout: Checkout) -> Iterator[Trial]:
    """Where there is no sha256sum, as on macOS, shasum is asked for the same sums."""
    folder = checkout.folder / "as on macOS"
    folder.mkdir()
    for name in PLAIN:
        if name != "sha256sum":
            (folder / name).symlink_to(shutil.which(name) or name)
    (folder / "shasum").write_text(SHASUM.format(python=sys.executable))
    (folder / "shasum").chmod(0o755)
    where = {"PATH": str(folder), "STAND_IN": str(checkout.state)}
    found = {name: shutil.which(name, path=str(folder)) is not None for name in ("sha256sum", "shasum")}
    yield "the commands for sums", {"sha256sum": False, "shasum": True}, found
    actual = checkout.run_words([str(checkout.top / "l6")], checkout.folder, where)
    yield "the program of dist/ by shasum", Answer(checkout.made_of, "", 0), actual
    checkout.write("crates/l6/src/main.rt", "a text for shasum\n")
    actual = checkout.run_words([str(checkout.top / "l6")], checkout.folder, where)
    yield "a changed source by shasum", (1, True), (actual.status, "crates/l6/src/main.rt has changed" in actual.stderr)
    checkout.write("crates/l6/src/main.rt", "-- src/main.rt of l6\n")


def orders(checkout: Checkout) -> Iterator[Trial]:
    """The sum of the sources does not depend on the order in which a language sorts names."""
    first = first_on_the_path(checkout, "sorting", sort=SORT.format(sort=shutil.which("sort")))
    for language in ("C", "en_US.UTF-8", ""):
        actual = checkout.run("l6", has_rt=False, FIRST=first, LC_ALL=language)
        yield f"sources sorted by {language or 'nothing'}", Answer(checkout.made_of, "", 0), actual


def what_checks_say(checkout: Checkout) -> Iterator[Trial]:
    """What a check that fails has written to either output is shown."""
    checkout.write("crates/l6_word/src/lib.rt", "a text whose check fails\n")
    first = first_on_the_path(checkout, "failing", rt=FAILING_CHECK)
    actual = checkout.run("tools/prove.py", "l6_word", FIRST=first)
    said = [line for line in actual.stderr.splitlines() if line.startswith("why")]
    yield "a check that fails", (1, ["why", "why else"]), (actual.status, said)


def checks_that_are_killed(checkout: Checkout) -> Iterator[Trial]:
    """A check that is killed twice is not made again, and the crate is not proved."""
    checkout.write("crates/l6_word/src/lib.rt", "a text whose check is killed\n")
    first = first_on_the_path(checkout, "killing", rt=KILLING)
    actual = checkout.run("tools/prove.py", "l6_word", FIRST=first)
    made = (checkout.state / "killed").read_text().split()
    said = ("again, alone" in actual.stderr, actual.stderr.endswith("l6_word is not proved\n"))
    yield "a check that is killed each time", (1, ["lib", "lib"], (True, True)), (actual.status, made, said)


def edits_meanwhile(checkout: Checkout) -> Iterator[Trial]:
    """What was edited while it was proved is proved again, even if the edit is undone."""
    source, text = checkout.top / "crates/l6_word/src/lib.rt", "a text that is edited meanwhile\n"
    source.write_text(text)
    (checkout.state / "edit").write_text(str(source))
    first = checkout.run("tools/prove.py", "l6_word")
    yield "an edit while it is proved", f"{text}edited while it builds\n", source.read_text()
    source.write_text(text)
    checkout.calls()
    actual = checkout.run("tools/prove.py", "l6_word")
    yield "an edit that is undone", (0, 0, ["lib l6_word"], text), (first.status, actual.status, checkout.calls(), source.read_text())
    checkout.run("tools/prove.py", "l6_word")
    yield "and then nothing", [], checkout.calls()


def two_at_once(checkout: Checkout) -> Iterator[Trial]:
    """Of two that prove the same crate at once, one does, and the other finds it proved."""
    checkout.write("crates/l6_word/src/lib.rt", "a text whose check is slow\n")
    first = first_on_the_path(checkout, "slow", rt=SLOW)
    path = f"{first}:{checkout.folder / 'whole'}:/usr/bin:/bin"
    command = [sys.executable, str(checkout.top / "tools/prove.py"), "l6_word"]
    environment = {"PATH": path, "STAND_IN": str(checkout.state)}
    both = [subprocess.Popen(command, env=environment, stderr=subprocess.DEVNULL) for _ in range(2)]
    statuses = [process.wait() for process in both]
    yield "two at once", ([0, 0], ["lib"]), (statuses, (checkout.state / "slow").read_text().split())


def cut_copies(checkout: Checkout) -> Iterator[Trial]:
    """If the program is not copied whole, dist/ stays as it is, and nothing is left beside it."""
    checkout.write("crates/l6/src/main.rt", "another main\n")
    dist = checkout.top / "dist"
    before = {file.name: file.read_bytes() for file in dist.iterdir()}
    first = first_on_the_path(checkout, "cutting", cp=CUTTING)
    actual = checkout.run("tools/make_dist", FIRST=first)
    after = {file.name: file.read_bytes() for file in dist.iterdir()}
    yield "a copy that is cut", (1, before), (actual.status, after)


def installing(checkout: Checkout) -> Iterator[Trial]:
    """Help by its short name, the prefix that is not given, and a program that does not run."""
    long, short = (checkout.run("install", word, has_rt=False) for word in ("--help", "-h"))
    yield "-h", (0, long.stdout, ""), (short.status, short.stdout, short.stderr)
    yield "the default prefix in the help", True, "PREFIX is /usr/local if it is not given" in long.stdout
    commands = ("mkdir", "cp", "mv", "chmod", "rm", "cmp", "rmdir", "ln", "touch")
    first = first_on_the_path(checkout, "nothing", **dict.fromkeys(commands, NOTHING))
    actual = checkout.run("install", has_rt=False, FIRST=first)
    yield "the default prefix", True, "/usr/local/" in actual.stderr + actual.stdout
    program, provenance = (checkout.top / "dist" / name for name in ("l6", "l6.provenance"))
    old, new = (hashlib.sha256(text).hexdigest() for text in (program.read_bytes(), FAILING.encode()))
    program.write_text(FAILING)
    provenance.write_text(provenance.read_text().replace(old, new))
    actual = checkout.run("install", "failing", has_rt=False)
    left = [file.name for file in (checkout.folder / "failing").rglob("*") if file.is_file()]
    yield "a program that does not run", (1, []), (actual.status, left)
    said = "install: the program does not run in failing/bin; nothing is installed\n"
    yield "what is said of a program that does not run", said, actual.stderr


def lanes_and_memory(checkout: Checkout) -> Iterator[Trial]:
    """How many processors and how much memory a control group leaves, and that no more lanes are lent."""
    for name, text in (
        ("quota", "150000 100000\n"),
        ("limit", "5000000\n"),
        ("held", "file 7\nanon 2000000\n"),
    ):
        checkout.write(name, text)
    script = f"""
import sys, threading
sys.path.insert(0, {str(TOP / "tools")!r})
from pathlib import Path
import lanes
lanes.QUOTA, lanes.LIMIT, lanes.HELD = map(Path, ("quota", "limit", "held"))
print(lanes.processors(), lanes.free_memory(), lanes.usable_memory())
lent, most, lock = [0], [0], threading.Lock()
one = lanes.Lanes(2)
def take():
    with one.lane(1, 1):
        with lock:
            lent[0] += 1
            most[0] = max(most[0], lent[0])
        threading.Event().wait(0.01)
        with lock:
            lent[0] -= 1
threads = [threading.Thread(target=take) for _ in range(8)]
[it.start() for it in threads]
[it.join() for it in threads]
print(lent[0], most[0] <= 2)
"""
    ended = subprocess.run([sys.executable, "-c", script], cwd=checkout.top, capture_output=True, text=True)
    yield "lanes", ("1 3000000 2550000\n0 True\n", ""), (ended.stdout, ended.stderr)


# A stand-in for rt: a check that goes on and on, and says which process it is.
ENDLESS = """#!/bin/sh
[ "$1" = version ] && exec cat "$STAND_IN/version"
echo "$$" > "$STAND_IN/endless"
exec sleep 60
"""


def interrupted(checkout: Checkout) -> Iterator[Trial]:
    """Who is asked to stop ends the checks that run, and ends as one who was interrupted."""
    checkout.write("crates/l6_word/src/lib.rt", "a text whose check goes on\n")
    first = first_on_the_path(checkout, "endless", rt=ENDLESS)
    path = f"{first}:{checkout.folder / 'whole'}:/usr/bin:/bin"
    command = [sys.executable, str(checkout.top / "tools/prove.py"), "l6_word"]
    note, end = checkout.state / "endless", time.monotonic() + 30
    with subprocess.Popen(command, env={"PATH": path, "STAND_IN": str(checkout.state)}, stderr=subprocess.PIPE, text=True) as asked:
        while not (note.exists() and note.read_text().endswith("\n")) and time.monotonic() < end:
            time.sleep(0.05)
        asked.terminate()
        _, said = asked.communicate(timeout=30)
    yield "one who is asked to stop", (-signal.SIGINT, True), (asked.returncode, "stopped; what was proved is kept" in said)
    check, end = Path("/proc", note.read_text().strip()), time.monotonic() + 30
    while check.exists() and time.monotonic() < end:
        time.sleep(0.05)
    yield "the check that ran", False, check.exists()


ORDER = f"""
import sys, threading, time
sys.path.insert(0, {str(TOP / "tools")!r})
import lanes
one, order = lanes.Lanes(1), []
def take(work):
    with one.lane(1, work):
        order.append(work)
threads = [threading.Thread(target=take, args=(work,)) for work in (2, 5, 3)]
with one.lane(1, 9):
    for it in threads:
        it.start()
    while len(one._waiting) < 3:
        time.sleep(0.01)
for it in threads:
    it.join()
print(order)
"""


def order_of_lanes(_checkout: Checkout) -> Iterator[Trial]:
    """A lane is lent first to the check with the most work."""
    ended = subprocess.run([sys.executable, "-c", ORDER], capture_output=True, text=True, timeout=60)
    yield "who gets a lane first", ("[5, 3, 2]\n", ""), (ended.stdout, ended.stderr)


def rooms(checkout: Checkout) -> Iterator[Trial]:
    """Rooms that are a day old are removed, and nothing else beside them: a check may take hours."""
    git = checkout.top / ".git"
    for name, hours in (("l6-room-in-use", 23), ("l6-room-left", 25), ("another-folder", 1_000)):
        (git / name).mkdir(parents=True)
        then = time.time() - hours * 3_600
        os.utime(git / name, (then, then))
    script = "import sys; sys.path.insert(0, sys.argv[1]); import rooms; print(rooms.place_of_rooms())"
    words = [sys.executable, "-c", script, str(checkout.top / "tools")]
    ended = subprocess.run(words, capture_output=True, text=True)
    yield "the place of rooms", (f"{git}\n", ""), (ended.stdout, ended.stderr)
    yield "rooms that are left", ["another-folder", "l6-room-in-use"], sorted(it.name for it in git.iterdir())


def modules(_checkout: Checkout) -> Iterator[Trial]:
    """What tools/module.py makes of the text of a module, and why it stops."""
    text = 'target triple = "one"\ntarget triple = "two"\n'
    rows: tuple[tuple[str, list[Edit], bool, str], ...] = (
        ("two places for two edits", [("^target.*$", "x", 2)], False, "x\nx\n"),
        ("an edit of any number", [('"(?:one|two)"', "", None)], False, "target triple = \ntarget triple = \n"),
        ("no place for an edit", [("^nothing$", "", 1)], False, "the module has 0 places for the edit ^nothing$"),
        ("no place for an edit of any number", [("^nothing$", "", None)], False, "the module has 0 places for the edit ^nothing$"),
        ("two places for one edit", [("^target", "", 1)], False, "the module has 2 places for the edit ^target"),
        ("one place for two edits", [("one", "", 2)], False, "the module has 1 places for the edit one"),
        ("another processor", [("one", "x86_64", 1)], False, "the module speaks of another processor still"),
        ("the same processor", [("one", "x86_64", 1)], True, text.replace("one", "x86_64")),
    )
    for what, edits, native, expected in rows:
        yield f"a module with {what}", expected, stopped(functools.partial(edited, text, edits, native))
    missing = "the program is not there: prove and build it first (./l6 --help), or name it"
    yield "a program that is not there", missing, stopped(lambda: str(program_of(["is/not/there"])))
    yield "two programs", missing, stopped(lambda: str(program_of([str(TOP / "dist/l6")] * 2)))
    named = [str(TOP / "dist/l6")]
    yield "a program that is named", named[0], stopped(lambda: program_of(named))
    for what, does, said in (
        ("fails", "echo why >&2; exit 3", "why\n"), ("is killed", "echo why; kill -9 $$", "why\n"),
        ("says what is no text", "printf 'why\\377'; exit 1", "why\ufffd"), ("says much", "printf '%5000s' why; exit 1", f"{'why':>4000}"),
    ):
        yield f"a command that {what}", f"sh -c failed:\n{said}", stopped(functools.partial(call, "/bin/sh", "-c", does))
    yield "a command that ends well", "None", stopped(functools.partial(call, "sh", "-c", "echo why >&2"))
    yield "a command in a folder", "sh -c failed:\n/\n", stopped(functools.partial(call, "sh", "-c", "pwd; exit 1", within=Path("/")))
    yield from kept_modules()


def proving_by_stand_ins(_checkout: Checkout) -> Iterator[Trial]:
    """What tools/prove.py and the tools around it do with crates, jobs, memory and rooms."""
    yield from proving()
    yield from shared_rooms()


def stopped(act: Callable[[], object]) -> str:
    """What a call gives, or why it stops."""
    try:
        return str(act())
    except Stop as why:
        return str(why)


def tools(_checkout: Checkout) -> Iterator[Trial]:
    """What other tools say of wrong words, and that the tables of pages are made."""
    for command in (
        ["tools/reached.py", "l6.JobResult", "IsNotThere"],
        ["tools/tables.py", "--chek"],
        ["tools/pictures.py", "one"],
        ["tests/program/program.py"],
        ["tests/pages/facts.py"],
        ["tests/pages/sentences.py"],
        ["bench/run", "--times", "0"],
    ):
        ended = subprocess.run([sys.executable, *command], cwd=TOP, capture_output=True, text=True)
        yield f"wrong words: {' '.join(command)}", (True, ""), (ended.returncode != 0, ended.stdout)
    ended = subprocess.run(
        [sys.executable, "tools/tables.py", "--check"], cwd=TOP, capture_output=True, text=True
    )
    yield "tools/tables.py --check", (0, ""), (ended.returncode, ended.stdout)
    yield from made_tables()


# Groups of trials; those of a line share a checkout.
GROUPS: tuple[tuple[Group, ...], ...] = (
    (words, other_systems, sums, orders, installing),
    (
        proofs_that_fail,
        edits_meanwhile,
        what_checks_say,
        checks_that_are_killed,
        two_at_once,
        cut_copies,
        lanes_and_memory,
        order_of_lanes,
        interrupted,
        rooms,
        modules,
        proving_by_stand_ins,
        tools,
    ),
)


def trials() -> Iterator[Trial]:
    """All trials."""
    yield from on_checkouts(GROUPS)


def canaries() -> Iterator[Trial]:
    """Answers of a script in a checkout that are wrong in one part each, and the sum of an old program."""
    with tempfile.TemporaryDirectory() as folder:
        checkout = Checkout(Path(folder) / "checkout")
        checkout.write("canary", f"#!/bin/sh\n{CANARY}\n")
        (checkout.top / "canary").chmod(0o755)
        actual = checkout.run("canary")
        yield "a wrong standard output of a script", Answer("Out\n", "err\n", 3), actual
        yield "a wrong standard error of a script", Answer("out\n", "Err\n", 3), actual
        yield "a wrong status of a script", Answer("out\n", "err\n", 0), actual
        before = checkout.made_of
        checkout.write("crates/l6/src/main.rt", "another main\n")
        yield "a program of other sources", before, checkout.made_of


if __name__ == "__main__":
    sys.exit(report(trials(), canaries()))
