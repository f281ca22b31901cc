#!/usr/bin/env python3
"""Checks that ./l6 runs the program that belongs to the sources, and no other.

launcher.py prints each difference, and last 'N passed, M failed'. It works on small checkouts of its own,
with a stand-in for rt (checkout.py), so nothing is proved and nothing else is changed.
It also tries tools/prove.py and tools/make_dist (making_dist.py).
"""
from __future__ import annotations

import os
import re
import shutil
import subprocess
import sys
import tempfile
import time
from collections.abc import Iterator
from pathlib import Path
from typing import Any

sys.path.insert(0, str(Path(__file__).resolve().parents[1] / "harness"))
from answers import Answer
from checkout import PROGRAMS, TOP, UNPROVED, WARNED, Checkout, Group, Idle, on_checkouts, on_terminal, without_files
from further_scripts import by_path_for_cd, further_programs
from making_dist import making_all, making_dist
from trials import Trial, few_pass, first_wrong, report

SOURCES = (
    "crates.txt", "HANDLES", "crates/l6_word/src/lib.rt", "crates/l6_word/specs/Lib.antt",
    "crates/l6_word/proofs/Lib.antt", "crates/l6/src/main.rt", "crates/l6/specs/Lib.antt",
    "crates/l6/proofs/main/Answers.antt",
)
STALE = "l6: dist/l6 was not made from the sources in this checkout\n"
RUNS = "l6: dist/l6 itself runs as it is, whatever the sources say\n"
BROKEN = "l6: dist/l6 is not the program that dist/l6.provenance names: it is missing, altered or incomplete\n"
NO_RT = "l6: rt is not on the path; it is needed to prove and build the program (README.md)\n"
PROVING = "l6: proving and building the program; from nothing this takes some 25 minutes on four processors\n"
VERBS = ("asm", "list", "check", "run", "load", "renew", "debug", "trace")  # all, as the help lists them
FRESH = 3.5  # seconds after which a file counts as older (tools/note.sh)
EDITED = "l6: the sources were edited meanwhile, so the program may not belong to them; call again\n"


def stale(*files: str) -> str:
    """What is said where sources differ from those of dist/l6: the first of them, each with how it differs."""
    return f"{STALE}{''.join(f'l6:   {file}{chr(10)}' for file in files)}{RUNS}"


def distributed(checkout: Checkout) -> Iterator[Trial]:
    """The program of dist/ runs without rt and Python, and gets its arguments and its input."""
    expected = Answer(checkout.made_of, "", 0)
    yield "the program of dist/", expected, checkout.run("l6", has_rt=False)
    yield "the program of dist/ beside rt", expected, checkout.run("l6")
    words = ["run", "a b", "", "-x", "--", "*", "$HOME", "two\nlines", "--prove"]
    printed = "".join(f"<{word}>\n" for word in words)
    for status in (0, 1, 2, 5, 64, 255):
        expected = Answer(f"{checkout.made_of}{printed}a line\nno end", "", status)
        actual = checkout.run("l6", *words, has_rt=False, stdin="a line\nno end", STATUS=str(status))
        yield f"arguments, input and status {status}", expected, actual
    (checkout.folder / "linked").symlink_to(checkout.top / "l6")
    expected = Answer(checkout.made_of, "", 0)
    yield "./l6 through a link", expected, checkout.run("../linked", has_rt=False)
    made_from = (checkout.top / "dist/l6.provenance").read_text("utf-8")
    expected = Answer(f"{checkout.made_of}<--version>\n", made_from, 64)
    yield "the version", expected, checkout.run("l6", "--version", has_rt=False)
    yield "what rt was asked for", [], checkout.calls()


def changed_sources(checkout: Checkout) -> Iterator[Trial]:
    """After a source was edited, added, removed or renamed, ./l6 builds the program again, once."""
    for name in SOURCES:
        file = checkout.top / name
        before = file.read_bytes()
        file.write_bytes(before + b"-- edited\n")
        yield from builds_again(checkout, f"an edit of {name}", stale(f"{name} has changed"))
        file.write_bytes(before)
        yield f"{name} as it was", Answer(checkout.made_of, "", 0), checkout.run("l6", has_rt=False)
        checkout.forget_what_was_built()
    name, new = "crates/l6_word/src/lib.rt", "crates/l6_word/src/other.rt"
    first, other = checkout.top / name, checkout.top / new
    other.write_text("")
    yield from builds_again(checkout, "a new file", stale(f"{new} is new"))
    other.unlink()
    first.rename(other)
    yield from builds_again(checkout, "a file that is renamed", stale(f"{name} is missing", f"{new} is new"))
    other.rename(first)
    times = os.stat(first).st_mtime_ns
    before = first.read_bytes()
    first.write_bytes(before.swapcase())
    os.utime(first, ns=(times, times))
    yield from builds_again(checkout, "an edit that keeps size and time", stale(f"{name} has changed"))
    first.write_bytes(before)
    whole = {name: (checkout.top / name).read_bytes() for name in sorted(SOURCES[2:])}
    said = [f"{name} has changed" for name in whole]
    for count, more in ((3, ""), (4, "and 1 more files differ"), (6, "and 3 more files differ")):
        for name in [*whole][:count]:
            checkout.write(name, "-- edited\n")
        yield f"{count} edits", Answer("", stale(*said[:3], *([more] if more else ())) + NO_RT, 1), checkout.run("l6", has_rt=False)


def other_files(checkout: Checkout) -> Iterator[Trial]:
    """Files that the prover does not read change nothing: hidden ones, and what editors leave."""
    folder, expected = checkout.top / "crates/l6_word/src", Answer(checkout.made_of, "", 0)
    for name in (".lib.rt.swp", ".lib.rt", "lib.rt~", "lib.rt.orig", "#lib.rt#", "notes.txt", ".kept/lib.rt"):
        (folder / name).parent.mkdir(exist_ok=True)
        (folder / name).write_text("something\n")
        yield f"beside {name}", expected, checkout.run("l6", has_rt=False)
    (folder / ".#lib.rt").symlink_to("nobody@nowhere.1:1")
    yield "beside an editor's lock", expected, checkout.run("l6", has_rt=False)
    checkout.run("tools/prove.py")
    yield "what is proved beside other files", "lib l6_word", checkout.calls()[0]
    (folder / "lib.rt~").write_text("something else\n")
    yield "a proof beside other files", 0, checkout.run("tools/prove.py").status
    yield "what is proved again beside other files", [], checkout.calls()


def builds_again(checkout: Checkout, what: str, why: str) -> Iterator[Trial]:
    """The program of dist/ is refused; another is proved and built once, and then run without a message."""
    yield f"{what}, without rt", Answer("", why + NO_RT, 1), checkout.run("l6", has_rt=False)
    actual = checkout.run("l6")
    yield what, (checkout.made_of, 0), (actual.stdout, actual.status)
    yield f"{what}: what is said", why + PROVING, actual.stderr[:len(why + PROVING)]
    checkout.calls()
    actual = checkout.run("l6", "again")
    expected = Answer(f"{checkout.made_of}<again>\n", why if why == BROKEN else "", 0)
    yield f"{what}, the second call", expected, actual
    yield f"{what}, the second call's builds", [], checkout.calls()


def damaged_distribution(checkout: Checkout) -> Iterator[Trial]:
    """A program or a provenance in dist/ that is altered, cut or missing is refused."""
    checkout.leave_only("l6")
    program, provenance = (checkout.top / "dist" / name for name in ("l6", "l6.provenance"))
    whole, named = program.read_bytes(), provenance.read_bytes()
    turned = whole.replace(b"made", b"Made")
    for what, text in (("altered", turned), ("cut", whole[:-1]), ("longer", whole + b"\n"), ("empty", b"")):
        program.write_bytes(text)
        yield f"dist/l6 is {what}", Answer("", BROKEN + NO_RT, 1), checkout.run("l6", has_rt=False)
    yield from builds_again(checkout, "dist/l6 is empty", BROKEN)
    checkout.forget_what_was_built()
    program.unlink()
    yield "dist/l6 is missing", Answer("", BROKEN + NO_RT, 1), checkout.run("l6", has_rt=False)
    program.write_bytes(whole)
    actual = checkout.run("l6", has_rt=False)
    yield "dist/l6 may not be run", ("", 1), (actual.stdout, actual.status)
    program.chmod(0o755)
    for place in range(len(named)):
        provenance.write_bytes(named[:place] + bytes([named[place] ^ 1]) + named[place + 1:])
        actual = checkout.run("l6", has_rt=False)
        yield f"byte {place} of the provenance", ("", 1), (actual.stdout, actual.status)
    for what, text in (("cut", named[:-1]), ("longer", named + b"\n"), ("empty", b"")):
        provenance.write_bytes(text)
        actual = checkout.run("l6", has_rt=False)
        yield f"a provenance that is {what}", ("", 1), (actual.stdout, actual.status)
    provenance.unlink()
    yield from builds_again(checkout, "a provenance that is missing", BROKEN)
    provenance.write_bytes(named)


def built_program(checkout: Checkout) -> Iterator[Trial]:
    """A program that was built here is run only while it, its sources and the toolchain are the same."""
    checkout.write("crates/l6/src/main.rt", "another main\n")
    checkout.run("l6")
    program, provenance = (checkout.top / "crates/l6/out" / name for name in ("l6", "l6.provenance"))
    for file in (program, provenance):
        checkout.calls()
        file.write_bytes(file.read_bytes()[:-2] + b"1\n")
        actual = checkout.run("l6")
        yield f"{file.name} is altered", (checkout.made_of, 0), (actual.stdout, actual.status)
        said = stale("crates/l6/src/main.rt has changed") + PROVING
        yield f"{file.name} is altered: it is built again", said, actual.stderr[:len(said)]
    checkout.calls()
    checkout.set_version("another toolchain")
    actual = checkout.run("l6")
    yield "another toolchain", (checkout.made_of, 0), (actual.stdout, actual.status)
    yield "another toolchain: what is built", ["lib l6_word", "run l6"], checkout.calls()


def failed_proofs(checkout: Checkout) -> Iterator[Trial]:
    """If a crate is not proved nothing runs, and no earlier program does."""
    checkout.write("crates/l6/src/main.rt", "another main\n")
    checkout.run("l6")
    for crate, called in (("l6", ["run l6"]), ("l6_word", ["lib l6_word"])):
        checkout.calls()
        checkout.write(f"crates/{crate}/proofs/Lib.antt", UNPROVED)
        for which in ("the first call", "the second call"):
            actual = checkout.run("l6")
            yield f"{crate} is not proved, {which}", ("", 1), (actual.stdout, actual.status)
            says = [f"fn {crate}::main: not proved" in actual.stderr, actual.stderr.endswith("l6: the program was not built\n")]
            yield f"{crate} is not proved, what {which} says", [True, True], says
            yield f"{crate} is not proved, what {which} builds", called, checkout.calls()
        checkout.write(f"crates/{crate}/proofs/Lib.antt", "proved again\n")
    actual = checkout.run("l6")
    yield "proved again", (checkout.made_of, 0), (actual.stdout, actual.status)


def edits_while_it_builds(checkout: Checkout) -> Iterator[Trial]:
    """If something is edited while the program is built, it does not count as built, and is not run."""
    for name in ("crates/l6_word/src/lib.rt", "crates/l6/specs/Lib.antt", "HANDLES"):
        checkout.write("crates/l6/src/main.rt", f"a main before {name}\n")
        (checkout.state / "edit").write_text(str(checkout.top / name))
        actual = checkout.run("l6")
        ending = actual.stderr[-len(EDITED):]
        yield f"{name} is edited meanwhile", ("", EDITED, 1), (actual.stdout, ending, actual.status)
        actual = checkout.run("l6")
        yield f"after {name} was edited", (checkout.made_of, 0), (actual.stdout, actual.status)
        yield f"after {name} was edited: it is built again", True, PROVING in actual.stderr


def crates_below(checkout: Checkout) -> Iterator[Trial]:
    """A crate is proved again if it or one below it has changed, lowest first, and not otherwise."""
    actual = checkout.run("l6", "--prove")
    said = "l6: the program is proved, and dist/l6 is the same, byte for byte\n"
    yield "--prove", ("", said, 0), (actual.stdout, actual.stderr[-len(said):], actual.status)
    yield "what --prove builds", ["lib l6_word", "run l6"], checkout.calls()
    checkout.write("crates/l6/src/main.rt", "another main\n")
    actual = checkout.run("l6", "--prove")
    said = "l6: the program is proved, and dist/l6 is another one; this one is crates/l6/out/l6\n"
    yield "--prove of other sources", ("", said, 0), (actual.stdout, actual.stderr[-len(said):], actual.status)
    yield "a change of the program", ["run l6"], checkout.calls()
    for part in ("src/lib.rt", "specs/Lib.antt", "proofs/Lib.antt"):
        checkout.write(f"crates/l6_word/{part}", "another text\n")
        checkout.run("tools/prove.py")
        calls = checkout.calls()
        yield f"a change of {part} below: the first crate", "lib l6_word", calls[0]
        yield f"a change of {part} below", ["lib l6_tests", "lib l6_word", "run l6"], sorted(calls)
    for note in ("crates/l6_word/out/proved", "crates/l6_word/out/rlib/stamp"):
        file = checkout.top / note
        linked = checkout.folder / "linked note"
        linked.unlink(missing_ok=True)
        file.write_text("something else\n")
        linked.hardlink_to(file)
        checkout.run("tools/prove.py", "l6_word")
        yield f"{note} is altered", ["lib l6_word"], checkout.calls()
        yield f"{note} was replaced and not overwritten", "something else\n", linked.read_text()
    checkout.run("tools/prove.py")
    checkout.calls()
    (checkout.top / "crates/l6_word/out/proved").write_text("something else\n")
    checkout.run("tools/prove.py")
    calls = checkout.calls()
    yield "a crate that is proved again, and those above it", ["lib l6_tests", "lib l6_word", "run l6"], sorted(calls)
    kept = checkout.top / "crates/l6_word/out/incremental/kept"
    yield "what a check kept", True, kept.is_file()
    (checkout.state / "kill").touch()
    checkout.write("crates/l6_word/src/lib.rt", "a text whose check is killed\n")
    actual = checkout.run("tools/prove.py", "l6_word")
    yield "a check that is killed", (0, ["lib l6_word"] * 2), (actual.status, checkout.calls())
    checkout.write("crates/l6_word/specs/Lib.antt", f"-- {WARNED}\n")
    for again in ("", ", again"):
        actual = checkout.run("tools/prove.py", "l6_word")
        yield f"a definition that rt warns of{again}", (1, True), (actual.status, "is not proved" in actual.stderr)
    checkout.write("crates/l6_word/specs/Lib.antt", "a text of which nothing is said\n")
    yield "the same without a warning", 0, checkout.run("tools/prove.py", "l6_word").status


def other_systems(checkout: Checkout) -> Iterator[Trial]:
    """The first program for a system that starts there is run; without one it is said what there is."""
    linux, node = str(checkout.folder / "plain"), str(checkout.folder / "nodes")
    for system, refuses, first, name in (
        ("Linux x86_64", "", linux, "l6"), ("Linux x86_64", "l6", linux, "l6-static"),
        ("Linux x86_64", "l6 l6-static", node, "l6.mjs"), ("Linux aarch64", "", linux, "l6-aarch64"),
        ("Linux aarch64", "l6-aarch64", node, "l6.mjs"), ("Darwin arm64", "", node, "l6.mjs"),
    ):
        which = "" if name == "l6" else f"this is {name}\n"
        path = f"{stand_in_for_uname(checkout, system)}:{first}"
        words: dict[str, Any] = {"has_rt": False, "FIRST": path, "REFUSES": refuses}
        expected = Answer(f"{which}{checkout.made_of}<a b>\nx", "", 3)
        actual = checkout.run("l6", "a b", stdin="x", STATUS="3", **words)
        yield f"{system}, where {refuses or 'nothing'} does not start", expected, actual
        made_from = (checkout.top / f"dist/{name}.provenance").read_text("utf-8")
        expected = Answer(f"{which}{checkout.made_of}<--version>\n", made_from, 64)
        yield f"the version on {system}: {name}", expected, checkout.run("l6", "--version", **words)
    said = {
        "Linux x86_64": "l6: dist/l6 does not start on this system\n",
        "Linux aarch64": "l6: dist/l6-aarch64 does not start on this system\n",
        "Plan9 mips": "l6: dist/ has programs for Linux on x86_64 and aarch64, and this is Plan9 mips\n"
        "l6: dist/l6.mjs is for every system that has Node (https://nodejs.org), but node is not on the path\n",
    }
    for system, why in said.items():
        path = str(stand_in_for_uname(checkout, system))
        actual = checkout.run("l6", has_rt=False, FIRST=path, REFUSES="l6 l6-static l6-aarch64")
        yield f"no program for {system}", Answer("", why + NO_RT, 1), actual
    for name in ("l6db", "l6ed"):
        path = str(stand_in_for_uname(checkout, "Plan9 mips"))
        actual = checkout.run(name, has_rt=False, FIRST=path)
        why = said["Plan9 mips"].replace("l6:", f"{name}:").replace("l6.mjs", f"{name}.mjs") + NO_RT.replace("l6:", f"{name}:")
        yield f"no {name} for a system", Answer("", why, 1), actual
        path = str(stand_in_for_uname(checkout, "Linux aarch64"))
        actual = checkout.run(name, has_rt=False, FIRST=path)
        why = f"{name}: dist/{name}-aarch64 is not the program that dist/{name}-aarch64.provenance names: "
        yield f"no file of {name}", (why, 1), (actual.stderr[:len(why)], actual.status)


def stand_in_for_uname(checkout: Checkout, system: str) -> Path:
    """A folder with a command uname that names this system."""
    folder = checkout.folder / f"on {system}"
    folder.mkdir(exist_ok=True)
    (folder / "uname").write_text(f"#!/bin/sh\necho {system}\n")
    (folder / "uname").chmod(0o755)
    return folder


def damaged_programs(checkout: Checkout) -> Iterator[Trial]:
    """If a program is damaged, the next one for the system is run."""
    for name, after in (("l6", "l6-static"), ("l6-static", "l6.mjs")):
        file = checkout.top / "dist" / name
        file.write_bytes(file.read_bytes() + b"\n")
        actual = checkout.run("l6", has_rt=False, FIRST=str(checkout.folder / "nodes"))
        yield f"where {name} is damaged", Answer(f"this is {after}\n{checkout.made_of}", "", 0), actual
    provenance = checkout.top / "dist/l6-aarch64.provenance"
    named = provenance.read_bytes()
    arm = str(stand_in_for_uname(checkout, "Linux aarch64"))
    ends = [place for place, byte in enumerate(named) if byte == ord("\n")]
    for place in (place for end in ends for place in (end - 40, end - 1, end)):
        provenance.write_bytes(named[:place] + bytes([named[place] ^ 1]) + named[place + 1:])
        actual = checkout.run("l6", has_rt=False, FIRST=arm)
        yield f"byte {place} of a longer provenance", ("", 1), (actual.stdout, actual.status)
    program = checkout.top / "dist/l6"
    program.write_bytes(program.read_bytes()[:-1])
    checkout.write("crates/l6/src/main.rt", "another main\n")
    said = STALE + "l6:   crates/l6/src/main.rt has changed\n" + NO_RT
    actual = checkout.run("l6", has_rt=False, REFUSES="l6")
    yield "a damaged program does not run as it is, whatever the sources say", Answer("", said, 1), actual


def notes(checkout: Checkout) -> Iterator[Trial]:
    """With a note of what was summed, nothing is summed again, until a file changes in whatever way."""
    note = checkout.folder / "home/.cache/l6/l6"
    home: dict[str, Any] = {"has_rt": False, "HOME": str(checkout.folder / "home")}
    expected = Answer(checkout.made_of, "", 0)
    yield "the first call", expected, checkout.run("l6", **home)
    yield "what is new is not noted", False, note.exists()
    time.sleep(FRESH)
    yield "a later call", expected, checkout.run("l6", **home)
    yield "what is older is noted", [f"{checkout.top}", f"{checkout.top}/dist/l6"], lines_of(note)[::2]
    quick = checkout.folder / "quick"
    quick.mkdir()
    (quick / "xargs").write_text("#!/bin/sh\nexit 1\n")
    (quick / "xargs").chmod(0o755)
    yield "a call that sums nothing", expected, checkout.run("l6", FIRST=str(quick), **home)
    after = Answer(f"this is l6-static\n{checkout.made_of}", "", 0)
    yield "a program that is noted, and starts no longer", after, checkout.run("l6", REFUSES="l6", **home)
    for place, is_noted in (("kept", False), (str(checkout.folder / "kept"), True)):
        actual = checkout.run("l6", has_rt=False, XDG_CACHE_HOME=place)
        kept = checkout.folder / "kept/l6/l6"
        yield f"notes in a folder that is {'absolute' if is_noted else 'relative'}", (expected, is_noted), (actual, kept.is_file())
    checkout.run("l6", has_rt=False, XDG_CACHE_HOME="", HOME=str(checkout.folder / "other home"))
    yield "notes where the folder for caches is empty", True, (checkout.folder / "other home/.cache/l6/l6").is_file()
    (quick / "xargs").unlink()
    (quick / "mv").write_text("#!/bin/sh\nexit 1\n")
    (quick / "mv").chmod(0o755)
    actual = checkout.run("l6", has_rt=False, XDG_CACHE_HOME=str(checkout.folder / "unmoved"), FIRST=str(quick))
    yield "a note that can't be put in its place", (expected, ["l6"]), (actual, [it.name for it in (checkout.folder / "unmoved").rglob("*")])
    source, program = checkout.top / "crates/l6_word/src/lib.rt", checkout.top / "dist/l6"
    noting = 'top=$1; . "$top/tools/program.sh"; . "$top/tools/note.sh"; note_of "$2"'
    for file in (*(checkout.top / it for it in SOURCES), program):
        # (a note of the files as they are, since those before were changed and written back)
        note.write_text(checkout.run_words(["sh", "-c", noting, "sh", str(checkout.top), str(program)], checkout.folder,
                                           {"PATH": str(checkout.folder / "plain")}).stdout)
        before, times = file.read_bytes(), os.stat(file).st_mtime_ns
        file.write_bytes(before.swapcase())
        os.utime(file, ns=(times, times))
        actual = checkout.run("l6", **home)
        right = (f"this is l6-static\n{checkout.made_of}", 0) if file == program else ("", 1)
        yield f"{file.relative_to(checkout.top)} changed behind the note", right, (actual.stdout, actual.status)
        file.write_bytes(before)
    source.with_name("new.rt").write_text("")
    yield "a new file behind the note", 1, checkout.run("l6", **home).status
    source.with_name("new.rt").unlink()
    for text in ("", "nonsense\n", note.read_text().replace("dist/l6", "nodes/node")):
        note.write_text(text)
        yield "a note that is altered", expected, checkout.run("l6", **home)
    elsewhere = checkout.top / "elsewhere/l6"
    elsewhere.parent.mkdir()
    elsewhere.write_text(program.read_text().replace("#!/bin/sh\n", "#!/bin/sh\nit=elsewhere\n", 1))
    elsewhere.chmod(0o755)
    note.write_text(checkout.run_words(["sh", "-c", noting, "sh", str(checkout.top), str(elsewhere)], checkout.folder,
                                       {"PATH": os.environ["PATH"]}).stdout)
    yield "its lines", [f"{checkout.top}", f"{elsewhere}"], lines_of(note)[::2]
    yield "a note of a program outside of dist/", expected, checkout.run("l6", **home)
    note.write_text(checkout.run_words(["sh", "-c", noting, "sh", str(checkout.top), str(program)], checkout.folder,
                                       {"PATH": os.environ["PATH"]}).stdout)
    arm = str(stand_in_for_uname(checkout, "Linux aarch64"))
    of_arm = Answer(f"this is l6-aarch64\n{checkout.made_of}", "", 0)
    yield "a note of another machine", of_arm, checkout.run("l6", FIRST=arm, **home)
    note.unlink()
    plain = checkout.folder / "plain find"  # that of busybox and of macOS can't print times
    plain.mkdir()
    script = f'case "$*" in *-printf*) exit 1 ;; esac\nexec {shutil.which("find")} "$@"\n'
    (plain / "find").write_text(f"#!/bin/sh\n{script}")
    (plain / "find").chmod(0o755)
    for which in ("the first", "the second"):
        yield f"{which} call with a find without times", expected, checkout.run("l6", FIRST=str(plain), **home)
    yield "a note without times", False, note.exists()
    note.parent.rmdir()
    note.parent.write_text("a file in the folder's place\n")
    yield "a note that can't be written", expected, checkout.run("l6", **home)


def lines_of(file: Path) -> list[str]:
    """The lines of a file; none if it isn't there."""
    return file.read_text("utf-8").splitlines() if file.exists() else []


def places(checkout: Checkout) -> Iterator[Trial]:
    """The program is found wherever the checkout is, and whatever the caller is told and may do."""
    expected = Answer(checkout.made_of, "", 0)
    for name in ("with blanks", "Mühle am Bach", "a'quote \"and $HOME", "-dash", "bar|bar", "[a]*"):
        moved = checkout.folder / name
        checkout.top.rename(moved)
        path = {"PATH": str(checkout.folder / "plain")}
        yield f"in a folder {name}", expected, checkout.run_words(["./l6"], moved, path)
        yield f"beside a folder {name}", expected, checkout.run_words([f"./{name}/l6"], checkout.folder, path)
        moved.rename(checkout.top)
    for shell in ("sh", "bash", "busybox"):
        if shutil.which(shell):
            words = [shell, "sh"] if shell == "busybox" else [shell]
            yield f"by {shell}", expected, checkout.run_words([*words, "./l6"], checkout.top, {})
    yield "with an empty environment", expected, checkout.run_words(["./l6"], checkout.top, {})
    yield "with a path for cd", expected, by_path_for_cd(checkout, "l6")
    yield "from the root", expected, checkout.run_words([f"{checkout.top}/l6"], Path("/"), {})
    for file in sorted(checkout.top.rglob("*")):
        file.chmod(0o555 if file.is_dir() or os.access(file, os.X_OK) else 0o444)
    checkout.top.chmod(0o555)
    yield "a checkout that can't be written", expected, checkout.run_as_somebody(["./l6"], checkout.top)
    for file in [checkout.top, *checkout.top.rglob("*")]:
        file.chmod(0o755)


def cloned(checkout: Checkout) -> Iterator[Trial]:
    """A clone in which Git converts the ends of lines has the same files, since .gitattributes forbids that."""
    if not shutil.which("git"):
        print("skipped: a clone that converts the ends of lines: git is missing")
        return
    git = ["git", "-c", "user.name=nobody", "-c", "user.email=nobody@localhost"]
    for words in (["init", "-q"], ["add", "--all"], ["commit", "-q", "-m", "all"]):
        subprocess.run([*git, *words], cwd=checkout.top, check=True)
    clone = [*git, "clone", "-q", "-c", "core.autocrlf=true", "-c", "core.eol=crlf", str(checkout.top), "clone"]
    subprocess.run(clone, cwd=checkout.folder, check=True)
    expected = Answer(checkout.made_of, "", 0)
    yield "a clone that converts the ends of lines", expected, checkout.run("../clone/l6", has_rt=False)


def keyboard(checkout: Checkout) -> Iterator[Trial]:
    """On a terminal it is said once that the job comes from the keyboard, if one is read."""
    page = (TOP / "docs/command-line.md").read_text("utf-8")
    listed = re.findall(r"^  (\w+) +\w", page.partition("Commands:\n")[2].partition("Options:\n")[0], re.MULTILINE)
    yield "the verbs of the help", [*VERBS, "help"], listed
    said = "l6: reading the job from the keyboard, up to Ctrl-D at the beginning of a line\n"
    calls: tuple[tuple[list[str], str | None], ...] = (
        *(([verb], said) for verb in VERBS), (["debug", "--store", "2"], said), (["run", "--help"], ""), (["run", "-h"], ""),
        (["--version"], None), (["nonsense"], ""), ([], ""),
    )
    for words, why in calls:
        actual = checkout.run_on_terminal(*words)
        if why is not None:
            yield f"what is said on a terminal: {words}", why, actual.stderr
        printed = "".join(f"<{word}>\n" for word in words)
        yield f"what is printed on a terminal: {words}", f"{checkout.made_of}{printed}", actual.stdout


def terminals(checkout: Checkout) -> Iterator[Trial]:
    """At a terminal, and there alone, `./l6 check` is asked to show cards."""
    for words, given in ((["check"], ["check", "--long"]), (["check", "--help"], ["check", "--help"]), (["list"], ["list"])):
        asked = asked_at_terminal(checkout, words, "stdout")
        yield f"the words {words} with a terminal for output", "".join(f"<{it}>\n" for it in given), asked
    actual = checkout.run("l6", "check", has_rt=False)
    yield "the words of check over a pipe", f"{checkout.made_of}<check>\n", actual.stdout
    hint = "l6: `./l6 check` says where a deck is wrong, and why\n"
    for verb, status, said in (
        ("run", 4, hint), ("asm", 4, hint), ("list", 4, hint), ("debug", 4, hint), ("run", 2, ""), ("run", 0, ""),
        ("run", 5, ""), ("load", 4, ""), ("check", 4, ""), ("trace", 4, ""),
    ):
        yield f"what {verb} says at a terminal with status {status}", (said, status), refused_at_terminal(checkout, verb, status)
    for words, given in (
        (["run"], ["run", "--explain"]), (["run", "--steps", "5"], ["run", "--explain", "--steps", "5"]),
        (["run", "--explain"], ["run", "--explain"]), (["load"], ["load"]),
    ):
        asked = asked_at_terminal(checkout, words)
        yield f"the words {words} with a terminal for errors", "".join(f"<{it}>\n" for it in given), asked
    actual = checkout.run("l6", "run", has_rt=False, STATUS="4")
    yield "what run says over a pipe with status 4", Answer(f"{checkout.made_of}<run>\n", "", 4), actual


def asked_at_terminal(checkout: Checkout, words: list[str], stream: str = "stderr") -> str:
    """The words that the program is given where standard error or output is a terminal."""
    made, shown = on_terminal(checkout, words, stream)
    return (shown if stream == "stdout" else made.stdout).partition("\n")[2]


def refused_at_terminal(checkout: Checkout, verb: str, status: int) -> tuple[str, int]:
    """What is said on standard error, which is a terminal, where the program ends so; and the exit status."""
    made, said = on_terminal(checkout, [verb], "stderr", STATUS=str(status))
    return said, made.returncode


GROUPS: tuple[Group, ...] = (
    distributed, changed_sources, damaged_distribution, built_program, failed_proofs,
    edits_while_it_builds, crates_below, other_systems, damaged_programs, other_files, notes, places, further_programs, cloned,
    keyboard, terminals, making_dist, making_all,
)


def trials() -> Iterator[Trial]:
    """All trials, each group on a checkout of its own."""
    yield from on_checkouts((group,) for group in GROUPS)


# How many trials of groups look at files that they have written themselves, or at another program.
PASSING = {"notes": 1, "keyboard": 1, "making_dist": 2}


def canaries() -> Iterator[Trial]:
    """With an ./l6 that runs nothing, or what is in dist/ whatever it is, or scripts that do nothing, groups see it."""
    with tempfile.TemporaryDirectory() as folder:
        checkout = Checkout(Path(folder) / "checkout")
        for group in (it for it in GROUPS if it is not terminals):
            made = without_files(group(Idle(checkout, Path(folder) / group.__name__)))
            yield few_pass(f"{group.__name__} with scripts that do nothing", PASSING.get(group.__name__, 0), made)
        checkout.write("l6", "#!/bin/sh\necho wrong\nexit 77\n")
        for group in (distributed, other_systems, other_files, keyboard, terminals):
            yield first_wrong(f"{group.__name__} with an ./l6 that runs nothing", group(checkout))
        checkout.write("l6", '#!/bin/sh\nexec "$(dirname -- "$0")/dist/l6" "$@"\n')
        for group in (changed_sources, damaged_distribution, failed_proofs):
            yield first_wrong(f"{group.__name__} with an ./l6 that looks at nothing", group(checkout))


if __name__ == "__main__":
    sys.exit(report(trials(), canaries()))
