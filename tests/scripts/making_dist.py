"""Trials of tools/make_dist: it writes all that dist/ has, each with its provenance, or nothing, and says why."""
from __future__ import annotations

import os
import shutil
from collections.abc import Iterator

from answers import Answer
from checkout import PROGRAMS, TOP, UNPROVED, Checkout
from trials import Trial

UNDONE = {  # what tools/make_dist says where something that it calls fails
    "web/build": "the page can't be made", "web/bundle": "the page can't be made", "ports/build": "the static programs can't be made",
    "ports/bundle": "the program for Node can't be made", "ports/libraries": "the libraries can't be made",
}
IN_DIST = sorted([*PROGRAMS, *(f"{name}.provenance" for name in PROGRAMS), "l6.html", "l6.sources", "l6.bc.xz"])
ARCHIVES = sorted(f"{name}{kind}.a" for name in ("l6_store", "l6_offset") for kind in ("", "-aarch64", "-riscv64", "-nosse"))
WHOLE = sorted(name.replace("l6", of) for of in ("l6", "l6db", "l6ed") for name in PROGRAMS)  # of a whole checkout


def undone(actual: Answer[str]) -> str:
    """What tools/make_dist says last of why it did nothing."""
    *_, last = actual.stderr.splitlines() or [""]
    return last.removeprefix("l6: ").removesuffix("; dist/ is as it was")


def making_dist(checkout: Checkout) -> Iterator[Trial]:
    """tools/make_dist writes the program and its provenance, or nothing."""
    dist = checkout.top / "dist"
    before = {file.name: file.read_bytes() for file in dist.iterdir()}
    yield "what is in dist/", IN_DIST, sorted(before)
    rooms = checkout.folder / "rooms of make_dist"
    rooms.mkdir()
    actual = checkout.run("tools/make_dist", TMPDIR=str(rooms))
    again = {file.name: file.read_bytes() for file in dist.iterdir()}
    yield "dist/ made again", (0, before, []), (actual.status, again, [it.name for it in rooms.iterdir()])
    for crate in ("l6", "l6_word", "l6_tests"):
        text = (checkout.top / f"crates/{crate}/specs/Lib.antt").read_text()
        checkout.write(f"crates/{crate}/specs/Lib.antt", UNPROVED)
        actual = checkout.run("tools/make_dist", TMPDIR=str(rooms))
        again = {file.name: file.read_bytes() for file in dist.iterdir()}
        yield f"{crate} is not proved", (1, before, []), (actual.status, again, [it.name for it in rooms.iterdir()])
        checkout.write(f"crates/{crate}/specs/Lib.antt", text)
    checkout.write("crates/l6/src/main.rt", "another main\n")
    (dist / "l6").chmod(0o600)
    actual = checkout.run("tools/make_dist", umask=0o077)
    yield "dist/ made of other sources", 0, actual.status
    modes = {name: (dist / name).stat().st_mode & 0o777 for name in IN_DIST}
    yield "the modes in dist/", {name: 0o755 if name in PROGRAMS else 0o644 for name in IN_DIST}, modes
    yield "what is in dist/ then", IN_DIST, sorted(file.name for file in dist.iterdir())
    checkout.forget_what_was_built()
    expected = Answer(checkout.made_of, "", 0)
    yield "the new program of dist/", expected, checkout.run("l6", has_rt=False)
    before = {file.name: file.read_bytes() for file in dist.iterdir()}
    cutting = checkout.folder / "cutting"  # a cp that writes the beginning of a file, and says that all is well
    cutting.mkdir()
    (cutting / "cp").write_text('#!/bin/sh\nhead -c 40 "$1" > "$2"\n')
    (cutting / "cp").chmod(0o755)
    actual = checkout.run("tools/make_dist", FIRST=str(cutting))
    again = {file.name: file.read_bytes() for file in dist.iterdir()}
    yield "copies that are cut", (1, before), (actual.status, again)
    yield "what is said of copies that are cut", "l6: there is no room for the program; dist/ is as it was\n", actual.stderr[-57:]
    # (another one, which cuts only the first copy, of what was built)
    (cutting / "cp").write_text(f'#!/bin/sh\ncase $1 in */out/l6) head -c 40 "$1" > "$2" ;; *) exec {shutil.which("cp")} "$@" ;; esac\n')
    actual = checkout.run("tools/make_dist", FIRST=str(cutting))
    again = {file.name: file.read_bytes() for file in dist.iterdir()}
    yield "a first copy that is cut", (1, before), (actual.status, again)
    # (and one that cuts the last copies, into dist/)
    (cutting / "cp").write_text(f'#!/bin/sh\ncase $2 in */dist/*) head -c 40 "$1" > "$2" ;; *) exec {shutil.which("cp")} "$@" ;; esac\n')
    actual = checkout.run("tools/make_dist", FIRST=str(cutting))
    again = {file.name: file.read_bytes() for file in dist.iterdir()}
    yield "last copies that are cut", (1, before, "dist/ can't be written"), (actual.status, again, undone(actual))
    actual = checkout.run("tools/make_dist", "--nod")
    yield "wrong words for make_dist", Answer("", "usage: tools/make_dist [--node]\n", 64), actual
    for name in ("web/build", "web/bundle", "ports/build", "ports/bundle"):
        text = (checkout.top / name).read_text()
        checkout.write(name, "#!/bin/sh\nexit 1\n")
        actual = checkout.run("tools/make_dist")
        again = {file.name: file.read_bytes() for file in dist.iterdir()}
        yield f"{name} fails", (1, before), (actual.status, again)
        yield f"what is said where {name} fails", UNDONE[name], undone(actual)
        checkout.write(name, text)
    checkout.write("ports/bundle", "#!/bin/sh\nexit 1\n")
    actual = checkout.run("tools/make_dist", "--node")
    yield "ports/bundle fails for --node", (1, UNDONE["ports/bundle"]), (actual.status, undone(actual))
    checkout.write("ports/bundle", text.replace("it=${2##*/}", "it=another"))
    checkout.forget_what_was_built()
    actual = checkout.run("tools/make_dist", "--node")
    yield "what rt is asked for by --node", [], checkout.calls()
    again = {file.name: file.read_bytes() for file in dist.iterdir()}
    changed = sorted(name for name in again if again[name] != before[name])
    yield "the program for Node made again", (0, ["l6.mjs", "l6.mjs.provenance"]), (actual.status, changed)


def making_all(checkout: Checkout) -> Iterator[Trial]:
    """tools/make_dist of a checkout with l6db, l6ed and the libraries: all of them, each with its provenance, or nothing."""
    dist = checkout.top / "dist"
    checkout.write("crates.txt", (checkout.top / "crates.txt").read_text() + "l6db: l6_word\nl6ed: l6_word\n"
                   "l6_store_c staticlib: l6_word\nl6_offset_c staticlib: l6_word\n")
    for crate, root in (("l6db", "main.rt"), ("l6ed", "main.rt"), ("l6_store_c", "lib.rt"), ("l6_offset_c", "lib.rt")):
        for name in (f"src/{root}", "specs/Lib.antt", "proofs/Lib.antt"):
            checkout.write(f"crates/{crate}/{name}", f"-- {name} of {crate}\n")
    actual = checkout.run("tools/make_dist", umask=0o077)
    yield "dist/ with all programs and the libraries", 0, actual.status
    headers = ["l6_offset.h", "l6_store.h"]
    with_provenance = [*WHOLE, *ARCHIVES]
    expected = sorted([*with_provenance, *(f"{it}.provenance" for it in with_provenance), *headers, "l6.html", "l6.sources",
                       *(f"{name}.bc.xz" for name in ("l6", "l6db", "l6ed"))])
    yield "what is in dist/ with them", expected, sorted(it.name for it in dist.iterdir())
    modes = {it.name: it.stat().st_mode & 0o777 for it in dist.iterdir()}
    yield "the modes in dist/ with them", {it: 0o755 if it in WHOLE else 0o644 for it in expected}, modes
    script = 'top=$1; . "$top/tools/program.sh"; for it; do [ "$it" = "$top" ] || belongs "$top/dist/$it" || echo "$it"; done'
    words = ["sh", "-c", script, "sh", str(checkout.top), *with_provenance]
    actual = checkout.run_words(words, checkout.folder, {"PATH": os.environ["PATH"]})
    yield "what of dist/ does not belong to the sources", Answer("", "", 0), actual
    for name in headers:
        yield f"{name} in dist/", (TOP / "library" / name).read_text(), (dist / name).read_text()
    kept = {name: (dist / name).read_text() for name in ("l6_store.a", "l6_offset-nosse.a", "l6db", "l6db.mjs", "l6ed", "l6ed.mjs")}
    yield "whose archives these are", [True, True], ["of l6_store_c," in kept["l6_store.a"], "nosse, of archive of l6_offset_c" in kept["l6_offset-nosse.a"]]
    for name in ("l6db", "l6ed"):
        yield f"whose program {name} is", [True, True], ["made of" in kept[name], f"it={name}.mjs" in kept[f"{name}.mjs"]]
    before = {it.name: it.read_bytes() for it in dist.iterdir()}
    for name in ("ports/libraries", "ports/build"):
        text = (checkout.top / name).read_text()
        checkout.write(name, "#!/bin/sh\nexit 1\n")
        actual = checkout.run("tools/make_dist")
        yield f"{name} fails", (1, before), (actual.status, {it.name: it.read_bytes() for it in dist.iterdir()})
        yield f"what is said where {name} fails", UNDONE[name], undone(actual)
        checkout.write(name, text)
    for name, on, why in (("ports/build", "*/l6db", "the static programs of l6db can't be made"),
                          ("web/build", "*/l6ed", "l6ed for Node can't be made"), ("ports/bundle", "--module", "l6db for Node can't be made")):
        text = (checkout.top / name).read_text()
        checkout.write(name, text.replace("#!/bin/sh\n", f"#!/bin/sh\ncase $1 in {on}) exit 1 ;; esac\n", 1))
        actual = checkout.run("tools/make_dist")
        yield f"{name} fails for {on}", (1, before, why), (
            actual.status, {it.name: it.read_bytes() for it in dist.iterdir()}, undone(actual))
        checkout.write(name, text)
    cutting = checkout.folder / "cutting"
    cutting.mkdir()
    for place, why in (("*/out/l6ed", "there is no room for l6ed"), ("*/library/l6_store.h", "there is no room for the headers")):
        (cutting / "cp").write_text(f'#!/bin/sh\ncase $1 in {place}) exit 1 ;; *) exec {shutil.which("cp")} "$@" ;; esac\n')
        (cutting / "cp").chmod(0o755)
        actual = checkout.run("tools/make_dist", FIRST=str(cutting))
        yield f"no room for a copy of {place}", (1, why), (actual.status, undone(actual))
    for crate in ("l6db", "l6ed", "l6_offset_c"):
        checkout.write(f"crates/{crate}/specs/Lib.antt", UNPROVED)
        actual = checkout.run("tools/make_dist")
        yield f"{crate} is not proved", (1, before), (actual.status, {it.name: it.read_bytes() for it in dist.iterdir()})
        checkout.write(f"crates/{crate}/specs/Lib.antt", "proved again\n")
