#!/usr/bin/env python3
"""Checks that ./install puts the program and what belongs to it in their places, or says why it can't.

install.py prints each difference, and last 'N passed, M failed'. It works on a small checkout of its own
(checkout.py), so nothing is proved and nothing else is changed.
"""
from __future__ import annotations

import os
import re
import subprocess
import sys
import tempfile
from collections.abc import Iterable, Iterator
from pathlib import Path
from typing import Any

sys.path.insert(0, str(Path(__file__).resolve().parents[1] / "harness"))
from answers import Answer
from checkout import TOP, UNPROVED, Checkout, Group, on_checkouts
from trials import Trial, first_wrong, report

PAGE = TOP / "docs" / "command-line.md"
USAGE = "usage: ./install [--uninstall] [--program FILE] [PREFIX]\n"
INSTALLED = {  # the file that is installed, and where it is from
    "bin/l6": "dist/l6",
    "share/man/man1/l6.1": "docs/l6.1",
    "share/bash-completion/completions/l6": "completions/l6.bash",
    "share/zsh/site-functions/_l6": "completions/_l6",
    "share/fish/vendor_completions.d/l6.fish": "completions/l6.fish",
    "share/doc/l6/examples/first.deck": "examples/first.deck",
    **{f"share/doc/l6/{name}": name for name in ("LICENSE-MIT", "LICENSE-APACHE", "THIRD-PARTY.md")},
    **{f"share/doc/l6/licenses/{it.name}": f"licenses/{it.name}" for it in (TOP / "licenses").iterdir()},
}

# What belongs to each further program, beside one for another processor.
DEBUGGER = {
    "bin/l6db": "terminal/l6db.sh", "lib/l6/l6db": "dist/l6db-aarch64", "share/man/man1/l6db.1": "docs/l6db.1",
    "share/bash-completion/completions/l6db": "completions/l6db.bash", "share/zsh/site-functions/_l6db": "completions/_l6db",
    "share/fish/vendor_completions.d/l6db.fish": "completions/l6db.fish",
    **{f"share/l6/terminal/{it.name}": f"terminal/{it.name}" for it in (TOP / "terminal").iterdir()
       if it.is_file() and it.name != "l6db.sh"},
}

EDITORS = {
    "bin/l6ed": "dist/l6ed-aarch64", "share/man/man1/l6ed.1": "docs/l6ed.1",
    "share/bash-completion/completions/l6ed": "completions/l6ed.bash", "share/zsh/site-functions/_l6ed": "completions/_l6ed",
    "share/fish/vendor_completions.d/l6ed.fish": "completions/l6ed.fish",
    **{f"{place}/{kind}/l6.vim": f"editors/vim/{kind}/l6.vim" for place in ("share/vim/vimfiles", "share/nvim/site")
       for kind in ("ftdetect", "ftplugin", "syntax")},
    "share/nvim/site/lua/l6.lua": "editors/neovim/l6.lua", "share/emacs/site-lisp/l6-mode.el": "editors/emacs/l6-mode.el",
    "share/org.kde.syntax-highlighting/syntax/l6.xml": "editors/kate/l6.xml",
    **{f"share/l6/{it.relative_to(TOP)}": str(it.relative_to(TOP)) for it in (TOP / "editors/vscode").rglob("*") if it.is_file()},
}
FURTHER = {"l6db": ("lib/l6/l6db", DEBUGGER), "l6ed": ("bin/l6ed", EDITORS)}
MAY_RUN = {"bin/l6", "bin/l6db", "bin/l6ed", "lib/l6/l6db", "share/l6/library/shared"}


def files_below(folder: str) -> list[str]:
    """The files of a crate's folder, but those that a build writes there."""
    places = (str(it.relative_to(TOP)) for it in (TOP / folder).rglob("*") if it.is_file())
    return [it for it in places if it.endswith((".rs", "Cargo.toml")) and "/target/" not in it]


LIBRARIES = {  # what is installed with the archives, beside them
    **{f"include/{name}.h": f"library/{name}.h" for name in ("l6_store", "l6_offset")},
    **{f"lib/pkgconfig/{name}.pc": f"library/{name}.pc" for name in ("l6_store", "l6_offset")},
    **{f"share/l6/library/{it.name}": f"library/{it.name}" for it in (TOP / "library").glob("*.c")},
    **{f"share/l6/library/{name}": f"library/{name}" for name in ("draw.py", "record.py", "shared")},
    **{f"share/l6/library/python/{it.name}": f"library/python/{it.name}" for it in (TOP / "library/python").glob("*.py")},
    **{f"share/l6/{it}": it for crate in ("rust", "rust_offset") for it in files_below(f"library/{crate}")},
}

NOT_SHIPPED = {"examples/traced.c"}  # files of those folders that stay in the repository


def announced(place: str, *further: str) -> str:
    """What is said of an installation."""
    programs = ", ".join(f"{place}/bin/{name}" for name in ("l6", *further))
    return f"installed {programs}, manual pages, completions, examples and licences\n"


def shipped(_checkout: Checkout) -> Iterator[Trial]:
    """The list of what is shipped has each file of the folders that are shipped, once, with its mode."""
    yield from shipped_by((TOP / "tools/shipped").read_text())


def shipped_by(text: str) -> Iterator[Trial]:
    """The trials on a list of what is shipped."""
    rows = [line.split() for line in text.splitlines() if line[:1] not in ("#", "")]
    found = [(row[3], sorted(str(it.relative_to(TOP)) for it in TOP.glob(row[3])))
             for row in rows if row[3] not in ("PROGRAM", "ARCHIVE")]
    listed = [name for _, names in found for name in names]
    folders = ("examples/*", "licenses/*", "completions/*", "docs/*.1", "editors/**/*", "terminal/*", "library/*", "library/python/*.py", "LICENSE-*",
               *files_below("library/rust"), *files_below("library/rust_offset"),
               "THIRD-PARTY.md")
    there = {str(it.relative_to(TOP)) for pattern in folders for it in TOP.glob(pattern) if it.is_file()}
    yield "what is shipped", sorted(there - NOT_SHIPPED), sorted(set(listed))
    twice = {name for name in listed if listed.count(name) > 1}  # (Vim and neovim look in different folders)
    yield "what is shipped twice", {f"editors/vim/{it}/l6.vim" for it in ("ftdetect", "ftplugin", "syntax")}, twice
    yield "what is not shipped is there", [], sorted(NOT_SHIPPED - there)
    yield "lines that ship nothing", [], [name for name, names in found if not names]
    yield "programs that are shipped", [("l6db", "lib/l6/l6db"), ("l6ed", "bin/l6ed"), ("l6", "bin/l6")], [
        (of, place) for of, _, place, files in rows if files == "PROGRAM"
    ]
    may_run = ("PROGRAM", "terminal/l6db.sh", "library/shared")
    yield "modes", [], [row for row in rows if row[1] != ("755" if row[3] in may_run else "644")]
    for name, of_it in (("l6db", r"l6db|terminal"), ("l6ed", r"l6ed|/vim/|/nvim/|/emacs/|highlighting|editors")):
        own = [row for row in rows if bool(re.search(of_it, row[2])) != (row[0] == name)]
        yield f"what belongs to {name}", [], own
    archives = [(of, place) for of, _, place, files in rows if files == "ARCHIVE"]
    yield "archives that are shipped", [("lib", f"lib/libl6_{name}.a") for name in ("offset", "store")], archives
    its = [row for row in rows if row[3].startswith("library/") and row[0] != "lib"]
    yield "what belongs to the libraries", [], its
    places = {f"{row[2]}{'' if row[2].endswith('/') else '/'}" for row in rows}
    for page in sorted([*TOP.glob("docs/*.md"), TOP / "README.md"]):
        told = re.findall(r"\bPREFIX/([\w./-]*\w)", page.read_text("utf-8"))
        yield f"folders that {page.name} tells of, and that have nothing", [], [
            it for it in told if not any(place.startswith(f"{it}/") for place in places)]


def modes_of(place: Path) -> dict[str, int]:
    """The modes of the files that are installed."""
    return {name: (place / name).stat().st_mode & 0o777 for name in INSTALLED}


def mode_of(name: str) -> int:
    """The mode that a file has where it is installed."""
    return 0o755 if name in MAY_RUN else 0o644


def files_of(place: Path, names: Iterable[str]) -> dict[str, tuple[bytes, int]]:
    """The bytes and the modes of files below a place."""
    return {name: ((place / name).read_bytes(), (place / name).stat().st_mode & 0o777) for name in names}


MODES = {name: mode_of(name) for name in INSTALLED}
OLDER = (b"an older one\n", 0o600)  # a file that an installation replaces


def names_in(folder: Path) -> list[str]:
    """All files in a folder and below it."""
    return sorted(str(file.relative_to(folder)) for file in folder.rglob("*") if file.is_file())


def arguments(checkout: Checkout) -> Iterator[Trial]:
    """Help, and wrong arguments."""
    actual = checkout.run("install", "--help", has_rt=False)
    yield "help", (0, USAGE, ""), (actual.status, actual.stdout[:len(USAGE)], actual.stderr)
    yield "the help in its page", True, f"```figure\n{actual.stdout}```\n" in PAGE.read_text("utf-8")
    wrong: tuple[tuple[str, ...], ...] = (
        ("-x",), ("a", "b"), ("",), ("--program",), ("--program", "nothing"), ("--uninstall", "a", "b"),
    )
    for words in wrong:
        actual = checkout.run("install", *words, has_rt=False)
        said = actual.stderr[:len(USAGE)]
        yield f"the arguments {words}", (64, "", USAGE), (actual.status, actual.stdout, said)


def installations(checkout: Checkout) -> Iterator[Trial]:
    """The program of dist/ is installed without rt and Python, also over an earlier one."""
    prefix = "a new folder/of mine"
    place = checkout.folder / prefix
    for which in ("the first", "the second"):
        actual = checkout.run("install", prefix, has_rt=False)
        expected = Answer(f"{announced(prefix)}{prefix}/bin is not on the path\n", "", 0)
        yield f"{which} installation", expected, actual
        yield f"what {which} installs", sorted(INSTALLED), names_in(place)
        yield f"the modes of {which}", MODES, modes_of(place)
        for name, source in INSTALLED.items():
            yield f"{name} of {which}", (checkout.top / source).read_bytes(), (place / name).read_bytes()
            (place / name).write_bytes(OLDER[0])
            (place / name).chmod(OLDER[1])
        yield f"what {which} is replaced by", dict.fromkeys(INSTALLED, OLDER), files_of(place, names_in(place))
    prefix = str(checkout.folder / "on the path")
    actual = checkout.run("install", prefix, has_rt=False, FIRST=f"{prefix}/bin")
    yield "a folder on the path", Answer(announced(prefix), "", 0), actual


def staged(checkout: Checkout) -> Iterator[Trial]:
    """With DESTDIR everything goes there. A program that is named is installed without being tried."""
    folder = checkout.folder / "a stage"
    actual = checkout.run("install", "/usr", has_rt=False, DESTDIR=str(folder))
    yield "a stage", Answer(announced(f"{folder}/usr"), "", 0), actual
    yield "what is in the stage", sorted(f"usr/{name}" for name in INSTALLED), names_in(folder)
    near = checkout.folder / "another stage"
    actual = checkout.run("install", "opt/l6", has_rt=False, DESTDIR=f"{near}/")
    yield "a stage for a prefix without a slash", Answer(announced(f"{near}/opt/l6"), "", 0), actual
    yield "what is in that stage", sorted(f"opt/l6/{name}" for name in INSTALLED), names_in(near)
    other = checkout.top / "dist/l6-aarch64"
    for name, refuses, status in ((str(other), "l6-aarch64", 0), ("", "l6 l6-static l6.mjs", 1)):
        chosen = ["--program", name] if name else []
        where = {"DESTDIR": str(folder), "REFUSES": refuses}
        actual = checkout.run("install", *chosen, "/usr", has_rt=False, stdin="", umask=0o022, **where)
        yield f"a program that does not start here: {chosen}", status, actual.status
        program = (folder / "usr/bin/l6").read_bytes()
        yield f"the program that is then in the stage: {chosen}", other.read_bytes(), program


def further_programs(checkout: Checkout) -> Iterator[Trial]:
    """Beside a program that is named its l6db and l6ed are installed, with what belongs to them, and removed."""
    words = ["--program", str(checkout.top / "dist/l6-aarch64"), "/usr"]
    for name, (placed_at, its) in FURTHER.items():
        folder, program = checkout.folder / f"with {name}", checkout.top / f"dist/{name}-aarch64"
        program.write_text(f"a program {name}\n")
        actual = checkout.run("install", *words, has_rt=False, DESTDIR=str(folder))
        yield f"{name} beside a program", (0, ""), (actual.status, actual.stderr)
        yield f"what is said of {name}", announced(f"{folder}/usr", name), actual.stdout
        yield f"what is installed with {name}", sorted(f"usr/{it}" for it in (*INSTALLED, *its)), names_in(folder)
        expected = {it: ((checkout.top / source).read_bytes(), mode_of(it)) for it, source in its.items()}
        yield f"the files of {name}", expected, files_of(folder / "usr", its)
        placed = folder / "usr" / placed_at
        yield f"the program {name}", (f"a program {name}\n", 0o755), (placed.read_text(), placed.stat().st_mode & 0o777)
        placed.write_text(f"#!/bin/sh\necho {name} with $*\n")
        ran = subprocess.run([folder / "usr/bin" / name, "a word"], capture_output=True, text=True)
        yield f"{name} that is started", (f"{name} with a word\n", "", 0), (ran.stdout, ran.stderr, ran.returncode)
        program.unlink()
        yield f"what Python keeps of {name}", name == "l6db", keep_compiled(folder) > 0
        actual = checkout.run("install", "--uninstall", "/usr", has_rt=False, DESTDIR=str(folder))
        yield f"the removal of {name}", (0, []), (actual.status, names_in(folder))
    for name in FURTHER:
        (checkout.top / f"dist/{name}-aarch64").write_text("a program\n")
    actual = checkout.run("install", *words, has_rt=False, DESTDIR=str(checkout.folder / "with both"))
    yield "both", announced(f"{checkout.folder}/with both/usr", *FURTHER), actual.stdout


def companions(checkout: Checkout) -> Iterator[Trial]:
    """Of dist/ a further program is installed if it belongs to the sources and starts here."""
    program = checkout.top / "dist/l6db"
    text = (checkout.top / "dist/l6").read_text().replace("#!/bin/sh\n", "#!/bin/sh\nit=l6db\n", 1).replace("|| exit 64", "|| exit 0")
    program.write_text(text)
    program.chmod(0o755)
    noted = 'top=$PWD; . tools/program.sh; provenance_of dist/l6db "toolchain a toolchain" > dist/l6db.provenance'
    checkout.run_words(["sh", "-c", noted], checkout.top, {"PATH": str(checkout.folder / "plain")})
    for what, refuses, more, further in (
        ("that starts", "", "", ("l6db",)), ("that does not start", "l6db", "", ()), ("of other sources", "", "# altered\n", ()),
    ):
        program.write_text(text + more)
        actual = checkout.run("install", what, has_rt=False, REFUSES=refuses)
        said = f"{announced(what, *further)}{what}/bin is not on the path\n"
        yield f"with a further program {what}", Answer(said, "", 0), actual
        yield f"what is installed with one {what}", bool(further), (checkout.folder / what / "lib/l6/l6db").is_file()
    program.write_text(text)
    second = program.with_name("l6db-static")
    second.write_text(text + "# linked in another way\n")
    second.chmod(0o755)
    checkout.run_words(["sh", "-c", noted.replace("dist/l6db", second.relative_to(checkout.top).as_posix())], checkout.top,
                       {"PATH": str(checkout.folder / "plain")})
    actual = checkout.run("install", "two", has_rt=False)
    yield "with two further programs that start", Answer(f"{announced('two', 'l6db')}two/bin is not on the path\n", "", 0), actual
    yield "which of two is installed", text, (checkout.folder / "two/lib/l6/l6db").read_text()


def libraries(checkout: Checkout) -> Iterator[Trial]:
    """Where there are archives for the program's processor, they are installed with what belongs to them, and removed."""
    for kind, named in (("", "l6-static"), ("-aarch64", "l6-aarch64")):
        folder = checkout.folder / f"with libraries{kind}"
        words = ["--program", str(checkout.top / "dist" / named), "/usr"]
        for name in ("l6_store", "l6_offset"):
            archive = checkout.top / f"dist/{name}{kind}.a"
            actual = checkout.run("install", *words, has_rt=False, DESTDIR=str(folder))
            yield f"without {archive.name}", announced(f"{folder}/usr"), actual.stdout
            archive.write_text(f"an archive{kind} of {name}\n")
        actual = checkout.run("install", *words, has_rt=False, DESTDIR=str(folder))
        said = announced(f"{folder}/usr").replace("licences\n", "licences, and the libraries for C\n")
        yield f"what is said of libraries{kind}", (0, said, ""), (actual.status, actual.stdout, actual.stderr)
        expected = (*INSTALLED, *LIBRARIES, "lib/libl6_store.a", "lib/libl6_offset.a")
        yield f"libraries{kind}", sorted(f"usr/{name}" for name in expected), names_in(folder)
        yield f"the archive{kind}", f"an archive{kind} of l6_store\n", (folder / "usr/lib/libl6_store.a").read_text()
        for name, source in LIBRARIES.items():
            placed, own = folder / "usr" / name, TOP / source
            yield f"{name}{kind}", own.read_bytes(), placed.read_bytes()
            yield f"the mode of {name}{kind}", mode_of(name), placed.stat().st_mode & 0o777
    folder = checkout.folder / "for Node"
    words = ["--program", str(checkout.top / "dist/l6.mjs"), "/usr"]
    actual = checkout.run("install", *words, has_rt=False, DESTDIR=str(folder))
    yield "libraries beside a program for Node", announced(f"{folder}/usr"), actual.stdout
    folder = checkout.folder / "with libraries"
    yield "what Python keeps of libraries", True, keep_compiled(folder) > 0
    for archive in (checkout.top / "dist").glob("*.a"):  # (who removes libraries need not have them any more)
        archive.unlink()
    actual = checkout.run("install", "--uninstall", "/usr", has_rt=False, DESTDIR=str(folder))
    yield "their removal", (0, []), (actual.status, names_in(folder))
    yield "the folders after their removal", ["usr"], sorted(it.name for it in folder.rglob("*"))


def keep_compiled(folder: Path) -> int:
    """Keeps of each module of Python in a folder what Python keeps where it is imported; returns how many files that makes."""
    for module in list(folder.rglob("*.py")):
        kept = module.parent / "__pycache__"
        kept.mkdir(exist_ok=True)
        (kept / f"{module.stem}.cpython-312.pyc").touch()
        (kept / f"{module.stem}.cpython-38.opt-1.pyc").touch()
    return len(list(folder.rglob("*.pyc")))


def removals(checkout: Checkout) -> Iterator[Trial]:
    """What was installed is removed, and nothing else."""
    place = checkout.folder / "a place"
    checkout.run("install", "a place", has_rt=False)
    kept = ["bin/another", "share/doc/another", "share/man/man1/l6.2"]
    for name in kept:
        (place / name).touch()
    actual = checkout.run("install", "--uninstall", "a place", has_rt=False)
    expected = Answer("removed a place/bin/l6 and what was installed with it\n", "", 0)
    yield "a removal", expected, actual
    yield "what is left", kept, names_in(place)
    folders = sorted(str(it.relative_to(place)) for it in place.rglob("*") if it.is_dir())
    yield "the folders that are left", ["bin", "share", "share/doc", "share/man", "share/man/man1"], folders
    actual = checkout.run("install", "--uninstall", "a place", has_rt=False)
    yield "a second removal", Answer("", "install: there is nothing of l6 in a place\n", 1), actual
    checkout.run("install", "a place", has_rt=False)
    (place / "share/doc/l6/mine.deck").touch()
    actual = checkout.run("install", "--uninstall", "a place", has_rt=False)
    expected = Answer(f"{expected.stdout}a place/share/doc/l6 has other files, and stays\n", "", 0)
    yield "a removal beside a file of somebody else", expected, actual
    yield "what is left then", sorted([*kept, "share/doc/l6/mine.deck"]), names_in(place)
    for folder, name in (("share/l6", "share/l6/terminal/mine.py"), ("lib/l6", "lib/l6/mine")):
        own = f"a place with {name.rpartition('/')[2]}"
        checkout.run("install", own, has_rt=False)
        (checkout.folder / own / name).parent.mkdir(parents=True)
        (checkout.folder / own / name).touch()
        actual = checkout.run("install", "--uninstall", own, has_rt=False)
        said = f"removed {own}/bin/l6 and what was installed with it\n{own}/{folder} has other files, and stays\n"
        yield f"a removal beside {name}", (Answer(said, "", 0), [name]), (actual, names_in(checkout.folder / own))
    checkout.run("install", "alone", has_rt=False)
    (checkout.folder / "alone/bin/l6").unlink()
    (checkout.folder / "alone/bin/l6").symlink_to("nowhere")
    checkout.run("install", "--uninstall", "alone", has_rt=False)
    alone = checkout.folder / "alone"
    yield "a removal of all leaves the prefix", [], sorted(alone.iterdir()) if alone.is_dir() else "no prefix"
    stage: dict[str, Any] = {"DESTDIR": str(checkout.folder / "a stage")}
    checkout.run("install", "/usr", has_rt=False, **stage)
    actual = checkout.run("install", "--uninstall", "/usr", has_rt=False, **stage)
    yield "a removal from a stage", (0, []), (actual.status, names_in(checkout.folder / "a stage"))
    (checkout.folder / "odd/bin/l6").mkdir(parents=True)
    actual = checkout.run("install", "--uninstall", "odd", has_rt=False)
    yield "a removal where a folder has the program's place", Answer("", "install: odd/bin/l6 is a folder\n", 1), actual


def running_program(checkout: Checkout) -> Iterator[Trial]:
    """A program that runs is replaced, and runs on; the mask of modes changes nothing."""
    place = checkout.folder / "running"
    program = place / "bin/l6"
    program.parent.mkdir(parents=True)
    program.write_bytes(Path("/bin/sleep").read_bytes())
    program.chmod(0o755)
    with subprocess.Popen([program, "60"]) as running:
        actual = checkout.run("install", "running", has_rt=False, umask=0o077)
        yield "a program that runs is replaced", (0, ""), (actual.status, actual.stderr)
        yield "the program still runs", None, running.poll()
        running.kill()
    yield "the modes under another mask", MODES, modes_of(place)
    yield "the mode of a folder under another mask", 0o755, (place / "share/man").stat().st_mode & 0o777
    yield "the program that replaced it", (checkout.top / "dist/l6").read_bytes(), program.read_bytes()
    somebodys, page = checkout.folder / "a file of somebody", place / "share/man/man1/l6.1"
    somebodys.write_text("another page\n")
    page.unlink()
    page.symlink_to(somebodys)
    checkout.run("install", "running", has_rt=False)
    yield "a link in a file's place is replaced, and not followed", ("another page\n", False), (
        somebodys.read_text(), page.is_symlink())


def installed_into(checkout: Checkout, folder: str) -> tuple[Answer[str], list[str]]:
    """What ./install says where it installs into a folder, and the files that are there then."""
    return checkout.run("install", folder, has_rt=False), names_in(checkout.folder / folder)


def refusals(checkout: Checkout) -> Iterator[Trial]:
    """If it can't install both files, it installs none, and says why."""
    (checkout.folder / "file").touch()
    actual = checkout.run("install", "file", has_rt=False)
    expected = Answer("", "install: no permission to write to file/share/man/man1\n", 1)
    yield "a file in the prefix's place", expected, actual
    for name in INSTALLED:
        folder = f"a folder for {Path(name).name}"
        (checkout.folder / folder / name).mkdir(parents=True)
        actual = checkout.run("install", folder, has_rt=False)
        yield folder, Answer("", f"install: {folder}/{name} is a folder\n", 1), actual
        yield f"what is installed beside {folder}", [], names_in(checkout.folder / folder)
    (checkout.folder / "half/share").mkdir(parents=True)
    (checkout.folder / "half/share/man").touch()
    actual = checkout.run("install", "half", has_rt=False)
    expected = Answer("", "install: no permission to write to half/share/man/man1\n", 1)
    yield "a manual page that can't be written", expected, actual
    yield "what is installed without its page", ["share/man"], names_in(checkout.folder / "half")
    page = checkout.top / "docs/l6.1"
    page.rename(checkout.folder / "page")
    actual, left = installed_into(checkout, "no page")
    said = "install: no page/share/man/man1/l6.1 can't be written; nothing is installed\n"
    ending = actual.stderr[-len(said):]
    yield "a manual page that is missing", ("", said, 1), (actual.stdout, ending, actual.status)
    yield "what is installed then", [], left
    (checkout.folder / "page").rename(page)
    later = checkout.top / "completions/_l6"
    later.rename(checkout.folder / "page")
    actual, left = installed_into(checkout, "no later file")
    yield "what is staged before a file that is missing", (1, []), (actual.status, left)
    (checkout.folder / "page").rename(later)
    if os.geteuid() == 0:
        closed = checkout.folder / "of somebody else"
        closed.mkdir(mode=0o755)
        actual = checkout.run_as_somebody([str(checkout.top / "install"), str(closed)], checkout.top)
        expected = Answer("", f"install: no permission to write to {closed}/share/man/man1\n", 1)
        yield "a folder of somebody else", expected, actual


def damaged_program(checkout: Checkout) -> Iterator[Trial]:
    """If the program is damaged it is built from the sources; if they are not proved, none is installed."""
    checkout.leave_only("l6")
    program = checkout.top / "dist/l6"
    whole = program.read_bytes()
    program.write_bytes(whole[:-1])
    actual = checkout.run("install", "damaged", has_rt=False)
    expected = "install: there is no program to install\n"
    yield "a program that is cut", (1, "", expected), (actual.status, actual.stdout, actual.stderr[-len(expected):])
    checkout.write("crates/l6_word/proofs/Lib.antt", UNPROVED)
    actual = checkout.run("install", "damaged")
    ending = actual.stderr[-len(expected):]
    yield "sources that are not proved", (1, "", expected), (actual.status, actual.stdout, ending)
    yield "what is installed of both", [], names_in(checkout.folder / "damaged")
    program.write_bytes(whole)
    checkout.write("crates/l6_word/proofs/Lib.antt", "proved again\n")
    actual = checkout.run("install", "built again")
    yield "sources that are proved first", 0, actual.status
    actual = checkout.run("../built again/bin/l6")
    yield "the program that is built again", Answer(checkout.made_of, "", 0), actual


GROUPS: tuple[Group, ...] = (
    shipped, arguments, installations, staged, further_programs, companions, libraries, removals, running_program, refusals,
    damaged_program,
)


def trials() -> Iterator[Trial]:
    """All trials, each group on a checkout of its own."""
    yield from on_checkouts((group,) for group in GROUPS)


# Of a list of what is shipped an old text, a new one, and the trial that sees it.
ALTERED = (
    ("examples/*.trace\n", "examples/*.track\n", "what is shipped"),
    ("examples/*.trace\n", "examples/*.trace\nl6 644 share/doc/l6/more/ examples/*.trace\n", "what is shipped twice"),
    ("docs/l6.1\n", "docs/l6.1\nl6 644 share/man/man1/ docs/l6.9\n", "lines that ship nothing"),
    ("755 bin/l6ed", "755 bin/l6e", "programs that are shipped"),
    ("755 share/l6/library/", "644 share/l6/library/", "modes"),
    ("644 share/man/man1/l6db.1", "755 share/man/man1/l6db.1", "modes"),
    ("l6db 644 share/man/man1/", "l6   644 share/man/man1/", "what belongs to l6db"),
    ("l6   644 share/doc/l6/licenses/", "l6db 644 share/doc/l6/licenses/", "what belongs to l6db"),
    ("l6ed 644 share/emacs/", "l6   644 share/emacs/", "what belongs to l6ed"),
    ("lib/libl6_store.a", "lib/l6_store.a", "archives that are shipped"),
    ("lib  644 lib/pkgconfig/", "l6   644 lib/pkgconfig/", "what belongs to the libraries"),
    ("share/l6/editors/vscode/", "share/l6/vscode/", "folders that editors.md tells of, and that have nothing"),
    ("lib/pkgconfig/", "lib/package/", "folders that library.md tells of, and that have nothing"),
)


def altered_lists() -> Iterator[Trial]:
    """Lists of what is shipped in which something is wrong."""
    text = (TOP / "tools/shipped").read_text()
    for old, new, what in ALTERED:
        if old not in text:
            raise ValueError(f"{old} is not in the list")
        _, expected, actual = next(it for it in shipped_by(text.replace(old, new)) if it[0] == what)
        yield f"{what}, by a list with {new or 'a line less'}", expected, actual


def canaries() -> Iterator[Trial]:
    """With a list that is altered, an install that does nothing, or one that installs all but a file, each group sees it."""
    yield from altered_lists()
    with tempfile.TemporaryDirectory() as folder:
        checkout = Checkout(Path(folder) / "checkout")
        own = (checkout.top / "install").read_text()
        checkout.write("install", "#!/bin/sh\nmkdir -p \"$1\" && exit 0\n")
        for group in (arguments, installations, staged, refusals, damaged_program):
            yield first_wrong(f"{group.__name__} with an install that does nothing", group(checkout))
        checkout.write("install", own)
        (checkout.top / "tools/shipped").write_text((TOP / "tools/shipped").read_text().replace("644 share/man", "600 share/man"))
        yield first_wrong("installations with a wrong mode", installations(checkout))


if __name__ == "__main__":
    sys.exit(report(trials(), canaries()))
