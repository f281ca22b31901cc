#!/usr/bin/env python3
"""Tests what a release has besides the program: version, licences, citation, completions and packages.

release.py PROGRAM [--quick] prints each difference, and last 'N passed, M failed'. It says what it skips where a
tool is missing. Packages are made in a folder of their own, and installed into a root of their own; with
--quick they are made once, and not looked through by lintian.
"""
from __future__ import annotations

import datetime
import functools
import gzip
import hashlib
import io
import os
import re
import shutil
import subprocess
import sys
import tarfile
import tempfile
from collections.abc import Callable, Iterator
from itertools import chain
from pathlib import Path
from unittest import mock

sys.path[:0] = [str(Path(__file__).resolve().parents[2] / it) for it in ("tests/harness", "tools")]
import notices
from answers import answer, answer_of
from completed_options import options_by_help
from shipped_files import in_package, in_tar, packed
from trials import Trial, few_pass, first_wrong, groups_asked_for, report
from wrong_packages import ALTERED, wrong_archive, wrong_package

TOP = Path(__file__).resolve().parents[2]
KIT = Path(shutil.which("rt") or "/nowhere/bin/rt").resolve().parent.parent / "rattle"
FIRST = b" (A,E,5)(A,PD)\n"
PRINTED = answer(b"5\n== DONE AFTER 6 STEPS\n")
DATE = r"\d{4}-\d\d-\d\d"

# The SHA-256 sums of the texts, as they are known elsewhere: those of Rust's crates, and that of musl.
LICENCES = {
    "licenses/Apache-2.0.txt": "a60eea817514531668d7e00765731449fe14d059d3249e0bc93b36de45f759f2",
    "LICENSE-APACHE": "a60eea817514531668d7e00765731449fe14d059d3249e0bc93b36de45f759f2",
    "licenses/rust-MIT.txt": "23f18e03dc49df91622fe2a76176497404e46ced8a715d9d2b67a7446571cca3",
    "licenses/itoa-MIT.txt": "23f18e03dc49df91622fe2a76176497404e46ced8a715d9d2b67a7446571cca3",
    "licenses/thiserror-MIT.txt": "23f18e03dc49df91622fe2a76176497404e46ced8a715d9d2b67a7446571cca3",
    "licenses/clap-MIT.txt": "6efb0476a1cc085077ed49357026d8c173bf33017278ef440f222fb9cbcb66e6",
    "licenses/musl-COPYRIGHT.txt": "f9bc4423732350eb0b3f7ed7e91d530298476f8fec0c6c427a1c04ade22655af",
}
# Where the toolchain has the same texts.
IN_KIT = {
    "clap-MIT": "clap/LICENSE-MIT", "clap-Apache-2.0": "clap/LICENSE-APACHE", "strsim-MIT": "strsim/LICENSE",
    "arrayvec-MIT": "arrayvec/LICENSE-MIT", "circular_buffer-BSD-3-Clause": "circular_buffer/LICENSE",
    "indexmap-MIT": "indexmap/LICENSE-MIT", "itoa-MIT": "itoa/LICENSE", "thiserror-MIT": "thiserror/LICENSE",
    "Apache-2.0": "indexmap/LICENSE-APACHE",
}
# .. of what only l6ed is made of.
OF_EDITORS = {
    "serde_json-MIT": "serde_json/LICENSE-MIT", "fast_float-MIT": "fast_float/LICENSE", "zmij-MIT": "ryu/LICENSE-ZMIJ",
    "simdutf8-MIT": "simdutf8/LICENSE",
}
OF_WORDS = {"clap-MIT", "strsim-MIT", "clap-Apache-2.0"}  # and of what it is made without


def text_of(name: str) -> str:
    """The text of a file of the repository."""
    return (TOP / name).read_text("utf-8")


def found(pattern: str, name: str) -> str:
    """What the first group of a pattern is in a file; nothing if it isn't there."""
    match = re.search(pattern, text_of(name), re.MULTILINE)
    return match[1] if match else ""


def versions(program: str) -> Iterator[Trial]:
    """The version is in one place of the sources, and everything else says the same."""
    version = found(r'^const VERSION: &str = "([^",]+)', "crates/l6/src/arguments.rt")
    said = answer_of([program, "--version"], input=b"").stderr.decode().split(",")[0]
    yield "the version of the program", f"l6 {version}", said
    for name, pattern in (
        ("README.md", r"Version (\S+) is"), ("docs/l6.1", r"^\.Os L6 (\S+)$"),
        ("dist/l6.html", r"<p>L6 ([^,<]+),"),
        ("docs/command-line.md", r"^l6 ([^,]+), images"), ("CITATION.cff", r'^version: "(.*)"$'),
        ("CHANGELOG.md", r"^## \[(.*)\] - "),
    ):
        yield f"the version in {name}", version, found(pattern, name)


def citation() -> Iterator[Trial]:
    """The citation has what its format asks for, and the changelog agrees with it."""
    text = text_of("CITATION.cff")
    keys = set(re.findall(r"^([a-z-]+):", text, re.MULTILINE))
    needed = {"cff-version", "message", "type", "title", "authors", "version", "date-released", "license"}
    yield "the keys of the citation", needed, keys & needed
    known = {*needed, "abstract", "keywords", "references"}
    yield "keys that the format does not know", set(), keys - known
    yield "the format's version", "1.2.0", found(r"^cff-version: (.*)$", "CITATION.cff")
    yield "who is cited", "The L6 contributors", found(r"^authors:\n  - name: (.*)$", "CITATION.cff")
    licensed = re.findall(r"^  - (MIT|Apache-2.0)$", text, re.MULTILINE)
    yield "the licences of the citation", ["MIT", "Apache-2.0"], licensed
    titles = ["L6: a proved implementation of the Low-Level Linked List Language", "A Programmer's Description of L6",
              "A Fast Storage Allocator"]
    yield "the titles of the citation", titles, [it.strip('"') for it in re.findall(r"^ *title: (.*)$", text, re.MULTILINE)]
    date = found(rf"^date-released: ({DATE})$", "CITATION.cff")
    yield "the date of the citation", date, datetime.date.fromisoformat(date).isoformat()
    yield "lines of the citation that are no YAML of this kind", [], [
        line for line in text.splitlines() if not re.fullmatch(r"#.*|( *(- )?[a-z-]+: ?.*)|  +.*|  - .*", line)
    ]
    yield "the date of the changelog", date, found(rf"^## \[[^]]+\] - ({DATE})$", "CHANGELOG.md")
    headings = re.findall(r"^### (.*)$", text_of("CHANGELOG.md"), re.MULTILINE)
    kinds = {"Added", "Changed", "Deprecated", "Removed", "Fixed", "Security"}
    yield "the headings of the changelog", [], [it for it in headings if it not in kinds]


def licences() -> Iterator[Trial]:
    """Each text of a licence is whole, and each work of others is named with its texts."""
    for name, digest in LICENCES.items():
        yield f"the text of {name}", digest, hashlib.sha256((TOP / name).read_bytes()).hexdigest()
    own = text_of("LICENSE-MIT")
    holder = "Copyright (c) the L6 contributors\n\n"
    yield "the text of LICENSE-MIT", holder + text_of("licenses/rust-MIT.txt"), own
    common = Path("/usr/share/common-licenses/Apache-2.0")
    if common.is_file():
        yield "the words of LICENSE-APACHE", common.read_text().split(), text_of("LICENSE-APACHE").split()
    if KIT.is_dir():
        for name, source in {**IN_KIT, **OF_EDITORS}.items():
            expected = (KIT / source).read_text("utf-8")
            yield f"{name}, as the toolchain has it", expected, text_of(f"licenses/{name}.txt")
    else:
        print("skipped: licences as the toolchain has them: rt is missing")
    listed = text_of("THIRD-PARTY.md")
    links = set(re.findall(r"(?:\(|^\[\S+\]: )(licenses/[^)\s]+)", listed, re.MULTILINE))
    yield "texts that THIRD-PARTY.md names", {f"licenses/{it.name}" for it in (TOP / "licenses").iterdir()}, links
    archives = [f"`{name}.a`" for name in re.findall(r"^(\w+)_c staticlib:", text_of("crates.txt"), re.MULTILINE)]
    yield "archives that THIRD-PARTY.md does not name", [], [name for name in archives if name not in listed]
    lines = [line.partition("#")[0] for line in text_of("crates.txt").splitlines()]
    used = {name for line in lines for name in line.partition(":")[2].split()}
    own_crates = {line.partition(":")[0].strip() for line in lines}
    used -= {"core", "std_alloc"}  # parts of Rattle's std
    missing = [name for name in sorted(used - own_crates) if f"| {name}, " not in listed]
    yield "crates that THIRD-PARTY.md does not name", [], missing
    free = {it for it in IN_KIT if "Apache" not in it}
    of_editors = free - OF_WORDS | {"Apache-2.0", *OF_EDITORS}
    for name, its in {**dict.fromkeys(("dist/l6.html", "dist/l6.mjs", "dist/l6db.mjs"), free), "dist/l6ed.mjs": of_editors}.items():
        texts = [own, *(text_of(f"licenses/{it}.txt") for it in sorted(its))]
        yield f"licences in {name}", [], [text for text in texts if text.strip() not in text_of(name)]
    rows = [(re.split(r"\W*\|\W*", line)[1:3]) for line in listed.splitlines() if re.match(r"\| \w+, ", line)]
    for name, works in {"l6": notices.WORKS, "l6db": notices.WORKS, "l6ed": notices.WORKS_OF_EDITORS}.items():
        listed_works = [what for what, programs in rows if programs == "all" or name in programs.split("`, `")]
        titles = {it for work in works.values() for it in re.split(", | and ", work)}
        yield f"works of {name} whose licences its notices leave out", [], [it for it in listed_works if it.partition(",")[0] not in titles]
        yield f"works that are not in {name}", set(), {it for it in titles if not any(re.search(rf"\b{it}\b", row) for row in listed_works)}
        yield f"the notices of {name}", [], [it for it in works if text_of(f"licenses/{it}.txt").strip() not in notices.notices(works)]
    spdx = "`MIT OR Apache-2.0`"
    yield "the licences in README.md", True, spdx in text_of("README.md")


# What each shell offers for the last word of a command line.
COMPLETIONS: dict[str, set[str]] = {
    "l6 r": {"run", "renew"},
    "l6 --v": {"--version"},
    "l6 run --s": {"--store", "--steps"},
    "l6 run --e": {"--explain"},
    "l6 load --e": set(),
    "l6 asm --": {"--help"},
    "l6 debug --store 2 --o": {"--output"},
    "l6 help l": {"list", "load"},
    "l6 trace --": {"--store", "--any-place", "--levels", "--units", "--first", "--piece", "--json", "--help"},
    "l6 check --": {"--long", "--name", "--help"},
    "l6db --": {"--input", "--batch", "--echo", "--prompt", "--store", "--steps", "--output", "--help", "--version"},
    "l6db -x a.commands --e": {"--echo"},
    "l6ed l": {"lsp"},
    "l6ed d": {"dap"},
    "l6ed --": {"--help", "--version"},
    "l6ed lsp d": set(),
}
IN_BASH = """
compopt() { printf 'compopt %s\\n' "$*"; }
COMP_WORDS=($1)
. "completions/${COMP_WORDS[0]}.bash"
COMP_CWORD=$((${#COMP_WORDS[@]} - 1))
"_${COMP_WORDS[0]}"
printf '%s\\n' "${COMPREPLY[@]}"
"""
IN_FISH = 'for it in l6 l6db l6ed; source completions/$it.fish; end; complete -C "$argv[1]"'
# What comes after an option: files, where one is asked for. (In bash it is asked to offer them.)
FILES = {
    "l6 run < README": True, "l6 run <README": True, "l6db --input README": True, "l6db -x README": True, "l6 check --name README": True,
    **{f"{line} README": False for line in ("l6 run --store", "l6 run --steps", "l6 run --output", "l6 debug --store", "l6db --prompt", "l6db --store",
                                            "l6db --steps", "l6db --output")},
}
# In a shell of its own, on a terminal of its own, a function in place of zsh's prints each match that is offered.
ZSH_SETUP = """
fpath=($PWD/completions $fpath)
autoload -Uz compinit && compinit -u -D
compadd() {
    if [[ ${@[1,(i)(-|--)]} == *-(O|A|D)\\ * ]]; then builtin compadd "$@"; return; fi
    local -a hits
    builtin compadd -A hits "$@"
    (( $#hits )) && print -l -- MATCH:$^hits
}
zle-line-init() { print REA''DY }
zle -N zle-line-init
"""
IN_ZSH = """
zmodload zsh/zpty
zpty shell 'TERM=dumb zsh -f -i'
zpty -w shell 'source $HOME/setup.zsh'
zpty -r shell ready '*READY*'
zpty -w -n shell "$1"$'\\t'
zpty -w shell $'\\C-uprint EN\'\'D'
zpty -r shell answer '*END*'
print -r -- $answer
"""


def completions() -> Iterator[Trial]:
    """Each shell offers verbs, and the options of a verb."""
    shells = {
        "bash": ["bash", "-c", IN_BASH, "bash"], "fish": ["fish", "-c", IN_FISH],
        "zsh": ["zsh", "-fc", IN_ZSH, "zsh"],
    }
    for shell, words in shells.items():
        if not shutil.which(shell):
            print(f"skipped: completions of {shell}: it is missing")
            continue
        with tempfile.TemporaryDirectory() as home:
            Path(home, "setup.zsh").write_text(ZSH_SETUP)
            known = {**os.environ, "HOME": home, "XDG_CONFIG_HOME": home, "XDG_DATA_HOME": home}
            run = functools.partial(subprocess.run, cwd=TOP, capture_output=True, text=True, timeout=60, env=known)
            for line, expected in COMPLETIONS.items():
                yield f"{shell} completes {line!r}", expected, offered(shell, line, run([*words, line]).stdout)
            for line, is_file in FILES.items():
                typed = line.replace(" README", "=README") if shell == "zsh" and "--" in line else line
                typed = typed.replace("<R", "< R") if shell == "bash" else typed  # (a word ends at each <, COMP_WORDBREAKS says)
                sign = "compopt -o default" if shell == "bash" else "README.md"
                yield f"{shell} completes a file after {line!r}", is_file, sign in run([*words, typed]).stdout
            yield from options_by_help(lambda line: offered(shell, line, run([*words, line]).stdout), shell)


def offered(shell: str, line: str, printed: str) -> set[str]:
    """The words that a shell offered for the last word of a line."""
    last = line.split()[-1]
    if shell == "zsh":
        words = re.findall(r"MATCH:(\S+)", printed)
    else:
        words = [row.split("\t")[0] for row in printed.splitlines()]
    return {word.partition("=")[0] for word in words if word.startswith(last)}


def packages(is_quick: bool) -> Iterator[Trial]:
    """The packages are made, twice the same in whatever time zone, have no error, and are installed and removed."""
    if not shutil.which("dpkg-deb"):
        print("skipped: packages: dpkg-deb is missing")
        return
    with tempfile.TemporaryDirectory(prefix="l6-packages-") as room:
        folders = [Path(room, name) for name in (["made"] if is_quick else ["made", "again"])]
        for folder, zone in zip(folders, ("JST-9", "EST5")):
            ran = subprocess.run([TOP / "tools/make_deb", folder], capture_output=True, text=True, env={**os.environ, "TZ": zone})
            yield f"tools/make_deb: {folder.name}", (0, ""), (ran.returncode, ran.stderr)
        made, *again = ({file.name: file.read_bytes() for file in folder.iterdir()} for folder in folders)
        yield "packages, made again", True, all(it == made for it in again)
        version = found(r'^version: "(.*)"$', "CITATION.cff")
        names = [f"l6-{version}-aarch64.tar.gz", f"l6-{version}-x86_64.tar.gz",
                 f"l6_{version}_amd64.deb", f"l6_{version}_arm64.deb"]
        yield "what is made", names, sorted(made)
        yield from times(folders[0], names)
        yield from packed(folders[0], names)
        has_lintian = shutil.which("lintian") is not None and not is_quick
        for name in names[2:]:
            if has_lintian:
                words = ["lintian", "--fail-on", "error", str(folders[0] / name)]
                ran = subprocess.run(words, capture_output=True, text=True)
                errors = re.findall("^E:.*", ran.stdout, re.MULTILINE)
                yield f"errors of {name}", (0, []), (ran.returncode, errors)
            yield from control(folders[0] / name)
            yield from installed(folders[0] / name, Path(room, name.removesuffix(".deb")))
        if not has_lintian:
            print(f"skipped: errors of the packages: {'as was asked' if is_quick else 'lintian is missing'}")
        yield from unpacked(folders[0] / names[1], Path(room, "unpacked"))
        yield stale(Path(room, "stale"))
        for name in ("l6-static", "l6db-static", "l6ed-aarch64"):
            yield damaged(Path(room, f"with {name}"), name)
        yield from folder_of_packages(Path(room, "folder"))
        yield from failing(Path(room, "failing"))


def folder_of_packages(top: Path) -> Iterator[Trial]:
    """Packages go to out/packages if no folder is named, or to the one that is, which is made."""
    linked_checkout(top, "out")
    (top / "mktemp").write_text("#!/bin/sh\nexit 2\n", "ascii")
    (top / "mktemp").chmod(0o755)
    for folder, is_named in (("out/packages", False), ("a folder/of packages", True)):
        words = [str(top / folder)] if is_named else []
        ran = subprocess.run([str(top / "tools/make_deb"), *words], capture_output=True, text=True,
                             env={**os.environ, "PATH": f"{top}:{os.environ['PATH']}"})
        yield f"the folder of packages: {folder}", (1, True), (ran.returncode, (top / folder).is_dir())


def linked_checkout(top: Path, own: str) -> None:
    """Makes a checkout that leads to this one, but for its tools and a file or folder that it has itself."""
    top.mkdir()
    for it in TOP.iterdir():
        if it.is_file() and it.name != own:
            shutil.copy(it, top / it.name)  # (what is summed is no link)
        elif it.name not in (".git", "tools", own):
            (top / it.name).symlink_to(it)
    shutil.copytree(TOP / "tools", top / "tools", ignore=shutil.ignore_patterns("__pycache__"))


def damaged(top: Path, name: str) -> Trial:
    """The trial that no package is made where one of its programs is not the one that was made from the sources."""
    linked_checkout(top, "dist")
    (top / "dist").mkdir()
    for it in (TOP / "dist").iterdir():
        (top / "dist" / it.name).symlink_to(it)
    (top / "dist" / name).unlink()
    (top / "dist" / name).write_bytes((TOP / "dist" / name).read_bytes() + b"\0")
    ran = subprocess.run([top / "tools/make_deb", top / "packages"], capture_output=True, text=True)
    said = f"make_deb: dist/{name} was not made from the sources in this checkout\n"
    return f"packages with another {name}", (1, said), (ran.returncode, ran.stderr)


def stale(top: Path) -> Trial:
    """The trial that no package is made of programs that belong to other sources."""
    linked_checkout(top, "crates.txt")
    (top / "crates.txt").write_text(text_of("crates.txt") + "# edited\n", "utf-8")
    ran = subprocess.run([top / "tools/make_deb", top / "packages"], capture_output=True, text=True)
    made = [it.name for it in (top / "packages").iterdir()]
    return "packages of programs of other sources", (1, [], True), (
        ran.returncode, made, "was not made from the sources in this checkout" in ran.stderr)


def failing(room: Path) -> Iterator[Trial]:
    """A tool that fails on the way is noticed, also one whose output another one takes, and its package is not made."""
    for tool, words, made, said in (
        ("md5sum", "*usr/*", 0, ""), ("gzip", "*/l6.1*", 0, ""), ("tar", "*--sort=name*", 1, "make_deb: the archive can't be made\n"),
        ("dpkg-deb", "*-b*", 0, "make_deb: the package can't be made\n"), ("chmod", "*.new", 0, "make_deb: l6 can't be installed\n"),
        ("date", "*", 0, "make_deb: CITATION.cff has no date\n"),
    ):
        folder = room / tool
        folder.mkdir(parents=True)
        (folder / tool).write_text(f'#!/bin/sh\n{shutil.which(tool)} "$@"\ncase "$*" in {words}) exit 2 ;; esac\n')
        (folder / tool).chmod(0o755)
        (folder / "rooms").mkdir()
        ran = subprocess.run([TOP / "tools/make_deb", folder / "made"], capture_output=True, text=True,
                             env={**os.environ, "PATH": f"{folder}:{os.environ['PATH']}", "TMPDIR": str(folder / "rooms")})
        left = [it.name for it in (folder / "rooms").iterdir()]
        actual = ran.returncode != 0, len([it for it in (folder / "made").iterdir() if tool != "dpkg-deb"]), left
        yield f"packages where {tool} fails", (True, made, []), actual
        ending = ran.stderr[-len(said):] if said else ran.stderr
        yield f"what is said where {tool} fails", said, ending
    tools = room / "without dpkg-deb"
    tools.mkdir()
    for name in ("dirname", "readlink", "rm", "sha256sum", "sh"):
        (tools / name).symlink_to(shutil.which(name) or name)
    ran = subprocess.run(["sh", TOP / "tools/make_deb", room / "none"], capture_output=True, text=True, env={"PATH": str(tools)})
    yield "packages without dpkg-deb", (1, "make_deb: dpkg-deb is not on the path\n", False), (
        ran.returncode, ran.stderr, (room / "none").exists())


def times(folder: Path, names: list[str]) -> Iterator[Trial]:
    """All files in archives and packages have the time of the release: so they are the same whenever they are made."""
    day = datetime.date.fromisoformat(found(rf"^date-released: ({DATE})$", "CITATION.cff"))
    released = int(datetime.datetime(day.year, day.month, day.day, tzinfo=datetime.timezone.utc).timestamp())
    for name in names:
        package = folder / name
        if name.endswith(".gz"):
            with tarfile.open(package) as archive:
                yield f"the times in {name}", {released}, {int(it.mtime) for it in archive}
                yield f"the owners in {name}", {(0, 0)}, {(it.uid, it.gid) for it in archive}
            yield f"the time of {name}", bytes(4), package.read_bytes()[4:8]
            continue
        for kind in ("--fsys-tarfile", "--ctrl-tarfile"):
            ran = subprocess.run(["dpkg-deb", kind, package], capture_output=True, check=True)
            with tarfile.open(fileobj=io.BytesIO(ran.stdout)) as archive:
                late = {it.name for it in archive if it.mtime > released}
            yield f"what is later than the release in {name}, by {kind}", set(), late
        # (an archive of ar has the time of its first part in its bytes 24 to 35)
        yield f"the time of {name}", str(released).encode(), package.read_bytes()[24:36].strip()


def control(package: Path) -> Iterator[Trial]:
    """What a package says of itself: its processor, its size, and the sum of each of its files."""
    parts = [subprocess.run(["dpkg-deb", kind, package], capture_output=True, check=True).stdout
             for kind in ("--fsys-tarfile", "--ctrl-tarfile")]
    with tarfile.open(fileobj=io.BytesIO(parts[0])) as files, tarfile.open(fileobj=io.BytesIO(parts[1])) as about:
        texts = {it.name.removeprefix("./"): read_from(files, it) for it in files if it.isfile()}
        said, sums = (read_from(about, about.getmember(f"./{name}")).decode() for name in ("control", "md5sums"))
        yield f"the owners in {package.name}", {(0, 0)}, {(it.uid, it.gid) for it in files}
    keys = dict(re.findall(r"^([A-Z][\w-]+): (.*)$", said, re.MULTILINE))
    yield f"the version of {package.name}", found(r'^version: "(.*)"$', "CITATION.cff"), keys.get("Version")
    yield f"the processor of {package.name}", package.stem.rpartition("_")[2], keys.get("Architecture")
    size = sum(map(len, texts.values())) // 1024
    # (folders count, too)
    yield f"the size of {package.name}", True, size <= int(keys.get("Installed-Size", 0)) <= size + 500
    expected = {name: hashlib.md5(text, usedforsecurity=False).hexdigest() for name, text in texts.items()}
    yield f"the sums of {package.name}", expected, {line[34:]: line[:32] for line in sums.splitlines()}
    day = datetime.date.fromisoformat(found(rf"^date-released: ({DATE})$", "CITATION.cff"))
    zipped = {name: text for name, text in texts.items() if name.endswith(".gz")}
    # (byte 3 says whether a name follows, bytes 4 to 7 are a time: with either, no two packages have the same bytes)
    yield f"packed files of {package.name} with a name or a time", [], [it for it, text in zipped.items() if any(text[3:8])]
    yield f"packed files of {package.name}", True, len(zipped) > 3
    changes = gzip.decompress(texts.get("usr/share/doc/l6/changelog.gz", gzip.compress(b""))).decode()
    yield f"the day in the changelog of {package.name}", [day.strftime("%a, %d %b %Y 00:00:00 +0000")], re.findall(
        r"^ -- .*>  (.*)$", changes, re.MULTILINE)
    copyright_text = texts.get("usr/share/doc/l6/copyright", b"").decode()
    for what in ("/usr/share/common-licenses/Apache-2.0.", "License: Expat\n", "Permission is hereby granted, free of charge"):
        yield f"the copyright of {package.name}: {what.strip()}", True, what in copyright_text
    others = {f"usr/share/doc/l6/licenses/{it.name}" for it in (TOP / "licenses").iterdir() if it.name != "Apache-2.0.txt"}
    yield f"the licences of others in {package.name}", set(), others - texts.keys()


def read_from(archive: tarfile.TarFile, member: tarfile.TarInfo) -> bytes:
    """The bytes of a file in an archive."""
    opened = archive.extractfile(member)
    return opened.read() if opened else b""


def installed(package: Path, root: Path) -> Iterator[Trial]:
    """The trials on a package that is installed into an empty root, and removed again."""
    (root / "var/lib/dpkg/info").mkdir(parents=True)
    (root / "var/lib/dpkg/updates").mkdir()
    (root / "var/lib/dpkg/status").touch()
    forced = [f"--force-{it}" for it in ("not-root", "architecture", "bad-path")]
    dpkg = ["dpkg", f"--root={root}", "--log=/dev/null", *forced]
    ran = subprocess.run([*dpkg, "-i", package], capture_output=True, text=True)
    yield f"{package.name} is installed", 0, ran.returncode
    command = [str(root / "usr/bin/l6"), "run"]
    if "arm64" in package.name:
        command.insert(0, "qemu-aarch64-static")
    if shutil.which(command[0]):
        yield f"the program of {package.name}", PRINTED, answer_of(command, input=FIRST, preexec_fn=None)
    for name in ("share/man/man1/l6.1.gz", "share/doc/l6/copyright", "share/doc/l6/examples/first.deck",
                 "share/bash-completion/completions/l6", "share/zsh/vendor-completions/_l6"):
        yield f"{name} of {package.name}", True, (root / "usr" / name).is_file()
    there = (root / "usr/bin/l6").exists()
    ran = subprocess.run([*dpkg, "-P", "l6"], capture_output=True, text=True)
    left = [it for it in (root / "usr").rglob("*")] if (root / "usr").exists() else []
    yield f"{package.name} is removed", (True, 0, []), (there, ran.returncode, left)


def unpacked(archive: Path, folder: Path) -> Iterator[Trial]:
    """The trials on an archive that is unpacked."""
    folder.mkdir()
    subprocess.run(["tar", "-C", folder, "-xzf", archive], check=True)
    programs = [str(it) for it in folder.glob("*/bin/l6")]
    yield "programs of the archive", 1, len(programs)
    yield "the program of the archive", PRINTED, answer_of([*programs, "run"], input=FIRST)
    texts = {it.name for it in folder.glob("*/share/doc/l6/*")}
    yield "texts of the archive", set(), {"LICENSE-MIT", "LICENSE-APACHE", "THIRD-PARTY.md", "licenses"} - texts


def links() -> Iterator[Trial]:
    """What the pages at the top and beside the programs lead to is there, and is what a path in a link says."""
    pages = [*TOP.glob("*.md"), TOP / "dist/README.md", TOP / "ports/README.md"]
    for name in (str(page.relative_to(TOP)) for page in pages):
        targets = re.findall(r"\]\(([^)#:]+)(?:#[^)]*)?\)", text_of(name))
        missing = [it for it in targets if not (TOP / name).parent.joinpath(it).exists()]
        paths = re.findall(r"\[([\w.-]+/[\w./-]*)\]\(([^)#:]+)", text_of(name))
        missing += [path for path, target in paths if not f"{target}/".startswith(f"{path.rstrip('/')}/")]
        yield f"links of {name} that lead nowhere, or elsewhere than they say", [], missing
    named = set(re.findall(r"`([\w.-]+)`", "\n".join(line.rpartition("|")[0].rpartition("|")[0].rpartition("|")[0]
                                                     for line in text_of("dist/README.md").splitlines() if line.startswith("|"))))
    there = {it.name for it in (TOP / "dist").iterdir() if it.suffix != ".provenance" and it.name != "README.md"}
    yield "files of dist/ in its page", there, named - {"NAME.provenance"}


def trials(program: str, is_quick: bool) -> Iterator[Trial]:
    """All trials, each with the name of its group."""
    groups: dict[str, Callable[[], Iterator[Trial]]] = {
        "versions": lambda: versions(program), "citation": citation, "licences": licences, "links": links,
        "completions": completions, "packages": lambda: packages(is_quick),
    }
    for group in (it for it in groups if it in groups_asked_for(groups)):
        for name, expected, actual in groups[group]():
            yield f"{group}: {name}", expected, actual


def altered_file(name: str, old: str, new: str) -> Callable[[str], str]:
    """What stands in place of `text_of`: in one file a text is another one, and it must be there."""
    real = text_of

    def text_with(other: str) -> str:
        text = real(other)
        if other == name and old not in text:
            raise ValueError(f"{old} is not in {name}")
        return text.replace(old, new) if other == name else text

    return text_with


def canaries(program: str) -> Iterator[Trial]:
    """Of files in which something is wrong, or nothing is written, the trial of it fails; and of packages in which all is wrong, all."""
    for name, old, new, what in ALTERED:
        with mock.patch.object(sys.modules[__name__], "text_of", altered_file(name, old, new)):
            _, expected, actual = next(it for it in chain(versions(program), citation(), licences(), links()) if it[0] == what)
        yield f"{what}, where {name} is another one", expected, actual
    if shutil.which("dpkg-deb"):
        with tempfile.TemporaryDirectory() as folder:
            room = Path(folder)
            package, archive = wrong_package(room), wrong_archive(room)
            of_package = chain(times(room, [package.name]), control(package), in_package(package, "-static"), installed(package, room / "root"))
            of_archive = chain(times(room, [archive.name]), in_tar(archive, "-static"), unpacked(archive, room / "unpacked"))
            yield few_pass("a package in which all is wrong", 0, of_package)
            yield few_pass("an archive in which all is wrong", 0, of_archive)
    nothing = dict.fromkeys(COMPLETIONS, {"--no-such-option"})
    with mock.patch.dict(COMPLETIONS, nothing):
        yield first_wrong("completions of options that are not there", completions())


if __name__ == "__main__":
    if len(sys.argv) < 2 or sys.argv[2:] not in ([], ["--quick"]):
        sys.exit(__doc__)
    sys.exit(report(trials(sys.argv[1], sys.argv[2:] == ["--quick"]), canaries(sys.argv[1])))
