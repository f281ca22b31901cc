"""What packages and archives have, file by file, by the list of tools/shipped: its bytes, its mode, and nothing else."""
from __future__ import annotations

import gzip
import io
import re
import subprocess
import tarfile
from collections.abc import Iterator
from pathlib import Path

from trials import Trial

TOP = Path(__file__).resolve().parents[2]
DEBIAN_HAS = ("share/doc/l6/LICENSE-APACHE", "share/doc/l6/LICENSE-MIT", "share/doc/l6/licenses/Apache-2.0.txt")
OF_DEBIAN = ("share/doc/l6/copyright", "share/doc/l6/changelog.gz", "share/lintian/overrides/l6")  # and of no list
# Names that files have where they are installed, and not here.
RENAMED = {"completions/l6.bash": "l6", "completions/l6db.bash": "l6db", "completions/l6ed.bash": "l6ed", "terminal/l6db.sh": "l6db"}
CONTROL = {
    "Package": "l6", "Maintainer": "The L6 contributors <l6@example.org>", "Section": "devel", "Priority": "optional",
    "Description": "proved Low-Level Linked List Language (Knowlton, 1966)",
}
File = tuple[bytes, int]  # its bytes, and its mode


def rows() -> list[list[str]]:
    """The lines of the list: a program, a mode, a place and the files here."""
    lines = (TOP / "tools/shipped").read_text("utf-8").splitlines()
    return [line.split() for line in lines if line[:1] not in ("#", "")]


def source_of(of: str, place: str, form: str) -> Path:
    """The program or the archive in dist/ that a line ships with the programs of a form, as `-static`."""
    if of == "lib":
        name = place.rpartition("/lib")[2].removesuffix(".a")
        return TOP / f"dist/{name}{'' if form == '-static' else form}.a"
    return TOP / f"dist/{of}{form}"


def expected(form: str) -> dict[str, File]:
    """What is installed under a prefix with the programs of a form."""
    found: dict[str, File] = {}
    for of, mode, place, pattern in rows():
        files = [source_of(of, place, form)] if pattern in ("PROGRAM", "ARCHIVE") else sorted(TOP.glob(pattern))
        for file in files:
            target = f"{place}{file.name}" if place.endswith("/") else place
            found[target] = file.read_bytes(), int(mode, 8)
    return found


def for_debian(files: dict[str, File]) -> dict[str, File]:
    """The same as Debian has it: pages are packed, zsh has another folder, and licences that each system has are left out."""
    there = {name.replace("zsh/site-functions", "zsh/vendor-completions"): it for name, it in files.items() if name not in DEBIAN_HAS}
    return {f"{name}.gz" if "/man/" in name else name: it for name, it in there.items()}


def in_archive(opened: tarfile.TarFile, root: str) -> dict[str, File]:
    """The files of an archive below a root; pages that are packed are unpacked."""
    found: dict[str, File] = {}
    for it in opened:
        stream = opened.extractfile(it) if it.isfile() else None
        if stream:
            text, name = stream.read(), it.name.removeprefix("./").removeprefix(root)
            found[name] = gzip.decompress(text) if name.endswith(".1.gz") else text, it.mode
    return found


def misnamed(listed: list[list[str]]) -> list[str]:
    """The places of a list where a file has not its own name, nor the one by which a shell finds it, nor that of its program."""
    found = []
    for of, _, place, pattern in listed:
        name = RENAMED.get(pattern, of if pattern == "PROGRAM" else Path(pattern).name)
        is_right = place.endswith(".a") if pattern == "ARCHIVE" else Path(place).name == name
        found += [] if is_right or place.endswith("/") else [place]
    return found


def names_of_shipped() -> Iterator[Trial]:
    """Each file has its name where it is installed; and of a list that gives each another name, each is seen."""
    yield "files that are installed by other names", [], misnamed(rows())
    others = [[of, mode, f"{place}s", pattern] for of, mode, place, pattern in rows() if not place.endswith("/")]
    yield "other names that are seen", [place for _, _, place, _ in others], misnamed(others)


def differing(known: dict[str, File], found: dict[str, File]) -> list[str]:
    """The names of files that are not there, that are there and not known, or that have other bytes or another mode."""
    return sorted(name for name in known.keys() | found.keys() if known.get(name) != found.get(name))


def differences_seen() -> Iterator[Trial]:
    """Of two lists of files each difference is seen."""
    one: dict[str, File] = {"a": (b"text", 0o644)}
    others: dict[str, tuple[dict[str, File], list[str]]] = {
        "the same": ({"a": (b"text", 0o644)}, []), "no file": ({}, ["a"]), "another text": ({"a": (b"texts", 0o644)}, ["a"]),
        "another mode": ({"a": (b"text", 0o755)}, ["a"]), "one file more": ({**one, "b": (b"", 0o644)}, ["b"]),
    }
    for what, (found, expected_names) in others.items():
        yield f"what differs where there is {what}", expected_names, differing(one, found)


def in_package(package: Path, form: str) -> Iterator[Trial]:
    """The files of one of Debian's packages, and the fields of its control file."""
    parts = [subprocess.run(["dpkg-deb", kind, package], capture_output=True, check=True).stdout
             for kind in ("--fsys-tarfile", "--ctrl-tarfile")]
    with tarfile.open(fileobj=io.BytesIO(parts[0])) as opened:
        found = in_archive(opened, "usr/")
    yield f"what only Debian has in {package.name}", sorted(OF_DEBIAN), sorted(set(OF_DEBIAN) & found.keys())
    own = {name: it for name, it in found.items() if name not in OF_DEBIAN}
    yield f"files of {package.name} that are not as they are shipped", [], differing(for_debian(expected(form)), own)
    yield f"the modes of Debian's files in {package.name}", {0o644}, {found[name][1] for name in OF_DEBIAN if name in found}
    with tarfile.open(fileobj=io.BytesIO(parts[1])) as opened:
        said = in_archive(opened, "")["control"][0].decode()
    fields = dict(re.findall(r"^([A-Z][\w-]+): (.*)$", said, re.MULTILINE))
    others = {"Version", "Architecture", "Installed-Size"}  # (which control() of release.py compares)
    yield f"the fields of {package.name}", CONTROL, {name: it for name, it in fields.items() if name not in others}


def in_tar(archive: Path, form: str) -> Iterator[Trial]:
    """The files of an archive."""
    root = f"{archive.name.removesuffix('.tar.gz').rpartition('-')[0]}/"
    with tarfile.open(archive) as opened:
        outside = [it.name for it in opened if not f"{it.name}/".startswith(root)]
        found = in_archive(opened, root)
    yield f"what {archive.name} has outside of {root}", [], outside
    yield f"files of {archive.name} that are not as they are shipped", [], differing(expected(form), found)


def packed(folder: Path, names: list[str]) -> Iterator[Trial]:
    """The files of all packages and archives in a folder."""
    yield from names_of_shipped()
    yield from differences_seen()
    for name in names:
        form = "-aarch64" if "aarch64" in name or "arm64" in name else "-static"
        yield from (in_package if name.endswith(".deb") else in_tar)(folder / name, form)
