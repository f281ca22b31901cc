"""Rooms: small repositories in which a crate is checked apart from the others.

rt lets no two checks run side by side in crates that share one below them. In rooms they can, and
an edit there changes nothing else.
"""
from __future__ import annotations

import contextlib
import fcntl
import os
import shutil
import sys
import tempfile
import time
from collections.abc import Callable, Iterable, Iterator
from pathlib import Path

from crates import SOURCES, TOP, Crate, rows_of

LIBRARY = "out/rlib"  # what rt makes of a proved library
KEPT = "out/incremental"  # what a check keeps for the next one
PREFIX = "l6-room-"  # of the names of rooms
DAY = 86_400  # seconds


@contextlib.contextmanager
def room_of(crate: Crate) -> Iterator[Path]:
    """Makes a room of a crate and those below it, with what their checks kept; yields the crate's folder there.

    Nothing is written to the crates below, so their files are linked if the file system can do that.
    """
    # (a check that was killed may leave a process that still writes here; what remains is removed a day later)
    with tempfile.TemporaryDirectory(prefix=PREFIX, dir=place_of_rooms(), ignore_cleanup_errors=True) as room:
        Path(room, "crates.txt").write_text(rows_of((*crate.below, crate)), "utf-8")
        for library in crate.below:
            for part in (*SOURCES, LIBRARY):
                copy_folder(library.folder / part, Path(room, "crates", library.name, part), link)
        folder = Path(room, "crates", crate.name)
        with locked(crate.folder, fcntl.LOCK_SH):
            for part in (*SOURCES, KEPT):
                copy_folder(crate.folder / part, folder / part, shutil.copy2)
            copy_folder(crate.folder / LIBRARY, folder / LIBRARY, link)
        yield folder


def place_of_rooms() -> Path | None:
    """The folder for rooms: git's, which rt ignores, or that for temporary files.

    A room takes up to a gigabyte, and is best on the file system of the repository. Rooms that are
    a day old are removed, since the program that used them was killed.
    """
    git = TOP / ".git"
    if not git.is_dir():
        return None
    for room in git.glob(f"{PREFIX}*"):
        if time.time() - room.stat().st_mtime > DAY:
            shutil.rmtree(room, ignore_errors=True)
    return git


def bring_back(crate: Crate, folder: Path, parts: Iterable[str]) -> None:
    """Puts what a check in a room made, files or folders, in the place of those that the crate has."""
    (crate.folder / "out").mkdir(exist_ok=True)
    with locked(crate.folder, fcntl.LOCK_EX):
        for part in parts:
            new = crate.folder / f"{part}.new"
            remove(new)
            if (folder / part).exists():
                shutil.move(folder / part, new)
                remove(crate.folder / part)
                new.rename(crate.folder / part)


@contextlib.contextmanager
def locked(folder: Path, lock: int) -> Iterator[None]:
    """Takes the lock of a crate's folder, shared or alone; rt takes the same one, alone."""
    file = os.open(folder, os.O_RDONLY)
    try:
        try:
            fcntl.flock(file, lock | fcntl.LOCK_NB)
        except BlockingIOError:
            print(f"waiting for another check to finish in {folder}", file=sys.stderr, flush=True)
            fcntl.flock(file, lock)
        yield
    finally:
        os.close(file)


def copy_folder(source: Path, target: Path, copy: Callable[[str, str], object]) -> None:
    """Copies a folder, if it is there; not the links to nowhere by which editors lock files."""
    if source.is_dir():
        shutil.copytree(source, target, copy_function=copy, ignore_dangling_symlinks=True)


def link(source: str, target: str) -> None:
    """Links a file, or copies it if that fails."""
    try:
        os.link(source, target)
    except OSError:
        shutil.copy2(source, target)


def remove(path: Path) -> None:
    """Removes a file or a folder, if it is there."""
    if path.is_dir():
        shutil.rmtree(path)
    else:
        path.unlink(missing_ok=True)
