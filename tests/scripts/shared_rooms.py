"""Trials of tools/crates.py, tools/rooms.py and tools/lanes.py: which files and crates count, what is copied, and what is lent."""
from __future__ import annotations

import contextlib
import fcntl
import io
import os
import shutil
import threading
from collections.abc import Iterator
from pathlib import Path
from tempfile import TemporaryDirectory
from unittest import mock

import crates
import lanes
import rooms
from trials import Trial

LISTED = "# crates\nword:  # the first\nprog: word kit_text\n\nword_c staticlib: word\nl6: prog word_c_too\n"
SOURCES = {"src/lib.rt": True, "specs/a/Lib.antt": True, "src/lib.rt~": False, "src/.lib.rt": False, "src/.kept/lib.rt": False, "src/read.me": False}
WAITING = "waiting for another check to finish in {}\n"


def listed_crates() -> Iterator[Trial]:
    """The crates of a list, each with those below it, and which is a static library; and the files that count."""
    with TemporaryDirectory(prefix="l6-crates-") as folder, mock.patch.object(crates, "TOP", Path(folder)):
        Path(folder, "crates.txt").write_text(LISTED, "ascii")
        known = crates.read_crates()
        yield "crates and those below them", {"word": [], "prog": ["word"], "word_c": ["word"], "l6": ["word", "prog"]}, {
            name: [it.name for it in crate.below] for name, crate in known.items()}
        yield "static libraries", ["word_c"], [name for name, crate in known.items() if crate.is_static]
        yield "the lines of two crates", "word:\nprog: word kit_text\n", crates.rows_of((known["prog"], known["word"]))
    yield "files that the prover reads", SOURCES, {name: crates.is_source(Path(name)) for name in SOURCES}


def copies() -> Iterator[Trial]:
    """What is copied into a room is linked where that can be; a link to nowhere, by which an editor locks a file, is left out."""
    with TemporaryDirectory(prefix="l6-rooms-") as folder:
        source = Path(folder, "source")
        source.mkdir()
        (source / "lib.rt").write_text("text\n", "ascii")
        (source / ".#lib.rt").symlink_to("nobody@nowhere")
        for what, linking in (("that can be linked", os.link), ("that can't be linked", mock.Mock(side_effect=OSError))):
            target = Path(folder, what)
            with mock.patch.object(os, "link", linking):
                rooms.copy_folder(source, target, rooms.link)
            made = {it.name: (it.read_text("ascii"), it.stat().st_nlink > 1) for it in target.iterdir()}
            yield f"a folder {what}", {"lib.rt": ("text\n", linking is os.link)}, made
            shutil.rmtree(target)
        rooms.copy_folder(Path(folder, "none"), Path(folder, "copy"), shutil.copy2)
        yield "a folder that is not there", ["source"], [it.name for it in Path(folder).iterdir()]


def locks() -> Iterator[Trial]:
    """Two may read what a crate's check kept at once; who puts something there is alone, and who waits says so."""
    for first, second, waits in ((fcntl.LOCK_SH, fcntl.LOCK_SH, False), (fcntl.LOCK_SH, fcntl.LOCK_EX, True), (fcntl.LOCK_EX, fcntl.LOCK_SH, True)):
        with TemporaryDirectory(prefix="l6-rooms-") as folder, contextlib.redirect_stderr(io.StringIO()) as said:
            ended = threading.Event()

            def take(folder: str = folder, lock: int = second, ended: threading.Event = ended) -> None:
                with rooms.locked(Path(folder), lock):
                    ended.set()

            other = threading.Thread(target=take)
            with rooms.locked(Path(folder), first):
                other.start()
                went_on = ended.wait(0.5 if waits else 20)
            other.join(20)
        yield f"locks {first} and {second}", (not waits, True, WAITING.format(folder) if waits else ""), (went_on, ended.is_set(), said.getvalue())
    kinds: list[int] = []

    @contextlib.contextmanager
    def noted(_folder: Path, lock: int) -> Iterator[None]:
        kinds.append(lock)
        yield

    with TemporaryDirectory(prefix="l6-rooms-") as top, mock.patch.multiple(rooms, locked=noted, rows_of=lambda _: "", place_of_rooms=lambda: top), \
            mock.patch.object(crates, "TOP", Path(top)):
        crate = crates.Crate("word", ())
        (crate.folder / "out/incremental").mkdir(parents=True)
        (crate.folder / "out/incremental/old").touch()
        with rooms.room_of(crate) as room:
            (room / "out/incremental/old").rename(room / "out/incremental/new")
            rooms.bring_back(crate, room, ["out/incremental", "out/nothing"])
        kept = sorted(str(it.relative_to(crate.folder)) for it in crate.folder.rglob("*"))
        yield "what a room is made of and what is put back", ([fcntl.LOCK_SH, fcntl.LOCK_EX], ["out", "out/incremental", "out/incremental/new"]), (kinds, kept)
        yield "rooms that are left", ["crates"], [it.name for it in Path(top).iterdir()]


def limits() -> Iterator[Trial]:
    """What a control group allows: of less than a processor one is used, and of less memory than is held nothing is free."""
    with TemporaryDirectory(prefix="l6-lanes-") as folder:
        files = {name: Path(folder, name) for name in ("QUOTA", "LIMIT", "HELD")}
        with mock.patch.multiple(lanes, QUOTA=files["QUOTA"], LIMIT=files["LIMIT"], HELD=files["HELD"]), mock.patch.object(os, "sched_getaffinity", lambda _: {0, 1, 2}):
            for quota, count in (("50000 100000", 1), ("200000 100000", 2), ("900000 100000", 3), ("max 100000", 3)):
                files["QUOTA"].write_text(quota, "ascii")
                yield f"processors by the quota {quota}", count, lanes.processors()
            for limit, held, free in (("5000000", 2_000_000, 3_000_000), ("1000", 2_000_000, 0)):
                files["LIMIT"].write_text(limit, "ascii")
                files["HELD"].write_text(f"anon {held}\n", "ascii")
                yield f"memory by the limit {limit}", free, lanes.free_memory()


def lent() -> Iterator[Trial]:
    """Memory is lent, and lent again once it is given back; who needs more than there is runs alone."""
    order: list[str] = []
    with mock.patch.object(lanes, "usable_memory", lambda: 100):
        one = lanes.Lanes(3)

    def take(name: str, memory: int) -> None:
        with one.lane(memory, 1):
            order.append(f"{name} begins")
            order.append(f"{name} ends")

    for name, memory in (("first", 60), ("second", 60), ("large", lanes.ALL_MEMORY)):
        alone = threading.Thread(target=take, args=(name, memory), daemon=True)
        alone.start()
        alone.join(5)
    yield "lanes that are lent one after another", [f"{name} {what}" for name in ("first", "second", "large") for what in ("begins", "ends")], order
    with one.lane(60, 1):
        beside, small = (threading.Thread(target=take, args=pair, daemon=True) for pair in (("beside", 41), ("small", 40)))
        small.start()
        small.join(5)
        beside.start()
        beside.join(0.5)
        order.append("given back")
    beside.join(5)
    yield "lanes for which memory is there, and is not", ["small begins", "small ends", "given back", "beside begins", "beside ends"], order[6:]


def shared_rooms() -> Iterator[Trial]:
    """All of them."""
    yield from listed_crates()
    yield from copies()
    yield from locks()
    yield from limits()
    yield from lent()
