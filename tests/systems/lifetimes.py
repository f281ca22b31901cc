"""Trials of both libraries on what a store leaves behind, and on stores that are closed: in Rust and in Python."""
from __future__ import annotations

import os
import resource
import shutil
import subprocess
import sys
from collections.abc import Iterator
from pathlib import Path

sys.path.insert(0, str(Path(__file__).resolve().parents[1] / "harness"))
from trials import Trial

LIBRARY = Path(__file__).resolve().parents[2] / "library"
# A program with a heap of its own, which counts the blocks that are not given back.
COUNTED = """
use std::alloc::{alloc, Layout};
use std::sync::atomic::{AtomicIsize, Ordering};
use l6_offset::Offset;
use l6_store::Store;
static BLOCKS: AtomicIsize = AtomicIsize::new(0);
#[repr(C)]
struct Tried { ok: bool, at: *mut u8 }
#[no_mangle]
extern "C" fn rattle_alloc(size: usize, align: usize) -> Tried {
    BLOCKS.fetch_add(1, Ordering::SeqCst);
    Tried { ok: true, at: unsafe { alloc(Layout::from_size_align(size, align).unwrap()) } }
}
#[no_mangle]
extern "C" fn rattle_dealloc(_: *mut u8) {
    BLOCKS.fetch_sub(1, Ordering::SeqCst);
}
fn left() -> isize {
    BLOCKS.load(Ordering::SeqCst)
}
fn main() {
    let mut store = Store::new(1).unwrap();
    store.get(3).unwrap();
    print!("{} ", left());
    drop(store);
    print!("{} ", left());
    let mut places = Offset::new(8, 0, 256).unwrap();
    places.get(3).unwrap();
    print!("{} ", left());
    drop(places);
    println!("{}", left());
}
"""
# Each call of a closed store, with numbers for what it takes; prints the name of each that is answered otherwise.
CLOSED = """
import inspect
from {module} import {error} as Error, {kind} as Kind
store = Kind(1)
store.close()
calls = [name for name, _ in inspect.getmembers(Kind, inspect.isfunction) if not name.startswith("_")]
for name in calls:
    call = getattr(store, name)
    try:
        found = call(*[0] * len(inspect.signature(call).parameters))
        print(name, list(found) if hasattr(found, "__next__") else found)
    except Error as error:
        if error.fault.name != "IS_CLOSED":
            print(name, error)
print(len(calls), "calls")
"""
# Stores of 3 MB each that go out of use in three ways, one after another, in memory for some of them.
DROPPED = """
from {module} import {kind} as Kind
for _ in range(150):
    store = Kind({number})
    store.close()
    del store
    with Kind({number}) as other:
        other.get(0)
    Kind({number}).get(0)
print("done")
"""
ROOM = 200_000_000  # bytes of addresses for that
CALLS = {"l6_store": 15, "l6_offset": 12}  # methods of each class: the calls but open, and `list` or `blocks` for those that walk


def run(words: list[str | Path], **options: object) -> tuple[int, str]:
    """The status of a command, and what it prints."""
    ran = subprocess.run(words, capture_output=True, text=True, timeout=300, **options)  # type: ignore[call-overload]
    return ran.returncode, ran.stdout + ran.stderr


def in_rust(archives: Path, room: Path) -> Iterator[Trial]:
    """A store that is dropped gives all of its memory back."""
    if not shutil.which("cargo"):
        return
    (room / "src").mkdir(parents=True)
    (room / "src/main.rs").write_text(COUNTED, "ascii")
    (room / "Cargo.toml").write_text(
        '[package]\nname = "counted"\nversion = "1.0.0"\nedition = "2021"\n[dependencies]\n'
        f'l6_offset = {{ path = "{LIBRARY / "rust_offset"}" }}\n'
        f'l6_store = {{ path = "{LIBRARY / "rust"}", default-features = false }}\n', "ascii")
    known = {**os.environ, "L6_OFFSET_LIB": str(archives), "L6_STORE_LIB": str(archives)}
    actual = run(["cargo", "run", "--quiet", "--offline", "--target-dir", room / "target"], cwd=room, env=known)
    yield "blocks of open stores, and of stores that were dropped, in Rust", (0, "4 0 3 0\n"), actual


def in_python(archives: Path, room: Path) -> Iterator[Trial]:
    """All calls of a closed store are answered, and what goes out of use gives its memory back."""
    room.mkdir()
    yield "the shared objects", (0, ""), run([LIBRARY / "shared", room, archives])
    for module, error, kind, number in (("l6_store", "StoreError", "Store", 255), ("l6_offset", "OffsetError", "Offset", 20)):
        known = {**os.environ, f"{module.upper()}_SO": str(room / f"lib{module}.so"), "PYTHONPATH": str(LIBRARY / "python")}
        names = {"module": module, "error": error, "kind": kind, "number": number}
        actual = run([sys.executable, "-B", "-c", CLOSED.format(**names)], env=known)
        yield f"calls of a closed store of {module}", (0, f"{CALLS[module]} calls\n"), actual
        limit = lambda: resource.setrlimit(resource.RLIMIT_AS, (ROOM, ROOM))  # noqa: E731
        actual = run([sys.executable, "-B", "-c", DROPPED.format(**names)], env=known, preexec_fn=limit)
        yield f"stores of {module} that go out of use", (0, "done\n"), actual


def trials(archives: Path, room: Path) -> Iterator[Trial]:
    """All of them, with the archives of both libraries."""
    yield from in_rust(archives, room / "counted")
    yield from in_python(archives, room / "shared")
