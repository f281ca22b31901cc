"""What pages say of archives, heaps, modules of Python, crates and shared objects: they are looked at, loaded and called."""
from __future__ import annotations

import ctypes
import functools
import importlib.util
import os
import re
import shutil
import subprocess
import sys
import tempfile
from collections.abc import Callable, Iterator
from pathlib import Path
from types import ModuleType

from page_tables import TOP, text_of
from store_room import Struct, archive_of, both_libraries
from told import either, told
from trials import Trial

LIBRARY, PLACES, CHANGES = "docs/library.md", "docs/places.md", "CHANGELOG.md"
HEADERS = ("library/l6_store.h", "library/l6_offset.h")
MODULES = ("library/python/l6_store.py", "library/python/l6_offset.py")
CRATES = ("library/rust/src/lib.rs", "library/rust_offset/src/lib.rs")
ARRAY, HEAP = "library/array_heap.c", "library/heap.c"
CANARIES = (
    (LIBRARY, "The library needs nothing else but `memset`", "The library needs nothing else but `malloc`"),
    (LIBRARY, "Only\nthe calls are exported", "Not\nthe calls are exported"),
    (ARRAY, "a store of 8 units that is opened once", "a store of 8 units that is opened often"),
    (PLACES, "`blocks` goes through all blocks", "`blocks` goes through no blocks"),
    (CRATES[0], "and may be sent to another", "and must not be sent to another"),
)


class Tried(ctypes.Structure):
    """What a heap answers."""

    _fields_ = [("ok", ctypes.c_bool), ("at", ctypes.c_void_p)]


@functools.cache
def room() -> tempfile.TemporaryDirectory[str]:
    """A folder for what is made, which is removed when the process ends."""
    return tempfile.TemporaryDirectory(prefix="l6-wrappers-")


@functools.cache
def shared_objects() -> Path:
    """The folder in which `library/shared` has put the shared objects."""
    subprocess.run([TOP / "library/shared", room().name], check=True, capture_output=True)
    return Path(room().name)


@functools.cache
def module_of(name: str) -> ModuleType:
    """A module of library/python, over the shared object beside it."""
    folder = shared_objects()
    copied = folder / f"{name}.py"
    shutil.copy(TOP / f"library/python/{name}.py", copied)
    made = importlib.util.spec_from_file_location(f"l6_trial_{name}", copied)
    assert made and made.loader
    module = importlib.util.module_from_spec(made)
    sys.modules[made.name] = module  # (where the classes of data look for it)
    made.loader.exec_module(module)
    return module


def archives() -> Iterator[Trial]:
    """What archives need, and what they have not."""
    has = {name: [name.encode() in archive_of(it).read_bytes() for it in ("l6_store", "l6_offset")] for name in (".eh_frame", "_array", ".tdata", ".tbss")}
    none = {name: either(not any(found), "no", "some") for name, found in has.items()}
    yield told(LIBRARY, r"It has (\w+) tables for unwinding \(\.eh_frame\), (\w+) constructors and (\w+) data of threads", none[".eh_frame"], none["_array"], either(
        none[".tdata"] == none[".tbss"] == "no", "no", "some"))
    for page in HEADERS:
        yield told(page, r"No call unwinds, and none is unwound through: the archive has (\w+) \.eh_frame", none[".eh_frame"])
    if not shutil.which("nm"):
        print("skipped: what archives need: nm is missing")
        return
    needs = {*re.findall(r" U (\w+)", subprocess.run(["nm", "-u", archive_of("l6_store")], capture_output=True, text=True).stdout)}
    yield told(LIBRARY, r"The library needs nothing else but (\w+)\.", " and ".join(sorted(needs - {"rattle_alloc", "rattle_dealloc"})))
    seen = [subprocess.run(["nm", "-D", "--defined-only", shared_objects() / f"lib{it}.so.1"], capture_output=True, text=True).stdout for it in ("l6_store", "l6_offset")]
    names = [line.split()[-1] for text in seen for line in text.splitlines()]
    calls = [name for page in HEADERS for name in re.findall(r"\bint64_t (\w+)\(", text_of(page))]
    yield told(LIBRARY, r"(\w+) the calls are (\w+): a version script keeps the two functions of the heap out of (\w+),", either(
        sorted(names) == sorted(calls), "Only", "Not"), "exported", either("rattle_alloc" not in names, "sight", "order"))
    links = os.readlink(shared_objects() / "libl6_store.so")
    yield told(LIBRARY, r"a SONAME that ends in (\S+), and a (\w+) to it\.", links[links.index(".so"):], "link")


def made_with(heap: str) -> ctypes.CDLL:
    """Both libraries with a heap of library/."""
    made = Path(room().name, f"{Path(heap).stem}.so")
    if not made.exists():
        subprocess.run(["cc", "-O1", "-shared", "-fPIC", TOP / heap, "-Wl,--whole-archive", archive_of("l6_store"), archive_of("l6_offset"),
                        "-Wl,--no-whole-archive", "-o", made], check=True, capture_output=True)
    return ctypes.CDLL(str(made))


def opened(library: ctypes.CDLL, name: str, *numbers: int) -> int:
    """What opening a store answers."""
    call = getattr(library, f"{name}_open")
    call.restype = ctypes.c_int64
    struct = Struct()
    return int(call(ctypes.byref(struct), *(ctypes.c_uint32(it) for it in numbers)))


@functools.cache
def of_the_array() -> tuple[list[int], list[int]]:
    """What opening stores answers over the array: one of 8 units twice, and afresh stores of places, too large and twice."""
    first = made_with(ARRAY)
    again = Path(room().name, "again.so")
    shutil.copy(Path(room().name, "array_heap.so"), again)
    fresh = ctypes.CDLL(str(again))
    return [opened(first, "l6_store", 8) for _ in range(2)], [opened(fresh, "l6_offset", top, 0, 1 << top) for top in (16, 15, 15)]


def heaps() -> Iterator[Trial]:
    """What the heaps of library/ answer."""
    by_malloc = made_with(HEAP)
    by_malloc.rattle_alloc.restype, by_malloc.rattle_alloc.argtypes = Tried, [ctypes.c_size_t, ctypes.c_size_t]
    none, some = by_malloc.rattle_alloc(1 << 62, 16), by_malloc.rattle_alloc(64, 16)
    answers = (none.ok, bool(none.at), some.ok, (some.at or 1) % 16) == (False, True, True, 0)
    yield told(LIBRARY, r"If it has (\w+) memory, it answers (\w+) and any pointer that is (\w+) null", *(("no", "false", "not") if answers else ("", "", "")))
    yield told(HEAP, r"aligned to 16 bytes\. If there is (\w+): (\w+), and any pointer that is (\w+) null", *(("none", "false", "not") if answers else ("", "", "")))
    times, tops = of_the_array()
    yield told(ARRAY, r"an array, for a store of (\d) units that is opened (\w+)\.", "8", either(times == [0, -4], "once", "often"))
    yield told(PLACES, r"As it stands, that array serves (\w+) store of a top of (\d+), opened (\w+);", *(
        ("one", "15", "once") if tops == [-4, 0, -4] else (str(tops), "", "")))


def in_python() -> Iterator[Trial]:
    """What the modules raise, keep and walk through."""
    store, offset = (module_of(it) for it in ("l6_store", "l6_offset"))
    raised: list[tuple[str, object]] = []
    calls: list[Callable[[], object]] = [lambda: store.Store(0), lambda: store.level_for(1 << 32), lambda: offset.Offset(25)]
    for call in calls:
        try:
            call()
            raised.append(("", None))
        except Exception as error:
            raised.append((type(error).__name__, getattr(error, "fault", None)))
    yield told(LIBRARY, r"A fault is raised as (\w+), and a number that does (\w+) fit as (\w+)\.", raised[0][0], "not", raised[1][0])
    with offset.Offset(4) as memory:
        memory.reserve(1, 8)
        memory.get(0)
        walked = list(memory.blocks()) == [(0, 0), (8, 1)]
    yield told(PLACES, r"A fault is raised as (\w+), whose (\w+) says which; (\w+) goes through (\w+) blocks", raised[2][0], either(
        raised[2][1] is not None, "fault", "text"), "blocks", either(walked, "all", "no"))
    keeps = either(all(isinstance(it._library, ctypes.PyDLL) for it in (store, offset)), "keep", "give up")
    for page, pattern in ((LIBRARY, r"Calls (\w+) the interpreter's lock, so several threads (\w+) use one store"),
                          (PLACES, r"Its calls (\w+) the interpreter's lock, so several threads (\w+) use one store")):
        yield told(page, pattern, keeps, either(keeps == "keep", "may", "must"))
    for page in MODULES:
        yield told(page, r"A call (\w+) the interpreter's lock \(PyDLL\), so threads", f"{keeps}s")
        yield told(page, r'"""Closes it, if it is (\w+)\."""', either(closed_again(module_of(Path(page).stem)), "open", "closed"))
    found = "L6_STORE_SO" not in os.environ and store._library._name == str(shared_objects() / "libl6_store.so")
    yield told(LIBRARY, r"The module finds it (\w+) itself, or where the variable (\w+) says", either(found, "beside", "below"), "".join(
        re.findall(r'os\.environ\.get\("(\w+)"', text_of(MODULES[0]))))
    yield told(CHANGES, r"Both libraries say their (\w+), take (\w+) where a call only looks", either(
        store.version() == offset.version() == "1.1.0" in text_of(HEADERS[0]), "version", "name"), "const")


def closed_again(module: ModuleType) -> bool:
    """Whether a store of a module that was closed may be let go of once more."""
    made = module.Store(1) if hasattr(module, "Store") else module.Offset(4)
    made.close()
    made.__exit__()
    try:
        made.reset()
    except Exception:
        return True
    return False


def in_rust() -> Iterator[Trial]:
    """What the crates' sources have for their users."""
    for page, name, pages in ((CRATES[0], "Store", LIBRARY), (CRATES[1], "Offset", PLACES)):
        source = text_of(page)
        closes = re.search(rf"impl Drop for {name} \{{\s*fn drop\(&mut self\) \{{\s*unsafe \{{ l6_{name.lower()}_close\(", source)
        sent = re.search(rf"^unsafe impl Send for {name} \{{\}}$", source, re.MULTILINE)
        pattern = {LIBRARY: r"A Store (\w+) itself, and (\w+) be sent to another thread", PLACES: r"it (\w+) itself, and (\w+) be sent to another thread"}[pages]
        yield told(pages, pattern, either(bool(closes), "closes", "keeps"), either(bool(sent), "may", "must"))
        if name == "Store":
            yield told(page, r"It is open as long as it (\w+), and (\w+) be sent to another thread", either(bool(closes), "lives", "stands"), either(bool(sent), "may", "must"))
        else:
            yield told(page, r"It is open as long as it (\w+)\.", either(bool(closes), "lives", "stands"))
        version = re.findall(r"version = \"([\d.]+)\"", text_of(page.replace("src/lib.rs", "Cargo.toml")))
        yield f"the version of the crate {page}", re.findall(r'_VERSION "([\d.]+)"', text_of(HEADERS[name == "Offset"])), version
    source = text_of(CRATES[0])
    with_std = re.findall(r'#\[cfg\(feature = "(\w+)"\)\]\s*pub fn (\w+)', source)
    yield told(LIBRARY, r"Then (\w+) lists the free pieces of a level one by one; (\w+), which collects them, needs (\w+)\.", "free_pieces", *(
        (with_std[0][1], with_std[0][0]) if len(with_std) == 1 and "pub fn free_pieces" in source else (str(with_std), "")))
    default = 'default = ["std"]' in text_of("library/rust/Cargo.toml")
    yield told(LIBRARY, r"With default-features = (\w+) the crate needs no std, and the (\w+) has the heap", either(default, "false", "true"), "program")
    heap = re.findall(r"^(\w+)=.*heap\.c$", text_of("library/l6_store.pc"), re.MULTILINE)
    yield told(LIBRARY, r"--variable=(\w+) is the file with the heap", *heap)


def wrapper_sentences(_: str) -> Iterator[Trial]:
    """All of them."""
    yield from in_rust()
    if not both_libraries():
        print("skipped: the words of pages on archives and modules: there is no compiler")
        return
    for group in (archives, heaps, in_python):
        yield from group()
