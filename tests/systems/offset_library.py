"""Trials of the library of places, l6_offset.a with library/, from C, C++, Rust and Python."""
from __future__ import annotations

import os
import random
import re
import shutil
import subprocess
import sys
from collections.abc import Iterator
from pathlib import Path

sys.path[:0] = [str(Path(__file__).resolve().parents[1] / it) for it in ("harness", "program")]
from model.judge import Judge
from trials import Trial

TOP = Path(__file__).resolve().parents[2]
LIBRARY = TOP / "library"
CRATE = TOP / "crates/l6_offset_c"
WARNINGS = ["-O2", "-Wall", "-Wextra", "-Werror"]
# By hand: 4,096 pieces of 256 bytes are reserved, and the buffers take 2,048, 256 and 65,536.
GPU = (
    "vertices at 1048576, indices at 1572864, texture at 16777216\nfreed again: -6\n"
    "0: 1048576 bytes\n1048576: 524288 bytes\n16777216: 16777216 bytes\n"
    "free 48758784 bytes, the largest buffer 33554432\n"
)
# Both libraries in one program, with one heap, which counts the bytes that a store of places asks for.
BOTH = r"""
#include <stdbool.h>
#include <stddef.h>
#include <stdio.h>
#include <stdlib.h>
#include "l6_offset.h"
#include "l6_store.h"
struct tried { bool ok; void *at; };
static uint64_t asked;
struct tried rattle_alloc(size_t size, size_t align) {
    asked += size;
    void *at = malloc(size != 0 ? size : align);
    return (struct tried){at != NULL, at};
}
void rattle_dealloc(void *at) { free(at); }
int main(void) {
    for (uint32_t top = 0; top <= L6_OFFSET_MOST_TOP; top += 4) {
        l6_offset places = L6_OFFSET_CLOSED;
        asked = 0;
        if (l6_offset_open(&places, top, 0, UINT32_C(1) << top) != 0 || asked > L6_OFFSET_BYTES(top))
            return 1;
        uint64_t open = asked;
        if (l6_offset_get(&places, 0) != 0 || l6_offset_reset(&places) != 0 || asked != open)
            return 2;
        l6_offset_close(&places);
    }
    l6_store store = L6_STORE_CLOSED;
    int opened = (int)l6_store_open(&store, 1);
    printf("%d %d\n", opened, (int)l6_store_get(&store, 0));
    return l6_store_close(&store) != 0;
}
"""
# By hand: blocks have 0 and 1, and 8 to 11, of 16 places; and then 2 and 3, too, for a moment.
PIECES = r"""
#include <inttypes.h>
#include <stdio.h>
#include "l6_offset.h"
/* Prints each block and each free piece, places rising; it only looks. */
static void report(const l6_offset *store, uint32_t end) {
    for (uint32_t place = 0; place < end;) {
        int64_t block = l6_offset_level(store, place), piece = l6_offset_piece(store, place);
        printf("%" PRIu32 "%s%" PRId64 " ", place, block >= 0 ? "b" : "f", block >= 0 ? block : piece);
        place += UINT32_C(1) << (block >= 0 ? block : piece);
    }
    printf("most %" PRId64 "\n", l6_offset_most(store));
}
int main(void) {
    l6_offset store = L6_OFFSET_CLOSED;
    if (l6_offset_version() != L6_OFFSET_VERSION_NUMBER || l6_offset_open(&store, 4, 0, 16) != 0)
        return 1;
    l6_offset_get(&store, 1);
    l6_offset_reserve(&store, 2, 8);
    l6_offset_free(&store, (uint32_t)l6_offset_get(&store, 1));
    report(&store, 16);
    l6_offset_reset(&store);
    report(&store, 16);
    return l6_offset_close(&store) != 0;
}
"""
# In the memory of array_heap.c, which has room for one store of 2^15 places by L6_OFFSET_BYTES, and for none of 2^16.
IN_ARRAY = r"""
#include <stdio.h>
#include "l6_offset.h"
#include "l6_store.h"
static int64_t units_of(const l6_store *store) { return l6_store_units(store); }
int main(void) {
    l6_offset places = L6_OFFSET_CLOSED;
    l6_store store = L6_STORE_CLOSED;
    printf("%d ", (int)l6_offset_open(&places, 16, 0, 1 << 16));
    printf("%d ", (int)l6_offset_get(&places, 0));
    printf("%d ", (int)l6_offset_open(&places, 15, 0, 1 << 15));
    printf("%d ", (int)l6_offset_get(&places, 14));
    printf("%d ", (int)l6_offset_get(&places, 14));
    printf("%d ", (int)l6_offset_get(&places, 0));
    printf("%d\n", (int)l6_offset_close(&places));
    return l6_store_version() != L6_STORE_VERSION_NUMBER || units_of(&store) != L6_STORE_IS_CLOSED;
}
"""
# Four threads that use one store, by a module in Python.
THREADS_OF = """
import threading
import {module}
store = {module}.{opened}
def work(level):
    for _ in range({rounds}):
        store.free(store.get(level))
threads = [threading.Thread(target=work, args=(level,)) for level in range(4)]
for thread in threads: thread.start()
for thread in threads: thread.join()
print(store.{free}(), store.largest())
"""
THREADS = THREADS_OF.format(module="l6_offset", opened="Offset(12)", rounds=3000, free="free_places")
RUST = """
use l6_offset::{level_for, Fault, Offset};
use l6_store as _; // the heap
fn main() -> Result<(), Fault> {
    let mut places = Offset::new(10, 0, 1 << 10)?;
    places.reserve(4, 0)?;
    let place = std::thread::spawn(move || places.get(level_for(5).unwrap_or(0))).join().expect("a thread")?;
    println!("{place}");
    Ok(())
}
"""


def run(words: list[str | Path], **options: object) -> tuple[int, str]:
    """The status of a command, and what it prints."""
    ran = subprocess.run(words, capture_output=True, text=True, timeout=300, **options)  # type: ignore[call-overload]
    return ran.returncode, ran.stdout + ran.stderr


def numbers() -> Iterator[Trial]:
    """The faults have the same numbers in the source, the header, the crate and the module, and so do the calls."""
    source = re.findall(r"CallFault::(\w+) => (-\d+)", (CRATE / "src/fault.rt").read_text("utf-8"))
    names = {"Closed": "IS_CLOSED", "Open": "IS_OPEN"}
    expected = {int(at): names.get(name, re.sub(r"(?<!^)([A-Z])", r"_\1", name).upper()) for name, at in source}
    header = (LIBRARY / "l6_offset.h").read_text("ascii")
    module = (LIBRARY / "python/l6_offset.py").read_text("ascii")
    crate = (LIBRARY / "rust_offset/src/lib.rs").read_text("ascii")
    found = re.findall(r"L6_OFFSET_(\w+) = (-\d+)", header)
    yield "faults of l6_offset.h", expected, {int(at): name for name, at in found}
    found = re.findall(r"^    ([A-Z_]+) = (-\d+)$", module, re.MULTILINE)
    yield "faults of l6_offset.py", expected, {int(at): name for name, at in found}
    plain = {at: name.replace("_", "") for at, name in expected.items() if at < -2}
    found = re.findall(r"(-\d+) => Fault::(\w+)", crate)
    yield "faults of the crate l6_offset", plain, {int(at): name.upper() for at, name in found}
    exports = sorted(re.findall(r'extern "C" fn (l6_offset_\w+)', (CRATE / "src/exports.rt").read_text("utf-8")))
    for name, text in (("l6_offset.h", header), ("rust_offset/src/lib.rs", crate)):
        yield f"the calls of {name}", exports, sorted(set(re.findall(r"\b(l6_offset_\w+)\(", text)))
    table = module.partition("_CALLS = {")[2].partition("}")[0]
    calls = [*re.findall(r'"(\w+)": \d', table), "level_for", "version"]
    yield "the calls of l6_offset.py", exports, sorted(f"l6_offset_{name}" for name in calls)


def variables_of_builds() -> Iterator[Trial]:
    """Cargo makes a crate again where a variable that its build.rs reads is another one, and for no other. Its own it knows."""
    for crate in ("rust", "rust_offset"):
        text = (LIBRARY / crate / "build.rs").read_text("utf-8")
        read = {it for it in re.findall(r'\bof\("(\w+)"\)', text) if not it.startswith("CARGO_")} - {"HOST", "TARGET"}
        yield f"the variables of {crate}/build.rs", (1, read), (len(read), set(re.findall(r"cargo:rerun-if-env-changed=(\w+)", text)))


def in_c(archive: Path, store: Path, room: Path) -> Iterator[Trial]:
    """Programs in C and C++."""
    program, heap = room / "gpu", LIBRARY / "heap.c"
    made = run(["cc", "-std=c11", *WARNINGS, f"-I{LIBRARY}", LIBRARY / "gpu.c", heap, archive, "-o", program])
    yield "gpu.c compiles", (0, ""), made
    yield "gpu.c", (0, GPU), run([program])
    source = room / "both.c"
    source.write_text(BOTH, "ascii")
    made = run(["cc", "-std=c11", *WARNINGS, f"-I{LIBRARY}", source, archive, store, "-o", program])
    yield "both libraries in one program", (0, ""), made
    yield "the bytes of L6_OFFSET_BYTES serve, and no call but open asks for more", (0, "0 1024\n"), run([program])
    source = room / "pieces.c"
    source.write_text(PIECES, "ascii")
    made = run(["cc", "-std=c11", *WARNINGS, "-Wcast-qual", f"-I{LIBRARY}", source, heap, archive, "-o", program])
    yield "a report by calls that only look", (0, ""), made
    yield "blocks and free pieces, and the most places", (0, "0b1 2f1 4f2 8b2 12f2 most 8\n0f4 most 0\n"), run([program])
    source = room / "in_array.c"
    source.write_text(IN_ARRAY, "ascii")
    array = LIBRARY / "array_heap.c"
    made = run(["cc", "-std=c11", *WARNINGS, "-Wcast-qual", f"-I{LIBRARY}", source, array, archive, store, "-o", program])
    yield "both libraries over an array", (0, ""), made
    yield "a store of places in the program's own memory", (0, "-4 -1 0 0 16384 -8 0\n"), run([program])
    bench = room / "bench"
    words: list[str | Path] = ["cc", "-std=c11", "-D_POSIX_C_SOURCE=199309L", *WARNINGS, TOP / "bench/places.c", heap, archive, "-o", bench]
    yield "bench/places.c compiles", (0, ""), run(words)
    for work in ("none", "all", "mix"):
        for kind in ("proved", "lists", "classes"):
            status, printed = run([bench, work, kind, "10", "20000"])
            yield f"bench/places.c: {work}, {kind}", (0, True), (status, bool(re.fullmatch(r"\d+\.\d\n", printed)))
    if not shutil.which("c++"):
        return
    source = room / "gpu.cpp"
    source.write_text((LIBRARY / "gpu.c").read_text("ascii").replace('%" PRId64 "', "%ld"), "ascii")
    run(["cc", "-c", heap, "-o", room / "heap.o"])
    made = run(["c++", "-std=c++17", *WARNINGS, f"-I{LIBRARY}", source, room / "heap.o", archive, "-o", program])
    yield "gpu.c as C++ compiles", (0, ""), made
    yield "gpu.c as C++", (0, GPU), run([program])


def in_python(archive: Path, room: Path) -> Iterator[Trial]:
    """The module: random calls beside a plain model, four threads, and numbers that do not fit."""
    shared = room / "libl6_offset.so"
    yield "a shared object", (0, ""), run([LIBRARY / "shared", room, archive.parent])
    seen = run(["nm", "-D", "--defined-only", shared])[1]
    yield "no other name is exported", {True}, {line.split()[-1].startswith("l6_offset_") for line in seen.splitlines()}
    names = re.findall(r"SONAME.*\[(.*)\]", run(["readelf", "-d", shared])[1])
    yield "the name of the shared object", ["libl6_offset.so.1"], names
    yield "what leads to it, wherever the folder is", "libl6_offset.so.1", os.readlink(shared)
    known = {**os.environ, "L6_OFFSET_SO": str(shared), "PYTHONPATH": str(LIBRARY / "python")}
    kept = "import ctypes, l6_offset; print(isinstance(l6_offset._library, ctypes.PyDLL))"
    yield "calls keep the interpreter's lock", (0, "True\n"), run([sys.executable, "-B", "-c", kept], env=known)
    yield "four threads", (0, "4096 12\n"), run([sys.executable, "-B", "-c", THREADS], env=known)
    code, expected = modelled(3000)
    actual = run([sys.executable, "-B", "-"], env=known, input=code)
    yield "random calls beside a plain model", (0, expected), (actual[0], actual[1].split())
    places = "from l6_offset import Offset\nprint(Offset(5, 18).free_places(), Offset(5).free_places(), Offset(5, 18, 20).free_places())\n"
    yield "places with a first one and no end", (0, "14 32 2\n"), run([sys.executable, "-B", "-c", places], env=known)
    wrong = "from l6_offset import Offset, OffsetError\np = Offset(4)\ntry:\n    p.get(1 << 32)\nexcept OverflowError as e:\n    print(e)\n"
    wrong += "print(Offset(4, end=0).free_places())\n"
    yield "a number that does not fit, and an end at place 0", (0, "4294967296 is no number of 32 bits\n0\n"), run(
        [sys.executable, "-B", "-c", wrong], env=known)
    left = ("from l6_offset import Offset, OffsetError\nwith Offset(4) as p:\n    p.get(0)\ntry:\n    p.get(0)\n"
            "except OffsetError as e:\n    print(int(e.fault))\n")
    yield "a store that was left is closed", (0, "-1\n"), run([sys.executable, "-B", "-c", left], env=known)


def modelled(count: int) -> tuple[str, list[str]]:
    """A program of random calls, and what it has to print by a plain model of 256 places, of which 6 are not given."""
    chance, judge = random.Random(1), Judge(8, 1, 0)
    judge.taken = {0, 1, 2, 253, 254, 255}
    lines = ["from l6_offset import Offset, OffsetError", "p = Offset(8, 3, 253)", "def t(call, *numbers):",
             "    try:", "        print(call(*numbers))", "    except OffsetError as error:", "        print(int(error.fault))"]
    expected: list[str] = []
    blocks: dict[int, int] = {}
    most = 0
    for _ in range(count):
        level, place = chance.randint(0, 5), chance.randint(0, 255)
        kind = chance.randrange(4)
        if kind == 0:
            found = judge.lowest(level)
            lines.append(f"t(p.get, {level})")
            expected.append("-8" if found is None else str(found))
        elif kind == 1:
            place = place // 2**level * 2**level if chance.random() < 0.9 else place
            found = place if judge.is_open(level, place) else None
            lines.append(f"t(p.reserve, {level}, {place})")
            expected.append("-7" if found is None else "None")
        else:
            place = chance.choice([place, *blocks])
            size = blocks.pop(place, None)
            lines.append(f"t(p.free, {place})")
            expected.append("-6" if size is None else "None")
            judge.taken.difference_update(range(place, place + 2**size) if size is not None else ())
            continue
        if found is not None:
            blocks[found] = level
            judge.taken.update(range(found, found + 2**level))
            most = max(most, sum(2**it for it in blocks.values()))
    open_levels = [max((level for level in range(9) if judge.is_open(level, place // 2**level * 2**level)), default=-7)
                   for place in range(256)]
    lines += ["for place in range(256): t(p.piece, place)", "print(p.most())"]
    expected += [*map(str, open_levels), str(most)]
    lines += ["print(p.free_places())", "print(*(it for block in p.blocks() for it in block))"]
    expected += [str(256 - len(judge.taken)), *(str(it) for block in sorted(blocks.items()) for it in block)]
    return "\n".join(lines), expected


def in_rust(archive: Path, store: Path, room: Path) -> Iterator[Trial]:
    """The crate beside that of the store, in another thread."""
    if not shutil.which("cargo"):
        print("skipped: Rust: there is no cargo")
        return
    folder = room / "offset-lib"
    (room / "app/src").mkdir(parents=True)
    folder.mkdir()
    shutil.copy(archive, folder / "l6_offset.a")
    shutil.copy(store, folder / "l6_store.a")
    (room / "app/src/main.rs").write_text(RUST, "ascii")
    (room / "app/Cargo.toml").write_text(
        '[package]\nname = "app"\nversion = "1.0.0"\nedition = "2021"\n[dependencies]\n'
        f'l6_offset = {{ path = "{LIBRARY / "rust_offset"}" }}\nl6_store = {{ path = "{LIBRARY / "rust"}" }}\n', "ascii")
    known = {**os.environ, "L6_OFFSET_LIB": str(folder), "L6_STORE_LIB": str(folder)}
    actual = run(["cargo", "run", "--quiet", "--offline", "--target-dir", room / "app-target"], cwd=room / "app", env=known)
    yield "both crates in one program, and a store of places in another thread", (0, "16\n"), actual


def trials(archive: Path, store: Path, room: Path) -> Iterator[Trial]:
    """All of them, with the archives of both libraries."""
    yield from numbers()
    yield from variables_of_builds()
    yield from in_c(archive, store, room)
    yield from in_rust(archive, store, room)
    yield from in_python(archive, room)
