#!/usr/bin/env python3
"""Tries the library of the store from C, C++, Rust and Python: dist/l6_store.a, with library/.

library.py [ARCHIVE] prints each difference, and last 'N passed, M failed'. With --prove the archives are made again of the proved
crates, and compared with those of dist/. What is not installed (a C++ compiler,
cargo) is left out with a line. The proved calls are compared with the plain buddy system of bench/allocators.c, and
with the table of docs/allocator.md.
"""
from __future__ import annotations

import hashlib
import os
import re
import shutil
import subprocess
import sys
import tempfile
from collections.abc import Iterator
from pathlib import Path
from unittest import mock

sys.path.insert(0, str(Path(__file__).resolve().parents[1] / "harness"))
import library_calls
import lifetimes
import offset_library
import other_libraries
from trials import Trial, first_wrong, report

TOP = Path(__file__).resolve().parents[2]
LIBRARY = TOP / "library"
CRATE = TOP / "crates/l6_store_c"
CALLS = 200_000
WARNINGS = ["-O2", "-Wall", "-Wextra", "-Werror"]
FIRST = "place 1024, level 3, holds 1965\n"
# Seven nodes of four words each, in a unit of 1,024 words.
TREE = "free words 996\n7 10 36 255 1024 1965 1966 \nfree words 1024, largest level 10\n"
THREADS = offset_library.THREADS_OF.format(module="l6_store", opened="Store(1)", rounds=20000, free="free_words")
# A program with a heap of its own, which counts its blocks. After one word is got the lists of levels 0 to 2 are as in the
# table of docs/allocator.md.
BARE = """
use std::alloc::{alloc, Layout};
use std::sync::atomic::{AtomicUsize, Ordering};
use l6_store::{Fault, Store};
static BLOCKS: AtomicUsize = AtomicUsize::new(0);
#[repr(C)]
struct Tried { ok: bool, at: *mut u8 }
#[no_mangle]
extern "C" fn rattle_alloc(size: usize, align: usize) -> Tried {
    BLOCKS.fetch_add(1, Ordering::SeqCst);
    Tried { ok: true, at: unsafe { alloc(Layout::from_size_align(size, align).unwrap()) } }
}
#[no_mangle]
extern "C" fn rattle_dealloc(_: *mut u8) {}
fn main() -> Result<(), Fault> {
    let mut store = Store::new(1)?;
    let (one, other) = (store.get(2)?.unwrap(), store.get(2)?.unwrap());
    store.write(one, 1, 7)?;
    store.write(other, 1, 8)?;
    store.copy(one, other)?;
    println!("{} {} {} {} {:?}", store.read(one, 1)?, store.read(other, 1)?, store.live(other)?, store.units(), store.peek(2)?);
    println!("{} {:?} {}", store.free_words(), store.largest(), store.pieces(3)?);
    store.reset();
    let store = std::thread::spawn(move || store.get(0).map(|_| store)).join().expect("a thread")?;
    print!("{} blocks, free:", BLOCKS.load(Ordering::SeqCst));
    for level in 0..3 {
        for piece in store.free_pieces(level)? {
            print!(" {piece}");
        }
    }
    println!();
    Ok(())
}
"""
# What a program does that has so many requests for memory granted: it opens the store with four.
REFUSED = "".join(
    f"{given} given: open -4, keeps 0, get -1, close -1, keeps 0\n" for given in range(4)
) + "".join(f"{given} given: open 0, keeps 4, get 1024, close 0, keeps 0\n" for given in (4, 5))


def run(words: list[str | Path], **options: object) -> tuple[int, str]:
    """The status of a command, and what it prints."""
    ran = subprocess.run(words, capture_output=True, text=True, timeout=300, **options)  # type: ignore[call-overload]
    return ran.returncode, ran.stdout + ran.stderr


def in_c(archive: Path, room: Path) -> Iterator[Trial]:
    """Programs in C and C++."""
    heap = LIBRARY / "heap.c"
    first = f"{FIRST}freed: 0, joined 7\nfreed again: -6\n"
    for name, sources, expected in (
        ("first.c", [LIBRARY / "first.c", heap], first),
        ("tree.c", [LIBRARY / "tree.c", heap], TREE),
        ("first.c, with the heap of an array", [LIBRARY / "first.c", LIBRARY / "array_heap.c"], first),
        ("refuse.c", [TOP / "tests/systems/library/refuse.c"], REFUSED),
    ):
        program = room / "program"
        made = run(["cc", "-std=c11", *WARNINGS, f"-I{LIBRARY}", *sources, archive, "-o", program])
        yield f"{name} compiles", (0, ""), made
        yield name, (0, expected), run([program])
    program = room / "compare"
    sources = [TOP / "tests/systems/library/compare.c", heap]
    made = run(["cc", "-std=c11", "-O2", "-D_POSIX_C_SOURCE=199309L", *sources, archive, "-o", program])
    yield "compare.c compiles", 0, made[0]
    status, printed = run([program, str(CALLS)])
    counts = re.fullmatch(r"(\d+) gets, (\d+) refused, (\d+) frees\n", printed)
    yield "the same as a plain buddy system", (0, CALLS), (
        status, int(counts[1]) + int(counts[3]) if counts else printed)
    yield "gets that both refuse", True, counts is not None and int(counts[2]) > 500
    if not shutil.which("c++"):
        print("skipped: C++: there is no compiler")
        return
    source = room / "first.cpp"
    source.write_text((LIBRARY / "first.c").read_text().replace("%\" PRId64 \"", "%ld"), "ascii")
    made = run(["c++", "-std=c++17", *WARNINGS, f"-I{LIBRARY}", "-x", "c++", source, heap, "-x", "none", archive,
                "-o", room / "cpp"])
    yield "first.c as C++ compiles", (0, ""), made
    yield "first.c as C++", (0, first), run([room / "cpp"])


def in_rust(archive: Path, room: Path) -> Iterator[Trial]:
    """The crate, and its example."""
    if not shutil.which("cargo"):
        print("skipped: Rust: there is no cargo")
        return
    folder = room / "lib"
    folder.mkdir()
    shutil.copy(archive, folder / "l6_store.a")
    status, printed = run(
        ["cargo", "run", "--quiet", "--offline", "--example", "first", "--target-dir", room / "target"],
        cwd=LIBRARY / "rust", env={**os.environ, "L6_STORE_LIB": str(folder)},
    )
    (LIBRARY / "rust/Cargo.lock").unlink(missing_ok=True)
    yield "first.rs", (0, f"{FIRST}freed, joined 7\nfreed again: Err(NoBlock)\n"), (status, printed)
    (room / "bare/src").mkdir(parents=True)
    (room / "bare/src/main.rs").write_text(BARE, "ascii")
    (room / "bare/Cargo.toml").write_text(
        '[package]\nname = "bare"\nversion = "1.0.0"\nedition = "2021"\n[dependencies]\n'
        f'l6_store = {{ path = "{LIBRARY / "rust"}", default-features = false }}\n', "ascii")
    actual = run(
        ["cargo", "run", "--quiet", "--offline", "--target-dir", room / "bare-target"],
        cwd=room / "bare", env={**os.environ, "L6_STORE_LIB": str(folder)},
    )
    yield "the crate without std, over a heap of the program's own, and a store in another thread", (
        0, "7 7 2 1 Some(1032)\n1016 Some(9) 1\n4 blocks, free: 1025 1026 1028\n"), actual


def in_python(archive: Path, room: Path) -> Iterator[Trial]:
    """The module, with the table of eight calls."""
    shared = room / "libl6_store.so"
    archives = room / "archives"
    archives.mkdir()
    shutil.copy(archive, archives / "l6_store.a")
    shutil.copy(Path(str(archive).replace("l6_store", "l6_offset")), archives / "l6_offset.a")
    yield "a shared object", (0, ""), run([LIBRARY / "shared", room, archives])
    stand_in = room / "on aarch64"
    stand_in.mkdir()
    (stand_in / "uname").write_text("#!/bin/sh\necho aarch64\n", "ascii")
    (stand_in / "uname").chmod(0o755)
    on_arm = {**os.environ, "PATH": f"{stand_in}:{os.environ['PATH']}", "CC": "echo"}  # (echo says what is linked)
    linked = re.findall(r"/dist/(\S+)\.a\b", run([LIBRARY / "shared", stand_in], env=on_arm)[1])
    yield "what is linked on aarch64", ["l6_store-aarch64", "l6_offset-aarch64"], linked
    (room / "alone/library").mkdir(parents=True)
    (room / "alone/dist").symlink_to(TOP / "dist")
    shutil.copy(LIBRARY / "shared", room / "alone/library")
    run([room / "alone/library/shared"], env={**on_arm, "PATH": os.environ["PATH"]})
    placed = sorted(it.name for it in (room / "alone/library").glob("python/*"))
    yield "where shared objects go that no folder is named for", ["libl6_offset.so", "libl6_store.so"], placed
    shutil.copy(LIBRARY / "shared", stand_in / "shared")
    yield "no shared object without archives", (1, "shared: there is no archive of l6_store\n"), run([stand_in / "shared", stand_in])
    seen = run(["nm", "-D", "--defined-only", shared])[1]
    yield "the heap is not exported", {True}, {line.split()[-1].startswith("l6_store_") for line in seen.splitlines()}
    names = re.findall(r"SONAME.*\[(.*)\]", run(["readelf", "-d", shared])[1])
    yield "the name of the shared object", ["libl6_store.so.1"], names
    yield "what leads to it, wherever the folder is", "libl6_store.so.1", os.readlink(shared)
    page = (TOP / "docs/library.md").read_text("utf-8")
    variable = (re.findall(r"The module finds it beside itself, or where the variable `(\w+)` says", page) or ["NONE"])[0]
    known = {**os.environ, variable: str(shared), "PYTHONPATH": str(LIBRARY / "python")}
    kept = "import ctypes, l6_store; print(isinstance(l6_store._library, ctypes.PyDLL))"
    yield "calls keep the interpreter's lock", (0, "True\n"), run([sys.executable, "-B", "-c", kept], env=known)
    actual = run([sys.executable, "-B", LIBRARY / "python/first.py"], env=known)
    yield "first.py", (0, f"{FIRST}freed, joined 7\nfreed again: NO_BLOCK\n"), actual
    yield "four threads", (0, "1024 10\n"), run([sys.executable, "-B", "-c", THREADS], env=known)
    rows = re.findall(r"^\| (get, level \d+|free \d+) \| ?(\d*) ?\| (\d+) \| (.*) \|$",
                      (TOP / "docs/allocator.md").read_text("utf-8"), re.MULTILINE)
    yield "the calls of the table", 8, len(rows)
    script = ["from l6_store import Store", "s = Store(1)"]
    for call, *_ in rows:
        number = call.split()[-1]
        made = f"s.get({number})" if call.startswith("get") else f"s.free({number})"
        script.append(f"print({made} or '', s.moves(), *(f'l.{{k}}: ' + ', '.join(map(str, s.list(k)))"
                      " for k in range(11) if s.pieces(k)), sep='|')")
    status, printed = run([sys.executable, "-B", "-c", "\n".join(script)], env=known)
    yield "the status of the calls of the table", 0, status
    for (call, place, moves, lists), line in zip(rows, printed.splitlines()):
        yield f"{call}, {place or 'no place'}: place and moves", [place, moves], line.split("|")[:2]
        shown = [it for it in lists.split(" · ") if ".. as before" not in it and it != ".."]
        yield f"{call}, {place or 'no place'}: lists", shown, line.split("|")[2:2 + len(shown)]
    copying = ("from l6_store import Store\ns = Store(1)\na, b = s.get(2), s.get(2)\ns.write(a, 1, 7); s.write(b, 1, 8)\n"
               "s.copy(a, b)\nprint(s.read(a, 1), s.read(b, 1), s.live(b), s.units(), s.peek(2))")
    yield "a copy", (0, "7 7 2 1 1032\n"), run([sys.executable, "-B", "-c", copying], env=known)
    faults = "; ".join(f"t({call})" for call in (
        "lambda: Store(0)", "lambda: Store(256)", "lambda: s.get(11)", "lambda: s.free(1025)", "lambda: s.read(1024, 8)",
        "lambda: s.write(1024, 0, 1 << 36)", "lambda: s.write(1024, 0, 1 << 64)", "lambda: s.copy(1024, 1024)",
        "lambda: s.free((1 << 32) + 1024)", "lambda: s.free(1024)", "lambda: s.get(10)", "lambda: s.peek(0)",
        "lambda: s.get(0)", "lambda: s.close()", "lambda: s.live(1024)"))
    code = (
        "from l6_store import Store, StoreError\ns = Store(1); s.get(3)\n"
        "def t(call):\n    try:\n        print(call())\n    except (StoreError, OverflowError) as error:\n"
        f"        print(getattr(error, 'fault', error))\n{faults}"
    )
    expected = [-3, -3, -5, -6, -7, -8, "18446744073709551616 is no number of 64 bits", -9,
                "4294968320 is no number of 32 bits", None, 1024, None, None, None, -1]
    status, printed = run([sys.executable, "-B", "-c", code], env=known)
    yield "faults", (0, list(map(str, expected))), (status, printed.splitlines())


def numbers() -> Iterator[Trial]:
    """The faults have the same numbers in the source, the header, the crate and the module."""
    source = re.findall(r"CallFault::(\w+) => (-\d+)", (TOP / "crates/l6_store_c/src/fault.rt").read_text("utf-8"))
    expected = {int(number): named_in_header(name) for name, number in source}
    header = re.findall(r"L6_STORE_(\w+) = (-\d+)", (LIBRARY / "l6_store.h").read_text("ascii"))
    module = re.findall(r"^    ([A-Z_]+) = (-\d+)$", (LIBRARY / "python/l6_store.py").read_text("ascii"), re.MULTILINE)
    crate = re.findall(r"(-\d+) => Fault::(\w+)", (LIBRARY / "rust/src/lib.rs").read_text("ascii"))
    yield "faults of the header", expected, {int(number): name for name, number in header}
    yield "faults of the module", expected, {int(number): name for name, number in module}
    yield "faults of the crate", {number: name.replace("_", "") for number, name in expected.items() if number < -2}, {
        int(number): name.upper() for number, name in crate}
    exports = re.findall(r'extern "C" fn (l6_store_\w+)', (TOP / "crates/l6_store_c/src/exports.rt").read_text("utf-8"))
    for name in ("l6_store.h", "rust/src/lib.rs"):
        found = re.findall(r"\b(l6_store_\w+)\(", (LIBRARY / name).read_text("ascii"))
        yield f"the calls of {name}", sorted(exports), sorted(set(found))
    text = (LIBRARY / "python/l6_store.py").read_text("ascii")
    table = "".join(re.findall(r"^_CALLS\b.* = \{([^}]*)\}", text, re.MULTILINE))
    found = [*re.findall(r'"(\w+)": \[', table), *re.findall(r"_library\.l6_store_(\w+)\.restype", text)]
    yield "the calls of python/l6_store.py", sorted(exports), sorted(f"l6_store_{name}" for name in found)


def faults_of_calls() -> Iterator[Trial]:
    """The faults that the header names above each call are those of its clauses."""
    outcomes = (CRATE / "specs/Outcome.antt").read_text("utf-8")
    variants = set(re.findall(r"\w+", "".join(re.findall(r"TheVariants\.\{(.*)\}", outcomes))))
    known: dict[str, set[str]] = {}
    for word, body in re.findall(r"^abbrev pub (\w+) :.*\n((?:.+\n)+)", outcomes, re.MULTILINE):
        # a definition may use those above it
        known[word] = (variants & set(re.findall(r"\w+", body))).union(*(known[it] for it in known if it in body))
    exports = (CRATE / "src/exports.rt").read_text("utf-8")
    expected, closed = {}, set()
    for call, clauses in re.findall(r'extern "C" fn (\w+)\(.*?\) -> i64\n(.*?)\n\{', exports, re.DOTALL):
        faults = set(re.findall(r"CallFault\.(\w+)", clauses)).union(*(known[it] for it in known if it in clauses))
        if "Closed" in faults or "answered" in clauses:
            closed.add(call)
        expected[call] = sorted(named_in_header(fault) for fault in faults - {"Closed"})
    text = (LIBRARY / "l6_store.h").read_text("ascii")
    found = {
        call: sorted(re.findall(r"[A-Z]+_[A-Z]+|FULL", "".join(re.findall(r"Faults?: ([A-Z_, ]+)", comment))))
        for comment, call in re.findall(r"/\*((?:[^*]|\*(?!/))*)\*/\nint64_t (l6_store_\w+)\(", text)
    }
    yield "the faults of each call in the header", expected, found
    yield "the calls that answer IS_CLOSED", set(expected) - {"l6_store_open", "l6_store_level_for", "l6_store_version"}, closed


CONSTANTS = {"LARGEST_LEVEL": "10", "UNIT": "1024", "MOST_UNITS": "255"}  # of the language
# What the crate says of each fault, as a user would have it: the header's words.
TEXTS = {
    "BadUnits": "units out of range", "NoMemory": "out of memory", "BadLevel": "no such level",
    "NoBlock": "no block begins there", "NoWord": "no such word", "BadWord": "more than 36 bits",
    "NotAlike": "not two blocks of one size", "Full": "no piece is free",
}


def constants_and_texts() -> Iterator[Trial]:
    """The constants of the header, and the texts of the crate's faults."""
    header = (LIBRARY / "l6_store.h").read_text("ascii")
    yield "constants of the header", CONSTANTS, dict(re.findall(r"L6_STORE_(\w+) = (\d+)", header))
    crate = (LIBRARY / "rust/src/lib.rs").read_text("ascii")
    yield "texts of the crate", TEXTS, dict(re.findall(r'Fault::(\w+) => f\.write_str\("(.*)"\)', crate))
    page = (TOP / "docs/library.md").read_text("utf-8")
    sizes = re.findall(r"for ([\d,]+) \(m \+ 1\) bytes and (\d+) more", page)
    arrays = re.findall(r"room\[(\d+) \* \(UNITS \+ 1\) \+ (\d+)\]", page)
    yield "how much memory a store takes, by the page and by its array", [(sizes[0][0].replace(",", ""), sizes[0][1])], arrays


def versions() -> Iterator[Trial]:
    """The version of each library is the same in its header, its source, its crate, and what pkg-config is told."""
    for name, crate in (("l6_store", "rust"), ("l6_offset", "rust_offset")):
        header = (LIBRARY / f"{name}.h").read_text("ascii")
        version = re.findall(r'VERSION "(\d+)\.(\d+)\.(\d+)"', header)[0]
        number = sum(int(part) * unit for part, unit in zip(version, (10_000, 100, 1)))
        source = (TOP / f"crates/{name}_c/src/exports.rt").read_text("utf-8")
        found = re.findall(r"_version\(\) -> i64\n.*\n\{\n    ([\d_]+)\n", source)
        yield f"the number of {name}", [number], [int(it) for it in found]
        yield f"the number in {name}.h", [number], [int(it) for it in re.findall(r"VERSION_NUMBER (\d+)", header)]
        plain = ".".join(version)
        cargo = (LIBRARY / crate / "Cargo.toml").read_text("ascii")
        yield f"the version of the crate {name}", [plain], re.findall(r'^version = "(.*)"', cargo, re.MULTILINE)
        yield f"the version in {name}.pc", [plain], re.findall(
            "^Version: (.*)$", (LIBRARY / f"{name}.pc").read_text("ascii"), re.MULTILINE)


def installed(archive: Path, room: Path) -> Iterator[Trial]:
    """Programs that find an installed library by pkg-config, also where the folder of all is another by then."""
    if not shutil.which("pkg-config"):
        print("skipped: pkg-config is not installed")
        return
    prefix = room / "moved"
    for folder in ("lib/pkgconfig", "include", "share/l6/library"):
        (prefix / folder).mkdir(parents=True)
    shutil.copy(LIBRARY / "heap.c", prefix / "share/l6/library")
    for name, source, said in (("l6_store", "tree.c", TREE), ("l6_offset", "gpu.c", offset_library.GPU)):
        shutil.copy(LIBRARY / f"{name}.h", prefix / "include")
        shutil.copy(LIBRARY / f"{name}.pc", prefix / "lib/pkgconfig")
        shutil.copy(Path(str(archive).replace("l6_store", name)), prefix / f"lib/lib{name}.a")
        script = (f'cc "$1" $(pkg-config --variable=heap {name}) $(pkg-config --cflags --libs {name}) -o "$2" && "$2"')
        known = {**os.environ, "PKG_CONFIG_PATH": str(prefix / "lib/pkgconfig")}
        yield f"{source} by pkg-config", (0, said), run(
            ["sh", "-c", script, "sh", LIBRARY / source, room / "by-pkg-config"], env=known)


def installed_crate(archive: Path, room: Path) -> Iterator[Trial]:
    """The crate where ./install puts it, which finds the archive by itself."""
    if not shutil.which("cargo"):
        return
    place = room / "prefix/share/l6/library/rust"
    shutil.copytree(LIBRARY / "rust", place, ignore=shutil.ignore_patterns("target", "Cargo.lock"))
    (room / "prefix/lib").mkdir()
    shutil.copy(archive, room / "prefix/lib/libl6_store.a")
    known = {name: value for name, value in os.environ.items() if name != "L6_STORE_LIB"}
    words: list[str | Path] = ["cargo", "run", "--quiet", "--offline", "--example", "first", "--target-dir", room / "there"]
    yield "first.rs, installed", (0, f"{FIRST}freed, joined 7\nfreed again: Err(NoBlock)\n"), run(words, cwd=place, env=known)


def sections(archive: Path) -> Iterator[Trial]:
    """The archives have no tables for unwinding, no constructors and no thread's own data, and no names but the calls'."""
    for name in ("l6_store", "l6_offset"):
        file = Path(str(archive).replace("l6_store", name))
        seen = set(re.findall(r"^ *\d+ (\.[a-z_]+)", run(["objdump", "-h", file])[1], re.MULTILINE))
        unwanted = {".eh_frame", ".gcc_except_table", ".init_array", ".ctors", ".tbss", ".tdata"}
        yield f"sections of {name}.a", {".text"}, seen & {".text", *unwanted}
        defined = re.findall(r" [TDBR] (\w+)$", run(["nm", file])[1], re.MULTILINE)
        yield f"names of {name}.a", {True}, {it.startswith(f"{name}_") for it in defined}
        needed = set(re.findall(r" U (\w+)$", run(["nm", file])[1], re.MULTILINE))
        yield f"what {name}.a needs", set(), needed - {"memset", "memcpy", "memmove", "rattle_alloc", "rattle_dealloc"}


def named_in_header(fault: str) -> str:
    """The name of a fault in the header."""
    return {"Closed": "IS_CLOSED", "Open": "IS_OPEN"}.get(fault, re.sub(r"(?<!^)([A-Z])", r"_\1", fault).upper())


def made_again(archive: Path) -> Iterator[Trial]:
    """The archives of dist/ are those of these sources, byte for byte."""
    with tempfile.TemporaryDirectory(prefix="l6-library-") as room:
        status, printed = run([TOP / "ports/libraries", room])
        yield "the archives are made again", (0, ""), (status, "" if status == 0 else printed)
        kinds = ("", *(f"-{kind}" for kind in other_libraries.KINDS))
        for name in (f"{library}{kind}.a" for library in ("l6_store", "l6_offset") for kind in kinds):
            made, there = (file.read_bytes() if file.is_file() else b"" for file in (Path(room, name), archive.with_name(name)))
            expected = hashlib.sha256(made).hexdigest() if made else "nothing is made"
            yield f"the archive {name} of dist/ is that of these sources", expected, hashlib.sha256(there).hexdigest()


def header() -> Iterator[Trial]:
    """The header of dist/ is the one of library/."""
    for name in ("l6_store.h", "l6_offset.h"):
        files = (LIBRARY / name, TOP / "dist" / name)
        ours, handed_out = (file.read_text("ascii") if file.exists() else "no file" for file in files)
        yield f"the header {name} of dist/", ours, handed_out


def canaries() -> Iterator[Trial]:
    """Beside a library with a wrong number, text or version in each of its files, groups see it; and so do programs."""
    wrong = {
        "l6_store.h": [(" = -7", " = -17"), ("Faults: IS_OPEN", "Faults: IS_CLOSED"), ("UNIT = 1024", "UNIT = 1025")],
        "rust/src/lib.rs": [("-7 => ", "-17 => "), ("out of memory", "out of room")],
        "python/l6_store.py": [("= -7", "= -17")], "l6_store.pc": [("Version: 1", "Version: 2")],
    }
    with tempfile.TemporaryDirectory(prefix="l6-library-") as room:
        copied = Path(room, "library")
        shutil.copytree(LIBRARY, copied, ignore=shutil.ignore_patterns("target", "Cargo.lock"))
        for name, pairs in wrong.items():
            text = (copied / name).read_text("ascii")
            for old, new in pairs:
                assert old in text, f"{name} has no {old!r}"
                text = text.replace(old, new)
            (copied / name).write_text(text, "ascii")
        with mock.patch.object(sys.modules[__name__], "LIBRARY", copied):
            for group in (numbers, constants_and_texts, versions, header):
                yield from (it for it in group() if it[1] != it[2])
                yield first_wrong(f"{group.__name__} of a wrong library", group())
            yield first_wrong("faults_of_calls of a wrong library", faults_of_calls())
    yield "a command that fails", (0, ""), run(["sh", "-c", "exit 3"])


def main(words: list[str]) -> int:
    """Makes the trials."""
    is_gate = words == ["--prove"]
    archive = Path(words[0]).resolve() if words and not is_gate else TOP / "dist/l6_store.a"
    with tempfile.TemporaryDirectory(prefix="l6-library-") as room:
        def trials() -> Iterator[Trial]:
            yield from numbers()
            yield from faults_of_calls()
            yield from constants_and_texts()
            yield from versions()
            if is_gate:
                yield from made_again(archive)
            if not words or is_gate:
                yield from header()
            yield from sections(archive)
            yield from installed(archive, Path(room))
            yield from installed_crate(archive, Path(room))
            yield from in_c(archive, Path(room))
            yield from in_rust(archive, Path(room))
            yield from in_python(archive, Path(room))
            places = Path(str(archive).replace("l6_store", "l6_offset"))
            for name in ("places", "others"):
                (Path(room) / name).mkdir()
            yield from offset_library.trials(places, archive, Path(room) / "places")
            yield from other_libraries.trials(archive.parent, Path(room) / "others")
            (Path(room) / "lifetimes").mkdir()
            yield from lifetimes.trials(archive.parent, Path(room) / "lifetimes")
            (Path(room) / "calls").mkdir()
            yield from library_calls.trials(archive.parent, Path(room) / "calls")

        return report(trials(), canaries())


if __name__ == "__main__":
    sys.exit(main(sys.argv[1:]))
