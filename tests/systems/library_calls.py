"""Each call of both libraries once or more, by hand: the same rows in C, C++, Rust and Python, and no call without a row.

A row is a call, its numbers, and what the header says that it answers then. What that is in Rust or Python follows from the
kind of the call: a place or none, a number, nothing, or a fault.
"""
from __future__ import annotations

import os
import re
import shutil
import subprocess
import sys
from collections.abc import Iterator
from dataclasses import dataclass, replace
from pathlib import Path

sys.path.insert(0, str(Path(__file__).resolve().parents[1] / "harness"))
from trials import Trial

LIBRARY = Path(__file__).resolve().parents[2] / "library"
WARNINGS = ["-O2", "-Wall", "-Wextra", "-Werror"]
VERSION = 10_100
PLACE, NUMBER, PLAIN, OPTION, NOTHING, CLEARED = "place", "number", "plain", "option", "nothing", "cleared"
Row = tuple[str, tuple[int, ...], int]


@dataclass(frozen=True)
class Library:
    """A library, and what is known of it by hand."""

    name: str  # of its calls
    kind: str  # the class of Python and Rust
    crate: str
    opened: tuple[int, ...]  # the numbers that it is opened with
    closed: str  # the constant for a closed struct
    rows: list[Row]
    refused: list[tuple[tuple[int, ...], int]]  # numbers with which it is not opened
    kinds: dict[str, str]  # of its calls
    faults: dict[int, str]  # their names in Rust
    texts: dict[str, str]  # what is said of them there


# A unit of 1,024 words. To get four of them it is halved 8 times, and the upper half is in the list of its level each time.
STORE = Library(
    "l6_store", "Store", "rust", (1,), "L6_STORE_CLOSED",
    [
        ("units", (), 1), ("largest", (), 10), ("free_words", (), 1024), ("pieces", (10,), 1), ("first", (10,), 1024),
        ("peek", (2,), 1024), ("get", (2,), 1024), ("moves", (), 8), ("live", (1024,), 2), ("free_words", (), 1020),
        ("largest", (), 9), ("pieces", (2,), 1), ("pieces", (10,), 0), ("pieces", (11,), -5), ("first", (2,), 1028),
        ("first", (11,), -5), ("next", (2, 1028), 0), ("next", (11, 1028), -5), ("get", (2,), 1028), ("moves", (), 0),
        ("peek", (3,), 1032), ("peek", (11,), -5), ("get", (11,), -5), ("live", (1025,), -6), ("write", (1024, 1, 7), 0),
        ("write", (1024, 4, 7), -7), ("write", (1025, 0, 7), -6), ("write", (1024, 0, 1 << 36), -8),
        ("write", (1028, 0, (1 << 36) - 1), 0), ("read", (1028, 0), (1 << 36) - 1), ("read", (1024, 1), 7),
        ("read", (1024, 4), -7), ("read", (1025, 0), -6), ("copy", (1024, 1028), 0), ("read", (1028, 1), 7),
        ("read", (1028, 0), 0), ("copy", (1024, 1024), -9), ("copy", (1024, 1025), -6), ("free", (1024,), 0), ("moves", (), 0),
        ("first", (2,), 1024), ("free", (1024,), -6), ("free", (1028,), 0), ("moves", (), 8), ("largest", (), 10),
        ("get", (10,), 1024), ("largest", (), -10), ("peek", (0,), 0), ("get", (0,), 0), ("moves", (), 0), ("free_words", (), 0),
        ("reset", (), 0), ("free_words", (), 1024), ("get", (0,), 1024), ("get", (1,), 1026), ("free", (1024,), 0),
        # the lower half of a piece goes to the front of its list, and what lies beside 1026 is joined up to two words
        ("first", (1,), 1024), ("next", (1, 1024), 0), ("first", (2,), 1028), ("get", (1,), 1024), ("live", (1026,), 1),
    ],
    [((0,), -3), ((256,), -3)],
    {"get": PLACE, "peek": PLACE, "first": "inner", "next": "inner", "live": NUMBER, "read": NUMBER, "pieces": NUMBER,
     "units": PLAIN, "moves": PLAIN, "free_words": PLAIN, "largest": OPTION, "free": NOTHING, "write": NOTHING, "copy": NOTHING,
     "reset": CLEARED},
    {-3: "BadUnits", -4: "NoMemory", -5: "BadLevel", -6: "NoBlock", -7: "NoWord", -8: "BadWord", -9: "NotAlike", -10: "Full"},
    {"BadUnits": "units out of range", "NoMemory": "out of memory", "BadLevel": "no such level", "NoBlock": "no block begins there",
     "NoWord": "no such word", "BadWord": "more than 36 bits", "NotAlike": "not two blocks of one size", "Full": "no piece is free",
     "Unknown(-99)": "fault -99"},
)
# Sixteen places: after a get of two and a reserve of four at 8 there are free pieces at 2, 4 and 12.
OFFSET = Library(
    "l6_offset", "Offset", "rust_offset", (4, 0, 16), "L6_OFFSET_CLOSED",
    [
        ("largest", (), 4), ("free_places", (), 16), ("most", (), 0), ("find", (2,), 0), ("next", (0,), -6), ("get", (1,), 0),
        ("level", (0,), 1), ("level", (1,), -6), ("most", (), 2), ("free_places", (), 14), ("largest", (), 3),
        ("reserve", (2, 8), 0), ("reserve", (2, 8), -7), ("reserve", (2, 9), -7), ("reserve", (5, 0), -5), ("find", (2,), 4),
        ("find", (3,), -8), ("find", (5,), -5), ("get", (3,), -8), ("get", (5,), -5), ("next", (0,), 0), ("next", (1,), 8),
        ("next", (9,), -6), ("piece", (2,), 1), ("piece", (5,), 2), ("piece", (0,), -7), ("piece", (12,), 2), ("piece", (16,), -7),
        ("free_places", (), 10), ("get", (0,), 2), ("level", (2,), 0), ("most", (), 7), ("free", (8,), 0), ("free", (8,), -6),
        ("largest", (), 3), ("find", (3,), 8), ("most", (), 7), ("get", (3,), 8), ("reserve", (2, 4), 0), ("reserve", (0, 3), 0),
        ("largest", (), -8), ("most", (), 16), ("reset", (), 0), ("free_places", (), 16), ("most", (), 0), ("largest", (), 4),
    ],
    [((25, 0, 16), -3), ((4, 9, 8), -3), ((4, 0, 17), -3)],
    {"get": NUMBER, "find": NUMBER, "reserve": NOTHING, "free": NOTHING, "level": NUMBER, "next": OPTION, "largest": OPTION,
     "piece": NUMBER, "most": PLAIN, "free_places": PLAIN, "reset": CLEARED},
    {-3: "BadPlaces", -4: "NoMemory", -5: "BadLevel", -6: "NoBlock", -7: "NotOpen", -8: "Full"},
    {"BadPlaces": "places out of range", "NoMemory": "out of memory", "BadLevel": "no such level", "NoBlock": "no block begins there",
     "NotOpen": "the place is not open", "Full": "no place is open", "Unknown(-99)": "fault -99"},
)
LEVELS = {"l6_store": [(1, 0), (5, 3), (8, 3), (1024, 10), (1025, -5)], "l6_offset": [(1, 0), (5, 3), (1 << 24, 24), ((1 << 24) + 1, -5)]}
# Of Python's modules alone: walks over all pieces or blocks, after these calls.
WALKS = {
    "l6_store": ("x.get(0); x.get(1); x.free(1024)", "x.list(1)", [1024], "[e for k in range(11) for e in x.list(k)]",
                 [1024, 1028, 1032, 1040, 1056, 1088, 1152, 1280, 1536]),
    "l6_offset": ("x.get(1); x.reserve(2, 8)", "x.blocks()", [(0, 1), (8, 2)], "[x.piece(p) for p in (2, 4, 12)]", [1, 2, 2]),
}


def run(words: list[str | Path], **options: object) -> tuple[int, str]:
    """The status of a command, and what it prints."""
    ran = subprocess.run(words, capture_output=True, text=True, timeout=300, **options)  # type: ignore[call-overload]
    return ran.returncode, ran.stdout + ran.stderr


def numbers_of(numbers: tuple[int, ...]) -> str:
    """Numbers as a call has them, in each of the languages."""
    return ", ".join(map(str, numbers))


def program_in_c(libraries: tuple[Library, ...]) -> str:
    """A program that prints what each row answers."""
    lines = ["#include <inttypes.h>", "#include <stdio.h>", *(f'#include "{it.name}.h"' for it in libraries),
             'static void say(int64_t it) { printf("%" PRId64 "\\n", it); }', "int main(void) {"]
    for it in libraries:
        name, struct = it.name, f"x_{it.name}"
        lines += [f"    {name} {struct} = {it.closed};", f"    say({name}_version());"]
        lines += [f"    say({name}_level_for({number}u));" for number, _ in LEVELS[name]]
        lines += [f"    say({name}_open(&{struct}, {numbers_of(numbers)}));" for numbers, _ in it.refused]
        lines += [f"    say({name}_{call}(&{struct}{', ' if numbers else ''}{numbers_of(numbers)}));"
                  for call, numbers, _ in [("open", it.opened, 0), ("open", it.opened, 0), *it.rows, ("close", (), 0), ("close", (), 0)]]
    return "\n".join([*lines, "}", ""])


def answers_in_c(it: Library) -> list[int]:
    """What that program has to print of a library."""
    begun = [VERSION, *(answer for _, answer in LEVELS[it.name]), *(answer for _, answer in it.refused), 0, -2]
    return [*begun, *(answer for _, _, answer in it.rows), 0, -1]


def in_c(archives: Path, room: Path) -> Iterator[Trial]:
    """The rows in C and in C++."""
    libraries, source = (STORE, OFFSET), room / "calls.c"
    source.write_text(program_in_c(libraries), "ascii")
    expected = "".join(f"{answer}\n" for it in libraries for answer in answers_in_c(it))
    made: list[str | Path] = [f"-I{LIBRARY}", "-o", room / "calls"]
    linked = [archives / f"{it.name}.a" for it in libraries]
    yield "the rows of calls compile in C", (0, ""), run(["cc", "-std=c11", *WARNINGS, source, LIBRARY / "heap.c", *linked, *made])
    yield "the rows of calls in C", (0, expected), run([room / "calls"])
    if shutil.which("c++"):
        words: list[str | Path] = ["c++", "-std=c++17", *WARNINGS, "-x", "c++", source, LIBRARY / "heap.c", "-x", "none", *linked, *made]
        yield "the rows of calls compile in C++", (0, ""), run(words)
        yield "the rows of calls in C++", (0, expected), run([room / "calls"])


def shown_in_rust(it: Library, call: str, answer: int) -> str:
    """What Rust shows of what a call answers."""
    kind, fault = it.kinds.get(call, NUMBER), f"Err({it.faults.get(answer)})"
    if kind == OPTION:
        return "None" if answer < 0 else f"Some({answer})"
    shown = {PLACE: f"Ok(Some({answer}))" if answer else "Ok(None)", NUMBER: f"Ok({answer})", NOTHING: "Ok(())", CLEARED: "()"}
    return str(answer) if kind == PLAIN else fault if answer < 0 else shown[kind]


def in_rust(archives: Path, room: Path) -> Iterator[Trial]:
    """The rows in Rust, and what is said of each fault."""
    if not shutil.which("cargo"):
        return
    lines, expected = ["fn main() {"], []
    for it in (STORE, OFFSET):
        lines.append(f'    println!("{{}}", {it.name}::version());')
        expected.append(str(VERSION))
        for numbers, answer in it.refused:
            lines.append(f'    println!("{{:?}}", {it.name}::{it.kind}::new({numbers_of(numbers)}).err());')
            expected.append(f"Some({it.faults[answer]})")
        for number, answer in LEVELS[it.name]:
            lines.append(f'    println!("{{:?}}", {it.name}::level_for({number}));')
            expected.append(shown_in_rust(it, "level_for", answer))
        lines.append(f"    let mut x = {it.name}::{it.kind}::new({numbers_of(it.opened)}).unwrap();")
        for call, numbers, answer in it.rows:
            if it.kinds[call] != "inner":
                lines.append(f'    println!("{{:?}}", x.{call}({numbers_of(numbers)}));')
                expected.append(shown_in_rust(it, call, answer))
        for fault, text in it.texts.items():
            lines.append(f'    println!("{{}}", {it.name}::Fault::{fault});')
            expected.append(text)
    lines += ["    let mut x = l6_store::Store::new(1).unwrap();", "    x.get(0).unwrap();",
              '    println!("{:?} {:?}", x.list(1), x.free_pieces(9).map(|it| it.collect::<Vec<_>>()));',
              '    println!("{:?}", x.list(11));', "}", ""]
    expected += ["Ok([1026]) Ok([1536])", "Err(BadLevel)"]
    (room / "src").mkdir(parents=True)
    (room / "src/main.rs").write_text("\n".join(lines), "ascii")
    (room / "Cargo.toml").write_text(
        '[package]\nname = "calls"\nversion = "1.0.0"\nedition = "2021"\n[dependencies]\n'
        + "".join(f'{it.name} = {{ path = "{LIBRARY / it.crate}" }}\n' for it in (STORE, OFFSET)), "ascii")
    known = {**os.environ, **{f"{it.name.upper()}_LIB": str(archives) for it in (STORE, OFFSET)}}
    actual = run(["cargo", "run", "--quiet", "--offline", "--target-dir", room / "target"], cwd=room, env=known)
    yield "the rows of calls in Rust", (0, expected), (actual[0], actual[1].splitlines())


def shown_in_python(it: Library, call: str, answer: int) -> str:
    """What Python shows of what a call answers."""
    kind = it.kinds.get(call, NUMBER)
    if answer < 0:
        return re.sub(r"(?<!^)([A-Z])", r"_\1", it.faults[answer]).upper()
    is_none = kind in (NOTHING, CLEARED) or (kind == PLACE and answer == 0)
    return "None" if is_none else str(answer)


def in_python(it: Library, shared: Path) -> Iterator[Trial]:
    """The rows in Python, and the walks."""
    lines = [f"import {it.name} as m", "def t(call):", "    try:", "        print(call())", "    except Exception as error:",
             "        print(error)", "print(m.version())"]
    expected = [f"{VERSION // 10_000}.{VERSION // 100 % 100}.{VERSION % 100}"]
    for number, answer in LEVELS[it.name]:
        lines.append(f"t(lambda: m.level_for({number}))")
        expected.append(shown_in_python(it, "level_for", answer))
    for numbers, answer in it.refused:
        lines.append(f"t(lambda: m.{it.kind}({numbers_of(numbers)}))")
        expected.append(shown_in_python(it, "open", answer))
    lines.append(f"x = m.{it.kind}({numbers_of(it.opened)})")
    for call, numbers, answer in it.rows:
        if it.kinds[call] != "inner" and (it.name, call) != ("l6_offset", "next"):
            lines.append(f"t(lambda: x.{call}({numbers_of(numbers)}))")
            expected.append(shown_in_python(it, call, answer))
    made, *walks = WALKS[it.name]
    lines += ["x.reset()", made, *(f"print(list({walk}))" for walk in walks[::2]),
              "t(lambda: m.level_for(1 << 32))", "t(lambda: m.level_for(-1))", "t(lambda: x.get(-1))", "t(lambda: x.close())",
              "t(lambda: x.get(0))"]
    wide = 1 << 32
    expected += [*map(str, walks[1::2]), f"{wide} is no number of 32 bits", "-1 is no number of 32 bits", "-1 is no number of 32 bits",
                 "None", "IS_CLOSED"]
    known = {**os.environ, f"{it.name.upper()}_SO": str(shared / f"lib{it.name}.so"), "PYTHONPATH": str(LIBRARY / "python")}
    actual = run([sys.executable, "-B", "-c", "\n".join(lines)], env=known)
    yield f"the rows of calls of {it.name} in Python", (0, expected), (actual[0], actual[1].splitlines())


def lacking(it: Library) -> dict[str, set[str]]:
    """The public calls of a library that have no row: of its header, its crate and its module."""
    tried = {call for call, _, _ in it.rows} | {"level_for", "version"}
    header = set(re.findall(rf"\b{it.name}_(\w+)\(", (LIBRARY / f"{it.name}.h").read_text("ascii")))
    crate = set(re.findall(r"\bpub fn (\w+)", (LIBRARY / it.crate / "src/lib.rs").read_text("ascii")))
    module = set(re.findall(r"^(?:    )?def ([a-z]\w*)", (LIBRARY / f"python/{it.name}.py").read_text("ascii"), re.MULTILINE))
    return {
        f"{it.name}.h": header - tried - {"open", "close"}, f"the crate {it.name}": crate - tried - {"new", "free_pieces", "list"},
        f"{it.name}.py": module - tried - {"close", "list", "blocks"},
    }


def without_a_row() -> Iterator[Trial]:
    """Each public call of a header, a crate and a module has a row; and if it had none, that would be seen."""
    for it in (STORE, OFFSET):
        for where, calls in lacking(it).items():
            yield f"calls of {where} without a row", set(), calls
        named = {call for call, _, _ in it.rows}
        seen = {call for call in named if call in lacking(replace(it, rows=[row for row in it.rows if row[0] != call]))[f"{it.name}.h"]}
        yield f"calls of {it.name} that would lack a row", named, seen
        variants = set(re.findall(r"^    (\w+),$", (LIBRARY / it.crate / "src/lib.rs").read_text("ascii"), re.MULTILINE))
        yield f"faults of the crate {it.name} without a text", set(it.faults.values()), variants


def trials(archives: Path, room: Path) -> Iterator[Trial]:
    """All of them, with the archives of a folder."""
    yield from without_a_row()
    yield from in_c(archives, room)
    yield from in_rust(archives, room / "rust")
    shared = room / "shared"
    shared.mkdir()
    yield "the shared objects for the rows", (0, ""), run([LIBRARY / "shared", shared, archives])
    for it in (STORE, OFFSET):
        yield from in_python(it, shared)
