"""Trials of the libraries for other processors, by qemu, in a program without a C library (library/bare.c).

They are compiled by the toolchain's clang, which has all processors; without it or qemu they are left out with a line.
"""
from __future__ import annotations

import importlib.util
import os
import re
import shutil
import subprocess
import sys
from collections.abc import Iterator
from importlib.machinery import SourceFileLoader
from pathlib import Path

TOP = Path(__file__).resolve().parents[2]
sys.path[:0] = [str(Path(__file__).resolve().parents[1] / "harness"), str(TOP / "tools")]
from module import Stop, kit
from trials import Trial

BARE = TOP / "tests/systems/library/bare.c"
# How the archives' names end: the compiler's words, and what runs a program.
KINDS: dict[str, tuple[list[str], list[str]]] = {
    "aarch64": (["--target=aarch64-unknown-linux-gnu"], ["qemu-aarch64-static"]),
    "riscv64": (["--target=riscv64-unknown-linux-gnu", "-march=rv64gc", "-mabi=lp64d"], ["qemu-riscv64-static"]),
    "nosse": (["--target=x86_64-unknown-linux-gnu", "-mgeneral-regs-only", "-mno-red-zone"], []),
}
# The toolchain's compiler comes without the header of sizes.
STDINT = "".join(f"typedef __{name}_TYPE__ {name.lower()}_t;\n" for name in ("INT64", "UINT64", "UINT32", "UINT8")) + (
    "#define UINT32_C(number) number##u\n")
SECONDS = 60
# Which archive of dist/ a crate takes, by the processor and the system that a program is for: none where there is none.
TARGETS = {
    ("x86_64", "linux"): "NAME.a", ("x86_64", "none"): "NAME-nosse.a", ("aarch64", "linux"): "NAME-aarch64.a",
    ("riscv64", "linux"): "NAME-riscv64.a", ("arm", "linux"): "",
}


def run(words: list[str | Path], known: dict[str, str] | None = None) -> tuple[int, str]:
    """The status of a command, and what it prints."""
    ran = subprocess.run(words, capture_output=True, text=True, timeout=SECONDS, env=known)
    return ran.returncode, ran.stdout + ran.stderr


def taken_by_crates(room: Path) -> Iterator[Trial]:
    """The archives that the crates link, by what a program is for."""
    if not shutil.which("rustc"):
        print("skipped: archives of the crates: there is no rustc")
        return
    for name, crate in (("l6_store", "rust"), ("l6_offset", "rust_offset")):
        script = room / f"build-{name}"
        yield f"the build script of {name} compiles", (0, ""), run(
            ["rustc", "--edition", "2021", "-D", "warnings", TOP / "library" / crate / "build.rs", "-o", script])
        found = {}
        for processor, system in TARGETS:
            target = {"CARGO_CFG_TARGET_ARCH": processor, "CARGO_CFG_TARGET_OS": system, "TARGET": f"{processor}-{system}"}
            known = {**os.environ, **target, "HOST": "x86_64-linux", "CARGO_MANIFEST_DIR": str(TOP / "library" / crate)}
            known.pop(f"{name.upper()}_LIB", None)
            found[processor, system] = "".join(re.findall(r"verbatim=(.*)", run([script], known)[1]))
        yield f"the archives of {name}, by the target", {it: file.replace("NAME", name) for it, file in TARGETS.items()}, found


def attributes_for_kernels() -> Iterator[Trial]:
    """What ports/libraries asks of the compiler where an interrupt may come: nothing below the stack pointer, and no SSE."""
    loader = SourceFileLoader("libraries", str(TOP / "ports/libraries"))
    spec = importlib.util.spec_from_loader("libraries", loader)
    assert spec is not None
    script = importlib.util.module_from_spec(spec)
    sys.modules["libraries"] = script  # (its dataclass looks for it there)
    loader.exec_module(script)
    text = 'attributes #0 = { nounwind "target-cpu"="x86-64-v2" "tune-cpu"="generic" }\n'
    for pattern, new, _ in next(it.edits for it in script.PROCESSORS if it.name == "nosse"):
        text = re.sub(pattern, new, text)
    asked = set(re.findall(r" (noredzone) |[\",](\+soft-float|-x87|-sse2?)\b", text))
    yield "what is asked for kernels", ["+soft-float", "-sse", "-sse2", "-x87", "noredzone"], sorted("".join(it) for it in asked)


def trials(folder: Path, room: Path) -> Iterator[Trial]:
    """All of them, with the archives of a folder."""
    yield from taken_by_crates(room)
    yield from attributes_for_kernels()
    for name in ("l6_store", "l6_offset"):
        listing = run(["objdump", "-d", folder / f"{name}-nosse.a"])[1]
        yield f"{name}-nosse.a has calls", True, f"<{name}_get>:" in listing
        yield f"{name}-nosse.a has no register of SSE or x87", [], re.findall(r"%(?:[xyz]mm\d+|st\b)", listing)[:3]
    try:
        tools = kit() / "toolchain/bin"
    except Stop:
        print("skipped: libraries for other processors: rt is not there")
        return
    (room / "stdint.h").write_text(STDINT, "ascii")
    for kind, (words, runner) in KINDS.items():
        if any(not shutil.which(it) for it in runner):
            print(f"skipped: libraries for {kind}: {runner[0]} is not installed")
            continue
        code, program = room / f"{kind}.o", room / kind
        yield f"bare.c for {kind} compiles", (0, ""), run(
            [tools / "clang", "--no-default-config", *words, "-std=c11", "-O1", "-ffreestanding", "-fno-builtin", "-Wall", "-Werror",
             f"-I{room}", f"-I{TOP / 'library'}", "-c", BARE, "-o", code])
        archives = [folder / f"{name}-{kind}.a" for name in ("l6_store", "l6_offset")]
        yield f"bare.c for {kind} is linked", (0, ""), run([tools / "ld.lld", "-static", "-o", program, code, *archives])
        yield f"bare.c for {kind}", (0, ""), run([*runner, program])
