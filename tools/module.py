"""The object file and the LLVM module of a program, of the very program that was proved.

What is made for other systems, the page's module (web/build), the static programs and the libraries (ports/), is made of
these. dist/ has the module of each program and library, packed. A module belongs to a program if the compiler makes
that very program of it, byte for byte, so nothing is proved for that. Where the module of dist/ does not belong, the
program is built again over what its proof kept. What was found is kept in out/module/ with a note of what it is of.
The program is l6, l6db or l6ed; each is that of a crate of its name.

module.py PROGRAM.. says which of these programs the modules of dist/ do not belong to; the status is 1 if one does not.
"""
from __future__ import annotations

import hashlib
import lzma
import re
import shutil
import subprocess
import sys
from collections.abc import Iterable, Iterator
from dataclasses import dataclass
from pathlib import Path
from tempfile import TemporaryDirectory

from crates import TOP, Crate, listed, read_crates, uses_of
from prove import replace_text, sources_sum
from rooms import room_of

PROGRAMS = (TOP / "dist" / "l6", TOP / "crates" / "l6" / "out" / "l6")
DIST = TOP / "dist"
KEPT = TOP / "out" / "module"
PACKED = ".bc.xz"  # how the names of modules in dist/ end
NATIVE = "x86_64-unknown-linux-gnu"
# How Rattle has a module compiled: with other words another program comes of it, which is found.
COMPILE = [
    f"--target={NATIVE}", "-march=x86-64", *(word for option in (
        "no-trap-after-noreturn", "trap-unreachable", "no-x86-call-frame-opt", "disable-machine-licm",
        "disable-postra-machine-licm", "sink-common-insts=false", "mergefunc-use-aliases",
    ) for word in ("-mllvm", f"-{option}")), "-ffunction-sections", "-fdata-sections", "--no-default-config",
    "-no-canonical-prefixes", "-Werror", "-O3", "-Xclang", "-fmerge-functions", "-c", "-x", "ir",
]

# The compiler of a build: it keeps a copy of what it is given.
CLANG = """#!/bin/sh
[ ! -f module.bc ] || cp module.bc "{kept}"
exec "{clang}" "$@"
"""

Edit = tuple[str, str, int | None]  # a pattern, what takes its place, and how often it is met, if known


def entry_of(name: str) -> str:
    """The name of a program's own beginning, which its `main` calls."""
    return f'"{name}::main+start"'


class Stop(Exception):
    """Why nothing is made."""


@dataclass(frozen=True)
class Built:
    """What a build of the program made on its way."""

    object: Path
    module: Path


def program_of(words: list[str]) -> Path:
    """The program that is handed out: the one that is named, that of dist/, or the one that was built."""
    programs = [Path(word) for word in words] or [it for it in PROGRAMS if it.is_file()][:1]
    if len(programs) != 1 or not programs[0].is_file():
        raise Stop("the program is not there: prove and build it first (./l6 --help), or name it")
    return programs[0]


def kit() -> Path:
    """The folder of Rattle's toolchain."""
    if shutil.which("rt") is None:
        raise Stop("rt is not on the path")
    page = subprocess.run(["rt", "doc"], capture_output=True, text=True, check=True).stdout
    return Path(page.split()[0]).parent


def built_again(rattle: Path, program: Path) -> Built:
    """The object file and the module of a program: those that are kept; or made of its module in dist/; or built again.

    It stops unless the object links, byte for byte, to the program. The program's file has the name of its
    crate.
    """
    crate, kept = read_crates()[program.name], KEPT / program.name
    built, note = Built(kept / "program.o", kept / "module.bc"), kept / "made_from"
    is_kept = note.is_file() and note.read_text("utf-8") == note_of(crate, built)
    if is_kept and links_to(rattle, built, program):
        return built
    note.unlink(missing_ok=True)
    with TemporaryDirectory(prefix="l6-module-") as folder:
        made = Built(Path(folder, "program.o"), Path(folder, "module.bc"))
        if not (unpack(program.name, made.module) and compiled(rattle, made) and links_to(rattle, made, program)):
            build(rattle, crate, Path(folder))
            if not links_to(rattle, made, program):
                raise Stop(f"what these sources build is not {program}: prove and build it again (./l6 --help)")
        kept.mkdir(parents=True, exist_ok=True)
        shutil.move(made.object, built.object)
        shutil.move(made.module, built.module)
        replace_text(note, note_of(crate, built))
    return built


def unpack(name: str, module: Path) -> bool:
    """Writes the module that dist/ has of a program or a library; returns whether it has a sound one."""
    try:
        module.write_bytes(lzma.decompress(Path(DIST, f"{name}{PACKED}").read_bytes()))
    except (OSError, lzma.LZMAError):
        return False
    return True


def pack(module: Path, folder: Path, name: str) -> None:
    """Writes the module of a program or a library to a folder, packed as dist/ has it."""
    Path(folder, f"{name}{PACKED}").write_bytes(lzma.compress(module.read_bytes(), preset=9 | lzma.PRESET_EXTREME))


def compiled(rattle: Path, made: Built, position: str = "-fPIE") -> bool:
    """Compiles a module into its object file, as a build does; returns whether it can be compiled."""
    words = [str(rattle / "toolchain/bin/clang"), *COMPILE, position, str(made.module), "-o", str(made.object)]
    return subprocess.run(words, stdin=subprocess.DEVNULL, capture_output=True).returncode == 0


def links_to(rattle: Path, built: Built, program: Path) -> bool:
    """Whether an object file links, byte for byte, to a program."""
    with TemporaryDirectory(prefix="l6-linked-") as folder:
        linked = Path(folder, program.name)
        words = [str(rattle / "bin/rattle-link"), "--target", NATIVE, "--toolchain", str(rattle / "toolchain"),
                 "-o", program.name, str(built.object), str(rattle / "c/libos_c.a"), str(rattle / "c/liblibc_c.a")]
        ran = subprocess.run(words, cwd=folder, stdin=subprocess.DEVNULL, capture_output=True)
        return ran.returncode == 0 and linked.read_bytes() == program.read_bytes()


def note_of(crate: Crate, built: Built) -> str:
    """What is noted of what is kept: of which sources and toolchain it is, and what it is."""
    files = (built.object, built.module)
    sums = [hashlib.sha256(it.read_bytes() if it.is_file() else b"").hexdigest() for it in files]
    return f"{sources_sum(crate)} {' '.join(sums)}\n"


def build(rattle: Path, crate: Crate, folder: Path) -> None:
    """Builds the program with what its proof kept, and puts its object file and its module into a folder.

    A program can only be built of libraries of one proof. Those that are there are, after `rt ci` or a proof. If
    they are not there, or a library was proved again since then (as the edits of a crate do it), all are proved.
    """
    tools = toolchain_that_keeps(folder / "module.bc", rattle, folder / "toolchain")
    try:
        compile_program(rattle, crate, tools, folder)
    except Stop:
        call(sys.executable, str(TOP / "tools/prove.py"), crate.name)
        compile_program(rattle, crate, tools, folder)


def compile_program(rattle: Path, crate: Crate, tools: Path, folder: Path) -> None:
    """Compiles the program over the libraries that are there; its object file goes to a folder."""
    with room_of(crate) as room:
        call(str(rattle / "bin/rattle"), "build", *words_of(crate, rattle, room),
             "--toolchain", str(tools), "--backend", "llvm", "--incremental", "out/incremental",
             "-o", "program.o", within=room)
        shutil.move(room / "program.o", folder / "program.o")


def toolchain_that_keeps(bitcode: Path, rattle: Path, folder: Path) -> Path:
    """Makes a toolchain of links, whose compiler keeps a copy of the module that it is given."""
    real = rattle / "toolchain"
    (folder / "bin").mkdir(parents=True)
    (folder / "lib").symlink_to(real / "lib")
    for name in ("ld.lld", "llvm-ar"):
        (folder / "bin" / name).symlink_to(real / "bin" / name)
    clang = folder / "bin" / "clang"
    clang.write_text(CLANG.format(kept=bitcode, clang=real / "bin/clang"), "utf-8")
    clang.chmod(0o755)
    return folder


def words_of(crate: Crate, rattle: Path, room: Path) -> Iterator[str]:
    """The words by which `rt` has a program or a static library built: its crate, and the libraries below it."""
    own = {library.name: room.parent / library.name / "out/rlib" for library in crate.below}
    uses = dict(map(uses_of, listed()))[crate.name]
    root = ["src/lib.rt", "--crate-type", "staticlib"] if crate.is_static else ["src/main.rt"]
    yield from ("--crate-name", crate.name, *root)
    for name in ("std", *(it for it in uses if it not in own)):
        yield from ("--extern", f"{name}={rattle}/rlibs/{name}.rlib")
    yield from ("-L", f"dependency={rattle}/rlibs")
    for name in uses:
        if name in own:
            yield from ("--extern", f"{name}={own[name]}/{name}.rlib")
    for folder in own.values():
        yield from ("-L", f"dependency={folder}")
    yield from ("--antt-project", f"{rattle}/rattle/logic/antt-project.json")
    yield from ("--logic-built", f"{rattle}/logic_built", "--links", f"{crate.name}=", "--jobs", "2")


def text_of_module(rattle: Path, module: Path, target: Path, edits: Iterable[Edit], native: bool = False) -> None:
    """Writes a module as text, edited for another processor, or for another kind of the same."""
    call(str(rattle / "toolchain/bin/clang"), "--no-default-config", "-S", "-emit-llvm", "-x", "ir",
         "-Xclang", "-disable-llvm-passes", str(module), "-o", str(target))
    target.write_text(edited(target.read_text("utf-8"), edits, native), "utf-8")


def edited(text: str, edits: Iterable[Edit], native: bool = False) -> str:
    """The text of a module after edits, each of which must be met. Only a native one may speak of x86 then."""
    for pattern, new, times in edits:
        text, count = re.subn(pattern, new, text, flags=re.MULTILINE)
        if count == 0 or (times and count != times):
            raise Stop(f"the module has {count} places for the edit {pattern}")
    if not native and "x86" in "".join(re.findall(r"^(?:target|attributes) .*$", text, re.MULTILINE)):
        raise Stop("the module speaks of another processor still")
    return text


def for_processor(layout: str, triple: str) -> list[Edit]:
    """The edits by which a module is for another processor."""
    return [
        (r"^target datalayout = .*$", f'target datalayout = "{layout}"', 1),
        (r"^target triple = .*$", f'target triple = "{triple}"', 1),
        (r' "target-cpu"="x86-64[^"]*"', "", None),
    ]


# The one instruction of x86-64 that a library is written with, for messages of l6ed (simdutf8): each byte of the result is the
# byte at the place that the low four bits of the second operand say, or 0 where its highest bit is set (PSHUFB).
SHUFFLE = r"@llvm\.x86\.ssse3\.pshuf\.b\.128\("
SHUFFLED = """\
define internal <16 x i8> @shuffled_bytes(<16 x i8> %bytes, <16 x i8> %places) {
entry:
  br label %next
next:
  %i = phi i32 [ 0, %entry ], [ %j, %next ]
  %made = phi <16 x i8> [ zeroinitializer, %entry ], [ %more, %next ]
  %place = extractelement <16 x i8> %places, i32 %i
  %low = and i8 %place, 15
  %index = zext i8 %low to i32
  %byte = extractelement <16 x i8> %bytes, i32 %index
  %is_none = icmp slt i8 %place, 0
  %kept = select i1 %is_none, i8 0, i8 %byte
  %more = insertelement <16 x i8> %made, i8 %kept, i32 %i
  %j = add i32 %i, 1
  %is_last = icmp eq i32 %j, 16
  br i1 %is_last, label %end, label %next
end:
  ret <16 x i8> %more
}"""


def without_shuffle(name: str) -> list[Edit]:
    """The edits by which a program does without that instruction, if it has it."""
    if name != "l6ed":
        return []
    return [(rf"^declare .*{SHUFFLE}.*$", SHUFFLED, 1), (SHUFFLE, "@shuffled_bytes(", None)]


def call(*words: str, within: Path | None = None) -> None:
    """Runs a command; what it wrote is shown where it fails."""
    ran = subprocess.run(words, cwd=within, stdin=subprocess.DEVNULL, stdout=subprocess.PIPE,
                         stderr=subprocess.STDOUT, text=True, errors="replace")
    if ran.returncode:
        raise Stop(f"{Path(words[0]).name} {words[1]} failed:\n{ran.stdout[-4000:]}")


def main() -> int:
    """Says which programs dist/ has no module of; returns the exit status."""
    status, rattle = 0, kit()
    for program in map(Path, sys.argv[1:]):
        with TemporaryDirectory(prefix="l6-module-") as folder:
            made = Built(Path(folder, "program.o"), Path(folder, "module.bc"))
            if not (unpack(program.name, made.module) and compiled(rattle, made) and links_to(rattle, made, program)):
                print(f"dist/{program.name}{PACKED} is not the module of {program}; tools/make_dist makes it again")
                status = 1
    return status


if __name__ == "__main__":
    sys.exit(main())
