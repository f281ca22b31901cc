"""Trials of ports/host.c with a stand-in for the program: words, memory, errno and closed pipes, as the program asks for them.

The host is compiled as it is for x86-64, and, by the same compiler, with its part for other processors; and so is that of the
modules for Node, ports/session_host.c with web/memory.h. So a change of them is tried where nothing of dist/ is made again.
"""
from __future__ import annotations

import contextlib
import importlib.util
import io
import os
import shutil
import signal
import subprocess
import sys
import tempfile
from collections.abc import Iterator
from importlib.machinery import SourceFileLoader
from pathlib import Path
from unittest import mock

from trials import Trial

HOST = Path(__file__).resolve().parents[2] / "ports/host.c"
SESSION_HOST = HOST.with_name("session_host.c")  # with web/memory.h
OF_X86 = "#ifdef __x86_64__\n"
STAND_IN = r"""
#include <stddef.h>
#include <stdint.h>
#include <stdio.h>
#include <string.h>
#include <unistd.h>
typedef struct { _Bool ok; void *room; } Tried;
Tried rattle_alloc(size_t bytes, size_t align);
Tried rattle_realloc(void *room, size_t kept, size_t bytes, size_t align);
void rattle_dealloc(void *room);
int rattle_errno(void);
void rattle_set_errno(int number);
size_t rattle_arg_count(void);
ptrdiff_t rattle_arg(size_t number, unsigned char *into, size_t room);
static int play(void) {
    unsigned char word[64];
    if (rattle_arg_count() == 2)
        return write(1, "x", 1) == 1 ? 1 : 3; /* (standard output is a closed pipe) */
    for (size_t number = 0; number < rattle_arg_count(); number++) {
        ptrdiff_t size = rattle_arg(number, word, sizeof word);
        printf("<%.*s>", size < 0 ? 0 : (int)size, (const char *)word);
    }
    printf(" %td %td\n", rattle_arg(rattle_arg_count(), word, sizeof word), rattle_arg(0, word, 1));
    Tried none = rattle_alloc(SIZE_MAX / 2, 16), empty = rattle_alloc(0, 16), block = rattle_alloc(3, 1);
    memcpy(block.room, "ab", 3);
    block = rattle_realloc(block.room, 3, 100000, 1);
    Tried more = rattle_realloc(block.room, 3, SIZE_MAX / 2, 1);
    printf("%d%d %d%d %d%s %d%d\n", none.ok, none.room != NULL, empty.ok, empty.room != NULL, block.ok,
           (const char *)block.room, more.ok, more.room != NULL);
    rattle_dealloc(empty.room);
    rattle_dealloc(block.room);
    rattle_set_errno(28);
    printf("%d\n", rattle_errno());
    return 7;
}
"""
# What the host says of the processor, beside what the compiler's own header says (but for the number of the processor itself).
OF_PROCESSOR = r"""
#include <cpuid.h>
#include <stdint.h>
#include <stdio.h>
typedef struct { uint32_t said[4], usable[4]; } Leaf;
const Leaf *__x86_get_cpuid_feature_leaf(unsigned index);
static int is_said(unsigned index, unsigned which) {
    uint32_t known[4] = {0};
    const Leaf *leaf = __x86_get_cpuid_feature_leaf(index);
    if (which)
        __get_cpuid_count(which, 0, &known[0], &known[1], &known[2], &known[3]);
    for (int at = 0; at < 4; at++)
        if ((which != 1 || at != 1) && (leaf->said[at] != known[at] || leaf->usable[at] != known[at]))
            return 0;
    return 1;
}
int main(void) { return printf("%d%d%d%d\n", is_said(0, 1), is_said(1, 7), is_said(2, 0x80000001), is_said(3, 0)) != 5; }
"""
# The stand-in begins as the program does: by a `main` that the linker hands on to, or by the name that `build` gives.
BEGINNINGS = {"x86-64": "int main(void) { return play(); }\n", "other processors": "int l6_program(void) { return play(); }\n"}
# The host of modules for Node, compiled for this processor. Its memory is an array, and each device answers a number.
MODULE = r"""
#include <stdio.h>
static unsigned char heap[1 << 22] __asm__("__heap_base") __attribute__((used, aligned(16)));
static int answer;
#define __builtin_wasm_memory_size(which) (1ul << 16)
#define __builtin_wasm_memory_grow(which, more) (void)(more)
#define __asm__(name)
#define PROGRAM ""
#define read l6_read
#define write l6_write
#define open l6_open
#define close l6_close
#define isatty l6_isatty
#define lseek l6_lseek
#include SESSION_HOST
int host_read(int file, unsigned into, unsigned room) { return answer; }
int host_write(int file, unsigned from, unsigned count) { return answer; }
int host_open(unsigned path, unsigned bytes, int flags) { return answer < 0 ? answer : (int)bytes; }
int host_close(int file) { return answer; }
int host_isatty(int file) { return file == 1; }
static Size differences(const Byte *bytes, Size count) {
    Size found = 0;
    for (Size place = 0; place < count; place++)
        found += bytes[place] != (Byte)(place % 251);
    return found;
}
int program(void) {
    static Byte bytes[16];
    Text text = {0};
    Tried block = rattle_alloc(100, 1);
    answer = 5;
    printf("%ld %ld %d %d\n", read(0, bytes, 9), write(1, bytes, 9), open("a.deck", 0), close(3));
    for (answer = -2; answer > -30; answer -= 9) {
        long got[] = {read(0, bytes, 9), write(1, bytes, 9), open("a.deck", 0), close(3)};
        printf("%ld %ld %ld %ld %d\n", got[0], got[1], got[2], got[3], rattle_errno());
    }
    while (text.count < 300000 && has_room(&text, 1)) {
        text.bytes[text.count] = (Byte)(text.count % 251);
        text.count++;
    }
    for (Size place = 0; place < 100; place++)
        block.room[place] = (Byte)(place % 251);
    block = rattle_realloc(block.room, 100, 50000, 1);
    printf("%lu %lu %lu\n", text.count, differences(text.bytes, text.count), differences(block.room, 100));
    return 7;
}
int main(void) { return host_run(); }
"""
OF_MODULE = "5 5 6 5\n-1 -1 -1 -1 2\n-1 -1 -1 -1 11\n-1 -1 -1 -1 20\n-1 -1 -1 -1 29\n300000 0 0\n"
SAID = "<l6><run><a b> -1 -2\n01 11 1ab 01\n28\n"
NAME = b"a name \xff"  # of the program's file, which is no text


def c_hosts() -> Iterator[Trial]:
    """What each host answers, whatever the file of the program is called."""
    with tempfile.TemporaryDirectory(prefix="l6-hosts-") as room:
        for which, beginning in BEGINNINGS.items():
            if which == "x86-64" and os.uname().machine != "x86_64":
                print("skipped: the host for x86-64: it is another processor")
                continue
            folder = Path(room, which)
            folder.mkdir()
            text = HOST.read_text("utf-8")
            (folder / "host.c").write_text(text if which == "x86-64" else text.replace(OF_X86, "#if 0\n"), "utf-8")
            (folder / "program.c").write_text(STAND_IN + beginning, "ascii")
            words = ["cc", "-O2", "-w", '-DPROGRAM="l6"', *(["-Wl,--wrap=main"] if which == "x86-64" else [])]
            made = subprocess.run([*words, "host.c", "program.c", "-o", "program"], cwd=folder, capture_output=True, text=True)
            yield f"the host for {which} compiles", (0, ""), (made.returncode, made.stderr)
            if made.returncode:
                continue
            named = os.fsencode(folder) + b"/" + NAME
            shutil.copy(os.fsencode(folder / "program"), named)
            ran = subprocess.run([named, "run", "a b"], capture_output=True)
            yield f"words and memory by the host for {which}", (SAID.encode(), 7), (ran.stdout, ran.returncode)
            if which != "x86-64":  # (there the toolchain's own `main` sees to pipes)
                yield f"a closed pipe by the host for {which}", 3, written_to_nobody(folder / "program")
    ended_by = -signal.SIGPIPE
    yield "a closed pipe by a program that does not see to it", ended_by, written_to_nobody(Path(shutil.which("yes") or "yes"))
    yield from module_host()
    yield from names_given()
    if os.uname().machine == "x86_64":
        yield from processor()
    yield from not_made()


def not_made() -> Iterator[Trial]:
    """What ports/bundle says of a page without a module, and ports/build of a program that is not there, which is not made."""
    with tempfile.TemporaryDirectory(prefix="l6-hosts-") as room:
        page = Path(room, "page.html")
        page.write_text("<p>no module</p>\n", "ascii")
        rows: tuple[tuple[str, list[Path], str], ...] = (
            ("bundle", [page, Path(room, "l6.mjs")], "ports/bundle: the page has no module\n"),
            ("build", [Path(room, "none"), Path(room)],
             "ports/build: the program is not there: prove and build it first (./l6 --help), or name it\n"),
        )
        for script, given, said in rows:
            ran = subprocess.run([HOST.with_name(script), *given], capture_output=True, text=True)
            yield f"what ports/{script} does not make", (1, "", said), (ran.returncode, ran.stdout, ran.stderr)
        yield "what is made then", ["page.html"], sorted(it.name for it in Path(room).iterdir())


def processor() -> Iterator[Trial]:
    """What the host for x86-64 says of the processor, by which the program sees that it can run."""
    with tempfile.TemporaryDirectory(prefix="l6-hosts-") as room:
        Path(room, "asked.c").write_text(OF_PROCESSOR, "ascii")
        words: list[str | Path] = ["cc", "-O2", "-w", '-DPROGRAM="l6"', "-Wl,--wrap=main", HOST, "asked.c", "-o", "asked"]
        made = subprocess.run(words, cwd=room, capture_output=True, text=True)
        yield "the host compiles beside questions on the processor", (0, ""), (made.returncode, made.stderr)
        if made.returncode == 0:
            ran = subprocess.run([Path(room, "asked")], capture_output=True, text=True)
            yield "what the host says of the processor", ("1111\n", 0), (ran.stdout, ran.returncode)


def module_host() -> Iterator[Trial]:
    """What the host of modules for Node makes of answers below zero, and whether memory that grows keeps its bytes."""
    with tempfile.TemporaryDirectory(prefix="l6-hosts-") as room:
        Path(room, "module.c").write_text(MODULE, "ascii")
        words = ["cc", "-O1", "-w", "-no-pie", "-fno-pie", "-fno-builtin", f'-DSESSION_HOST="{SESSION_HOST}"']
        made = subprocess.run([*words, "module.c", "-o", "module"], cwd=room, capture_output=True, text=True)
        yield "the host of modules compiles", (0, ""), (made.returncode, made.stderr)
        if made.returncode == 0:
            ran = subprocess.run([Path(room, "module")], capture_output=True, text=True)
            yield "errors and memory by the host of modules", (OF_MODULE, 7), (ran.stdout, ran.returncode)


def names_given() -> Iterator[Trial]:
    """The name that ports/build gives to a host, by which the program calls itself, is that of the native program."""
    loader = SourceFileLoader("build", str(HOST.with_name("build")))
    spec = importlib.util.spec_from_loader("build", loader)
    assert spec is not None
    script = importlib.util.module_from_spec(spec)
    sys.modules["build"] = script  # (its dataclass looks for it there)
    loader.exec_module(script)
    given: list[str] = []

    def call(*words: str) -> None:
        given.extend(it for it in words if it.startswith("-DPROGRAM="))
        Path(words[words.index("-o") + 1]).touch()

    with tempfile.TemporaryDirectory(prefix="l6-hosts-") as room, contextlib.redirect_stdout(io.StringIO()), \
            mock.patch.object(script, "call", call), mock.patch.object(script, "sum_of", lambda _: ""):
        for name in ("l6", "l6db", "l6ed"):
            for processor in (script.X86, script.ARM):
                script.make(Path("nowhere"), processor, Path(room, f"{name}-{processor.suffix}"), [], [])
    yield "the names of hosts", [f'-DPROGRAM="{name}"' for name in ("l6", "l6db", "l6ed") for _ in range(2)], given


def wrong_hosts() -> Iterator[Trial]:
    """Canaries: hosts with one error each, and programs whose exit status is another one."""
    words, errors = "words and memory by the host for other processors", "errors and memory by the host of modules"
    with tempfile.TemporaryDirectory(prefix="l6-hosts-") as room:
        for host, changed, old, new, group, name in (
            (HOST, "HOST", "return -2;", "return -1;", c_hosts, words),
            (HOST, "HOST", "signal(SIGPIPE, SIG_IGN);", "", c_hosts, "a closed pipe by the host for other processors"),
            (HOST, "HOST", "{1, 7, 0x80000001}", "{7, 1, 0x80000001}", processor, "what the host says of the processor"),
            (SESSION_HOST, "SESSION_HOST", "error = -got;", "error = got;", module_host, errors),
        ):
            text = host.read_text("utf-8")
            copy = Path(room, host.name)
            copy.write_text(text.replace(old, new).replace("../web/", f"{HOST.parents[1]}/web/"), "utf-8")
            with mock.patch.object(sys.modules[__name__], changed, copy):
                yield next((it for it in group() if it[0] == name), (f"{name}: it is not tried", 0, 0))
    for told, group, name in (("STAND_IN", c_hosts, words), ("MODULE", module_host, errors)):
        other = getattr(sys.modules[__name__], told).replace("return 7;", "return 8;")
        with mock.patch.object(sys.modules[__name__], told, other):
            yield next((it for it in group() if it[0] == name), (f"{name}: it is not tried", 0, 0))
    yield from wrong_makers()


def wrong_makers() -> Iterator[Trial]:
    """Canaries: scripts that say what they must of what they don't make, with another status, and to the other output, too."""
    for more in ("exit 0", "echo made; exit 1"):
        with tempfile.TemporaryDirectory(prefix="l6-hosts-") as room:
            script = Path(room, "bundle")
            script.write_text(f"#!/bin/sh\necho 'ports/bundle: the page has no module' >&2\n{more}\n", "ascii")
            script.chmod(0o755)
            with mock.patch.object(sys.modules[__name__], "HOST", Path(room, "host.c")):
                yield next(not_made())


def written_to_nobody(program: Path) -> int:
    """The status of a program that writes to a pipe which nobody reads."""
    source, sink = os.pipe()
    os.close(source)
    # (Python ignores the signal of such a pipe, and its children do, too, unless that is restored)
    ran = subprocess.run([program, "pipe"], stdout=sink, restore_signals=True)
    os.close(sink)
    return ran.returncode
