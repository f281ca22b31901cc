"""The libraries in this process, over a heap that counts what is asked of it: calls, and what is seen of them."""
from __future__ import annotations

import ctypes
import functools
import platform
import shutil
import subprocess
import tempfile
from dataclasses import dataclass
from pathlib import Path

from page_tables import TOP

UNTOUCHED = 0xAA  # each byte of memory that was not written since the heap gave it
# A heap that counts its calls, and refuses one when it is asked to. The newest block is the last.
HEAP = r"""
#include <stdbool.h>
#include <stddef.h>
#include <stdint.h>
#include <stdlib.h>
#include <string.h>
struct tried { bool ok; void *at; };
uint64_t asked, bytes, given_back, refuses, widest, sizes[64];
void *regions[64];
struct tried rattle_alloc(size_t size, size_t align) {
    if (refuses)
        return (struct tried){false, &asked};
    void *at = malloc(size != 0 ? size : align);
    if (at == NULL)
        return (struct tried){false, &asked};
    memset(at, 0xAA, size);
    widest = align > widest ? align : widest;
    regions[asked % 64] = at;
    sizes[asked % 64] = size;
    asked++;
    bytes += size;
    return (struct tried){true, at};
}
void rattle_dealloc(void *at) { given_back++; free(at); }
"""


class Struct(ctypes.Structure):
    """A store as C has it; a new one is closed."""

    _fields_ = [("is_open", ctypes.c_uint64), ("held", ctypes.c_void_p)]


@functools.cache
def both_libraries() -> ctypes.CDLL | None:
    """Both libraries with that heap, or nothing where there is no compiler."""
    if not shutil.which("cc"):
        return None
    with tempfile.TemporaryDirectory() as folder:
        source, made = Path(folder, "heap.c"), Path(folder, "both.so")
        source.write_text(HEAP, "ascii")
        archives = [archive_of(name) for name in ("l6_store", "l6_offset")]
        subprocess.run(["cc", "-O1", "-shared", "-fPIC", source, "-Wl,--whole-archive", *archives, "-Wl,--no-whole-archive", "-o", made],
                       check=True, capture_output=True)
        return ctypes.CDLL(str(made))


def archive_of(name: str) -> Path:
    """The archive of a library for this processor."""
    own = TOP / f"dist/{name}-{platform.machine()}.a"
    return own if own.exists() else TOP / f"dist/{name}.a"


@dataclass(frozen=True)
class Heap:
    """What was asked of the heap while something was done: requests, bytes, and what was given back."""

    asked: int
    bytes: int
    given_back: int

    def __sub__(self, other: Heap) -> Heap:
        return Heap(self.asked - other.asked, self.bytes - other.bytes, self.given_back - other.given_back)


class Made:
    """A store of one of the libraries."""

    def __init__(self, library: ctypes.CDLL, name: str, *opened: int) -> None:
        self.library, self.name, self.struct = library, name, Struct()
        before = self.heap()
        if opened:
            self("open", *opened)
        self.opening = self.heap() - before
        last = self.heap().asked
        self.parts = [(self.sizes()[at % 64], self.addresses()[at % 64] or 0) for at in range(before.asked, last)]
        self.regions = dict(self.parts)

    def __call__(self, call: str, *numbers: int) -> int:
        """What a call answers; a number that is too wide is cut, as C would."""
        function = getattr(self.library, f"{self.name}_{call}")
        function.restype = ctypes.c_int64
        kinds = [ctypes.c_uint32, ctypes.c_uint32, ctypes.c_uint64]
        wide = [kind(number) for kind, number in zip(kinds, numbers, strict=False)]
        return int(function(*([] if call in ("level_for", "version") else [ctypes.byref(self.struct)]), *wide))

    def counter(self, name: str) -> ctypes.c_uint64:
        """A variable of the heap."""
        return ctypes.c_uint64.in_dll(self.library, name)

    def sizes(self) -> ctypes.Array[ctypes.c_uint64]:
        """The sizes of what the heap gave."""
        return (ctypes.c_uint64 * 64).in_dll(self.library, "sizes")

    def addresses(self) -> ctypes.Array[ctypes.c_void_p]:
        """Where that is."""
        return (ctypes.c_void_p * 64).in_dll(self.library, "regions")

    def heap(self) -> Heap:
        """What was asked so far."""
        return Heap(*(self.counter(it).value for it in ("asked", "bytes", "given_back")))

    def memory(self, size: int) -> bytes:
        """The region of a size that opening took."""
        return ctypes.string_at(self.regions[size], size)

    def words(self) -> list[int]:
        """All words of a store of l6_store in its memory, by their places."""
        size = (self("units") + 1) * 1024 * 8
        whole = self.memory(size)
        return [int.from_bytes(whole[at:at + 8], "little") for at in range(0, size, 8)]

    def lists(self) -> list[list[int]]:
        """The free lists of l6_store."""
        found: list[list[int]] = []
        for level in range(11):
            found.append([])
            piece = self("first", level)
            while piece > 0:
                found[-1].append(piece)
                piece = self("next", level, piece)
        return found

    def state(self) -> object:
        """All that can be seen of a store: blocks with their words, and free lists; of places blocks and pieces."""
        if self.name == "l6_offset":
            return [(self("level", place), self("piece", place)) for place in range(1 << 6)], self("free_places"), self("most")
        blocks = {place: self("live", place) for place in range((self("units") + 1) * 1024) if self("live", place) >= 0}
        return self.lists(), {place: [self("read", place, at) for at in range(1 << level)] for place, level in blocks.items()}


def store(units: int = 1) -> Made | None:
    """A new store of l6_store, or nothing where there is no compiler."""
    library = both_libraries()
    return Made(library, "l6_store", units) if library else None


def places(top: int = 4, first: int = 0, end: int | None = None) -> Made | None:
    """A new store of l6_offset, or nothing where there is no compiler."""
    library = both_libraries()
    return Made(library, "l6_offset", top, first, 1 << top if end is None else end) if library else None
