"""A proved buddy system (K. C. Knowlton, A fast storage allocator, CACM 8(10), 1965), by ctypes.

`l6_store.h` says what each call does. The shared object is libl6_store.so beside this file, or what the
variable L6_STORE_SO of the environment names. A call keeps the interpreter's lock (PyDLL), so threads take turns.
"""
from __future__ import annotations

import ctypes
import enum
import os
from collections.abc import Iterator
from pathlib import Path


class Fault(enum.IntEnum):
    """Why a call did nothing."""

    IS_CLOSED = -1
    IS_OPEN = -2
    BAD_UNITS = -3
    NO_MEMORY = -4
    BAD_LEVEL = -5
    NO_BLOCK = -6
    NO_WORD = -7
    BAD_WORD = -8
    NOT_ALIKE = -9
    FULL = -10


class StoreError(Exception):
    """A call did nothing, for this fault."""

    def __init__(self, code: int) -> None:
        self.fault = Fault(code)
        super().__init__(self.fault.name)


class _Raw(ctypes.Structure):
    _fields_ = [("is_open", ctypes.c_uint64), ("held", ctypes.c_void_p)]


_POINTER, _NUMBER, _WORD = ctypes.POINTER(_Raw), ctypes.c_uint32, ctypes.c_uint64
_CALLS: dict[str, list[type[ctypes.c_uint32] | type[ctypes.c_uint64]]] = {
    "open": [_NUMBER], "close": [], "get": [_NUMBER], "peek": [_NUMBER], "free": [_NUMBER], "live": [_NUMBER],
    "reset": [], "read": [_NUMBER, _NUMBER], "write": [_NUMBER, _NUMBER, _WORD], "copy": [_NUMBER, _NUMBER],
    "moves": [], "units": [], "free_words": [], "largest": [], "pieces": [_NUMBER], "first": [_NUMBER],
    "next": [_NUMBER, _NUMBER],
}
_library = ctypes.PyDLL(os.environ.get("L6_STORE_SO", str(Path(__file__).with_name("libl6_store.so"))))
for _name, _types in _CALLS.items():
    _function = getattr(_library, f"l6_store_{_name}")
    _function.restype, _function.argtypes = ctypes.c_int64, [_POINTER, *_types]
_library.l6_store_version.restype, _library.l6_store_version.argtypes = ctypes.c_int64, []
_library.l6_store_level_for.restype, _library.l6_store_level_for.argtypes = ctypes.c_int64, [_NUMBER]


def _answer(code: int) -> int:
    """What a call answered."""
    if code < 0:
        raise StoreError(code)
    return code


def version() -> str:
    """The version of the library, as 1.1.0."""
    number: int = _library.l6_store_version()
    return f"{number // 10000}.{number // 100 % 100}.{number % 100}"


def level_for(words: int) -> int:
    """The least level whose blocks have at least so many words."""
    if not 0 <= words < 1 << 32:
        raise OverflowError(f"{words} is no number of 32 bits")
    return _answer(_library.l6_store_level_for(words))


class Store:
    """A store of 1 to 255 units of 1,024 words."""

    def __init__(self, units: int) -> None:
        self._raw = _Raw()
        self._call("open", units)

    def __enter__(self) -> Store:
        return self

    def __exit__(self, *_: object) -> None:
        self._let_go()

    def __del__(self) -> None:
        self._let_go()

    def _let_go(self) -> None:
        """Closes it, if it is open."""
        _library.l6_store_close(ctypes.byref(self._raw))

    def _call(self, name: str, *numbers: int) -> int:
        for number, kind in zip(numbers, _CALLS[name]):
            if not 0 <= number < 1 << 8 * ctypes.sizeof(kind):
                raise OverflowError(f"{number} is no number of {8 * ctypes.sizeof(kind)} bits")
        return _answer(getattr(_library, f"l6_store_{name}")(ctypes.byref(self._raw), *numbers))

    def close(self) -> None:
        """Gives the memory back. No further call is answered."""
        self._call("close")

    def get(self, level: int) -> int | None:
        """Gets a block of zeros: its place, or None if no place is open."""
        return self._call("get", level) or None

    def peek(self, level: int) -> int | None:
        """The place that a get would give."""
        return self._call("peek", level) or None

    def free(self, place: int) -> None:
        """Frees the block that begins at a place."""
        self._call("free", place)

    def live(self, place: int) -> int:
        """The level of the block that begins at a place."""
        return self._call("live", place)

    def reset(self) -> None:
        """Frees all blocks."""
        self._call("reset")

    def read(self, place: int, index: int) -> int:
        """The word of an index in the block that begins at a place."""
        return self._call("read", place, index)

    def write(self, place: int, index: int, word: int) -> None:
        """Writes such a word."""
        self._call("write", place, index, word)

    def copy(self, origin: int, target: int) -> None:
        """Copies the words of a block into another of its size."""
        self._call("copy", origin, target)

    def moves(self) -> int:
        """How often the last get halved a piece, or the last free joined two."""
        return self._call("moves")

    def units(self) -> int:
        """How many units there are."""
        return self._call("units")

    def free_words(self) -> int:
        """How many words lie in no block."""
        return self._call("free_words")

    def largest(self) -> int:
        """The largest level with a free piece."""
        return self._call("largest")

    def pieces(self, level: int) -> int:
        """How many free pieces a level has."""
        return self._call("pieces", level)

    def list(self, level: int) -> Iterator[int]:
        """The free pieces of a level, in the order in which gets take them."""
        place = self._call("first", level)
        while place:
            yield place
            place = self._call("next", level, place)
