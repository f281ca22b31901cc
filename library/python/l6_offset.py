"""Places without words: an offset allocator by the buddy system, proved, by ctypes.

`l6_offset.h` says what each call does. The shared object is libl6_offset.so beside this file, or what the variable
L6_OFFSET_SO of the environment names. A call keeps the interpreter's lock (PyDLL), so threads may share a store.
"""
from __future__ import annotations

import ctypes
import enum
import os
from collections.abc import Iterator
from pathlib import Path


class Fault(enum.IntEnum):
    """Why a call did nothing."""

    IS_CLOSED = -1
    IS_OPEN = -2
    BAD_PLACES = -3
    NO_MEMORY = -4
    BAD_LEVEL = -5
    NO_BLOCK = -6
    NOT_OPEN = -7
    FULL = -8


class OffsetError(Exception):
    """A call did nothing, for this fault."""

    def __init__(self, code: int) -> None:
        self.fault = Fault(code)
        super().__init__(self.fault.name)


class _Raw(ctypes.Structure):
    _fields_ = [("is_open", ctypes.c_uint64), ("held", ctypes.c_void_p)]


_CALLS = {"open": 3, "close": 0, "get": 1, "find": 1, "reserve": 2, "free": 1, "level": 1, "next": 1, "largest": 0,
          "free_places": 0, "most": 0, "piece": 1, "reset": 0}  # and how many numbers each is given
_library = ctypes.PyDLL(os.environ.get("L6_OFFSET_SO", str(Path(__file__).with_name("libl6_offset.so"))))
for _name, _count in _CALLS.items():
    _function = getattr(_library, f"l6_offset_{_name}")
    _function.restype, _function.argtypes = ctypes.c_int64, [ctypes.POINTER(_Raw), *[ctypes.c_uint32] * _count]
_library.l6_offset_version.restype, _library.l6_offset_version.argtypes = ctypes.c_int64, []
_library.l6_offset_level_for.restype, _library.l6_offset_level_for.argtypes = ctypes.c_int64, [ctypes.c_uint32]


def _answer(code: int) -> int:
    """What a call answered."""
    if code < 0:
        raise OffsetError(code)
    return code


def _checked(number: int) -> int:
    """A number that the library takes."""
    if not 0 <= number < 1 << 32:
        raise OverflowError(f"{number} is no number of 32 bits")
    return number


def version() -> str:
    """The version of the library, as 1.1.0."""
    number: int = _library.l6_offset_version()
    return f"{number // 10000}.{number // 100 % 100}.{number % 100}"


def level_for(places: int) -> int:
    """The least level whose blocks have at least so many places."""
    return _answer(_library.l6_offset_level_for(_checked(places)))


class Offset:
    """The places from a first one up to an end, with blocks of at most 2^top of them."""

    def __init__(self, top: int, first: int = 0, end: int | None = None) -> None:
        self._raw = _Raw()
        self._call("open", top, first, (1 << min(top, 31)) if end is None else end)

    def __enter__(self) -> Offset:
        return self

    def __exit__(self, *_: object) -> None:
        self._let_go()

    def __del__(self) -> None:
        self._let_go()

    def _let_go(self) -> None:
        """Closes it, if it is open."""
        _library.l6_offset_close(ctypes.byref(self._raw))

    def _call(self, name: str, *numbers: int) -> int:
        return _answer(getattr(_library, f"l6_offset_{name}")(ctypes.byref(self._raw), *map(_checked, numbers)))

    def close(self) -> None:
        """Gives the memory back. No further call is answered."""
        self._call("close")

    def get(self, level: int) -> int:
        """Gets a block at the lowest open place, and answers that."""
        return self._call("get", level)

    def find(self, level: int) -> int:
        """The place that a get would give."""
        return self._call("find", level)

    def reserve(self, level: int, place: int) -> None:
        """Puts a block at a place, if it is open."""
        self._call("reserve", level, place)

    def free(self, place: int) -> None:
        """Frees the block that begins at a place."""
        self._call("free", place)

    def level(self, place: int) -> int:
        """The level of the block that begins at a place."""
        return self._call("level", place)

    def blocks(self) -> Iterator[tuple[int, int]]:
        """The place and the level of each block, places rising."""
        place = 0
        while True:
            try:
                place = self._call("next", place)
            except OffsetError as error:
                if error.fault is Fault.NO_BLOCK:
                    return
                raise
            yield place, self.level(place)
            place += 1

    def largest(self) -> int:
        """The level of the largest open piece."""
        return self._call("largest")

    def piece(self, place: int) -> int:
        """The level of the largest open piece that has a place."""
        return self._call("piece", place)

    def most(self) -> int:
        """The most places that blocks had at once, since it was opened or reset."""
        return self._call("most")

    def free_places(self) -> int:
        """How many places lie in no block."""
        return self._call("free_places")

    def reset(self) -> None:
        """Frees all blocks."""
        self._call("reset")
