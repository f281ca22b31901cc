"""Processors and memory, which checks that run side by side share."""
from __future__ import annotations

import contextlib
import os
import re
import threading
from collections.abc import Iterator
from pathlib import Path

# What a control group allows: a quota of processor time in each period, and a limit of memory.
QUOTA = Path("/sys/fs/cgroup/cpu.max")
LIMIT = Path("/sys/fs/cgroup/memory.max")
HELD = Path("/sys/fs/cgroup/memory.stat")

ALL_MEMORY = 1 << 62  # requested for a check that is to run alone


def processors() -> int:
    """How many processors this process may use."""
    found = len(os.sched_getaffinity(0))
    with contextlib.suppress(OSError, ValueError):
        quota, period = map(int, QUOTA.read_text().split())
        found = min(found, max(quota // period, 1))
    return found


def free_memory() -> int:
    """How many bytes of memory are free."""
    free = 1024 * number_after("MemAvailable:", Path("/proc/meminfo"))
    with contextlib.suppress(OSError, ValueError):
        limit = int(LIMIT.read_text())
        free = min(free, max(limit - number_after("anon", HELD), 0))
    return free


def number_after(word: str, file: Path) -> int:
    """The number after a word that begins a line of a file."""
    found = re.search(rf"^{re.escape(word)}\s+(\d+)", file.read_text(), re.MULTILINE)
    if found is None:
        raise ValueError(f"{file} has no line {word}")
    return int(found[1])


def usable_memory() -> int:
    """How many bytes of the free memory checks may share, since some take more than was estimated."""
    return free_memory() * 85 // 100


class Lanes:
    """A number of lanes, and memory, which are lent to checks that run side by side."""

    def __init__(self, lanes: int) -> None:
        self._lanes = lanes
        self._memory = usable_memory()
        self._running = 0
        self._waiting: list[int] = []  # the work of each check that waits
        self._changed = threading.Condition()

    @contextlib.contextmanager
    def lane(self, memory: int, work: int) -> Iterator[None]:
        """Lends a lane and memory, once both are free and no check with more work waits.

        A check that requests more memory than there is runs alone.
        """
        with self._changed:
            self._waiting.append(work)
            self._changed.wait_for(lambda: self._is_free(memory) and work == max(self._waiting))
            self._waiting.remove(work)
            self._running += 1
            self._memory -= memory
            self._changed.notify_all()
        try:
            yield
        finally:
            with self._changed:
                self._running -= 1
                self._memory += memory
                self._changed.notify_all()

    def _is_free(self, memory: int) -> bool:
        """Whether a lane and so many bytes are free."""
        return self._running == 0 or (self._running < self._lanes and memory <= self._memory)
