"""Places without words: gets and frees by the library and by allocators with lists, by time and by instructions."""
from __future__ import annotations

from collections.abc import Iterator
from pathlib import Path

from measure import Command, collected, compiled, run_well

HERE = Path(__file__).resolve().parent
LIBRARY = HERE.parent / "library"
PLACES_ARCHIVE = HERE.parent / "dist/l6_offset.a"
TOPS = (10, 20)
WORKS = {
    "none": "a get and its free, nothing halved",
    "all": "a get and its free, all levels halved and joined",
    "mix": "a call of a mix of 1 to 256 places",
}
KINDS = {"proved": "the proved places", "lists": "a buddy system with lists", "classes": "classes of sizes"}
ROUNDS, COUNTED = 1_000_000, 10_000


def measured(times: int, folder: str) -> Iterator[list[str]]:
    """Of each memory and work by each allocator: the least nanoseconds, and the instructions, a round."""
    program = compiled(HERE / "places.c", folder, LIBRARY / "heap.c", PLACES_ARCHIVE)

    def command(work: str, kind: str, top: int, rounds: int) -> Command:
        return Command([program, work, kind, str(top), str(rounds)])

    for top in TOPS:
        for work, what in WORKS.items():
            for kind, by in KINDS.items():
                least = min(float(run_well(command(work, kind, top, ROUNDS)).stdout) for _ in range(times))
                few, more = (collected(command(work, kind, top, count * COUNTED)) for count in (1, 2))
                yield [f"2^{top}", what, by, f"{least:.0f}", f"{(more - few) / COUNTED:.0f}"]
