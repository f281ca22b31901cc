"""The store: its blocks, and the lists of its free pieces, by which places are given."""
from __future__ import annotations

UNIT = 1_024  # words; also the place of the first unit
SIZES = [2**k for k in range(11)]


class Store:
    """A store of so many units."""

    def __init__(self, units: int) -> None:
        self.end = UNIT + units * UNIT  # the place behind the last word
        self.blocks: dict[int, list[int]] = {}  # the words of each block, by its place
        self.free_lists: dict[int, list[int]] = {size: [] for size in SIZES}  # places of pieces, by size
        self.free_lists[UNIT] = list(range(UNIT, self.end, UNIT))

    def get(self, words: int) -> int | None:
        """Gets a block of zeros of at least so many words, and answers its place; none if none can be had."""
        wanted = min(size for size in SIZES if words <= size)
        fitting = [size for size in SIZES if wanted <= size and self.free_lists[size]]
        if not fitting:
            return None
        size = min(fitting)
        place = self.free_lists[size].pop(0)
        while wanted < size:
            size //= 2
            self.free_lists[size].insert(0, place + size)
        self.blocks[place] = [0] * wanted
        return place

    def may_join(self, size: int) -> bool:
        """Whether a piece of so many words is joined with its buddy if that is free."""
        return size < UNIT

    def free(self, place: int) -> None:
        """Frees the block at a place, and joins the free piece with its buddy, as often as that is free."""
        size = len(self.blocks.pop(place))
        while self.may_join(size):
            # Two buddies are the halves of a piece of twice their size, which begins at a multiple of that.
            joined = place - place % (2 * size)
            buddy = joined if place != joined else joined + size
            if buddy not in self.free_lists[size]:
                break
            self.free_lists[size].remove(buddy)
            place, size = joined, 2 * size
        self.free_lists[size].insert(0, place)
