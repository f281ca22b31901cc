"""What the headers of C, docs/library.md and docs/places.md say of faults, blocks, versions and who uses the heap: calls are made."""
from __future__ import annotations

import random
import re
from collections.abc import Iterator

from page_figures import in_source
from page_tables import table_with, text_of
from store_room import Made, both_libraries
from told import either, in_words, told
from trials import Trial

STORE, OFFSET, LIBRARY, PLACES = "library/l6_store.h", "library/l6_offset.h", "docs/library.md", "docs/places.md"
CANARIES = (
    (STORE, "/* no block begins at the place */", "/* a block begins at the place */"),
    (OFFSET, "or an end before the first place", "or an end behind the first place"),
    (LIBRARY, "above each call those that it may answer", "below each call those that it may answer"),
    (PLACES, "| 0: all blocks are gone |", "| 0: all blocks are there |"),
)
WIDE = 1 << 36  # a number that is no word
CALLS = re.compile(r"/\* ((?:(?!\*/).)*) \*/\s*int64_t (l6_\w+?)_(\w+)\(([^)]*)\);", re.DOTALL)


def opened(name: str, *numbers: int) -> Made:
    """A new store; a compiler is there."""
    library = both_libraries()
    assert library
    return Made(library, name, *(numbers if name == "l6_store" or len(numbers) > 1 else (*numbers, 0, 1 << numbers[0])))


def told_fault(page: str, name: str, number: int, words: str, *seen: str) -> Trial:
    """The trial of what stands beside a fault in a header, of which the number was answered."""
    return told(page, rf"{name} = (-\d+),? +/\* {words} \*/", str(number), *seen)


def of_words() -> Iterator[Trial]:
    """The faults of the store of words."""
    made = opened("l6_store", 1)
    level = made("get", 11), made("level_for", 1025), made("level_for", 1024)
    yield told_fault(STORE, "BAD_LEVEL", level[0], r"(\w+) block has this level, or so many (\w+)", either(level[0] == level[1] < 0 <= level[2], "no", "a"), "words")
    nowhere = {made("free", 1024), made("live", 1025), made("read", 0, 0)}
    yield told_fault(STORE, "NO_BLOCK", max(nowhere), r"(\w+) block begins at the place", either(len(nowhere) == 1 and max(nowhere) < 0, "no", "a"))
    one, two = made("get", 0), made("get", 1)
    words = made("read", one, 1), made("write", two, 2, 0), made("read", two, 1)
    yield told_fault(STORE, "NO_WORD", words[0], r"the block has (\w+) such word", either(words[0] == words[1] < 0 == words[2], "no", "a"))
    wide = made("write", one, 0, WIDE), made("write", one, 0, WIDE - 1)
    yield told_fault(STORE, "BAD_WORD", wide[0], r"the word takes (\w+) than (\d+) bits", either(wide[0] < 0 == wide[1], "more", "less"), str((WIDE - 1).bit_length()))
    unlike = made("copy", one, one), made("copy", one, two), made("copy", one, made("get", 0))
    yield told_fault(STORE, "NOT_ALIKE", unlike[0], r"the blocks are (\w+), or of (\w+) sizes", *(
        ("one", "two") if unlike[0] == unlike[1] < 0 == unlike[2] else (str(unlike), "")))
    fresh = [(opened("l6_store", 1)("get", it), it) for it in range(11)]
    aligned = either(all(place and place % (1 << level) == 0 for place, level in fresh), "multiple", "part")
    yield told(STORE, r"has 2\^k (\w+) and begins at a (\w+) of 2\^k; its place is the number of its (\w+) word", "words", aligned, "first")
    ends = {made("read", block, (1 << level) - 1) >= 0 > made("read", block, 1 << level) for level, block in ((0, one), (1, two))}
    yield told(LIBRARY, r"A \*block\* of level k has (2\^k) words, and k is", either(ends == {True}, "2^k", "k"))
    counted = made("read", two, 0), made("read", two, 1), made("read", two, 2)
    yield told(STORE, r"indexes are counted from (\d)\.", either(counted[0] >= 0 <= counted[1] and counted[2] < 0, "0", "1"))


def of_places() -> Iterator[Trial]:
    """The faults of the store of places."""
    made = opened("l6_offset", 4)

    def opens(*numbers: int) -> int:
        """What is answered to opening with these numbers."""
        return Made(made.library, "l6_offset")("open", *numbers)
    bad = opens(25, 0, 8), opens(4, 8, 7), opens(4, 0, 17), opens(4, 0, 16)
    yield told_fault(OFFSET, "BAD_PLACES", bad[0], r"a top (\w+) (\d+), or an end (\w+) the first place or (\w+) 2\^top", *(
        ("above", "24", "before", "past") if bad[0] == bad[1] == bad[2] < 0 == bad[3] else (str(bad), "", "", "")))
    level = made("get", 5), made("level_for", (1 << 24) + 1), made("level_for", 1 << 24)
    yield told_fault(OFFSET, "BAD_LEVEL", level[0], r"(\w+) block has this level, or so many (\w+)", either(level[0] == level[1] < 0 <= level[2], "no", "a"), "places")
    block = made("reserve", 0, 5) or 5
    nowhere = made("free", 4), made("level", 4), made("next", 6), made("next", 5)
    yield told_fault(OFFSET, "NO_BLOCK", nowhere[0], r"(\w+) block begins at the place, or (\w+) it", *(
        ("no", "behind") if nowhere[0] == nowhere[1] == nowhere[2] < 0 and nowhere[3] == block else (str(nowhere), "")))
    closed = made("reserve", 1, 4), made("reserve", 1, 7), made("reserve", 1, 6)
    yield told_fault(OFFSET, "NOT_OPEN", closed[0], r"a block of the level may (\w+) be at the place", either(closed[0] == closed[1] < 0 == closed[2], "not", "also"))
    fresh = [(opened("l6_offset", 10)("get", it), it) for it in range(11)]
    aligned = either(all(place % (1 << it) == 0 for place, it in fresh), "multiple", "part")
    yield told(OFFSET, r"has 2\^k (\w+) and begins at a (\w+) of that\. A top", "places", aligned)
    yield told(PLACES, r"A \*block\* of level k has (2\^k) places and begins at a (\w+) of that", "2^k", aligned)
    bounds = opened("l6_offset", 4, 3, 7)
    given = [place for place in range(16) if bounds("piece", place) >= 0]
    yield told(PLACES, r"A store gives out the places from a (\w+) one up to an (\w+), at most", *(("first", "end") if given == [3, 4, 5, 6] else (str(given), "")))


def rows() -> Iterator[Trial]:
    """The rows of calls that answer 0, and of the version."""
    made = opened("l6_offset", 4, 2, 12)
    given = [place for place in range(16) if made("piece", place) >= 0]
    yield told(PLACES, r"l6_offset_open \| (\d): the places from first (up to) end are (\w+) out", str(made("reset")), either(given == [*range(2, 12)], "up to", "after"), "given")
    put = made("reserve", 1, 4), made("level", 4)
    yield told(PLACES, r"l6_offset_reserve \| (\d): a block is (\w+) the place that was asked for", str(put[0]), either(put[1] == 1, "at", "behind"))
    freed = made("free", 4), made("level", 4)
    yield told(PLACES, r"l6_offset_free \| (\d): the block that began at a place is (\w+) \|", str(freed[0]), either(freed[1] < 0, "gone", "there"))
    blocks = [made("reserve", 0, it) for it in (3, 9)]
    reset = made("reset"), made("next", 0), blocks
    yield told(PLACES, r"l6_offset_reset \| (\d): (\w+) blocks are (\w+) \|", str(reset[0]), either(reset[1] < 0, "all", "no"), either(reset[1] < 0, "gone", "there"))
    before = made.heap()
    closing = made("close"), (made.heap() - before).given_back, made.opening.asked
    yield told(PLACES, r"l6_offset_close \| (\d): the memory is (\w+) back", str(closing[0]), either(closing[1] == closing[2], "given", "held"))
    requests = in_words(opened("l6_offset", 4).opening.asked)
    yield told(PLACES, r"when it is opened, in (\w+) requests, and for (\w+) afterwards", requests, "nothing")
    version = made("version")
    dotted = f"{version // 10000}.{version // 100 % 100}.{version % 100}"
    for page, name in ((STORE, "L6_STORE"), (OFFSET, "L6_OFFSET")):
        text = re.findall(rf'#define {name}_VERSION "([\d.]+)"', text_of(page))
        yield f"{page}: the version as a text", [dotted], text
        yield f"{page}: the version as a number", version, in_source(page, rf"^#define {name}_VERSION_NUMBER (\d+)$")
        yield told(page, r"10,000 times the (\w+) number, 100 times the (\w+), and the (\w+)\.", *either(text == [dotted], "first second third", "? ? ?").split())
    yield told(PLACES, r"as a number: (\d+) is (\d\.\d\.\d) \|", str(version), dotted)


def answered(name: str, *numbers: int) -> dict[str, set[int]]:
    """All faults that each call answers, of many numbers and of places that were given, on stores that are open."""
    chosen, seen = random.Random(1), dict[str, set[int]]()
    calls = [it for _, of, it, _ in CALLS.findall(text_of(f"library/{name}.h")) if of == name and it not in ("close", "open")]
    for _ in range(60):
        made, known = opened(name, *numbers), [0, 1, 2, 3, 4, 10, 11, 1024, 1 << 25]
        for _ in range(200):
            call = chosen.choice((*calls, "get"))
            answer = made(call, chosen.choice(known), chosen.choice(known), chosen.choice((1, WIDE)))
            seen.setdefault(call, set()).update({answer} if answer < 0 else ())
            known += [answer] if call == "get" and answer > 0 else []
    return seen


def above_calls() -> Iterator[Trial]:
    """Above each call are the faults that it may answer, and no others."""
    sides = set()
    for page, name, numbers in ((STORE, "l6_store", (1,)), (OFFSET, "l6_offset", (4, 0, 16))):
        faults = {int(number): fault for fault, number in re.findall(r"\bL6_(?:STORE|OFFSET)_(\w+) = (-\d+)", text_of(page))}
        seen = answered(name, *numbers)
        for words, of, call, _ in CALLS.findall(text_of(page)):
            said = set(re.findall(r"\b[A-Z]{2,}(?:_[A-Z]+)?\b", words.partition("Fault")[2]))
            if of == name and call not in ("open", "close"):
                yield f"{page}: the faults of {call}", said, {faults[it] for it in seen[call]}
                sides |= {"above"} if said >= {faults[it] for it in seen[call]} else {"elsewhere"}
    yield told(LIBRARY, r"and (\w+) each call those that it may answer", "".join(sorted(sides)))


def heap() -> Iterator[Trial]:
    """Which calls use the heap: those that open and close."""
    using: dict[str, list[str]] = {}
    for page, name, numbers in ((STORE, "l6_store", (1,)), (OFFSET, "l6_offset", (4, 0, 16))):
        made = opened(name, *numbers)
        for _, of, call, _ in CALLS.findall(text_of(page)):
            before = made.heap()
            made(call, *(numbers if call == "open" else (0, 0, 0)))
            if of == name and made.heap() != before:
                using.setdefault(page, []).append(call)
            made = made if call != "close" else opened(name, *numbers)
        closed = Made(made.library, name)
        before = closed.heap()
        closed("open", *numbers)
        using[page] = (["open"] if closed.heap() != before else []) + using.get(page, [])
    for page in (STORE, OFFSET):
        yield told(page, r"Since calls that (\w+) and (\w+) use the heap, they are made", *using[page])
    yield told(LIBRARY, r"Calls that (\w+) or (\w+) use the heap, so they are made (\w+) in a handler", *using[STORE], "neither")
    never = {Made(opened("l6_store", 1).library, name)("reset") for name in ("l6_store", "l6_offset")}
    yield told(LIBRARY, r"a struct begins as L6_STORE_CLOSED \(all bytes (\d), as a (\w+) variable", either(never == {-1}, "0", "1"), "static")


def table_of_calls() -> Iterator[Trial]:
    """Each call of the header has a row, in which its faults are those above it."""
    table = table_with(text_of(PLACES), "Call", "What it answers", "Faults")
    yield f"{PLACES}: the calls of the header", sorted(f"{of}_{call}" for _, of, call, _ in CALLS.findall(text_of(OFFSET))), sorted(
        row[0].strip("`") for row in table.rows)


def fault_sentences(_: str) -> Iterator[Trial]:
    """All of them."""
    if not both_libraries():
        print("skipped: the words of pages on faults: there is no compiler")
        return
    for group in (of_words, of_places, rows, above_calls, heap, table_of_calls):
        yield from group()
