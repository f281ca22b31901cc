"""What pages, header, module and crate say of places without words: the calls are made, and the words follow from them."""
from __future__ import annotations

import ctypes
import re
from collections.abc import Iterator

from page_tables import plain, text_of
from store_room import UNTOUCHED, Heap, Made, both_libraries, places
from told import either, in_words, the_one, told
from trials import Trial

PLACES, ALLOCATOR, LIBRARY, CHANGES = "docs/places.md", "docs/allocator.md", "docs/library.md", "CHANGELOG.md"
HEADER, MODULE, CRATE = "library/l6_offset.h", "library/python/l6_offset.py", "library/rust_offset/src/lib.rs"
BOTH = (MODULE, CRATE)
ALL = (HEADER, *BOTH)
CANARIES = (
    (PLACES, "gives the **lowest** place", "gives the **highest** place"),
    (PLACES, "a place outside has neither", "a place inside has neither"),
    (HEADER, "any open place may be reserved", "no open place may be reserved"),
    (MODULE, "The most places that blocks had", "The fewest places that blocks had"),
    (CRATE, "The level of the largest open", "The level of the least open"),
    (ALLOCATOR, "| a free of what is no block | answered", "| a free of what is no block | an assertion"),
)


def opened(*numbers: int) -> Made:
    """A new store; a compiler is there."""
    made = places(*numbers)
    assert made
    return made


def gets() -> Iterator[Trial]:
    """Which place a get gives, and what `find` leaves as it was."""
    made = opened(4)
    blocks = [made("get", 1) for _ in range(8)]
    for block in (blocks[5], blocks[2], blocks[6]):
        made("free", block)
    found = made("find", 1)
    looked = made("level", found) == -6
    state = made.state()
    full = made("get", 2) == -8 and made.state() == state
    got = made("get", 1)
    word = the_one({"lowest": got == 4, "highest": got == 12, "last": got == blocks[6]})
    reserved = {opened(4)("reserve", 0, place) for place in range(16)} == {0}
    for page in (PLACES, HEADER):
        yield told(page, r"A get gives the (\w+) place that is (\w+)[;.] ?(\w+) open place may be (\w+)", word, "open", either(reserved, "any", "no"), "reserved")
    for page in ALL:
        yield told(page, r"Gets a block at the (\w+) open place, and answers that", word)
    for page in (HEADER, *BOTH):
        yield told(page, r"The place that a (\w+) would give", either(found == got, "get", "free"))
    yield told(PLACES, r"l6_offset_get \| the (\w+) open place of a level, where a block is (\w+) \|", word, either(made("level", got) == 1, "then", "not"))
    yield told(PLACES, r"l6_offset_find \| that place, and (\w+) block is there \|", either(looked and found == got, "no", "a"))
    yield told(ALLOCATOR, r"what is given \| the (\w+) open aligned place \|", word)
    yield told(CHANGES, r"an offset allocator that gives the (\w+) open place, and reserves (\w+)\.", word, either(reserved, "any", "none"))
    yield told(ALLOCATOR, r"a place of the caller's choice \| (\w+) \|", either(reserved, "reserve", "no"))
    yield told(PLACES, r"FULL is answered exactly if (\w+) place is open: a get is (\w+) refused for the state", either(full, "no", "some"), "never")
    yield told(HEADER, r"FULL = -8 /\* (\w+) place is open", either(full, "no", "some"))
    yield told(CRATE, r"/// (\w+) place is open\.", either(full, "No", "Some"))


def reserves() -> Iterator[Trial]:
    """Where a block may be."""
    made = opened(5, 4, 20)
    answers = {
        "open": made("reserve", 1, 8), "odd": made("reserve", 1, 13), "outside": made("reserve", 1, 20), "before": made("reserve", 0, 3),
        "shared": made("reserve", 2, 8),
    }
    apart = opened(4)
    other = apart("reserve", 2, 8), apart("level", 8)
    refused = {name for name, answer in answers.items() if answer == -7}
    yield told(PLACES, r"A place is open if a block of the level would begin at a (\w+) of its size, lie (\w+) the places that are given out, and share (\w+) "
               r"with another block", either("odd" in refused, "multiple", "part"), either({"outside", "before"} <= refused, "among", "outside"),
               either("shared" in refused, "none", "some"))
    yield told(PLACES, r"l6_offset_reserve \| 0: a block is at the place that was (.*?) \|", either(other == (0, 2), "asked for", "found"))
    yield told(HEADER, r"Puts a block at a place, if it is a (\w+) of the block's size and (\w+) its places are (\w+)", either(
        "odd" in refused, "multiple", "part"), either("shared" in refused, "all", "some"), "open")
    for page in BOTH:
        yield told(page, r"Puts a block at a place, if it is (\w+)\.", either(answers["open"] == 0 and "shared" in refused, "open", "taken"))
    for page in (HEADER, CRATE):
        yield told(page, r"[Aa] block of the level may (\w+) be at the place", either("odd" in refused, "not", "now"))
    begins, inside, beyond = made("level", 8), made("level", 9), made("piece", 24)
    yield told(PLACES, r"a place (\w+) has neither a block nor a piece", either(beyond == -7 == made("piece", 0), "outside", "inside"))
    yield told(PLACES, r"l6_offset_level \| the level of the block that (\w+) at a place", either(begins == 1 and inside == -6, "begins", "ends"))
    for page in ALL:
        yield told(page, r"The level of the block that (\w+) at a place", either(begins == 1 and inside == -6, "begins", "ends"))
    yield told(PLACES, r"l6_offset_free_places \| how many places lie in (\w+) block", either(made("free_places") == 14, "no", "a"))
    for page in ALL:
        yield told(page, r"How many places lie in (\w+) block", either(made("free_places") == 14, "no", "a"))
    orders = [opened(4)("open", 4, 0, 16), Made(made.library, made.name)("open", 4, 9, 8), Made(made.library, made.name)("open", 4, 0, 17)]
    for page in (HEADER, CRATE):
        yield told(page, r"[Aa] top above 24, or an end (\w+) the first place or (\w+) 2\^top", *(
            ("before", "past") if orders == [-2, -3, -3] else (str(orders), "")))


def walks() -> Iterator[Trial]:
    """Blocks and pieces, by the calls that look for them."""
    made = opened(4)
    for level, place in ((1, 0), (2, 8), (0, 13)):
        made("reserve", level, place)
    after = [made("next", it) for it in (1, 8, 9, 14)]
    largest = the_one({"largest": made("largest") == 2, "least": made("largest") == 0})
    piece = the_one({"largest": [made("piece", 4), made("piece", 14)] == [2, 1], "least": {made("piece", 4), made("piece", 14)} == {0}})
    yield told(PLACES, r"l6_offset_next \| the (\w+) place from one on at which a block (\w+) \|", *(
        ("first", "begins") if after == [8, 8, 13, -6] else (str(after), "")))
    yield told(PLACES, r"l6_offset_largest \| the level of the (\w+) open piece \|", largest)
    yield told(PLACES, r"l6_offset_piece \| the level of the (\w+) open piece that has a place, and begins at a (\w+) of its size", piece, either(
        (made("piece", 6), made("piece", 2)) == (2, 1), "multiple", "part"))
    for page in (HEADER, CRATE):
        yield told(page, r"The (\w+) place from one on at which a block (\w+)\.", *(("first", "begins") if after[1:] == [8, 13, -6] else (str(after), "")))
    for page in ALL:
        yield told(page, r"The level of the (\w+) open piece(?!\w| that)", largest)
        yield told(page, r"The level of the (\w+) open piece that has a place", piece)
    yield told(HEADER, r"L6_OFFSET_NO_BLOCK = -6, /\* (\w+) block (\w+) at the place, or (\w+) it \*/", "no", either(made("level", 9) == -6, "begins", "ends"),
               either(after[3] == -6 != after[2], "behind", "before"))
    yield told(MODULE, r"The place and the level of (\w+) block, places (\w+)\.", "each", either(after[:3] == sorted(after[:3]), "rising", "falling"))
    yield walk_of_all(made)
    made("free", 8)
    gone = made("level", 8) == -6 and made("level", 0) == 1
    yield told(PLACES, r"l6_offset_free \| 0: the block that (\w+) at a place is (\w+) \|", either(made("free", 1) == -6, "began", "ended"), either(gone, "gone", "there"))
    for page in ALL:
        yield told(page, r"Frees the block that (\w+) at a place\.", either(gone and made("free", 1) == -6, "begins", "ends"))
    yield told(ALLOCATOR, r"a free of what is no block \| (\w+) \|", either(made("free", 5) == -6, "answered", "ignored"))


def walk_of_all(made: Made) -> Trial:
    """The report of the page: from each block or piece on to the next one, by the calls that it names."""
    named = (re.findall(r"is a walk by `(\w+)` and `(\w+)`\.", text_of(PLACES)) or [("level", "level")])[0]
    walked: list[tuple[int, bool]] = []
    place = 0
    while place < 16:
        sizes = [made(call, place) for call in named]
        if max(sizes) < 0:
            break
        walked.append((place, sizes[0] >= 0))
        place += 1 << max(sizes)
    whole = place == 16 and walked == sorted(walked)
    return told(PLACES, r"is a walk by \w+ and \w+\. This one prints (\w+), places (\w+),", either({it for _, it in walked} == {True, False}, "both", "one"), either(
        whole, "rising", "falling"))


def most_and_levels() -> Iterator[Trial]:
    """How many places blocks had at once, a reset, and the level for some places."""
    made = opened(4)
    for level in (2, 3):
        made("free", made("get", level))
    most = made("most")
    made("get", 1)
    kept = made("most")
    made("reset")
    gone = made("next", 0) == -6 and made("free_places") == 16
    word = the_one({"most": most == kept == 8, "last": kept == 2, "fewest": most == 0})
    since = either(made("most") == 0, "reset", "closed")
    level = made("level_for", 33)
    least = the_one({"least": 1 << level >= 33 > 1 << level - 1, "largest": level == 24})
    yield told(PLACES, r"l6_offset_most \| the (\w+) places that blocks had at once, since it was (\w+) or (\w+) \|", word, "opened", since)
    for page in ALL:
        yield told(page, r"The (\w+) places that blocks had at once, since (?:it|the store) was (\w+) or (\w+)", word, "opened", since)
        yield told(page, r"Frees (\w+) blocks\.", either(gone, "all", "some"))
    yield told(CHANGES, r"says which free piece has a place, and how many places were used at (\w+)\.", word)
    yield told(PLACES, r"l6_offset_reset \| 0: (\w+) blocks are (\w+) \|", either(gone, "all", "no"), either(gone, "gone", "there"))
    yield told(PLACES, r"l6_offset_level_for \| the (\w+) level whose blocks have so many places", least)
    yield told(HEADER, r"The (\w+) level whose blocks have so many places\. Fault: BAD_LEVEL, (\w+) 2\^24 places", least, either(
        made("level_for", (1 << 24) + 1) == -5 and made("level_for", 1 << 24) == 24, "above", "below"))
    for page in BOTH:
        yield told(page, r"The (\w+) level whose blocks have at (\w+) so many places", least, "least")
    yield told(PLACES, r"sizes are rounded (\w+) to powers of two", either(1 << made("level_for", 1172) == 2048, "up", "down"))
    yield told(ALLOCATOR, r"sizes \| powers of two; up to (\w+) a block is lost", either((1 << level) - 33 == 31 and 1 << level == 64, "half", "all"))
    yield told(ALLOCATOR, r"a request of 33 places takes (\d+) here", str(1 << level))
    aligned = opened(4)
    aligned("get", 0)
    yield told(ALLOCATOR, r"alignment \| each block is aligned to its (\w+); more by a (\w+) level", either(
        aligned("get", 2) % 4 == 0, "size", "place"), either(aligned("get", 3) % 8 == 0, "larger", "smaller"))


def memory() -> Iterator[Trial]:
    """What is asked of the heap, and which memory is written."""
    made = opened(6)
    board = {size: address for size, address in made.regions.items() if size in (64, 128)}
    written = bytes([UNTOUCHED]) * 8 not in b"".join(made.memory(size) for size in board)
    new = [made.memory(size) for size in board]
    before = made.heap()
    for call, numbers in (("get", (3,)), ("free", (0,)), ("reserve", (2, 8)), ("find", (1,)), ("largest", ()), ("piece", (0,)), ("next", (0,))):
        made(call, *numbers)
    for size, address in board.items():
        ctypes.memset(address, UNTOUCHED, size)
    answer = made("reset")
    # (the first entry of the tree is of no piece)
    again = answer == 0 and sum(one != other for size, old in zip(board, new) for one, other in zip(made.memory(size), old)) <= 1
    others = made.heap() - before
    yield told(PLACES, r"(\w+) and (\w+) write all of the memory", either(written, "open", "none"), either(again, "reset", "none"))
    yield told(HEADER, r"Frees all blocks\. It writes (\w+) of the store's memory", either(again, "all", "none"))
    yield told(PLACES, r"It asks for them when it is (\w+), in (\w+) requests, and for (\w+) afterwards", either(made.opening.asked > 0, "opened", "used"),
               in_words(made.opening.asked), either(others == Heap(0, 0, 0), "nothing", "more"))
    most = (3 << 6) + 256
    yield told(HEADER, r"l6_offset_open asks the heap (\w+) times, for L6_OFFSET_BYTES\(top\) together at (\w+), and (\w+) other call asks", in_words(
        made.opening.asked), either(made.opening.bytes <= most, "most", "least"), either(others == Heap(0, 0, 0), "no", "each"))
    each = sum(size for size in board) // (1 << 6)
    blocks = opened(6)("next", 0)
    yield told(HEADER, r"Opens a store of the places from the (\w+) one up to an end, (\w+) blocks\. It writes (\d) bytes for each", either(
        opened(6, 5, 9)("find", 0) == 5, "first", "last"), either(blocks == -6, "without", "with"), str(each))
    yield told(HEADER, r"How many bytes a store of a top asks for at (\w+)\.", either(made.opening.bytes <= most, "most", "least"))
    made("close")
    back = (made.heap() - before).given_back == made.opening.asked
    yield told(PLACES, r"l6_offset_close \| 0: the memory is (.*?) \|", either(back, "given back", "kept"))
    yield told(HEADER, r"Closes a store, and (\w+) its memory (\w+)\. ", *either(back, "gives back", "keeps there").split())
    yield told(MODULE, r"Gives the memory (\w+)\. (\w+) further call is answered", either(back, "back", "on"), either(made("most") == -1, "No", "Each"))
    yield told(ALLOCATOR, r"what it takes for itself \| 3 bytes a place, (\w+) at once, and (\w+) more", either(
        made.opening.asked == 3 and others.asked == 0, "all", "some"), either(others.asked == 0, "never", "then"))


def faults() -> Iterator[Trial]:
    """What is there after a fault, and what a closed store answers."""
    made = opened(4)
    made("get", 2)
    state = made.state()
    answers = [made(call, *numbers) for call, numbers in (
        ("get", (5,)), ("get", (4,)), ("find", (4,)), ("reserve", (0, 1)), ("reserve", (1, 15)), ("free", (1,)), ("level", (1,)), ("next", (1,)),
        ("open", (4, 0, 16)), ("piece", (0,)))]
    same = max(answers) < 0 and made.state() == state
    yield told(PLACES, r"A fault is (\w+) 0, and then (\w+) has changed", either(max(answers) < 0, "below", "above"), either(same, "nothing", "much"))
    yield told(HEADER, r"or a fault, which is (\w+) 0; after a fault the store is (.*?)\. Above", either(max(answers) < 0, "below", "above"), either(
        same, "as it was", "another"))
    passed = [made(call, *[fault] * count) for fault in answers for call, count in (("get", 1), ("free", 1), ("reserve", 2), ("level", 1))]
    yield told(PLACES, r"A fault that is passed on is (\w+) level and (\w+) place, so (\w+) is done", *["no" if max(passed) < 0 else "a"] * 2, either(
        made.state() == state, "nothing", "something"))
    yield told(HEADER, r"A fault that is passed on is (\w+) level and (\w+) place, so (\w+) is done", *["no" if max(passed) < 0 else "a"] * 2, either(
        made.state() == state, "nothing", "something"))
    never, other = Made(made.library, "l6_offset"), opened(4)
    made("reserve", 0, 9)
    yield told(HEADER, r"Two stores share (\w+) but the heap", either(other("level", 9) == -6 and made("free", 9) == 0, "nothing", "all"))
    made("reset")
    made("get", 2)
    calls = re.findall(r"\bint64_t l6_offset_(\w+)\(", text_of(HEADER))
    others = sorted(call for call in calls if never(call, 25, 0, 0) != -1)
    for page, pattern in ((HEADER, r"all but l6_offset_(\w+), l6_offset_(\w+) and l6_offset_(\w+) also answer IS_CLOSED"),
                          (PLACES, r"All calls but (\w+), (\w+) and (\w+) also answer IS_CLOSED")):
        yield f"{page}: the calls that do not answer IS_CLOSED", [others], [sorted(it) for it in re.findall(pattern, plain(text_of(page)))]
    looks = re.findall(r"int64_t l6_offset_(\w+)\((const )?l6_offset \*", text_of(HEADER))
    only = [call for call, const in looks if const]
    for number in (0, 1, 8):
        for call in only:
            made(call, number)
    yield told(LIBRARY, r"A pointer to const says that a call only (\w+)\.", either(made.state() == state, "looks", "changes"))
    methods = dict(re.findall(r"pub fn (\w+)\((&(?:mut )?self)", text_of(CRATE)))
    yield told(PLACES, r"of which those that only look take (&\w+);", " and ".join({methods.get(call, f"no {call}") for call in only}))


def places_sentences(_: str) -> Iterator[Trial]:
    """All of them."""
    if not both_libraries():
        print("skipped: the words of pages on places: there is no compiler")
        return
    for group in (gets, reserves, walks, most_and_levels, memory, faults):
        yield from group()
