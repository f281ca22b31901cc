"""What pages say of the store's free lists, their links and its faults: they are looked at, also in the memory itself."""
from __future__ import annotations

import re
from collections.abc import Iterator

from model.store import Store
from page_tables import plain, text_of
from store_room import Made, both_libraries, store
from told import either, in_words, told
from trials import Trial

HEADER, MODULE, CRATE, OFFSET = "library/l6_store.h", "library/python/l6_store.py", "library/rust/src/lib.rs", "library/l6_offset.h"
LIBRARY, ALLOCATOR, TRACE, HISTORY = "docs/library.md", "docs/allocator.md", "docs/trace.md", "docs/history.md"
HALF = 18  # bits of a word that hold a place
CANARIES = (
    (ALLOCATOR, "place before in its upper", "place before in its lower"),
    (ALLOCATOR, "goes to the\nfront of its list. So freeing", "goes to the\nend of its list. So freeing"),
    (HEADER, "after a fault the store is as it was", "after a fault the store is as it was made"),
    (LIBRARY, "Two stores share nothing", "Two stores share all"),
    (LIBRARY, "in the order in which gets take them", "in the order in which frees take them"),
)


def opened(units: int = 1) -> Made:
    """A new store; a compiler is there."""
    made = store(units)
    assert made
    return made


def halvings() -> Iterator[Trial]:
    """Which half is listed, which is kept, and where the buddy of each is."""
    made = opened()
    block = made("get", 9)
    upper = made.lists()[9] == [1024 + 512]
    again = opened()
    lower, higher = again("get", 0), again("get", 0)  # (1024 is a multiple of 2, and 1025 is not)
    again("free", higher)
    alone = again("moves")
    again("free", lower)
    joined = again("moves") == 10 and alone == 0
    word = {True: "after", False: "before"}
    yield told(ALLOCATOR, r"each time the (\w+) half goes to the \w+ of its level's list, and the (\w+) half is (\w+)", either(upper, "upper", "lower"),
               either(block == 1024, "lower", "upper"), either(made("live", block) == 9, "kept", "freed"))
    yield told(ALLOCATOR, r"A piece at a multiple of (\w+) its size is the (\w+) half and has its buddy (\w+) it; any other piece has its buddy (\w+) it",
               either(lower % 2 == 0, "twice", "half"), either(lower < higher, "lower", "upper"), word[joined and higher > lower], word[lower > higher])
    yield told(ALLOCATOR, r"a piece of level k is at its place with bit k (\w+)\.", either(joined and lower ^ 1 == higher, "flipped", "kept"))
    yield told(HISTORY, r"merged with its buddy, the (\w+) half of the block that it was halved from, while the buddy is (\w+) and (\w+)\.",
               either(joined, "other", "same"), either(joined, "whole", "halved"), either(alone == 0, "free", "used"))
    yield told(HISTORY, r"the buddy is found by flipping (\w+) bit of the block's own place, so (\w+) search", in_words((lower ^ higher).bit_count()), "no")
    smaller = [Store(1).may_join(size) for size in (1, 512, 1024)]
    yield told(ALLOCATOR, r"may_join says that a piece is (\w+) than a unit", either(smaller == [True, True, False], "smaller", "larger"))


def neighbours() -> Iterator[Trial]:
    """Which neighbours are joined, and in which order pieces are listed and taken."""
    made = opened()
    for _ in range(4):
        made("get", 0)
    made("free", 1025)
    made("free", 1026)
    first = made.lists()[0]
    yield told(ALLOCATOR, r"Two neighbours of one size that are not buddies are (\w+) joined: (\d+) and (\d+) may both stay (\w+) for ever",
               either(made("moves") == 0, "never", "always"), *map(str, sorted(first)), "free")
    yield told(TRACE, r"A free piece and its buddy are joined, but neighbours that are not buddies are (\w+)\.", either(len(first) == 2, "not", "too"))
    word = either(first == [1026, 1025], "front", "end")
    yield told(ALLOCATOR, r"the result goes to the (\w+) of its list\. So freeing", word)
    yield told(TRACE, r"joined as long as its buddy is (\w+), and goes to the (\w+) of its list", "free", word)
    taken = [made("get", 0), made("get", 0)]
    by = either(taken == first, "gets", "frees")
    yield told(LIBRARY, r"in the order in which (\w+) take them, so another", by)
    for page in (MODULE, CRATE):
        yield told(page, r"The free pieces of a level, in the order in which (\w+) take them", by)
    yield told(ALLOCATOR, r"the first piece of a level and the one (\w+) any piece, in the order in which (\w+) take them", "after", by)
    made("free", 1026)
    made("free", 1025)
    yield told(LIBRARY, r"l6_store_next answers the (\w+) piece of the list", either(made("next", 0, made.lists()[0][0]) == made.lists()[0][1], "next", "last"))
    starts, ends, beyond = made("first", 0), made("next", 0, made.lists()[0][-1]), made("next", 0, 1024)
    yield told(HEADER, r"The (\w+) free piece of a level, or (\d)\. (\w+) take them in the order", either(starts == 1025, "first", "last"), str(made("first", 10)),
               by.capitalize())
    yield told(HEADER, r"The free piece of a level (\w+) one, or (\d) if that is the (\w+), or is (\w+) free piece", "after", str(ends), "last", either(
        beyond == 0, "no", "a"))
    reused = opened()
    places = [reused("get", 0) for _ in range(4)]
    for place in (places[0], places[2]):
        reused("free", place)
    taken_again = reused("get", 0)
    yield told(ALLOCATOR, r"Bug E holds (\d+), the place that was freed (\w+)\.", str(taken_again), either(taken_again == places[2], "last", "first"))


def links() -> Iterator[Trial]:
    """The links in the memory after the sixth call of the page, and after the seventh."""
    made = opened()
    for _ in range(4):
        made("get", 0)
    made("free", 1024)
    made("free", 1026)
    first, second = made.lists()[0]
    words = made.words()
    after, before = words[first] % (1 << HALF) == second, words[second] >> HALF == first
    yield told(ALLOCATOR, r"A link's word has the place (\w+) in its (\w+) 18 bits and the place (\w+) in its (\w+) 18 bits, (\d) if there is none",
               "before", either(before, "upper", "lower"), "after", either(after, "lower", "upper"), str(words[second] % (1 << HALF)))
    yield told(ALLOCATOR, r"head of level 0 \| \| \| (\d+) \| \| word at (\d+) \| (\d{12}) \| none \| (\d+) \| \| word at (\d+) \| (\d{12}) \| (\d+) \| none",
               *map(str, (first, first, f"{words[first]:012o}", second, second, f"{words[second]:012o}", first)))
    got = made("get", 0)
    words = made.words()
    yield told(ALLOCATOR, r"The seventh call takes (\d+): the head becomes (\d+), and the word at (\d+) becomes (\d{12}), since (\w+) is before it any more\. "
               r"Then the word at (\d+) is (\w+)", *map(str, (got, made("first", 0), second, f"{words[second]:012o}", either(
                   words[second] >> HALF == 0, "nothing", "a piece"), got, either(words[got] == 0, "cleared", "kept"))))


def joinings() -> Iterator[Trial]:
    """What `moves` answers where the fourth get is followed by other frees, and the eight calls of the table."""
    made = opened()
    for _ in range(4):
        made("get", 0)
    moves = []
    still = ""
    for place in (1027, 1026, 1024, 1025):
        made("free", place)
        moves.append(str(made("moves")))
        still = still or either(place == 1024 and made("live", 1025) == 0, "block", "")
    yield told(ALLOCATOR, r"moves would answer (\d+), then (\d+) \(1026 with 1027\), then (\d+), since 1025 is still a (\w+), and at last (\d+), up to the "
               r"(\w+) unit", *moves[:3], still, moves[3], either(made.lists()[10] == [1024], "whole", "half"))
    made = opened()
    gets, frees = [], []
    for level in (9, 0):
        block = made("get", level)
        gets.append(made("moves"))
        made("free", block)
        frees.append(made("moves"))
    made("get", 10)
    refused = made("get", 0) == 0
    yield told(HEADER, r"How often the (\w+) get (\w+) a piece, or the (\w+) free (\w+) two; (\d) after a get that found (\w+) place", *(
        ("last", "halved", "last", "joined") if gets == frees == [1, 10] else (str(gets), str(frees))), str(made("moves")), either(refused, "no", "a"))
    for page in (MODULE, CRATE):
        yield told(page, r"How often the (\w+) get (\w+) a piece, or the (\w+) free (\w+) two\.", *(
            ("last", "halved", "last", "joined") if gets == frees == [1, 10] else (str(gets), str(frees))))
    yield told(ALLOCATOR, r"moves answers how often the (\w+) one did, which is (\d) after a get that was (\w+)\.", "last", str(made("moves")), either(
        refused, "refused", "given"))


def closed() -> Iterator[Trial]:
    """What calls answer of a closed store, and of one that was never opened."""
    made = opened()
    made("close")
    calls = re.findall(r"\bint64_t l6_store_(\w+)\(", text_of(HEADER))
    others = [call for call in calls if made(call, 1024, 0, 0) != -1]
    said = re.findall(r"all but l6_store_(\w+), l6_store_(\w+) and l6_store_(\w+) also answer IS_CLOSED", plain(text_of(HEADER)))
    yield f"{HEADER}: the calls that do not answer IS_CLOSED", [sorted(others)], [sorted(it) for it in said]
    never = Made(made.library, "l6_store")
    yield told(LIBRARY, r"a struct begins as L6_STORE_CLOSED \(all bytes (\d)", str(either(never("get", 0) == -1, "0", "1")))
    yield told(LIBRARY, r"Closing twice, a call of a (\w+) store, wild places, levels and indexes: (\w+) are (\w+)\.", either(
        never("units") == -1, "closed", "new"), either({made("close"), never("close")} == {-1}, "all", "none"), either(
            min(never("get", 1 << 31), made("free", 1 << 31)) < 0, "answered", "left open"))


def after_faults() -> Iterator[Trial]:
    """What is there after a fault, and what becomes of a fault that is passed on."""
    made, other = opened(), opened()
    block = made("get", 2)
    made("write", block, 0, 5)
    made("free", made("get", 0))
    state, apart = made.state(), other.state()
    faults = [made(call, *numbers) for call, numbers in (
        ("get", (11,)), ("free", (1025,)), ("write", (block, 4, 0)), ("write", (block, 0, 1 << 36)), ("copy", (block, block)), ("open", (1,)),
        ("pieces", (11,)), ("next", (11, 0)), ("read", (block, 4)), ("live", (9,)))]
    as_it_was = max(faults) < 0 and made.state() == state
    for page, pattern in ((HEADER, r"0 or more, or a fault, which is (\w+) 0; after a fault the store is (.*?)\. A call that has"),
                          (LIBRARY, r"a fault (\w+) 0\. The header(?=.*?After a fault (\w+) has changed)")):
        yield told(page, pattern, either(max(faults) < 0, "below", "above"), either(as_it_was, {HEADER: "as it was", LIBRARY: "nothing"}[page], "another"))
    quiet = [made("write", block, 1, 1), made("free", block), made("reset")]
    yield told(HEADER, r"A call that has (\w+) to tell answers (\d)\.", "nothing", str(max(quiet)))
    passed = [made(call, *[fault] * count) for fault in faults for call, count in (("get", 1), ("free", 1), ("read", 2), ("pieces", 1), ("write", 3))]
    after = made.state() == opened().state()
    for page in (HEADER, LIBRARY):
        yield told(page, r"a? ?fault that is passed on is (\w+) level, place, index or word,(?: so| and) (\w+) is done with it", either(
            max(passed) < 0, "no", "a"), either(after, "nothing", "something"))
    yield told(LIBRARY, r"Two stores share (\w+) but the heap", either(other.state() == apart, "nothing", "all"))
    yield told(HEADER, r"Two stores share (\w+) but the heap", either(other.state() == apart, "nothing", "all"))


def fragments() -> Iterator[Trial]:
    """Free words of which no run serves; how pieces and blocks fill a store."""
    made = opened()
    blocks = [made("get", 0) for _ in range(1024)]
    for block in blocks[::2]:
        made("free", block)
    refused = made("get", 1) == 0 and made("free_words") == 512
    made("free", blocks[1])
    given = made("get", 1) == 1024
    yield told(ALLOCATOR, r"It is refused exactly if there is none: if (\w+) aligned run of free words is large enough", either(refused and given, "no", "an"))
    yield told(ALLOCATOR, r"But no lack of memory makes a get fail, and (\w+) does the state of the free lists: if such a run exists, it is (\w+)\.",
               either(given, "neither", "so"), either(given, "found", "lost"))
    pieces = [(place, level) for level, listed in enumerate(made.lists()) for place in listed]
    words = [at for place, level in pieces for at in range(place, place + (1 << level))]
    words += [at for place in range(1024, 2048) if made("live", place) >= 0 for at in range(place, place + (1 << made("live", place)))]
    both = [place for place, level in pieces if level < 10 and (place ^ 1 << level, level) in pieces]
    once = sorted(words) == [*range(1024, 2048)]
    yield told(ALLOCATOR, r"Each word lies in a block or in just (\w+) free piece, and (\w+) two buddies are both free\. So (\w+) is lost, and (\w+) that can",
               either(once, "one", "two"), either(not both, "no", "some"), either(once, "nothing", "much"), either(not both, "all", "some"))
    full = opened()
    full("get", 10)
    yield told(ALLOCATOR, r"It does (\w+) grow\. Its size is fixed when it is (\w+):", either(full("get", 0) == 0 == full("free_words"), "not", "then"), "made")
    yield told(ALLOCATOR, r"A block is named by its (\w+), a number, and (\w+) by a pointer", either(made("live", 1024) == 1, "place", "pointer"), "not")
    levels = [made("largest"), full("largest")]
    yield told(HEADER, r"L6_STORE_FULL = -10 /\* (\w+) piece is free", either(levels[1] == -10 != levels[0], "no", "a"))
    yield told(CRATE, r"/// (\w+) piece is free\.", either(levels[1] == -10 != levels[0], "No", "A"))


def structs() -> Iterator[Trial]:
    """What the headers say of the struct: how it begins, which calls leave it, and what a word has room for."""
    for name, page, numbers in (("l6_store", HEADER, (1,)), ("l6_offset", OFFSET, (4, 0, 16))):
        library = opened().library
        never = Made(library, name)
        yield told(page, r"All bytes (\d) is a (\w+) one, as memory of calloc is", "0" if never("reset") == -1 else "1", either(never("reset") == -1, "closed", "new"))
        made = Made(library, name, *numbers)
        made("get", 1)
        struct, state = bytes(made.struct), made.state()
        looks = re.findall(rf"int64_t {name}_(\w+)\(const {name} \*", text_of(page))
        for call in looks:
            for number in (0, 1, 1024, 1 << 31):
                made(call, number, number)
        left = bytes(made.struct) == struct and made.state() == state and len(looks) > 5
        yield told(page, r"A call whose pointer is (\w+) leaves the struct and the store as they (\w+),", either(left, "const", "plain"), "were")
    made = opened()
    one, two = made("get", 0), made("get", 10) or made("get", 9)
    made("write", one, 0, two)
    yield told(HEADER, r"So a word has (\w+) for a place, and blocks can be linked by their (\w+)\.", either(made("read", one, 0) == two > 1024, "room", "none"), "words")
    yield told(LIBRARY, r"and a word has (\w+) for a place: a list or a tree is made of blocks whose words hold the (\w+) of others", either(
        made("read", one, 0) == two > 1024, "room", "none"), "places")
    first, end = opened(255)("get", 0), max(opened(255)("first", level) for level in range(11))
    yield told(HEADER, r"The first unit begins at place (\d+), so place (\d) is (\w+) block, and all places are (\w+) 2\^18", str(first), "0", either(
        made("free", 0) == -6, "no", "a"), either(end < 1 << HALF, "below", "above"))


def list_sentences(_: str) -> Iterator[Trial]:
    """All of them."""
    if not both_libraries():
        print("skipped: the words of pages on free lists: there is no compiler")
        return
    for group in (halvings, neighbours, links, joinings, closed, after_faults, fragments, structs):
        yield from group()
