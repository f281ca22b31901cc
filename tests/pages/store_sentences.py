"""What headers, modules, crates and pages say of the store's calls: they are made, and the words follow from their answers."""
from __future__ import annotations

from collections.abc import Iterator

from store_room import UNTOUCHED, Heap, Made, both_libraries, store
from told import either, in_words, the_one, told
from trials import Trial

HEADER, MODULE, CRATE = "library/l6_store.h", "library/python/l6_store.py", "library/rust/src/lib.rs"
LIBRARY, ALLOCATOR = "docs/library.md", "docs/allocator.md"
BOTH = (MODULE, CRATE)
ALL = (HEADER, *BOTH)
# Canaries: a page, what stands there, and what is wrong.
CANARIES = (
    (LIBRARY, "`L6_STORE_NO_MEMORY` and keeps nothing", "`L6_STORE_NO_MEMORY` and keeps something"),
    (HEADER, "Gets a block of zeros", "Gets a block of ones"),
    (MODULE, "The largest level with a free", "The least level with a free"),
    (CRATE, "lie in no block", "lie in a block"),
    (ALLOCATOR, "It clears nothing", "It clears all"),
)


def opened(units: int = 1) -> Made:
    """A new store; a compiler is there."""
    made = store(units)
    assert made
    return made


def memory() -> Iterator[Trial]:
    """What is asked of the heap, and when."""
    one, two = opened(1), opened(2)
    each = two.opening.bytes - one.opening.bytes
    before = one.heap()
    block = one("get", 2)
    for call, numbers in (("get", (0,)), ("free", (block,)), ("write", (1025, 0, 7)), ("reset", ()), ("largest", ()), ("peek", (3,))):
        one(call, *numbers)
    others = one.heap() - before
    one("close")
    back = (one.heap() - before).given_back
    yield told(LIBRARY, r"asks for memory (\w+) times while it is (\w+), for ([\d,]+) \(m \+ 1\) bytes and (\d+) more in all, and gives all (\w+) "
               r"back when it is (\w+)\. (\w+) other call asks", in_words(one.opening.asked), "opened", f"{each:,}", str(
                   one.opening.bytes - 2 * each), in_words(back), "closed", either(others == Heap(0, 0, 0), "No", "Each"))
    yield told(ALLOCATOR, r"are allocated (\w+), in (\w+) requests, and given back (\w+);", "once", in_words(one.opening.asked - 1), "once")
    room, given = max(two.regions) // 8, two("free_words")
    yield told(ALLOCATOR, r"a store has (\w+) unit (\w+) in memory than it has to give", in_words(abs(room - given) // 1024), either(
        room > given, "more", "less"))
    yield told(HEADER, r"Closes a store, and (\w+) its memory (\w+)\. ", *either(back == one.opening.asked, "gives back", "keeps there").split())
    yield told(MODULE, r'"""Gives the memory (\w+)\. (\w+) further call is answered', "back", either(one("get", 0) < 0, "No", "Each"))
    del two.struct
    yield told(HEADER, r"is closed before, or its memory (\w+) taken", either((one.heap() - before).given_back == back, "stays", "is not"))


def refused_memory() -> Iterator[Trial]:
    """What a store does that has no memory, and one that needs none."""
    made, other = opened(), opened()
    made.counter("refuses").value = 1
    before, answer = made.heap(), Made(made.library, "l6_store")
    fault, got = answer("open", 1), other("get", 3)
    made.counter("refuses").value = 0
    kept = made.heap() - before
    yield told(LIBRARY, r"and l6_store_open answers L6_STORE_(\w+) and keeps (\w+)\.", {-4: "NO_MEMORY"}.get(fault, str(fault)), either(
        kept == Heap(0, 0, 0) and answer.struct.held is None, "nothing", "something"))
    yield told(ALLOCATOR, r"But (\w+) lack of memory makes a get fail", either(got > 0, "no", "a"))
    words = opened().words()
    untouched = int.from_bytes(bytes([UNTOUCHED] * 8), "little")
    live = [place for place in range(2048) if made("live", place) >= 0]
    yield told(HEADER, r"Opens a store of so many units, (\w+) blocks\. It writes (\w+) word\.", either(not live, "without", "with"), the_one({
        "each": untouched not in words, "no": {*words} == {untouched}}))


def gets() -> Iterator[Trial]:
    """What a get gives, and what it leaves."""
    made = opened()
    first, other = made("get", 2), made("get", 2)
    for block in (first, other):
        for at in range(4):
            made("write", block, at, 1965)
    made("free", first)
    lists, peeked = made.lists(), made("peek", 2)
    unchanged = made.lists() == lists and made("live", peeked) < 0
    again = made("get", 2)
    zeros = {made("read", again, at) for at in range(4)} == {0}
    kept = {made("read", other, at) for at in range(4)} == {1965}
    halved = opened()
    halved("get", 0)
    full = opened()
    full("get", 10)
    state, refused = full.state(), full("get", 0)
    words = either(zeros, "zeros", "what was there")
    yield told(HEADER, r"Gets a block of (\w+): its place, or (\d) if (\w+) place is open\. It (\w+) a piece at most (\d+) times, and (\w+) the block",
               words, str(refused), "no", "halves", str(halved("moves")), either(zeros, "clears", "keeps"))
    for page in BOTH:
        yield told(page, r"Gets a block of (\w+)(?: of a level)?: its place, or None if (\w+) place is open", words, "no")
    yield told(ALLOCATOR, r"A new block holds (\w+), and (\w+) other word changes", words, either(kept, "no", "each"))
    yield told(ALLOCATOR, r"A get also (\w+) its block", either(zeros, "clears", "keeps"))
    yield told(ALLOCATOR, r"peek answers it (\w+) a get", either(unchanged and peeked == again, "without", "by"))
    yield told(ALLOCATOR, r"Its answer is then None, and blocks and lists are (.*?)\. Fragmentation", either(full.state() == state, "as before", "others"))
    yield told(LIBRARY, r"If the store were (\w+), l6_store_get would answer (\d), and the key would (\w+) be in the tree", either(
        full("free_words") == 0, "full", "empty"), str(refused), either(full("write", refused, 0, 36) < 0, "not", "then"))
    yield told(ALLOCATOR, r"Its answer is then None, .*?it is found\.(?=.*?\bmoves answers how often the last one did, which is (\d) after a get that was)",
               str(full("moves")))


def levels() -> Iterator[Trial]:
    """Which level serves, and which is the largest."""
    made = opened()
    level = made("level_for", 5)
    word = the_one({"least": 1 << level >= 5 > 1 << level - 1, "largest": level == 10})
    for page in BOTH:
        yield told(page, r"The (\w+) level whose blocks have at (\w+) so many words", word, "least")
    yield told(HEADER, r"The (\w+) level whose blocks have so many words\. Fault: BAD_LEVEL, (\w+) 1,024 words", word, either(
        made("level_for", 1025) == -5 and made("level_for", 1024) == 10, "above", "below"))
    yield told(ALLOCATOR, r"level_for answers the (\w+) level with room for so many words", word)
    made("get", 2)  # (pieces of the levels 2 to 9 are free)
    largest = the_one({"largest": made("largest") == 9, "least": made("largest") == 2})
    for page in ALL:
        yield told(page, r"The (\w+) level with a (\w+) piece", largest, "free")
        yield told(page, r"How many (\w+) pieces a level has", either(made("pieces", 2) == 1 == len(made.lists()[2]), "free", "whole"))
        yield told(page, r"How many words lie in (\w+) block", either(made("free_words") == 1020, "no", "a"))
    yield told(ALLOCATOR, r"how many words all have, and the (\w+) level with a piece", largest)
    begins = made("live", 1024) == 2 and made("live", 1027) < 0
    for page in ALL:
        yield told(page, r"The level of the block that (\w+) at a place", either(begins, "begins", "ends"))
    yield told(ALLOCATOR, r"live answers the (\w+) of the block that (\w+) at a place, or None if none does", "level", either(begins, "begins", "ends"))
    yield told(HEADER, r"its place is the number of its (\w+) word", either(begins, "first", "last"))


def frees() -> Iterator[Trial]:
    """What a free takes out, joins and leaves."""
    made = opened()
    one, two, three = (made("get", 2) for _ in range(3))
    for at in range(4):
        made("write", one, at, 1965)
    middle, wrong = made.state(), made("free", one + 1)
    unchanged = wrong == -6 and made.state() == middle
    made("free", one)
    alone, kept = made("moves"), made.words()[one + 2]
    made("free", three)
    fronts = made.lists()[3]
    nothing_else = made("live", two) == 2 and made("live", one) < 0
    made("free", two)
    joined = made("moves")
    begins = either(unchanged, "begins", "ends")
    yield told(HEADER, r"Frees the block that (\w+) at a place, and (\w+) its piece at most", begins, either(joined == 8, "joins", "parts"))
    for page in BOTH:
        yield told(page, r"Frees the block that (\w+) at a place\.", begins)
    yield told(ALLOCATOR, r"It takes out that block and (\w+) else; its words are joined with (\w+) buddy that is (\w+)", either(
        nothing_else, "nothing", "all"), either(joined == 8, "every", "no"), either(alone == 0, "free", "a block"))
    yield told(ALLOCATOR, r"try_free is given (\w+) place: if a block (\w+) there, it is freed, and else (\w+) changes", "any", begins, either(
        unchanged, "nothing", "much"))
    yield told(ALLOCATOR, r"one piece out of its list for each joining\. It clears (\w+)\.", either(kept == 1965, "nothing", "each word"))
    yield told(ALLOCATOR, r"Once all blocks are freed, each unit is (\w+) free piece again", in_words(sum(map(len, made.lists()))))
    yield told(LIBRARY, r"after the frees the unit is (\w+) piece again", in_words(made("pieces", 10)))
    yield told(ALLOCATOR, r"joined with its buddy as long as the buddy is in the free list of the (\w+) level", either(fronts == [three], "same", "next"))


def resets() -> Iterator[Trial]:
    """What a reset takes out, and what it leaves."""
    made = opened(2)
    new, before = made.state(), made.words()[1032:1036]
    blocks = [made("get", level) for level in (3, 0, 5)]
    for at in range(8):
        made("write", blocks[0], at, 1966)
    made("reset")
    gone = {made("live", block) for block in blocks} == {-6}
    again, kept = made.state() == new, made.words()[blocks[0] + 3] == 1966 != before[0]
    made("get", 10)
    cleared = made.words()[1024 + 3] == 0
    yield told(HEADER, r"Frees (\w+) blocks: the store is as when it was (\w+)\.", either(gone, "all", "some"), either(again, "opened", "reset"))
    for page in BOTH:
        yield told(page, r"Frees (\w+) blocks\.", either(gone, "all", "some"))
    yield told(ALLOCATOR, r"reset frees (\w+) at once: the store is as it was (\w+)\.", either(gone, "all", "some"), either(again, "made", "before"))
    yield told(ALLOCATOR, r"It clears (\w+) word, since a (\w+) does\.", either(kept, "no", "each"), either(cleared, "get", "free"))


def words_of_blocks() -> Iterator[Trial]:
    """What is read, written and copied."""
    made = opened()
    one, two, three, large = (made("get", level) for level in (1, 1, 1, 2))
    made("write", one, 1, 7)
    made("write", two, 0, 8)
    before = made.words()
    made("write", one, 0, 5)
    after = made.words()
    changed = [place for place in range(2048) if before[place] != after[place]]
    made("copy", one, two)
    copied = [made("read", two, at) for at in range(2)] == [5, 7] == [made("read", one, at) for at in range(2)]
    elsewhere = {made("read", three, at) for at in range(2)} | {made("read", large, at) for at in range(4)}
    yield told(HEADER, r"indexes are counted from (\d)", either(made("read", one, 2) == -7 and changed == [one], "0", "1"))
    for page in ALL:
        yield told(page, r"Copies the words of a block (\w+) another of its size", either(copied, "into", "from"))
    yield told(ALLOCATOR, r"write changes (\w+) word of a block, and copy (\w+) words of one to those of another of the same size\. (\w+) other word",
               in_words(len(changed)), either(copied, "all", "some"), either(elsewhere == {0}, "No", "Each"))
    alike = [made("copy", one, it) for it in (one, two, large)]
    yield told(HEADER, r"the blocks are (\w+), or of (\w+) sizes", *(("one", "two") if alike == [-9, 0, -9] else (str(alike),)))
    yield told(CRATE, r"/// The blocks are (\w+), or of (\w+) sizes", *(("one", "two") if alike == [-9, 0, -9] else (str(alike),)))
    wide = made("write", one, 0, 1 << 36), made("write", one, 0, (1 << 36) - 1)
    for page in (HEADER, CRATE):
        yield told(page, r"[Tt]he word takes (\w+) than 36 bits", either(wide == (-8, 0), "more", "less"))
        yield told(page, r"[Tt]he block has (\w+) such word", either(made("read", one, 2) == -7, "no", "a"))
        yield told(page, r"[Nn]o block (\w+) at the place\.?(?:,| )", either(made("live", one + 1) == -6, "begins", "ends"))
    yield told(ALLOCATOR, r"Blocks (\w+) overlap, and each word is (\w+) 2\^36", "never", either(wide[0] < 0, "below", "above"))


def store_sentences(_: str) -> Iterator[Trial]:
    """All of them."""
    if not both_libraries():
        print("skipped: the words of the store's pages: there is no compiler")
        return
    for group in (memory, refused_memory, gets, levels, frees, resets, words_of_blocks):
        yield from group()
