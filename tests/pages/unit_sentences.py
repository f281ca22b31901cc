"""What docs/allocator.md, docs/library.md and docs/places.md say of units, links, memory and costs: they are looked at."""
from __future__ import annotations

import ctypes
import random
import re
from collections.abc import Iterator

from answers import answer_of
from page_tables import plain, table_with, tables_of, text_of
from store_room import Made, both_libraries, places, store
from told import either, in_words, told
from trials import Trial

ALLOCATOR, LIBRARY, PLACES, BENCH, HEADER = "docs/allocator.md", "docs/library.md", "docs/places.md", "bench/README.md", "library/l6_store.h"
HALF = 18  # bits of a word that hold a place
FRACTIONS = {2: "half", 3: "third", 4: "quarter", 10: "tenth", 12: "twelfth", 13: "thirteenth", 14: "fourteenth", 15: "fifteenth"}
CANARIES = (
    (ALLOCATOR, "each head holds the first", "each head holds the last"),
    (ALLOCATOR, "The link of a unit that was never split is in its\nfirst word", "The link of a unit that was never split is in its\nlast word"),
    (ALLOCATOR, "1027\nis not, since 1026 is a block again", "1027\nis joined, since 1026 is a block again"),
    (PLACES, "lists are faster in the mean", "lists are slower in the mean"),
    (LIBRARY, "a block of four words, of which three", "a block of four words, of which two"),
    (BENCH, "a fourteenth more than in C", "a tenth more than in C"),
)


def opened(units: int = 1) -> Made:
    """A new store; a compiler is there."""
    made = store(units)
    assert made
    return made


def used(units: int = 2) -> Made:
    """A store after some gets and frees at random, always the same."""
    made, chance = opened(units), random.Random(1965)
    blocks: list[int] = []
    for _ in range(300):
        if blocks and chance.random() < 0.5:
            made("free", blocks.pop(chance.randrange(len(blocks))))
        elif (block := made("get", chance.randrange(6))) > 0:
            blocks.append(block)
    return made


def promises() -> Iterator[Trial]:
    """What a store is, and how it is refused."""
    made = opened()
    block = made("get", 10)
    yield told(ALLOCATOR, r"The first unit begins at place (\d+), so place (\d) is free to mean", str(block), str(made("get", 0)))
    before = opened()
    free = [before("free_words"), *((before(call, number), before("free_words"))[1] for call, number in (("get", 3), ("free", 1024)))]
    yield told(ALLOCATOR, r"A \*get\* (\w+) a block of a level, a \*free\* (\w+) it back", either(free[1] == free[0] - 8, "takes", "gives"), either(
        free[2] == free[0], "gives", "takes"))
    names = {number: name.title().replace("_", "") for name, number in re.findall(r"L6_STORE_(\w+) = (-\d+)", text_of(HEADER))}
    closed = Made(made.library, made.name)
    units = {closed("open", number) for number in (0, 256, 1 << 31)}
    made.counter("refuses").value = 1
    refused = closed("open", 1)
    made.counter("refuses").value = 0
    yield told(ALLOCATOR, r"Any other number is answered with (\w+), and a region that the system refuses with (\w+)\.", " and ".join(
        names.get(str(it), str(it)) for it in units), names.get(str(refused), str(refused)))
    one = opened()
    first, other, large = (one("get", level) for level in (1, 1, 2))
    copies = [one("copy", first, it) for it in (first, other, large)]
    yield told(ALLOCATOR, r"copy requires two (\w+) blocks of (\w+) size\. free requires that a block (\w+) at the place", *(
        ("different", "one", "begins") if copies == [-9, 0, -9] and one("free", first + 1) == -6 else (str(copies), "", "")))
    word = max(one.words()[:1024]), one("write", first, 0, (1 << 36) - 1), one("write", first, 0, 1 << 36)
    yield told(ALLOCATOR, r"It allocates (\w+) of (\d+) bits, each kept in (\d) bytes", "words", either(word == (0, 0, -8), "36", ""), str(max(one.regions) // 2048))
    tree = text_of("library/tree.c")
    asked = len((re.findall(r"enum \{ ([\w, ]+), WORDS \}", tree) or [""])[0].split(", "))
    yield told(LIBRARY, r"A node is a block of (\w+) words, of which (\w+) are used", in_words(1 << made("level_for", asked)), in_words(asked))
    yield told(LIBRARY, r"an alignment, a power of two (.*?) (\d+)\.", either(made.counter("widest").value <= 16, "up to", "above"), "16")


def splitting() -> Iterator[Trial]:
    """How a new unit is split, and which lists are empty then."""
    new = opened().lists()
    made = opened()
    made("get", 0)
    yield told(ALLOCATOR, r"A new unit is (\w+) piece of level (\d+)\. To get one word of it, the piece is halved (\w+) times", in_words(
        sum(map(len, new))), str(next(level for level, it in enumerate(new) if it)), in_words(made("moves")))
    shown = {level for level, listed in enumerate(made.lists()) if listed}
    row = table_with(text_of(ALLOCATOR), "Call", "Gives").rows[1]
    yield told(ALLOCATOR, r"lists that are not shown are (\w+)\.", either(shown == {int(it) for it in re.findall(r"l\.(\d+):", row[-1])}, "empty", "full"))
    single = opened()
    single("get", 9)
    halved = single("moves")
    single("free", 1024)
    yield told(ALLOCATOR, r"each halving and each joining counts (\w+)\.", in_words(halved) if halved == single("moves") else "otherwise")
    pieces = used()
    below = True
    for level in range(11):
        lists = pieces.lists()
        found = next((it for it in range(level, 11) if lists[it]), None)
        below = below and (found is None or not any(lists[level:found]))
    yield told(ALLOCATOR, r"since the lists of the levels (\w+) the one that was found are (\w+)", "below", either(below, "empty", "full"))
    four = opened()
    for _ in range(4):
        four("get", 0)
    joined = []
    for call, place in (("free", 1024), ("free", 1026), ("get", 0), ("free", 1027)):
        four(call, place)
        joined.append(four("moves"))
    again = "block" if four("live", 1026) == 0 else "piece"
    yield told(ALLOCATOR, r"1024 is (\w+) joined when it is freed, since its buddy 1025 is a (\w+); 1026 is (\w+), since 1027 is one; and 1027 is (\w+), since 1026 is a "
               r"(\w+) again by then", *(either(count == 0, "not", "then") for count in joined[:1]), "block" if four("live", 1025) == 0 else "piece", either(
                   joined[1] == 0, "not", "joined"), either(joined[3] == 0, "not", "joined"), again)
    after = opened()
    for _ in range(4):
        after("get", 0)
    after("free", 1024)
    after("free", 1026)
    yield told(ALLOCATOR, r"The list of level 0 is then (\d+), (\d+)\.", *map(str, after.lists()[0]))


def links() -> Iterator[Trial]:
    """The words and tables in memory: links of pieces, of whole units, and sizes of blocks."""
    made = used()
    words, lists = made.words(), made.lists()
    right = all(words[piece] == ((before << HALF) | after) for listed in lists for before, piece, after in zip([0, *listed], listed, [*listed[1:], 0]))
    heads = [made("first", level) for level in range(11)] == [(listed or [0])[0] for listed in lists]
    yield told(ALLOCATOR, r"each free piece's (\w+) word holds the places (\w+) and (\w+) it in its list, and each head holds the (\w+)\.", *(
        ("first", "before", "after") if right else ("last", "", "")), either(heads, "first", "last"))
    new = opened(3)
    linked = [place for place, word in enumerate(new.words()) if word]
    yield told(ALLOCATOR, r"The link of a unit that was never split is in its (\w+) word, and (\w+) other words of an unused unit are (\d)", *(
        ("first", "all", "0") if linked == [1024, 2048, 3072] else (str(linked), "", "")))
    blocks = opened()
    place = blocks("get", 3)
    tables = [ctypes.string_at(address, size) for size, address in blocks.parts if size == 2 * 2048]
    sizes = [int.from_bytes(it[2 * place:2 * place + 2], "little") for it in tables]
    beside = [int.from_bytes(it[2 * place + 2:2 * place + 4], "little") for it in tables]
    yield told(ALLOCATOR, r"Beside each tag is the (\w+) of the block that begins there, or (\d) if none does", either(8 in sizes, "size", "level"), str(min(beside)))
    per_place = sorted(size // 2048 for size, _ in blocks.parts if size >= 2048)
    yield told(ALLOCATOR, r"Memory: (\d) bytes a word, (\d) bytes a place for its tag and (\d) for its size", *map(str, sorted(per_place, reverse=True)))
    made("reset")
    yield told(ALLOCATOR, r"reset tags each place and lists (\w+) unit", either(made.lists()[10] == [1024, 2048], "each", "no"))


def runs(program: str) -> Iterator[Trial]:
    """What the debugger shows of free words, and which pieces these are; and the version of the program."""
    asked = answer_of([program, "--version"])
    versions = re.findall(rb"\b(\d+)\.(\d+)", asked.stdout + asked.stderr)
    library = opened()("version")
    yield told(LIBRARY, r"The libraries' version is their own, and (\w+) that of l6", either(
        bool(versions) and versions != [(b"%d" % (library // 10_000), b"%d" % (library // 100 % 100))], "not", "also"))
    deck = b" (A,GT,1)(B,GT,1)(C,GT,1)(D,GT,1)\n$COMMANDS\nstep 5\nstore\n"
    text = answer_of([program, "debug", "--store", "1"], input=deck).stdout.decode("latin-1")
    place, count = (re.findall(r"^(\d+) FREE (\d+)$", text, re.MULTILINE) or [("", "")])[-1]
    made = opened()
    for _ in range(4):
        made("get", 0)
    pieces = sorted((piece, 1 << level) for level, listed in enumerate(made.lists()) for piece in listed)
    whole = sum(size for _, size in pieces)
    yield told(ALLOCATOR, r"FREE (\d+) is a (\w+) of free words; the pieces that make it up, (\d+), (\d+), (\d+) and so on", count, either(
        len(pieces) > 1 and str(whole) == count, "run", "piece"), *(str(piece) for piece, _ in pieces[:3]))
    yield told("web/README.md", r"The debugger lists (\w+) of free words, but (\w+) the pieces in them", *(
        ("runs", "not") if str(pieces[0][0]) == place and count == str(whole) else ("pieces", "also")))


def figures() -> Iterator[Trial]:
    """What follows from the tables of figures that stand on the pages."""
    measured = [it for it in tables_of(text_of(PLACES)) if it.head[1:3] == ["proved", "buddy, lists"]]  # in small memory, and in large
    counts, wide = ([[int(cell.partition(",")[0]) for cell in row[1:]] for row in it.rows] for it in measured[:2])
    mean, worst = counts[2][0] > counts[2][1], counts[1][0] < counts[1][1]
    bytes_of = int((re.findall(r"a buddy system, (\d+) bytes a place", plain(text_of(PLACES))) or ["0"])[0])
    small = places(10)
    assert small
    part = round(bytes_of / (small.opening.bytes / (1 << 10)))
    yield told(PLACES, r"So lists are (\w+) in the mean, and the (\w+) in the worst case, with a (\w+) of the memory and always at the (\w+) place", either(
        mean, "faster", "slower"), either(worst, "tree", "lists"), FRACTIONS.get(part, str(part)), either(small("find", 0) == 0, "lowest", "highest"))
    same = [all(few[at] == many[at] for few, many in zip(counts[:2], wide[:2])) for at in (2, 3)]
    yield told(PLACES, r"Classes take as much in small memory, and do (\w+) grow with it\. VMA does (\w+) grow with the memory (\w+),", *(
        either(it, "not", "then") for it in same), "either")
    rows = table_with(text_of(BENCH), "what", "by").rows
    times = {(row[0][:5], row[1]): (float(row[2]), int(row[3])) for row in rows}
    (c, counted), (ours, instructions) = times["the w", "the buddy system in C, cleared"], times["the w", "the proved store"]
    yield told(BENCH, r"By time the worst case takes a (\w+) (\w+) than in C, by instructions as (\w+)\.", FRACTIONS.get(round(c / (ours - c)), ""), either(
        ours > c, "more", "less"), either(abs(instructions - counted) < counted / 50, "much", "few"))


def unit_sentences(program: str) -> Iterator[Trial]:
    """All of them."""
    if not both_libraries():
        print("skipped: the words of pages on units and memory: there is no compiler")
        return
    for group in (promises, splitting, links, figures):
        yield from group()
    yield from runs(program)
