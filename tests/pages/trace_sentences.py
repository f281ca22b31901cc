"""What docs/trace.md says of comparing traces: traces are given to the program, and the words follow from its answers."""
from __future__ import annotations

import functools
import re
from collections.abc import Iterator
from dataclasses import dataclass

from answers import answer_of
from page_figures import in_source
from page_tables import TOP
from told import either, in_words, the_one, told
from trials import Trial

TRACE, HISTORY = "docs/trace.md", "docs/history.md"
CANARIES = (
    (TRACE, "It finds the first answer that differs", "It finds the last answer that differs"),
    (TRACE, "Nothing after it is done", "Everything after it is done"),
    (TRACE, "The store is empty at first", "The store is full at first"),
    (TRACE, "each block and each free piece, places rising", "each block and each free piece, places falling"),
    (HISTORY, "takes a free block of the least sufficient", "takes a free block of the largest sufficient"),
)


@dataclass(frozen=True)
class Traced:
    """What the program said of a trace."""

    lines: list[str]
    errors: str
    status: int | str

    def starts(self, number: int, text: str) -> bool:
        """Whether the line of a number, from 0 on, begins so."""
        return len(self.lines) > number and self.lines[number].startswith(text)

    def places(self, label: str) -> list[str]:
        """The places of a list, in their order."""
        return next((re.findall(r"\d+", line.partition(": ")[2]) for line in self.lines if line.startswith(f"{label}:")), [])


@functools.cache
def traced(program: str, text: str, options: tuple[str, ...] = ("--store", "1")) -> Traced:
    """The answers to a trace, of a store of one unit if nothing else is said."""
    told_of = answer_of([program, "trace", *options], input=text.encode())
    return Traced(told_of.stdout.decode("latin-1").splitlines(), told_of.stderr.decode("latin-1"), told_of.status)


def compared(program: str) -> Iterator[Trial]:
    """Which answer is reported, with what, and what comes after it."""
    two = traced(program, "get a 5 = 1024\nget b 1 = 1033\nget c 1 = 1040\nend 3\n")
    differs = [line for line in two.lines if " differs: " in line]
    first = the_one({"first": len(differs) == 1 and differs[0].startswith("line 2"), "last": len(differs) == 1 and differs[0].startswith("line 3")})
    lists = two.places("level 3") == ["1032"] and not two.places("level 0")  # (as they were when b was not yet got)
    none = not any(" c 1" in line for line in two.lines)
    own = any(line == "the other allocator: 1033" for line in two.lines) and any(": 1032, level 0" in line for line in two.lines)
    yield told(TRACE, r"It finds the (\w+) answer that differs", first)
    yield told(TRACE, r"The (\w+) line that differs is reported, with (\w+) answers and the free lists (\w+) it, and the exit status is (\d)\. (\w+) after it is done",
               first, either(own, "both", "its"), either(lists, "before", "after"), str(two.status), either(none, "Nothing", "All"))
    yield told(TRACE, r"the line that is reported is the (\w+) that differs", first)
    empty = traced(program, "lists\n")
    yield told(TRACE, r"The store is (\w+) at first, and has (\d+) units", either(empty.lines == ["level 10: 1024"], "empty", "full"), str(
        len(traced(program, "lists\n", ()).places("level 10"))))
    later = traced(program, "get a 1\nget b 1\nfree a\nfree b\nget c 1024 = none\nend 5\n")
    yield told(TRACE, r"If a free that joins too (\w+) has (\w+) = N beside it, a (\w+) get differs, since the lists do", "little", "no", either(
        any(line.startswith("line 5 differs: get c") for line in later.lines), "later", "former"))
    cut, quiet, ended = (traced(program, it) for it in ("get a 5 = 1024\n", "get a 5\n", "get a 5 = 1024\nend 1\n"))
    yield told(TRACE, r"Let the (\w+) line be end N, with the number of gets and frees: (\w+) it a trace of which the end is missing looks right, and standard "
               r"(\w+) says so, if the trace has (\w+)\.", "last", either(bool(cut.errors) and not ended.errors, "without", "with"), either(
                   bool(cut.errors), "error", "output"), either(not quiet.errors, "answers", "calls"))
    fails = [traced(program, it).status for it in ("", "end 0\n")], traced(program, "get a 5\nend 1\n").status, ended.status
    yield told(TRACE, r"A trace without any call (\w+), and so does one that has a line end N and (\w+) answer", either(
        fails[0] == [1, 1], "fails", "passes"), either(fails[1:] == (1, 0), "no", "an"))
    more, fewer = (traced(program, f"get a 5 = 1024\nget b 1 = 1032\nend {count}\n") for count in (1, 3))
    off = either(more.status == fewer.status == 1 and "cut off" in more.errors + fewer.errors, "more or fewer", "as many")
    yield told(TRACE, r"(\w+)\. If there are (.*?), the trace was cut off, which standard (\w+) says, and the exit status is (\d)", either(
        not any("end" in line for line in fewer.lines), "nothing", "all"), off, either(bool(fewer.errors), "error", "output"), str(fewer.status))


def lines_of_a_trace(program: str) -> Iterator[Trial]:
    """What is a call, what is passed over, and what is refused."""
    parted = traced(program, "# get b 1\n\nget\ta  5\n   \nfree a\n")
    skipped = parted.status == 0 and len(parted.lines) == 2
    yield told(TRACE, r"Words are parted by blanks or (\w+)\. (\w+) lines and lines that begin with (\S+) are (\w+)\.", either(
        parted.starts(0, "get a 5: 1024"), "tabs", "commas"), either(skipped, "Blank", "No"), "#", either(skipped, "skipped", "refused"))
    named = [traced(program, f"get {name} 1\n").status for name in ("=", "x" * 64, "x" * 65, "=x")]
    yield told(TRACE, r"none of them a blank, and is (\w+) =\.", either(named == [4, 0, 4, 0], "not", "also"))
    wrong = traced(program, "get a 5\nfoo\n")
    yield told(TRACE, r"If a line is (\w+) call, then (\w+) goes to standard output, the line is named on standard (\w+), and the exit status is (\d)", "no", either(
        not wrong.lines, "nothing", "all"), either("line 2" in wrong.errors, "error", "output"), str(wrong.status))
    cut, whole, rest = (traced(program, it) for it in ("get a 5 = 1024\nget b 1 =", "get a 5 = 1024\nget b 1 =\n", "get a 5 = 1024\n"))
    off = ["cut off" in it.errors for it in (cut, whole)] == [True, False]
    yield told(TRACE, r"A last line (\w+) a line feed that is no call was cut off, as by a program that crashed; (\w+) that line, the rest is (\w+)", either(
        off, "without", "with"), "without", either(rest.starts(0, "get a 5: 1024"), "answered", "refused"))
    none = traced(program, "get a 0\n").status, traced(program, "get a 1\n").status
    yield told(TRACE, r"A get of no bytes is written as one of (\d) word, since a line with (\d) is (\w+) call", "1", "0", either(none == (4, 0), "no", "a"))
    resized = traced(program, "get a 8 = 1024\nfree a\nget a 4 = 1024\nend 3\n")
    yield told(TRACE, r"A block that is resized where it is is written as a (\w+) (\w+) = N, and a (\w+) by the same name", *(
        ("free", "without", "get") if resized.status == 0 else (str(resized.status), "", "")))


def names(program: str) -> Iterator[Trial]:
    """Names that hold blocks, or none."""
    twice, freed, again = (traced(program, it) for it in ("get a 5\nget a 1\nlists\n", "get a 5\nfree b\nlists\n", "get a 5\nfree a\nget a 1\nlists\n"))
    ends = [len(it.lines) == 2 and it.status == 1 for it in (twice, freed)] == [True, True]
    yield told(TRACE, r"A get by a name that (\w+) a block, and a free by one that holds (\w+), as a block that is freed twice has, (\w+) the answers\. The exit "
               r"status is (\d)", either(ends, "holds", "lacks"), "none", either(ends, "end", "begin"), str(twice.status))
    used = again.starts(2, "get a 1: 1024")
    yield told(TRACE, r"A name that holds (\w+) block any more may be used (\w+)\.", either(used, "no", "a"), either(used, "again", "once"))
    yield told(TRACE, r"under a name that holds (\w+) \|", either(ends and used, "none", "one"))
    yield told(TRACE, r"frees the block that the name (\w+), which then may get (\w+) \|", "holds", either(used, "another", "none"))
    large = traced(program, "get a 1025\nget b 1024\n")
    yield told(TRACE, r"(\w+) block has (\w+) than 1,024 words", either(large.starts(0, "get a 1025: none") and large.starts(1, "get b 1024: 1024"), "No", "A"), "more")
    size = traced(program, "get a 5\nmap\n")
    yield told(TRACE, r"gets a block of at (\w+) so many words", either("1024 a, words 8" in size.lines, "least", "most"))


def shown(program: str) -> Iterator[Trial]:
    """What the lines `lists`, `map` and `stats` show, and by which rule a piece is taken."""
    made = traced(program, "get a 1\nget b 1\nget c 1\nget d 1\nfree a\nfree c\nlists\nmap\nget e 1\nget f 1\n")
    listed = made.places("level 0")
    taken = [line.partition(": ")[2].partition(",")[0] for line in made.lines[-2:]]
    yield told(TRACE, r"for each level that (\w+) free pieces, their places in the order in which (\w+) take them", either(
        not any(line.startswith("level 1:") for line in made.lines), "has", "lacks"), either(listed == taken and len(listed) == 2, "gets", "frees"))
    rising = [int(line.split()[0]) for line in made.lines if re.match(r"\d+ \w+, words", line)]
    yield told(TRACE, r"(\w+) block and (\w+) free piece, places (\w+) \|", *["each" if len(rising) == 12 else "no"] * 2, either(
        rising == sorted(rising), "rising", "falling"))
    front = either(listed == ["1026", "1024"], "front", "end")
    yield told(TRACE, r"the (\w+) free piece of the (\w+) level that is large enough is halved, and the (\w+) half is listed, in \w+; what", either(
        taken == listed, "first", "last"), *rule(program))
    yield told(TRACE, r"is (\w+) as long as its buddy is free, and goes to the (\w+) of its list\.", either(
        traced(program, "get a 1\nfree a\nlists\n").places("level 10") == ["1024"], "joined", "parted"), front)
    yield told(HISTORY, r"A request takes a free block of the (\w+) sufficient size", rule(program)[0])
    four = "".join(f"get {name} 256\n" for name in "abcd")
    stats = traced(program, f"{four}free a\nfree c\nget e 512\nget f 1024\nstats\n")
    yield told(TRACE, r"gets that were refused, and of those how many because of fragmentation, when there were (\w+) free words but (\w+) place", *(
        ("enough", "no") if stats.lines[-1:] == ["gets refused 2, because of fragmentation 1"] else (str(stats.lines[-1:]), "")))


def rule(program: str) -> tuple[str, str]:
    """Of which level a piece is taken, and which half of it is listed."""
    made = traced(program, "get a 4\nget b 8\nlists\n")
    # (pieces of 4 words at 1028 and of 16 and more are free when 8 are asked for, which 1032 has)
    level = the_one({"least": made.starts(1, "get b 8: 1032"), "largest": made.starts(1, "get b 8: 1536")})
    return level, either(made.places("level 9") == ["1536"], "upper", "lower")


def first_example(program: str) -> Iterator[Trial]:
    """What the page says of its first example in words."""
    made = traced(program, "get a 5\nfree a\n")
    halved, joined = (re.findall(r"(?:halved|joined) (\d+)", line) for line in (made.lines + ["", ""])[:2])
    yield told(TRACE, r"For it the first unit was halved (\w+) times; when it was freed, the pieces were joined (\w+) times", *(
        in_words(int(it[0])) if it else "" for it in (halved, joined)))


def answers(program: str) -> Iterator[Trial]:
    """What an answer has, and what may be compared with it."""
    made = traced(program, "get a 5\nget b 2048\nfree a\nget c 3\nstats\n")
    level = "".join(re.findall(r"level (\d+)", "".join(made.lines[:1])))
    yield told(TRACE, r"so (\d) words get a block of level (\d)\. For it", "5", level)
    yield told(TRACE, r"its place, its level, and how often a piece was (\w+) for it; or (\w+) \|", either(", halved " in "".join(made.lines[:1]), "halved", "joined"), *(
        it.rpartition(" ")[2] for it in made.lines[1:2]))
    yield told(TRACE, r"how often its piece was (\w+) with its (\w+) \|", either("joined 7" in "".join(made.lines[2:3]), "joined", "halved"), "buddy")
    stats = next((re.findall(r"words in blocks \d+, ([a-z ]+) \d+, ([a-z]+) \d+", line) for line in made.lines if line.startswith("words in")), [("", "")])
    largest = either(any(line == "largest free level 9" for line in made.lines), "largest", "least")
    yield told(TRACE, r"words in blocks, (\w+ \w+) and (\w+); free words; how many free pieces each level has, and the (\w+);", *stats[0], largest)
    sizes = [traced(program, f"get a 5 = 1024 words {size}\nend 1\n").status for size in (8, 5)]
    yield told(TRACE, r"where SIZE is that of the (\w+) block, and N says how often it (\w+) the piece", either(sizes == [0, 1], "whole", "asked"), "joined")
    smallest = in_source("examples/traced.c", r"SMALLEST = (\d+)")
    yield told(TRACE, r"Here that is (\d+) bytes, so 600 bytes are (\d+) words\. A size is rounded (\w+)\.", str(smallest), str(-(-600 // smallest)), "up")
    first = "".join(re.findall(r": (\d+),", "".join(made.lines[:1])))
    yield told(TRACE, r"A place is counted in words from the (\w+) of the memory, and ([\d,]+) is (\w+)\.", "beginning", f"{int(first or 0):,}", "added")
    right, wrong, refused = (traced(program, it).status for it in ("get a 5 = 1024\nend 1\n", "get a 5 = none\nend 1\n", "got a 5\n"))
    with open("/dev/full", "wb") as full:
        failed = answer_of([program, "trace"], input=b"get a 5\n", stdout=full).status
    yield told(TRACE, r"the exit status is (\d) if nothing is wrong, (\d) if an answer is or calls are missing, (\d) if the trace was refused, and (\d) if", *map(
        str, (right, wrong, refused, failed)))
    refusals = [traced(program, it).lines[-1:] for it in ("get a 1025\n", "get a 1024\nget b 1\n", "get a 512\nget b 512\n")]
    yield told(TRACE, r"a get is refused exactly if the words are (\w+) than a block has, or if (\w+) aligned run of free words is (\w+) enough", *(
        ("more", "no", "large") if [it[0].endswith(": none") for it in refusals if it] == [True, True, False] else (str(refusals), "", "")))


def fragments(program: str) -> Iterator[Trial]:
    """What is free when a get of the example is refused."""
    text = (TOP / "examples/fragments.trace").read_text("ascii")
    lines = text.splitlines()
    asked = next((at for at, line in enumerate(lines) if line.startswith("get large ")), 0)
    made = traced(program, "\n".join([*lines[:asked + 1], "stats", ""]))
    free = "".join(re.findall(r"^free words (\d+)$", "\n".join(made.lines), re.MULTILINE)[-1:])
    words = lines[asked].split()[2]
    refused = f"get large {words}: none" in made.lines
    yield told(TRACE, r"There (\d+) words are free when (\d+) are asked for, and yet (\w+) aligned run of", free, words, either(refused, "no", "an"))


def trace_sentences(program: str) -> Iterator[Trial]:
    """All of them."""
    for group in (compared, lines_of_a_trace, names, shown, first_example, answers, fragments):
        yield from group(program)
