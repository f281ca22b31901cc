"""The largest job of all, a full store, and the longest image.

Each part of the largest job is as large as possible, and so is all that it makes. Its deck has 1 MiB and
65,534 statements. It saves 1,024 contents and as many definitions, and makes 1,024 calls that do not return.
Then it takes characters from an input of 1 MiB, and prints 16 MiB.
"""
from __future__ import annotations

MAX_BYTES = 1 << 20  # bytes of a deck, of an input and of commands
MAX_OUTPUT = 1 << 24  # bytes that may be printed
STATEMENTS = 65_534
DEPTH = 1_024  # of each pushdown, and how many calls may wait

TAKES = STATEMENTS - 6  # statements that take six characters each
SHORT, LONG = b"=" * 16, b"ABCDEFGHIJKLMNOPQRSTUVWXYZ0123456789ABCDEFGHIJKLMNOPQRSTUVWX"
PRINTS = MAX_OUTPUT // len(LONG)  # of the long text, which leave room for the short one
WORDS = ["--steps", "1000000000", "--output", str(MAX_OUTPUT)]

# A condition, each operation and each exit is a step; of those rounds that go on with a call, the exit
# of the condition and that of the call are none. The last condition is a step, and the print that traps
# is not.
ROUND = 5 + 1 + 2
STEPS = ROUND * (DEPTH - 1) + 5 + 2 + 2 + 3 * TAKES + 3 + 3 * PRINTS + 1
ENDING = f"== TRAP 14 OUTPUT FULL AT {STATEMENTS - 1}.1 AFTER {STEPS} STEPS\n".encode("ascii")


def deck() -> bytes:
    """The deck, which a comment fills."""
    cards = b"R (S,FC,A)(S,FD,N)(A,A,1)\n IF (A,E,1024) THEN OUT\n (R,DO)\nOUT (X,DO)\nX (B,IN,6)\n"
    cards += b" (B,IN,6)\n" * (TAKES - 1) + b" (%b,PH)\nY (%b,PH) Y\n" % (SHORT, LONG)
    return cards + b"*" * (MAX_BYTES - len(cards) - 1) + b"\n"


def characters() -> bytes:
    """The input: lines of 80 characters."""
    return (b"ABCDEFGHIJ" * 8 + b"\n") * (MAX_BYTES // 81) + b"A" * (MAX_BYTES % 81)


def run_job() -> tuple[list[str], bytes, bytes]:
    """The program's words, the job and the printout of a run."""
    return ["run", *WORDS], deck() + b"$INPUT\n" + characters(), output() + b"\n" + ENDING


def output() -> bytes:
    """All that is printed."""
    return SHORT + LONG * PRINTS


def debug_job() -> tuple[list[str], bytes, bytes]:
    """The program's words, the job and the transcript of a session with as many commands as may be."""
    stays = (MAX_BYTES - len("go\nshow\nout\n")) // len("step 0\n")
    commands = b"go\n" + b"step 0\n" * stays + b"show\nout\n"
    commands += b"\n" * (MAX_BYTES - len(commands))
    taken = 6 * TAKES
    last = "".join("ABCDEFGHIJ"[at % 80 % 10] for at in range(taken - 6, taken))
    value = sum((ord(character) - 32) << 6 * power for power, character in enumerate(reversed(last)))
    shown = f"A {DEPTH:012o} {DEPTH}\nB {value:012o} {value}\n"
    shown += f"CONTENTS {DEPTH} DEFINITIONS {DEPTH} RETURNS {DEPTH} INPUT {taken} OUTPUT {MAX_OUTPUT}\n"
    shown += f"OUTPUT {MAX_OUTPUT} BYTES\n"
    transcript = ENDING * (1 + stays + 1) + shown.encode("ascii") + output() + b"\n"
    job = deck() + b"$COMMANDS\n" + commands + b"$INPUT\n" + characters()
    return ["debug", *WORDS], job, transcript


def full_store(units: int) -> tuple[bytes, bytes]:
    """The job and the transcript of a session that draws and maps a store of which each word is a block.

    Statement 0 makes three steps, and so does each get. The get that is refused makes two, and after it there
    are three of END and two of the added DONE.
    """
    first, blocks = 1_024, units * 1_024
    end = first + blocks
    job = b" (0,DN,18,35)\nL (A,GT,1,AN,END) L\nEND (B,E,0)\n$COMMANDS\ngo\ndraw\nstore\n"
    lines = [f"== DONE AFTER {3 * blocks + 10} STEPS", f"A -> {end - 1}", f"BLOCK {first} SIZE 1"]
    for place in range(first + 1, end):
        lines += [f"BLOCK {place} SIZE 1", f"  N -> {place - 1}"]
    lines += [f"{blocks} BLOCKS", *(f"{place} BLOCK 1" for place in range(first, end))]
    return job, "\n".join([*lines, f"{blocks} WORDS USED 0 FREE\n"]).encode("ascii")


def longest_image() -> tuple[bytes, bytes, bytes]:
    """A deck of 1 MiB, its image, which is as long as that of any deck, and what both print.

    No group has more words for its bytes than a print of one character, which has three for six bytes, and a
    statement has a first word for column 1 and the line feed of its card: a word for two bytes, or 524,288.
    With three words at the front and that of the added DONE there are 524,292, each of them a line of 13
    bytes, and so 6,815,796 bytes. A card has room for eleven such groups, and two cards of one fill the deck.
    """
    group, words = b"(A,PH)", [0o336077000000, 1, 0o410000000000]
    counts = [11] * 15_420 + [1] * 2  # of groups on each card
    deck = b"".join(b" %b\n" % (group * count) for count in counts)
    body = [word for count in counts for word in [count << 21, *words * count]] + [0o000002000000]
    image = b"".join(b"%012o\n" % word for word in [0o542651554722, len(counts) + 1, len(body), *body])
    steps = sum(count + 2 for count in counts) + 2
    return deck, image, b"%b\n== DONE AFTER %d STEPS\n" % (b"A" * sum(counts), steps)
