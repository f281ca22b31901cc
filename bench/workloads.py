"""The decks of this folder: what each does, how often, and what it must print.

What a deck prints is computed here from what it says that it does, not from its cards: with Python's lists,
and without the machine. Of the programs for MIX it is computed, too, how many instructions they take and how
many units of time, which mixvm reports.
"""
from __future__ import annotations

from collections.abc import Callable
from dataclasses import dataclass
from functools import cache
from math import comb
from pathlib import Path

HERE = Path(__file__).resolve().parent
MASK = (1 << 36) - 1  # of a word
UNITS, UNIT = 8, 1024  # of the store


@dataclass(frozen=True)
class Workload:
    """A deck, and how it is used."""

    name: str
    what: str
    few: int  # rounds of a check, which are those that the deck itself says
    many: int  # rounds that are timed
    lines: Callable[[int], list[str]]  # what it prints after so many rounds
    characters: Callable[[int], str] | None = None  # its input for so many rounds

    def deck(self, rounds: int) -> str:
        """The deck with another number of rounds, if it has such a number."""
        text = (HERE / f"{self.name}.deck").read_text()
        return text if self.characters else with_rounds(text, f"E,{self.few})", f"E,{rounds})")

    def job(self, rounds: int) -> bytes:
        """The deck with its input."""
        separated = f"$INPUT\n{self.characters(rounds)}" if self.characters else ""
        return (self.deck(rounds) + separated).encode("ascii")


@dataclass(frozen=True)
class MixCount:
    """What a program for MIX takes."""

    instructions: int
    units: int

    def __add__(self, other: MixCount) -> MixCount:
        return MixCount(self.instructions + other.instructions, self.units + other.units)

    def __mul__(self, times: int) -> MixCount:
        return MixCount(self.instructions * times, self.units * times)


def with_rounds(text: str, old: str, new: str) -> str:
    """A text whose line ROUNDS has another number."""
    lines = text.split("\n")
    at = next(at for at, line in enumerate(lines) if line.startswith("ROUNDS"))
    assert lines[at].endswith(old), lines[at]
    lines[at] = lines[at].removesuffix(old) + new
    return "\n".join(lines)


def bugs(rounds: int) -> list[str]:
    """A word shifted and combined with itself, its remainders and quotients collected."""
    word, total, mixed, small = 1, 0, 0, 0
    for _ in range(rounds):
        word ^= word << 13 & MASK
        word ^= word >> 7
        word ^= word << 17 & MASK
        quotient, remainder = divmod(word, 1000)
        total, mixed, small = total + remainder & MASK, mixed ^ quotient, small + (remainder < 100)
    return [str(value) for value in (word, total, mixed, small)]


def chains(rounds: int) -> list[str]:
    """Counters of 18 bits and words in a ring of thirteen."""
    size, half = 13, 1 << 18
    v, w, s = [0, *range(12, 0, -1)], [0] * size, [0] * size
    here = total = 0
    for left in range(rounds, 0, -1):
        on = [(here + by) % size for by in range(size)]  # on[2] is two further on, on[-1] is the one before
        v[on[1]] = (v[on[1]] + 1) % half
        w[on[2]] = (w[on[2]] + v[on[-1]]) % half
        s[on[-3]] ^= w[on[2]]
        v[on[4]] = (v[on[4]] - w[on[-4]]) % half
        s[on[0]] = s[on[0]] + left & MASK
        total = total + v[on[0]] & MASK
        here = on[3]
    lines = [str(total)]
    for by in range(size):
        at = (here + by) % size
        lines += [str(v[at]), str(w[at]), f"{s[at]:012o}"]
    return lines


def countdown(rounds: int) -> list[str]:
    """The numbers of the rounds, down to 1, added up."""
    return [str(rounds * (rounds + 1) // 2 & MASK)]


def calls(rounds: int) -> list[str]:
    """12 over 6; a recursion to its edges makes two calls for each 1 that it adds, less one."""
    return [str(comb(12, 6)), str((2 * comb(12, 6) - 1) * rounds)]


def sentences(rounds: int) -> str:
    """An input of so many lines."""
    return "".join(f"line {n} has {n * n % 9973} characters\n" for n in range(rounds))


def characters(rounds: int) -> list[str]:
    """The words of those lines, with each letter moved on."""
    words = sentences(rounds).upper().split()
    moved = str.maketrans("ABCDEFGHIJKLMNOPQRSTUVWXYZ", "BCDEFGHIJKLMNOPQRSTUVWXYZA")
    letters = sum(character.isalpha() for word in words for character in word)
    return [*(word.translate(moved) for word in words), str(80 * rounds), str(len(words)), str(letters)]


def lists(rounds: int) -> list[str]:
    """The values of a list, from its head and from its end, summed twice in each round."""
    values = [0, *range(200, 0, -1)]
    total = mixed = 0
    for _ in range(rounds):
        for value in [*values, *reversed(values)]:
            total = total + value & MASK
            mixed = mixed * 3 + total & MASK
    return [str(total), str(mixed)]


class Buddies:
    """A buddy system, with a list of free places for each size."""

    def __init__(self) -> None:
        self.free: dict[int, list[int]] = {1 << order: [] for order in range(11)}
        self.free[UNIT] = [UNIT * number for number in range(1, UNITS + 1)]
        self.sizes: dict[int, int] = {}  # of each block, by its place

    def get(self, words: int) -> int:
        """The place of a new block."""
        wanted = 1 << (words - 1).bit_length()
        size = next(size for size, places in self.free.items() if size >= wanted and places)
        place = self.free[size].pop(0)
        while size > wanted:
            size //= 2
            self.free[size].insert(0, place + size)
        self.sizes[place] = size
        return place

    def release(self, place: int) -> None:
        """Frees a block."""
        size = self.sizes.pop(place)
        while size < UNIT and place ^ size in self.free[size]:
            self.free[size].remove(place ^ size)
            place, size = place & ~size, size * 2
        self.free[size].insert(0, place)


@cache
def block_counts(rounds: int) -> tuple[int, int, int, int]:
    """Gets, frees, words asked for, and a number made of all places that are given."""
    store, table = Buddies(), [0] * 128
    store.get(128)
    gets = frees = words = places = 0
    number = 1
    for _ in range(rounds):
        number = (number * 69069 + 1) % (1 << 32)
        entry = number >> 25
        if table[entry]:
            store.release(table[entry])
            table[entry] = 0
            frees += 1
        else:
            size = (number >> 8) % (1 << (number >> 22) % 8) + 1
            table[entry] = store.get(size)
            gets, words, places = gets + 1, words + size, places * 31 + table[entry] & MASK
    return gets, frees, words, places


def blocks(rounds: int) -> list[str]:
    """Those counts, and no get is refused."""
    return [str(count) for count in (*block_counts(rounds), 0)]


def adding(_rounds: int) -> list[str]:
    """1 to 1000."""
    return [str(1000 * 1001 // 2)]


def reverse(rounds: int) -> list[str]:
    """A list of 1 to 400, reversed so often."""
    value = 0
    for number in range(1, 401) if rounds % 2 == 0 else range(400, 0, -1):
        value = (value * 3 + number) % 9973
    return [str(value)]


def sieve(_rounds: int) -> list[str]:
    """The count of the primes below 1000."""
    return [str(sum(is_prime(number) for number in range(2, 1000)))]


def is_prime(number: int) -> bool:
    """Whether nothing divides a number."""
    return all(number % divisor for divisor in range(2, number))


END = MixCount(5, 25)  # CHAR, STA, STX, OUT, HLT


def mix_sum(rounds: int) -> MixCount:
    """LDX; in each round ENTA, ENT1, the loop, DECX, JXP."""
    return MixCount(1, 2) + MixCount(4 + 3 * 1000, 4 + 3 * 1000) * rounds + END


def mix_reverse(rounds: int) -> MixCount:
    """LDX, three ENT; the list is built; in each round ENT3, the loop, ENT1, DECX, JXP; ENTA, the walk."""
    built, walked = MixCount(6, 8) * 400, MixCount(11, 38) * 400
    reversed_once = MixCount(4, 4) + MixCount(5, 7) * 400
    return MixCount(4, 5) + built + reversed_once * rounds + MixCount(1, 1) + walked + END


def mix_sieve(rounds: int) -> MixCount:
    """LDX; in each round ENT1, 998 numbers cleared, ENT3, ENT1, 998 looked at, DECX, JXP; ENTA."""
    primes = [number for number in range(2, 1000) if is_prime(number)]
    strikes = sum(len(range(2 * prime, 1000, prime)) for prime in primes)
    struck = MixCount(5, 6) * len(primes) + MixCount(5, 7) * strikes
    looked = MixCount(5, 7) * 998 + struck
    sieved = MixCount(5, 5) + MixCount(4, 6) * 998 + looked
    return MixCount(1, 2) + sieved * rounds + MixCount(1, 1) + END


PLAIN = (
    Workload("bugs", "arithmetic, shifts and logic on bugs", 100, 2_500_000, bugs),
    Workload("field", "a set and a sum through one field", 100, 2_500_000, countdown),
    Workload("fields3", "a set and a sum through three fields", 100, 2_500_000, countdown),
    Workload("fields5", "a set and a sum through five fields", 100, 2_500_000, countdown),
    Workload("chains", "fields at the end of chains of two to six names", 50, 1_200_000, chains),
    Workload("calls", "subroutines, fail exits, saved contents", 1, 2_500, calls),
    Workload("characters", "characters read, counted, changed and printed", 5, 24_000, characters, sentences),
    Workload("lists", "lists built, walked, reversed and freed", 2, 5_000, lists),
    Workload("blocks", "blocks of 1 to 128 words got and freed", 500, 2_500_000, blocks),
)
WITH_MIX = (
    Workload("sum", "1 to 1000 added up", 2, 6_000, adding),
    Workload("reverse", "a list of 400 nodes reversed in place", 3, 7_500, reverse),
    Workload("sieve", "the primes below 1000 counted by a sieve", 1, 1_000, sieve),
)
ALL = (*PLAIN, *WITH_MIX)
BLOCKS = next(workload for workload in ALL if workload.name == "blocks")
MIX_COUNTS = {"sum": mix_sum, "reverse": mix_reverse, "sieve": mix_sieve}


def mix_source(workload: Workload, rounds: int) -> str:
    """The program for MIX with another number of rounds."""
    text = (HERE / f"{workload.name}.mixal").read_text()
    return with_rounds(text, f"  {workload.few}", f"  {rounds}")


def without_gets(deck: str) -> str:
    """The deck of blocks with an assignment in place of each get and free of its loop."""
    for old, new in (("(TF,GT,Y,,NO)", "(TF,E,Y)"), ("(TF,FR)", "(TF,E,0)")):
        assert deck.count(old) == 1, old
        deck = deck.replace(old, new)
    return deck
