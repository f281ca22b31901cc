"""The tables of docs/image.md: images of decks are taken apart by what they say of bits, operands and codes.

What is found must be what the deck has on its card; so a range of bits or a kind of operand that is another one is seen.
"""
from __future__ import annotations

import re
from collections.abc import Iterator

from held import answered
from page_tables import plain, spans_of, table_with, tables_of, text_of
from trials import Trial

PAGE = "docs/image.md"
HEAD = 3  # words of an image before its first statement
TARGETS = "\nX (PL)\nY (PL)\n"  # statements 1 and 2, to which labels lead
A, N, NONE = 10, 23, 63  # the numbers of names, and of none
KINDS = {"none": set[int](), "a chain": {1}, "two chains": {1}, "a number": {2}, "a chain or a number": {1, 2}, "a text": {3}}
# By the code of an operation, spellings in which each operand is of each kind that it may have.
FORMS: dict[int, tuple[str, ...]] = {
    **{code: (f"(A,{letter},B)", f"(A,{letter},5)") for code, letter in enumerate("EASMVYNOXCLR", 1)},
    13: ("(A,I,B)",), 14: ("(A,DN,B,C)", "(0,DN,1,2)"), 15: ("(S,FC,A)",), 16: ("(R,FC,A)",), 17: ("(S,FD,N)",), 18: ("(R,FD,N)",),
    19: ("(A,GT,B)", "(A,GT,4)", "(A,GT,4,AN)", "(A,GT,4,AN,X)"), 20: ("(A,DP,B)", "(A,DP,5)", "(A,DP,5,,X)"), 21: ("(A,FR)", "(A,FR,B)", "(A,FR,5)"),
    22: ("(X,DO)", "(X,DO,Y)"), 23: ("(A,IN,B)", "(A,IN,1)", "(A,IN,1,X)"), 24: ("(A,PR,B)", "(A,PR,1)"), 25: ("(A,PD)",), 26: ("(A,PO)",),
    27: ("(HI,PH)",), 28: ("(PL)",),
}
TESTS = "ENGLOZ"


def image(program: str, card: str) -> list[str]:
    """The words of the image of a deck that begins with a card, as bits."""
    made = answered(program, "asm", f"{card}{TARGETS}").stdout.decode("ascii").split()
    return ["".join(f"{int(digit):03b}" for digit in it) for it in made[HEAD:]]


def ranges(number: int) -> dict[str, list[tuple[int, int]]]:
    """By the table of this number on bits: where the parts are that each row tells of, by what it says of them first."""
    table = [it for it in tables_of(text_of(PAGE)) if it.head == ["Bits", "What they hold"]][number]
    found = {}
    for bits, what in table.rows:
        parts = [(int(first), int(last)) for first, last in re.findall(r"(\d+) (?:to|and) (\d+)", bits)]
        found[re.split(r"[:;,]", plain(what))[0]] = parts
    return found


def cut(word: str, part: tuple[int, int]) -> int:
    """The number that some bits of a word are, from the first to the last."""
    return int(word[part[0]:part[1] + 1], 2)


def headers(program: str) -> Iterator[Trial]:
    """The bits of a header."""
    where = ranges(0)
    deck = {"the condition": 4, "the number of tests": 2, "the number of operations": 3, "the exit": 1,
            "the number of the statement to which the label leads": 2}
    word = image(program, " IFANY (A,E,0)(B,E,0) THEN (PL)(PL)(A,PD) Y")[0]
    yield f"{PAGE}: a header", deck, {what: cut(word, part) for what, [part] in where.items()}
    other = image(program, " (PL) DONE")[0]
    yield f"{PAGE}: a header without a label", [0, 0, 1, 2, 0], [cut(other, part) for [part] in where.values()]


def rows(program: str) -> Iterator[Trial]:
    """The bits of a row."""
    where = {what: parts for what, parts in ranges(1).items()}
    got = image(program, " (A,GT,4,AN,X)")[1]
    defined = image(program, " (0,DN,18,35)")[1]
    known = {"the code": ([19], [14]), "the kinds of the first": ([1, 2, 1], [2, 2, 2]), "the number of a field's name": ([NONE], [N]),
             "one more than the number of the statement to which the label leads": ([2], [0])}
    yield f"{PAGE}: a row", known, {what: ([cut(got, it) for it in parts], [cut(defined, it) for it in parts]) for what, parts in where.items()}


def operands(program: str) -> Iterator[Trial]:
    """The words of operands, by what is said of each kind."""
    said = {kind: plain(words) for kind, words in table_with(text_of(PAGE), "Operand", "Words").rows}
    seen = [*image(program, " (AN,A,5)")[2:4], *image(program, " (ABCDEFG,PH)")[2:5]]
    codes_of_text = [ord(it) - 32 for it in "ABCDEFG"]
    sixes = [[A, N, *[NONE] * 4], codes_of_text[:6], [codes_of_text[6], *[0] * 5]]
    chain, *text = ("".join(f"{it:06b}" for it in six) for six in sixes)
    shown = {
        "chain": "one: the numbers of its names, six bits each from bit 0 on, and 63 in the rest of the word",
        "number": "one: the number",
        "text": "the number of characters, and then their codes, six in a word from bit 0 on, and 0 in the rest of the last word",
    } if seen == [chain, f"{5:036b}", f"{len(codes_of_text):036b}", *text] else {}
    yield f"{PAGE}: the words of operands", shown, said


def kinds_of(program: str, card: str) -> tuple[int, list[int]]:
    """The code of the first row of a card, and the kinds of its operands."""
    word = image(program, card)[1]
    return cut(word, (0, 5)), [cut(word, part) for part in ((6, 7), (8, 9), (10, 11))]


def said_of(operand: str) -> list[set[int]]:
    """The kinds of operands that a cell of the page tells of, 0 where one may be missing."""
    parts = [it.strip() for it in operand.partition(", the number")[0].split(";")]
    if parts[0] == "three, each a chain or a number":
        return [{1, 2}] * 3
    found = [KINDS[it.removeprefix("perhaps ")] | ({0} if it.startswith("perhaps ") else set()) for it in parts]
    return found * 2 if parts[0] == "two chains" else found if found != [set()] else []


def codes(program: str) -> Iterator[Trial]:
    """The operands of each code: of which kinds they are, and which may be missing."""
    for numbers, row, operand in table_with(text_of(PAGE), "Code", "Row", "Operands").rows:
        first, *last = [int(it) for it in re.findall(r"\d+", numbers)]
        for code in range(first, (last or [first])[0] + 1):
            tests = [f" IF (A,{test},{it}) THEN" for test in TESTS[code - 1:code] for it in "B5"]
            cards = tests if numbers.startswith("tests") else [f" {it}" for it in FORMS.get(code, ())]
            made = [kinds_of(program, card) for card in cards]
            seen = [{kinds[at] for _, kinds in made} for at in range(3)]
            yield f"{PAGE}: the operands of {' '.join(spans_of(row))}, code {code}", ({code}, said_of(operand)), (
                {number for number, _ in made}, [it for it in seen if it != {0}])


def image_tables(program: str) -> Iterator[Trial]:
    """All of them."""
    for group in (headers, rows, operands, codes):
        yield from group(program)


# Each group, and a cell of it that is another one.
TURNED = [
    (headers, PAGE, "| 3 to 8 | the number of tests |\n| 9 to 14 | the number of operations |",
     "| 9 to 14 | the number of tests |\n| 3 to 8 | the number of operations |"),
    (rows, PAGE, "| 12 to 17 | the number of a field's name", "| 12 to 18 | the number of a field's name"),
    (operands, PAGE, "six bits each from bit 0 on, and 63", "six bits each from bit 0 on, and 0"),
    (codes, PAGE, "| `FR` | a chain; perhaps a chain or a number |", "| `FR` | a chain; a chain or a number |"),
]
