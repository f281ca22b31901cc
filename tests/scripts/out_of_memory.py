#!/usr/bin/env python3
"""Checks that the code reports "out of memory" only if an allocation failed, which no clause can say.

The error comes from an allocation, or is passed on. So in crates/*/src, without tests and the crate of
tests, AllocError is found only in types, and the variant NoMemory of an enum only

- where the enum is declared,
- in an `impl From`, which makes one error from another,
- in a pattern,
- on the right of an arm, as NoMemory or Err(NoMemory), if the arm's pattern is NoMemory, too,
- in such an arm for Err(_), or in a map_err, of a call that allocates: of push or insert, or of one
  that is given an allocator.

No code leaks memory either: the words forget, leak, ManuallyDrop and into_raw, by which a value is given up
without its drop, are found nowhere. And the capacity of a new list is a length of what goes into it, a
constant of the table CONSTANTS, a number of the table COUNTS, or a sum or a product of these; each of the two
tables says why. No list asks for more room later, by reserve or resize.

An allocator that a value keeps is used where the value is made, copied and dropped, and nowhere else: so no
other call of a region allocates. That, too, no clause can say, since what is taken and freed in one call
shows in none.

Each place of these words is a trial. The last line is 'N passed, M failed'.
"""
from __future__ import annotations

import re
import sys
from collections.abc import Iterator
from pathlib import Path

sys.path.insert(0, str(Path(__file__).resolve().parents[1] / "harness"))
from trials import Trial, report

TESTS = "l6_tests"  # the crate of tests
CRATES = Path(__file__).resolve().parents[2] / "crates"
WORD = re.compile(r"\b(?:AllocError|NoMemory)\b")
WRONG = dict.fromkeys(["AllocError", "NoMemory"], "neither from an allocation that failed nor passed on")
# By these a value is given up without its drop.
KEEPING = re.compile(r"\b(?:forget|leak|ManuallyDrop|into_raw)\b")
# A list with a capacity: a new one, or one of so many equal entries.
CAPACITY = re.compile(
    r"\bwith_capacity\b|\bvec!\[in\b|\bresize\w*\b|\brepeat\b"
    # (a board reserves a place for a block of a level)
    r"|\b(?:try_)?reserve(?:_exact)?\b(?!\((?:&mut self, |board: &mut Board, )?level\b)"
)
CAPACITY_WORD = "with_capacity"
ENTRIES_WORD = "vec![in"
# The constants that a capacity may name: what each is, and why it is enough and not too much.
CONSTANTS = {
    "MAX_KEPT": (16, "checkpoints, each of which is kept"),
    "MAX_ENTRIES": (1_024, "entries of a pushdown, all of which a run may save"),
    "MAX_WATCHED": (8, "chains, all of which may be watched"),
    "MAX_DISPLAYED": (8, "chains, all of which may be displayed"),
    "LINES_AT_ONCE": (1_024, "lines of an image that go out together"),
    "LINE_BYTES": (13, "bytes of a line of an image, twelve digits and a line feed"),
    "CHUNK": (65_536, "bytes that are read at once"),
    "PIECE": (65_536, "bytes that are read at once from an editor"),
}
# The numbers that a capacity may be, by the files that have them: how each is bound, and why it is one.
COUNTS = {
    ("l6_instructions/src/layout.rt", "count"):
        ("let count = entries.last().copied().unwrap_or(0).saturating_add(2);", "actions of a program"),
    ("l6_image/src/decode/listed.rt", "count.min(MAX_OPERATIONS as u64) as usize"):
        ("count: u64,", "tests or operations that the first word of a statement announces, 63 at most"),
    ("l6_draw/src/walk.rt", "blocks"):
        ("fn new(alloc: Global, end: Place, blocks: usize)", "blocks of the store"),
    ("l6_draw/src/walk.rt", "end as usize"):
        ("fn new(alloc: Global, end: Place, blocks: usize)", "places of the store"),
    ("l6_draw/src/blocks.rt", "end as usize"):
        ("let end = end_of(store.units());", "places of the store, each of which may have a block"),
    ("l6_check/src/mended.rt", "width - group.len()"):
        ("group: &[u8], width: usize)", "columns of a group on a card, a byte each"),
    ("l6_history/src/stop.rt", "statements"):
        ("pub fn new(alloc: Global, statements: usize)", "statements of a program, each of which may have a breakpoint"),
    ("l6_session/src/session.rt", "statements"):
        ("let statements = machine.program().statements().len();", "statements of a program"),
    ("l6_store/src/place_tag.rt", "places"):
        ("fn new(alloc: Global, places: usize)", "places, as many as the largest store has at most"),
    ("l6_store/src/scan_store.rt", "places"): ("let places = end_of(units) as usize;", "places of the store"),
    ("l6_places/src/tree.rt", "leaves"): ("let leaves = 1 << top;", "places of a board"),
    ("l6_trace/src/judge.rt", "names"):
        ("pub fn new(alloc: Global, pool: Pool, names: usize)", "names of a trace"),
    ("l6_trace/src/summary.rt", "names"):
        ("pub(crate) fn new(alloc: Global, judge: &Judge, names: usize)", "names of a trace"),
    ("l6_trace/src/map.rt", "end as usize"):
        ("let end = end_of(store.units());", "places of the store"),
    ("l6_trace/src/tally.rt", "names"):
        ("pub fn new(alloc: Global, words: u32, names: usize)", "names of a trace"),
    ("l6_trace/src/tracer.rt", "names"):
        ("pub fn new(alloc: Global, units: u32, names: usize)", "names of a trace"),
    ("l6_registers/src/registers.rt", "limits.output"): ("limits: Limits", "bytes that a run may print"),
    ("l6_registers/src/registers.rt", "self.limits.output"): ("limits: Limits", "bytes that a run may print"),
}
LENGTH = re.compile(r"[\w.]+(?:\(\)\.\w+)*\(?\)?\.len\(\)")
DIGITS = re.compile(r"\d{1,2}")
# Where an allocator is kept: in which functions of the file it may be named.
KEPT_ALLOCATORS = {
    "l6_raw/src/region.rt": {"new", "duplicate", "drop"},
    "l6_store_c/src/loose.rt": {"of", "into_box"},  # (a box that is taken apart, and made again)
    "l6_offset_c/src/loose.rt": {"of", "into_box"},  # (the same)
    "l6ed/src/wire.rt": {"new", "send"},  # (a wire makes the frames that are sent, and is gone with the talk)
    "l6_lsp/src/group_candidates.rt": None,  # (changes of a group make their list, and are gone with the answer)
    "l6_card/src/reader.rt": None,  # (a reader makes the lists of a deck, and is gone once the deck is read)
}
STRUCT = re.compile(r"^(?:pub(?:\([^)]*\))? )?struct \w+[^;{]*\{.*?^\}", re.M | re.S)
ALLOCATOR_FIELD = re.compile(r"^ +(?:pub(?:\([^)]*\))? )?(\w+): (?:Global|A),", re.M)
FUNCTION = re.compile(r"^( *)(?:pub(?:\([^)]*\))? )?(?:const )?fn (\w+)[^;{]*\{?.*?^\1\}", re.M | re.S)
# The allocator as a value, and not as a type or in a `use`: nobody may make one.
ALLOCATOR = re.compile(r"\bGlobal\b")
ALLOCATOR_TYPE = re.compile(r"(?::\s*&?|<|, (?=Global>)|\buse std::alloc::(?:\{[\w, ]*)?)Global\b")
# What is not run, in the order in which it begins: comments, texts, ghost items and clauses.
NOT_RUN = re.compile(
    r'//[^\n]*|b?"(?:[^"\\]|\\.)*"|b?\'(?:[^\'\\]|\\.)\'|\bghost\b[^;{]*(?:\{[^}]*\})?;'
    r"|\b(?:requires|ensures)\b[^{\n]*\{[^}]*\}"
)
# Blocks that begin at the left edge, in the layout of rt fmt.
IMPL_FROM = re.compile(r"^impl(?:<[^{]*?>)? From<.*?^\}", re.M | re.S)
ENUM = re.compile(r"^(?:pub(?:\([^)]*\))? )?enum .*?^\}", re.M | re.S)
# A type: the last argument of another, that of an only parameter, or what a `use` names.
TYPE = re.compile(
    r"(?:<|, )AllocError(?=>)|\(\w+: AllocError(?=\))|\buse [\w:]+::(?:\{[^}]*\b)?AllocError\b(?! as)"
)
ARGUMENTS = r"\((?:[^()]|\((?:[^()]|\((?:[^()]|\([^()]*\))*\))*\))*\)"
ALLOCATES = rf"(?:\b(?:push|insert){ARGUMENTS}|\b\w+\([^()]*\balloc\b[^()]*\))"
MADE = r"(?:return )?(?:Err\()?\w+::NoMemory\b"
# (an error of a device or of clap is OutOfMemory)
ARM = re.compile(rf"[{{}},]\s*(?:Err\()?\w+::(?:NoMemory|OutOfMemory)\)? =>\s*{MADE}")
# (what has no more to say than that memory ran out passes it on as the error of an allocation)
PLAIN_ARM = re.compile(r"[{},]\s*(?:Err\()?\w+::NoMemory\)? =>\s*(?:return )?Err\(AllocError\b")
MAPPED = re.compile(rf"{ALLOCATES}\s*\.map_err\(\s*\|_\| \w+::NoMemory\b")
OF_CALL = re.compile(rf"\bmatch [^{{}};]*{ALLOCATES} \{{[^{{}};]*\bErr\(_\) => {MADE}")


def code_of(text: str) -> str:
    """A text in which all that is not run is blank; the lines stay where they are."""
    return NOT_RUN.sub(lambda found: re.sub(r"[^\n]", " ", found[0]), text)


def is_in_pattern(code: str, end: int) -> bool:
    """Whether the word that ends here is in a pattern, which an arrow must follow."""
    depth = code.count("(", 0, end) - code.count(")", 0, end)
    for token in re.finditer(r"=>|\w+|\S", code[end:]):
        if token[0] in ("=>", "if"):
            return True
        depth += {"(": 1, ")": -1}.get(token[0], 0)
        if (token[0] == "," and depth <= 0) or not re.fullmatch(r"\w+|[():|,&._]", token[0]):
            return False
    return False


def is_allowed(code: str, word: re.Match[str]) -> bool:
    """Whether one of the two words may be where it is."""
    forms = (TYPE, PLAIN_ARM) if word[0] == "AllocError" else (ARM, MAPPED, OF_CALL)
    if any(found.end() == word.end() for form in forms for found in form.finditer(code)):
        return True
    if word[0] == "AllocError":
        return False
    blocks = [*IMPL_FROM.finditer(code), *ENUM.finditer(code)]
    return any(it.start() < word.start() < it.end() for it in blocks) or is_in_pattern(
        code, word.end()
    )


def memory_kept(code: str, file: str) -> Iterator[tuple[re.Match[str], bool]]:
    """Each place where memory may leak, or be allocated without need, and whether it is right."""
    for word in KEEPING.finditer(code):
        yield word, False
    for word in CAPACITY.finditer(code):
        yield word, is_counted(code, word, file)
    for word in ALLOCATOR.finditer(code):
        if not any(it.end() == word.end() for it in ALLOCATOR_TYPE.finditer(code)):
            yield word, False
    yield from kept_allocators(code, file)


def is_counted(code: str, word: re.Match[str], file: str) -> bool:
    """Whether a list with a capacity has room for what goes into it, and for no more."""
    if word[0] == CAPACITY_WORD and code[word.end():word.end() + 1] == "(":
        given = parts_in(code[word.end() + 1:], ",")
        return given[0] == "alloc" and len([it for it in given if it]) == 2 and is_count(given[1], code, file)
    if word[0] == ENTRIES_WORD:
        given = parts_in(code[word.end():], ";")
        allocators = {"alloc", *(["self.alloc"] if file in KEPT_ALLOCATORS else [])}
        # (a list that names its entries, one by one, has the room of what goes into it)
        return given[0] in allocators and (len(given) == 2 or len(given) == 3 and is_count(given[2], code, file))
    return False


def parts_in(code: str, separator: str) -> list[str]:
    """The parts of what is between brackets, of which the first one is opened before this text."""
    parts, depth = [""], 0
    for character in code:
        depth += {"(": 1, "[": 1, ")": -1, "]": -1}.get(character, 0)
        if depth < 0:
            break
        if character == separator and depth == 0:
            parts.append("")
        else:
            parts[-1] += character
    return [" ".join(part.split()) for part in parts]


def is_count(expression: str, code: str, file: str) -> bool:
    """Whether an expression is a length, a constant or a number of the tables, or made of some."""
    for operator in (" + ", " / ", " * "):
        if operator in expression and "(" not in expression.replace("()", ""):
            return all(is_count(part, code, file) for part in expression.split(operator))
    inner = re.fullmatch(r"(.*)\.saturating_mul\((.*)\)", expression)
    if inner:
        return is_count(inner[1], code, file) and inner[2] in CONSTANTS
    if (file, expression) in COUNTS:
        return COUNTS[file, expression][0] in " ".join(code.split())
    return expression in CONSTANTS or bool(LENGTH.fullmatch(expression) or DIGITS.fullmatch(expression))


def kept_allocators(code: str, file: str) -> Iterator[tuple[re.Match[str], bool]]:
    """Each place of a file that names an allocator which a value keeps, and whether it may."""
    kept = {it[1] for struct in STRUCT.finditer(code) for it in ALLOCATOR_FIELD.finditer(struct[0])}
    for function in FUNCTION.finditer(code) if kept else ():
        for name in re.finditer(rf"\b(?:{'|'.join(kept)})\b", function[0]):
            places = re.compile(re.escape(name[0])).finditer(code, function.start() + name.start())
            allowed = KEPT_ALLOCATORS.get(file, set())
            yield next(places), allowed is None or function[2] in allowed


def constants() -> Iterator[Trial]:
    """The trials that the constants have the values of the table, one after another."""
    declared = "\n".join(file.read_text("utf-8") for file in sources())
    values = dict(re.findall(r"\bconst ([A-Z_]+): \w+ = ([^;]+);", declared))

    def value_of(text: str) -> int:
        return sum(int(it) if it.replace("_", "").isdigit() else value_of(values.get(it, "-1"))
                   for it in text.split(" + "))

    for name, (value, _) in CONSTANTS.items():
        yield f"the constant {name}", value, value_of(name)
        yield f"the constant {name} is there once", 1, len(re.findall(rf"\bconst {name}\b", declared))


# A value that keeps an allocator and names it in a function of no such name as KEPT_ALLOCATORS has.
KEEPING_ALLOCATOR = "struct R {\n    alloc: Global,\n}\nimpl R {\n    fn fill(&self) {\n        take(self.alloc)\n    }\n}\n"
# Texts that must be refused, and one of each kind that must not.
REFUSED = [
    "fn f() { Vec::with_capacity(alloc, MOST_ROOM) }",
    "fn f() { Vec::with_capacity(alloc, 1 << 59) }",
    "fn f() { Vec::with_capacity(alloc, twice(words.len())) }",
    "fn f() { Vec::with_capacity(alloc, most(of(words.len()))) }",
    "fn f() { Vec::with_capacity(alloc, words.len() * words.len().pow(max(2))) }",
    "fn f() { Vec::with_capacity(alloc, count) }",
    "fn f() { Vec::with_capacity(alloc, count.saturating_mul(LINE_BYTES)) }",
    "fn f() { Vec::with_capacity(alloc, words.len().saturating_mul(count)) }",
    "fn f() { Vec::with_capacity(alloc, words.len() + count) }", "fn f() { Vec::with_capacity(alloc, count + words.len()) }",
    "fn f() { Vec::with_capacity(self.alloc, 1) }", "fn f() { Vec::with_capacity(alloc, 1, MOST_ROOM) }",
    "fn f() { let make = Vec::with_capacity; make(alloc, 1) }",
    "fn f() { words.reserve(1) }", "fn f() { words.try_reserve_exact(1) }", "fn f() { words.resize(1, 0) }",
    "fn f() { vec![in alloc; 0; 1 << 40] }", "fn f() { vec![in alloc; 0; MOST] }", "fn f() { vec![in self.alloc; 0] }",
    "fn f() { let words = Vec::new(Global); }", "fn f() { take(&Global, 5) }",
    "fn f() { forget(words) }", "fn f() { words.leak() }", "fn f() { ManuallyDrop::new(words) }",
    KEEPING_ALLOCATOR,
    "fn f() { Err(RunFault::NoMemory) }", "fn f() -> u8 { AllocError }",
    "fn f() { match read() { Err(_) => RunFault::NoMemory, } }",
    "fn f() { match it { RunFault::Write => Err(AllocError), } }",
    "fn f() { match error.kind() { ErrorKind::Other => RunFault::NoMemory, } }",
    "fn f() { match it { RunFault::Read => made(RunFault::NoMemory), RunFault::Write => 1, } }",
    "RunFault::NoMemory",
]
ALLOWED = [
    "fn f() { Vec::with_capacity(alloc, words.len()) }",
    "fn f() { Vec::with_capacity(alloc, words.len().saturating_mul(LINE_BYTES)) }",
    "fn f() { Vec::with_capacity(\n    alloc,\n    LINES_AT_ONCE * LINE_BYTES,\n) }",
    "fn f() { vec![in alloc; 0; program.statements().len()] }",
    "fn f() { vec![in alloc; first, second] }",
    "fn f(alloc: Global) -> Result<u8, AllocError> { words.push(1) }",
    "fn f() { match list.push(1) { Err(_) => Err(RunFault::NoMemory), } }",
    "fn f() { match it { RunFault::NoMemory => RunFault::NoMemory, } }",
    "fn f() { match it { RunFault::NoMemory => Err(AllocError), } }",
    "fn f() { match error.kind() { ErrorKind::OutOfMemory => RunFault::NoMemory, } }",
]


def judged(code: str, file: str) -> Iterator[tuple[re.Match[str], bool]]:
    """Each place of a code that is looked at, and whether it is right."""
    yield from ((word, is_allowed(code, word)) for word in WORD.finditer(code))
    yield from memory_kept(code, file)


def wrong_words(text: str, file: str = "") -> list[str]:
    """The words of a text that are not right, where a file has it."""
    return [word[0] for word, is_right in judged(code_of(text), file) if not is_right]


def canaries() -> Iterator[Trial]:
    """Each text that must be refused; numbers of the tables that nothing binds, and allocators that another function names."""
    for text in REFUSED:
        yield f"refused: {text}", [], wrong_words(text)
    for file, expression in COUNTS:
        yield f"refused: {expression}, which nothing binds, in {file}", [], wrong_words(
            f"fn f() {{ Vec::with_capacity(alloc, {expression}) }}", file)
    for file in (it for it, functions in KEPT_ALLOCATORS.items() if functions):
        yield f"refused: an allocator of {file}", [], wrong_words(KEEPING_ALLOCATOR, file)


def sources() -> Iterator[Path]:
    """The files of code, without tests."""
    for file in sorted(CRATES.glob("*/src/**/*.rt")):
        own = file.with_suffix("").relative_to(CRATES).parts
        if own[0] != TESTS and "tests" not in own:
            yield file


def trials() -> Iterator[Trial]:
    """The trials on each place of these words."""
    for file in sources():
        code = code_of(file.read_text("utf-8"))
        for word, is_right in judged(code, str(file.relative_to(CRATES))):
            where = f"{file.relative_to(CRATES.parent)}:{code.count(chr(10), 0, word.start()) + 1}"
            wrong = WRONG.get(word[0], "leaks memory, or allocates more than what goes in")
            yield f"{where}: {word[0]!r}", "right", "right" if is_right else wrong
    for text in ALLOWED:
        yield f"allowed: {text}", [], wrong_words(text)
    # (a value that keeps an allocator has more words refused, and the last text has no function)
    plain = [text for text in REFUSED[:-1] if text != KEEPING_ALLOCATOR]
    each = sorted(2 * [word for text in plain for word in wrong_words(text)])
    yield "refused texts in one file, each twice", each, sorted(wrong_words("\n".join([*ALLOWED, *(2 * plain)])))
    yield "two values that keep an allocator", ["alloc", "alloc"], wrong_words(2 * KEEPING_ALLOCATOR)
    yield from constants()


if __name__ == "__main__":
    sys.exit(report(trials(), canaries()))
