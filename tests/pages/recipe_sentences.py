"""Which files the recipes of docs/architecture.md name: the code and the definitions show where what a step speaks of is."""
from __future__ import annotations

import functools
import re
from collections.abc import Iterator
from typing import NamedTuple

from architecture_sentences import file_of, sources
from held import Words, held
from page_tables import TOP
from trials import Trial

PAGE = "docs/architecture.md"


class Step(NamedTuple):
    """A sentence of a recipe, with a gap for the name of each file."""

    sentence: str
    items: str  # what the file of each gap defines: CRATE:NAME of the code, CRATE/NAME of definitions


@functools.cache
def specs(crate: str) -> dict[str, str]:
    """The definitions of a crate by their files, without those that only name what is elsewhere."""
    folder = TOP / "crates" / crate / "specs"
    return {it.stem: it.read_text("utf-8") for it in sorted(folder.rglob("*.antt")) if it.stem not in ("Lib", "inner")}


def home_of(item: str) -> str:
    """The file that defines a name, without what its name ends in."""
    crate, kind, name = re.split("([:/])", item)
    if kind == ":":
        constants = [it.removesuffix(".rt") for it, text in sources(crate).items() if re.search(rf"\b(?:const|static) {name}\b",
             text)]
        return constants[0] if constants else file_of(crate, name)
    beginning = re.compile(rf"^(?:(?:abbrev|unfoldable|pub|record|data) )*{name}(?: :| \()", re.MULTILINE)
    return " and ".join(it for it, text in specs(crate).items() if beginning.search(text))


STEPS = [
    Step("1. l6_debug/src/___.rt: a variant of Command. Definitions use this type", "l6_debug:Command"),
    Step("2. l6_debug/specs/___.antt: a line of words_alone or words_with_number. ___.antt: a case of answer_text",
         "l6_debug/words_alone l6_debug/answer_text"),
    Step("a case of after in ___.antt. 3", "l6_debug/after"),
    Step("3. l6_debug/src/___.rt: a line of reading_alone or command_with", "l6_debug:reading_alone"),
    Step("1. l6_steps/src/___.rt: a variant of Trap, its lines in number and name", "l6_steps:Trap"),
    Step("2. l6_steps/specs/___.antt: its lines in trap_number and trap_name. ___.antt: the case that traps (here in print)",
         "l6_steps/trap_number l6_steps/row"),
    Step("then combine of ___.rt may need an answer", "l6_registers:combine"),
    Step("1. l6_session/src/___.rt: a variant of Move", "l6_session:Move"),
    Step("2. src/___.rt: its row in row_of, and its place in VERBS, the order of help", "l6_session:VERBS"),
    Step("3. specs/___.antt: the same row, its place in verbs", "l6_session/row_of"),
    Step("a line of with_word in src/___.rt and in specs/___.antt", "l6_session:with_word l6_session/with_word"),
    Step("For a Move or a Setting: src/___.rt, and its line in specs/___.antt", "l6_session:Session l6_session/come_to"),
    Step("1. l6_prog/src/___.rt: a variant of Op, and its lines in clone and reveal", "l6_prog:Op"),
    Step("what its parts are is a line of is_operation in l6_prog/specs/___.antt", "l6_prog/is_operation"),
    Step("also its line in leads_below, and in l6_prog/specs/___.antt", "l6_prog/targets_of_operation"),
    Step("2. Spelling: a line of a table in l6_group/specs/___.antt", "l6_group/operation_of"),
    Step("3. Labels: a line of resolved in l6_asm/specs/___.antt, and in src/___.rt", "l6_asm/resolved l6_asm:resolved"),
    Step("4. Meaning: a line of row in l6_steps/specs/___.antt, and the same line in operate of l6_registers/src/___.rt",
         "l6_steps/row l6_registers:operate"),
    Step("6. If it is to be fast, an Instruction: l6_instructions/src/___.rt", "l6_instructions:Instruction"),
    Step("a line of Implements in specs/inner/___.antt, and one of execute in l6_machine/src/___.rt",
         "l6_instructions/Implements l6_machine:execute"),
    Step("1. Reason in l6_card/src/___.rt; is_limit in specs/___.antt, if there is too much of something",
         "l6_card:Reason l6_card/is_limit"),
    Step("3. FormReason in ___.rt of l6_check, its kind in specs/___.antt (form_kind), piece_reason in ___.rt",
         "l6_check:FormReason l6_check/form_kind l6_check:piece_reason"),
    Step("1. The numeral: most_statements in l6_prog/specs/___.antt", "l6_prog/most_statements"),
    Step("2. The constant: MAX_STATEMENTS in l6_prog/src/___.rt. src/___.rt proves that both are equal",
         "l6_prog:MAX_STATEMENTS l6_prog:programs_have_their_limits"),
    Step("What follows from it: most_in of l6_image/specs/___.antt and MOST_IN_TWO of ___.rt",
         "l6_image/most_in l6_image:MOST_IN_TWO"),
    Step("What it answers is a word of specs/___.antt or specs/___.antt, where", "l6_store_c/answered l6_store_c/read_outcome"),
]


def recipes(_program: str) -> Iterator[Trial]:
    """Which file a step of a recipe is about."""
    for step in STEPS:
        words: tuple[str, ...] = tuple(home_of(it) for it in step.items.split())
        known: Words = words if len(words) > 1 else words[0]
        yield held(PAGE, step.items, step.sentence, known)


def recipe_sentences(program: str) -> Iterator[Trial]:
    """All of them."""
    yield from recipes(program)


# The group, and a sentence of it that is turned round.
TURNED = [(recipes, PAGE, "`MAX_STATEMENTS` in `l6_prog/src/program.rt`", "`MAX_STATEMENTS` in `l6_prog/src/operation.rt`")]
