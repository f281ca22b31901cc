"""What docs/definitions.md says in words of definitions: their texts in specs/ show which words are right."""
from __future__ import annotations

import functools
import re
from collections.abc import Iterator, Mapping
from typing import NamedTuple

from held import Words, held
from page_tables import TOP
from trials import Trial

PAGE = "docs/definitions.md"
BEGINS = re.compile(r"^(?=(?:abbrev|unfoldable|pub|record|infixl) )", re.MULTILINE)


class Defined(NamedTuple):
    """A sentence on definitions of a file."""

    subject: str
    sentence: str
    file: str  # NAME/SUBJECT: specs/SUBJECT.antt of the crate NAME
    names: str  # of the definitions, with blanks between
    words: Mapping[str, Words]  # by a part that their texts have; what is on both sides of " .. " must be there


@functools.cache
def definitions(file: str) -> dict[str, str]:
    """The definitions of a file, each in one line, without comments."""
    crate, _, subject = file.partition("/")
    text = (TOP / "crates" / crate / "specs" / f"{subject}.antt").read_text("utf-8")
    parts = BEGINS.split(re.sub(r"^ *--.*\n", "", text, flags=re.MULTILINE))
    named = ((re.match(r"(?:abbrev |unfoldable |pub |record )*(\w+)", it), it) for it in parts)
    return {name[1]: " ".join(it.split()) for name, it in named if name and name[1] != "use"}


def words_by(row: Defined) -> Words | None:
    """The words that are right by the texts of definitions."""
    known = definitions(row.file)
    text = " ; ".join(known.get(name, "") for name in row.names.split())
    return next((words for parts, words in row.words.items() if all(it in text for it in parts.split(" .. "))), None)


JOBS = [
    Defined("answers that leave the writer untouched", "IsUnwritten holds of the answers after which the writer is untouched: all "
         "___ Ok "
            "and Write. A deck", "l6_run/Serves", "IsUnwritten",
            {"(Ok outcome) = ⊥ .. (Err (Write n)) = ⊥ .. (Err fault) = Unit": "but",
            "(Ok outcome) = Unit .. (Err fault) = ⊥": "only"}),
    Defined("a session out of memory", "With debug, NoMemory is ___ of them either", "l6_debug/Serving", "IsRefused",
            {"(Err NoMemory) = ⊥": "none", "(Err NoMemory) = Unit": "one"}),
    Defined("a part that is given", "the reader gave these bytes, ___ that it had, and no ___ than the part may have",
            "l6_device/Transfer", "GivesPart", {"IsAtEnd new .. length bytes ≤ limit_of part": ("all", "more")}),
    Defined("a part that is too long", "TooLong only if one byte ___ came than it may have", "l6_device/Transfer", "GivesTooMuch",
            {"length bytes ≡ limit_of part + 1": "more"}),
    Defined("giving up", "GivesUp: ___ retry is left, the devices were interrupted ___ more than there were retries, one is "
         "reported, "
            "which was interrupted in the call, and ___ has failed in it", "l6_device/Patience",
            "GivesUp InterruptedIfReported Unfailed",
            {"left' ≡ 0 .. ≡ left + 1 .. device.new.has_failed ≡ device.old.has_failed": ("no", "once", "none")}),
    Defined("what is retried", "and a device has failed now exactly if that is reported ___ it had failed ___.",
         "l6_device/Patience",
            "FailedIfReported", {"(device.is_reported || device.old.has_failed)": ("or", "before"),
                                 "(device.is_reported && device.old.has_failed)": ("and", "before")}),
    Defined("a text that went out", "| Err(Write(n)) | just its ___ n bytes went out, and n is ___ than its length |",
         "l6_run/Serves",
            "AnswersFront", {"n < length text .. (take n text)": ("first", "less"), "n < length text .. (drop n text)": ("last",
            "less")}),
    Defined("out of memory", "| Err(NoMemory) | ___ more is said |", "l6_run/Serves", "Serves",
            {"old new (Err NoMemory) = Unit": "nothing"}),
    Defined("a write of nothing", "a write of some bytes that takes ___ is a ___, too", "l6_device/Device", "after_write",
            {"if count == 0 && nat_lt 0 (length bytes) then after_trouble old Failed": ("none", "failure")}),
    Defined("a deck with errors", "there are ___ errors, and the deck spells a program; or there are ___, and it spells ___. The "
         "other",
            "l6_check/Counted", "CountsErrors", {"errors ≡ 0 → (assembly : Assembled)": ("no", "some", "none"),
                                                 "0 < errors → (assembly : Assembled)": ("some", "no", "none")}),
    Defined("answers of a session", "at Ok ___ went out; after Write(n) just their ___ n bytes; after NoMemory the ___ answers, "
         "each ___ (",
            "l6_debug/Serving", "GoOut TakesAnswers",
            {"(Ok outcome) = Appends old new (concat all) .. (concat (take count all))": ("all", "first", "first", "whole")}),
    Defined("the order of spans of a statement", "lists the spans of a statement, tests ___ operations", "l6_card/Spans",
         "spans_of",
            {"statement.tests ++ map": "before", "statement.operations ++ map": "after"}),
    Defined("spans that rise", "begins at the offset from or ___, each other one where the one before ends or ___, and the last "
         "ends at "
            "the offset end or ___.", "l6_card/Spans", "Rise",
            {"[] end = from ≤ end .. (from ≤ span.offset) × Rise (span.offset + span.length)": ("later", "later", "before")}),
    Defined("the fold of items", "folds a body from its ___ end: each column is put in ___ of the items after it", "l6_card/Items",
            "items_of", {"(column ∷ columns) = after_column offset column (items_of (offset + 1) columns)": ("right", "front")}),
    Defined("a parenthesis that waits", "A ) that meets no ( stays ___, and a ( that meets no ) ___ another ( is ___;",
         "l6_card/Items",
            "after_opening after_column", {"items = unclosed offset ∷ items .. then unopened offset [] ∷ items":
                                           ("unopened", "before", "unclosed")}),
    Defined("faults of a program", "is the program of some statements, or the first fault: Limit ___ Target, and Target ___ Shape",
            "l6_prog/Program", "program_of", {"Err Limit else if not (has_its_targets statements) then Err Target else": ("before",
            "before"),
                                              "Err Shape else if not (has_its_targets statements) then Err Target else": ("after",
                                              "after")}),
]
STORES = [
    Defined("the plain rule", "(scan_rule) keeps ___ order and picks the ___ open place", "l6_store/Scan", "scan_rule",
            {"first = λ _. []; .. level. least (": ("no", "lowest"), "first = λ _. []; .. level. greatest (": ("no", "highest")}),
    Defined("a store after a get", "a block of ___ at the place given, or ___ changed but the moves", "l6_store/Store", "after_get",
            {"(replicate (2 ^ level) 0) .. None = record store { moves = 0 }": ("zeros", "nothing")}),
    Defined("a store after a free", "after_free takes ___ block out", "l6_store/Store", "after_free",
            {"blocks = map.remove store.blocks place": "one", "blocks = map.empty": "each"}),
    Defined("blocks that are apart", "of two blocks the ___ ends before the ___ begins", "l6_store/Blocks", "Fits",
            {"one < other → one + length words ≤ other": ("lower", "higher"), "other < one → one + length words ≤ other": ("higher",
            "lower")}),
    Defined("open places", "and each block that begins at or ___ one of them ends at or ___ it, so that ___ of them is in a block",
            "l6_store/Open", "IsOpen", {"start ≤ at → start + length words ≤ at": ("before", "before", "none"),
                                        "at ≤ start → at ≤ start + length words": ("after", "after", "none")}),
    Defined("an answer", "IsAnswer is an open place, or ___ if ___ place is open", "l6_store/Open", "IsAnswer",
            {"(Some place) = IsOpen .. None = (place : ℕ) → IsOpen units blocks size place → ⊥": ("none", "no")}),
    Defined("the pick", "the pick is the ___ place of level_found", "l6_store/Buddy", "buddy_rule",
            {"first_or (listed order found)": "first", "last_or (listed order found)": "last"}),
    Defined("free pieces", "it is 0 for a word of a block and 1 for each ___ word of the store", "l6_store/Tiles", "Tiles",
            {"LiesIn blocks at → held order at ≡ 0 .. (LiesIn blocks at → ⊥) → held order at ≡ 1": "other"}),
    Defined("halves that are free", "that the two halves of a piece are ___ both free", "l6_store/Tiles", "Tiles",
            {"IsListed order level place → IsListed order level (place + 2 ^ level) → ⊥": "never"}),
    Defined("links", "is 2^18 times the place ___ plus the place ___, 0 if there is ___.", "l6_store/Links", "link_word Links",
            {"* before + after .. AreLinked words 0 (listed order level) 0": ("before", "after", "none"), "* after + before": (
                "after", "before", "none")}),
    Defined("the head of a list", "the head of each level is the ___ place of its list, or 0", "l6_store/Links", "Links",
            {"slice_index heads level ≡ first_or (listed order level) 0": "first"}),
    Defined("marks", "0 if ___ block begins there, and one ___ than the block's level if one does", "l6_places/Board",
         "Begins fresh places_of",
            {"slice_index marks place ≡ suc level .. zero = 0": ("no", "more")}),
    Defined("the lowest place", "is the answer to a get: the ___ open place, or none exactly if ___ place is open",
         "l6_places/Board",
            "IsLowest", {"lower < place → IsOpen b size lower → ⊥ .. None = (place : ℕ) → IsOpen b size place → ⊥": ("lowest",
            "no")}),
    Defined("words that are overwritten", "the words with others in place of those ___ a place on", "l6_raw/Words", "overwritten",
            {"take place words ++ (others ++ drop": "from"}),
]
RUNS = [
    Defined("a trap", "it counts the step or, at a trap, changes the ending ___.", "l6_steps/Step", "outcome",
            {"count = old.count + 1 .. (Err trap) = record old { ending = Some (halts.Trap trap) }": "alone"}),
    Defined("a step", "says that old is ___ last, and that there is a choice by which new is the ___ state", "l6_steps/Step",
         "Step",
            {"is_last context old ≡ false .. new ≡ next context choice old": ("not", "next")}),
    Defined("a run as a list", "says of a list of states, the ___ first, that it begins with ___ and goes on by steps",
         "l6_steps/Run", "IsRun",
            {"(first ∷ []) = first ≡ start .. (new ∷ old ∷ older) = Step context old new": ("latest", "start")}),
    Defined("where a run ends", "a run comes to final, and that is a ___ state", "l6_steps/Run", "EndsIn",
            {"is_last context final ≡ true": "last"}),
    Defined("the next order", "the next order from what the action did, by the blocks as they were ___ it",
         "l6_steps/Configuration",
            "next_configuration", {"let blocks = old.state.memory.blocks": "before"}),
    Defined("a configuration that stays", "A ___ configuration stays", "l6_steps/Configuration", "configuration_after",
            {"if is_last context old.state then old else": "last"}),
    Defined("the last state", "last_number is the number of the ___ state that is last", "l6_steps/Numbering", "last_number",
            {"(least (suc context.parameters.limits.steps)": "first", "(greatest (suc context": "last"}),
    Defined("a beginning", "says that whole is front and something ___ it, or ___.", "l6_steps/Output", "IsBeginning",
            {"whole ≡ front ++ rest": ("after", "nothing"), "whole ≡ rest ++ front": ("before", "nothing")}),
    Defined("outputs of two states", "BeginAlike: the ___ is the beginning of the other", "l6_steps/Output",
         "BeginAlike IsBeginning",
            {"IsBeginning one other ⊎ IsBeginning other one": "shorter"}),
    Defined("programs that take no block", "If ___ operation of a program takes a block", "l6_steps/Taking",
         "takes_none takes_no_block",
            {"list_all (λ operation. not (takes_block operation)) .. list_all takes_none": "no", "list_any (λ": "an"}),
    Defined("the filling of a word", "six items of six bits, with a filling ___ the last", "l6_image/Bits", "item",
            {"slice_index_or items place filling": "after"}),
    Defined("the text of two programs", "two programs with ___ text, in whichever versions, are ___.", "l6_image/Load",
            "ImagesAreOfOneProgram", {"IsImageOf text one → IsImageOf text other → one ≡ other": ("one", "one")}),
    Defined("ways", "as it may with a condition or ___ an exit", "l6_check/Ways", "may_go_on",
            {"Always Next = true .. Always other = false .. condition other = true": "without"}),
    Defined("ways of no steps", "A Way of ___ steps leads to statement 0", "l6_check/Ways", "Way",
         {"zero number = number ≡ 0": "no"}),
]
SHOWN = [
    Defined("the state to which one goes", "the state to which one goes: n, or that of the ___ state if that is ___.",
         "l6_history/History",
            "number_to", {"min n (last_number rule context)": ("last", "less"), "max n (last_number rule context)": ("last",
            "greater")}),
    Defined("from where one goes", "the present one, if it is not ___ n, or else the ___ of those kept that is not ___ n",
            "l6_history/History", "way_from if_up_to greatest_up_to",
            {"if nat_le old.number n then old.number else greatest_up_to .. if nat_le number n then .. max (": ("above", "greatest",
            "above")}),
    Defined("chains that are watched", "where a watched chain reads as ___ value than in the state from which one comes",
         "l6_history/Stop",
            "differs", {"(Some one) (Some other) = not (one == other)": "another",
            "(Some one) (Some other) = one == other": "the same"}),
    Defined("depths", "and where no ___ calls wait than its depth", "l6_history/Stop", "is_shallow",
            {"nat_le (length state.memory.returns) depth": "more", "nat_le depth (length state.memory.returns)": "fewer"}),
    Defined("at a breakpoint", "if it is at the ___ of a statement with a breakpoint", "l6_history/Stop",
         "is_at_statement is_at_breakpoint",
            {"state.at.action == 0 .. is_at_statement state && slice_index_or breakpoints": "condition"}),
    Defined("the next stop", "is the ___ number above n at which one stops that comes from the state ___ it (stops_forward), or "
         "that of the "
            "___ state", "l6_history/Seeking", "next_stop stops_forward",
            {"(least (suc (last_number .. nat_lt number n .. (state_at rule context (n - 1))": ("least", "before", "last")}),
    Defined("the previous stop", "is the ___ number below n at which one stops that comes from the state ___ it (stops_back), or 0",
            "l6_history/Seeking", "previous_stop stops_back", {"unwrap_or (greatest number .. (state_at rule context (n + 1))":
                                                              ("greatest", "after")}),
    Defined("go", "the ___ number above the present one whose state is at a breakpoint, or that of the ___ state",
         "l6_debug/DebuggerState",
            "next_breakpoint", {"(least (suc (last_number .. nat_lt debugger_state.number n && is_at_breakpoint": ("least",
            "last")}),
    Defined("paths", "that a bug holds the ___ of them, that each further one is held in the block at the one ___, and that a "
         "block begins "
            "at ___.", "l6_draw/Reach", "IsPath", {"(place ∷ []) = Contains (held_by_bugs memory) place × IsLive .. (held_in "
            "memory before) "
                                                  "place × IsLive memory.blocks place": ("first", "before", "each")}),
    Defined("what a field holds", "is what a field holds in a block of these words: ___ if it is ___ defined or its word is ___ "
         "in the block",
            "l6_draw/Reach", "held_by", {"words None = None .. option_map (windows.take window) (slice_get": ("nothing", "not",
            "not")}),
    Defined("how long a path is", "whether a path of at ___ so many places ends at a place, and is_reached takes as many as there "
         "are ___;",
            "l6_draw/Reach", "is_within is_reached", {"zero place = false .. is_within memory (places.len memory.blocks) place":
                                                     ("most", "blocks")}),
    Defined("a stretch without words", "is the line of a stretch, and ___ if it has ___ word", "l6_draw/StoreMap", "free_line",
            {"if nat_lt 0 size then .. else []": ("nothing", "no")}),
    Defined("stretches", "the words up to the ___ block, that block, and then the stretches from its ___ on", "l6_draw/StoreMap",
            "stretches_from", {"words_up_to place start ∷ (block_from memory start ∷ stretches_from memory (start + "
            "size_at": ("next", "end")}),
    Defined("depths of a session", "next and reverse-next do so with the ___ depth, so that one stops where no more calls wait "
         "than here; "
            "finish and reverse-finish with one ___, or stay", "l6_session/SessionState", "over moved",
            {"on_to rule context old (depth_at rule context old.number) .. old (depth_at rule context old.number - 1)": ("present",
            "less")}),
]


def rows_of(rows: list[Defined]) -> Iterator[Trial]:
    """The trials of a table of sentences on definitions."""
    for row in rows:
        yield held(PAGE, row.subject, row.sentence, words_by(row))


def of_jobs(_program: str) -> Iterator[Trial]:
    """What becomes of a job, and what a deck spells."""
    yield from rows_of(JOBS)


def of_stores(_program: str) -> Iterator[Trial]:
    """Stores, boards and regions."""
    yield from rows_of(STORES)


def of_runs(_program: str) -> Iterator[Trial]:
    """Steps, runs and images."""
    yield from rows_of(RUNS)


def of_debuggers(_program: str) -> Iterator[Trial]:
    """What debuggers show."""
    yield from rows_of(SHOWN)


def spec_sentences(program: str) -> Iterator[Trial]:
    """All of them."""
    for group in (of_jobs, of_stores, of_runs, of_debuggers):
        yield from group(program)


# Each group, and a sentence of it that is turned round.
TURNED = [
    (of_jobs, PAGE, "tests before operations", "tests after operations"),
    (of_stores, PAGE, "of two blocks the lower ends before the higher", "of two blocks the higher ends before the lower"),
    (of_runs, PAGE, "changes the ending alone.", "changes the ending too."),
    (of_debuggers, PAGE, "is the greatest number below n at which", "is the least number below n at which"),
]
