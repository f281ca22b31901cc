"""What docs/architecture.md says of crates and files in words: crates.txt and the sources show which words are right."""
from __future__ import annotations

import functools
import re
from collections.abc import Iterator
from typing import NamedTuple

from held import Words, held
from page_tables import TOP, spans_of, table_with, text_of
from trials import Trial

PAGE = "docs/architecture.md"
DEFINES = r"\b(?:fn|struct|enum|trait) "


class Placed(NamedTuple):
    """A sentence that names the files, or the crates, that define something."""

    sentence: str
    crate: str
    items: str  # what each of them defines, with blanks between


@functools.cache
def sources(crate: str) -> dict[str, str]:
    """The code of a crate by its files, without comments and what is there for the prover alone."""
    folder = TOP / "crates" / crate / "src"
    texts = {str(it.relative_to(folder)): it.read_text("utf-8") for it in sorted(folder.rglob("*.rt"))}
    return {name: re.sub(r"^ *(?://|ghost use).*\n", "", text, flags=re.MULTILINE) for name, text in texts.items()}


def code_of(crate: str) -> str:
    """The code of a crate."""
    return "\n".join(sources(crate).values())


@functools.cache
def listed() -> dict[str, list[str]]:
    """By crates.txt: the libraries that each crate uses, at once or through others."""
    lines = [it for it in (TOP / "crates.txt").read_text("utf-8").splitlines() if not it.startswith("#")]
    return {line.split(":")[0].split()[0]: line.split(":")[1].split() for line in lines}


@functools.cache
def used(crate: str) -> frozenset[str]:
    """The crates of the repository that the code of a crate names."""
    return frozenset(re.findall(r"\bl6_[a-z]+\b", code_of(crate))) & frozenset(listed()) - {crate}


def users(crate: str) -> list[str]:
    """The crates whose code names a crate, but for the tests."""
    return [it for it in listed() if crate in used(it) and it != "l6_tests"]


def file_of(crate: str, item: str) -> str:
    """The file that defines a name of a crate, without .rt."""
    return " and ".join(name.removesuffix(".rt") for name, text in sources(crate).items() if re.search(rf"{DEFINES}{item}\b", text))


FILES = [
    Placed("| ___ | the board's blocks and the tree above them", "l6_places", "Tree"),
    Placed("| ___ | the public calls, and how many places the blocks have |", "l6_places", "Board"),
    Placed("| ___ of l6_raw | safe code over them |", "l6_raw", "Region"),
    Placed("| ___ of l6_store | the only code that changes links |", "l6_store", "set_neighbors"),
    Placed("| ___ | what begins at a place, and how many words a block there has |", "l6_store", "PlaceTags"),
    Placed("| ___ | region, tags and list heads together |", "l6_store", "Arena"),
    Placed("| ___ | the loops that halve and join |", "l6_store", "halve"),
    Placed("| ___ | the calls of Places |", "l6_store", "Buddy"),
    Placed("| ___, ___ | the plain store |", "l6_store", "ScanStore Tag"),
    Placed("has what a user may choose for a run (___), and the texts that say how a run ended and what it printed (___),",
           "l6_machine", "machine_under printout"),
    Placed("(targets.rt; ___ finds operations that always trap", "l6_check", "certain_trap"),
    Placed("is a Marker, in ___)", "l6_check", "Marker"),
    Placed("are kept, and all are counted (___)", "l6_check", "Findings"),
    Placed("separator line is left out (up_to_mark in ___)", "l6_check", "up_to_mark"),
    Placed("write_text writes a text. ___ takes a job apart by its separator lines, for both programs, and ___ lists the parts "
         "and why", "l6_device",
           "halves RunFault"),
    Placed("It finds what is reached by a walk (___)", "l6_draw", "Walk"),
    Placed("| ___ of l6_history | a NumberedMachine:", "l6_history", "NumberedMachine"),
    Placed("| ___ | a Ring of checkpoints", "l6_history", "Ring"),
    Placed("| ___ | a History: a numbered machine and its ring |", "l6_history", "History"),
    Placed("| ___ | the watch of a block: whether it is there, or its words |", "l6_history", "BlockWatch"),
    Placed("| ___ | what all kinds of watches have in common", "l6_history", "Seeker"),
    Placed("| ___ | goes on to such a state, and back |", "l6_history", "to_next"),
    Placed("| ___ | the commands, and what each asks for that is given alone |", "l6_session", "Verb"),
    Placed("| ___ | the list of commands: the words of each", "l6_session", "row_of"),
    Placed("| ___, ___ | a Console reads lines and shows texts in one order; converse answers each line before the next |",
           "l6_session", "Console converse"),
    Placed("| ___, ___ | a Service answers requests and takes notifications; a Server is one", "l6_rpc", "Service Server"),
    Placed("| ___, ___ | a Channel reads and sends messages; serve answers each before the next |", "l6_rpc", "Channel serve"),
    Placed("2. ___: perform reads the job from its reader", "l6", "perform"),
    Placed("3. crates/l6_device/src/___: how a job is read whole, and a text written", "l6_device", "read_part"),
    Placed("4. crates/l6_run/src/___: run_deck has the deck assembled", "l6_run", "run_deck"),
    Placed("5. crates/l6_asm/src/___: from a deck to the program that it spells", "l6_asm", "assemble"),
    Placed("6. crates/l6_card/src/___ and ___: cards, items and groups, or the first objection", "l6_card", "read_deck Reader"),
    Placed("10. crates/l6_machine/src/___: the printout", "l6_machine", "printout"),
    Placed("what l6_check says of a deck. ___ of l6_run runs an image: run_image_text has load make the program", "l6_run",
         "run_image_text"),
    Placed("and goes on in the same way. ___ writes a deck's image and its listing (write_deck_image, write_deck_listing), and "
         "rewrites", "l6_run",
           "write_deck_listing"),
    Placed("with what readers give (___, ___, ___)", "l6_run",
           "run write_image"),
    Placed("and one loop reads it (___)", "l6_image", "Listed"),
    Placed("the versions and the faults. ___ turns words into lines and back", "l6_image", "push_lines"),
]


def files(_program: str) -> Iterator[Trial]:
    """Which file has what."""
    for row in FILES:
        words = tuple(file_of(row.crate, it) for it in row.items.split())
        if row.sentence.count("___") > len(words):
            words += (file_of("l6_debug", "debug_deck"),)
        yield held(PAGE, row.items, row.sentence.replace("___", "___.rt"), words if len(words) > 1 else words[0])


def calls(_program: str) -> Iterator[Trial]:
    """The main calls of each crate are its own."""
    for name, _, shown in table_with(text_of(PAGE), "Crate", "What it is", "Its main calls").rows:
        crate = spans_of(name)[0]
        named = [it for it in spans_of(shown) if not it.startswith("library/")]
        own = [it for it in named if all(file_of(crate, one) for one in it.split("::"))]
        yield f"{PAGE}: the main calls of {crate}", own, named


def known_of(crate: str, *others: str) -> str:
    """Whether a crate names none of others, or which of them."""
    return " ".join(it for it in others if it in used(crate))


def only(crate: str, *others: str) -> str:
    """Whether the code of a crate names these others alone."""
    return "alone" if used(crate) <= {*others} else "too"


def uses(_program: str) -> Iterator[Trial]:
    """Which crate stands on which."""
    below = {"l6_machine", *listed()["l6_machine"]}
    rows: list[tuple[str, Words | None]] = [
        ("l6_store uses ___ and ___. The machine", tuple(sorted(used("l6_store"), reverse=True))),
        ("l6_places uses ___ of these: a Board", "some" if used("l6_places") else "none"),
        ("l6_trace uses l6_store, l6_places and l6_word ___, and ___ uses it for the verb trace",
         (only("l6_trace", "l6_store", "l6_places", "l6_word"), " ".join(users("l6_trace")))),
        ("use it side by side and know ___ of each other: the first",
         "nothing" if not known_of("l6_instructions", "l6_registers") + known_of("l6_registers", "l6_instructions") else "much"),
        ("l6_check uses l6_asm and l6_card; ___, ___, ___ and ___ use it",
         tuple(sorted(users("l6_check"), key=["l6", "l6db", "l6_lsp", "l6_dap"].index))),
        ("The crate knows ___ machine, so it is proved beside it", "a" if "l6_machine" in listed()["l6_device"] else "no"),
        ("l6_history uses l6_machine and what that uses ___, so any debugger", only("l6_history", *below)),
        ("l6_debug uses l6_history, l6_device and l6_draw, and ___ of l6_run",
         "nothing" if used("l6_debug") >= {"l6_history", "l6_device", "l6_draw"} and "l6_run" not in used("l6_debug") else "much"),
        ("All that it promises is in l6_session, which uses l6_history, the texts of l6_debug, and ___ device",
         "a" if known_of("l6_session", "l6_device") else "no"),
        ("It uses ___ machine, so l6 run --explain has it, too, by explain_deck of ___.",
         ("a" if "l6_machine" in listed()["l6_marks"] else "no",
          " ".join(it for it in users("l6_marks") if file_of(it, "explain_deck")))),
        ("by three crates that know ___ of each other; ___ and ___ put them together for decks",
         ("nothing" if not any(known_of(it, "l6_frame", "l6_rpc", "l6_place") for it in ("l6_frame", "l6_rpc",
         "l6_place")) else "much",
          next(iter(sorted(users("l6_place")[:1])), ""), " ".join(it for it in users("l6_frame")))),
        ("by the same frames and channels, and ___ stands on the sessions of l6db",
         " ".join(it for it in users("l6_session") if it not in ("l6db", "l6ed"))),
        ("l6_image uses l6_prog and l6_word ___. ___ uses it for listings, and ___ for images",
         (only("l6_image", "l6_prog", "l6_word"), *(it for it in users("l6_image") if it in ("l6_asm", "l6_run")))),
    ]
    for sentence, words in rows:
        yield held(PAGE, sentence.split(" ___")[0], sentence, words)


def ways_of_code(_program: str) -> Iterator[Trial]:
    """How some code does it."""
    exports = {it: code_of(it).partition("macro_rules! on_open")[2].partition("}};")[0] for it in ("l6_store_c", "l6_offset_c")}
    ring, inbox = sources("l6_history")["ring.rt"], sources("l6_frame")["inbox.rt"]
    loops = (TOP / "tools/prove.py").read_text("utf-8")
    pointers = [it for it in listed() if "unsafe {" in code_of(it) and it in ("l6_raw", *listed()["l6"])]
    rows: list[tuple[str, Words | None]] = [
        ("the exports, which ___ the store from the handle, and call", "borrow" if ".lend()" in exports["l6_store_c"] else "take"),
        ("but its exports take the handle ___, call, and put it ___",
         ("out", "back") if "mem::replace" in exports["l6_offset_c"] and "handle = Handle::of" in exports["l6_offset_c"] else ("in",
         "out")),
        ("the ___ code of a store with a raw pointer; its functions are proved by hand",
        "only" if pointers == ["l6_raw"] else "first"),
        ("Once the ring is full, the ___ becomes the ___, in the memory that it has",
         ("oldest", "newest") if re.search(r"pop_front\(\) \{\s+if oldest\.take_from.*\{\s+numbered_machines\.push_back",
         ring) else None),
        ("those that are taken are forgotten once they are ___ than those that are left",
         "more" if "if self.taken > self.bytes.len() - self.taken" in inbox else "fewer"),
        ("the crate that the ___ chain of others waits for goes ___.",
         ("longest", "first") if "sorted(ready, key=self._work_above, reverse=True)" in loops else ("longest", "last")),
        ("A crate is started once those that it uses are ___;",
         "proved" if "if unproved.isdisjoint(crate.below)" in loops else "started"),
    ]
    for sentence, words in rows:
        yield held(PAGE, sentence.split(" ___")[0], sentence, words)


def architecture_sentences(program: str) -> Iterator[Trial]:
    """All of them."""
    for group in (files, calls, uses, ways_of_code):
        yield from group(program)


# Each group, and a sentence of it that is turned round.
TURNED = [
    (files, PAGE, "| `ring.rt` | a `Ring`", "| `stop.rt` | a `Ring`"),
    (calls, PAGE, "| `Program::new` |", "| `Board::new` |"),
    (uses, PAGE, "`l6_places` uses none of these", "`l6_places` uses both of these"),
    (ways_of_code, PAGE, "take the handle out, call, and put it back", "take the handle out, call, and put it away"),
]
