"""What docs/proof.md, robustness.md, debugger.md and tutorial.md say in words of promises, memory and a tree: what shows the "
"words."""
from __future__ import annotations

import re
import string
import tempfile
from collections.abc import Iterator

from answers import answer_of
from architecture_sentences import code_of, file_of, listed, sources
from command_sentences import FIRST, little_room_for_files
from debugger_sentences import session
from held import Words, all_held, answered, held, told
from listing_sentences import IMAGE, OLD
from option_lists import debugger_beside
from page_tables import TOP, spans_of, table_with, text_of
from spec_sentences import definitions
from trials import Trial

PROOF, ROBUSTNESS, DEBUGGER, LESSON = "docs/proof.md", "docs/robustness.md", "docs/debugger.md", "docs/tutorial.md"
FIVE = " (A,E,5)(A,PD)\n"
STRIDE, FAR = 4_096, 100_000  # states from one checkpoint to the next, and one that is further than all that are kept
OCTAL = {f"{ord(it) - 32:02o}": it for it in string.ascii_uppercase}  # the codes of letters
LAW = re.compile(r"[a-z]+(?:_[a-z]+){2,}")
OUTSIDE = re.compile(r"\bstd::(?:fs|thread|net)\b")


FAULTS = [
    told("a line that is no command", "a line that is no command | ?? NOT A COMMAND, as its ___ |",
         {"?? NOT A COMMAND 0": "answer"},
         session(FIVE, "hop"), command="debug", look=lambda it: f"{it.stdout.decode().strip()} {it.status}"),
    told("a statement that is not there", "a statement that does ___ exist | ?? NO SUCH STATEMENT, as its ___ |",
         {"?? NO SUCH STATEMENT 0": ("not", "answer")}, session(FIVE, "break 7"), command="debug",
         look=lambda it: f"{it.stdout.decode().strip()} {it.status}"),
    told("where no block begins", "a pointer to a block that was ___, or into the ___ of one | trap 2",
         {"TRAP 2 | TRAP 2 | -": ("freed", "middle"), "- | TRAP 2 | -": ("lost", "middle")},
         " (0,DN,0,35)(A,GT,2)(B,E,A)(A,FR)(C,E,BN)\n", " (0,DN,0,35)(A,GT,2)(A,A,1)(C,E,AN)\n", " (0,DN,0,35)(A,GT,2)(C,E,AN)\n"),
    told("texts of no program", "any other text that is ___ program's, in ___ version | l6: not an image",
         {"not an image | not an image": ("no", "either")}, IMAGE[:-13], OLD[:-13], command="load"),
]


def contract(crate: str, file: str, name: str) -> str:
    """The signature of a function, with its clauses."""
    return sources(crate)[file].partition(f"fn {name}")[2].partition("\n{\n")[0].partition("\n    {\n")[0]


def body(crate: str, file: str, name: str) -> str:
    """The text of a function, with what follows."""
    return sources(crate)[file].partition(f"fn {name}")[2]


def home_of(law: str) -> str:
    """The crates that have a law."""
    return " ".join(it for it in listed() if re.search(rf"\bfn {law}\b", "".join(t for n,
         t in sources(it).items() if n == "laws.rt")))


def order_of(text: str, first: str, second: str) -> str | None:
    """Whether one part of a text stands before another."""
    at = text.find(first), text.find(second)
    return None if min(at) < 0 else "before" if at[0] < at[1] else "after"


def proved(_program: str) -> Iterator[Trial]:
    """Where the parts of the headline are."""
    done = [it for it, text in sources("l6").items() if "ensures done { JobResult" in text]
    headline = "".join(re.findall(r"pub fn (\w+)(?=[^{}]*\)[^{}]*ensures done \{ JobResult)", sources("l6")[done[0]]))
    rows: list[tuple[str, Words]] = [
        ("The headline is a clause of one function, done of ___ (crates/l6/src/job", headline),
        ("and, for images, a law beside it, images_print_as_decks of ___.", home_of("images_print_as_decks")),
        ("The clause requires ___ of the job:", "much" if "requires" in contract("l6", "job.rt", "perform") else "nothing"),
        ("The status with which the process ends is a clause of ___ (program.rt), of which ___ is a call",
         ("exit_code" if "(exit_status result)" in contract("l6", "program.rt", "exit_code") else "perform",
          "main" if "exit_code(" in sources("l6")["main.rt"] else "perform")),
        ("law images_of_decks_fit of ___ |", home_of("images_of_decks_fit")),
        ("law runs_are_determined of ___, clause by_buddies", home_of("runs_are_determined")),
        ("The kit's crates ___, ___, ___, ___, ___, ___ and ___, and those that they use, are proved by the kit",
         tuple(sorted({it for all_of in listed().values() for it in all_of} - {*listed(), "core", "std_alloc"}))),
        ("(tests/program/hostile.py, which the gate ___ run)",
        "does" if "hostile.py" in (TOP / "test").read_text("utf-8") else "does not"),
    ]
    for sentence, words in rows:
        yield held(PROOF, sentence.split(" ___")[0], sentence, words)


def laws(_program: str) -> Iterator[Trial]:
    """The laws that the rows of the table on crates name are theirs."""
    for name, what in table_with(text_of(PROOF), "Crate", "What is proved besides").rows:
        crate = spans_of(name)[0]
        named = [it for it in spans_of(what) if LAW.fullmatch(it)]
        if named:
            yield f"{PROOF}: the laws of {crate}", [it for it in named if file_of(crate, it) == "laws"], named


def read(program: str) -> Iterator[Trial]:
    """What is read in the source, and what a job leaves behind."""
    units = order_of(body("l6_store", "buddy.rt", "new"), "Err(StoreFault::BadUnits)", "Self::with_units(alloc")
    limits = order_of(body("l6_machine", "machine.rt", "new"), "check(limits)?", "Self::start(alloc")
    reset = body("l6_machine", "machine.rt", "reset").partition("pub fn")[0]
    nothing = "much" if "alloc" in sources("l6_machine")["views.rt"] + reset else "nothing"
    dropped = "dropped" if "impl Drop for Region" in sources("l6_raw")["region.rt"] else "made"
    below = [it for it in listed() if it in ("l6", *listed()["l6"])]
    has_static = any(re.search(r"^ *(?:pub )?static ", code_of(it), re.MULTILINE) for it in below)
    opening = any(OUTSIDE.search(code_of(it)) for it in below)
    kept, which = ("much", "A") if has_static or opening else ("nothing", "No")
    first = "before" if units == limits == "before" else "after"
    for page in (PROOF, ROBUSTNESS):
        yield held(page, "what is answered first", "BadUnits and BadLimits are answered ___ anything is allocated", first)
        yield held(page, "views", "The views of a machine, and reset, allocate ___.", nothing)
    yield held(PROOF, "the memory of a region", "The memory of a region is given back when the region is ___ (", dropped)
    yield held(PROOF, "what is kept between jobs", "perform keeps ___ from one job to the next: ___ crate that l6 uses has a "
         "static",
               (kept, which.lower()))
    yield held(ROBUSTNESS, "files", "above count that, too. ___ crate that l6 uses has a static, opens a file or makes a thread",
         which)
    yield held(ROBUSTNESS, "the memory of a store", "is given back at all, when its region is ___;", dropped)
    ended = answered(program, "run", f"{FIVE}$INPUT\n{FIVE}").stdout.count(b"== DONE")
    yield held(ROBUSTNESS, "jobs of a process", "since l6 serves ___ and ends", "one" if ended == 1 else "more")
    text = definitions("l6_debug/Serving")["TakesAnswers"]
    words = ("first", "whole") if "(concat (take count all))" in text else ("last", "whole")
    yield held(ROBUSTNESS, "a session out of memory", "an allocation fails in a session | the same, after the ___ answers, each "
         "___ |", words)
    status = answer_of([program, b"\xff"], input=b"").status
    yield held(ROBUSTNESS, "a word that is no text", "a word that is not UTF-8 | l6: a word is ___ UTF-8 | 64",
         "not" if status == 64 else "now")


def refused(program: str) -> Iterator[Trial]:
    """What is answered to commands, pointers and images that are wrong."""
    yield from all_held(program, ROBUSTNESS, FAULTS)
    said = answered(program, "check", " (A,Q)\n (B,Q)\n").stdout.decode().splitlines()[-1]
    words = ("on", "all") if said == "2 errors, 0 warnings" else ("no further", "some")
    yield held(LESSON, "how far a check goes", "It goes ___ after an error, so it finds those of ___ statements", words)


def kept_after(program: str, *commands: str) -> list[int]:
    """At which states checkpoints are kept after commands."""
    job = session("L (A,A,1) L\n", *commands, "checkpoints")
    return [int(it) for it in re.findall(rb"^(\d+)$", answered(debugger_beside(program), "--batch -", job).stdout, re.MULTILINE)]


def going_back(program: str) -> Iterator[Trial]:
    """Checkpoints, and what went out of a session."""
    whole = answered(program, "debug", session(FIVE, "step 1", "show"))
    with tempfile.TemporaryFile() as file:
        answer_of([program, "debug"], input=session(FIVE, "step 1", "show").encode(), stdout=file, preexec_fn=little_room_for_files)
        file.seek(0)
        went = {whole.stdout[:FIRST]: "first", whole.stdout[-FIRST:]: "last"}.get(file.read())
    bad = answered(program, "debug", session(" (A,Q)\n", "show"))
    yield held(DEBUGGER, "a session whose writer fails", "After Write(n) exactly its ___ n bytes went out", went)
    yield held(DEBUGGER, "a session that is refused", "With any other refusal ___ was written",
         "much" if bad.stdout else "nothing")
    kept = kept_after(program, f"goto {FAR}")
    newest, oldest = FAR // STRIDE * STRIDE in kept, STRIDE in kept
    yield held(DEBUGGER, "which checkpoints are kept", "At most 16 are kept; then the ___ one replaces the ___.",
               ("newest", "oldest") if newest and not oldest else ("oldest", "newest"))
    yield held(DEBUGGER, "where checkpoints are", "is kept at each state whose number is a ___ of 4,096",
               "multiple" if kept and not any(it % STRIDE for it in kept) else "part")
    again = kept_after(program, f"goto {FAR}", f"goto {2 * STRIDE + 1}")
    yield held(DEBUGGER, "further back", "To go back further, it runs again from the ___, and ___ checkpoints on the way",
               ("start", "keeps") if {STRIDE, 2 * STRIDE} <= {*again} else ("end", "drops"))
    way = definitions("l6_history/History")
    greatest = "max (if_up_to n number)" in way["greatest_up_to"] and "if nat_le number n then number" in way["if_up_to"]
    yield held(DEBUGGER, "from which checkpoint", "takes the checkpoint with the ___ number that is ___ above that of the state",
               ("greatest", "not") if greatest else ("least", "also"))
    ring = sources("l6_history")["ring.rt"]
    left = "out" if re.search(r"if let Ok\(copy\) = numbered_machine\.duplicate\(alloc\) "
         "\{\s+numbered_machines\.push_back\(copy\);", ring) else "in"
    yield held(DEBUGGER, "a checkpoint without memory", "A checkpoint for which there is ___ memory is left ___.", ("no", left))
    used = "used" if "mem::swap" in body("l6_history", "ring.rt", "restore") else "lost"
    yield held(DEBUGGER, "a copy without memory", "the checkpoint itself is ___, and the machine as it was takes its place", used)


def tree_of(program: str, cards: str, letters: str) -> list[list[str]]:
    """The letters of a tree that a deck makes of these, level by level, from left to right."""
    data = f"$INPUT\n{letters}.\n"
    drawn = answered(program, "debug", session(cards, "go", "draw") + data).stdout.decode()
    blocks = dict(re.findall(r"^BLOCK (\d+) SIZE 2\n((?:  .*\n)*)", drawn, re.MULTILINE))
    shown = answered(program, "debug", session(cards, "go", *(f"block {it}" for it in blocks)) + data).stdout.decode()
    letter = {at: OCTAL.get(word, word) for at, word in re.findall(r"^BLOCK (\d+) SIZE 2\n.*\n +1 \d+(\d\d)$", shown,
         re.MULTILINE)}
    level = re.findall(r"^T -> (\d+)", drawn, re.MULTILINE)
    levels: list[list[str]] = []
    while level and len(levels) < len(blocks):
        levels.append([letter.get(it, it) for it in level])
        level = [at for it in level for side in "LR" for at in re.findall(rf"^  {side} -> (\d+)", blocks.get(it, ""), re.MULTILINE)]
    return levels


def tree(program: str) -> Iterator[Trial]:
    """The tree of the tutorial's section 10."""
    section = text_of(LESSON).partition("\n## 10.")[2].partition("\n## 11.")[0]
    cards = re.findall(r"```text\n(.*?)\$INPUT", section, re.DOTALL)[0]
    figure = re.findall(r"```figure\n(.*?)```", section, re.DOTALL)[0]
    drawn = [it for it in (re.findall(r"[A-Z]", row) for row in figure.splitlines()) if it]
    yield f"{LESSON}: the figure of the tree", tree_of(program, cards, "KNOWLTON"), drawn
    words = ("less", "not") if tree_of(program, cards, "NAZN") == [["N"], ["A", "Z"], ["N"]] else ("greater", "not")
    sentence = "to which L leads are ___ than the node's own letter, and all letters in the subtree to which R leads are ___."
    yield held(LESSON, "subtrees", sentence, words)
    printed = answered(program, "run", f"{cards}$INPUT\nNAZ.\n").stdout.decode().splitlines()[0]
    known = {"ANZ": ("left", "right"), "ZNA": ("right", "left")}.get(printed)
    sentence = "WALK prints the ___ subtree, by a call of itself, then the node's letter, and then the ___ subtree"
    yield held(LESSON, "the walk", sentence, known)


def promised_sentences(program: str) -> Iterator[Trial]:
    """All of them."""
    for group in (proved, laws, read, refused, going_back, tree):
        yield from group(program)


# Each group, and a sentence of it that is turned round.
TURNED = [
    (proved, PROOF, "The clause requires nothing of the job", "The clause requires much of the job"),
    (laws, PROOF, "`frames_are_one`", "`blocks_are_one_day`"),
    (read, ROBUSTNESS, "`BadUnits` and `BadLimits` are answered before", "`BadUnits` and `BadLimits` are answered after"),
    (refused, ROBUSTNESS, "a pointer to a block that was freed", "a pointer to a block that was got"),
    (going_back, DEBUGGER, "then the newest one replaces the oldest", "then the oldest one replaces the newest"),
    (tree, LESSON, "prints the left subtree, by a call", "prints the right subtree, by a call"),
]
