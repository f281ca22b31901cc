"""What docs/DECISIONS.md, measurements.md and tutorial.md say in words of code, scripts and machine words: what shows the words."""
from __future__ import annotations

import re
from collections.abc import Iterator

from architecture_sentences import file_of, listed, sources, users
from debugger_sentences import session
from held import Words, all_held, answered, held, seen_of, told
from listing_sentences import IMAGE
from page_tables import TOP
from spec_sentences import definitions
from trials import Trial

DECISIONS, MEASURED, LESSON = "docs/DECISIONS.md", "docs/measurements.md", "docs/tutorial.md"
FIVE = " (A,E,5)(A,PD)\n"
LINKS = 3  # that a session changes
FUNCTION = re.compile(r"^ {4}pub(?:\(crate\))? fn (\w+)(.*?)^ {4}\}$", re.MULTILINE | re.DOTALL)
Rows = list[tuple[str, Words | None]]

MACHINE_WORDS = [
    told("where a trap is", "AT 10.2 is the ___ operation of statement 10", {"TRAP 5 ZERO DIVISOR AT 0.2": "second", "TRAP 5 ZERO "
         "DIVISOR AT 0.1": "third"}, " (A,PD)(B,V,0)\n", look=lambda it: it.stdout.decode().partition("== ")[2].partition(" "
         "AFTER")[0]),
    told("an image that is changed", "Change a digit of the image, and load runs a ___ program", {"7": "different", "5": "similar"},
         IMAGE.replace("000000000005\n", "000000000007\n"), command="load"),
    told("what LABELS has", "list the deck: LABELS has the numbers of the ___.", {"LABELS X          1": "labels"},
         " (PL)\nX (PL)\n",
         command="list", look=lambda it: " ".join(it.stdout.decode().splitlines()[-2:])),
    told("numbers alone", "but those for breakpoints take numbers ___, and go is *continue*",
         {"BREAK AT 0 ?? NOT A COMMAND": "alone", "BREAK AT 0 BREAK AT 0": "too"}, session("X (PL)\n", "break 0", "break X"),
         command="debug"),
]


def functions(crate: str, file: str) -> dict[str, str]:
    """The public functions of a file, each with its text."""
    return dict(FUNCTION.findall(sources(crate)[file]))


def of_code(_program: str) -> Iterator[Trial]:
    """What is said of the code."""
    memory, store = functions("l6_raw", "memory.rt"), sources("l6_store")["places.rt"]
    loops = [name for name, text in memory.items() if re.search(r"\b(?:for|while|loop)\b.*\{", text)]
    knowing = [name for name in ("write", "append", "words") if "alloc" in memory[name]]
    trait = {name: store.partition(f"    fn {name}(")[2].partition("\n    fn ")[0] for name in ("word", "take_from")}
    bodies = "bodies" if all("\n    }\n" in it for it in trait.values()) else "no bodies"
    tries = [it for it in ("Buddy", "Places") if re.search(r"fn try_free\b",
         sources("l6_store")["buddy.rt" if it == "Buddy" else "places.rt"])]
    lends = re.search(r"fn answer\(\s*(&(?:mut )?self)", sources("l6_rpc")["service.rt"])
    folded = "after_column offset column (items_of (offset + 1) columns)" in definitions("l6_card/Items")["items_of"]
    mentions = any("race" in it.replace("Trace", "trace") for it in definitions("l6/JobResult").values())
    rows: Rows = [
        ("A body's items are defined from its ___ column to its ___.", ("last", "first") if folded else ("first", "last")),
        ("Items are folded from the ___.", "right" if folded else "left"),
        ("perform is in the program's crate, which ___ crate can call", "no" if not users("l6") and file_of("l6",
        "perform") else "a"),
        ("write, append and words know ___ allocator", "the" if knowing else "no"),
        ("has its loop beside the pointer, and is the ___ one of them that has one", "only" if loops == ["clear"] else "first"),
        ("A store's word and take_from have ___ in the trait", bodies),
        ("belongs to ___ and not to ___: a machine", (tries[0], "Places") if len(tries) == 1 else None),
        ("and the type says so: Service::answer takes ___, so", lends[1] if lends else None),
        ("The headline, done of perform, does ___ mention it;", "also" if mentions else "not"),
    ]
    for sentence, words in rows:
        yield held(DECISIONS, sentence.split(" ___")[0], sentence, words)
    both = {*listed()["l6_group"]} & {*listed()["l6_steps"]} - {"l6_word"}
    waits = {it for it in listed()["l6_asm"] if it in listed()} - {*listed()["l6_card"], "l6_card"}
    yield held(MEASURED, "where long chains begin", "and steps, registers and machine, both begin at ___, with", " ".join(both))
    yield held(MEASURED, "what the assembler waits for", "(the assembler waits for ___, too)", " ".join(sorted(waits)))


def of_scripts(_program: str) -> Iterator[Trial]:
    """What is said of the tests and of what is kept."""
    steps, checks = (TOP / "test").read_text("utf-8"), (TOP / "tests/scripts/static_checks.py").read_text("utf-8")
    summed = {it.split()[1] for it in (TOP / "dist/l6.sources").read_text("utf-8").splitlines()}
    crates = [it for it in TOP.glob("crates/*/src/**/*.rt") if not it.name.startswith(".")]
    each = all(str(it.relative_to(TOP)) in summed for it in crates)
    edits = {it: it.read_text("utf-8").split("\n", 1)[0].removeprefix("file: src/") for it in TOP.glob("crates/*/edits/*.edit")}
    begin = [it for it, file in edits.items() if it.name.startswith(file.removesuffix(".rt").rpartition("/")[2])]
    alone = re.findall(r"^alone='(.*)'$", steps, re.MULTILINE)[0].split()
    for_web = re.search(r'Group\(\("web/tests".*\(\)\),', checks)
    rows: Rows = [
        ("dist/ has a list with the sum of ___ source,", "each" if each else "some"),
        ("Verdicts on edits are kept in the ___, and not on the machine",
         "repository" if (TOP / "tests/edits/verdicts").is_file() else "machine"),
        ("The edits of a crate are in ___ folder", "no" if any(it.is_dir() for it in TOP.glob("crates/*/edits/*")) else "one"),
        ("Their names ___ begin with the file that they change", "mostly" if len(edits) / 2 < len(begin) < len(edits) else "all"),
        ("defects and edits take all processors, and run ___.", "alone" if {"proofs", "page", "ports", "defects",
        "edits"} <= {*alone} else
         "beside others"),
        ("by tests/harness/python_lines.py, which is ___ step:", "a" if "python_lines" in steps else "no"),
        ("Types are checked with no exceptions (mypy --strict; ___ --strict in ___, where a browser",
         ("without" if for_web else "with", "web/tests/")),
        ("Where mypy or shellcheck is missing, files are only ___, and that is said",
         "read" if "else {it: said_by_python(it)" in checks else "passed over"),
    ]
    for sentence, words in rows:
        yield held(DECISIONS, sentence.split(" ___")[0], sentence, words)


def of_words(program: str) -> Iterator[Trial]:
    """What the tutorial says of machine words and of kept sessions."""
    yield from all_held(program, LESSON, MACHINE_WORDS)
    image, ran = answered(program, "asm", FIVE).stdout.decode(), seen_of(program, "run", FIVE)
    words = ("alone" if re.fullmatch(r"([0-7]{12}\n)+", image) else "too", "load" if seen_of(program, "load",
         image) == ran else "asm")
    yield held(LESSON, "asm and load", "asm writes the machine words ___, as an image of the program, and ___ runs an image:",
         words)
    deck = (TOP / "examples/reverse.deck").read_text("latin-1")
    cards, line, data = deck.partition("$INPUT")
    asked = session(cards, "break 8", "go", "draw", "go", "go", "go", "draw") + line + data
    drawn = answered(program, "debug", asked).stdout.decode()
    first, later = (dict(re.findall(r"^BLOCK (\d+) SIZE 1\n((?:  .*\n)*)", it, re.MULTILINE)) for it in drawn.split("BLOCKS\n")[:2])
    moved = [at for at in first if first[at] != later.get(at)]
    known = ("got", "freed") if first.keys() == later.keys() and len(moved) == LINKS else None
    yield held(LESSON, "a list that is reversed", "No word was copied, and no block was ___ or ___: only N of three blocks has "
         "changed", known)


def decision_sentences(program: str) -> Iterator[Trial]:
    """All of them."""
    for group in (of_code, of_scripts, of_words):
        yield from group(program)


# Each group, and a sentence of it that is turned round.
TURNED = [
    (of_code, DECISIONS, "defined from its last column to its first", "defined from its first column to its last"),
    (of_scripts, DECISIONS, "with the sum of each source", "with the sum of some sources"),
    (of_words, LESSON, "writes the machine words alone", "writes the machine words too"),
]
