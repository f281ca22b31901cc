#!/usr/bin/env python3
"""Checks that what the pages name is there: cases, trials, tests, edits, files, calls, links and pictures.

named.py PROGRAM prints each difference, and last 'N passed, M failed'. It also runs the commands of the pages
that count something in the sources, and looks for the states and statements that docs/page.md speaks of.
"""
from __future__ import annotations

import ast
import functools
import re
import shlex
import subprocess
import sys
from collections.abc import Iterator
from pathlib import Path

sys.path[:0] = [str(Path(__file__).resolve().parents[1] / it) for it in ("harness", "program", "../tools")]
from answers import answer_of
from cases import read_cases
from documents import headings_of
from model.programs import OPERATIONS
from page_tables import TOP, Table, canary, plain, report_of, spans_of, tables_of, text_of
from trials import Trial

import tables
import whole_lists
from span_words import span_words

MEASUREMENTS = "docs/measurements.md"
NAMED_DEFECTS = 32  # in docs/contracts.md
CONTRACTS, PAGE, DEFINITIONS = "docs/contracts.md", "docs/page.md", "docs/definitions.md"
SUMMARY, MANUAL = "docs/summary.md", "docs/l6.1"
OF_TRIALS = (
    "docs/proof.md",
    "docs/robustness.md",
    CONTRACTS,
)  # pages that name cases and trials in quotation marks
MAKERS = ("program.py", "refused_memory.py", "largest_jobs.py")  # scripts whose trials pages name
PAGES = [
    "README.md",
    *(f"docs/{file.name}" for file in sorted((TOP / "docs").glob("*.md"))),
    "docs/pictures/README.md",
    "bench/README.md",
    "web/README.md",
    "dist/README.md",
    "tests/README.md",
    "tests/program/model/README.md",
    "tools/README.md",
]
FOLDERS = ("crates", "tests", "terminal", "tools", "web", "ports", "completions", "licenses", "bench", "examples", "docs", "dist", "editors", "library", ".ci")
SUFFIXES = r"rt|antt|py|mjs|js|jsonl|c|h|sh|css|html|json|deck|session|transcript|svg|md|edit|1"
FILE = re.compile(rf"[\w.-]*(?:/[\w.-]+)*\.(?:{SUFFIXES})")
# Names of files that a reader has, or that a script makes.
OF_READERS = re.compile(r"my[.-].*|first\.image|.*\b(?:NAME|SUBJECTS?)\b.*|out/.*|.*/out/.*")
IDENTIFIER = re.compile(r"[a-z][a-z0-9]*(?:_[a-z0-9]+){2,}")
WORD = re.compile(r"\w+")
VARIABLE = re.compile(r"\bL6[A-Z]*_[A-Z][A-Z_]*\b")
CALL = re.compile(r"\b[A-Z]\w+(?:::\w+)+")
LINK = re.compile(r"\]\((?!https?:)([^)#\s]*)(?:#([^)\s]*))?\)")
# Words in quotation marks that name no trial, and a name that is made up.
PROSE = {"out of memory", "Proved", "Tested", "Read in the source"}
MADE_UP = {"module_what_it_breaks"}
OF_TOOLCHAIN = "rattle_"  # the names of its own C begin so


@functools.cache
def files() -> dict[Path, str]:
    """All files of the repository's folders, with the texts of those that are texts."""
    found = {}
    for folder in FOLDERS:
        for file in (TOP / folder).rglob("*"):
            if file.is_file() and not {"out", "__pycache__"} & set(file.parts):
                is_text = (
                    file.suffix[1:] in "rt antt py mjs js c sh md edit json jsonl txt".split()
                    or not file.suffix
                )
                found[file] = file.read_text("utf-8", "replace") if is_text else ""
    return found


@functools.cache
def words() -> frozenset[str]:
    """All words of the sources and scripts, and the names of edits; not those of pages and of this script."""
    sources = [text for file, text in files().items() if file.suffix != ".md" and file != Path(__file__)]
    known = {word for text in sources for word in WORD.findall(text)}
    return frozenset(known | {file.stem for file in files()})


def edits_of(crate: str) -> set[str]:
    """The names of a crate's edits."""
    return {file.stem for file in (TOP / "crates" / crate / "edits").glob("*.edit")}


def templates() -> Iterator[str]:
    """The names that scripts give to their trials, as patterns: what is computed is any text."""
    for script in MAKERS:
        for node in ast.walk(ast.parse((TOP / "tests/program" / script).read_text("utf-8"))):
            if isinstance(node, ast.JoinedStr):
                yield "".join(
                    re.escape(str(part.value)) if isinstance(part, ast.Constant) else ".+"
                    for part in node.values
                )
            elif isinstance(node, ast.Constant) and isinstance(node.value, str):
                yield re.escape(node.value)


def trial_names() -> Iterator[Trial]:
    """Each name in quotation marks is that of a case, of a trial or of a section."""
    cases = {case.name for case in read_cases()}
    patterns = [re.compile(it) for it in dict.fromkeys(templates()) if it not in (".+", "")]
    sections = {
        plain(heading) for page in PAGES for heading in re.findall(r"^#+ (.*)$", text_of(page), re.MULTILINE)
    }
    for page in OF_TRIALS:
        for name in re.findall(r'"([^"]+)"', plain(text_of(page))):
            wanted = re.compile(".*".join(map(re.escape, name.split(".."))))
            is_there = (
                name in PROSE
                or any(map(wanted.fullmatch, cases))
                or any(it.startswith(name) for it in sections)
                or any(
                    pattern.fullmatch(it) and not is_any(pattern.pattern)
                    for it in (name, f"{name}: CASE")
                    for pattern in patterns
                )
            )
            yield f"{page}: the case or trial {name!r}", True, is_there


def is_any(pattern: str) -> bool:
    """Whether a pattern says too little to know a name by it."""
    return len(pattern.replace(".+", "").replace("\\", "")) < 5


def identifiers() -> Iterator[Trial]:
    """Each long name of code in a page is a word of the sources, as of a function, a test or an edit."""
    for page in PAGES:
        for span in dict.fromkeys(it for span in spans_of(text_of(page)) for it in IDENTIFIER.findall(span)):
            yield f"{page}: the name {span}", True, span in words() or span in MADE_UP or span.startswith(
                OF_TOOLCHAIN
            )


def calls_of_types() -> Iterator[Trial]:
    """Each call that a page names with its type, as in Region::read, and each name in its tables of where."""
    for page in PAGES:
        for span in dict.fromkeys(it for span in spans_of(text_of(page)) for it in CALL.findall(span)):
            yield f"{page}: the call {span}", set(), {
                word for word in span.split("::") if word not in words()
            }
    for page in ("docs/robustness.md", "docs/proof.md", "docs/architecture.md"):
        for table in tables_of(text_of(page)):
            for row in table.rows if table.head[-1].startswith(("Where", "Its main calls")) else ():
                names = {it for span in spans_of(row[-1]) for it in WORD.findall(span) if "/" not in span}
                yield f"{page}: the names beside {row[0]}", set(), names - words() - {"antt", "rt"}


def paths() -> Iterator[Trial]:
    """Each file that a page names is there, from the top of the repository on or from a folder below it."""
    known = {f"/{file.relative_to(TOP)}" for file in files()}
    known |= {f"/{file.name}" for file in TOP.iterdir() if file.is_file()}
    for page in PAGES:
        for span in dict.fromkeys(spans_of(text_of(page))):
            if FILE.fullmatch(span) and not OF_READERS.fullmatch(span) and not span.startswith("."):
                is_there = any(path.endswith(f"/{span}") for path in known) or is_a_command_line(span)
                yield f"{page}: the file {span}", True, is_there


def folders() -> Iterator[Trial]:
    """The page of a folder of ours names each file in it."""
    for folder in ("tools", "ports"):
        there = sorted(it.name for it in (TOP / folder).iterdir() if it.is_file() and it.name != "README.md")
        spans = set(spans_of(text_of(f"{folder}/README.md")))
        named = {word for span in spans for word in span.split()}
        yield f"files of {folder}/ that its page does not name", [], [it for it in there if it not in named]


def is_a_command_line(span: str) -> bool:
    """Whether a span that looks like the name of a file is a place of a run, or an attribute in Python."""
    return bool(re.fullmatch(r"\d+\.\d+|\w(?:\.\w)+", span))


def contracts() -> Iterator[Trial]:
    """In the contracts each call, clause and edit is one of the crate, and each edit is named."""
    crate, named = "", {folder.name: set[str]() for folder in (TOP / "crates").iterdir()}
    for table in tables_of(text_of(CONTRACTS)):
        crate = table.section if (TOP / "crates" / table.section).is_dir() else crate
        if table.head[0] == "Call" and "Clause" in table.head and (TOP / "crates" / table.section).is_dir():
            yield from calls(table, crate)
            for cell in table.column("Edit that is refused"):
                named[crate].update(span for span in spans_of(cell) if "_" in span)
        elif table.head[:2] == ["Crate", "Edit"]:
            for of, cell in zip(table.column("Crate"), table.column("Edit")):
                wrong = set(spans_of(cell)) - edits_of(spans_of(of)[0])
                yield f"{CONTRACTS}: {cell} of {of}", set(), wrong
    for one, edits in named.items():
        yield f"{CONTRACTS}: the edits of {one}", sorted(edits_of(one)), sorted(edits)


def named_defects() -> Iterator[Trial]:
    """Each defect that has a name has an edit, which the gate tries wherever no verdict of today stands for it."""
    tables = [it for it in tables_of(text_of(CONTRACTS)) if it.section == "Defects that have a name"]
    for row in [row for table in tables for row in table.rows if table.head[0] == "Crate"]:
        edits = set(spans_of(row[1]))
        yield f"{CONTRACTS}: {row[2]}", (True, set()), (bool(edits), edits - edits_of(spans_of(row[0])[0]))
    yield "defects that have a name", NAMED_DEFECTS, sum(len(table.rows) for table in tables)


def calls(table: Table, crate: str) -> Iterator[Trial]:
    """The calls and the clauses of a table of the contracts."""
    code = "\n".join(
        text for file, text in files().items() if f"/crates/{crate}/" in f"{file}" and file.suffix == ".rt"
    )
    traits = "\n".join(
        text for file, text in files().items() if file.name == "places.rt" or "/l6_device/src/" in f"{file}"
    )
    functions = {*re.findall(r"\bfn (\w+)", code), *re.findall(r"\bfn (\w+)", traits)}
    types = set(re.findall(r"\b(?:struct|enum|trait|impl|use) [^;{]*", code))
    for cell, clause in zip(table.column("Call"), table.column("Clause")):
        for span in spans_of(cell):
            name = span.rpartition("::")[2].partition("<")[0]
            is_there = name in functions or any(re.search(rf"\b{name}\b", it) for it in types)
            yield f"{CONTRACTS}: the call {span} of {crate}", True, is_there
        for span in spans_of(clause.partition("the `requires`")[0]):
            if re.fullmatch(r"[a-z_]+", span):
                is_there = re.search(rf"\b{span}\b", code + traits) is not None or span in functions
                yield f"{CONTRACTS}: the clause {span} of {cell}", True, is_there or is_of_derive(span)


def is_of_derive(clause: str) -> bool:
    """Whether a clause is that of one of std's traits, which is derived."""
    return clause in ("is_default", "is_clone", "is_infallible", "from_gives", "output", "none", "given")


def links() -> Iterator[Trial]:
    """Each link, anchor and picture of every page leads somewhere."""
    for page in PAGES:
        shown = re.sub(r"^( *)```.*?^\1```$", "", text_of(page), flags=re.DOTALL | re.MULTILINE)
        for path, heading in LINK.findall(shown):
            file = (TOP / page).parent / path if path else TOP / page
            is_there = file.exists() and (not heading or heading in headings_of(file))
            yield f"{page}: the link to {path}#{heading}", True, is_there


def contents() -> Iterator[Trial]:
    """A table of contents leads from the name of each section to that section."""
    for table in tables_of(text_of("docs/gallery.md")):
        for name, anchor in re.findall(r"\[([^\]]+)\]\(#([^)]+)\)", " ".join(row[-1] for row in table.rows)):
            slug = re.sub(r"[^\w\- ]", "", name.lower()).replace(" ", "-")
            yield f"docs/gallery.md: the section {name}", slug, anchor


def counting_commands() -> Iterator[Trial]:
    """Commands of a page that count something: the numbers that they print last are the paragraph's."""
    for page in PAGES:
        for paragraph in re.split(r"\n\s*\n", text_of(page)):
            for command in re.findall(r"`python3 (tools/reached\.py [^`]+)`", paragraph):
                ended = subprocess.run(
                    [sys.executable, *shlex.split(command)], cwd=TOP, capture_output=True, text=True
                )
                counts = (
                    re.findall(r"\d[\d,]*", ended.stdout.splitlines()[-1]) if ended.stdout else [ended.stderr]
                )
                said = re.findall(r"(\d[\d,]*) (?:definitions|lines|files)", paragraph)
                yield f"{page}: {command}", counts, [it.replace(",", "") for it in said][: len(counts)]


def generated() -> Iterator[Trial]:
    """The tables that tools/tables.py makes are as it makes them, and each edit has its row."""
    page, wrong = tables.contracts(text_of(CONTRACTS))
    yield f"{CONTRACTS} (tools/tables.py makes its lists of edits)", page, text_of(CONTRACTS)
    yield "edits without a row", [], wrong
    made = tables.measurements(text_of(MEASUREMENTS))
    yield f"{MEASUREMENTS} (tools/tables.py makes its table of crates)", made, text_of(MEASUREMENTS)
    for page, written in ((SUMMARY, tables.summary), (MANUAL, tables.manual)):
        yield f"{page} (tools/tables.py makes its list of traps)", written(text_of(page)), text_of(page)


def numbers_of_operations() -> Iterator[Trial]:
    """How many operations and traps the pages say there are."""
    for page in PAGES:
        for number in re.findall(r"\b(?:the|all) (\d+) operations", plain(text_of(page))):
            yield f"{page}: the number of operations", str(len(OPERATIONS)), number


def lessons(program: str) -> Iterator[Trial]:
    """The states and the statements of decks that the page for teachers speaks of."""
    for line in text_of(PAGE).splitlines():
        deck = re.search(r"\(\.\./dist/l6\.html#([\w-]+)\)", line)
        if not deck:
            continue
        for number, label in re.findall(r"click the (\d+) beside `(\w+)`", line):
            listing = answer_of([program, "list"], input=job_of(deck[1])[0]).stdout.decode()
            at = dict(re.findall(r"^(\w+) +(\d+)$", listing.partition("LABELS\n")[2], re.MULTILINE))
            yield f"{PAGE}: the number of {label} in {deck[1]}", number, at.get(label)
        for state in re.findall(r"step to state (\d+), where the block turns red", line):
            yield f"{PAGE}: the block that is lost in {deck[1]}", int(state), first_loss(program, deck[1])


def job_of(name: str) -> tuple[bytes, bytes]:
    """The deck of an example, and its input."""
    session = TOP / "examples" / f"{name}.session"
    text = (session if session.is_file() else session.with_suffix(".deck")).read_bytes()
    head, _, given = text.partition(b"$INPUT\n")
    return head.partition(b"$COMMANDS\n")[0], given


def first_loss(program: str, name: str) -> int:
    """The number of the first state of an example's run in which a block is lost."""
    deck, given = job_of(name)
    commands = b"$COMMANDS\nstore\n" + b"step 1\nstore\n" * 99 + (b"$INPUT\n" + given if given else b"")
    shown = answer_of([program, "debug"], input=deck + commands).stdout.decode()
    states = re.split(r"^(?:AT|==) .*\n", shown, flags=re.MULTILINE)
    return next((number for number, answer in enumerate(states) if " LOST\n" in answer), -1)


def canaries(program: str) -> Iterator[Trial]:
    """Pages with a defect each."""
    yield canary("docs/proof.md", '"the longest input"', '"the longest output"', trial_names)
    yield canary(
        "docs/proof.md", "`a_host_answers_as_its_device`", "`a_host_answers_as_another`", identifiers
    )
    yield canary("docs/robustness.md", "`perform`, `unwritten`", "`perform`, `unsaid`", calls_of_types)
    yield canary("docs/architecture.md", "`Window::take`", "`Window::seize`", calls_of_types)
    yield canary("docs/proof.md", "(`tests/program/hostile.py`,", "(`tests/program/hostility.py`,", paths)
    yield canary("ports/README.md", "| `command.js` |", "| `commands.js` |", folders)
    yield canary(CONTRACTS, "`word_of_37_bits`", "`word_of_38_bits`", contracts)
    yield canary(CONTRACTS, "| `Region::read` |", "| `Region::look` |", contracts)
    yield canary(CONTRACTS, "| `bytes` | `transfer_", "| `octets` | `transfer_", contracts)
    yield canary(CONTRACTS, "| `l6_store` | `link_not_written` | the", "| `l6_draw` | `link_not_written` | the", named_defects)
    yield canary("bench/README.md", "measurements.md#how-fast-it-is", "measurements.md#how-fast", links)
    yield canary("README.md", "(docs/pictures/list.svg)", "(docs/pictures/lists.svg)", links)
    yield canary("docs/gallery.md", "(#a-tree)", "(#a-bush)", links)
    yield canary(CONTRACTS, "`word_of_two_to_the_36`, ", "", generated)
    yield canary(CONTRACTS, "`word_of_two_to_the_36`, ", "", contracts)
    yield canary(MEASUREMENTS, "| `l6_word` | ", "| `l6_word` | 1", generated)
    yield canary(SUMMARY, "| 13 | BAD COUNT", "| 12 | BAD COUNT", generated)
    yield canary(MANUAL, "7 STORE FULL,", "8 STORE FULL,", generated)
    yield canary(DEFINITIONS, "of the 28 operations", "of the 27 operations", numbers_of_operations)
    yield canary("docs/gallery.md", "[A tree](#a-tree)", "[A tree](#a-queue)", contents)
    yield canary("docs/l6db.md", "`L6DB_PLAIN`", "`L6DB_PLANE`", variables)
    yield canary(DEFINITIONS, "in 102 files", "in 101 files", counting_commands)
    yield canary("docs/proof.md", "`perform`", "`perforn`", lambda: words_of_spans(program))
    yield canary("docs/l6.1", "Fl -levels", "Fl -layers", lambda: words_of_spans(program))
    yield canary(PAGE, "click the 8 beside", "click the 7 beside", lambda: lessons(program))
    yield canary(PAGE, "step to state 13", "step to state 12", lambda: lessons(program))


def variables() -> Iterator[Trial]:
    """The variables and macros of ours that pages name are in the code."""
    code = "\n".join(text for file, text in files().items() if file.suffix != ".md" and file != Path(__file__))
    others = [*(TOP / "library").glob("*.h"), *(TOP / name for name in ("install", "l6", "l6db", "l6ed", "test"))]
    code += "\n".join(file.read_text("utf-8") for file in others)
    known = set(VARIABLE.findall(code))
    for page in (*PAGES, "docs/l6.1", "docs/l6db.1", "docs/l6ed.1", "ports/README.md"):
        yield f"variables that {page} names, and that are nowhere", [], sorted(set(VARIABLE.findall(text_of(page))) - known)


def words_of_spans(program: str) -> Iterator[Trial]:
    """Each word in a span of a page is there, and each option, of which the help of the programs has most."""
    verbs = ("asm", "list", "check", "run", "load", "renew", "debug", "trace")
    helps = [[program, "--help"], *([program, verb, "--help"] for verb in verbs), *([str(TOP / "dist" / it), "--help"] for it in ("l6db", "l6ed"))]
    said = [answer_of(words, input=b"") for words in helps]
    pages = [*PAGES, "CONTRIBUTING.md", "CHANGELOG.md", "ports/README.md", "docs/l6.1", "docs/l6db.1", "docs/l6ed.1"]
    yield from span_words(pages, words(), "\n".join((it.stdout + it.stderr).decode() for it in said))


def trials(program: str) -> Iterator[Trial]:
    """All trials."""
    yield from words_of_spans(program)
    yield from trial_names()
    yield from identifiers()
    yield from calls_of_types()
    yield from paths()
    yield from folders()
    yield from contracts()
    yield from named_defects()
    yield from variables()
    yield from links()
    yield from contents()
    yield from counting_commands()
    yield from generated()
    yield from whole_lists.trials()
    yield from numbers_of_operations()
    yield from lessons(program)


if __name__ == "__main__":
    sys.exit(report_of(__doc__, trials, canaries))
