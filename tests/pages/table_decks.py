#!/usr/bin/env python3
"""Runs the tables of the pages of which each row is a deck, a card, a group or a command.

table_decks.py PROGRAM prints each difference, and last 'N passed, M failed'. The examples of docs/language.md
and docs/summary.md must be read; what its tables say of faults, of arithmetic in a field, of the places of
blocks and of statements must be what the program answers. Free lists, which no command shows, are those of
the model.
"""
from __future__ import annotations

import re
import sys
import tempfile
from collections.abc import Iterator
from itertools import islice
from pathlib import Path

sys.path[:0] = [str(Path(__file__).resolve().parents[1] / it) for it in ("harness", "program")]
from answers import answer_of
from model import debugger, jobs, state, store
from model.cards import assemble
from model.faults import NoReading
from model.groups import read_operation, read_test
from model.programs import OPERATIONS, TESTS, Condition, Exit
from page_tables import Table, canary, other_status, plain, report_of, spans_of, table_with, tables_of, text_of, wrong_lines
from trials import Trial, few_pass

LANGUAGE, SUMMARY, ALLOCATOR = "docs/language.md", "docs/summary.md", "docs/allocator.md"
MANUAL, DEBUGGER, HELP = "docs/l6.1", "docs/debugger.md", "docs/command-line.md"
# Groups with a name in the place of each part, as the tables have them, and a group that is one of these.
PARTS = {"c": "A", "c2": "B", "cd": "4", "f": "N", "L": "X", "L2": "Y", "octal": "17", "text": "AB"}
LABELS = b"X (PL)\nY (PL)\nSORT (PL)\nERROR (PL)\nFULL (PL)\nEND (PL)\nLAST (PL)\n"


def run(program: str, job: str, *words: str) -> tuple[str, int | str]:
    """What the program writes for a job, to either output, and its exit status."""
    made = answer_of([program, *(words or ("run",))], input=job.encode())
    return (made.stdout + made.stderr).decode(), made.status


def group_of(form: str) -> str:
    """A group of a form, which has names in the place of its parts."""
    elements = form.strip("()").split(",")
    made = [element if at == 1 else PARTS.get(element, element) for at, element in enumerate(elements)]
    if elements[1:2] == ["PH"]:
        made[0] = "AB"
    elif len(elements) == 4 and elements[1] == "Df":
        made = ["0", "DN", "18", "35"]
    elif "DO" in elements:
        made[0] = "X"
    return f"({','.join(made)})"


def name_of(group: str, is_test: bool) -> str:
    """The name of the operation or the test that a group is, by the model."""
    try:
        return (read_test if is_test else read_operation)(group[1:-1]).row.name
    except NoReading:
        return f"no reading of {group}"


def is_a_form(span: str) -> bool:
    """Whether a code span is a form of groups: its parts are those that the tables name."""
    known = {*PARTS, *OPERATIONS, *TESTS, "S", "R", "FC", "FD", "Df", "EO", "EH", ""}
    return bool(re.fullmatch(r"\([^()]*\)", span)) and all(it in known for it in span[1:-1].split(","))


def forms() -> Iterator[Trial]:
    """Each form of a group can be read, and both pages have the same forms, of all operations and tests."""
    found: dict[str, dict[bool, set[str]]] = {}
    for page in (LANGUAGE, SUMMARY):
        found[page] = {True: set(), False: set()}
        for table, at in columns_of_groups(page):
            is_test = table.head[at] == "Test" or table.section == "Tests"
            for row in table.rows:
                forms_here = [it for it in spans_of(row[at]) if is_a_form(it)]
                found[page][is_test].update(forms_here)
                for form in forms_here:
                    name = name_of(group_of(form), is_test)
                    yield f"{page}: {form} is one of the language", True, name in {*OPERATIONS, *TESTS}
    for is_test, known in ((True, TESTS), (False, OPERATIONS)):
        kind = "tests" if is_test else "operations"
        yield f"the forms of {kind}", sorted(found[LANGUAGE][is_test]), sorted(found[SUMMARY][is_test])
        read = {name_of(group_of(form), is_test) for form in found[LANGUAGE][is_test]}
        yield f"all {kind} have a form", sorted(known), sorted(read)


def columns_of_groups(page: str) -> Iterator[tuple[Table, int]]:
    """The columns of a page's tables that have forms of groups."""
    for table in tables_of(text_of(page)):
        for at, cell in enumerate(table.head):
            if (
                cell in ("Group", "Test", "Arithmetic and logic", "Other operations")
                and "Width of c" not in table.head
            ):
                if "Free lists, by the size of their pieces" not in table.head:
                    yield table, at


def examples(program: str) -> Iterator[Trial]:
    """Each example in a table of the manual is read by the program, as what its row is about."""
    for table in tables_of(text_of(LANGUAGE)):
        if "Example" not in table.head:
            continue
        kind = table.head[0]
        for first, example in zip(table.column(kind), table.column("Example")):
            for card in spans_of(example):
                if kind == "Group":
                    own = [
                        name_of(group_of(form), table.section == "Tests")
                        for form in spans_of(first)
                        if is_a_form(form)
                    ]
                    made = name_of(card, table.section == "Tests")
                    yield f"the example {card} of {first}", True, made in own
                if kind == "Word" and first != "none":
                    condition = assemble(f"{card}\n".encode() + LABELS).program[0].condition
                    yield f"the example {card} of {first}", spans_of(first)[0], Condition(condition).name
                if kind == "Exit" and first != "none":
                    leaving = assemble(f"{card}\n".encode() + LABELS).program[0].exit
                    yield f"the example {card} of {first}", {"a label": "LABEL"}.get(
                        first, plain(first)
                    ), Exit(leaving).name
                test = f" IF {card} THEN\n" if table.section == "Tests" else f" {card}\n"
                deck = test if card.startswith("(") else f"{card}\n"
                deck = " (A,E,1)\n" + deck if deck.startswith("+") else deck
                _, status = run(program, deck + LABELS.decode(), "asm")
                yield f"the example {card} is read", 0, status


def faults(program: str) -> Iterator[Trial]:
    """The tables of cards that are refused: the line and the number of the card."""
    table = table_with(text_of(LANGUAGE), "Cards", "Why", "n")
    for given, _, number in table.rows:
        deck = "".join(f"{card}\n" for card in spans_of(given))
        yield f"no reading: {given}", (f"l6: card {number}: no reading\n", 4), run(program, deck)
    for given, said in table_with(text_of(LANGUAGE), "Cards", "Answer").rows:
        deck = "".join(f"{card}\n" for card in spans_of(given))
        yield f"wrong labels: {given}", (f"{spans_of(said)[0]}\n", 4), run(program, deck)


def statements() -> Iterator[Trial]:
    """The tables of statements: the condition and the exit that a card has, by what is said of it."""
    for card, what in table_with(text_of(LANGUAGE), "Statement", "What it says").rows:
        deck = f"{spans_of(card)[0]}\n".encode() + b"LAST (PL)\nIF (PL)\nTHEN (PL)\n"
        statement = assemble(deck).program[0]
        said = (
            "LABEL"
            if "exit to" in what or "the same" in what
            else "FAIL"
            if "FAIL" in what
            else "DONE"
            if "DONE" in what
            else "NONE"
        )
        yield f"the exit of {card}", said, Exit(statement.exit).name
        operations = {
            "two operations": 2,
            "no operation": 0,
            "A is printed": 1,
            "the same, but A is printed": 1,
        }
        known = next((count for start, count in operations.items() if what.startswith(start)), 0)
        yield f"the operations of {card}", known, len(statement.operations)


def widths(program: str) -> Iterator[Trial]:
    """The table of what c becomes in a field: each row is run on a field of its width, or on a bug."""
    for groups, was, width, becomes in table_with(text_of(LANGUAGE), "Group", "c was", "Width of c").rows:
        first = 36 - int(width)
        results = re.findall(r"(?:^|and )(\d+)", becomes)
        for group, result in zip(spans_of(groups), results):
            made = group.replace("(c,", "(AN,")
            deck = f" (0,DN,{first},35)(A,GT,1)(AN,E,{was}){made}(AN,PD)\n"
            yield f"{group} of {was} in {width} bits", result, run(program, deck)[0].split("\n")[0]


def places(program: str) -> Iterator[Trial]:
    """The two tables of gets and frees: places by the program, free lists and moves by the model."""
    head = "Free lists, by the size of their pieces"
    rows = [
        (group, place, lists)
        for group, place, lists in table_with(text_of(LANGUAGE), "Group", "Place", head).rows
    ]
    yield from after_each(program, LANGUAGE, rows)
    rows = []
    names = iter("ABCDE")
    holders: dict[str, str] = {}
    for call, gives, _, lists in table_with(text_of(ALLOCATOR), "Call", "Gives", "Halved or joined").rows:
        if call.startswith("get"):
            holders[gives] = name = next(names)
            rows.append((f"`({name},GT,1)`", gives, sizes_of_levels(lists)))
        else:
            freed = call.removeprefix("free ")
            rows.append(
                (f"`({holders.get(freed, '')},FR)`" if freed in holders else "", "", sizes_of_levels(lists))
            )
    yield from after_each(program, ALLOCATOR, rows)
    yield from moves()


def sizes_of_levels(lists: str) -> str:
    """Free lists by the sizes of their pieces, of lists by levels."""
    return re.sub(r"l\.(\d+):", lambda found: f"{2 ** int(found[1])}:", lists)


def after_each(program: str, page: str, rows: list[tuple[str, str, str]]) -> Iterator[Trial]:
    """The place and the free lists after each call of a table."""
    deck, model = "", store.Store(1)
    bugs: dict[str, int] = {}
    for group, place, said in rows:
        if group:
            bug, verb = spans_of(group)[0][1], spans_of(group)[0].split(",")[1].rstrip(")")
            deck += spans_of(group)[0]
            if verb == "GT":
                got = model.get(1)
                assert got is not None
                bugs[bug] = got
                shown = run(program, f" {deck}({bug},PD)\n", "run", "--store", "1")[0].split("\n")[0]
                yield f"{page}: the place of {group}", (place, str(got)), (shown, shown)
            else:
                model.free(bugs[bug])
        known = {
            str(size): ", ".join(map(str, pieces)) for size, pieces in model.free_lists.items() if pieces
        }
        lists = dict(re.findall(r"(\d+): (\d+(?:, \d+)*)", said.partition(" and so on")[0]))
        is_cut = " and so on" in said or ".." in said
        expected = dict(islice(known.items(), len(lists))) if is_cut else known
        yield f"{page}: the free lists after {group}", expected, lists


def moves() -> Iterator[Trial]:
    """How often each call of the allocator's table halved or joined a piece: by the number of free pieces."""
    model = store.Store(1)
    table = table_with(text_of(ALLOCATOR), "Call", "Gives", "Halved or joined")
    for call, gives, moved, _ in table.rows[1:]:
        before = sum(map(len, model.free_lists.values()))
        if call.startswith("get"):
            yield f"{ALLOCATOR}: the place of {call}", gives, str(model.get(1))
            count = sum(map(len, model.free_lists.values())) - before + 1
        else:
            model.free(int(call.split()[1]))
            count = before + 1 - sum(map(len, model.free_lists.values()))
        yield f"{ALLOCATOR}: moves of {call}", moved, str(count)
    model = store.Store(1)
    places_of = [model.get(1) for _ in range(4)]
    numbers = []
    for place in (1027, 1026, 1024, 1025):
        before = sum(map(len, model.free_lists.values()))
        model.free(place)
        numbers.append(before + 1 - sum(map(len, model.free_lists.values())))
    said = re.search(
        r"after the fourth get, `moves` would answer (\d+), then (\d+) .*?, then (\d+), .* at last (\d+),",
        " ".join(text_of(ALLOCATOR).split()),
    )
    yield f"{ALLOCATOR}: the moves of four frees", numbers, [
        int(it) for it in said.groups()
    ] if said else places_of
    (links,) = [
        table for table in tables_of(text_of(ALLOCATOR)) if table.head == ["", "Word", "Before", "After"]
    ]
    for what, word, before_it, after_it in links.rows[1:]:
        ends = [0 if it == "none" else int(it) for it in (before_it, after_it)]
        yield f"{ALLOCATOR}: the {what}", f"{ends[0] << 18 | ends[1]:012o}", spans_of(word)[0]


def commands_and_verbs(program: str) -> Iterator[Trial]:
    """The commands of the debugger and the verbs, wherever they are listed."""
    session = debugger.Session(assemble(b" (PL)\n").program, "", state.Options())
    numbered = {name.lower() for name in session.numbered}
    known = sorted({*map(str.lower, session.plain), *numbered, "quit"})
    table = table_with(text_of(DEBUGGER), "Command", "What it does and answers")
    listed = sorted({spans_of(name)[0].split()[0] for name in table.column("Command") if spans_of(name)})
    yield f"the commands of {DEBUGGER}", known, sorted({*listed, "quit"})
    said = text_of(SUMMARY).partition("Commands of the debugger: ")[2].partition(". n is")[0]
    yield f"the commands of {SUMMARY}", known, sorted(it.split()[0] for it in spans_of(said))
    with_number = sorted(it.split()[0] for it in spans_of(said) if " " in it)
    yield f"the commands with a number of {SUMMARY}", sorted(numbered), with_number
    yield f"the commands of {MANUAL}", known, sorted(
        re.findall(r"^\.It Ic (\w+)", text_of(MANUAL), re.MULTILINE)
    )
    of_help = (
        run(program, "", "debug", "--help")[0].partition("one on a line: ")[2].partition(". The input")[0]
    )
    yield "the commands of the help", known, sorted(it.split()[0] for it in of_help.split(","))
    verbs = sorted([*jobs.VERBS, "check", "trace"])  # what these two say is no part of the model of jobs
    of_manual = re.findall(r"^\.It Cm (\w+)", text_of(MANUAL), re.MULTILINE)
    table = table_with(text_of(LANGUAGE), "Words", "What is done", "Options")
    of_language = [spans_of(words)[0].split()[1] for words in table.column("Words")]
    with_options = [
        spans_of(words)[0].split()[1] for words, _, options in table.rows if options.startswith("all three")
    ]
    of_sheet = re.findall(r"`l6 (\w+) < JOB`", text_of(SUMMARY))
    listed = re.findall(
        r"^  (\w+) +[A-Z]", run(program, "", "--help")[0].partition("Options:")[0], re.MULTILINE
    )
    for where, found in ((MANUAL, of_manual), (LANGUAGE, of_language), (SUMMARY, of_sheet)):
        yield f"the verbs of {where}", verbs, sorted(found)
    for where, listing in (
        (
            MANUAL,
            dict(re.findall(r"^\.It Cm (\w+)\n((?:(?!\.It|\.El).*\n)+)", text_of(MANUAL), re.MULTILINE)),
        ),
        (LANGUAGE, {spans_of(row[0])[0].split()[1]: row[1] for row in table.rows}),
        (SUMMARY, dict(re.findall(r"`l6 (\w+) < JOB` \| ([^|]*) \|", text_of(SUMMARY)))),
        ("the help", dict(re.findall(r"^  (\w+) +([A-Z].*)$", run(program, "", "--help")[0], re.MULTILINE))),
    ):
        for verb, words in WHAT_VERBS_DO.items():
            what = " ".join(listing.get(verb, "").lower().split())
            yield f"{where}: what {verb} does", [], [word for word in words if word not in what]
    yield "the verbs of the help", verbs, sorted(it for it in listed if it != "help")
    yield f"the verbs with options in {LANGUAGE}", sorted(jobs.RUNNING), sorted(with_options)


# Words of what each verb does, in the words that all pages share.
WHAT_VERBS_DO = {
    "asm": ["write", "image"],
    "list": ["write", "listing"],
    "check": ["wrong", "deck"],
    "run": ["run"],
    "load": ["run", "image"],
    "renew": ["rewrit", "image"],
    "debug": ["command"],
    "trace": ["answer", "trace"],
}


# What each exit status means, in the words that all pages share.
STATUSES = {0: "DONE", 1: "FAIL", 2: "trap", 3: "limit", 4: "refused", 5: "emory"}


def statuses_and_faults(program: str) -> Iterator[Trial]:
    """The exit statuses and the lines of faults, wherever they are listed."""
    said = run(program, "", "--help")[0].partition("Exit status:\n")[2]
    of_help = dict(re.findall(r"^  (\d+) +(.*)$", said, re.MULTILINE))
    of_manual = dict(re.findall(r"^\.It (\d+)\n((?:(?!\.It|\.El).*\n)+)", text_of(MANUAL), re.MULTILINE))
    table = next(it for it in tables_of(text_of(SUMMARY)) if "Exit status" in it.head)
    of_sheet = {
        one: what
        for numbers, whats in zip(table.column("Exit status"), table.column("Meaning"))
        for one, what in zip(numbers.split(", "), whats.split(", "))
        if one
    }
    for where, found in (("the help", of_help), (MANUAL, of_manual), (SUMMARY, of_sheet)):
        yield f"the statuses of {where}", [*map(str, STATUSES), "64"], sorted(found, key=int)
        for status, word in STATUSES.items():
            yield f"status {status} of {where}", True, word.lower() in found.get(str(status), "").lower()
    endings = {
        spans_of(line)[0].split()[1]: int(status)
        for line, status in table_with(text_of(LANGUAGE), "Line", "Exit status").rows
    }
    forms = [spans_of(line)[0] for line, _ in table_with(text_of(LANGUAGE), "Line", "Exit status").rows]
    yield f"the endings of {MANUAL}", forms, re.findall(r"^\.It (== .*)$", text_of(MANUAL), re.MULTILINE)
    yield f"the statuses of endings in {LANGUAGE}", {"DONE": 0, "FAIL": 1, "TRAP": 2, "LIMIT": 3}, endings
    faults_of = {
        line: int(status)
        for lines, _, status in table_with(text_of(LANGUAGE), "Line", "What it means", "Exit status").rows
        for line in spans_of(lines)
    }
    listed = re.findall(r'^\.It "(l6: [^"]+)"', text_of(MANUAL), re.MULTILINE)
    yield f"the faults of {MANUAL}", sorted({*faults_of, "l6: a word is not UTF-8"}), sorted(listed)
    known = {
        "no reading",
        "past a limit",
        "label given twice",
        "no such label",
        "not a word",
        "not an image",
        *(f"{part} too long" for part in ("deck", "input", "commands", "image", "job")),
    }
    refused = {
        re.sub(r"^l6: (?:(?:card|line) n: )?", "", line) for line, status in faults_of.items() if status == 4
    }
    yield f"the faults of status 4 in {LANGUAGE}", sorted(known), sorted(refused)
    failed = sorted(line for line, status in faults_of.items() if status == 5)
    yield f"the faults of status 5 in {LANGUAGE}", [
        "l6: out of memory",
        "l6: read failed",
        "l6: write failed after n bytes",
    ], failed


def canaries(program: str) -> Iterator[Trial]:
    """Pages with a defect each."""
    yield canary(SUMMARY, "| `(c,PD)`, `(c,PO)` |", "| `(c,PD)` |", forms)
    yield canary(LANGUAGE, "`(c,FR,cd)`", "`(c,FR,c2)`", forms)
    yield canary(LANGUAGE, "`(A,GT,4,AN,FULL)`", "`(A,GT,AN,4,FULL)`", lambda: examples(program))
    yield canary(
        LANGUAGE, "| the same, across cards | 2 |", "| the same, across cards | 1 |", lambda: faults(program)
    )
    yield canary(LANGUAGE, "| the exit to a label `IF`,", "| the exit DONE,", statements)
    yield canary(LANGUAGE, "| 131072, which", "| 131071, which", lambda: widths(program))
    yield canary(LANGUAGE, "| 1: 1026, 1024 ·", "| 1: 1024, 1026 ·", lambda: places(program))
    yield canary(
        ALLOCATOR, "| get, level 0 | 1026 | 1 |", "| get, level 0 | 1026 | 2 |", lambda: places(program)
    )
    yield canary(ALLOCATOR, "`002002000000`", "`002000002000`", lambda: places(program))
    yield canary(MANUAL, ".It Ic clear Ar s", ".It Ic delete Ar s", lambda: commands_and_verbs(program))
    yield canary(SUMMARY, "`block p`", "`block`", lambda: commands_and_verbs(program))
    yield canary(
        LANGUAGE, "| `l6: not an image` |", "| `l6: no image` |", lambda: statuses_and_faults(program)
    )
    yield canary(MANUAL, ".It 3\n", ".It 6\n", lambda: statuses_and_faults(program))
    with tempfile.TemporaryDirectory() as folder:
        wrong = wrong_lines(folder)
        for group in (faults, widths):
            yield few_pass(f"{group.__name__} on a wrong program", 0, group(wrong))
        ending = other_status(folder, program)
        for most, group in ((0, faults), (50, examples)):  # (the examples of tests and exits are read by the model)
            yield few_pass(f"{group.__name__} on a program with another status", most, group(ending))


def trials(program: str) -> Iterator[Trial]:
    """All trials."""
    yield from forms()
    yield from examples(program)
    yield from faults(program)
    yield from statements()
    yield from widths(program)
    yield from places(program)
    yield from commands_and_verbs(program)
    yield from statuses_and_faults(program)


if __name__ == "__main__":
    sys.exit(report_of(__doc__, trials, canaries))
