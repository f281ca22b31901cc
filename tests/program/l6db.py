#!/usr/bin/env python3
"""Tries the debugger that answers at once, l6db, beside the model of tests/program/model/.

l6db.py PROGRAM [L6] prints each difference, and last 'N passed, M failed'. PROGRAM is l6db; L6 is l6, with
whose `check` it is compared.

Where commands lead is worked out by the model: it lists all states of a run, each with its position, for how
many returns calls wait, and what the watched chains read as; and then looks for the nearest one at which one
stops. The decks make runs of up to 117,008 states, so past the 16 checkpoints that are kept. A session at a
terminal is played on a pseudoterminal, and lines are written to a pipe one by one, each after the answer to
the one before it. habits.jsonl has what those type who know gdb or pdb: the first 25 lines were written down
before any was tried, with what must be answered, which was worked out by hand.
"""
from __future__ import annotations

import json
import os
import random
import re
import subprocess
import sys
import tempfile
from collections.abc import Iterator
from dataclasses import dataclass, replace
from itertools import islice
from pathlib import Path

sys.path.insert(0, str(Path(__file__).resolve().parents[1] / "harness"))
from answers import answer, answer_of
from batches import batches, prompts
from further_jobs import aliased_job, churned_deck
from lives import lives, words_watched
from model.cards import assemble
from model.groups import chain_of
from model.machine import take_step
from model.state import Options, State, Trap, characters_of_input
from page_sessions import page_sessions, readme
from trials import Trial, few_pass, first_wrong, report
from typed_sessions import NESTED, at_terminal, interrupted, one_by_one, refused_memory, typed_canaries

HERE = Path(__file__).resolve().parent
TOP = HERE.parents[1]
EXAMPLES = TOP / "examples"
COUNTING = b"""* COUNTS DOWN FROM 9000 IN A, AND CALLS AT EACH NUMBER
       (A,E,9000)
LOOP   (DOWN,DO)
       IF (A,G,0) THEN LOOP
       DONE
DOWN   (A,S,1)(B,A,A)(C,E,B)(C,N,255)
       (DEEP,DO) DONE
DEEP   (D,E,A) DONE
"""
LIST = b"""* A LIST OF TWO BLOCKS, WHICH IS PRINTED
       (0,DV,0,17)(0,DN,18,35)
MAKE   (L,GT,1)(LV,E,7)
       (M,GT,1)(MV,E,8)(LN,E,M)
       (SHOW,DO) DONE
SHOW   (K,E,L)
NEXT   IF (K,E,0) THEN DONE
       (KV,PD)(PL)(K,E,KN) NEXT
"""


@dataclass(frozen=True)
class Seen:
    """What the model shows of a state."""

    position: tuple[int, int]
    depth: int
    values: tuple[int | None, ...]  # of each chain, if it can be followed


def states_of(deck: bytes, chains: list[str], options: Options) -> list[Seen]:
    """All states of the run of a deck, which has its input after a line $INPUT."""
    cards, _, characters = deck.partition(b"$INPUT\n")
    state = State(assemble(cards).program, characters_of_input(characters), options)
    watched: list[object] = [chain_of(chain) for chain in chains]
    seen = [seen_of(state, watched)]
    while not state.is_last:
        take_step(state)
        seen.append(seen_of(state, watched))
    return seen


def seen_of(state: State, chains: list[object]) -> Seen:
    """What is seen of a state."""
    values = tuple(value_of(state, chain) for chain in chains)
    return Seen((state.statement, state.action), len(state.calls), values)


def value_of(state: State, chain: object) -> int | None:
    """What a chain reads as, if it can be followed."""
    try:
        return state.locate(chain).read()  # type: ignore[arg-type]
    except Trap:
        return None


@dataclass(frozen=True)
class Stop:
    """Where one stops."""

    statement: int | None
    watches: bool
    depth: int | None = None
    until: int | None = None
    each: bool = False  # at statements alone, or at each where there is no depth
    over: int | None = None  # the breakpoint's test is that the chain is over this

    def holds(self, states: list[Seen], here: int, there: int) -> bool:
        """Whether one stops at a state, coming from another."""
        one, other = states[here], states[there]
        return (
            one.position == (self.until, 0)
            or (one.position == (self.statement, 0) and self.is_met(one))
            or (self.watches and one.values != other.values)
            or (self.depth is not None and one.depth <= self.depth and (one.position[1] == 0 or not self.each))
            or (self.depth is None and self.each and one.position[1] == 0)
        )

    def is_met(self, state: Seen) -> bool:
        """Whether the test of the breakpoint holds, or meets a trap."""
        value = state.values[0]
        return self.over is None or value is None or value > self.over


def goal_of(states: list[Seen], at: int, line: str, stop: Stop) -> int:
    """The number of the state to which a command leads, which a number may follow: how often, or a statement."""
    command, _, number = line.partition(" ")
    if command == "run":
        return goal_of(states, 0, "c", stop)
    if command == "until":
        until = int(number) if number else states[at].position[0] + 1
        return goal_of(states, at, "c", replace(stop, until=until))
    for _ in range(int(number or "1") - 1):
        at = goal_of(states, at, command, stop)
    depth = states[at].depth
    if command in ("next", "rn", "nexti", "rni"):
        stop = replace(stop, depth=depth, each=not command.endswith("i"))
    if command in ("step", "back"):
        stop = replace(stop, each=True)
    if command in ("finish", "rf"):
        if not depth:
            return at
        stop = replace(stop, depth=depth - 1)
    last = len(states) - 1
    if command in ("c", "next", "nexti", "step", "finish"):
        return next((n for n in range(at + 1, last + 1) if stop.holds(states, n, n - 1)), last)
    return next((n for n in range(at - 1, -1, -1) if stop.holds(states, n, n + 1)), 0)


def numbers_in(text: bytes) -> list[int]:
    """The numbers of the states that `stats` tells."""
    return [int(number) for number in re.findall(rb"^STATE (\d+) ", text, re.MULTILINE)]


LEADING, LED = 20, 1_000  # commands that lead somewhere, as they are written; and at least so many times that they lead elsewhere
MOVES = ["c", "rc", "next", "rn", "finish", "rf"] * 3 + [
    "c 3", "rc 2", "next 4", "rn 3", "until", "until 2", "until 3", "run", "nexti", "rni", "step", "back", "step 3", "back 2",
]


def seeking(program: str, folder: Path) -> Iterator[Trial]:
    """Random commands at random states of several runs."""
    decks = [
        (COUNTING, "C", 7, 120), (NESTED, "B", 1, 300),
        ((EXAMPLES / "queue.deck").read_bytes(), "QN", 7, 300),
        ((EXAMPLES / "tree.deck").read_bytes(), "A", 3, 280),
    ]
    chosen, given, ends = random.Random(1966), set[str](), set[tuple[int, int]]()
    for deck, chain, statement, number in decks:
        (folder / "my.deck").write_bytes(deck)
        states = states_of(deck, [chain], Options())
        for has_break, watches, over in (
            (True, False, None), (False, True, None), (True, True, None), (False, False, None), (True, False, 5),
        ):
            stop = Stop(statement if has_break else None, watches, over=over)
            test = "" if over is None else f" if ({chain},G,{over})"
            lines = [f"break {statement}{test}"] * has_break + [f"watch {chain}"] * watches
            goals = []
            for _ in range(number // 4):
                at = chosen.randrange(len(states))
                command = chosen.choice(MOVES)
                lines += [f"goto {at}", command, "stats"]
                goals.append(goal_of(states, at, command, stop))
                given.add(command)
                ends.add((at, goals[-1]))
            made = answer_of(
                [program, str(folder / "my.deck")], input="\n".join(lines).encode() + b"\n",
                seconds=120, preexec_fn=None,
            )
            found = numbers_in(made.stdout)
            yield f"{number // 4} commands, {chain}, {has_break}, {watches}, {over}", (number // 4, goals), (len(found), found)
    yield "commands that lead somewhere, and states from which they lead elsewhere", (LEADING, True), (
        len(given), sum(start != end for start, end in ends) > LED)


WATCHED = 150  # decks of which several chains are watched
STEPS = 2_000  # of a run of one
ASKED, STOPS = 6, 400  # commands for each; and at least so many stops within runs


def watching(program: str, folder: Path) -> Iterator[Trial]:
    """Several chains, of which most change, in the runs of random decks, with a breakpoint or without."""
    within, kinds = 0, set[tuple[str, bool]]()
    for number in range(WATCHED):
        chance = random.Random(f"watched {number}")
        deck = chance.choice([churned_deck, aliased_deck])(chance)
        chains = sorted({a_chain(chance) for _ in range(chance.choice([2, 2, 3, 5, 8]))})
        states = states_of(deck, chains, Options(store=1, steps=STEPS))
        statement = chance.choice([None, 1])
        lines = [f"watch {chain}" for chain in chains] + ["break 1"] * (statement is not None)
        goals = []
        for _ in range(ASKED):
            at, command = chance.randrange(len(states)), chance.choice(["c", "c", "rc", "c 3", "next"])
            lines += [f"goto {at}", command, "stats"]
            goals.append(goal_of(states, at, command, Stop(statement, watches=True)))
            kinds.add((command, statement is None))
            within += 0 < goals[-1] < len(states) - 1
        (folder / "my.deck").write_bytes(deck)
        words = [program, "--store", "1", "--steps", str(STEPS), str(folder / "my.deck")]
        made = answer_of(words, input="\n".join(lines).encode() + b"\n", preexec_fn=None)
        found = numbers_in(made.stdout)
        yield f"watches {number}: {' '.join(chains)}", (ASKED, goals), (len(found), found)
    yield "commands with a breakpoint and without, and stops within a run", (2 * 4, True), (len(kinds), within > STOPS)


def aliased_deck(chance: random.Random) -> bytes:
    """A deck with chains that lead to the same bits, or by way of what the operation changes."""
    return aliased_job(chance).stdin.partition(b"$COMMANDS\n")[0]


def a_chain(chance: random.Random) -> str:
    """A chain of one to four names, such as random decks use."""
    return chance.choice("ABCJKLQST") + "".join(chance.choices("NVFG0", k=chance.choice([0, 0, 1, 1, 2, 3])))


FIRST = 5  # trials of a group that are made on a wrong program
LIKE = sys.argv[2:3]  # the program l6, if it is given


LISTED = ((EXAMPLES / "queue.deck", 40), (EXAMPLES / "tree.deck", 40), (TOP / "bench/blocks.deck", 120))


def free_lists(program: str, _folder: Path) -> Iterator[Trial]:
    """The free lists at random states of runs that get and free blocks."""
    chosen = random.Random(1965)
    for file, number in LISTED:
        cards, _, characters = file.read_bytes().partition(b"$INPUT\n")
        state = State(assemble(cards).program, characters_of_input(characters), Options())
        shown = [lists_of(state)]
        while not state.is_last and len(shown) < 20_000:
            take_step(state)
            shown.append(lists_of(state))
        goals = [chosen.randrange(len(shown)) for _ in range(number)]
        given = "".join(f"goto {goal}\nlists\n" for goal in goals).encode()
        made = answer_of([program, str(file)], input=given, seconds=120, preexec_fn=None)
        found = re.findall(r"(?:^LEVEL .*\n)+|^NO FREE PIECE\n", made.stdout.decode(), re.MULTILINE)
        yield f"free lists of {file.stem}", (number, [shown[goal] for goal in goals]), (len(found), found)


def lists_of(state: State) -> str:
    """What is shown of the free lists of a state."""
    lists = state.store.free_lists.items()
    lines = [
        f"LEVEL {size.bit_length() - 1} SIZE {size}:{''.join(f' {place}' for place in places)}\n"
        for size, places in sorted(lists) if places
    ]
    return "".join(lines) or "NO FREE PIECE\n"


def words(program: str, folder: Path) -> Iterator[Trial]:
    """The words of the command line, files, and faults."""
    deck, job, commands = folder / "nested.deck", folder / "whole.job", folder / "my.commands"
    for option, begin in (("--help", b"Debugs a deck of L6"), ("--version", b"l6db 1.0")):
        made = answer_of([program, option])
        yield option, (begin, b"", 0), (made.stdout[:len(begin)], made.stderr, made.status)
    wrongs: list[list[str]] = [[], ["--nothing"], [str(deck), "more"], [str(deck), "--store", "0"]]
    for wrong in wrongs:
        made = answer_of([program, *wrong])
        yield f"wrong words {wrong}", (b"", 64), (made.stdout, made.status)
    none = str(folder / "none")
    for words, part in (([none], "job"), (["--input", none, str(deck)], "input"), (["-x", none, str(deck)], "commands")):
        said = f"l6db: the file of the {part} can't be opened: {none}: there is no such file\n".encode()
        yield f"no file of the {part}", answer(stderr=said, status=4), answer_of([program, *words])
    (folder / "bad.deck").write_bytes(b" (A,E,5)\n (A,ZZ,5)\n")
    made = answer_of([program, str(folder / "bad.deck")])
    said = b"2:5: error: no operation is spelled `ZZ`\n1 error, 0 warnings\n"
    yield "a fault", answer(stderr=said, status=4), made
    if LIKE:
        checked = answer_of([*LIKE, "check"], input=(folder / "bad.deck").read_bytes())
        yield "what is said of it", checked.stdout, made.stderr
    job.write_bytes(b" (A,IN,1)(A,PR,1)\n$COMMANDS\ns 2\np A\n$INPUT\nX\n")
    for given in ([str(job)], ["-"]):
        made = answer_of([program, *given, "--batch"], input=job.read_bytes())
        yield f"a whole job {given}", b'A = 56 000000000070 "     X"\n', made.stdout[-29:]
    commands.write_bytes(b"si\nwhere\n")
    made = answer_of([program, str(deck), "-x", str(commands), "--echo"], input=b"p A\n")
    yield "commands and an echo", (True, True), (b"\nwhere\n#0 at 0.1\n" in made.stdout, b"A = 0 " in made.stdout)
    made = answer_of([program, str(deck), "--echo"], input=b"p A\nbt\n")
    yield "an echo over a pipe", b'p A\nA = 0 000000000000 "      "\nbt\n#0 at 0.0\n', made.stdout[-45:]
    made = answer_of([program, str(deck), "--batch", "-x", str(commands)], input=b"p A\n")
    yield "a batch", (False, 0), (b"A = 0 " in made.stdout, made.status)
    yield from prompts(program, deck)
    yield from batches(program, folder)


HABITS = HERE / "habits.jsonl"
FIRST_HABITS, ANSWERED = 25, 23  # how many were written down first, and how many of them must do something


def habits(program: str, folder: Path) -> Iterator[Trial]:
    """Whoever knows gdb is answered, and nearly always by what the habit is for, not by advice alone."""
    (folder / "list.deck").write_bytes(LIST)
    known = [json.loads(line) for line in HABITS.read_text("utf-8").splitlines()]
    for habit in known:
        given = "".join(f"{line}\n" for line in habit["lines"])
        made = answer_of([program, "--echo", str(folder / "list.deck")], input=given.encode())
        last = habit["lines"][-2 if "is_end" in habit else -1:][:1]
        shown = made.stdout.decode()
        answered = shown.rpartition(f"\n{last[0]}\n")[2] if last else shown
        if "is_end" in habit:
            yield habit["habit"], ("", 0), (answered, made.status)
        else:
            yield habit["habit"], (True, 0), (habit["answer"] in answered, made.status)
    first = known[:FIRST_HABITS]
    answered_well = sum("is_advice" not in habit for habit in first)
    yield "habits that do something", True, len(first) == FIRST_HABITS and answered_well >= ANSWERED


LIST_OF_COMMANDS = TOP / "crates/l6_session/specs/Command.antt"
ROW = re.compile(r'^row_of (\w+) =\n    row "([^"]+)" "([^"]+)" "([^"]+)"\n    "([^"]+)"$', re.MULTILINE)
COMMANDS, COMMAND_WORDS = 49, 96  # how many commands there are, and how many words they have


@dataclass(frozen=True)
class Row:
    """A row of the list of commands."""

    words: list[str]
    usage: str
    line: str
    sentence: str

    def help(self) -> str:
        """What help says of the command."""
        return f"{self.usage}: {self.sentence}.\n"


def rows() -> list[Row]:
    """The list of commands, as the definitions have it."""
    found = ROW.findall(LIST_OF_COMMANDS.read_text("utf-8"))
    return [Row(words.lower().split(), usage, line, said) for _, words, usage, line, said in found]


def page_words(page: str) -> list[str]:
    """The words of commands in the table of the page."""
    cells = re.findall(r"^\| (`[^|]+) \|", page.partition("\n| Command |")[2].partition("\n\n")[0], re.MULTILINE)
    return [word for cell in cells for word in re.findall(r"`([^`]+)`", cell)]


def manual_words(page: str) -> list[str]:
    """The words of commands in the list of the manual page."""
    items = re.findall(r"^\.It (.*)$", page.partition(".Ss Commands")[2].partition(".El")[0], re.MULTILINE)
    words: list[str] = []
    for part in re.findall(r"Ic (.*?)(?= Ar | Op | Ic |$)", "\n".join(items), re.MULTILINE):
        words += [word.replace("\\&", "") for word in part.split(" , ")]
    return [word.strip(" ,") for word in words]


# What pages say of commands in words: the page, its words, the lines that show it, and what is shown last then.
SAYINGS = [
    ("l6db.1", "without a place there is no breakpoint left, and nothing is watched", "b 1\nb 2\nwatch A\ninfo\ndelete\ninfo", []),
    ("l6db.md", "without PLACE there is no breakpoint left, and nothing is watched", "b 1\nb 2\nwatch A\ndelete\ninfo", []),
    ("l6db.md", "N is the number that info shows, and what comes after it has another one then",
     "watch A\nwatch B\nwatch C\nunwatch 1\nunwatch 2\ninfo", ["watch 1: B"]),
]


def sayings(program: str, folder: Path) -> Iterator[Trial]:
    """What the pages say of some commands in words is so; and the status of a batch in which one was refused."""
    deck = str(folder / "nested.deck")
    for name, words, lines, expected in SAYINGS:
        said = " ".join((TOP / "docs" / name).read_text("utf-8").replace("`", "").split())
        shown = said_to(program, deck, lines).splitlines()
        already = said_to(program, deck, lines.rpartition("\n")[0]).splitlines()
        listed = [it.partition(" = ")[0] for it in shown[len(already):]]
        yield f"{name}: {words}", (True, expected), (words in said, [it for it in listed if it.startswith(("watch", "break"))])
    ended = subprocess.run([program, "--batch", deck], input=b"", capture_output=True).returncode
    script = folder / "refused.commands"
    script.write_text("nothing\n", "ascii")
    refused = subprocess.run([program, "--batch", "-x", str(script), deck], input=b"", capture_output=True).returncode
    changes = " ".join((TOP / "CHANGELOG.md").read_text("utf-8").split())
    told = re.findall(r"a batch in which a command was refused has the exit status (\d)", changes)
    yield "the status of a batch by CHANGELOG.md", (0, [str(refused)]), (ended, told)


def one_list(program: str, folder: Path) -> Iterator[Trial]:
    """Help, advice and the pages have the commands of the list, and no others."""
    deck = str(folder / "nested.deck")
    listed = rows()
    words_listed = sorted(word for row in listed for word in row.words)
    yield "the list of commands", (COMMANDS, COMMAND_WORDS), (len(listed), len(set(words_listed)))
    docs = TOP / "docs"
    yield "the words of l6db.md", words_listed, sorted(page_words((docs / "l6db.md").read_text("utf-8")))
    yield "the words of l6db.1", words_listed, sorted(manual_words((docs / "l6db.1").read_text("utf-8")))
    shown = said_to(program, deck, "help")
    for row in listed:
        yield f"{row.words[0]} in help", True, f" {row.usage:22}{row.line}" in shown
        yield f"the words of {row.usage}", row.words[0], row.usage.split()[0].partition("|")[0]
        for word in row.words:
            yield f"help {word}", row.help(), said_to(program, deck, f"help {word}")
    for wrong, right in NEARLY:
        answered = said_to(program, deck, f"goto 2\n{wrong}\nstats")
        expected = f"Not a command. Did you mean this one? {help_of(listed, right)}STATE 2 "
        yield f"{wrong} is nearly {right}", True, expected in answered
    for alone in MISSING:
        yield f"{alone} alone", f"Something is missing. {help_of(listed, alone)}", said_to(program, deck, alone)
    for line in UNFIT:
        verb = line.split()[0]
        yield line, f"This can't follow it. {help_of(listed, verb)}", said_to(program, deck, line)
    for wrong in ("foo", "zz", "prnitx", "b" * 40, "x" * 17, "help foo"):
        yield wrong, "Not a command: help lists them\n", said_to(program, deck, wrong)


NEARLY = [
    ("prnit A", "print"), ("stpe", "step"), ("brek 1", "break"), ("conitnue", "continue"), ("wach A", "watch"),
    ("finishh", "finish"), ("reverse-contnue", "reverse-continue"), ("helpp", "help"), ("help whre", "where"),
]
MISSING = ["x", "who", "goto", "disable", "enable", "tbreak", "unwatch", "undisplay", "block", "condition", "source"]
UNFIT = ["step x", "stack 5", "finish 2", "goto A", "info nothing", "step 1 2", "quit now", "where A", "list 1,A", "b 1 2"]


def help_of(listed: list[Row], word: str) -> str:
    """What help says of the command of a word."""
    return next(row.help() for row in listed if word in row.words)


def said_to(program: str, deck: str, lines: str) -> str:
    """What is said to lines at the start of a run."""
    begin = answer_of([program, deck], input=b"").stdout
    return answer_of([program, deck], input=f"{lines}\n".encode()).stdout.removeprefix(begin).decode()


def trials(program: str) -> Iterator[Trial]:
    """All trials."""
    with tempfile.TemporaryDirectory() as name:
        folder = Path(name)
        yield from at_terminal(program, folder)
        yield from one_by_one(program, folder)
        yield from words(program, folder)
        yield from habits(program, folder)
        yield from one_list(program, folder)
        yield from sayings(program, folder)
        yield from page_sessions(program, folder)
        yield from readme(program, folder)
        yield from refused_memory(program, folder)
        yield from interrupted(program, folder)
        yield from free_lists(program, folder)
        yield from seeking(program, folder)
        yield from watching(program, folder)
        yield from lives(program, folder)
        yield from words_watched(program, folder)


def canaries() -> Iterator[Trial]:
    """On a program that answers wrong, groups of trials see it; and the model's goals are not those of another stop."""
    with tempfile.TemporaryDirectory() as name:
        folder, wrong = Path(name), Path(name, "wrong")
        wrong.write_text("#!/bin/sh\ncat > /dev/null\necho wrong\nexit 77\n")
        wrong.chmod(0o755)
        yield from typed_canaries(folder)
        for group in (words, habits, one_list, page_sessions, free_lists):
            yield first_wrong(f"{group.__name__} on a wrong program", group(str(wrong), folder))
        quiet = Path(name, "quiet")
        quiet.write_text("#!/bin/sh\ncat > /dev/null\necho wrong\n")
        quiet.chmod(0o755)
        yield few_pass("habits on a program that says something else", 1, habits(str(quiet), folder))
        # (what of the list is compared with pages alone passes)
        yield few_pass("the list of commands on it", 3 + COMMANDS, one_list(str(quiet), folder))
        for group in (seeking, watching, lives, words_watched):
            yield few_pass(f"{group.__name__} on it", 0, islice(group(str(quiet), folder), FIRST))
    states = states_of(LIST, ["KV"], Options())
    goals = [goal_of(states, 3, "c", Stop(statement, False)) for statement in (4, 5)]
    yield "where another breakpoint is", goals[0], goals[1]
    watched, unwatched = (goal_of(states, 3, "c", Stop(None, is_watched)) for is_watched in (True, False))
    yield "where a value changes, and where none is watched", watched, unwatched


if __name__ == "__main__":
    sys.exit(report(trials(os.path.abspath(sys.argv[1])), canaries()))
