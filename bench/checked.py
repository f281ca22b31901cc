"""Trials of what is measured, beside stand-ins for what is run: which of two numbers is subtracted, and what stops a measure."""
from __future__ import annotations

import argparse
import contextlib
import functools
import io
from collections.abc import Callable, Iterator
from types import ModuleType, SimpleNamespace
from unittest import mock

import editing
import measure
import placing
from measure import BenchError, Command, Ran
from trials import Trial

GETS = 1_000_000
COUNTS = (GETS, 900_000, 5_000_000, 77)  # gets, frees, words, and the number made of places
# Billions of a second that each allocator takes for these gets: that of the loop comes off.
TAKEN = {"loop": 4_000_000, "malloc": 24_000_000, "calloc": 34_500_000, "buddy": 9_000_000, "cleared": 14_000_000}
PRINTOUT = "5\n== DONE AFTER {} STEPS\n"
MIXVM = "Loading\nRunning ...\n   0000123  \n... done\nElapsed time: 45 /Total program time: 45\n"


def why_not(what: str, expected: str, act: Callable[[], object]) -> Trial:
    """The trial that a call stops, and that it says so: how that begins; or what the call gives."""
    try:
        said = f"it gives {act()}"
    except (BenchError, argparse.ArgumentTypeError) as fault:
        said = str(fault)
    return what, expected, said[:len(expected)]


def ran(text: str, status: int = 0, seconds: float = 1.0) -> Ran:
    """What comes of a command."""
    return Ran(text, "why", status, seconds)


def basics() -> Iterator[Trial]:
    """What is read from what was run, the least of some times, and a status that is not expected."""
    with mock.patch.object(measure, "run_well", mock.Mock(side_effect=[ran("", 0, it) for it in (3.0, 9.0, 2.0, 8.0, 4.0, 8.5)])) as asked:
        commands = [Command(["one"]), Command(["two"])]
        yield "the least of three times, in turn", ([2.0, 8.0], commands * 3), (
            measure.best_in_turn(commands, 3), [it.args[0] for it in asked.call_args_list])
    yield "the steps of a printout", 12, measure.steps_of(PRINTOUT.format(12))
    yield why_not("the steps of a run that has not ended by DONE", "a run has not ended by DONE",
                  lambda: measure.steps_of("== TRAP 7 STORE FULL AFTER 9 STEPS\n"))
    failing = Command(["sh", "-c", "echo said; exit 3"])
    yield why_not("a status that is not expected", "sh -c echo said; exit 3: status 3\nsaid\n", lambda: measure.run_well(failing))
    yield "a status that is expected", ("said\n", 3), (measure.run_well(failing, (3,)).stdout, measure.run_well(failing, (3,)).status)
    yield "what mixvm says", ("123", 45), measure.mix_answer(MIXVM)
    for part in ("Running", "Elapsed"):
        said = MIXVM.replace(part, "")
        yield why_not(f"what mixvm says without {part}", f"mixvm says {said!r}", functools.partial(measure.mix_answer, said))
    with mock.patch.object(measure, "run", lambda _: Ran("", "==1== Collected : 1234\n", 0, 1.0)):
        yield "what callgrind says", 1234, measure.collected(Command(["any"]))
    with mock.patch.object(measure, "run", lambda _: ran("")):
        yield why_not("what callgrind does not say", "callgrind does not say what it collected: why", lambda: measure.collected(Command(["any"])))


def rows_of(text: str) -> list[list[str]]:
    """The cells of the rows of a table, without its head."""
    lines = [line for line in text.splitlines() if line.startswith("|")]
    return [[cell.strip() for cell in line.strip("|").split("|")] for line in lines[2:]]


def decks(bench: ModuleType) -> Iterator[Trial]:
    """Tables of decks: each with its own steps and seconds; and a deck that prints something else."""
    yield "a table", "| a  | bcd |\n| -- | --- |\n| 12 | 3   |\n", bench.table(["a", "bcd"], [["12", "3"]])
    names = [it.name for it in bench.ALL]
    steps, seconds = {it: (number + 1) * 1_000_000 for number, it in enumerate(names)}, [0.1 * (number + 1) for number in range(len(names))]
    with mock.patch.multiple(bench, printed_steps=lambda _, work: steps[work.name], best_in_turn=lambda *_: seconds):
        expected = [[it.name, it.what, f"{number}.0", f"{number / 10:.3f}", "100.0"] for number, it in enumerate(bench.ALL, 1)]
        yield "the table of decks", expected, rows_of(bench.measure_decks("l6", 1, ""))
    with mock.patch.multiple(bench, run_well=lambda _: ran(PRINTOUT.format(12)), l6=lambda *_: Command(["l6"])):
        right, wrong = (SimpleNamespace(name="deck", many=1, lines=lambda _, line=line: [line]) for line in ("5", "6"))
        yield "the steps of a deck that prints what it must", 12, bench.printed_steps("l6", right)
        yield why_not("a deck that prints something else", "deck prints something else than it must: '5\\n==", lambda: bench.printed_steps("l6", wrong))


def allocators(bench: ModuleType) -> Iterator[Trial]:
    """Gets and frees: what the loop takes comes off, and an allocator that does something else stops the measure."""
    def in_c(command: Command) -> Ran:
        kind = command.words[1]
        return ran(f"{GETS} 900000 5000000 {77 if kind in ('buddy', 'cleared') else 0}\n{TAKEN[kind]}\n")

    with mock.patch.multiple(bench, block_counts=lambda _: COUNTS, run_well=in_c, compiled=lambda *_: "c"):
        yield "gets and frees in C", {"malloc": 20.0, "calloc": 30.5, "buddy": 5.0, "cleared": 10.0}, bench.best_of_c("c", 2)
        with mock.patch.multiple(bench, printed_steps=lambda *_: 9, steps_of=lambda _: 9, deck_of_gets=lambda *_: Command(["c", "loop"]),
                                 best_in_turn=lambda *_: [0.5, 0.3]):
            text = bench.measure_allocators("l6", 1, "")
        rows = [["l6: GT and FR, less assignments in their place", "200.0"], ["malloc of the C library", "20.0"],
                ["calloc of the C library, which clears", "30.5"], ["the buddy system in C", "5.0"], ["the same, and blocks are cleared", "10.0"]]
        yield "the table of allocators", (rows, True), (rows_of(text), "it takes 300 of 500 ns a get" in text)
    with mock.patch.multiple(bench, block_counts=lambda _: (GETS, 1, 1, 1), run_well=in_c):
        yield why_not("an allocator that does something else", "the allocator loop does something else than it must: ['1000000'",
                      lambda: bench.best_of_c("c", 1))


def counted(bench: ModuleType) -> Iterator[Trial]:
    """Instructions: those of fewer rounds come off, and those of the loop."""
    each = {"loop": 3, "malloc": 50, "calloc": 60, "buddy": 33, "cleared": 43}

    def collected(command: Command, *_: object) -> int:
        return 1_000 + each[command.words[1]] * int(command.words[2])

    def deck(_program: str, rounds: int, edited: object = None) -> Command:
        return Command(["c", "loop" if edited else "malloc", str(rounds)])

    with mock.patch.multiple(bench, block_counts=lambda rounds: (rounds // 2, 0, 0, 0), compiled=lambda *_: "c", collected=collected, deck_of_gets=deck):
        expected = {bench.IN_DECKS: 94.0, bench.KINDS["malloc"]: 94.0, bench.KINDS["calloc"]: 114.0, bench.KINDS["buddy"]: 60.0,
                    bench.KINDS["cleared"]: 80.0}  # (a get in two rounds)
        yield "instructions of a get and its free", expected, bench.per_get("l6", "")
    work = bench.WITH_MIX[0]
    of_mix = bench.MIX_COUNTS[work.name]
    with mock.patch.multiple(bench, assembled=lambda _, name, __: Command([name]), mix_source=lambda _, number: number,
                             collected=mock.Mock(side_effect=[500 + 6 * of_mix(work.many // 300).instructions, 500 + 6 * of_mix(work.many // 300 * 2).instructions])):
        yield "instructions of mixvm for one of MIX", 6.0, bench.per_mix_instruction(work, "")
    with mock.patch.multiple(placing, compiled=lambda *_: "c", run_well=mock.Mock(side_effect=[ran(f"{it}\n") for it in (9.4, 7.2) * 18]),
                             collected=lambda command: 100 + 5 * int(command.words[4])):
        rows = list(placing.measured(2, ""))
        yield "the rows of places", (18, ["2^10", "a get and its free, nothing halved", "the proved places", "7", "5"]), (len(rows), rows[0])


def traces(bench: ModuleType) -> Iterator[Trial]:
    """The traces that are measured: by hand, of four calls; and what an editor changes in a deck."""
    with mock.patch.object(bench, "TRACE_CALLS", 6):
        yield "a trace without answers", b"get b0 1\nfree b0\nget b1 2\nfree b1\nget b0 3\nfree b0\n", bench.trace_of(2, False)
        known = b"get b0 1 = 1024\nfree b0 = 10\nget b1 2 = 1024\nfree b1 = 9\nget b2 3 = 1024\nfree b2 = 8\n"
        yield "a trace with answers", known, bench.trace_of(50, True)
    cut, back = ({"range": {"start": {"line": 3, "character": 2}, "end": {"line": 3, "character": end}}, "text": text} for end, text in ((3, ""), (2, ")")))
    yield "the changes of a card", [(True, cut), (False, back)], list(editing.changes(3, "(A)"))
    yield "a deck of three cards", ["       (0,DN,18,35)(A,E,0)", "L00000 IF (A,G,0) THEN L00000", "       (B,GT,1)(BN,E,A)(A,A,1) L00002"], editing.deck_of(3)


def asked(bench: ModuleType) -> Iterator[Trial]:
    """What is asked for: parts by their names, and what stops all of it."""
    yield "parts that there are", ["traces", "decks"], bench.parts_of("traces,decks")
    names = "decks, mix, allocators, store, places, traces, editing, instructions"
    yield why_not("a part that there is not", f"'sieve' is none of {names}", lambda: bench.parts_of("decks,sieve"))
    for part, tools, expected in (("store", ["none-such", "sh"], (False, "skipped: store: none-such can't be found\n")), ("decks", [], (True, ""))):
        with mock.patch.dict(bench.TOOLS, {part: tools}), contextlib.redirect_stdout(io.StringIO()) as said:
            yield f"whether {part} can be measured", expected, (bench.is_there(part), said.getvalue())
    stop = mock.Mock(side_effect=BenchError("it is wrong"))
    with mock.patch.object(bench, "measure", stop), mock.patch.object(bench.sys, "argv", ["run", "l6", "--only", "decks", "--times", "2"]), \
            contextlib.redirect_stderr(io.StringIO()) as said:
        yield "a measure that stops", (1, "bench: it is wrong\n", (["decks"], 2)), (bench.main(), said.getvalue(), stop.call_args.args[1:3])


def measures(bench: ModuleType) -> Iterator[Trial]:
    """All of them, of bench/run as a module."""
    yield from basics()
    for group in (decks, allocators, counted, traces, asked):
        yield from group(bench)
