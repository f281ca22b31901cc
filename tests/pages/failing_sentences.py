"""What docs/robustness.md says of proofs, faults and memory: the clauses and the scripts that it names, and jobs that fail.

A cell under "Where" says of each name that it has whether that is proved or tested: a call or a clause of the code that is no
test is proved, and what is in quotes is a trial.
"""
from __future__ import annotations

import functools
import re
from collections.abc import Iterator

import refused_memory
from answers import answer
from architecture_sentences import listed, sources
from held import Words, all_held, answered, held, streams, told
from page_tables import TOP, plain, tables_of, text_of
from promised_sentences import body, contract
from step_sentences import bug_and_steps
from trials import Trial

PAGE = "docs/robustness.md"
OF_TESTS = re.compile(r"(?:^|/)tests(?:/|\.rt$)")  # files of tests in a crate
PARTS = re.compile(r"\b(proved|tested)\b|`([a-z_:A-Z]+)`|\"([^\"]+)\"|\b(the same|as above)\b")
PATIENT = "if !patience.retry() {"  # before an interruption is reported
TIMES = {1: "as much as", 2: "twice", 3: "three times"}
FAR = 1 << 40  # bytes, more than any job may take
REFUSED = "card 1: no reading"


@functools.cache
def calls(is_test: bool) -> str:
    """The code of all crates that is for tests, or the other."""
    return "\n".join(
        text for crate in listed() for file, text in sources(crate).items()
        if (crate == "l6_tests" or bool(OF_TESTS.search(file))) == is_test)


@functools.cache
def clauses(call: str) -> frozenset[str]:
    """The clauses of a public call, by its last name; of one that several types have, those of all."""
    heads = re.findall(rf"\bfn {call.rpartition('::')[2]}\b(.*?)(?:\n *\{{\n|;\n)", calls(False), re.DOTALL)
    return frozenset(it for head in heads for it in re.findall(r"\bensures (\w+) \{", head))


def kind_of(name: str) -> str:
    """Whether a name is that of a call or a clause that is proved, or of a test."""
    last = name.rpartition("::")[2]
    is_proved = re.search(rf"\b(?:fn|ensures|struct|use|invariant) (?:\w+::)*{last}\b", calls(False))
    return "proved" if is_proved else "tested" if re.search(rf"\bfn {last}\b", calls(True)) else "nowhere"


def where(_program: str) -> Iterator[Trial]:
    """Of each name beside what can go wrong, whether it is proved or tested; and whose clauses those are that are named."""
    before, owned_before = "", frozenset[str]()
    for what, cell in ((row[0], row[-1]) for table in tables_of(text_of(PAGE)) for row in table.rows):
        found, kind = PARTS.findall(cell), ""
        said, owned = [], frozenset[str]()
        for proof, name, quoted, other in found:
            kind = proof or (kind or before if other else kind)
            owned |= clauses(name) if name else owned_before if other else frozenset()
            said += [(name or quoted, kind)] if name or quoted else []
        names = [name for _, name, *_ in found if name]
        right = [(it, kind_of(it) if it in names else "tested") for it, _ in said]
        yield f"{PAGE}: what is proved of {plain(what)}, and what is tested", right, said
        clauses_alone = [it for it in names if it.islower() and not re.search(rf"\bfn {it.rpartition('::')[2]}\b", calls(False) + calls(True))]
        yield f"{PAGE}: clauses beside {plain(what)} that its calls do not have", [], [it for it in clauses_alone if it not in owned]
        before, owned_before = next((proof for proof, *_ in found if proof), before), owned


def clause_with(call: str, *texts: str) -> str:
    """The clause of a call of l6 that has these texts."""
    found = re.findall(r"ensures (\w+) \{(.*?)\}\n(?= *(?:ensures|//|$|\n))", contract("l6", "job.rt", call) + "\n", re.DOTALL)
    return " ".join(name for name, text in found if all(it in text for it in texts))


def named_clauses(_program: str) -> Iterator[Trial]:
    """The clause that is named beside each promise has it."""
    rows: list[tuple[str, Words]] = [
        ("| proved: nothing went out (perform, ___); tested: each request", clause_with("perform", "writer.new ≡ writer.old")),
        ("proved for readers whose bytes the contracts know (perform, ___);", clause_with("perform", "GivesAtMost")),
        ("or was interrupted for the 1,001st time (perform, ___); tested", clause_with("perform", "RetriesAccounted", "R.health")),
        ("the same of the writer (___); tested", clause_with("perform", "RetriesAccounted", "W.health")),
        ("a deck longer than 1,048,576 bytes | l6: deck too long | 4 | proved: perform, ___ |", clause_with("perform", "JobResult")),
        ("and the exit status is the one of the answer (___).",
         "exit_code" if "(exit_status result)" in contract("l6", "program.rt", "exit_code") else "perform"),
        ("proved: debug, done, which ___ mention checkpoints;",
         "does" if "heckpoint" in contract("l6", "job.rt", "debug") else "does not"),
    ]
    for sentence, words in rows:
        yield held(PAGE, sentence.split(" ___")[0], sentence, words)


JOBS = [
    told("which objection is reported", "clause fault: the ___ objection of the deck, and only ___ |",
         {f"{REFUSED} | -": ("first", "then"), "card 2: no reading | -": ("last", "then")}, " (A,Q)\n (B,Q)\n", " (A,PD)\n",
         look=lambda it: it.stderr.decode().strip().removeprefix("l6: ")),
    told("a label given twice", "proved: assemble: its fault, and then it spells ___ program |",
         {"error 4": "no", "output 0": "a"}, "X (PL)\nX (PL)\n", command="asm", look=streams),
    told("what a trap leaves", "a place where no block begins, a division by ___, .. | the printout ___ far and == TRAP",
         {"A TRAP 1 | A TRAP 2 | A TRAP 5": ("0", "so"), "TRAP 1 | TRAP 2 | TRAP 5": ("0", "not")}, " (A,PH)(A,E,AN)\n",
         " (A,PH)(A,FR)\n", " (A,PH)(A,V,0)\n"),
    told("what a trap changes", "a trap changes the ending ___ |",
         {"TRAP 5 A 000000000005 5 2": "alone"}, " (A,E,5)(A,V,0)\n$COMMANDS\ngo\nshow\n", command="debug",
         look=bug_and_steps),
    told("how a run ends", "and a run ends by its limit of ___ at the latest",
         {"LIMIT": "steps"}, "L L\n", command="run --steps 50"),
    told("wrong words", "no word, an unknown word or option, a value out of range | what is wrong and where ___ is, on standard ___; "
         "nothing is read | 64", {"error 64": ("help", "error"), "output 64": ("help", "output")}, "", command="frob", look=streams),
    told("the same answers as of an image", "what is wrong and ___ help is, on standard error;",
         {"usage": "where", "": "which"}, "", command="frob",
         look=lambda it: "usage" if b"--help" in it.stderr else ""),
    told("bytes of any kind", "bytes of any kind | ___ of these lines, or a printout |",
         {f"{REFUSED} | -": "one", f"- | {REFUSED}": "none"}, " \xff\x80(\n", "*\xff\x80(\n"),
]


def jobs(program: str) -> Iterator[Trial]:
    """What jobs that fail show."""
    yield from all_held(program, PAGE, JOBS)
    after = re.findall(r"Err\(Trouble::Interrupted\) => \{\s+(.*)\s+(.*)", sources("l6_device")["retrying.rt"])
    again = "retried" if {*after} == {(PATIENT, "return Err(Trouble::Interrupted);")} else "reported"
    yield held(PAGE, "an interruption", "A read or write that was interrupted is ___.", again)
    of_words = answered(program, "run --store 0", " (PL)\n")
    yield held(PAGE, "a store of no unit", "___ is read | 64 | tested: \"no word\"", "nothing" if not of_words.stdout else "a job")


def kept_in(room: refused_memory.Room) -> int | None:
    """How many blocks a room may keep, by what its trial expects."""
    expected = room.trial(refused_memory.WrongShim(answer(b""), refused_memory.Requests(1, False, 7, 1, 1)))[1]
    return expected.kept if isinstance(expected, refused_memory.Measured) else -1


def bounds_of(needed: int) -> list[int]:
    """How many bytes a job that needs so many may hold at one time, and request in all: what the trials say of far too many."""
    room = refused_memory.Room("a job", ["run"], b"", answer(b""), needed)
    actual = room.trial(refused_memory.WrongShim(answer(b""), refused_memory.Requests(1, False, 0, FAR, FAR)))[2]
    return [int(it) for it in re.findall(r", of (\d+)", actual.too_many_bytes if isinstance(actual, refused_memory.Measured) else "")]


def memory(_program: str) -> Iterator[Trial]:
    """How much memory a job may take, what is counted, and what is given back."""
    needed = 1_000_000
    at_once, in_all = bounds_of(needed)
    for sentence, times in (
        ("At one time at most 64 KiB and ___ what the job needs:", (at_once - refused_memory.PIECE) // needed),
        ("It is ___ as much since a list that grows by doubling may have", (at_once - refused_memory.PIECE) // needed),
        ("since a list that grows by doubling may have ___ the room that it needs", refused_memory.DOUBLED),
        ("In all requests together at most ___ as much again.", in_all // at_once),
    ):
        yield held(PAGE, sentence.split(" ___")[0], sentence, TIMES.get(times))
    shim = (TOP / "tests/program/refuse.c").read_text("utf-8")
    giving = re.findall(r"^void \*(\w+)\((?:(?!^\}).)*?kept \+=", shim, re.DOTALL | re.MULTILINE)
    ends = "end" if re.search(r"__attribute__\(\(destructor\)\) static void \w+\(void\) \{(?:(?!^\}).)*kept", shim, re.DOTALL | re.MULTILINE) else None
    sentence = "counts the blocks that ___ and ___ give and the blocks that are given back, up to the ___ of the process"
    yield held(PAGE, "what is counted", sentence, (*giving, ends or "begin"))
    room = refused_memory.Room("a job", ["run"], b"", answer(b""), needed)
    yield held(PAGE, "what may be kept", "In each run that it counts the difference, kept, must be ___.", str(kept_in(room)))
    token = sources("l6_raw")["memory.rt"]
    derived = re.search(r"derive\([^)]*(?:Clone|Copy)[^)]*\)\]\s+pub\(crate\) struct DeallocToken", token) or "Clone for" in token
    used = "up" if re.search(r"fn free<[^(]*\(self, token: DeallocToken<A>,", token) else "again"
    sentence = "the right to give it back ___ be copied, and giving it back uses it ___."
    yield held(PAGE, "the right to give back", sentence, ("can" if derived else "can't", used))
    parts = re.findall(r"\b(code|input): Rc<", "".join(sources("l6_machine").values()))
    yield held(PAGE, "what is shared", "What a machine shares with its copies, its ___ and the input, goes with the ___ of them.",
               ("program" if "code" in parts else "store", "last" if parts else "first"))


def sessions(_program: str) -> Iterator[Trial]:
    """How much memory a session may hold."""
    rooms = list(refused_memory.sessions())
    machines = {
        (room.needed - 2 * refused_memory.STATEMENT - refused_memory.GROUP) * refused_memory.DOUBLED
        // refused_memory.machine(int(room.args[2]), 0) for room in rooms}
    replaced = "replaces" if "mem::swap" in body("l6_history", "ring.rt", "restore") else "follows"
    sentence = "at most ___ machines: ___ checkpoints, the present machine, and the copy that ___ it."
    yield held(PAGE, "machines of a session", sentence,
               (" ".join(map(str, machines)), str(refused_memory.CHECKPOINTS), replaced))
    times = max(room.stdin.count(b"back 1\n") for room in rooms)
    of_units = [{room.needed for room in rooms if room.args[2] == units} for units in {room.args[2] for room in rooms}]
    more = "no" if all(len(it) == 1 for it in of_units) else "much"
    yield held(PAGE, "going back often", "Going back ___ times holds ___ more than going back once.", (str(times), more))


def failing_sentences(program: str) -> Iterator[Trial]:
    """All of them."""
    for group in (where, named_clauses, jobs, memory, sessions):
        yield from group(program)


# Each group, and a sentence of it that is turned round.
TURNED = [
    (where, PAGE, "proved: `step`, as above; tested: \"a return too many\"", "tested: `step`, as above; proved: \"a return too many\""),
    (where, PAGE, "nothing went out (`perform`, `unwritten`)", "nothing went out (`perform`, `by_buddies`)"),
    (named_clauses, PAGE, "the contracts know (`perform`, `at_most`)", "the contracts know (`perform`, `done`)"),
    (jobs, PAGE, "the first objection of the deck", "the last objection of the deck"),
    (sessions, PAGE, "and the copy that replaces it", "and the copy that follows it"),
    (memory, PAGE, "At one time** at most 64 KiB and twice", "At one time** at most 64 KiB and three times"),
]
