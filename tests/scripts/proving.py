"""Trials of tools/prove.py and tools/commands.py beside stand-ins: the order of crates, their jobs and their words, and what ends them."""
from __future__ import annotations

import contextlib
import io
import threading
import time
from collections.abc import Callable, Iterator
from dataclasses import dataclass, field
from pathlib import Path
from tempfile import TemporaryDirectory
from types import SimpleNamespace
from unittest import mock

import prove
from commands import Commands, Ended
from trials import Trial

A_JOB = 1_200_000_000  # bytes
PLENTY = 1 << 40
WAIT = 20  # seconds that a check which runs beside another waits for it
WELL, KILLED = Ended(0, "", 0.0, 4.0), Ended(247, "", 0.0, 0.0)


@dataclass(frozen=True)
class Some:
    """A crate that is nowhere."""

    name: str
    lines: int = 1
    below: tuple[Some, ...] = ()
    memory: int = 1_000_000_000
    is_program: bool = False
    is_static: bool = False
    folder: Path = Path("nowhere")


@dataclass
class Checks:
    """What is done in place of checks: which began with how many jobs, and which ended, in their order."""

    act: Callable[[str], Ended]
    done: list[str] = field(default_factory=list)

    def __call__(self, crate: Some, jobs: int, _commands: object) -> Ended:
        """A check of a crate."""
        self.done.append(f"{crate.name} {jobs}")
        ended = self.act(crate.name)
        self.done.append(f"{crate.name} ends")
        return ended


def proved_by(checks: Checks, crates: tuple[Some, ...], jobs: int, memory: int = PLENTY, clock: Callable[[], float] = time.monotonic) -> tuple[bool, str]:
    """Whether all crates are proved, and what is said meanwhile."""
    with contextlib.redirect_stderr(io.StringIO()) as said, mock.patch.multiple(
            prove, proved=checks, is_proved=lambda _: False, usable_memory=lambda: memory, time=SimpleNamespace(monotonic=clock)):
        is_well = prove.Proving(crates, jobs, Commands()).run()  # type: ignore[arg-type]
    return is_well, said.getvalue()


def orders() -> Iterator[Trial]:
    """First comes the crate with the most lines in it and in the longest chain above it; and it is said which of how many begins."""
    first, other = Some("first", 10), Some("other", 100)
    above = Some("above", 50, (first,))
    crates = (first, other, above, Some("top", 60, (first, above)))
    checks = Checks(lambda _: WELL)
    times = iter([1000.0, *(1065.9 + 60 * number for number in range(20))])
    is_well, said = proved_by(checks, crates, 1, clock=lambda: next(times))
    names = ("first", "above", "other", "top")  # (10 + 50 + 60 lines wait for the first, 100 for the other)
    yield "the order of crates", [it for name in names for it in (f"{name} 1", f"{name} ends")], checks.done
    lines = [line for number, name in enumerate(names, 1) for line in (f"proving {name}, {number} of 4", f"{name} is proved, in 4 s of processor time")]
    expected = "".join(f"l6: {minutes}:05  {line}\n" for minutes, line in enumerate([*lines, "all are proved"], 1))
    yield "what is said of crates", (True, expected), (is_well, said)
    failing = Checks(lambda name: Ended(3, "why\n", 0.0, 0.0) if name == "above" else WELL)
    is_well, said = proved_by(failing, crates, 1, clock=lambda: 0.0)
    yield "what is said of one that is not proved", (False, "why\nl6: 0:00  above is not proved\n"), (is_well, said[said.find("why"):])
    yield "what is begun after one that is not proved", ["first 1", "first ends", "above 1", "above ends"], failing.done


def jobs() -> Iterator[Trial]:
    """Checks share the jobs, half as many again as the processors, and the memory; one alone has a job at least."""
    rows = ((4, PLENTY, "4"), (4, 3 * A_JOB + 1_000_000_000, "4"), (4, 3 * A_JOB + 999_999_999, "3"), (4, 0, "1"), (1, PLENTY, "1"))
    for processors, memory, given in rows:
        checks = Checks(lambda _: WELL)
        proved_by(checks, (Some("one"),), processors, memory)
        yield f"the jobs of one check on {processors} processors with {memory} bytes", [f"one {given}", "one ends"], checks.done
    for memory, given in ((PLENTY, "2"), (3_000_000_000 + 2 * A_JOB, "1")):
        together = threading.Barrier(3)
        checks = Checks(lambda _, together=together: (together.wait(WAIT), WELL)[1])  # type: ignore[misc]
        proved_by(checks, (Some("one"), Some("two"), Some("three")), 4, memory)
        yield f"the jobs of three checks with {memory} bytes", ["one 2", f"three {given}", "two 2"], sorted(checks.done[:3])


def killed() -> Iterator[Trial]:
    """A check that is killed is made again once no other runs, with one job; where it is killed again, it is not proved."""
    again, said_again = threading.Event(), "again, alone"

    def act(name: str) -> Ended:
        if name == "large" and not again.is_set():
            again.set()
            return KILLED
        if name == "small":
            again.wait(WAIT)
            time.sleep(0.3)
        return WELL

    checks = Checks(act)
    is_well, said = proved_by(checks, (Some("small"), Some("large")), 4)
    yield "a check that is killed beside another", (True, ["small ends", "large 1", "large ends"], True), (is_well, checks.done[-3:], said_again in said)
    for status, is_killed in ((-9, True), (247, True), (9, False), (1, False), (0, False)):
        yield f"whether a check of the status {status} was killed", is_killed, Ended(status, "", 0.0, 0.0).was_killed


def words_of_checks() -> Iterator[Trial]:
    """What rt is asked for: the words and the input of a program's run, and where a check is not well, that nothing is noted."""
    for is_program, args, warned, verb in ((True, "run\n--store 8\n", "", ["run", "--jobs", "3", "--", "run", "--store 8"]),
                                           (True, None, "", ["run", "--jobs", "3"]), (False, None, "", ["lib", "--jobs", "3"]),
                                           (False, None, "first\n./specs/Lib.antt:1:8: warning: a name\n", ["lib", "--jobs", "3"]),
                                           (False, None, "./src/lib.rt:1:8: warning: a name\n", ["lib", "--jobs", "3"])):
        with TemporaryDirectory(prefix="l6-proving-") as folder:
            crate = Some("l6", is_program=is_program, folder=Path(folder))
            if args is not None:
                (crate.folder / "args").write_text(args, "ascii")
            commands, back, note = mock.Mock(), mock.Mock(), mock.Mock()
            commands.run.return_value = Ended(0, warned, 0.0, 0.0)
            with mock.patch.multiple(prove, room_of=lambda _: contextlib.nullcontext(Path("room")), bring_back=back,
                                     sources_sum=lambda _: "sum", made_sums=lambda _: "made", replace_text=note):
                status = prove.proved(crate, 3, commands).status  # type: ignore[arg-type]
                parts = [it.args[2] for it in back.call_args_list]
                noted = [it.args for it in note.call_args_list]
        made = [["out/l6", "out/l6.stamp"]] if is_program else [["out/rlib"]]
        is_well = "specs" not in warned
        yield f"a check of {'a program' if is_program else 'a library'}, {args!r}, {warned!r}", (
            [(["rt", *verb], Path("room"), Path(folder, "stdin"))], [["out/incremental"], *(made if is_well else [])],
            0 if is_well else 1, [(Path(folder, "out/proved"), "sum made\n")] if is_well else []), (
            [it.args for it in commands.run.call_args_list], parts, status, noted)


def commands_run() -> Iterator[Trial]:
    """A command reads a file if there is one, and else nothing; both of its outputs are kept, whatever their bytes."""
    with TemporaryDirectory(prefix="l6-proving-") as folder:
        given = Path(folder, "given")
        given.write_text("given\n", "ascii")
        for what, file, text in (("a file", given, "given\n"), ("no file", Path(folder, "none"), ""), ("nothing", None, "")):
            ended = Commands().run(["sh", "-c", "cat; pwd; printf '\\377' >&2; exit 3"], Path(folder), file)
            yield f"a command on {what}", (3, f"{text}{folder}\n\ufffd"), (ended.status, ended.text)


def proving() -> Iterator[Trial]:
    """All of them."""
    yield from orders()
    yield from jobs()
    yield from killed()
    yield from words_of_checks()
    yield from commands_run()
