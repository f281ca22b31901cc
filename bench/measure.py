"""Runs programs, and measures them: time of the processor, instructions, and the machine."""
from __future__ import annotations

import hashlib
import os
import re
import resource
import shutil
import subprocess
from collections.abc import Sequence
from dataclasses import dataclass
from pathlib import Path

SECONDS = 120  # for one run
MOST_STEPS = 1_000_000_000
OPTIONS = ["--steps", str(MOST_STEPS), "--output", str(1 << 24)]
FEW_STEPS, MORE_STEPS = 500_000, 1_500_000  # the limits whose instructions are subtracted
STOPPED = (3,)  # the exit status of a run that reaches its limit
COLLECTED = re.compile(r"Collected : (\d+)")
ENDING = re.compile(r"== DONE AFTER (\d+) STEPS")
ELAPSED = re.compile(r"Elapsed time: (\d+)")


class BenchError(Exception):
    """Something that was run did not do what it must."""


@dataclass(frozen=True)
class Command:
    """Words that are run, with what stands on standard input."""

    words: Sequence[str]
    stdin: bytes = b""
    home: str | None = None  # the home folder that it is given, if not the user's


@dataclass(frozen=True)
class Ran:
    """What came of a command."""

    stdout: str
    stderr: str
    status: int
    seconds: float  # of the processor


def used() -> float:
    """The seconds of the processor that all commands so far have used."""
    usage = resource.getrusage(resource.RUSAGE_CHILDREN)
    return usage.ru_utime + usage.ru_stime


def run(command: Command) -> Ran:
    """What comes of a command."""
    environment = {**os.environ, "LC_ALL": "C", **({"HOME": command.home} if command.home else {})}
    before = used()
    done = subprocess.run(
        command.words, input=command.stdin, capture_output=True, timeout=SECONDS, env=environment
    )
    seconds = used() - before
    return Ran(done.stdout.decode("latin-1"), done.stderr.decode("latin-1"), done.returncode, seconds)


def run_well(command: Command, statuses: Sequence[int] = (0,)) -> Ran:
    """The same, where only these statuses are expected."""
    ran = run(command)
    if ran.status not in statuses:
        raise BenchError(f"{' '.join(command.words)}: status {ran.status}\n{ran.stderr or ran.stdout[-200:]}")
    return ran


def best_in_turn(commands: Sequence[Command], times: int) -> list[float]:
    """The least time of each command; all are run in turn, so often."""
    best = [float("inf")] * len(commands)
    for _ in range(times):
        for at, command in enumerate(commands):
            best[at] = min(best[at], run_well(command).seconds)
    return best


def steps_of(printout: str) -> int:
    """The steps that the last line of a printout says."""
    found = ENDING.fullmatch(printout.rstrip("\n").rsplit("\n", 1)[-1])
    if not found:
        raise BenchError(f"a run has not ended by DONE: {printout[-200:]!r}")
    return int(found[1])


def collected(command: Command, statuses: Sequence[int] = (0,)) -> int:
    """The instructions of the processor that a command takes, its start among them."""
    words = ["valgrind", "--tool=callgrind", "--callgrind-out-file=/dev/null", *command.words]
    ran = run_well(Command(words, command.stdin, command.home), statuses)
    found = COLLECTED.search(ran.stderr)
    if not found:
        raise BenchError(f"callgrind does not say what it collected: {ran.stderr[-200:]}")
    return int(found[1])


def instructions_per_step(program: str, job: bytes) -> float:
    """The instructions that a step takes, by the difference of two limits of steps."""
    words = [program, "run", *OPTIONS[2:], "--steps"]
    few, more = (
        collected(Command([*words, str(limit)], job), STOPPED) for limit in (FEW_STEPS, MORE_STEPS)
    )
    return (more - few) / (MORE_STEPS - FEW_STEPS)


def missing(*tools: str) -> list[str]:
    """Those of some tools that are not on the path."""
    return [tool for tool in tools if not shutil.which(tool)]


def assembled(source: str, name: str, folder: str) -> Command:
    """The command that runs a program for MIX, assembled in a folder; with --run, mixvm loads none."""
    text, binary = Path(folder, f"{name}.mixal"), Path(folder, f"{name}.mix")
    text.write_text(source)
    run_well(Command(["mixasm", "-o", str(binary), str(text)], home=folder))
    return Command(["mixvm", "-r", "-t", "--noinit", str(binary)], home=folder)


def mix_answer(printed: str) -> tuple[str, int]:
    """The line that a program for MIX prints, without leading zeros, and the units of time it took."""
    lines, found = printed.split("\n"), ELAPSED.search(printed)
    at = next((at for at, line in enumerate(lines) if line.startswith("Running")), None)
    if found is None or at is None:
        raise BenchError(f"mixvm says {printed[-200:]!r}")
    return lines[at + 1].strip().lstrip("0"), int(found[1])


def compiled(source: Path, folder: str, *others: Path, asserts: bool = True) -> str:
    """The program of a C source, compiled into a folder with other sources or archives, its asserts on or off."""
    target = str(Path(folder, source.stem if asserts else f"{source.stem}_without_asserts"))
    flags = ["-std=c11", "-O2", "-Wall", "-Wextra", "-D_POSIX_C_SOURCE=200809L", *([] if asserts else ["-DNDEBUG"])]
    run_well(Command(["cc", *flags, "-o", target, str(source), *map(str, others)]))
    return target


def described(program: str) -> str:
    """The version of the program, and the beginning of its sum."""
    total = hashlib.sha256(Path(program).read_bytes()).hexdigest()
    return f"{version_of(program)}, SHA-256 {total[:16]}..."


def version_of(tool: str) -> str:
    """The first line in which a tool says its version, if it does."""
    if missing(tool):
        return "not there"
    ran = run(Command([tool, "--version"]))
    lines = (ran.stdout + ran.stderr).split("\n")
    return "says no version" if lines[0].startswith("error") else lines[0]


def machine() -> str:
    """The processor, how many, the system, and what else is running."""
    try:
        text = Path("/proc/cpuinfo").read_text()
        model = re.search(r"model name\s*: (.*)", text)
    except OSError:
        model = None
    name = model[1] if model else os.uname().machine
    load = ", ".join(f"{value:.1f}" for value in os.getloadavg())
    return f"{name}, {os.cpu_count()} processors, {os.uname().sysname} {os.uname().release}; load {load}"
