#!/usr/bin/env python3
"""Tests the programs for other systems: the static ones, and the one for Node.

ports.py [--quick] makes them again and compares them with those of dist/, byte for byte; runs the cases and
the examples on each; and tries devices that fail, refused memory, and the largest jobs. It tries the static
programs in a root that has the shell of busybox and no C library. On the static debuggers it plays sessions,
at a terminal and over pipes (l6db.py), and to the programs for editors it speaks as one (editors.py). It says what it skips where a tool is missing. With --quick only 500 jobs are run on each program, the static ones are not made again, which takes a
minute, and a program that was not made from the sources in the checkout is passed over.
It prints each difference, and last 'N passed, M failed'.
"""
from __future__ import annotations

import base64
import functools
import gzip
import hashlib
import json
import lzma
import os
import re
import resource
import shlex
import shutil
import stat
import subprocess
import sys
import tempfile
from collections.abc import Callable, Iterable, Iterator
from concurrent.futures import ThreadPoolExecutor
from dataclasses import dataclass
from pathlib import Path
from unittest import mock

sys.path[:0] = [str(Path(__file__).resolve().parents[1] / it) for it in ("harness", "program")]
import adapter
import answers
import editors
from answers import Answer, answer, answer_of
from c_hosts import c_hosts, wrong_hosts
from cases import read_cases
from l6db import words
from largest_jobs import MAX_OUTPUT, debug_job, longest_image, run_job
from node_devices import node_devices, stream_devices
from node_front import node_front
from node_lines import node_lines
from page_sessions import page_sessions
from program import cut_images, examples, failing_devices, helps, limited_files
from ran_lines import IN_NODE
from trials import Trial, few_pass, groups_asked_for, named, report, side_by_side
from typed_sessions import at_terminal, one_by_one

HERE = Path(__file__).resolve().parent
TOP = HERE.parents[1]
DIST, EXAMPLES = TOP / "dist", TOP / "examples"
FEW = 500  # jobs on each program, with --quick
AT_A_TIME = 4
LINES = "lines of Node"  # a group of trials
SECONDS = 120  # for one run
QEMU = "qemu-aarch64-static"
MAX_JOB = 1 << 24
FIRST = b" (A,E,5)(A,PD)\n"
PRINTED = answer(b"5\n== DONE AFTER 6 STEPS\n")
# What the scripts of a checkout need, besides dist/ and the sources that are summed.
CHECKOUT = ("l6", "l6db", "l6ed", "install", "terminal", "tools", "library", "docs/l6.1", "docs/l6db.1", "docs/l6ed.1", "completions", "editors",
            "examples", "dist", "licenses", "LICENSE-MIT", "LICENSE-APACHE", "THIRD-PARTY.md", "crates.txt", "HANDLES")


@dataclass(frozen=True)
class Job:
    """Words of the command line and an input, with the right answer."""

    name: str
    words: list[str]
    stdin: bytes
    expected: Answer[bytes]
    has_free_text: bool = False


@dataclass(frozen=True)
class Program:
    """A program of dist/, and how it is run here."""

    name: str
    runner: tuple[str, ...] = ()  # what runs it
    without_memory: tuple[str, ...] = ()  # further words of the runner, by which it has little memory
    room: int | None = None  # bytes of addresses that it then has

    @property
    def command(self) -> list[str]:
        """The words that run it."""
        return [*self.runner, str(DIST / self.name)]

    def answer(self, job: Job) -> Answer[bytes]:
        """What it answers to a job."""
        return answer_of([*self.command, *job.words], input=job.stdin, seconds=SECONDS, preexec_fn=None)


NODE, NODE_DEBUGGER, NODE_SERVER = "l6.mjs", "l6db.mjs", "l6ed.mjs"
DEBUGGERS = (Program("l6db-static"), Program("l6db-aarch64", (QEMU,)), Program(NODE_DEBUGGER, ("node",)))
SERVERS = (Program("l6ed-static"), Program("l6ed-aarch64", (QEMU,)), Program(NODE_SERVER, ("node",)))
SESSION_HOST = ("ports/session_host.c", "web/memory.h")
# The programs for Node: the host that the module of each has in it, and the scripts around it.
OF_NODE = {
    NODE: (("web/host.c", "web/memory.h"), ("ports/command.js",)),
    NODE_DEBUGGER: (SESSION_HOST, ("ports/session.js", "ports/engine.js")),
    NODE_SERVER: (SESSION_HOST, ("ports/server.js", "ports/engine.js")),
}
PROGRAMS = (
    Program("l6-static", room=8 << 20),
    Program("l6-aarch64", (QEMU,), ("-R", "0x2c00000")),
    Program(NODE, ("node",), ("--wasm-max-mem-pages=128",)),
)


def jobs() -> list[Job]:
    """All jobs with known answers: the examples, and the cases."""
    found = []
    for deck in sorted(EXAMPLES.glob("*.deck")):
        printout = deck.with_suffix(".printout").read_bytes()
        found.append(Job(f"the example {deck.stem}", ["run"], deck.read_bytes(), answer(printout)))
    for listing in sorted(EXAMPLES.glob("*.listing")):
        text, stdin = listing.read_bytes(), listing.with_suffix(".deck").read_bytes()
        found.append(Job(f"the listing of the example {listing.stem}", ["list"], stdin, answer(text)))
    for session in sorted(EXAMPLES.glob("*.session")):
        transcript = session.with_suffix(".transcript").read_bytes()
        found.append(Job(f"the session {session.stem}", ["debug"], session.read_bytes(), answer(transcript)))
    for case in read_cases():
        found.append(Job(case.name, case.args, case.stdin, case.expected, case.has_free_text))
    return found


def some(all_jobs: list[Job], count: int) -> list[Job]:
    """So many of the jobs, from all parts of the list."""
    return [all_jobs[place * len(all_jobs) // count] for place in range(min(count, len(all_jobs)))]


def known_answers(program: Program, asked: list[Job], is_quick: bool) -> Iterator[Trial]:
    """The trials on jobs with known answers."""
    if is_quick and program.runner == ("node",):
        answers: Iterable[Answer[bytes]] = answers_in_one_process(program, asked)
    else:
        with ThreadPoolExecutor(AT_A_TIME) as pool:
            answers = list(pool.map(program.answer, asked))
    for job, actual in zip(asked, answers, strict=True):
        expected = job.expected
        if job.has_free_text:
            expected = answer(expected.stdout, actual.stderr or b"(some text)", expected.status)
        yield job.name, expected, actual


def answers_in_one_process(program: Program, asked: list[Job]) -> Iterator[Answer[bytes]]:
    """What the program for Node answers to jobs, which one process does, one after another."""
    lines = [{"words": job.words, "input": base64.b64encode(job.stdin).decode()} for job in asked]
    ran = subprocess.run(
        ["node", HERE / "ports_in_node.mjs", DIST / program.name], stdout=subprocess.PIPE, text=True,
        input="".join(f"{json.dumps(line)}\n" for line in lines), timeout=5 * SECONDS,  # (for all jobs together)
        env={name: value for name, value in os.environ.items() if name != IN_NODE},  # (it has no address that is counted)
    )
    for line in ran.stdout.splitlines():
        found = json.loads(line)
        stdout, stderr = (base64.b64decode(found[which]) for which in ("output", "errors"))
        yield answer(stdout, stderr, found["status"])


def devices(program: Program) -> Iterator[Trial]:
    """The trials on a full device, a folder, a closed pipe, a bad word, and a job that never ends."""
    def run(*words: str | bytes, **options: object) -> Answer[bytes]:
        return answer_of([*program.command, *words], seconds=SECONDS, preexec_fn=None, **options)

    unwritten = answer(stderr=b"l6: write failed after 0 bytes\n", status=5)
    with open("/dev/full", "wb") as full:
        yield "a full device as output", unwritten, run("run", input=FIRST, stdout=full)
        actual = run("run", input=b" (A,Q,1)\n", stderr=full)
        yield "a bad deck with a full standard error", answer(status=4), actual
    folder = os.open(TOP, os.O_RDONLY)
    yield "a folder as input", answer(stderr=b"l6: read failed\n", status=5), run("run", stdin=folder)
    os.close(folder)
    source, sink = os.pipe()
    os.close(source)
    yield "a closed pipe as output", unwritten, run("run", input=FIRST, stdout=sink)
    os.close(sink)
    bad = answer(stderr=b"l6: a word is not UTF-8\n", status=64)
    yield "a word that is not UTF-8", bad, run("run", b"\xff", input=b"")
    too_long = answer(stderr=b"l6: job too long\n", status=4)
    yield "a job that is a byte too long", too_long, run("run", input=b"\n" * (MAX_JOB + 1))
    with subprocess.Popen(["yes"], stdout=subprocess.PIPE) as endless:
        yield "a job without an end", too_long, run("run", stdin=endless.stdout)
        endless.kill()
    expected = answer(stderr=b"l6: deck too long\n", status=4)
    yield "a job as long as may be", expected, run("run", input=b"\n" * MAX_JOB)
    yield "words without a job", PRINTED, run("run", input=FIRST, env={"PATH": os.environ["PATH"]})


def refused_memory(program: Program) -> Iterator[Trial]:
    """The trials that it does a small job in little memory, and says so if a job needs more."""
    def leave_room() -> None:
        if program.room:
            resource.setrlimit(resource.RLIMIT_AS, (program.room, program.room))

    command = [*program.runner, *program.without_memory, str(DIST / program.name), "run"]
    yield "little memory", PRINTED, answer_of(command, input=FIRST, preexec_fn=leave_room)
    expected = answer(stderr=b"l6: out of memory\n", status=5)
    largest_output = [*command, "--output", str(MAX_OUTPUT)]
    if program.room:
        actual = answer_of(largest_output, input=FIRST, preexec_fn=leave_room)
        yield "memory refused to a run", expected, actual
    command = [*largest_output[:-3], "load", "--store", "255", *largest_output[-2:]]
    image = longest_image()[1]
    yield "memory refused to an image", expected, answer_of(command, input=image, preexec_fn=leave_room)


def as_the_native_one(program: Program) -> Iterator[Trial]:
    """The trials of program.py on images, help and files of limited length, if nothing else has to run it."""
    if program.runner:
        return
    path = str(DIST / program.name)
    yield from examples(path)
    yield from cut_images(path)
    yield from failing_devices(path)
    with tempfile.TemporaryDirectory() as folder:
        yield from helps(path, folder)
        yield from limited_files(path, folder)


def largest(program: Program) -> Iterator[Trial]:
    """The trials on the largest jobs."""
    deck, image, printout = longest_image()
    for words, stdin, stdout, status in (
        (*run_job(), 2), (*debug_job(), 0), (["asm"], deck, image, 0), (["load"], image, printout, 0),
    ):
        job = Job("", words, stdin, answer(stdout, status=status))
        yield f"the largest job of {words[0]}", job.expected, program.answer(job)


def hosts() -> Iterator[Trial]:
    """The trials that each program was made with the host that is here: a host that was changed is found at once."""
    for program in (*PROGRAMS, *DEBUGGERS, *SERVERS):
        name = program.name
        hosts, scripts = OF_NODE.get(name, (("ports/host.c",), ()))
        yield f"{name} has the {hosts[0]} that is here", [sum_of(*hosts)], noted(name, "host")
        if scripts:
            yield f"{name} has the {' and '.join(scripts)} that are here", [sum_of(*scripts)], noted(name, "command")


def modules() -> Iterator[Trial]:
    """The trials that dist/ has the module of each program: the one that the program for another processor was made of."""
    for name in ("l6", "l6db", "l6ed"):
        total = whole_sum(DIST / f"{name}.bc.xz")
        yield f"{name}-aarch64 was made of the module that is here", [total], noted(f"{name}-aarch64", "module")


def noted(name: str, what: str) -> list[str]:
    """The sums of what a program of dist/ was made of, of one kind."""
    lines = (DIST / f"{name}.provenance").read_text("utf-8").splitlines()
    return [line.partition(" ")[2] for line in lines if line.partition(" ")[0] == what]


def sum_of(*files: str) -> str:
    """The sum of what files of the repository hold, one after another."""
    return hashlib.sha256(b"".join((TOP / file).read_bytes() for file in files)).hexdigest()


def belongs(name: str) -> bool:
    """Whether a program of dist/ was made from the sources in the checkout."""
    script = 'top=$1; . "$top/tools/program.sh"; belongs "$top/dist/$2"'
    return subprocess.run(["sh", "-c", script, "sh", TOP, name]).returncode == 0


def programs(is_quick: bool, all_programs: tuple[Program, ...] = PROGRAMS) -> Iterator[Program]:
    """The programs that can be tried here; it is said which are not."""
    for program in all_programs:
        missing = [it for it in program.runner if not shutil.which(it)]
        if not missing and program.name.endswith("-static") and os.uname().machine != "x86_64":
            missing = ["a processor for it"]
        if missing:
            print(f"skipped: {program.name}: {missing[0]} is missing")
        elif is_quick and not belongs(program.name):
            print(f"skipped: dist/{program.name}: it was not made from the sources in this checkout")
        else:
            yield program


def made_again(is_quick: bool) -> Iterator[Trial]:
    """The trials that the programs and what is said of them are those that are made here."""
    with tempfile.TemporaryDirectory(prefix="l6-ports-") as room:
        made = Path(room)
        calls: list[list[str | Path]] = [[TOP / "ports/bundle", DIST / "l6.html", made / "l6.mjs"]]
        for name in (NODE_DEBUGGER, NODE_SERVER):
            calls.append([TOP / "ports/bundle", "--module", module_of(DIST / name, made), made / name])
        if is_quick:
            print("skipped: the static programs made again: as was asked")
        elif why := unlike_here():
            print(f"skipped: the static programs made again: {why}")
        else:
            names = ("l6db", "l6ed")
            for call, name in zip(calls[1:], names, strict=True):
                call[2] = TOP / f"web/out/{name}.wasm"
            calls[1:1] = [[TOP / "web/build", DIST / name] for name in names]
            calls += [[TOP / "ports/build", DIST / name, made] for name in ("l6", *names)]
        for words in calls:
            ran = subprocess.run(words, capture_output=True, text=True)
            what = f"{Path(words[0]).relative_to(TOP)} of {Path(words[1]).name} ends well"
            yield what, (0, ""), (ran.returncode, ran.stderr)
        for program in sorted(made.glob("l6*")):
            kept = DIST / program.name
            if program.suffix != ".made_of":
                yield f"{program.name} made again", whole_sum(kept), whole_sum(program)
            if program.suffix not in (".made_of", ".xz"):
                lines = program.with_name(f"{program.name}.made_of").read_text("utf-8")
                named = kept.with_name(f"{program.name}.provenance").read_text("utf-8")
                yield f"what {program.name} was made of", lines, "".join(named.splitlines(keepends=True)[1:-2])
    if not is_quick:
        for name in ("l6", "l6db", "l6ed", *(program.name for program in (*PROGRAMS, *DEBUGGERS, *SERVERS))):
            yield f"{name} belongs to the sources", True, belongs(name)


def whole_sum(file: Path) -> str:
    """The sum of what a file holds, unpacked."""
    return hashlib.sha256(lzma.open(file).read() if file.suffix == ".xz" else file.read_bytes()).hexdigest()


def module_of(program: Path, folder: Path) -> Path:
    """A file with the module that a program for Node has."""
    packed = re.search(r"const MODULE = `([^`]*)`", program.read_text("utf-8"))
    file = folder / f"of_{program.stem}.wasm"
    file.write_bytes(gzip.decompress(base64.b64decode(packed[1])) if packed else b"")
    return file


def unlike_here() -> str:
    """Why the static programs can't be made again here; nothing if they can be."""
    if not shutil.which("rt"):
        return "rt is missing"
    forms = (("static", "x86_64", "amd64"), ("aarch64", "aarch64", "arm64"))
    for name, processor, debian in ((f"{name}-{form}", *rest) for name in ("l6", "l6db", "l6ed") for form, *rest in forms):
        library = Path(f"/usr/lib/{processor}-linux-musl/libc.a")
        if not library.is_file():
            return f"Debian's musl-dev:{debian} is missing"
        ran = subprocess.run(["sha256sum", library], capture_output=True, text=True, check=True)
        if ran.stdout.split()[0] not in (DIST / f"{name}.provenance").read_text("utf-8"):
            return f"the musl of {debian} is another one than that of dist/{name}"
    return ""


def copy_checkout(target: Path) -> None:
    """Makes a copy of what of the checkout its scripts need."""
    for name in CHECKOUT:
        (target / name).parent.mkdir(parents=True, exist_ok=True)
        if (TOP / name).is_dir():
            shutil.copytree(TOP / name, target / name, ignore=shutil.ignore_patterns("__pycache__", "out"))
        else:
            shutil.copy(TOP / name, target / name)
    for part in ("src", "specs", "proofs"):
        for folder in (TOP / "crates").glob(f"*/{part}"):
            shutil.copytree(folder, target / folder.relative_to(TOP))


def small_root() -> Iterator[Trial]:
    """The trials in a root that has busybox and a checkout, and no C library, as a small Linux has."""
    busybox = shutil.which("busybox")
    with tempfile.TemporaryDirectory(prefix="l6-root-") as room:
        root = Path(room)
        (root / "bin").mkdir()
        (root / "dev").mkdir()
        enter = [shutil.which("chroot", path="/usr/sbin:/sbin") or "chroot", room]
        if busybox and os.geteuid() == 0:
            os.mknod(root / "dev/null", 0o666 | stat.S_IFCHR, os.makedev(1, 3))
            shutil.copy(busybox, root / "bin/busybox")
            listed = subprocess.run([busybox, "--list"], capture_output=True, text=True, check=True).stdout
            for name in set(listed.split()) - {"busybox"}:
                (root / "bin" / name).symlink_to("busybox")
        if subprocess.run([*enter, "/bin/true"], capture_output=True).returncode:
            print("skipped: a root without a C library: a static busybox is missing, or this is not root")
            return
        place = "/home/Jürgen Müller/l6 (a copy)"
        copy_checkout(root / place[1:])

        def run(command: str, **options: object) -> Answer[bytes]:
            words = ["/bin/sh", "-c", f"cd {shlex.quote(place)} && {command}"]
            return answer_of([*enter, *words], preexec_fn=None, seconds=SECONDS, **options)

        yield from first_commands(run)


def first_commands(run: Callable[..., Answer[bytes]]) -> Iterator[Trial]:
    """The trials of the first commands of somebody on a small Linux."""
    started = run("dist/l6 --version")
    yield "dist/l6 does not start without its C library", True, started.status in (126, 127)
    yield "the first command", PRINTED, run("./l6 run < examples/first.deck")
    said = run("./l6 --version")
    yield "the version", (64, True), (said.status, b"\nmusl " in said.stderr)
    yield "with an empty environment", PRINTED, run("env -i ./l6 run < examples/first.deck")
    yield "a second time", PRINTED, run("HOME=/home ./l6 run < examples/first.deck")
    command = "./install /usr && l6 run < /usr/share/doc/l6/examples/first.deck"
    actual = run(command, env={"PATH": "/bin:/usr/bin"})
    yield "an installation", (0, True), (actual.status, actual.stdout.endswith(PRINTED.stdout))
    yield "its removal", 0, run("./install --uninstall /usr && test ! -e /usr/bin/l6").status
    changed = "crates/l6/src/job.rt"
    actual = run(f"echo >> {changed} && ./l6 run < examples/first.deck")
    names = f"l6:   {changed} has changed\nl6: dist/l6-static itself runs as it is".encode()
    yield "a changed source is named", (1, True), (actual.status, names in actual.stderr)
    yield "a program that is run by itself", PRINTED, run("dist/l6-static run < examples/first.deck")


def sessions(debugger: Program) -> Iterator[Trial]:
    """The trials on sessions of a debugger, at a terminal and over pipes."""
    with tempfile.TemporaryDirectory(prefix="l6-sessions-") as room:
        folder, caller = Path(room), Path(room, "l6db")
        command = " ".join(shlex.quote(word) for word in debugger.command)
        # (at a terminal the one for Node has a front end, which has trials of its own)
        caller.write_text(f'#!/bin/sh\nexec env L6DB_PLAIN=1 {command} "$@"\n', "utf-8")
        caller.chmod(0o755)
        # (what runs a program of another processor needs more addresses than the program)
        room_left = resource.RLIM_INFINITY if debugger.runner else answers.ROOM
        with mock.patch.object(answers, "ROOM", room_left):
            for group in (at_terminal, one_by_one, words, page_sessions):
                yield from group(str(caller), folder)
        if debugger.name == NODE_DEBUGGER:
            yield from node_front(debugger.command, folder)


def talks(server: Program) -> Iterator[Trial]:
    """The trials on talks of an editor with a program for editors: requests, documents, the protocols and a run."""
    program = server.command
    peer = editors.started(program)
    yield from editors.row_trials(peer)
    yield from editors.document_trials(peer)
    yield "the end of the input", 1, peer.end()
    yield from editors.protocol_trials(program)
    # (what runs a program of another processor needs more addresses than the program)
    with mock.patch.object(answers, "ROOM", resource.RLIM_INFINITY if server.runner else answers.ROOM):
        yield from editors.word_trials(program)
        yield "a word that is not UTF-8", 64, answer_of([*program, b"\xff"], input=b"").status
    with tempfile.TemporaryDirectory(prefix="l6-talks-") as room:
        for trials in (adapter.freed_twice, adapter.variables, adapter.launches, adapter.restarts):
            yield from trials(program, Path(room))


def program_trials(program: Program, is_quick: bool) -> Iterator[Trial]:
    """The trials on a program."""
    yield from known_answers(program, some(jobs(), FEW) if is_quick else jobs(), is_quick)
    for group in [devices, refused_memory, as_the_native_one, *([] if is_quick else [largest])]:
        yield from group(program)


def trials(is_quick: bool) -> Iterator[Trial]:
    """All trials, each with the name of its group. Meanwhile Node writes to a folder what it runs."""
    with tempfile.TemporaryDirectory(prefix="l6-node-lines-") as room, mock.patch.dict(os.environ, {IN_NODE: room}):
        groups: dict[str, Callable[[], Iterator[Trial]]] = {
            "made again": lambda: made_again(is_quick), "hosts": hosts, "modules": modules, "hosts in C": c_hosts,
            **{it.name: functools.partial(sessions, it) for it in DEBUGGERS},
            **{it.name: functools.partial(talks, it) for it in SERVERS},
            "small root": small_root,
            **{it.name: functools.partial(program_trials, it, is_quick) for it in PROGRAMS},
            "devices of Node": lambda: node_devices(DIST / NODE, DIST / "l6"),
            **{f"streams of {it}": functools.partial(stream_devices, DIST / it, DIST / Path(it).stem) for it in OF_NODE},
            LINES: lambda: node_lines(Path(room), {DIST / it: tuple(TOP / script for script in OF_NODE[it][1]) for it in OF_NODE}),
        }
        yield from asked_of(groups, is_quick)


def asked_of(groups: dict[str, Callable[[], Iterator[Trial]]], is_quick: bool) -> Iterator[Trial]:
    """The trials of the groups that are asked for, and whose programs can be tried here."""
    every = (*DEBUGGERS, *SERVERS, *PROGRAMS)
    needs = {it.name: it.name for it in every} | {"devices of Node": NODE, LINES: NODE}
    needs |= {f"streams of {it}": it for it in OF_NODE}
    asked = groups_asked_for(groups)
    needed = {needs[group] for group in asked & needs.keys()}
    tried = {it.name for it in programs(is_quick, tuple(it for it in every if it.name in needed))}
    chosen = {it: groups[it] for it in groups if it in asked and needs.get(it) in {*tried, None}}
    last = chosen.pop(LINES, None)  # (it looks at what the others have run)
    yield from side_by_side(chosen, AT_A_TIME)
    if last:
        yield from named(LINES, last())


def canaries() -> Iterator[Trial]:
    """On a program that answers wrong, groups see it; and a file without a provenance belongs to no sources."""
    wrong = Program("README.md", ("sh", "-c", "echo wrong; exit 77"))
    for group in (devices, refused_memory, largest):
        yield few_pass(f"{group.__name__} on a wrong program", 0, group(wrong))
    yield few_pass("known answers on a wrong program", 0, known_answers(wrong, some(jobs(), 3), is_quick=False))
    asked = [Job("another answer", ["run"], FIRST, it) for it in (
        answer(b"6\n== DONE AFTER 6 STEPS\n"), answer(PRINTED.stdout, b"more\n"), answer(PRINTED.stdout, status=1))]
    asked.append(Job("a text that is none", ["run"], FIRST, PRINTED, has_free_text=True))
    yield few_pass("other answers than those of the program", 0, known_answers(Program("l6"), asked, is_quick=False))
    if shutil.which("node"):
        yield few_pass("other answers than those of Node", 0, known_answers(PROGRAMS[-1], asked, is_quick=True))
        # (of wrong words all programs say so, and the native one answers well)
        yield few_pass("devices of another program", 1, node_devices(DIST / NODE_SERVER, DIST / "l6"))
        yield few_pass("streams of another program", 1, stream_devices(DIST / NODE_DEBUGGER, DIST / "l6"))
    yield "some jobs, the first ones alone", jobs()[:4], some(jobs(), 4)
    yield "a file that belongs to the sources", True, belongs("README.md")
    yield "the sum of another file", sum_of("web/host.c"), sum_of("web/memory.h")
    yield from wrong_hosts()


if __name__ == "__main__":
    if sys.argv[1:] not in ([], ["--quick"]):
        sys.exit(__doc__)
    sys.exit(report(trials(sys.argv[1:] == ["--quick"]), canaries()))
