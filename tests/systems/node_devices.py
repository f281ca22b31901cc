"""Trials of the program for Node with stand-ins for its devices: busy ones, a terminal, the console of Windows.

A script that Node loads before the program puts a function of its own in the place of readSync or writeSync, which
answers so many times as that device does, and then as the system's.
"""
from __future__ import annotations

import json
import os
import pty
import subprocess
import tempfile
from collections.abc import Iterator
from pathlib import Path

from answers import Answer, answer, answer_of
from trials import Trial

SECONDS = 60
STAND_IN = """
const files = require("fs");
const real = files.{call};
let left = {times};
files.{call} = (...given) => {{
  if (left-- > 0) throw Object.assign(new Error("{code}"), {{code: "{code}"}});
  return real(...given);
}};
require("module").syncBuiltinESMExports();
"""
DECK = b" (A,E,5)(A,PD)\n"
PRINTED = answer(b"5\n== DONE AFTER 6 STEPS\n")
KEYBOARD = b"l6: reading the job from the keyboard, up to Ctrl-D at the beginning of a line\n"
OF_WINDOWS = b"l6: reading the job from the keyboard, up to Ctrl-Z and Enter at the beginning of a line\n"
AS_WINDOWS = 'Object.defineProperty(process, "platform", {value: "win32"});\n'
ENDLESS = 1_000_000
# The right command line with the most words, and a trace without a finding.
LONGEST = "trace --any-place --levels 4 --units 3 --first 0 --piece 2 --json".split()
TRACE = b"get a 5 = 16\nend 1\n"
# The same for one stream, by its number, in each program: it is busy so many times, or takes and gives few bytes at a time.
OF_STREAM = """
const files = require("fs");
const [read, write] = [files.readSync, files.writeSync];
let left = {times};
const busy = () => {{ if (left-- > 0) throw Object.assign(new Error("{code}"), {{code: "{code}"}}); }};
files.readSync = (file, bytes, ...more) => {{
  if (file !== {stream}) return read(file, bytes, ...more);
  busy();
  return read(file, {few} ? bytes.subarray(0, {few}) : bytes, ...more);
}};
files.writeSync = (file, bytes, from = 0, ...more) => {{
  if (file !== {stream}) return write(file, bytes, from, ...more);
  busy();
  return write(file, bytes, from, {few} ? Math.min({few}, bytes.length - from) : bytes.length - from);
}};
process.on("exit", () => files.writeFileSync({note}, String(left)));
require("module").syncBuiltinESMExports();
"""
# Why a file can't be opened, by the system's word for it, in words of l6db.
REFUSED_FILES = {
    "ENOENT": "there is no such file", "EACCES": "it may not be read", "EPERM": "it may not be read", "EMFILE": "the system refuses it",
}
STREAMS = {  # what a device does: its number, how often it fails and how, and how many bytes it takes or gives at a time
    "a busy input": (0, 3, "EAGAIN", 0), "a busy output": (1, 3, "EAGAIN", 0), "an input of a byte at a time": (0, 0, "", 1),
    "an output of three bytes at a time": (1, 0, "", 3), "an input of many bytes at a time": (0, 0, "", 0),
}
FAILING = {  # and that of a device that fails: what the native program does where standard input is a folder, or output is full
    "an input that fails": (0, ENDLESS, "EIO", 0), "an output that fails": (1, ENDLESS, "ENOSPC", 0),
}
REQUESTS = ('{"jsonrpc":"2.0","id":1,"method":"initialize","params":{"capabilities":{}}}', '{"jsonrpc":"2.0","id":2,"method":"shutdown"}',
            '{"jsonrpc":"2.0","method":"exit"}')
TALK = "".join(f"Content-Length: {len(it)}\r\n\r\n{it}" for it in REQUESTS).encode()
NO_TEXT = {"l6": b"l6: a word is not UTF-8\n", "l6db": b"l6db: a word is not UTF-8\n", "l6ed": b"l6ed: a word is not UTF-8\n"}
LONGEST_SESSION = ["--store", "8", "--steps", "100", "--output", "100", "--echo", "--prompt", "> "]
SESSION = b"step 2\nprint A\nnext\nsave\n"


def stream_devices(program: Path, native: Path) -> Iterator[Trial]:
    """A job, a session or a talk over devices as a system has them: each answer is that of the native program."""
    with tempfile.TemporaryDirectory(prefix="l6-node-") as room:
        deck = Path(room, "first.deck")
        deck.write_bytes(DECK)
        asked = {"l6": (["run"], DECK), "l6db": ([str(deck)], SESSION), "l6ed": (["lsp"], TALK)}
        words, given = asked[native.name]
        expected = answer_of([native, *words], input=given)
        yield f"the native {native.name} answers", (True, 0), (len(expected.stdout) > 20, expected.status)
        for what, device in STREAMS.items():
            yield f"{what} of {program.name}", expected, over(program, words, given, device, Path(room))
        for what, device in FAILING.items():
            with open("/dev/full", "wb") as full:
                folder = os.open(room, os.O_RDONLY)
                failed = answer_of([native, *words], stdin=folder) if device[0] == 0 else answer_of([native, *words], input=given, stdout=full)
                os.close(folder)
            actual = over(program, words, given, device, Path(room))
            yield f"{what} of {program.name}", (failed.stderr, failed.status), (actual.stderr, actual.status)
        ends = (0, ENDLESS, "EOF", 0)  # as a console of Windows does
        yield f"an input of {program.name} that ends as a console of Windows", answer_of([native, *words], input=b""), over(
            program, words, b"", ends, Path(room))
        if native.name == "l6db":
            yield from refused_files(program, deck, Path(room))
            more = [*LONGEST_SESSION, "-x", str(deck), "--input", str(deck), str(deck)]
            yield f"the longest right command line of {program.name}", answer_of([native, *more], input=given), answer_of(
                ["node", program, *more], input=given, seconds=SECONDS, preexec_fn=None)
        said = answer_of(["node", program, b"\xff"], input=b"", seconds=SECONDS, preexec_fn=None)
        yield f"a word for {program.name} that is no text", answer(stderr=NO_TEXT[native.name], status=64), said
        for count in (14, 15, 16, 40):
            more = [*words, *["--input"] * count]
            yield f"{count} words too many for {program.name}", answer_of([native, *more], input=given), answer_of(
                ["node", program, *more], input=given, seconds=SECONDS, preexec_fn=None)


def refused_files(program: Path, deck: Path, room: Path) -> Iterator[Trial]:
    """A file of a job that the system doesn't open is said with the reason."""
    script = room / "open.cjs"
    for code, why in REFUSED_FILES.items():
        script.write_text(STAND_IN.format(call="openSync", code=code, times=ENDLESS), "ascii")
        said = f"l6db: the file of the job can't be opened: {deck}: {why}\n".encode()
        actual = answer_of(["node", "--require", script, program, deck], input=b"", seconds=SECONDS, preexec_fn=None)
        yield f"a file that {program.name} may not open: {code}", answer(stderr=said, status=4), actual


def over(program: Path, words: list[str], given: bytes, device: tuple[int, int, str, int], room: Path) -> Answer[bytes]:
    """What a program for Node answers over a device."""
    stream, times, code, few = device
    script, note = room / "device.cjs", room / "left"
    script.write_text(OF_STREAM.format(stream=stream, times=times, code=code, few=few, note=json.dumps(str(note))), "ascii")
    made = answer_of(["node", "--require", script, program, *words], input=given, seconds=SECONDS, preexec_fn=None)
    was_asked = note.is_file() and int(note.read_text("ascii")) < times
    return made if was_asked else answer(status="the device was not asked")


def node_devices(program: Path, native: Path) -> Iterator[Trial]:
    """All of these trials; the native program says what wrong words are answered by."""
    with tempfile.TemporaryDirectory(prefix="l6-node-") as room:
        yield from stand_ins(program, Path(room))
    yield from many_words(program, native)
    yield from terminals(program)
    yield on_windows(program)


def stand_ins(program: Path, room: Path) -> Iterator[Trial]:
    """A device that is busy is asked again; one that ends as a console of Windows does, ends; another fails."""
    def run(call: str, code: str, times: int) -> Answer[bytes]:
        script = room / f"{call}-{code}.cjs"
        script.write_text(STAND_IN.format(call=call, code=code, times=times))
        return answer_of(["node", "--require", script, program, "run"], input=DECK, seconds=SECONDS, preexec_fn=None)

    yield "a busy standard input in Node", PRINTED, run("readSync", "EAGAIN", 3)
    yield "a busy standard output in Node", PRINTED, run("writeSync", "EAGAIN", 3)
    nothing = answer(b"== DONE AFTER 2 STEPS\n")
    yield "a standard input that ends as a console of Windows", nothing, run("readSync", "EOF", ENDLESS)
    failed = answer(stderr=b"l6: read failed\n", status=5)
    yield "a standard input that fails in Node", failed, run("readSync", "EIO", ENDLESS)
    yield "a standard output that fails in Node", 5, run("writeSync", "EIO", ENDLESS).status


def many_words(program: Path, native: Path) -> Iterator[Trial]:
    """The words of the longest right command line, and more, are answered as the native program answers them."""
    for count in (14, 15, 16, 40):
        words = ["run", *["--steps"] * count]
        expected = answer_of([native, *words], input=DECK)
        actual = answer_of(["node", program, *words], input=DECK, seconds=SECONDS, preexec_fn=None)
        yield f"{count} words too many in Node", expected, actual
    expected = answer_of([native, *LONGEST], input=TRACE)
    actual = answer_of(["node", program, *LONGEST], input=TRACE, seconds=SECONDS, preexec_fn=None)
    yield "the longest right command line in Node", expected, actual
    yield "its last word in Node", b'{"findings":0,', actual.stdout[:14]


def terminals(program: Path) -> Iterator[Trial]:
    """What is read from a terminal is announced; what is written to one is not."""
    ours, theirs = pty.openpty()
    os.write(ours, DECK + b"\4\4")
    ran = subprocess.run(["node", program, "run"], stdin=theirs, capture_output=True, timeout=SECONDS)
    yield "a terminal as standard input of Node", (PRINTED.stdout, KEYBOARD), (ran.stdout, ran.stderr)
    ran = subprocess.run(["node", program, "run"], input=DECK, stdout=theirs, stderr=subprocess.PIPE, timeout=SECONDS)
    yield "a terminal as standard output of Node", (b"", 0), (ran.stderr, ran.returncode)
    ran = subprocess.run(["node", program, "nonsense"], stdin=theirs, capture_output=True, timeout=SECONDS)
    yield "wrong words at a terminal of Node", (False, 64), (KEYBOARD in ran.stderr, ran.returncode)
    ran = subprocess.run(["node", program, "help", "run"], stdin=theirs, capture_output=True, timeout=SECONDS)
    yield "help at a terminal of Node", (b"", 0), (ran.stderr, ran.returncode)
    os.close(ours)
    os.close(theirs)


def on_windows(program: Path) -> Trial:
    """The trial that on Windows the keys are named by which input ends at a console there."""
    ours, theirs = pty.openpty()
    os.write(ours, DECK + b"\4\4")
    with tempfile.TemporaryDirectory(prefix="l6-node-") as room:
        script = Path(room, "windows.cjs")
        script.write_text(AS_WINDOWS, "ascii")
        words = ["node", "--require", str(script), str(program), "run"]
        ran = subprocess.run(words, stdin=theirs, capture_output=True, timeout=SECONDS)
    os.close(ours)
    os.close(theirs)
    return "a console of Windows as standard input of Node", (PRINTED.stdout, OF_WINDOWS), (ran.stdout, ran.stderr)
