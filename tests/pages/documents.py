#!/usr/bin/env python3
"""Runs the examples of README.md, docs/*.md, the manual page and the program's help.

documents.py PROGRAM prints each difference, and last 'N passed, M failed'. What is shown must be the actual answer.

A page is read from its top, in a folder of its own, which has copies of examples/ and tools/ and a command
./l6 that runs the program. The info string of a fenced block and the line before it say what the block is:

    sh      commands; each must end with status 0, but the last may have another if its printout follows
    text    what the last example prints, if the line before ends in "prints:" or "writes:";
            what it says on standard error, if that line ends in "says:";
            a piece of a debugger's session with the last deck, if its first line is a command: lines with
            small letters are commands, and the others are their answers;
            else a job, which is an example itself
    figure  a drawing, a form or a table, which nothing runs
    rust    a part of the source that the paragraph before names; so are c, python and antt

The last example is the commands or the job that were shown last. A job is debugged if it has a line
$COMMANDS, and run if it has none; after a line that names a verb, as `./l6 list` prints:, it is listed.
The line before a session may name `./l6 debug` with options. A job must be followed by what it prints or
says, or by a session. Commands find the last job in my.deck, and the last session in my.session.

A line <!-- not run: WHY --> before a block excuses it. <!-- deck: examples/NAME.deck --> before a
session says which deck it debugs, if that is not the last one. <!-- bytes: → 09, ■ 80 --> says which
characters of a job mean which bytes. A block that is none of this has failed, so none is forgotten.

Sentences are checked, too. In a paragraph or a point of a list,

    `./l6 run < examples/first.deck`    a command in a code span is run
    `(A,PO)` in place of `(A,PD)`       the last job is run so
    Without `(FREE,DO)`                 the last job is run without it

and then each code span that is a number, or begins with == or l6:, must be a line that is printed, and
"exit status is N" must be true. A link to a file must lead to one, and after a # to a heading of it.

In docs/l6.1 a line of an example that begins with "$ " is a command, and the lines below it are its printout.
In the help of the program and of each verb the lines under "Examples:" are commands that end with status 0.
"""
from __future__ import annotations

import os
import re
import shutil
import subprocess
import sys
import tempfile
from collections.abc import Iterator
from dataclasses import dataclass, field
from pathlib import Path

sys.path.insert(0, str(Path(__file__).resolve().parents[1] / "harness"))
from answers import Answer
from trials import Trial, few_pass, report

TOP = Path(__file__).resolve().parents[2]
DOCS = TOP / "docs"
SECONDS = 20  # for one command
FENCE = re.compile(r"^( *)```(\S*)$")
COMMAND = re.compile(r"[a-z]+( \d+)?")  # of the debugger
NOT_RUN = re.compile(r"<!-- not run: .+ -->")
DECK = re.compile(r"<!-- deck: (\S+) -->")
BYTES = re.compile(r"<!-- bytes: (.+) -->")
VERB = re.compile(r"`\./l6 ([^`<]+)` (?:prints|says|writes)")
SPAN = re.compile(r"`([^`]+)`")
TRIAL = re.compile(r"`([^`]+)` in place of `([^`]+)`|\bWithout `(\([^`]+)`")
DEBUG = re.compile(r"`(\./l6 debug[^`<]*)`")
VERBS = ("", "asm", "list", "run", "load", "renew", "debug", "trace")
LINK = re.compile(r"\]\((?!https?:)([^)#]*)(?:#([^)]*))?\)")
SOURCE = re.compile(r"`((?:crates|library|examples|tests)/[^`]+\.(?:rt|antt|c|rs|py))`")
STATUS = re.compile(r"exit status (?:is )?(\d+)")


@dataclass
class Block:
    """A fenced block, or a paragraph if its kind is empty."""

    line: int  # of the page, counted from 1
    kind: str  # the info string
    text: str
    lead: str = ""  # the paragraph before it
    comments: list[str] = field(default_factory=list)  # before it


def fenced(lines: list[str], start: int, opening: re.Match[str]) -> tuple[str, str, int]:
    """The info string and the text of the block that begins on a line, and the line after it."""
    indent, kind = opening.groups()
    end = lines.index(f"{indent}```", start + 1)
    text = "".join(line.removeprefix(indent) + "\n" for line in lines[start + 1:end])
    return kind or "none", text, end + 1


def blocks_of(page: str) -> Iterator[Block]:
    """The fenced blocks and the paragraphs of a page; a point of a list is a paragraph, too."""
    lines = [*page.split("\n"), ""]
    paragraph: list[str] = []
    lead, at = "", 0
    comments: list[str] = []
    while at < len(lines):
        line = lines[at]
        fence = FENCE.fullmatch(line)
        if paragraph and (fence or not line.strip() or re.match(r"\s*(- |\d+\. |\||<!--)", line)):
            lead = " ".join(paragraph)
            yield Block(at + 1 - len(paragraph), "", lead)
            paragraph = []
        if fence:
            start = at + 1
            kind, text, at = fenced(lines, at, fence)
            yield Block(start, kind, text, lead, comments)
            lead, comments = "", []
            continue
        if line.startswith("<!--"):
            comments.append(line)
        elif line.strip():
            paragraph.append(line.strip())
            comments = []
        at += 1


class Page:
    """A page that is read, in a folder of its own."""

    def __init__(self, name: str, folder: str, program: str) -> None:
        self.name = name
        self.folder = Path(folder)
        self.trials: list[Trial] = []
        self.job: bytes | None = None  # the last job
        self.deck: bytes | None = None  # the last job that has no commands
        self.session: Block | None = None  # what the page shows of a session so far
        self.answer: Answer[str] | None = None  # of the last example
        self.owing: Block | None = None  # the example of which no answer is shown yet
        for copied in ("examples", "tools"):
            shutil.copytree(TOP / copied, self.folder / copied)
        script = self.folder / "l6"
        script.write_text(f'#!/bin/sh\nexec "{program}" "$@"\n')
        script.chmod(0o755)

    def compare(self, block: Block, expected: object, actual: object, what: str) -> None:
        """Notes a trial."""
        self.trials.append((f"{self.name}:{block.line}: {what}", expected, actual))

    def judge(self, block: Block, fault: str) -> None:
        """Notes the trial that a block has no fault."""
        self.compare(block, "", fault, "a block")

    def run(self, command: str, job: bytes = b"") -> Answer[str]:
        """The answer of a command of the shell, to which a job is given."""
        path = f"{self.folder}:{os.environ['PATH']}"
        ended = subprocess.run(
            ["sh", "-c", command], input=job, capture_output=True, timeout=SECONDS, cwd=self.folder,
            env={**os.environ, "PATH": path},
        )
        return Answer(ended.stdout.decode("utf-8"), ended.stderr.decode("utf-8"), ended.returncode)

    def settle(self) -> None:
        """At an example or the page's end: what was shown before must have had its answer."""
        if self.session:
            self.settle_session(self.session)
        elif self.owing and self.owing.kind == "text":
            self.judge(self.owing, "a job that shows no answer, and is not excused")
        elif self.owing and self.answer and self.answer.status:
            self.judge(self.owing, f"the status is {self.answer.status}: {self.answer.stderr}")
        elif self.owing:
            self.judge(self.owing, "")
        self.owing = self.session = None

    def settle_session(self, session: Block) -> None:
        """Obeys the commands of a session, and compares all of its answers."""
        lines = session.text.splitlines(keepends=True)
        commands = [line for line in lines if re.search("[a-z]", line)]
        answers = "".join(line for line in lines if line not in commands)
        deck, separator, characters = (self.deck or b"").partition(b"$INPUT\n")
        job = deck + b"$COMMANDS\n" + "".join(commands).encode("ascii") + separator + characters
        (self.folder / "my.session").write_bytes(job)
        command = DEBUG.search(session.lead)
        actual = self.run(command[1] if command else "./l6 debug", job)
        self.compare(session, answers, actual.stdout, "the answers of the session")

    def read(self, block: Block) -> None:
        """Reads a block or a paragraph."""
        if block.kind == "figure" or any(map(NOT_RUN.fullmatch, block.comments)):
            return
        if block.kind == "":
            self.read_paragraph(block)
        elif block.kind == "sh":
            self.read_commands(block)
        elif block.kind == "text":
            self.read_text(block)
        elif block.kind in ("rust", "c", "python", "antt"):
            self.read_source(block)
        else:
            self.judge(block, "a block that is neither run nor excused")

    def read_commands(self, block: Block) -> None:
        """Runs commands, each by itself."""
        self.settle()
        answers = [self.run(line) for line in block.text.splitlines()]
        for answer in answers[:-1]:
            self.compare(block, 0, answer.status, f"the status; {answer.stderr}")
        stdout, stderr = ("".join(texts) for texts in zip(*((it.stdout, it.stderr) for it in answers)))
        self.answer = Answer(stdout, stderr, answers[-1].status)
        self.job, self.owing = None, block

    def read_text(self, block: Block) -> None:
        """Reads a job, or what is shown of its answer."""
        first = block.text.partition("\n")[0]
        for comment in filter(None, map(DECK.fullmatch, block.comments)):
            self.settle()
            self.deck = (self.folder / comment[1]).read_bytes()
        if re.search(r"\b(prints|writes):$", block.lead):
            self.compare_part(block, "stdout", "what is printed")
        elif block.lead.endswith(" says:"):
            self.compare_part(block, "stderr", "what is said on standard error")
        elif COMMAND.fullmatch(first) and self.deck is not None:
            self.owing = None
            self.session = self.session or Block(block.line, "text", "", block.lead)
            self.session.text += block.text
        else:
            self.settle()
            self.job = job_of(block)
            self.answer = self.run("./l6 debug" if b"$COMMANDS\n" in self.job else "./l6 run", self.job)
            if b"$COMMANDS\n" not in self.job:
                self.deck = self.job
            (self.folder / "my.deck").write_bytes(self.job)
            self.owing = block

    def read_source(self, block: Block) -> None:
        """Compares what a page shows of a source with that source."""
        file = SOURCE.search(block.lead)
        source = (TOP / file[1]).read_text("utf-8") if file and (TOP / file[1]).exists() else ""
        self.compare(block, block.text, block.text if block.text in source else source, "a part of a source")

    def compare_part(self, block: Block, part: str, what: str) -> None:
        """Compares what a page shows with an answer of the last example."""
        verb = VERB.search(block.lead)
        if verb and self.job is not None:
            self.answer = self.run(f"./l6 {verb[1]}", self.job)
        if self.answer is None:
            self.judge(block, f"{what}, but of which example?")
            return
        self.compare(block, block.text, getattr(self.answer, part), what)
        self.compare_status(block, block.lead, self.answer)
        self.owing = None

    def compare_status(self, block: Block, sentence: str, answer: Answer[str]) -> None:
        """Compares the exit status, if a sentence says one."""
        status = STATUS.search(sentence)
        if status:
            self.compare(block, int(status[1]), answer.status, "the exit status")

    def read_links(self, block: Block) -> None:
        """Checks that the links of a paragraph lead somewhere."""
        for path, heading in LINK.findall(block.text):
            file = (TOP / self.name).parent / path if path else TOP / self.name
            is_there = file.exists() and (not heading or heading in headings_of(file))
            self.compare(block, "a place", "a place" if is_there else "none", f"the link to {path}#{heading}")

    def read_paragraph(self, block: Block) -> None:
        """Does what the sentences of a paragraph say of examples."""
        self.read_links(block)
        answers = [self.run(span) for span in SPAN.findall(block.text)
                   if span.startswith("./l6 ") and "<" in span]
        for new, old, gone in TRIAL.findall(block.text):
            old = (old or gone).encode("ascii")
            if self.deck is None or self.deck.count(old) != 1:
                self.judge(block, f"{old!r} is not in the deck above, or not once")
                continue
            answers.append(self.run("./l6 run", self.deck.replace(old, new.encode("ascii"))))
        if not answers:
            return
        lines = [line for it in answers for line in (it.stdout + it.stderr).splitlines()]
        for span in SPAN.findall(block.text):
            if re.fullmatch(r"\d+|== .*|l6: .*", span):
                self.compare(block, span, span if span in lines else lines, "a line that is said to be printed")
        if STATUS.search(block.text):
            self.compare_status(block, block.text, answers[-1])
        elif any(it.status == 64 or it.stderr.startswith("sh:") for it in answers):
            self.judge(block, f"wrong words: {[it.stderr for it in answers]}")
        else:
            self.judge(block, "")


def headings_of(file: Path) -> list[str]:
    """What follows the # in a link to each heading of a page."""
    text = re.sub(r"^```.*?^```$", "", file.read_text("utf-8"), flags=re.DOTALL | re.MULTILINE)
    headings = re.findall(r"^#+ (.*)$", text, re.MULTILINE)
    return [re.sub(r"[^\w\- ]", "", heading.lower()).replace(" ", "-") for heading in headings]


def job_of(block: Block) -> bytes:
    """The bytes of a job; a comment before it may say how characters are to be read."""
    job = block.text.encode("utf-8")
    for comment in filter(None, map(BYTES.fullmatch, block.comments)):
        for pair in comment[1].split(", "):
            shown, code = pair.split()
            job = job.replace(shown.encode("utf-8"), bytes.fromhex(code))
    return job


def read_page(page: Page) -> None:
    """Reads a page of text."""
    for block in blocks_of((TOP / page.name).read_text("utf-8")):
        page.read(block)
    page.settle()


def read_manual(page: Page) -> None:
    """Runs the examples of the manual page."""
    source = (TOP / page.name).read_text("ascii").replace(r"\e", "\\")
    for found in re.finditer(r"^\.Bd -literal.*?\n(.*?)^\.Ed$", source, re.DOTALL | re.MULTILINE):
        line = source.count("\n", 0, found.start()) + 1
        for command, printout in re.findall(r"^\$ (.*)\n((?:(?!\$ ).*\n)*)", found[1], re.MULTILINE):
            page.compare(Block(line, "", ""), printout, page.run(command).stdout, f"what {command!r} prints")


def read_help(page: Page) -> None:
    """Runs the examples of the help of each verb."""
    for verb in VERBS:
        text = page.run(f"l6 {verb} --help").stderr
        for example in re.findall(r"^Examples?:\n((?: +.*\n)+)", text, re.MULTILINE):
            for command in example.splitlines():
                answer = page.run(command.strip())
                page.compare(Block(0, "", ""), 0, answer.status, f"the status of {command!r}; {answer.stderr}")


# A page on which nothing is right: each line of it that is tried must fail.
BAD_PAGE = """\
This deck prints 5.

```text
 (A,E,5)(A,PD)
```

It prints:

```text
6
== DONE AFTER 6 STEPS
```

`./l6 run --store 0 < examples/first.deck` prints `5`, and its exit status is 0.

`./l6 run < examples/first.deck` prints `6`, and its exit status is 3.

```sh
./l6 run my.deck
```

It says:

```text
another fault
```

With `(A,PO)` in place of `(A,PD)` it prints `7`.

```rust
fn is_nowhere() {}
```

```other
what nothing runs
```

```text
 (A,PD)
$COMMANDS
step 1
```

```text
 (A,E,5)(A,PD)
```

It prints:

```text
5
== DONE AFTER 6 STEPS
```

```text
step 1
AT 0.7 AFTER 1 STEPS
show
```

[A heading](README.md#is-not-there), [a file](is-not-there.md), ![a picture](is-not-there.svg).
"""
BAD_TRIALS = 14  # of that page


def canaries(program: str) -> Iterator[Trial]:
    """What is tried of a page on which nothing is right. None of it may pass, and nothing may be left out."""
    with tempfile.TemporaryDirectory() as folder:
        page = Page("README.md", folder, program)
        for block in blocks_of(BAD_PAGE):
            page.read(block)
        page.settle()
    wrong = [trial for trial in page.trials if trial[1] != trial[2]]
    yield from wrong
    # (a canary must fail)
    yield f"a bad page has {len(wrong)} trials that fail, and must have {BAD_TRIALS}", len(wrong) != BAD_TRIALS, True
    with tempfile.TemporaryDirectory() as folder:
        wrong_help = Path(folder, "wrong")
        wrong_help.write_text("#!/bin/sh\nprintf 'Examples:\\n  exit 3\\n' >&2\n")
        wrong_help.chmod(0o755)
        page = Page("a help whose examples fail", str(Path(folder, "page")), str(wrong_help))
        read_help(page)
    yield few_pass("a help whose examples fail", 0, page.trials)
    yield "how many examples of it there are", len(page.trials) != len(VERBS), True


def trials(program: str) -> Iterator[Trial]:
    """The trials on all that is shown."""
    names = ["README.md", *sorted(f"docs/{file.name}" for file in DOCS.glob("*.md"))]
    pages = {name: read_page for name in names}
    for name, read in {**pages, "docs/l6.1": read_manual, "l6 --help": read_help}.items():
        with tempfile.TemporaryDirectory() as folder:
            page = Page(name, folder, program)
            read(page)
        yield from page.trials


if __name__ == "__main__":
    if len(sys.argv) != 2:
        sys.exit(__doc__)
    named = str(Path(sys.argv[1]).resolve())
    sys.exit(report(trials(named), canaries(named)))
