"""What a batch of l6db answers by its status, a prompt that is given, and sessions that are saved.

Used by l6db.py.
"""
from __future__ import annotations

from collections.abc import Iterator
from pathlib import Path

from answers import answer_of
from trials import Trial


def prompts(program: str, deck: Path) -> Iterator[Trial]:
    """A prompt that is given is shown over a pipe, too."""
    made = answer_of([program, str(deck), "--prompt", "@@"], input=b"where\n")
    yield "a prompt over a pipe", b"@@#0 at 0.0\n@@", made.stdout[-14:]


REFUSED = [  # lines, and the status of a batch of them
    (["foo"], 1), (["b NONE"], 1), (["p 5A"], 1), (["step x"], 1), (["unwatch 1"], 1), (["unwatch A"], 1), (["finish"], 1),
    (["source none"], 1), (["condition 1 (A,E,1)"], 1), (["b 1 if A"], 1), (["foo", "where"], 1), (["watch A"] * 9, 1),
    (["who 5A"], 1), (["watch *1024+1024"], 1), (["watch *"], 1), (["watch *A+B"], 1), (["unwatch *A"], 1),
    (["unwatch *1024"], 1), (["watch *1024", "unwatch *1024+1"], 1), (["watch *AN"], 1), (["watch *1024"] * 9, 1),
    (["watch *1024+1023", "unwatch *1024+1023"], 0), (["watch *A", "unwatch *0"], 0), (["who A", "who 1024"], 0),
    (["where", "# foo", "", "help"], 0), (["watch A", "unwatch A"], 0), (["watch A"] * 8, 0), (["b 1 if (A,E,1)"], 0),
]


def batches(program: str, folder: Path) -> Iterator[Trial]:
    """The status of a batch in which a line is refused, and of another session; and sessions that are saved."""
    deck, commands, saved = folder / "nested.deck", folder / "my.commands", folder / "saved.commands"
    for lines, status in REFUSED:
        commands.write_text("".join(f"{line}\n" for line in lines), "utf-8")
        made = answer_of([program, "--batch", "-x", str(commands), str(deck)], input=b"")
        yield f"the status of a batch: {lines}", status, made.status
    yield "the status of a session in which a line was refused", 0, answer_of([program, str(deck)], input=b"foo\n").status
    given = f"b DEEP if (A,G,2)\ntb 3\nwatch B\nwatch *A+3\ndisplay A\nc\nsave {saved}\ninfo\nstats\nsave\n"
    first = answer_of([program, str(deck)], input=given.encode()).stdout
    again = answer_of([program, str(deck)], input=f"source {saved}\ninfo\nstats\nsave\n".encode()).stdout
    end = first.partition(b"Saved: source obeys the file\n")[2]
    yield "a session that is saved", (True, True), (bool(end), again.endswith(end))
    lines_saved = b"break DEEP\nwatch B\nwatch *0+3\ndisplay A\ngoto 17\ntbreak DEEP+2\ncondition DEEP (A,G,2)\n"
    yield "the lines that are saved", lines_saved, saved.read_bytes() if saved.exists() else b""
    yield from files_of_jobs(program, folder)
    yield from drawings(program, folder)


DRAWN = 40  # lines of a drawing that `draw` shows
LISTED = " (0,DN,18,35)\nMORE (I,A,1)(L,GT,1,LN)\n IF (I,L,{}) THEN MORE\n"  # makes a list of so many blocks


def drawings(program: str, folder: Path) -> Iterator[Trial]:
    """`draw` shows the first lines of what `draw all` shows, and how many more there are."""
    deck = folder / "listed.deck"
    for blocks in (2, 60):
        deck.write_text(LISTED.format(blocks), "utf-8")
        begin, shown, whole = (
            answer_of([program, str(deck)], input=f"end\n{line}\n".encode()).stdout.decode()
            for line in ("#", "draw", "draw all")
        )
        lines = whole.removeprefix(begin).splitlines(keepends=True)
        more = len(lines) - DRAWN
        end = [f"and {more} more lines: draw all shows them\n"] if more > 0 else []
        yield f"all of {blocks} blocks", True, f"{blocks} BLOCKS\n" in lines
        yield f"a drawing of {blocks} blocks", "".join([*lines[:DRAWN], *end]), shown.removeprefix(begin)


def files_of_jobs(program: str, folder: Path) -> Iterator[Trial]:
    """The commands of a job, which somebody else may have written, name no files; those that are given do."""
    job, kept, commands = folder / "foreign.job", folder / "kept.text", folder / "own.commands"
    no_file = b"No such file, or it can't be opened\n"
    commands.write_text("where\n", "utf-8")
    for line in (f"save {kept}", f"source {commands}"):
        kept.write_bytes(b"kept\n")
        job.write_text(f" (A,E,5)\n$COMMANDS\n{line}\n", "utf-8")
        made = answer_of([program, str(job), "--batch"], input=b"")
        wanted, actual = (no_file, b"kept\n", 1), (made.stdout[-len(no_file):], kept.read_bytes(), made.status)
        yield f"a job that says {line.split()[0]}", wanted, actual
        made = answer_of([program, str(job)], input=b"#0\n")
        yield f"a job that says {line.split()[0]}, and a prompt", True, made.stdout.endswith(no_file)
    made = answer_of([program, str(job)], input=f"save {kept}\nsource {commands}\n".encode())
    yield "lines that are typed after it", b"Saved: source obeys the file\n#0 at 0.0\n", made.stdout[-39:]
    commands.write_text(f"save {kept}\n", "utf-8")
    kept.write_bytes(b"a longer text, of which nothing is left\n")
    made = answer_of([program, str(job), "--batch", "-x", str(commands)], input=b"")
    yield "commands that are given", (b"goto 0\n", 0), (kept.read_bytes(), made.status)
