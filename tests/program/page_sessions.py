"""The trials that the sessions of the pages are played by the debugger as the pages show them, and what the first says."""
from __future__ import annotations

import re
from collections.abc import Iterator
from pathlib import Path

from answers import answer_of
from trials import Trial

TOP = Path(__file__).resolve().parents[2]
DOCS = TOP / "docs"
PAGES = {"l6db.md": 7, "tutorial.md": 1}  # the pages with sessions, and how many of these each has
BLOCK = re.compile(r"```text\n(.*?)```\n", re.DOTALL)
PLAYED = "<!-- not run: tests/program/l6db.py plays this session -->"
COMMAND = re.compile(r"^[a-z]+( \S+)?$", re.MULTILINE)


def sessions(page: str) -> Iterator[tuple[str, str]]:
    """The sessions of a page, each with the deck before it, which begins with a comment; one may be in pieces."""
    deck, session = "", ""
    for block in BLOCK.finditer(page):
        if page[:block.start()].rstrip().endswith(PLAYED):
            session += block[1]
        elif block[1].startswith("*"):
            if session:
                yield deck, session
            deck, session = block[1], ""
    if session:
        yield deck, session


def page_sessions(program: str, folder: Path) -> Iterator[Trial]:
    """The sessions of the pages are played."""
    for name, number in PAGES.items():
        found = list(sessions((DOCS / name).read_text("utf-8")))
        yield f"the sessions of {name}", number, len(found)
        for deck, session in found:
            (folder / "page.deck").write_text(deck, "utf-8")
            commands = [match[0] for match in COMMAND.finditer(session)]
            (folder / "page.commands").write_text("\n".join(commands) + "\n", "utf-8")
            words_given = ["--batch", "--echo", "-x", str(folder / "page.commands"), str(folder / "page.deck")]
            made = answer_of([program, *words_given]).stdout.decode("ascii")
            yield f"a session of {name}: {commands}", session, made[made.find(f"\n{commands[0]}\n") + 1:]


# What README.md says of commands, and whether the number of the state rises by that.
IN_README = {"type `WORD` for the next statement": True, "`WORD` to go back": False}


def readme(program: str, _folder: Path) -> Iterator[Trial]:
    """The commands that the first page names do what it says."""
    text = " ".join((TOP / "README.md").read_text("utf-8").split())
    for sentence, rises in IN_README.items():
        found = re.search(re.escape(sentence).replace("WORD", r"(\w+)"), text)
        lines = f"goto 3\n{found[1] if found else ''}\nstats\n"
        made = answer_of([program, str(TOP / "examples/queue.deck")], input=lines.encode())
        (number,) = map(int, re.findall(rb"^STATE (\d+) ", made.stdout, re.MULTILINE))
        yield f"what the first page says: {sentence}", (rises, not rises), (number > 3, number < 3)
