"""What docs/page.md tells a class to press, and what README and dist/README.md show first: the decks are run, step by step."""
from __future__ import annotations

import functools
import re
import select
import shutil
import subprocess
import tempfile
from collections.abc import Iterator
from pathlib import Path

from answers import answer_of
from editor_peers import framed, server_beside
from front_sentences import session
from option_lists import debugger_beside
from page_tables import TOP, spans_of, table_with, text_of
from told import either, in_words, told
from trials import Trial

PAGE, README, DIST, MANUAL = "docs/page.md", "README.md", "dist/README.md", "docs/l6ed.1"
MOST = 20  # stops that are looked at
CANARIES = (
    (PAGE, "press Next break nine times", "press Next break eight times"),
    (PAGE, "press Next break four times: three letters", "press Next break four times: four letters"),
    (PAGE, "step to state 13", "step to state 12"),
    (PAGE, "`(A,E,5)`, `(A,A,1)`", "`(A,E,5)`, `(A,S,1)`"),
    (README, "it goes forward and back, answers at once", "it goes forward and back, answers at last"),
    (DIST, "Each program also runs by itself", "Each program also runs by others"),
)


def deck_of(name: str) -> str:
    """A deck of examples/, without the commands of a session."""
    text = (TOP / "examples" / name).read_text("ascii")
    return re.sub(r"^\$COMMANDS\n(?:(?!\$INPUT).*\n?)*", "", text, flags=re.MULTILINE)


def stops(program: str, deck: str, label: str) -> tuple[str, list[int]]:
    """The statement of a label, and how many blocks are linked at each stop there."""
    lines = session(program, f"break {label}\n" + "continue\ndraw\n" * MOST, deck_of(deck))
    number = next((line.split()[2] for line in lines if line.startswith("Breakpoint at ")), "")
    counts: list[int] = []
    for line in lines:
        if line.startswith(f"AT {number}.0 AFTER"):
            counts.append(0)
        elif counts and (found := re.match(r"(\d+) BLOCKS?$", line)):
            counts[-1] = int(found[1])
        elif line.startswith("== "):
            break
    return number, counts


def lessons(program: str) -> Iterator[Trial]:
    """Which statements are clicked, how often a button is pressed, and what is seen then."""
    number, counts = stops(program, "reverse.deck", "TURN")
    yield told(PAGE, r"click the (\d+) beside TURN, which sets a breakpoint, and press Next break (\w+) times", number, in_words(len(counts)))
    yield told(PAGE, r"as above, with (\w+) presses: the links change, and the blocks (\w+)", in_words(len(counts)), either(len({*counts}) == 1, "stay", "go"))
    number, counts = stops(program, "list.deck", "READ")
    linked = [at for at, count in enumerate(counts, 1) if count == 3]
    yield told(PAGE, r"click the (\d+) beside READ, and press Next break (\w+) times: (\w+) letters are linked", number, in_words(linked[0] if linked else 0), "three")
    lost = deck_of("lost.session")
    first = next((at for at in range(30) if " LOST" in shown(program, lost, at)), 0)
    yield told(PAGE, r"step to state (\d+), where the block turns red;", str(first))
    trap = answer_of([program, "run", "--explain"], input=lost.encode()).stderr.decode("latin-1")
    chain = "".join(re.findall(r"\((\w+),PD\)", trap.splitlines()[0])) if trap else ""
    yield told(PAGE, r"the links of (\w+) are highlighted up to the block where they (\w+), and", chain, either("no block begins" in trap, "end", "begin"))
    python, ours = table_with(text_of(PAGE), "In Python", "In L6").rows[0]
    known: dict[str, int] = {}
    exec("\n".join(spans_of(python)), {}, known)  # (two assignments of the page)
    printed = answer_of([program, "run"], input=f" {''.join(spans_of(ours))}(A,PD)\n".encode()).stdout.decode("latin-1")
    yield f"{PAGE}: {python} in L6", str(known.get("a")), printed.partition("\n")[0]


@functools.cache
def shown(program: str, deck: str, number: int) -> str:
    """The map of the store in a state."""
    return answer_of([program, "debug"], input=f"{deck}$COMMANDS\nstep {number}\nstore\n".encode()).stdout.decode("latin-1")


@functools.cache
def at_once(words: tuple[str, ...], given: str) -> bool:
    """Whether a program answers a command before its input ends."""
    with subprocess.Popen(words, stdin=subprocess.PIPE, stdout=subprocess.PIPE, bufsize=0) as peer:
        assert peer.stdin and peer.stdout
        peer.stdin.write(given.encode())
        answered, seconds = b"", 5.0
        while b"AFTER 4 STEPS" not in answered and select.select([peer.stdout], [], [], seconds)[0] and (more := peer.stdout.read(1 << 12)):
            answered += more
        peer.stdin.close()
        peer.stdout.read()
    return b"AFTER 4 STEPS" in answered


def front_page(program: str) -> Iterator[Trial]:
    """What README says of the first deck, of the debuggers and of a check."""
    deck = deck_of("first.deck")
    printed = answer_of([program, "run"], input=deck.encode()).stdout
    bug, number = (re.findall(r"\((\w),E,(\d+)\)\(\1,PD\)", deck) or [("", "")])[0]
    yield told(README, r"which sets bug (\w), a register, to (\d+) and prints it", bug, either(printed.startswith(number.encode() + b"\n"), number, ""))
    queue = deck_of("queue.deck").partition("$INPUT\n")
    image = answer_of([program, "asm"], input=queue[0].encode()).stdout
    loaded, ran = (answer_of([program, verb], input=text + b"$INPUT\n" + queue[2].encode()).stdout for verb, text in (("load", image), ("run", queue[0].encode())))
    yield told(README, r"a loaded image is the deck's (\w+);", either(loaded == ran != b"", "program", "other"))
    moved = [line for line in session(program, "s\nback\n") if line.startswith("AT ")]
    ways = ("forward", "back") if len(moved) == 3 and moved[0] == moved[2] != moved[1] else (str(moved), "")
    yield told(README, r"and a debugger that goes (\w+) and (\w+), also in your editor", *ways)
    file = str(TOP / "examples/queue.deck")
    ours, others = at_once((debugger_beside(program), file), "s\n"), later(program)
    yield told(README, r"it goes (\w+) and (\w+), answers at (\w+), and knows the commands of gdb\. For papers and scripts there is \[one that reads (\w+) commands (\w+)\]", *(
        *ways, either(ours, "once", "last"), *(("all", "first") if others else ("some", "then"))))
    wrong = answer_of([program, "check"], input=b"* A\n (A,PD) B\n (A,P)\n").stdout.decode("latin-1")
    where = re.findall(r"^(\d):(\d): error: .*\n {4}\S", wrong, re.MULTILINE)
    yield told(README, r"l6 check says why, and where: (\w+), (\w+), and what to (\w+)\.", *(("card", "column", "write") if where == [("3", "5")] else (wrong, "", "")))
    yield told(README, r"since \[dist/\]\S+ has programs for (\w+)\.", either((TOP / "dist/l6").exists() and (TOP / "dist/l6-aarch64").exists(), "both", "one"))
    if not shutil.which("node"):
        print("skipped: README's deck in Node: node is missing")
        return
    yield told(README, r"node dist/l6\.mjs run < examples/first\.deck does the (\w+)\.", either(in_node(deck) == printed, "same", "other"))


@functools.cache
def in_node(deck: str) -> bytes:
    """What the program for Node prints."""
    return answer_of(["node", TOP / "dist/l6.mjs", "run"], input=deck.encode(), preexec_fn=None).stdout


@functools.cache
def later(program: str) -> bool:
    """Whether `l6 debug` says nothing of its commands before its input ends."""
    with subprocess.Popen([program, "debug"], stdin=subprocess.PIPE, stdout=subprocess.PIPE, bufsize=0) as peer:
        assert peer.stdin and peer.stdout
        peer.stdin.write(b" (A,E,5)(A,PD)\n$COMMANDS\nstep 2\n")
        early = select.select([peer.stdout], [], [], 0.3)[0]
        peer.stdin.close()
        return not early and b"AFTER 2 STEPS" in peer.stdout.read()


def hand_outs(program: str) -> Iterator[Trial]:
    """What is said of the files of dist/, and of the words of l6ed."""
    for name, pattern in (("l6_store.h", r"in the same way; the header is (library/l6_store\.h)"), ("l6_offset.h", r"in the same way; the header is (library/l6_offset\.h)")):
        same = (TOP / "dist" / name).read_bytes() == (TOP / "library" / name).read_bytes()
        yield told(DIST, pattern, either(same, f"library/{name}", "another"))
    with tempfile.TemporaryDirectory() as folder:
        alone = Path(folder, "l6")
        shutil.copy(program, alone)
        printed = answer_of([alone, "run"], input=b" (A,E,5)(A,PD)\n").stdout
    yield told(DIST, r"Each program also runs by (\w+):", either(printed.startswith(b"5\n"), "itself", "others"))
    server = server_beside(program)
    said = {word: answer_of([server, word], input=b"") for word in ("--help", "-h", "--version", "-V")}
    helps = [word.lstrip("-") for word, it in said.items() if b"Usage" in it.stdout + it.stderr]
    versions = [word.lstrip("-") for word in said if word.lstrip("-") not in helps]
    for what, words in ((r"how the program is called", helps), (r"the version", versions)):
        yield told(MANUAL, rf"\.It Fl -(\w+) , Fl (\w) Print {what}\.", *(words if len(words) == 2 else ("", "")))
    first: dict[str, dict[str, object]] = {
        "lsp": {"jsonrpc": "2.0", "id": 1, "method": "initialize", "params": {"capabilities": {}}},
        "dap": {"seq": 1, "type": "request", "command": "initialize", "arguments": {}},
    }
    able = {word: answer_of([server, word], input=framed(request)).stdout for word, request in first.items()}
    by = {b"positionEncoding" in text: word for word, text in able.items()}
    yield told(MANUAL, r"\.It Cm (\w+) Answer as a server of the Language Server Protocol", str(by.get(True)))
    yield told(MANUAL, r"\.It Cm (\w+) Answer as an adapter of the Debug Adapter Protocol", str(by.get(False)))


def class_sentences(program: str) -> Iterator[Trial]:
    """All of them."""
    for group in (lessons, front_page, hand_outs):
        yield from group(program)
