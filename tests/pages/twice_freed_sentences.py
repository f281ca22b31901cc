"""What docs/editors.md says of the deck that frees a block twice, of variables and of files for editors: it is debugged so."""
from __future__ import annotations

import functools
import re
import shutil
from collections.abc import Iterator

from adapter_sentences import BACK, BEGUN, CONTINUES, RUNS_BACK, WHERE, folder, run, stood
from answers import answer_of
from editor_peers import Request, framed, part
from page_tables import TOP, text_of
from told import either, told
from trials import Trial

PAGE, WEB = "docs/editors.md", "docs/page.md"
CANARIES = (
    (PAGE, "in `DROP`, for the second time", "in `DROP`, for the third time"),
    (PAGE, "the state after it is the first in which", "the state after it is the last in which"),
    (PAGE, "`:L6Watch MV` watches chains, in place of those", "`:L6Watch MV` watches chains, in front of those"),
    (PAGE, "A block opens along its fields", "A block opens along its links"),
    (PAGE, "the command is `node PLACE/dist/l6ed.mjs lsp`", "the command is `node PLACE/dist/l6.mjs lsp`"),
)


def deck_of_the_page() -> str:
    """The deck below "Who freed the block?"."""
    found = re.findall(r"^### Who freed the block\?\n.*?^```figure\n(.*?)^```$", text_of(PAGE), re.DOTALL | re.MULTILINE)
    return str(found[0]) if found else ""


def asking(expression: str) -> Request:
    """A question for what an expression reads as."""
    return "evaluate", {"expression": expression}


def at_card(card: int, deck: str) -> Request:
    """A breakpoint on a card alone."""
    lines: list[dict[str, object]] = [{"line": card}] if card else []
    return "setBreakpoints", {"source": {"path": f"{folder().name}/{abs(hash(deck))}.deck"}, "breakpoints": lines}


def who_freed(program: str) -> Iterator[Trial]:
    """The session of the page, in its order."""
    deck = deck_of_the_page()
    last = len(deck.splitlines())
    watch: Request = ("setDataBreakpoints", {"breakpoints": [{"dataId": "MV"}]})
    made = run(program, at_card(last, deck), BEGUN, WHERE, CONTINUES, WHERE, CONTINUES, WHERE, CONTINUES, WHERE, asking("M"), asking("MV"),
               at_card(0, deck), watch, RUNS_BACK, WHERE, asking("MV"), ("next", {"threadId": 1, "granularity": "instruction"}), asking("MV"),
               BACK, BACK, WHERE, asking("M"), deck=deck, stopOnEntry=True)
    places = [*stood(made), *[("", "")] * 7]
    drop = [str(name).partition(" ")[0] for name, _ in places]
    yield told(PAGE, r"\| at the entry, on card (\d) \|", str(places[0][1]))
    order = ("first", "second") if drop[1:4] == ["DROP", "DROP", drop[3]] and drop[3] != "DROP" else ("", "")
    yield told(PAGE, r"\| continue \| in (\w+), for the (\w+) time \| \| continue \| in (\w+), for the (\w+) time \|", drop[1], order[0], drop[2], order[1])
    trap = part(made.events("stopped"), 3, "text")
    m, mv = str(part(made.answer(12), "body", "result")), made.answer(13).get("success")
    yield told(PAGE, r"at the trap ([A-Z ]+), on card (\d)\. There M is (\d+ \d{12} no block), and MV can't be (\w+)", str(trap), str(places[3][1]), m, either(
        mv is False, "followed", "printed"))
    stands, gone = made.answer(18).get("success"), made.answer(20).get("success")
    columns = [part(it, "body", "stackFrames", 0) for it in made.messages if it.get("command") == "stackTrace"]
    card = int(part(columns, 4, "line") or 1)
    line = "".join(deck.splitlines()[card - 1:card])
    action = line[int(part(columns, 4, "column") or 1) - 1:int(part(columns, 4, "endColumn") or 1) - 1]
    yield told(PAGE, r"in (\w+), at (\(\w,\w+\)): the state (\w+) it is the (\w+) in which MV is (\w+)\.", drop[4], action, *(
        ("after", "first", "gone") if (stands, gone) == (True, False) else (str(stands), str(gone), "")))
    size = re.findall(r"block of (\d+)", str(part(made.answer(24), "body", "result")))
    yield told(PAGE, r"where that statement (\w+), and M is a block of (\d) word again", either(str(places[5][0]).endswith(".0"), "begins", "ends"), *size)


def replaced(program: str) -> Iterator[Trial]:
    """What becomes of watches and breakpoints when others are set."""
    deck = "       (A,E,1)(B,E,2)\nONE    (C,E,3)\nTWO    (D,E,4)\n"
    watches: list[Request] = [("setDataBreakpoints", {"breakpoints": [{"dataId": bug}]}) for bug in ("A", "B")]
    at = run(program, *watches, BEGUN, CONTINUES, WHERE, deck=deck, stopOnEntry=True)
    place = either(stood(at) == [("0.3", 1)], "place", "front")
    yield told(PAGE, r":L6Watch MV watches chains, in (\w+) of those (\w+);", place, "before")
    yield told(PAGE, r"asks for chains, as MV, and watches these in (\w+) of those (\w+) \|", place, "before")
    labels: list[Request] = [("setFunctionBreakpoints", {"breakpoints": [{"name": name}]}) for name in ("ONE", "TWO")]
    stops = run(program, *labels, BEGUN, CONTINUES, WHERE, deck=deck, stopOnEntry=True)
    yield told(PAGE, r"asks for labels, and stops at these in (\w+) of those (\w+) \|", either(stood(stops) == [("TWO 2.0", 3)], "place", "front"), "before")


def variables(program: str) -> Iterator[Trial]:
    """What variables are shown, and what a block has."""
    deck = "       (0,DV,0,17)(0,DN,18,35)(A,GT,2)(AV,E,7)\n       (A,PD)\n"
    asked: list[Request] = [("scopes", {"frameId": 0}), *(("variables", {"variablesReference": number}) for number in (1, 2, 3, 4))]
    made = run(program, BEGUN, ("next", {"threadId": 1}), *asked, deck=deck, stopOnEntry=True)
    scopes = [str(part(it, "name")).lower() for it in part(made.answer(5), "body", "scopes") or []]
    names = [str(part(it, "name")) for it in part(made.answer(9), "body", "variables") or []]
    first = {"N", "V"} == {*names[:2]} and names[2:] == ["word 0", "word 1"]
    yield told(PAGE, r"shows variables \| (\w+), (\w+), the (\w+) that are reached, and what is (\w+)\.", *[*scopes, "", "", ""][:3], "saved")
    yield told(PAGE, r"A block opens along its (\w+), and then has its (\w+);", *(("fields", "words") if first else (str(names), "")))


def files() -> Iterator[Trial]:
    """What the files for editors have, and which program Node runs."""
    ends = re.findall(r"BufNewFile \*(\.\w+) setfiletype l6", text_of("editors/vim/ftdetect/l6.vim"))
    yield told(PAGE, r"its name must end in (\.\w+) \|", *ends)
    checks = re.findall(r'format "(l6 \w+) --name', text_of("editors/emacs/l6-mode.el"))
    yield told(PAGE, r"M-x compile runs (l6 \w+) on the file", *checks)
    signs = re.findall(r'SIGNS = \{link: "(.)", number: "(.)", text: "(.)"\}', text_of("web/src/legend.js")) or [("", "", "")]
    yield told(WEB, r"The sign behind a field's name says which, (\S), (\S) or (\S);", *signs[0])
    check = re.findall(r'check: \(input\) => this\.ask\(\["check", "(--\w+)"\], input\)', text_of("web/src/page.js"))
    yield told(WEB, r"the answer of l6 check (--\w+) \(", *check)
    if not shutil.which("node"):
        print("skipped: l6ed in Node: it is missing")
        return
    yield told(PAGE, r"the command is node PLACE/dist/(\w+)\.mjs (\w+)\.", either(in_node(), "l6ed", "l6"), "lsp")


@functools.cache
def in_node() -> bool:
    """Whether l6ed.mjs answers an editor."""
    given = framed({"jsonrpc": "2.0", "id": 1, "method": "initialize", "params": {"capabilities": {}}})
    return b"positionEncoding" in answer_of(["node", TOP / "dist/l6ed.mjs", "lsp"], input=given, preexec_fn=None).stdout


def twice_freed_sentences(program: str) -> Iterator[Trial]:
    """All of them."""
    for group in (who_freed, replaced, variables):
        yield from group(program)
    yield from files()
