"""What docs/editors.md says of the debug adapter: a run is debugged, and the words follow from where it stands."""
from __future__ import annotations

import functools
import tempfile
from collections.abc import Iterator
from pathlib import Path

from adapter_editor import Editor
from answers import answer_of
from editor_peers import Request, Said, debugged, framed, part, server_beside
from told import either, in_words, told
from trials import Trial

PAGE = "docs/editors.md"
# It takes a list of two blocks apart; the last free is one too much. Line 4 has no statement.
DECK = """* A LIST
       (0,DV,0,17)(0,DN,18,35)
       (M,GT,1)(MV,E,8)(M,PD)(PL)
* NOTHING
       (L,GT,1)(LV,E,7)(LN,E,M)
       (DROP,DO)(DROP,DO)(M,FR) DONE
DROP   (K,E,LN)(L,FR)(L,E,K) DONE
"""
CONTINUES, BACK, RUNS_BACK, NEXT, IN, OUT = (
    (it, {"threadId": 1}) for it in ("continue", "stepBack", "reverseContinue", "next", "stepIn", "stepOut"))
WHERE, BEGUN = ("stackTrace", {"threadId": 1}), ("configurationDone", dict[str, object]())
CANARIES = (
    (PAGE, "or else on the next one below", "or else on the next one above"),
    (PAGE, "`stopOnEntry` stops at the start", "`stopOnEntry` stops at the end"),
    (PAGE, "to continue from there ends the session", "to continue from there begins the session"),
    (PAGE, "and breakpoints and watches stay", "and breakpoints and watches go"),
    (PAGE, "There is room for eight", "There is room for nine"),
)


@functools.cache
def folder() -> tempfile.TemporaryDirectory[str]:
    """A folder for decks, which is removed when the process ends."""
    return tempfile.TemporaryDirectory(prefix="l6-adapter-")


def run(program: str, *asked: Request, deck: str = DECK, ends: bool = True, **launched: object) -> Said:
    """What the adapter says of a deck; the first of the requests has the number 3."""
    file = Path(folder().name, f"{abs(hash(deck))}.deck")
    file.write_text(deck, "ascii")
    return debugged(program, ("launch", {"program": str(file), **launched}), *asked, ends=ends)


def stood(told_of: Said) -> list[tuple[object, object]]:
    """Where the run stood when that was asked: the name and the line of the first frame."""
    frames = [part(it, "body", "stackFrames", 0) for it in told_of.messages if it.get("command") == "stackTrace"]
    return [(part(it, "name"), part(it, "line")) for it in frames]


def printed(told_of: Said, category: str) -> str:
    """What was printed, in a category."""
    return "".join(str(part(it, "output")) for it in told_of.events("output") if part(it, "category") == category)


def starts(program: str) -> Iterator[Trial]:
    """How a run begins, and which is refused."""
    entry, quick = run(program, BEGUN, WHERE, stopOnEntry=True), run(program, BEGUN, noDebug=True)
    yield told(PAGE, r"stopOnEntry stops at the (\w+), and noDebug runs to the (\w+)\. A deck with", either(stood(entry)[:1] == [("0.0", 2)], "start", "end"), either(
        bool(quick.events("terminated")) and not quick.events("stopped"), "end", "start"))
    wrong = run(program, deck=" (A,ZZ,5)\n").answer(2)
    text = str(part(wrong, "message"))
    yield told(PAGE, r"A deck with (\w+) is (\w+), with the text of (l6 \w+)", "errors", either(part(wrong, "success") is False, "refused", "run"), either(
        text.startswith("1:5: error:"), "l6 check", "l6 run"))
    before = run(program, BEGUN, CONTINUES, WHERE, stopOnEntry=True)
    order = [it.get("event") for it in before.messages if it.get("event") in ("output", "stopped")]
    yield told(PAGE, r"What is printed goes to the (\w+) when the run (\w+)\. A pause", "console", either(order == ["stopped", "output", "stopped"], "stands", "goes"))
    left, over = run(program, ends=False).status, run(program).status
    yield told(PAGE, r"went away (\w+) shutdown, or (\w+) disconnect", *[either((left, over) == (1, 0), "without", "after")] * 2)


def breakpoints(program: str) -> Iterator[Trial]:
    """Where breakpoints are, and what is watched."""
    path = {"path": str(Path(folder().name, f"{abs(hash(DECK))}.deck"))}
    lines = [{"line": line} for line in (4, 6)]
    set_at = run(program, ("setBreakpoints", {"source": path, "breakpoints": lines}), BEGUN, CONTINUES, WHERE, stopOnEntry=True)
    found = [part(it, "line") for it in part(set_at.answer(3), "body", "breakpoints") or []]
    yield told(PAGE, r"on the statement of a card, or else on the next one (\w+); by (\w+) as function breakpoints", either(
        found == [5, 6] and stood(set_at)[:1] == [("2.0", 5)], "below", "above"), labels(program))
    nine = [{"dataId": f"{bug}"} for bug in "ABCDEFGHI"]
    watched = run(program, ("setDataBreakpoints", {"breakpoints": nine}), BEGUN).answer(3)
    count = sum(part(it, "verified") is True for it in part(watched, "body", "breakpoints") or [])
    stops = run(program, ("setDataBreakpoints", {"breakpoints": [{"dataId": "M"}]}), BEGUN, CONTINUES, WHERE, stopOnEntry=True)
    yield told(PAGE, r"a chain, as LNV: the run stops where its (\w+) (\w+)\. There is room for (\w+)", *(
        ("value", "changes") if stood(stops)[:1] == [("1.2", 3)] else (str(stood(stops)), "")), in_words(count))
    condition = {"source": path, "breakpoints": [{"line": 7, "condition": "(L,E,0)"}, {"line": 7, "condition": "(K,E,5)"}]}
    none = run(program, ("setBreakpoints", condition), BEGUN, CONTINUES, stopOnEntry=True)
    yield told(PAGE, r"A condition is a (\w+) of the language, as", either(none.answer(3).get("success") is True and [
        part(it, "reason") for it in none.events("stopped")][-1:] == ["exception"], "test", "word"))


def labels(program: str) -> str:
    """What a function breakpoint may be set by."""
    made = run(program, ("setFunctionBreakpoints", {"breakpoints": [{"name": "DROP"}, {"name": "NONE"}]}), BEGUN, CONTINUES, WHERE, stopOnEntry=True)
    return either([part(it, "verified") for it in part(made.answer(3), "body", "breakpoints") or []] == [True, False] and stood(made)[:1] == [(
        "DROP 4.0", 7)], "labels", str(stood(made)))


def steps(program: str) -> Iterator[Trial]:
    """Where steps lead, over calls, into them, out and back."""
    here: list[Request] = [NEXT, NEXT, NEXT]
    over, into = (run(program, BEGUN, *here, it, WHERE, stopOnEntry=True) for it in (NEXT, IN))
    out = run(program, BEGUN, *here, IN, OUT, WHERE, stopOnEntry=True)
    yield told(PAGE, r"to the next (\w+); to where the next statement (\w+), (\w+) calls or (\w+) them; to where the call has (\w+)\.", "stop", *(
        ("begins", "over", "into", "returned") if (stood(into), part(over.events("stopped"), -1, "reason")) == ([("DROP 4.0", 7)], "exception") and
        str(stood(out)[0][0]).startswith("3.") else (str(stood(over)), str(stood(into)), str(stood(out)), "")))
    fine = run(program, BEGUN, ("next", {"threadId": 1, "granularity": "instruction"}), WHERE, stopOnEntry=True)
    yield told(PAGE, r"With the granularity (\w+) a step goes to the next (\w+) \|", "instruction", either(stood(fine) == [("0.1", 2)], "state", "statement"))
    back = run(program, BEGUN, *here, BACK, WHERE, RUNS_BACK, WHERE, stopOnEntry=True)
    yield told(PAGE, r"steps back, continues in reverse \| the (\w+), (\w+) \|", "same", either(stood(back) == [("2.0", 5), ("0.0", 2)], "backward", "forward"))
    yield told(PAGE, r"by statements or by states, (\w+) and (\w+), (\w+) a recording", *(
        ("forward", "back", "without") if stood(back)[:1] == [("2.0", 5)] else (str(stood(back)), "", "")))
    counted: Request = ("evaluate", {"expression": ":goto 3", "context": "repl"})
    gone = run(program, BEGUN, counted, WHERE, stopOnEntry=True)
    yield told(PAGE, r":goto 57 goes to the (\w+) of that number", either(stood(gone) == [("0.3", 2)], "state", str(stood(gone))))


def traps(program: str) -> Iterator[Trial]:
    """What can be done where the run has trapped, and what is shown there."""
    ask: Request = ("evaluate", {"expression": "M"})
    trapped = run(program, BEGUN, CONTINUES, ask, WHERE, BACK, WHERE, CONTINUES, CONTINUES, stopOnEntry=True)
    value = str(part(trapped.answer(5), "body", "result"))
    yield told(PAGE, r"a number that is the place of (\w+) block, as that of a (\w+) block, is followed by (\w+ \w+)", *(
        ("no", "freed", "no block") if value.endswith(" no block") else (value, "", "")))
    yield told(PAGE, r"shows a trap \| its (\w+) and line\. A run that has trapped or ended stands there, so that one can go (\w+); to continue from there (\w+) the "
               r"session", either(part(trapped.events("stopped"), 1, "text") == "NOT A BLOCK", "name", "number"), either(
                   stood(trapped)[:2] == [("3.3", 6), ("3.0", 6)], "back", str(stood(trapped))), either(bool(trapped.events("terminated")), "ends", "begins"))
    path = {"path": str(Path(folder().name, f"{abs(hash(DECK))}.deck"))}
    again = run(program, ("setBreakpoints", {"source": path, "breakpoints": [{"line": 5}]}), BEGUN, CONTINUES, ("restart", dict[str, object]()), WHERE, CONTINUES, WHERE,
                stopOnEntry=True)
    stays = stood(again)[-1:] == [("2.0", 5)] and part(again.events("stopped"), -1, "reason") == "breakpoint"
    yield told(PAGE, r"restarts \| the files are read (\w+), and breakpoints and watches (\w+)\.", either(stood(again)[:1] == [("0.0", 2)], "again", "once"), either(
        stays, "stay", "go"))
    shown = run(program, BEGUN, NEXT, NEXT, NEXT, IN, WHERE, stopOnEntry=True)
    frames = [part(it, "body", "stackFrames") for it in shown.messages if it.get("command") == "stackTrace"]
    waits = part(frames, 0, 1)
    yield told(PAGE, r"shows the stack \| the position, with the columns of its (\w+), and where the calls go on that (\w+), each with its label and (\w+)", *(
        ("action", "wait", "card") if part(waits, "line") == 6 and len(part(frames, 0) or []) == 2 else (str(frames), "", "")))
    nothing = run(program, BEGUN, WHERE, ("nothing", dict[str, object]()), WHERE, stopOnEntry=True)
    yield told(PAGE, r"that one that only looks or is not known changes (\w+),", either(
        nothing.answer(5).get("success") is False and stood(nothing)[0] == stood(nothing)[-1], "nothing", "all"))


def counted(program: str) -> Iterator[Trial]:
    """Stops that are counted, calls that are chosen, and pauses."""
    loop = "       (A,E,0)\nLOOP   (A,A,1)\n       IF (A,L,9) THEN LOOP\n"
    stop: Request = ("setFunctionBreakpoints", {"breakpoints": [{"name": "LOOP"}]})
    on, value = (("evaluate", {"expression": it, "context": "repl"}) for it in (":continue 3", "A"))
    third = str(part(run(program, stop, BEGUN, on, value, deck=loop, stopOnEntry=True).answer(6), "body", "result"))
    # (at the first stop A is 0, at the second 1)
    yield told(PAGE, r":continue 3 and :reverse-continue 3 past (\w+) stops to the (\w+), which is how (\w+) are counted", *(
        ("two", "third", "hits") if third.startswith("2 ") else (third, "", "")))
    here: list[Request] = [NEXT, NEXT, NEXT, ("stepInTargets", {"frameId": 0})]
    ahead = run(program, BEGUN, *here, ("stepIn", {"threadId": 1, "targetId": 2}), WHERE, ("evaluate", {"expression": "L"}), stopOnEntry=True)
    labels_ahead = [part(it, "label") for it in part(ahead.answer(7), "body", "targets") or []]
    # (by then the first call has freed the first block, and L leads to the second one)
    went_on = str(part(ahead.answer(10), "body", "result")).startswith("1024 ")
    yield told(PAGE, r"the calls of the statement that are (\w+), as (DROP [^.]*\.\d, action \d)\. The run goes on over the actions (\w+) it and into that call", *(
        ("ahead", str(labels_ahead[-1]), "before") if stood(ahead) == [("DROP 4.0", 7)] and went_on and labels_ahead else (str(labels_ahead), str(stood(ahead)), "")))
    paused = run(program, BEGUN, CONTINUES, ("pause", {"threadId": 1}), WHERE, stopOnEntry=True)
    numbers = [int(it.get("request_seq") or 0) for it in paused.messages if it.get("type") == "response"]
    order = [part(it, "body", "reason") or it.get("command") for it in paused.messages]
    stands = "exception" in order and "pause" in order and order.index("exception") < order.index("pause")
    yield told(PAGE, r"A pause is answered when the run (\w+), too: each request is answered (\w+) the next one is read", either(stands, "stands", "goes"), either(numbers == sorted(numbers), "before", "after"))
    yield told(PAGE, r"that a request has (\w+) answer, with its number", either(len(numbers) == len({*numbers}) == 7, "one", "another"))


def failures(program: str) -> Iterator[Trial]:
    """What is said where a run can't be launched, and how the program ends where nobody reads it."""
    wrong = debugged(program, ("launch", {"program": "/nowhere/a.deck"}), ("launch", {"program": "/nowhere/a.deck", "store": 999}))
    texts = [str(part(wrong.answer(number), "message")) for number in (2, 3)]
    yield told(PAGE, r"the editor shows why: the findings of the deck, a file that can't be (\w+), or an option (\w+) of its range", either(
        "can't be read" in texts[0], "read", "written"), either("1 to 255" in texts[1], "out", "inside"))
    with open("/dev/full", "wb") as full:
        ended = answer_of([server_beside(program), "lsp"], input=framed({"jsonrpc": "2.0", "id": 1, "method": "initialize", "params": {"capabilities": {}}}), stdout=full)
    yield told(PAGE, r"\.\. with (\d) \| memory ran out, or a pipe was (\w+);", str(ended.status), "closed")
    deck = Path(folder().name, "again.deck")
    deck.write_text(" (A,E,5)(A,PD)\n", "ascii")
    editor = Editor([server_beside(program)])
    editor.ask("initialize", adapterID="l6")
    editor.ask("launch", program=str(deck), stopOnEntry=True)
    editor.ask("configurationDone")
    deck.write_text(" (A,ZZ,5)\n", "ascii")
    again = editor.ask("restart").get("success"), editor.ask("evaluate", expression="A").get("success")
    editor.ask("disconnect")
    editor.frames.end()
    yield told(PAGE, r"A deck that has errors (\w+) runs again as it (\w+) \|", *(("now", "was") if again == (True, True) else (str(again), "")))


def adapter_sentences(program: str) -> Iterator[Trial]:
    """All of them."""
    for group in (starts, breakpoints, steps, traps, counted, failures):
        yield from group(program)
