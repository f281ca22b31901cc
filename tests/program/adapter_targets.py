"""Tries how an editor steps into one of the calls of a statement."""
from __future__ import annotations

import sys
from collections.abc import Iterator
from pathlib import Path

sys.path.insert(0, str(Path(__file__).resolve().parents[1] / "harness"))
from adapter_editor import DOUBLE, Editor, launched
from trials import Trial

CALLS = """       (A,E,1)(B,E,2)(SUB,DO)(SUB,DO)
       IF (A,E,9) THEN (SUB,DO)
       (A,PD)
SUB    (C,A,1) DONE
"""
NO_CALL = "there is no such call ahead in the statement"


def targets(program: list[str], folder: Path) -> Iterator[Trial]:
    """One steps into the call that one chooses."""
    deck = folder / "double.deck"
    deck.write_text(DOUBLE)
    editor = launched(program, deck, stopOnEntry=True)
    editor.ask("configurationDone")
    editor.stands()

    def at(state: int) -> Editor:
        """The editor, at a state."""
        editor.value(f":goto {state}")
        editor.stands()
        return editor

    both = [(1, "DROP 4.0, action 1"), (2, "DROP 4.0, action 2")]
    for name, state, ahead in (("before a statement", 13, both), ("at the first call", 14, both), ("at the second", 20, both[1:]),
                               ("after them", 26, []), ("in a subroutine without any", 15, []), ("in a statement without any", 0, []),
                               ("at a trap", 27, [])):
        yield f"adapter: the calls ahead {name}", ahead, at(state).calls()
    yield "adapter: a frame that waits has no calls ahead", [], at(15).calls(frame=1)
    yield "adapter: into the second call", ("step", "DROP 4.0", 7), at(13).move("stepIn", targetId=2)
    yield "adapter: it is the second one", "1024 000000002000 block of 1", editor.value("L")
    yield "adapter: into the first call", ("step", "DROP 4.0", 7), at(13).move("stepIn", targetId=1)
    yield "adapter: it is the first one", "1025 000000002001 block of 1", editor.value("L")
    for name, state, action in (("behind", 20, 1), ("that is none", 13, 3), ("of the condition", 13, 0), ("after the end", 27, 2)):
        before = at(state).ask("stackTrace")["body"]
        refused = editor.ask("stepIn", targetId=action)
        yield f"adapter: a call {name}", (False, NO_CALL), (refused["success"], refused["message"])
        yield f"adapter: nothing changes by a call {name}", before, editor.ask("stackTrace")["body"]
    at(13).ask("setDataBreakpoints", breakpoints=[{"dataId": "L"}])
    yield "adapter: a watch stops in the call before", ("step", "DROP 4.3", 7), editor.move("stepIn", targetId=2)
    editor.ask("setDataBreakpoints", breakpoints=[])
    editor.breakpoints(deck, {"line": 7})
    yield "adapter: so does a breakpoint", ("step", "DROP 4.0", 7), at(13).move("stepIn", targetId=2)
    yield "adapter: in the call before", "1025 000000002001 block of 1", editor.value("L")
    editor.end()
    yield from targets_elsewhere(program, folder)


def targets_elsewhere(program: list[str], folder: Path) -> Iterator[Trial]:
    """The way into a call goes on over all that is before it."""
    deck = folder / "calls.deck"
    deck.write_text(CALLS)
    for watched, place in (("", "SUB 3.0"), ("A", "0.2"), ("B", "0.3"), ("C", "SUB 3.2")):
        editor = launched(program, deck, stopOnEntry=True)
        editor.ask("setDataBreakpoints", breakpoints=[{"dataId": it} for it in watched])
        editor.ask("configurationDone")
        editor.stands()
        yield f"adapter: the way into a call, {watched or 'nothing'} watched", ("step", place), editor.move("stepIn", targetId=4)[:2]
        editor.end()
    editor = launched(program, deck)
    editor.breakpoints(deck, {"line": 2})
    editor.ask("configurationDone")
    editor.stands()
    yield "adapter: a call behind a condition", [(1, "SUB 3.0, action 1")], editor.calls()
    yield "adapter: the condition leads past it", ("step", "2.0", 3), editor.move("stepIn", targetId=1)
    editor.end()
    deck.write_text(" (A,PD)(PL)(L,DO) DONE\nL (5,PH) DONE\n")
    editor = launched(program, deck, stopOnEntry=True)
    editor.ask("configurationDone")
    editor.stands()
    editor.move("stepIn", targetId=3)
    yield "adapter: what is printed on the way", "0\n", editor.printed
    editor.end()
