#!/usr/bin/env python3
"""Tries the debug adapter, `l6ed dap`, as an editor speaks to it.

adapter.py PROGRAM DEBUGGER prints each difference, and last 'N passed, M failed'. PROGRAM is l6ed, and DEBUGGER is l6db.
The session of docs/l6db.md with a block that is freed twice is played; random requests lead where the commands of l6db
lead; hostile messages must end nothing; and each request for memory is refused in turn. The step `editors` makes these
trials, too.

    python3 tests/program/adapter.py PROGRAM DEBUGGER --messages 25000
"""
from __future__ import annotations

import argparse
import itertools
import json
import random
import re
import sys
import tempfile
from collections.abc import Iterator
from pathlib import Path
from typing import Any
from unittest import mock

sys.path.insert(0, str(Path(__file__).resolve().parents[1] / "harness"))
import adapter_editor
from adapter_editor import DOUBLE, Editor, OtherEditor, launched
from adapter_targets import targets
from answers import Answer, answer, answer_of
from peers import JUNK, framed
from refused_memory import Shim
from trials import Trial, few_pass, report

COUNTS = """* COUNTS DOWN, AND CALLS A SUBROUTINE FOR EACH NUMBER
       (A,E,9)
LOOP   (TELL,DO)
       IF (A,E,0) THEN DONE
       (A,S,1) LOOP
TELL   (A,PD)(PL)
       IF (A,G,5) THEN DONE
       (INNER,DO) DONE
INNER  (B,A,A) DONE
"""
SAVES = """       (0,DX,0,17)
       (C,E,5)(S,FC,C)(S,FD,X)
       (C,PD)
"""
MOVES = {  # requests, the words that go with them, and the commands of l6db that lead as far
    ("continue", ""): "continue", ("reverseContinue", ""): "reverse-continue", ("stepOut", ""): "finish",
    ("next", ""): "next", ("next", "instruction"): "nexti", ("stepIn", ""): "step", ("stepIn", "instruction"): "stepi",
    ("stepBack", ""): "reverse-next", ("stepBack", "instruction"): "backi",
}
ABILITIES = ["ConditionalBreakpoints", "ConfigurationDoneRequest", "DataBreakpoints", "EvaluateForHovers",
             "ExceptionInfoRequest", "FunctionBreakpoints", "RestartRequest", "StepBack", "StepInTargetsRequest", "SteppingGranularity",
             "TerminateRequest"]
SESSIONS = 12  # of random requests
REQUESTS = 30  # in each
TOLD = 300  # places, at least, which the debugger has told, of those to which all of them lead
HOSTILE = 2_000  # messages, unless there is another number
UNREAD = "this is no chain and no number, or the chain can't be followed"
NO_RUN = "no run is launched"
UNKNOWN = "there is no such request"
PLACE = re.compile(r"^(?:AT|==.* AT) (\d+\.\d+) AFTER|^(== (?:DONE|FAIL|LIMIT) AFTER)|^(No call waits)", re.MULTILINE)


def freed_twice(program: list[str], folder: Path) -> Iterator[Trial]:
    """Who freed the block: the run goes back to where a value was last another one."""
    deck = folder / "double.deck"
    deck.write_text(DOUBLE)
    editor = launched(program, deck, stopOnEntry=True)
    made = editor.breakpoints(deck, {"line": 6}, {"line": 90})
    yield "adapter: a breakpoint on a comment is set at the statement below", (True, 7), (made[0]["verified"], made[0]["line"])
    yield "adapter: one below all cards is not set", False, made[1]["verified"]
    editor.ask("configurationDone")
    yield "adapter: at the entry", ("entry", "0.0", 2), editor.stands()
    yield "adapter: at the breakpoint", ("breakpoint", "DROP 4.0", 7), editor.move("continue")
    yield "adapter: once more", ("breakpoint", "DROP 4.0", 7), editor.move("continue")
    yield "adapter: at the trap", ("exception", "3.3", 5), editor.move("continue")
    trap = editor.ask("exceptionInfo")["body"]
    yield "adapter: which trap", ("NOT A BLOCK", "== TRAP 2 NOT A BLOCK AT 3.3 AFTER 26 STEPS"), (trap["exceptionId"], trap["description"])
    yield "adapter: a chain that can't be followed", UNREAD, editor.value("MV")
    yield "adapter: a place at which no block begins", "1024 000000002000 no block", editor.value("M")
    watched = editor.ask("dataBreakpointInfo", name="MV")["body"]["dataId"]
    editor.breakpoints(deck)
    editor.ask("setDataBreakpoints", breakpoints=[{"dataId": watched}])
    yield "adapter: back to where the block was freed", ("data breakpoint", "DROP 4.2", 7), editor.move("reverseContinue")
    frame = editor.ask("stackTrace")["body"]["stackFrames"][0]
    yield "adapter: the columns of its action", (7, 16, 7, 22), tuple(
        frame[it] for it in ("line", "column", "endLine", "endColumn"))
    yield "adapter: a step back", ("step", "DROP 4.0", 7), editor.move("stepBack")
    frame = editor.ask("stackTrace")["body"]["stackFrames"][0]
    yield "adapter: a condition that is none has no columns", (1, None), (frame["column"], frame.get("endColumn"))
    yield "adapter: the block that was freed", "1024 000000002000 block of 1", editor.value("M")
    yield "adapter: a state by its number", ("state 4", ("goto", "1.0", 3)), (editor.value(":goto 4"), editor.stands())
    yield "adapter: the exit status", 0, editor.end()


def variables(program: list[str], folder: Path) -> Iterator[Trial]:
    """Blocks open along their fields; bugs, fields and what is saved are shown."""
    deck = folder / "double.deck"
    deck.write_text(DOUBLE)
    editor = launched(program, deck)
    made = editor.ask("setFunctionBreakpoints", breakpoints=[{"name": "DROP"}, {"name": "GONE"}])["body"]["breakpoints"]
    yield "adapter: breakpoints at labels", [True, False], [one["verified"] for one in made]
    editor.ask("configurationDone")
    yield "adapter: at the label", ("breakpoint", "DROP 4.0", 7), editor.stands()
    scopes = {one["name"]: one["variablesReference"] for one in editor.ask("scopes", frameId=0)["body"]["scopes"]}
    yield "adapter: what a state has", ["Bugs", "Fields", "Blocks"], list(scopes)
    bugs = editor.variables(scopes["Bugs"])
    yield "adapter: all bugs", list("ABCDEFGHIJKLMNOPQRSTUVWXYZ"), [one["name"] for one in bugs]
    yield "adapter: a bug that holds no place", ("0 000000000000", 0), (bugs[0]["value"], bugs[0]["variablesReference"])
    fields = editor.variables(scopes["Fields"])
    yield "adapter: the fields", [("N", "word 0, bits 18 to 35"), ("V", "word 0, bits 0 to 17")], [
        (one["name"], one["value"]) for one in fields]
    yield "adapter: the blocks that are reached", ["1024", "1025"], [one["name"] for one in editor.variables(scopes["Blocks"])]
    found = editor.ask("evaluate", expression="L")["body"]
    parts = editor.variables(found["variablesReference"])
    yield "adapter: the fields and words of a block", ["N", "V", "word 0"], [one["name"] for one in parts]
    yield "adapter: a field's chain", ["LN", "LV"], [one.get("evaluateName") for one in parts[:2]]
    yield "adapter: a field's number", "7 000000000007", parts[1]["value"]
    further = editor.variables(parts[0]["variablesReference"])
    yield "adapter: the block to which a field leads", ["LNN", "LNV"], [one.get("evaluateName") for one in further[:2]]
    info = editor.ask("dataBreakpointInfo", name="V", variablesReference=parts[0]["variablesReference"])["body"]
    yield "adapter: a field of a block can be watched by its chain", "LNV", info["dataId"]
    yield "adapter: a word of a block can't", None, editor.ask(
        "dataBreakpointInfo", name="word 0", variablesReference=parts[0]["variablesReference"])["body"]["dataId"]
    yield "adapter: a number", "10 000000000012", editor.value("10")
    yield "adapter: variables that are not there", False, editor.ask("variables", variablesReference=999)["success"]
    editor.move("stepIn")
    yield "adapter: variables of a state that is gone", False, editor.ask("variables", variablesReference=1)["success"]
    editor.end()
    deck.write_text(SAVES)
    editor = launched(program, deck)
    editor.breakpoints(deck, {"line": 3})
    editor.ask("configurationDone")
    editor.event("stopped")
    scopes = {one["name"]: one["variablesReference"] for one in editor.ask("scopes", frameId=0)["body"]["scopes"]}
    saved = [one["value"] for name in ("Saved contents", "Saved definitions") for one in editor.variables(scopes[name])]
    yield "adapter: what is saved", ["5 000000000005", "word 0, bits 0 to 17"], saved
    editor.end()


def printouts(program: list[str], folder: Path) -> Iterator[Trial]:
    """What is printed is shown once, and how a run ends."""
    deck = folder / "prints.deck"
    deck.write_text(" (A,E,5)(A,PD)(PL)(A,PD)\n")
    editor = launched(program, deck, noDebug=True)
    editor.ask("configurationDone")
    yield "adapter: the exit status of a run", 0, editor.event("exited")["exitCode"]
    yield "adapter: what a run prints", "5\n5", editor.printed
    editor.end()
    deck.write_text(COUNTS)
    editor = launched(program, deck, stopOnEntry=True)
    editor.ask("configurationDone")
    editor.stands()
    yield "adapter: nothing is printed at the entry", "", editor.printed
    editor.move("continue")
    yield "adapter: the whole printout", "9\n8\n7\n6\n5\n4\n3\n2\n1\n0\n", editor.printed
    editor.move("reverseContinue")
    editor.move("continue")
    yield "adapter: what is printed again is not shown again", "9\n8\n7\n6\n5\n4\n3\n2\n1\n0\n", editor.printed
    editor.end()
    endings: list[tuple[str, str, dict[str, int], int, str]] = [
        ("FAIL", " FAIL\n", {}, 1, "== FAIL AFTER 2 STEPS"), ("LIMIT", "L L\n", {"steps": 5}, 3, "== LIMIT AFTER 5 STEPS")]
    for name, text, options, status, said in endings:
        deck.write_text(text)
        editor = launched(program, deck, noDebug=True, **options)
        editor.ask("configurationDone")
        yield f"adapter: a run that ends by {name}", (f"{said}\n", status), (
            editor.event("output")["output"], editor.event("exited")["exitCode"])
        editor.end()
    given = folder / "an input"
    given.write_text("7\n")
    inputs: list[tuple[str, str, dict[str, str]]] = [
        ("of its own", " (A,IN,1)(A,PR,1)\n", {"input": str(given)}),
        ("in the job", " (A,IN,1)(A,PR,1)\n$INPUT\n7\n", {})]
    for name, text, words in inputs:
        deck.write_text(text)
        editor = launched(program, deck, noDebug=True, **words)
        editor.ask("configurationDone")
        yield f"adapter: an input {name}", (0, "7"), (editor.event("exited")["exitCode"], editor.printed)
        editor.end()


def limits(program: list[str], folder: Path) -> Iterator[Trial]:
    """The store and the printout of a run are as large as was asked for."""
    deck = folder / "limits.deck"
    cases: list[tuple[str, str, dict[str, int], str]] = [
        ("a store of one unit", " (A,GT,1024)(B,GT,1)\n", {"store": 1}, "STORE FULL"),
        ("a printout of 4 bytes", " (ABCD,PH)(E,PH)\n", {"output": 4}, "OUTPUT FULL")]
    for name, text, options, trap in cases:
        deck.write_text(text)
        editor = launched(program, deck, **options)
        editor.ask("configurationDone")
        yield f"adapter: {name}", ("exception", trap), (editor.stands()[0], editor.ask("exceptionInfo")["body"]["exceptionId"])
        editor.end()
        editor = launched(program, deck)
        editor.ask("configurationDone")
        yield f"adapter: without {name}", "end", editor.stands()[0]
        editor.end()


def launches(program: list[str], folder: Path) -> Iterator[Trial]:
    """What can't be launched is refused, for a reason."""
    deck = folder / "wrong.deck"
    deck.write_text(" (A,E,5)(A,ADD,1)\n")
    right = folder / "right.deck"
    right.write_text(" (A,E,5)\n")
    wrong: list[tuple[str, dict[str, object], str]] = [
        ("a deck with an error", {"program": str(deck)}, "1:12: error: no operation is spelled"),
        ("a deck that is not there", {"program": f"{folder}/nowhere"}, f"{folder}/nowhere: it can't be read"),
        ("no deck", {}, "program is missing"),
        ("an input that is not there", {"program": str(right), "input": f"{folder}/nowhere"}, f"{folder}/nowhere: it can't"),
        ("a store of no unit", {"program": str(right), "store": 0}, "store is 1 to 255"),
        ("too many steps", {"program": str(right), "steps": 1_000_000_001}, "store is 1 to 255"),
        ("too long an output", {"program": str(right), "output": 16_777_217}, "store is 1 to 255")]
    for name, arguments, why in wrong:
        editor = Editor(program)
        refused = editor.ask("launch", **arguments)
        yield f"adapter: {name}", (False, why), (refused["success"], refused["message"][:len(why)])
        yield f"adapter: nothing is launched by {name}", NO_RUN, editor.ask("stackTrace")["message"]
        editor.end()


def conditions(program: list[str], folder: Path) -> Iterator[Trial]:
    """A breakpoint may have a test, and breakpoints and watches outlast a restart."""
    deck = folder / "counts.deck"
    deck.write_text(COUNTS)
    editor = launched(program, deck)
    made = editor.breakpoints(deck, {"line": 3, "condition": "(A,E,4)"}, {"line": 4, "condition": "A is 4"})
    yield "adapter: conditions that are tests", [True, False], [one["verified"] for one in made]
    editor.ask("configurationDone")
    yield "adapter: where the test holds", ("breakpoint", "LOOP 1.0", 3), editor.stands()
    yield "adapter: its value there", "4 000000000004", editor.value("A")
    yield "adapter: what was printed before", "9\n8\n7\n6\n5\n", editor.printed
    editor.ask("restart")
    yield "adapter: after a restart", ("breakpoint", "LOOP 1.0", 3), editor.stands()
    yield "adapter: where the test held", "4 000000000004", editor.value("A")
    editor.breakpoints(deck, {"line": 3})
    editor.value(":continue 3")
    yield "adapter: past two stops, and at the third", ("breakpoint", "LOOP 1.0", 3), editor.stands()
    yield "adapter: the value at the third stop", "1 000000000001", editor.value("A")
    editor.value(":reverse-continue 2")
    yield "adapter: back past one stop", ("breakpoint", "LOOP 1.0", 3), editor.stands()
    yield "adapter: the value there", "3 000000000003", editor.value("A")
    editor.breakpoints(deck)
    yield "adapter: breakpoints that are not asked for again are gone", ("end", "LOOP 2.1", 4), editor.move("continue")
    editor.ask("continue")
    yield "adapter: past the end", 0, editor.event("exited")["exitCode"]
    yield "adapter: and it is over", {}, editor.event("terminated")
    nine = [{"dataId": f"{bug}"} for bug in "ABCDEFGHI"]
    made = editor.ask("setDataBreakpoints", breakpoints=nine)["body"]["breakpoints"]
    yield "adapter: eight watches have room", [True] * 8 + [False], [one["verified"] for one in made]
    made = editor.ask("setDataBreakpoints", breakpoints=[{"dataId": "A"}, {"dataId": "A,5"}])["body"]["breakpoints"]
    yield "adapter: the watches before are gone", [True, False], [one["verified"] for one in made]
    editor.end()


def other_decks(program: list[str], folder: Path) -> Iterator[Trial]:
    """Breakpoints of a deck that does not run are not set, and those of the one that runs stay."""
    deck, other = folder / "double.deck", folder / "other.deck"
    deck.write_text(DOUBLE)
    other.write_text(COUNTS)
    editor = launched(program, deck, stopOnEntry=True)
    editor.breakpoints(deck, {"line": 7})
    made = editor.breakpoints(other, {"line": 3})
    yield "adapter: a breakpoint of another deck", [(False, "another deck runs")], [(it["verified"], it["message"]) for it in made]
    editor.ask("configurationDone")
    editor.stands()
    yield "adapter: those of the deck that runs stay", ("breakpoint", "DROP 4.0", 7), editor.move("continue")
    source = editor.ask("stackTrace")["body"]["stackFrames"][0]["source"]
    yield "adapter: the file of a frame", {"name": "double.deck", "path": str(deck)}, source
    yield "adapter: the largest number", "68719476735 777777777777", editor.value("68719476735")
    yield "adapter: a number that is too large", UNREAD, editor.value("68719476736")
    editor.end()
    editor = launched(program, other)
    editor.breakpoints(other, {"line": 2, "condition": "(A,E,0)"})
    editor.ask("configurationDone")
    yield "adapter: a test that holds at the start", ("breakpoint", "0.0", 2), editor.stands()
    editor.end()


def restarts(program: list[str], folder: Path) -> Iterator[Trial]:
    """A restart reads the deck again; where that has errors, the run begins again as it was."""
    deck = folder / "again.deck"
    deck.write_text(" (A,E,5)\n (A,PD)\n")
    editor = launched(program, deck)
    editor.breakpoints(deck, {"line": 2})
    editor.ask("configurationDone")
    yield "adapter: before a restart", ("breakpoint", "1.0", 2), editor.stands()
    deck.write_text(" (A,E,6)\n (A,PD)\n")
    editor.ask("restart")
    yield "adapter: a deck that has changed", (("breakpoint", "1.0", 2), "6 000000000006"), (editor.stands(), editor.value("A"))
    deck.write_text(" (A,E,\n")
    editor.ask("restart")
    yield "adapter: a deck with errors now", (("breakpoint", "1.0", 2), "6 000000000006"), (editor.stands(), editor.value("A"))
    yield "adapter: what is printed after restarts", ("end", "6"), (editor.move("continue")[0], editor.printed)
    yield "adapter: terminate", (True, {}), (editor.ask("terminate")["success"], editor.event("terminated"))
    editor.end()


def frames(program: list[str], folder: Path) -> Iterator[Trial]:
    """The calls that wait are an editor's stack."""
    deck = folder / "counts.deck"
    deck.write_text(COUNTS)
    editor = launched(program, deck)
    editor.ask("setFunctionBreakpoints", breakpoints=[{"name": "INNER"}])
    editor.ask("configurationDone")
    yield "adapter: in two calls", ("breakpoint", "INNER 7.0", 9), editor.stands()
    body = editor.ask("stackTrace", threadId=1)["body"]
    lines = [(one["name"], one["line"]) for one in body["stackFrames"]]
    yield "adapter: the calls, the latest first", [("INNER 7.0", 9), ("TELL 6.2", 8), ("LOOP 1.2", 3)], lines
    yield "adapter: how many there are", 3, body["totalFrames"]
    some = editor.ask("stackTrace", threadId=1, startFrame=1, levels=1)["body"]["stackFrames"]
    yield "adapter: one of them", [("TELL 6.2", 1)], [(one["name"], one["id"]) for one in some]
    yield "adapter: out of a call", ("step", "TELL 6.2", 8), editor.move("stepOut")
    yield "adapter: out of another", ("step", "LOOP 1.2", 3), editor.move("stepOut")
    yield "adapter: a step by a statement", ("step", "LOOP 2.0", 4), editor.move("next")
    yield "adapter: a step back stops at a breakpoint", ("step", "INNER 7.0", 9), editor.move("stepBack")
    yield "adapter: on to the next call", ("breakpoint", "INNER 7.0", 9), editor.move("continue")
    yield "adapter: a step by a state", ("step", "INNER 7.1", 9), editor.move("stepIn", granularity="instruction")
    yield "adapter: a step back by a state", ("step", "INNER 7.0", 9), editor.move("stepBack", granularity="instruction")
    yield "adapter: a pause", ("pause", "INNER 7.0", 9), editor.move("pause")
    yield "adapter: no trap", "the run has not trapped", editor.ask("exceptionInfo")["message"]
    editor.end()


def protocol(program: list[str], folder: Path) -> Iterator[Trial]:
    """What is answered to messages of each kind."""
    deck = folder / "counts.deck"
    deck.write_text(COUNTS)
    editor = Editor(program)
    first = editor.ask("initialize", adapterID="l6")
    yield "adapter: what it can do", [f"supports{it}" for it in ABILITIES], [it for it, can in first["body"].items() if can]
    yield "adapter: the number and the name of a request", (1, "initialize", True), (
        first["request_seq"], first["command"], first["success"])
    yield "adapter: the one thread", [{"id": 1, "name": "run"}], editor.ask("threads")["body"]["threads"]
    yield "adapter: exceptions can't be chosen", True, editor.ask("setExceptionBreakpoints", filters=[])["success"]
    for command in ("continue", "next", "configurationDone", "setBreakpoints", "variables", "evaluate", "pause",
                    "terminate", "restart", "stepInTargets", "nonsense"):
        yield f"adapter: {command} where nothing is launched", (False, NO_RUN), (
            (refused := editor.ask(command))["success"], refused["message"])
    editor.ask("launch", program=str(deck))
    before = editor.ask("stackTrace")["body"]
    yield "adapter: an unknown request", (False, UNKNOWN), (
        (refused := editor.ask("nonsense"))["success"], refused["message"])
    yield "adapter: it changes nothing", before, editor.ask("stackTrace")["body"]
    for command in ("setVariable", "setExpression", "goto", "gotoTargets", "attach", "source", "restartFrame", "modules"):
        refused = editor.ask(command, variablesReference=1, name="A", expression="A", value="5", threadId=1)
        yield f"adapter: {command}, which is not offered", (False, UNKNOWN), (refused["success"], refused["message"])
    yield "adapter: they change nothing", (before, "0 000000000000"), (editor.ask("stackTrace")["body"], editor.value("A"))
    for name, body in (("no JSON", b"{a}"), ("no UTF-8", b'"\xff"'), ("nothing", b""), ("a number", b"5")):
        editor.frames.give(body)
        refused = editor.take() or {}
        yield f"adapter: a body of {name}", (0, False), (refused["request_seq"], refused["success"])
    editor.frames.send({"seq": 1, "type": "response", "request_seq": 1, "command": "continue"})
    editor.frames.send({"seq": 2, "type": "event", "event": "continue"})
    number = editor.number + 1
    yield "adapter: answers and events of a client are passed over", number, editor.ask("threads")["request_seq"]
    yield "adapter: the messages are numbered", list(range(1, len(editor.numbers) + 1)), editor.numbers
    yield "adapter: disconnect", 0, editor.end()
    yield "adapter: an input that ends", 1, Editor(program).frames.end()


def as_the_debugger(program: list[str], debugger: str, folder: Path) -> Iterator[Trial]:
    """Random requests lead where the commands of l6db lead."""
    told = 0
    for seed in range(SESSIONS):
        chosen = random.Random(seed)
        deck = folder / f"random{seed}.deck"
        deck.write_text(chosen.choice((DOUBLE, COUNTS)))
        steps = chosen.choices(sorted(MOVES), k=REQUESTS)
        editor = launched(program, deck, stopOnEntry=True)
        set_at = editor.breakpoints(deck, {"line": chosen.randrange(2, 8)})[0]
        editor.ask("configurationDone")
        places = [editor.stands()[1].split()[-1]]
        for request, granularity in steps:
            editor.events.clear()
            editor.ask(request, **({"granularity": granularity} if granularity else {}))
            message = editor.take()
            while message and message["event"] not in ("stopped", "terminated"):
                message = editor.take()
            if not message or message["event"] == "terminated":
                break
            places.append(editor.ask("stackTrace")["body"]["stackFrames"][0]["name"].split()[-1])
        commands = "".join(f"{MOVES[step]}\n" for step in steps[:len(places) - 1])
        breaks = f"break {set_at['id']}\n" if set_at["verified"] else ""
        said = answer_of([debugger, str(deck)], input=f"{breaks}{commands}".encode()).stdout.decode()
        led: list[str] = []
        for place, _, nowhere in PLACE.findall(said):
            told += bool(place or nowhere)
            led.append(place or (led[-1] if nowhere else "") or places[len(led):len(led) + 1][0])
        yield f"adapter: where the requests of seed {seed} lead", led, places
        editor.end()
    yield "adapter: places that the debugger has told itself", True, told > TOLD


def hostile(program: list[str], folder: Path, count: int) -> Iterator[Trial]:
    """Messages that no editor sends end nothing."""
    deck = folder / "double.deck"
    deck.write_text(DOUBLE)
    editor, chosen = launched(program, deck, stopOnEntry=True), random.Random(7)
    editor.ask("configurationDone")
    names = ["variables", "evaluate", "setBreakpoints", "setDataBreakpoints", "dataBreakpointInfo", "stackTrace", "scopes",
             "setFunctionBreakpoints", "exceptionInfo", "threads", "pause", "restart", "continue", "stepBack", "next",
             "launch", "stepOut", "reverseContinue", "configurationDone", "stepIn", "stepInTargets"]
    keys = ["variablesReference", "targetId", "frameId", "expression", "breakpoints", "name", "startFrame", "levels", "granularity", "program",
            "store", "steps", "output", "input"]
    lines = [{"line": 4}, {"line": 2**64 - 1}, {"name": "DROP"}, {"dataId": "LN"}, {"line": 3, "condition": "(A,E,5)"}]
    values: list[Any] = [*JUNK, lines, ":goto 7", "LN", str(deck), 1]
    answered, sent = 0, set[str]()
    for _ in range(count):
        arguments = chosen.choice([*JUNK, *[{key: chosen.choice(values) for key in keys}] * len(JUNK)])
        editor.number += 1
        message = {"seq": chosen.choice([*JUNK, editor.number]), "type": "request", "command": chosen.choice([*names, *JUNK]),
                   "arguments": arguments}
        sent.add(json.dumps(message))
        editor.frames.send(message)
        while (said := editor.take()) is not None and said["type"] != "response":
            pass
        answered += said is not None
    yield f"adapter: {count} hostile messages are answered", (count, True), (answered, len(sent) > count * 3 // 4)
    editor.ask("launch", program=str(deck), stopOnEntry=True)
    yield "adapter: and a run can still be launched and gone through", "state 3", editor.value(":goto 3")
    yield "adapter: the exit status then", 0, editor.end()


def session_of(deck: Path) -> bytes:
    """The requests of a session, in frames."""
    asked: list[tuple[str, dict[str, object]]] = [
        ("initialize", {}), ("launch", {"program": str(deck), "store": 1, "output": 100}),
        ("setBreakpoints", {"breakpoints": [{"line": 7}, {"line": 99}]}), ("configurationDone", {}), ("scopes", {}),
        ("variables", {"variablesReference": 1}), ("variables", {"variablesReference": 3}), ("stackTrace", {}),
        ("evaluate", {"expression": "LN"}), ("stepInTargets", {"frameId": 0}), ("setDataBreakpoints", {"breakpoints": [{"dataId": "MV"}]}), ("continue", {}),
        ("exceptionInfo", {}), ("reverseContinue", {}), ("restart", {}), ("disconnect", {})]
    return b"".join(framed({"seq": number, "type": "request", "command": command, "arguments": arguments})
                    for number, (command, arguments) in enumerate(asked, 1))


def refused_memory(program: list[str], folder: Path) -> Iterator[Trial]:
    """Each request for memory of a session is refused in turn."""
    deck = folder / "double.deck"
    deck.write_text(DOUBLE)
    stream = session_of(deck)
    yield from adapter_refusals(answer_of([*program, "dap"], input=stream), Shim(program[0], str(folder)), stream)


def adapter_refusals(whole: Answer[bytes], shim: Shim, stream: bytes) -> Iterator[Trial]:
    """A beginning of the answers of a session goes out, and nothing is kept."""
    refused, wrong = 0, list[int]()
    for request in itertools.count(1):
        made, counted = shim.run(["dap"], stream, request)
        if counted and not counted.was_refused:
            break
        if made != whole:
            refused += 1
            ended = made == Answer(made.stdout, b"l6ed: out of memory\n", 5) and whole.stdout.startswith(made.stdout)
            wrong += [] if ended and counted and counted.kept == 0 else [request]
    yield "adapter: the session with all its memory", (answer(made.stdout), 0), (whole, counted.kept if counted else None)
    yield "adapter: the requests for memory that end it otherwise than with a beginning of its answers", [], wrong
    yield "adapter: the requests for memory that end it", True, refused > 300


GROUPS = (freed_twice, variables, printouts, limits, launches, conditions, other_decks, restarts, frames, targets, protocol)
SAID_OTHERWISE = 20  # of their trials do not depend on what the adapter says


def adapter_trials(program: list[str], debugger: str, messages: int = HOSTILE) -> Iterator[Trial]:
    """All trials of an adapter."""
    with tempfile.TemporaryDirectory() as room:
        folder = Path(room)
        for trials in GROUPS:
            yield from trials(program, folder)
        yield from as_the_debugger(program, debugger, folder)
        yield from hostile(program, folder, messages)
        yield from refused_memory(program, folder)


def adapter_canary(program: list[str]) -> Trial:
    """A canary: an editor to which all is something else. What passes expects nothing, or two answers that are the same."""
    with tempfile.TemporaryDirectory() as room, mock.patch.object(adapter_editor, "Editor", OtherEditor), \
            mock.patch.object(sys.modules[__name__], "Editor", OtherEditor):
        made = [it for trials in GROUPS for it in trials(program, Path(room))]
    return few_pass("an adapter that says something else", SAID_OTHERWISE, made)


def main() -> int:
    """Tries the program that the command line names."""
    reader = argparse.ArgumentParser(description="Tries l6ed dap.")
    reader.add_argument("program", help="l6ed")
    reader.add_argument("debugger", help="l6db")
    reader.add_argument("--messages", type=int, default=HOSTILE, help="how many hostile messages are sent")
    words = reader.parse_args()
    program = [words.program]
    return report(adapter_trials(program, words.debugger, words.messages), [adapter_canary(program)])


if __name__ == "__main__":
    sys.exit(main())
