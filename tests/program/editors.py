#!/usr/bin/env python3
"""Tries the language server, `l6ed lsp`, as an editor speaks to it, and the debug adapter, `l6ed dap`.

editors.py PROGRAM DEBUGGER prints each difference, and last 'N passed, M failed'. PROGRAM is l6ed, and DEBUGGER is l6db.
The rows of editors.jsonl are requests with the answers that the protocol and the manual ask for, and each deck of
checks.jsonl has the findings that `l6 check` is to say. Texts that are changed at random are compared with Python's own,
and hostile messages must end nothing; each request for memory is refused in turn. adapter.py has the trials of the
adapter. With --whole there are more hostile messages, and editors are driven where they are installed.

    python3 tests/program/editors.py PROGRAM DEBUGGER --messages 20000
"""
from __future__ import annotations

import argparse
import html
import itertools
import json
import random
import re
import shutil
import sys
import tempfile
import time
from collections.abc import Callable, Iterable, Iterator
from pathlib import Path
from typing import Any
from unittest import mock

sys.path[:0] = [str(Path(__file__).resolve().parents[1] / it) for it in ("harness", "../tools")]
import editor_picture
from adapter import adapter_canary, adapter_refusals, adapter_trials
from adapter_editor import DOUBLE, other
from answers import Answer, answer, answer_of
from editor_clients import client_trials
from editor_settings import settings_trials
from peers import JUNK, SECONDS, Frames, frame_of, framed
from refused_memory import Requests, Shim, WrongShim
from trials import Trial, few_pass, groups_asked_for, report

ROWS = Path(__file__).resolve().with_name("editors.jsonl")
CHECKS = ROWS.with_name("checks.jsonl")
MESSAGES = 200  # hostile ones, unless there is another number
WHOLE = 2_000  # with --whole
CHANGES = 400  # of texts
FEW = 20  # messages and changes of canaries
MOST = 1 << 24  # bytes that a message may have
MOST_FINDINGS = 100  # that `l6 check` writes
URI = "file:///a%20deck"
FINDING = re.compile(r"^(\d+):(\d+): (error|warning): (.*)((?:\n    .*)*)", re.MULTILINE)
METHODS = {"definition": "definition", "references": "references", "highlights": "documentHighlight",
           "symbols": "documentSymbol", "rename": "rename", "hover": "hover", "fixes": "codeAction",
           "hints": "inlayHint", "completion": "completion"}
OFFERED = ["codeAction", "completion", "definition", "documentHighlight", "documentSymbol", "hover", "inlayHint", "references",
           "rename"]
PIECES = ["(A,E,5)", " ", "\n", "\r\n", "\r", "\u00e9", "\U0001f600", "NEXT", "IF (A,G,0) THEN ", "(", ")", "* ", "DONE"]


class Peer(Frames):
    """The server, and what was sent to it."""

    def __init__(self, program: list[str]) -> None:
        super().__init__([*program, "lsp"])
        self.number = 0  # of the last request
        self.version = 0  # of the last text

    def ask(self, method: str, params: object = None) -> Any:
        """The answer to a request."""
        self.number += 1
        self.send({"jsonrpc": "2.0", "id": self.number, "method": method, "params": params or {}})
        return self.take()

    def note(self, method: str, **params: object) -> None:
        """Sends a notification about a document."""
        self.send({"jsonrpc": "2.0", "method": f"textDocument/{method}", "params": params})

    def open(self, text: str, uri: str = URI) -> Any:
        """Opens a document; returns what is published."""
        self.version += 1
        self.note("didOpen", textDocument={"uri": uri, "languageId": "l6", "version": self.version, "text": text})
        return self.take()["params"]

    def change(self, changes: list[object], uri: str = URI) -> Any:
        """Changes a document; returns what is published."""
        self.version += 1
        self.note("didChange", textDocument={"uri": uri, "version": self.version}, contentChanges=changes)
        return self.take()["params"]


def started(program: list[str]) -> Peer:
    """A server that is initialized."""
    peer = Peer(program)
    peer.ask("initialize", {"capabilities": {}})
    peer.send({"jsonrpc": "2.0", "method": "initialized", "params": {}})
    return peer


def at(place: list[int]) -> dict[str, int]:
    """A place as the protocol has it."""
    return {"line": place[0], "character": place[1]}


def on_line(value: dict[str, Any]) -> list[int]:
    """A range within a line: its line, its first place, and the one after its last."""
    start, end = value["start"], value["end"]
    return [start["line"], start["character"], end["character"], *([] if start["line"] == end["line"] else [end])]


def lines_of(text: str) -> list[str]:
    """The lines of a text as editors have them, with their ends."""
    return re.findall(r"[^\r\n]*(?:\r\n|\r|\n)|[^\r\n]+\Z", text)


def offset(text: str, place: dict[str, int]) -> int:
    """How many characters of a text are in front of a place."""
    lines = lines_of(text)
    if place["line"] >= len(lines):
        return len(text)
    line = lines[place["line"]].rstrip("\r\n")
    front = line.encode("utf-16-le")[:2 * place["character"]].decode("utf-16-le")
    return sum(map(len, lines[:place["line"]])) + len(front)


def place_of(text: str, count: int) -> dict[str, int]:
    """The place after so many characters of a text."""
    front = lines_of(text[:count] + "|")
    return {"line": len(front) - 1, "character": len(front[-1][:-1].encode("utf-16-le")) // 2}


def edited(text: str, edits: list[dict[str, Any]]) -> str:
    """A text after edits, all of which are about the text before them."""
    for edit in sorted(edits, key=lambda it: offset(text, it["range"]["start"]), reverse=True):
        start, end = (offset(text, edit["range"][side]) for side in ("start", "end"))
        text = text[:start] + edit["newText"] + text[end:]
    return text


def params_of(row: dict[str, Any]) -> dict[str, Any]:
    """The parameters of a row's request."""
    params: dict[str, Any] = {"textDocument": {"uri": URI}}
    if "at" in row:
        params["position"] = at(row["at"])
    if "to" in row:
        params["newName"] = row["to"]
    if "declared" in row:
        params["context"] = {"includeDeclaration": row["declared"]}
    if "lines" in row:
        first, last = row["lines"]
        params["range"] = {"start": {"line": first, "character": 0}, "end": {"line": last, "character": 99}}
    return params


def seen(row: dict[str, Any], said: dict[str, Any]) -> object:
    """What a row is compared with, of an answer."""
    deck: str = row["deck"]
    result: Any = said.get("result")
    if "error" in said:
        return said["error"]["code"]
    if row["ask"] == "completion":
        names = [it["label"] for it in result]
        return [[it for it in row["has"] if it not in names], [it for it in row["lacks"] if it in names]]
    if result is None:
        return None
    views: dict[str, Callable[[], object]] = {
        "definition": lambda: on_line(result["range"]),
        "references": lambda: [on_line(it["range"]) for it in result],
        "highlights": lambda: [[*on_line(it["range"]), it["kind"]] for it in result],
        "symbols": lambda: [[it["name"], *on_line(it["selectionRange"])] for it in result],
        "rename": lambda: edited(deck, result["changes"][URI]),
        "hover": lambda: [*on_line(result["range"]), hovered(row, result["contents"]["value"])],
        "fixes": lambda: [[it["title"], edited(deck, it["edit"]["changes"][URI])] for it in result],
        "hints": lambda: [[it["position"]["line"], it["label"]] for it in result],
    }
    return views[row["ask"]]()


def hovered(row: dict[str, Any], text: str) -> str:
    """What is said, up to as much as the row has of it."""
    return text[:len(row["answer"][3])] if row["answer"] else text


def row_trials(peer: Peer) -> Iterator[Trial]:
    """Each row of the table."""
    for line in ROWS.read_text("utf-8").splitlines():
        row = json.loads(line)
        name = f"rows: {row['ask']}: {row['name']}"
        published = peer.open(row["deck"])
        if row["ask"] == "findings":
            actual: object = [[*on_line(it["range"]), it["severity"], it["code"]] for it in published["diagnostics"]]
        else:
            actual = seen(row, peer.ask(f"textDocument/{METHODS[row['ask']]}", params_of(row)))
        yield name, row.get("answer", [[], []]), actual


def check_trials(peer: Peer) -> Iterator[Trial]:
    """Each deck of checks.jsonl has the findings that the manual says: their lines, columns, kinds and words."""
    for line in CHECKS.read_text("utf-8").splitlines():
        row = json.loads(line)
        said = [(int(found[1]) - 1, int(found[2]) - 1, ("error", "warning").index(found[3]) + 1,
                 found[4] + "".join("\n" + it[4:] for it in found[5].splitlines()[1:]))
                for found in FINDING.finditer(row["said"])]
        # (what is counted otherwise is left out: units of UTF-16, lines that a carriage return ends; and a job's commands)
        if not row["deck"].isascii() or re.search(r"\r(?!\n)|\$COMMANDS", row["deck"]) or len(said) >= MOST_FINDINGS:
            continue
        found = peer.open(row["deck"])["diagnostics"]
        starts = [it["range"]["start"] for it in found]
        yield f"findings: {row['name']}", said, [
            (start["line"], start["character"], it["severity"], it["message"]) for start, it in zip(starts, found)]


def protocol_trials(program: list[str]) -> Iterator[Trial]:
    """What a server answers before, in and after a talk."""
    peer = Peer(program)
    yield "protocol: before initialize", -32002, peer.ask("textDocument/hover")["error"]["code"]
    first = peer.ask("initialize", {"capabilities": {}})
    yield "protocol: the id of the request", peer.number, first["id"]
    capabilities = first["result"]["capabilities"]
    yield "protocol: changes come by ranges", 2, capabilities["textDocumentSync"]["change"]
    yield "protocol: units of UTF-16", "utf-16", capabilities["positionEncoding"]
    yield "protocol: what is offered", OFFERED, sorted(it.removesuffix("Provider") for it in capabilities if it[-8:] == "Provider")
    yield "protocol: initialize twice", -32600, peer.ask("initialize")["error"]["code"]
    yield "protocol: an unknown method", -32601, peer.ask("textDocument/unknown")["error"]["code"]
    yield "protocol: no document", -32602, peer.ask("textDocument/hover")["error"]["code"]
    yield "protocol: a document that is not open", -32602, peer.ask("textDocument/hover", {
        "textDocument": {"uri": "file:///other"}, "position": at([0, 0])})["error"]["code"]
    for name, body in (("no JSON", b"{a}"), ("no UTF-8", b'"\xff"'), ("nothing", b"")):
        peer.give(body)
        said = peer.take()
        yield f"protocol: a body of {name}", (-32700, None), (said["error"]["code"], said["id"])
    others: dict[str, object] = {"a number": 5, "no method": {"jsonrpc": "2.0"}, "a method that is no text": {"method": 1}}
    for name, value in others.items():
        peer.send(value)
        yield f"protocol: {name}", -32600, peer.take()["error"]["code"]
    ids: list[object] = [7, "seven", None, -1, 1.5, [1]]
    for it in ids:
        peer.send({"jsonrpc": "2.0", "id": it, "method": "unknown"})
        yield f"protocol: the id {it}", it, peer.take()["id"]
    peer.send({"jsonrpc": "2.0", "id": 9, "result": None})
    peer.send({"jsonrpc": "2.0", "method": "$/cancelRequest", "params": {"id": 1}})
    yield "protocol: answers and notifications are not answered", peer.number + 1, peer.ask("unknown")["id"]
    yield "protocol: shutdown", None, peer.ask("shutdown")["result"]
    yield "protocol: after shutdown", -32600, peer.ask("textDocument/hover")["error"]["code"]
    peer.send({"jsonrpc": "2.0", "method": "exit"})
    yield "protocol: exit after shutdown", 0, peer.process.wait(SECONDS)


def document_trials(peer: Peer) -> Iterator[Trial]:
    """What is published of a document that is opened, changed and closed."""
    published = peer.open(" (PL) Y\n")
    yield "documents: the version", peer.version, published["version"]
    yield "documents: the name", URI, published["uri"]
    yield "documents: a whole text", [], peer.change([{"text": " (PL)\n"}])["diagnostics"]
    place = {"start": at([0, 5]), "end": at([0, 5])}
    found = peer.change([{"range": place, "text": " Z"}, {"range": place, "text": " (PL)"}])["diagnostics"]
    yield "documents: two changes, the second of the text after the first", [[0, 11, 12]], [
        on_line(it["range"]) for it in found]
    yield from odd_changes(peer)
    found = peer.open("LOOP (PL)\nX (PL)\nLOOP (PL) X\n")["diagnostics"]
    yield "documents: who says what is found", ["l6"], [it["source"] for it in found]
    yield "documents: the card that gives a label first", [[(URI, [0, 0, 9])]], [
        [(one["location"]["uri"], on_line(one["location"]["range"])) for one in it["relatedInformation"]] for it in found]
    peer.note("didClose", textDocument={"uri": URI})
    yield "documents: nothing of a closed one", {"uri": URI, "diagnostics": []}, peer.take()["params"]
    yield "documents: it is closed", -32602, peer.ask("textDocument/documentSymbol", {
        "textDocument": {"uri": URI}})["error"]["code"]
    long = " (PL)\n" * 180_000
    found = peer.open(long)["diagnostics"]
    yield "documents: a deck that is too long", ["too-long"], [it["code"] for it in found]


def odd_changes(peer: Peer) -> Iterator[Trial]:
    """Changes past the end of a line or of the text, as the protocol has them; and what is no change, and changes nothing."""
    peer.open("(PL)\n (PL)\n")
    found = peer.change([{"range": {"start": at([0, 900]), "end": at([0, 901])}, "text": " Y"},
                         {"range": {"start": at([0, 0]), "end": at([0, 0])}, "text": " "}])["diagnostics"]
    yield "documents: a change past the end of a line", [[0, 6, 7]], [on_line(it["range"]) for it in found]
    found = peer.change([{"range": {"start": at([50, 7]), "end": at([60, 0])}, "text": " (PL) Z\n"}])["diagnostics"]
    yield "documents: a change past the last line", [[0, 6, 7], [2, 6, 7]], [on_line(it["range"]) for it in found]
    wrong: dict[str, Any] = {
        "a list that is a text": "x", "no text": [{"rangeLength": 3}], "a text that is a number": [{"text": 5}],
        "a line below 0": [{"range": {"start": at([-1, 0]), "end": at([0, 1])}, "text": "A"}],
        "a range that ends before it starts": [{"range": {"start": at([0, 3]), "end": at([0, 1])}, "text": "A"}],
        "a range of one place": [{"range": {"start": at([0, 0])}, "text": "A"}], "a range that is none": [{"range": None, "text": "A"}],
        "a column that is too large": [{"range": {"start": at([0, 2**64]), "end": at([0, 2**64])}, "text": "A"}]}
    for name, changes in wrong.items():
        yield f"documents: {name} changes nothing", found, peer.change(changes)["diagnostics"]


def change_trials(peer: Peer, count: int) -> Iterator[Trial]:
    """Texts that are changed by ranges have the findings of the whole texts."""
    chance = random.Random(1966)
    text = "".join(chance.choices(PIECES, k=30))
    peer.open(text, "a")
    differences, found_in, texts = 0, 0, set[str]()
    for _ in range(count):
        start, end = sorted(chance.randrange(len(text) + 1) for _ in range(2))
        end = min(end, start + 12)
        start, end = (it - (text[it - 1:it + 1] == "\r\n") for it in (start, end))
        new = "".join(chance.choices(PIECES, k=chance.randrange(9)))
        places = {"start": place_of(text, start), "end": place_of(text, max(start, end))}
        mine = peer.change([{"range": places, "text": new}], "a")["diagnostics"]
        text = text[:start] + new + text[max(start, end):]
        whole = peer.open(text, "b")["diagnostics"]
        for found in (*mine, *whole):
            for other in found.get("relatedInformation", ()):
                other["location"].pop("uri")
        differences += mine != whole
        found_in += bool(whole)
        texts.add(text)
    yield f"changes: {count} of ranges", 0, differences
    yield "changes: of texts that differ, and that have findings", (True, True), (len(texts) > count * 3 // 4, found_in > count // 2)


def altered(chance: random.Random, value: Any) -> Any:
    """A value of which parts are others."""
    if chance.random() < 0.08:
        return chance.choice(JUNK)
    if isinstance(value, dict):
        value = {key: altered(chance, it) for key, it in value.items()}
        if value and chance.random() < 0.1:
            value.pop(chance.choice(list(value)))
    elif isinstance(value, list):
        value = [altered(chance, it) for it in value]
    return value


def hostile_message(chance: random.Random) -> Any:
    """A message that is wrong in places."""
    place, end = ({"line": chance.randrange(6), "character": chance.randrange(20)} for _ in range(2))
    document = {"uri": "file:///h", "version": chance.randrange(9), "text": "".join(chance.choices(PIECES, k=40))}
    method = chance.choice(["didOpen", "didChange", "didClose", *METHODS.values()])
    params = {"textDocument": document, "position": place, "newName": chance.choice(["X", "DONE", "", "\u00e9"]),
              "range": {"start": place, "end": end}, "context": {"includeDeclaration": False},
              "contentChanges": [{"range": {"start": place, "end": end}, "text": "".join(chance.choices(PIECES, k=5))}]}
    message = {"jsonrpc": "2.0", "method": f"textDocument/{method}", "params": params}
    if not method.startswith("did"):
        message["id"] = chance.choice(JUNK[:8])
    return altered(chance, message) if chance.random() < 0.7 else message


def hostile_trials(peer: Peer, count: int) -> Iterator[Trial]:
    """Wrong messages end nothing: a request after each of them is answered."""
    chance, sent = random.Random(36), set[str]()
    answered = 0
    for number in range(count):
        message = hostile_message(chance)
        sent.add(json.dumps(message))
        peer.send(message)
        peer.send({"jsonrpc": "2.0", "id": f"after {number}", "method": "unknown"})
        while (said := peer.take()) is not None and said.get("id") != f"after {number}":
            pass
        answered += said is not None
    yield f"hostile: {count} messages", count, answered
    yield "hostile: messages that differ", True, len(sent) > count * 3 // 4


def word_trials(program: list[str]) -> Iterator[Trial]:
    """What the words of the command line ask for, and streams that are no messages."""
    wrong = b"l6ed: the words are wrong: l6ed lsp, l6ed dap, or l6ed --help\n"
    for words in ("", "dap dap", "lsp lsp", "--lsp"):
        yield f"words: {words or 'none'}", answer(b"", wrong, 64), answer_of([*program, *words.split()], input=b"")
    yield "words: --version", answer(b"l6ed 1.0\n"), answer_of([*program, "--version"], input=b"")
    said = answer_of([*program, "--help"], input=b"")
    yield "words: --help", (True, 0), (b"Usage: l6ed lsp | dap\n" in said.stdout, said.status)
    yield "streams: no message at all", answer(status=1), answer_of([*program, "lsp"], input=b"")
    yield "streams: exit without shutdown", answer(status=1), answer_of(
        [*program, "lsp"], input=framed({"jsonrpc": "2.0", "method": "exit"}))
    for name, sent in (("no head", b"hello\r\n\r\n"), ("a head without a length", b"A: b\r\n\r\n"),
                       ("a head that is too long", b"A: " + b"b" * 5000), ("a head of 16 MiB", b"A: b\r\n" * (MOST // 6)),
                       ("a body that is too long", b"Content-Length: 16777217\r\n\r\n")):
        yield f"streams: {name}", answer(b"", b"l6ed: what came is no message\n", 4), answer_of(
            [*program, "lsp"], input=sent)
    body = b'{"id": 1, "method": "%s"}' % (b"x" * (MOST - 23))
    said = answer_of([*program, "lsp"], input=frame_of(body), preexec_fn=None)
    yield "streams: the longest body", (MOST, True, 1), (len(body), b'"code":-32002' in said.stdout, said.status)
    yield "streams: an end in a message", answer(status=1), answer_of([*program, "lsp"], input=framed({})[:-1])


def piece_trials(program: list[str]) -> Iterator[Trial]:
    """A stream that comes byte by byte, and one that comes at once, have the same answers."""
    messages = [{"jsonrpc": "2.0", "id": 1, "method": "initialize"}, {"jsonrpc": "2.0", "id": 2, "method": "\u00e9"},
                {"jsonrpc": "2.0", "id": 3, "method": "shutdown"}, {"jsonrpc": "2.0", "method": "exit"}]
    stream = b"".join(map(framed, messages))
    whole = answer_of([*program, "lsp"], input=stream)
    peer = Peer(program)
    for byte in stream:
        peer.input.write(bytes([byte]))
        time.sleep(0.0005)
    said = peer.output.read()
    yield "pieces: byte by byte", (whole.stdout, 0), (said, peer.process.wait(SECONDS))
    yield "pieces: each request is answered", 3, whole.stdout.count(b"Content-Length: ")


def refused_talk() -> bytes:
    """A talk with each request, in frames."""
    document = {"uri": URI, "version": 1, "text": "LOOP   (A,PD) LOPP\n       (A,E,1) LOOP\n"}
    place = {"textDocument": document, "position": at([0, 1]), "newName": "B", "range": {"start": at([0, 0]), "end": at([1, 0])},
             "contentChanges": [{"text": "LOOP   (A,PD) LOOP\n"}]}
    notes = [{"jsonrpc": "2.0", "method": f"textDocument/{it}", "params": place} for it in ("didOpen", "didChange")]
    asked = [{"jsonrpc": "2.0", "id": it, "method": f"textDocument/{it}", "params": place} for it in METHODS.values()]
    first = [{"jsonrpc": "2.0", "id": 1, "method": "initialize"}, notes[0], *asked, notes[1], *asked]
    last = [{"jsonrpc": "2.0", "id": 2, "method": "shutdown"}, {"jsonrpc": "2.0", "method": "exit"}]
    return b"".join(map(framed, [*first, *last]))


def refused_trials(program: list[str]) -> Iterator[Trial]:
    """Each request for memory of a talk is refused in turn."""
    with tempfile.TemporaryDirectory() as folder:
        yield from refusals(answer_of([*program, "lsp"], input=refused_talk()), Shim(program[0], folder))


def refusals(whole: Answer[bytes], shim: Shim) -> Iterator[Trial]:
    """A beginning of the answers of a talk goes out, and nothing is kept."""
    stream, refused = refused_talk(), 0
    for request in itertools.count(1):
        made, counted = shim.run(["lsp"], stream, request)
        if counted and not counted.was_refused:
            break
        refused += made != whole
        expected = Answer(made.stdout, b"l6ed: out of memory\n", 5) if made != whole else whole
        is_front = whole.stdout.startswith(made.stdout)
        kept = counted.kept if counted else None
        yield f"memory: request {request} is refused", (expected, True, 0), (made, is_front, kept)
    yield "memory: the requests end the talk", True, refused > 500


def picture_trials(peer: Peer, program: str, is_whole: bool) -> Iterator[Trial]:
    """The picture of neovim's screen has each card of its deck, and each finding; where neovim is, it is made again."""
    picture = editor_picture.PICTURE.read_text("utf-8")
    shown = [html.unescape(it) for it in re.findall(r">([^<]+)</text>", picture)]
    missing = [it for it in editor_picture.DECK.splitlines() if it.replace(" ", "") not in "".join(shown).replace(" ", "")]
    yield "picture: the cards that it does not show", [], missing
    page = (ROWS.parents[2] / "docs/editors.md").read_text("utf-8")
    yield "picture: the page has its deck", True, f"```figure\n{editor_picture.DECK}```\n" in page
    said = [it["message"].split("\n") for it in peer.open(editor_picture.DECK)["diagnostics"]]
    yield "picture: the findings", 3, len(said)
    for sentence, advice in said:
        yield f"picture: {sentence}", True, any(sentence in it and advice in it for it in shown)
    if not is_whole or not shutil.which("nvim"):
        print(f"skipped: the picture made again: {'neovim is missing' if is_whole else 'as was asked'}")
        return
    yield "picture: made again", picture, editor_picture.svg(editor_picture.screen_of(Path(program)))


def trials(program: list[str], debugger: str, messages: int, is_whole: bool) -> Iterator[Trial]:
    """All trials, or those of settings alone if they are asked for."""
    if "talks" in groups_asked_for(("settings", "talks")):
        yield from talk_trials(program, debugger, messages, is_whole)
    yield from settings_trials()


def talk_trials(program: list[str], debugger: str, messages: int, is_whole: bool) -> Iterator[Trial]:
    """All trials of a program."""
    peer = started(program)
    yield from picture_trials(peer, program[0], is_whole)
    yield from row_trials(peer)
    yield from check_trials(peer)
    yield from document_trials(peer)
    yield from change_trials(peer, CHANGES)
    yield from hostile_trials(peer, messages)
    yield "streams: the end of the input without an exit", 1, peer.end()
    yield from protocol_trials(program)
    yield from word_trials(program)
    yield from piece_trials(program)
    yield from refused_trials(program)
    yield from adapter_trials(program, debugger, messages)
    if is_whole:
        yield from client_trials(program, DOUBLE)


class OtherPeer(Peer):
    """A server of whose answers each number and each text is another one."""

    def take(self) -> Any:
        """The next message, and what it says otherwise."""
        message = super().take()
        return message and {name: value if name in ("id", "method") else other(value) for name, value in message.items()}


class OtherChanges(Peer):
    """An editor that changes its texts otherwise than it means to."""

    def change(self, changes: list[Any], uri: str = URI) -> Any:
        """Changes a document to another text; returns what is published."""
        return super().change([{**it, "text": f"{it['text']} Y"} for it in changes], uri)


class Silent(Peer):
    """A server that has ended."""

    def __init__(self) -> None:
        self.number = 0

    def send(self, message: object) -> None:
        """Takes a message, and does nothing."""

    def take(self) -> Any:
        """Nothing."""
        return None


SAID_OTHERWISE = 11  # trials of a group do not depend on it: of what has changed nothing, of ids, and of names


def passing(trials: Iterable[Trial]) -> list[str]:
    """The names of trials that pass, and expect something."""
    return [name for name, expected, actual in trials if expected == actual and expected not in (None, [], [[], []])]


def canaries(program: list[str]) -> Iterator[Trial]:
    """Answers with other numbers and texts, and talks that end otherwise where memory is refused."""
    peer = OtherPeer(program)
    peer.ask("initialize", {"capabilities": {}})
    peer.send({"jsonrpc": "2.0", "method": "initialized", "params": {}})
    for group in (row_trials, check_trials):
        yield f"{group.__name__} of other answers", True, bool(passing(group(peer)))
    yield few_pass("documents of other answers", SAID_OTHERWISE, document_trials(peer))
    peer.end()
    with mock.patch.object(sys.modules[__name__], "Peer", OtherPeer):
        yield few_pass("a talk of other answers", SAID_OTHERWISE, protocol_trials(program))
    changing = OtherChanges(program)
    changing.ask("initialize", {"capabilities": {}})
    yield next(change_trials(changing, FEW))
    changing.end()
    yield next(hostile_trials(Silent(), FEW))
    with tempfile.TemporaryDirectory() as folder:
        wrong = Path(folder, "wrong")
        wrong.write_text("#!/bin/sh\ncat > /dev/null\necho wrong\nexit 77\n", "ascii")
        wrong.chmod(0o755)
        yield few_pass("words of a wrong program", 0, word_trials([str(wrong)]))
    whole = answer_of([*program, "lsp"], input=refused_talk())
    said, lacks = whole.stdout[:9], b"l6ed: out of memory\n"
    nothing = WrongShim(whole, Requests(1, False, 0, 1, 1))
    yield from refusals(whole, nothing)
    yield list(adapter_refusals(whole, nothing, b""))[-1]
    for what, ended, kept in (
        ("another answer", answer(b"other", lacks, 5), 0), ("another message", answer(said, b"l6ed: out of paper\n", 5), 0),
        ("another status", answer(said, lacks, 4), 0), ("what is kept", answer(said, lacks, 5), 1),
    ):
        requests = [Requests(1, was_refused, kept, 1, 1) for was_refused in (True, False)]
        _, expected, actual = next(refusals(whole, WrongShim(ended, *requests)))
        yield f"refused memory: {what}", expected, actual
        _, (_, expected, actual), _ = adapter_refusals(whole, WrongShim(ended, *requests), b"")
        yield f"refused memory of the adapter: {what}", expected, actual


def main() -> int:
    """Tries the program that the command line names."""
    reader = argparse.ArgumentParser(description="Tries l6ed.")
    reader.add_argument("program", help="l6ed")
    reader.add_argument("debugger", help="l6db, which leads where the adapter is to lead")
    reader.add_argument("--messages", type=int, help="how many hostile messages are sent")
    reader.add_argument("--whole", action="store_true", help="whether all is tried that the gate tries")
    words = reader.parse_args()
    program = [words.program]
    messages = words.messages or (WHOLE if words.whole else MESSAGES)
    return report(trials(program, words.debugger, messages, words.whole), [*canaries(program), adapter_canary(program)])


if __name__ == "__main__":
    sys.exit(main())
