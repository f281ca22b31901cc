"""How long an editor waits for what is wrong with a deck: from a change to its diagnostics, by `l6ed lsp`."""
from __future__ import annotations

import time
from collections.abc import Iterator
from typing import Any

from measure import BenchError
from peers import Frames

CARDS = (50, 1_000, 8_000)
URI = "file:///measured.deck"
ERROR = 1  # a severity of the protocol


def deck_of(cards: int) -> list[str]:
    """The cards of a deck without errors: tests, gets, links, sums and exits to labels all over it."""
    lines = ["       (0,DN,18,35)(A,E,0)"]
    for number in range(0, cards, 2):
        lines.append(f"L{number:05} IF (A,G,{number}) THEN L{number * 7 % cards & ~1:05}")
        lines.append(f"       (B,GT,1)(BN,E,A)(A,A,1) L{(number + 2) % cards & ~1:05}")
    return lines[:cards]


def told(server: Frames, method: str, **params: object) -> dict[str, Any]:
    """What the server publishes after a notification."""
    server.send({"jsonrpc": "2.0", "method": f"textDocument/{method}", "params": params})
    published: dict[str, Any] = server.take()
    return published


def changes(line: int, card: str) -> Iterator[tuple[bool, dict[str, Any]]]:
    """A parenthesis of a card is taken away, and put back: whether the deck is wrong then, and the change."""
    at = card.index(")")
    for is_wrong in (True, False):
        end = at + int(is_wrong)
        place = {"start": {"line": line, "character": at}, "end": {"line": line, "character": end}}
        yield is_wrong, {"range": place, "text": "" if is_wrong else ")"}


def least_wait(program: str, cards: int, times: int) -> tuple[int, float]:
    """The bytes of a deck, and the least seconds from a change to the last byte of what is published."""
    lines = deck_of(cards)
    text = "".join(f"{it}\n" for it in lines)
    server, version, best = Frames([program, "lsp"]), 1, float("inf")
    server.send({"jsonrpc": "2.0", "id": 1, "method": "initialize", "params": {"capabilities": {}}})
    server.take()
    told(server, "didOpen", textDocument={"uri": URI, "languageId": "l6", "version": version, "text": text})
    line = cards // 2 | 1
    for _ in range(times):
        for is_wrong, change in changes(line, lines[line]):
            version += 1
            begun = time.perf_counter()
            said = told(server, "didChange", textDocument={"uri": URI, "version": version}, contentChanges=[change])
            best = min(best, time.perf_counter() - begun)
            if any(it["severity"] == ERROR for it in said["params"]["diagnostics"]) != is_wrong:
                raise BenchError(f"{cards} cards: what is published is wrong: {said}")
    server.end()
    return len(text), best
