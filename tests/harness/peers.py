"""Peers: programs that speak to an editor by messages in frames."""
from __future__ import annotations

import json
import os
import select
import subprocess
from typing import Any

SECONDS = 120  # for one answer on a machine that is busy
JUNK: list[Any] = [None, True, 0, -1, 1e300, 2**63, 2**64, "", "\u00e9\U0001f600", [], {}, [[]],
                   {"line": 2**63, "character": 2**64 - 1}, "x" * 5000]


class Frames:
    """A program that takes messages in frames, and sends others."""

    def __init__(self, command: list[str]) -> None:
        self.process = subprocess.Popen(command, stdin=subprocess.PIPE, stdout=subprocess.PIPE,
                                        stderr=subprocess.DEVNULL, bufsize=0)
        assert self.process.stdin and self.process.stdout
        self.input, self.output = self.process.stdin, self.process.stdout
        self.waiting = b""  # bytes that came and are not taken yet

    def give(self, body: bytes) -> None:
        """Sends a frame."""
        self.input.write(frame_of(body))

    def send(self, message: object) -> None:
        """Sends a message."""
        self.give(json.dumps(message).encode())

    def take(self) -> Any:
        """The next message, or None if the program has ended."""
        while True:
            head, found, rest = self.waiting.partition(b"\r\n\r\n")
            if found:
                length = int(head.removeprefix(b"Content-Length: "))
                if len(rest) >= length:
                    self.waiting = rest[length:]
                    return json.loads(rest[:length])
            if not select.select([self.output], [], [], SECONDS)[0]:
                raise TimeoutError(f"no answer within {SECONDS} seconds")
            more = os.read(self.output.fileno(), 1 << 16)
            if not more:
                return None
            self.waiting += more

    def end(self) -> int:
        """Closes its input; returns its exit status."""
        self.input.close()
        return self.process.wait(SECONDS)


def frame_of(body: bytes) -> bytes:
    """The frame of a body."""
    return b"Content-Length: %d\r\n\r\n%s" % (len(body), body)


def framed(message: object) -> bytes:
    """The frame of a message."""
    return frame_of(json.dumps(message).encode())
