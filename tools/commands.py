"""Commands that run side by side, and that end when this program does."""
from __future__ import annotations

import os
import signal
import subprocess
import sys
import tempfile
import threading
import time
from collections.abc import Callable, Sequence
from dataclasses import dataclass
from pathlib import Path
from typing import IO, NoReturn


class Stopped(Exception):
    """This program was asked to stop, so the command was not run, or not to its end."""


@dataclass(frozen=True)
class Ended:
    """A command that has ended."""

    status: int  # below 0 if a signal ended it
    text: str  # what it wrote to both outputs
    seconds: float
    processor_seconds: float  # its own and those of the commands that it ran

    @property
    def was_killed(self) -> bool:
        """Whether it was killed, most likely because memory ran out, or ended because what it ran was."""
        return self.status in (-signal.SIGKILL, 256 - signal.SIGKILL)


class Commands:
    """Runs commands, in threads of the caller, until it is asked to stop."""

    def __init__(self) -> None:
        self._running: set[subprocess.Popen[bytes]] = set()
        self._stopped = False
        self._lock = threading.Lock()

    def run(self, words: Sequence[str], folder: Path, given: Path | None = None) -> Ended:
        """Runs a command in a folder to its end, on a file, if there is that, and else on no input."""
        start = time.monotonic()
        with tempfile.TemporaryFile() as output:
            process = self._start(words, folder, output, given if given and given.is_file() else Path(os.devnull))
            _, status, usage = os.wait4(process.pid, 0)
            with self._lock:
                process.returncode = os.waitstatus_to_exitcode(status)
                self._running.remove(process)
                if self._stopped:
                    raise Stopped
            output.seek(0)
            text = output.read().decode("utf-8", "replace")
        seconds = time.monotonic() - start
        return Ended(process.returncode, text, seconds, usage.ru_utime + usage.ru_stime)

    def stop(self) -> None:
        """Ends all commands, and starts no more."""
        with self._lock:
            self._stopped = True
            for process in self._running:
                process.send_signal(signal.SIGTERM)

    def _start(
        self, words: Sequence[str], folder: Path, output: IO[bytes], given: Path
    ) -> subprocess.Popen[bytes]:
        """Starts a command, which writes both of its outputs to a file."""
        with self._lock:
            if self._stopped:
                raise Stopped
            with given.open("rb") as standard_input:
                process = subprocess.Popen(
                    words, cwd=folder, stdin=standard_input, stdout=output, stderr=subprocess.STDOUT
                )
            self._running.add(process)
            return process


def run_program(main: Callable[[], int]) -> NoReturn:
    """Ends this program with the status that main returns; a request to end is a KeyboardInterrupt."""
    for number in (signal.SIGTERM, signal.SIGHUP):
        signal.signal(number, signal.default_int_handler)
    try:
        sys.exit(main())
    except KeyboardInterrupt:
        print("stopped; what was proved is kept", file=sys.stderr)
        # (so that a shell that waits for this program learns that it was interrupted)
        signal.signal(signal.SIGINT, signal.SIG_DFL)
        os.kill(os.getpid(), signal.SIGINT)
        sys.exit(128 + signal.SIGINT)
