"""Programs on a pseudoterminal."""
from __future__ import annotations

import os
import pty
import select
import signal
import time
from collections.abc import Mapping

SECONDS = 60  # for one answer on a machine that is busy
AT_ONCE = 1 << 16  # bytes that are read
UNWANTED = (signal.SIGINT, signal.SIGQUIT, signal.SIGHUP)  # signals that a job in the background ignores


class Pseudoterminal:
    """A program on a pseudoterminal, with this environment."""

    def __init__(self, command: list[str], environment: Mapping[str, str] = os.environ) -> None:
        self.shown, self.was_found = b"", True  # what is shown and not taken yet; whether what was waited for last has come
        self.process, self.device = pty.fork()
        if self.process == 0:
            for number in UNWANTED:
                signal.signal(number, signal.SIG_DFL)
            os.execvpe(command[0], command, environment)

    def give(self, keys: bytes) -> None:
        """Types keys."""
        os.write(self.device, keys)

    def until(self, text: bytes) -> bytes:
        """What is shown up to a text, or all that is shown if it does not come."""
        end = time.monotonic() + SECONDS
        while text not in self.shown and time.monotonic() < end:
            if select.select([self.device], [], [], 0.1)[0]:
                try:
                    more = os.read(self.device, AT_ONCE)
                except OSError:
                    break
                if not more:
                    break
                self.shown += more
        before, found, self.shown = self.shown.partition(text)
        self.was_found = bool(found)
        return before + found

    def status(self) -> int:
        """The status with which it ends; it is killed if it does not."""
        end = time.monotonic() + SECONDS
        while time.monotonic() < end:
            process, status = os.waitpid(self.process, os.WNOHANG)
            if process:
                return os.waitstatus_to_exitcode(status)
            time.sleep(0.01)
        os.kill(self.process, signal.SIGKILL)
        return os.waitstatus_to_exitcode(os.waitpid(self.process, 0)[1])
