"""Does one job: python3 -m model run|list|asm|load|renew|debug [OPTIONS] < JOB, in the folder tests/program/."""
from __future__ import annotations

import sys

from .command import answer_of
from .jobs import JOB_LIMIT


def main() -> int:
    """Does the job that stands on standard input, and answers the exit status."""
    answer = answer_of(sys.argv[1:], lambda: sys.stdin.buffer.read(JOB_LIMIT + 1))
    sys.stdout.buffer.write(answer.stdout)
    sys.stdout.buffer.flush()
    sys.stderr.buffer.write(answer.stderr)
    return answer.status


if __name__ == "__main__":
    sys.exit(main())
