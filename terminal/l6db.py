#!/usr/bin/env python3
"""l6db at a terminal: lines that can be edited, a history, completion, cards in view, and Ctrl-C that stops a
command and not the session.

l6db.py ENGINE [WORDS..] starts the engine, which is the proved program l6db, with these words, and gives it one
line at a time over pipes. The front end works out no state: where a command leads, and what is said of it, is the
engine's. It needs Python 3.8 or later and nothing besides. With an older one the engine is run as it is; without
readline, lines are read as they are typed.
"""
import os
import sys


def main() -> int:
    """Begins the session; answers the exit status. (Any Python 3 reads this file.)"""
    if sys.version_info < (3, 8):
        os.execv(sys.argv[1], sys.argv[1:])
    sys.dont_write_bytecode = True  # (where this is installed nothing is added, so that all can be removed)
    sys.path.insert(0, os.path.dirname(os.path.abspath(__file__)))
    from front import play

    return play(sys.argv[1], sys.argv[2:])


if __name__ == "__main__":
    sys.exit(main())
