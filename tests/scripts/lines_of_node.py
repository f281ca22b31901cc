"""Trials of what notes which lines of a script are run in Node; gate.py makes them."""
from __future__ import annotations

import json
import tempfile
from collections.abc import Iterator
from pathlib import Path

from node_lines import node_lines
from ran_lines import Ran, lines_with_code
from trials import Trial

SCRIPT = "// What is run\nfirst();\nif (asked) {\n  /* one\n  two */\n  second();\n}\nlast();\n"


def lines_that_are_run() -> Iterator[Trial]:
    """Which lines of a script have code, and which were run, by what V8 counts; and that too few are seen."""
    yield "lines with code", {2, 3, 6, 8}, lines_with_code(SCRIPT)
    with tempfile.TemporaryDirectory() as folder:
        room, script, program = (Path(folder, name) for name in ("room", "script.js", "program.mjs"))
        room.mkdir()
        script.write_text(SCRIPT)
        program.write_text(f"begin();\n{SCRIPT}end();\n")
        text = program.read_text()
        block = (text.index("{"), text.index("}") + 1)
        for count, expected in ((0, ["6: second();"]), (1, [])):
            ranges = [(0, len(text), 1), (*block, count)]
            functions = [{"ranges": [dict(zip(("startOffset", "endOffset", "count"), it)) for it in ranges]}]
            counted = {"functions": functions, "url": program.resolve().as_uri()}
            (room / f"coverage-{count}.json").write_text(json.dumps({"result": [counted]}))
            ran = Ran(text)
            ran.add(functions)
            seen = ran.lines() & {it + 1 for it in lines_with_code(SCRIPT)}
            yield f"lines that were run, with a part that was run {count} times", {3, 4, 9} | ({7} if count else set()), seen
            made = {name: actual for name, _, actual in node_lines(room, {program: (script,)})}
            yield f"lines that are missed with {count}", [expected], [it for name, it in made.items() if "per cent" in name]
