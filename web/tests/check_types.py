#!/usr/bin/env python3
"""Checks the types of the page's scripts, by Debian's node-typescript: web/tsconfig.json says how.

All is checked strictly, and nothing of that may be switched off. check_types.py prints what is wrong, and last
'N passed, M failed'.
"""
from __future__ import annotations

import json
import subprocess
import sys
import tempfile
from pathlib import Path

WEB = Path(__file__).resolve().parent.parent
WRONG = {  # what must be found
    "a wrong type": "/** @type {string} */\nexport const canary = 1;\n",
    "a parameter without a type": "export const canary = (it) => it;\n",
    "a value that may be null": "export const canary = document.getElementById('a').id;\n",
}
MOST_LINES = 400  # of a script


def found(*words: str) -> list[str]:
    """What tsc finds wrong."""
    ran = subprocess.run(["tsc", *words], capture_output=True, text=True)
    lines = ran.stdout.splitlines()
    return lines if lines or ran.returncode == 0 else [f"tsc ends with status {ran.returncode}"]


def switched_off() -> list[str]:
    """What the page's configuration does not check of what `strict` does."""
    options = json.loads((WEB / "tsconfig.json").read_text("utf-8"))["compilerOptions"]
    wrong = [f"{name} is {value} in tsconfig.json" for name, value in options.items()
             if value is False or (name == "strict" and value is not True)]
    with tempfile.TemporaryDirectory(prefix="l6-types-") as folder:
        for what, text in WRONG.items():
            canary = Path(folder, "canary.js")
            canary.write_text(text)
            if not found("--allowJs", "--checkJs", "--noEmit", "--strict", str(options["strict"]).lower(), str(canary)):
                wrong.append(f"{what} is not found")
    return wrong


def long_files() -> list[str]:
    """The scripts that are too long."""
    sizes = {file: len(file.read_text("utf-8").splitlines()) for file in (WEB / "src").glob("*.js")}
    return [f"{file.name} has {size} lines" for file, size in sorted(sizes.items()) if size > MOST_LINES]


def main() -> int:
    """Checks all; answers the exit status."""
    parts = [switched_off(), found("-p", str(WEB / "tsconfig.json")), long_files()]
    wrong = [line for part in parts for line in part]
    print("".join(f"{line}\n" for line in wrong), end="")
    print(f"{sum(not part for part in parts)} passed, {len(wrong)} failed")
    return 1 if wrong else 0


if __name__ == "__main__":
    sys.exit(main())
