"""Which lines of the page's scripts the trials run, by what Chromium and Node count of each (precise coverage).

A part of the tests that is to be counted has a folder in its environment, as the variable $L6_LINES; there it writes
what it ran. `lines_not_run` puts that together. A line counts as run if a part of it was, in whatever script: the
page's, the worker's or the loader's, or the file itself in Node.
"""
from __future__ import annotations

import importlib.util
import json
import os
import sys
import time
from collections.abc import Iterator
from importlib.machinery import SourceFileLoader
from pathlib import Path
from types import ModuleType

WEB = Path(__file__).resolve().parent.parent
sys.path.insert(0, str(WEB.parent / "tests/harness"))

from browser import Browser  # noqa: E402
from ran_lines import Ran, counted_in_node, lines_with_code  # noqa: E402

SOURCES = WEB / "src"
LINES = "L6_LINES"  # a variable of the environment: the folder for what was run
SCRIPTS = ("loader", "page", "worker")  # that the page has
PATIENCE = 1.0  # seconds in which a worker that does nothing answers
Line = tuple[str, int]  # a file of web/src and a line of it, from 1 on


def bundler() -> ModuleType:
    """The program web/bundle, which makes the page's scripts of the files."""
    loader = SourceFileLoader("bundle", str(WEB / "bundle"))
    found = importlib.util.spec_from_loader("bundle", loader)
    if found is None:
        raise ImportError("web/bundle can't be loaded")
    module = importlib.util.module_from_spec(found)
    loader.exec_module(module)
    return module


class Script(Ran):
    """A script of the page, and where each of its lines is from."""

    def __init__(self, text: str, origins: list[Line | None]) -> None:
        super().__init__(text)
        self.origins = origins

    def lines_of_files(self) -> set[Line]:
        """The lines of files of which something was run."""
        found = (self.origins[number - 1] for number in self.lines())
        return {line for line in found if line}


def scripts_of_page() -> list[Script]:
    """The scripts of the page as web/bundle makes them of web/src."""
    bundle = bundler()
    shared = {name: text for name, text in bundle.files_of("worker").items() if name in bundle.files_of("page")}
    found = []
    for name in SCRIPTS:
        first = {} if name == "loader" else shared
        others = {file: text for file, text in bundle.files_of(name).items() if file not in first}
        # (a first line says that the script is strict, and another one begins the function around all)
        lines: list[Line | None] = [None, None]
        for file, text in [*first.items(), *others.items()]:
            # (the first line of each is one that web/bundle adds)
            for number, row in enumerate(text.splitlines()):
                if row.strip() and not row.strip().startswith("//"):
                    lines.append((f"{file}.js", number))
        found.append(Script(bundle.bundled(name, first), [*lines, None]))
    return found


class CountedBrowser(Browser):
    """A browser that counts which lines of the page's scripts are run, also by the page's workers."""

    def __init__(self) -> None:
        self._scripts = {len(script.text): script for script in scripts_of_page()}
        self._workers: set[str] = set()
        self._asked: set[int] = set()  # of workers
        super().__init__()
        self._call("Profiler.enable")
        self._call("Profiler.startPreciseCoverage", callCount=True, detailed=True)
        self._call("Target.setAutoAttach", autoAttach=True, waitForDebuggerOnStart=True, flatten=True)

    def open(self, page: Path | str, fragment: str = "") -> None:
        self.count()
        super().open(page, fragment)

    def count(self) -> None:
        """Takes what was counted since the last call. A worker that is busy is left out."""
        self._asked |= {self._send_to(it, "Profiler.takePreciseCoverage") for it in self._workers}
        self._add(self._call("Profiler.takePreciseCoverage"))
        end = time.monotonic() + PATIENCE
        while self._asked and time.monotonic() < end:
            self.value("new Promise(it => setTimeout(it, 5))")
        self._asked.clear()

    def write(self, folder: Path) -> None:
        """Writes which lines were run to a file of a folder."""
        self.count()
        ran = sorted(set().union(*(script.lines_of_files() for script in self._scripts.values())))
        (folder / f"chromium-{os.getpid()}.lines").write_text(json.dumps(ran), "utf-8")

    def _saw(self, message: dict) -> None:
        if message.get("method") == "Target.attachedToTarget":
            session = message["params"]["sessionId"]
            self._workers.add(session)
            self._send_to(session, "Profiler.enable")
            self._send_to(session, "Profiler.startPreciseCoverage", callCount=True, detailed=True)
            self._send_to(session, "Runtime.runIfWaitingForDebugger")
        elif message.get("method") == "Target.detachedFromTarget":
            self._workers.discard(message["params"]["sessionId"])
        elif message.get("id") in self._asked:
            self._asked.discard(message["id"])
            self._add(message.get("result", {"result": []}))
        else:
            super()._saw(message)

    def _add(self, counted: dict) -> None:
        for found in counted["result"]:
            script = self._scripts.get(max(part["endOffset"] for it in found["functions"] for part in it["ranges"]))
            if script:
                script.add(found["functions"])


def lines_run_in_node(folder: Path) -> Iterator[Line]:
    """The lines of web/src that Node ran itself, in tests of parts of the page."""
    scripts = {file.resolve().as_uri(): (file.name, Ran(file.read_text("utf-8"))) for file in SOURCES.glob("*.js")}
    for address, functions in counted_in_node(folder):
        if address in scripts:
            scripts[address][1].add(functions)
    for name, script in scripts.values():
        yield from ((name, number) for number in script.lines())


def lines_not_run(folder: Path) -> tuple[list[Line], int]:
    """The lines of web/src that nothing ran which wrote to a folder, and how many there are in all."""
    ran = set(lines_run_in_node(folder))
    for written in folder.glob("*.lines"):
        ran |= {(file, number) for file, number in json.loads(written.read_text("utf-8"))}
    every = {(file.name, number) for file in SOURCES.glob("*.js") for number in lines_with_code(file.read_text("utf-8"))}
    return sorted(every - ran), len(every)


def shown(lines: list[Line]) -> Iterator[str]:
    """Lines of files, with what stands there."""
    texts = {name: (SOURCES / name).read_text("utf-8").splitlines() for name, _ in lines}
    for name, number in lines:
        yield f"  web/src/{name}:{number}: {texts[name][number - 1].strip()[:90]}"
