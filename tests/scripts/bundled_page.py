#!/usr/bin/env python3
"""Checks that dist/l6.html is the page that web/bundle makes of the scripts, styles and decks as they are.

The module is taken from the page itself, so no toolchain is needed. That it is the module of the program is
tried by web/tests/all.py. bundled_page.py prints each difference, and last 'N passed, M failed'.
"""
from __future__ import annotations

import base64
import gzip
import importlib.util
import json
import subprocess
import sys
from collections.abc import Iterator
from contextlib import ExitStack
from importlib.machinery import SourceFileLoader
from itertools import islice
from pathlib import Path
from types import ModuleType
from typing import Any
from unittest import mock

sys.path.insert(0, str(Path(__file__).resolve().parents[1] / "harness"))
from bundled_where import bundled_where
from trials import Trial, report

sys.dont_write_bytecode = True  # (no folder is made beside web/bundle)
TOP = Path(__file__).resolve().parents[2]
PAGE = TOP / "dist" / "l6.html"
WASM = b"\0asm"  # a module begins so


def script_of(name: str) -> ModuleType:
    """A script without an ending, as a module."""
    loader = SourceFileLoader(name.rpartition("/")[2], str(TOP / name))
    spec = importlib.util.spec_from_loader(loader.name, loader)
    assert spec is not None
    script = importlib.util.module_from_spec(spec)
    loader.exec_module(script)
    return script


def bundler() -> ModuleType:
    """The script web/bundle."""
    return script_of("web/bundle")


def module_in(page: bytes, script: ModuleType) -> bytes:
    """The module in a page: it is in the place that web/src/index.html has for it."""
    template = (TOP / "web" / "src" / "index.html").read_bytes()
    before = template.partition(b"@module@")[0].rpartition(b"<")[2]
    digits = page.partition(b"<" + before)[2].partition(b"<")[0]
    back = bytes.maketrans(script.DIGITS, script.PYTHONS_DIGITS)
    try:
        return gzip.decompress(base64.b85decode(digits.translate(back)))
    except (ValueError, OSError, EOFError):
        return b""


def trials(page: bytes) -> Iterator[Trial]:
    """The trials on a page: it has a module, and is what is made of that."""
    script = bundler()
    module = module_in(page, script)
    yield "the module in dist/l6.html", WASM, module[: len(WASM)]
    yield "dist/l6.html (web/bundle makes it)", page.decode("utf-8"), script.page_of(module).decode("utf-8")
    yield from new_manual()
    yield from sections()
    yield from bundled_where(bundler())


def new_manual() -> Iterator[Trial]:
    """The manual that a page has is taken again only as long as docs/ is the same."""
    script = bundler()
    own = json.loads(script.part_of(PAGE.read_bytes(), b"texts"))["manualOf"]
    for sum_of_pages, is_kept in ((own, True), ("0" * 64, False)):
        made = made_where(script, sum_of_pages)
        yield f"whether the manual is kept, {is_kept}", (is_kept, own), (made["manual"] == "an old one", made["manualOf"])
    for page in script.MANUAL:
        made = made_where(script, own, f"{page}.md")
        yield f"whether the manual is kept after a change of {page}", False, made["manual"] == "an old one"


def made_where(script: ModuleType, sum_of_pages: str, changed: str = "") -> dict[str, Any]:
    """The manual where a page has an old one of pages with this sum, and one file of docs/ has changed since."""
    old = json.dumps({"manual": "an old one", "manualOf": sum_of_pages}).encode()
    read = Path.read_text
    with ExitStack() as patched:
        for where, name, stand_in in (
            (script, "part_of", lambda *_: old), (script.sys, "argv", ["bundle"]),
            (script.subprocess, "run", made_by_nobody), (script.shutil, "which", lambda _: "here"),
            (Path, "read_text", lambda file, *more: read(file, *more) + "more" * (file.name == changed)),
        ):
            patched.enter_context(mock.patch.object(where, name, stand_in))
        made: dict[str, Any] = script.manual()
    return made


def made_by_nobody(*_: object, **__: object) -> subprocess.CompletedProcess[str]:
    """What a stand-in for the converter makes of a page."""
    return subprocess.CompletedProcess([], 0, "<p>a new one</p>", "")


def sections() -> Iterator[Trial]:
    """The sections of a module by web/build, of sizes that take one byte to three, and a module without its table."""
    script = script_of("web/build")
    parts = [
        (1, b"\x01\x02ab"), (4, b"\x04\x01c"), (10, b"\x0a\xc8\x01" + b"d" * 200),
        (11, b"\x0b\xb0\xea\x01" + b"e" * 30_000),
    ]
    module = b"\0asm\1\0\0\0" + b"".join(whole for _, whole in parts)
    yield "the sections of a module", parts, list(script.sections_of(module))
    yield "a module without its table", module.replace(parts[1][1], b""), script.without_table(module)


def canaries(page: bytes) -> Iterator[Trial]:
    """Pages with a defect each: no module, another one, another script, another style."""
    yield next(trials(page.replace(b"module", b"")))
    for old, new in ((b"</script>", b";</script>"), (b"</style>", b" </style>"), (b"<title>", b"<title>.")):
        yield next(islice(trials(page.replace(old, new, 1)), 1, None))


if __name__ == "__main__":
    handed_out = PAGE.read_bytes()
    sys.exit(report(trials(handed_out), canaries(handed_out)))
