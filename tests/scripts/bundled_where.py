"""Trials of web/bundle and web/build as they are called: of which module a page is made, where it goes, and why none is made."""
from __future__ import annotations

import contextlib
import io
import subprocess
import tempfile
from collections.abc import Callable, Iterator
from pathlib import Path
from types import ModuleType
from unittest import mock

from trials import Trial

TOP = Path(__file__).resolve().parents[2]
USAGE = "usage: web/bundle [--same-module] [--new-manual] [PAGE]\n"
NEW, OLD = b"a module that was just made", b"the module of the page that is there"
NO_PROGRAM = "web/build: the program is not there: prove and build it first (./l6 --help), or name it\n"


def called(script: ModuleType, room: Path, *words: str) -> tuple[int, str, list[str]]:
    """The status of a call of web/bundle, what it says on standard error, and which files there are then."""
    with contextlib.redirect_stdout(io.StringIO()), contextlib.redirect_stderr(io.StringIO()) as said, \
            mock.patch.object(script.sys, "argv", ["bundle", *words]):
        status: int = script.main()
    return status, said.getvalue(), sorted(it.name for it in room.rglob("*") if it.is_file())


def modules(script: ModuleType) -> Iterator[Trial]:
    """The module is the one that was just made, if there is one, and no other is asked for; a page may have so many bytes."""
    rows: tuple[tuple[bool, tuple[str, ...], bytes], ...] = (
        (True, (), NEW), (True, ("--same-module",), OLD), (False, (), OLD), (False, ("--same-module",), OLD))
    for is_made, words, taken in rows:
        with tempfile.TemporaryDirectory(prefix="l6-page-") as room, mock.patch.multiple(
                script, MODULE=Path(room, "l6.wasm"), page_of=lambda module: module, module_of=lambda _: OLD):
            if is_made:
                Path(room, "l6.wasm").write_bytes(NEW)
            page = Path(room, "a folder", "a page.html")
            made = called(script, Path(room), *words, str(page))
            yield f"a page with {' '.join(words) or 'no option'}, a module is there: {is_made}", (
                (0, "", ["a page.html", "l6.wasm"] if is_made else ["a page.html"]), taken), (made, page.read_bytes())
    for more, status in ((0, 0), (1, 1)):
        with tempfile.TemporaryDirectory(prefix="l6-page-") as room:
            with mock.patch.multiple(script, page_of=lambda _, more=more: bytes(700_000 + more)):
                said = "web/bundle: the page has 700001 bytes, and 700000 is the most\n" if more else ""
                yield f"a page of 700,000 bytes and {more}", (status, said, [] if more else ["page.html"]), called(
                    script, Path(room), "--same-module", str(Path(room, "page.html")))


def wrong_words(script: ModuleType) -> Iterator[Trial]:
    """An option that there is not, and two pages, are refused, and nothing is made."""
    with tempfile.TemporaryDirectory(prefix="l6-page-") as room, mock.patch.multiple(script, page_of=lambda _: b"", PAGE=Path(room, "no page")):
        first, second = (str(Path(room, name)) for name in ("first.html", "second.html"))
        for words in (["--same"], [first, second], ["--new-manual", "-x"]):
            yield f"web/bundle with {len(words)} words, {words[0][:8]} the first", (64, USAGE, []), called(script, Path(room), *words)
        said = f"web/bundle: [Errno 2] No such file or directory: '{Path(room, 'no page')}'\n"
        yield "web/bundle where no page is there", (1, said, []), called(script, Path(room), "--same-module", first)


def why_not(script: ModuleType, make: Callable[[], object]) -> str:
    """Why a part of a page is not made."""
    try:
        make()
    except script.Stop as stop:
        return str(stop)
    return "it is made"


def refused(script: ModuleType) -> Iterator[Trial]:
    """Scripts that import each other, end tags in what the page has as it is, and a converter that fails, are refused."""
    with tempfile.TemporaryDirectory(prefix="l6-page-") as room, mock.patch.object(script, "SOURCES", Path(room)):
        for name, other in (("round", "about"), ("about", "round"), ("first", "last")):
            Path(room, f"{name}.js").write_text(f'import {{{other}}} from "./{other}.js";\nexport const {name} = {other};\n', "ascii")
        Path(room, "last.js").write_text("export const last = 1;\n", "ascii")
        yield "scripts that import each other", "about.js and round.js import each other", why_not(script, lambda: script.files_of("round"))
        yield "a script that imports another", ["last", "first"], list(script.files_of("first"))
    tag = "the loader or the style has an end tag in it"
    for what, stand_in in (("small_style", lambda _: "</style>"), ("bundled", lambda *_: "</script>")):
        with mock.patch.object(script, what, stand_in):
            yield f"an end tag by {what}", tag, why_not(script, lambda: script.page_of(b""))
    with mock.patch.object(script, "CONVERTER", ["false"]), mock.patch.object(script.sys, "argv", ["bundle", "--new-manual"]):
        try:
            said = str(bool(script.manual()))
        except subprocess.CalledProcessError as failed:
            said = f"status {failed.returncode}"
    yield "a converter that fails", "status 1", said


def bundled_where(script: ModuleType) -> Iterator[Trial]:
    """All of them."""
    yield from modules(script)
    yield from wrong_words(script)
    yield from refused(script)
    ran = subprocess.run([TOP / "web/build", "is/not/there"], stdin=subprocess.DEVNULL, capture_output=True, text=True)
    yield "what web/build does not make", (1, "", NO_PROGRAM), (ran.returncode, ran.stdout, ran.stderr)
