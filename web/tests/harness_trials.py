#!/usr/bin/env python3
"""Tries what the tests of the page are made of: the count of their parts, which lines are run, and what a trial looks at.

harness_trials.py prints what differs, and last 'N passed, M failed'.
"""
from __future__ import annotations

import contextlib
import copy
import io
import json
import sys
import tempfile
from collections.abc import Callable, Iterator
from pathlib import Path
from typing import Any
from unittest import mock

sys.dont_write_bytecode = True

HERE = Path(__file__).resolve().parent
sys.path.insert(0, str(HERE.parents[1] / "tests/harness"))

import all as parts_of_page  # noqa: E402
import check_types  # noqa: E402
import firefox  # noqa: E402
import lines  # noqa: E402
import random_jobs  # noqa: E402
import trial_model  # noqa: E402
from page import Page  # noqa: E402
from ran_lines import IN_NODE  # noqa: E402
from replayed import Kept, Watched, asleep  # noqa: E402
from trials import Trial, named, report  # noqa: E402

NONE = 0
LEAST_LINES = 6500  # of web/src that have code


def part(script: str, least: int = 3) -> parts_of_page.Part:
    """A part of the tests whose command is a script of the shell."""
    return parts_of_page.Part(set(), "a part", ["sh", "-c", script], least)


def counts() -> Iterator[Trial]:
    """What comes of a part: its count, and a failure where it has none, too few trials, or a status."""
    for what, script, want in (
        ("it passes", "echo 3 passed, 0 failed", ("", 3, 0)),
        ("of more trials", "echo 4 passed, 0 failed", ("", 4, 0)),
        ("one fails", "echo it differs; echo 2 passed, 1 failed; exit 1", ("it differs", 2, 1)),
        ("of too few trials", "echo 2 passed, 0 failed", ("2 were tried, and 3 is the least", 2, 1)),
        ("of too few, and one fails", "echo 1 passed, 1 failed", ("2 were tried, and 3 is the least", 1, 2)),
        ("it ends with a status", "echo 3 passed, 0 failed; exit 2", ("", 3, 1)),
        ("it has no count", "echo 3 passed; exit 2", ("3 passed\nno count at the end, status 2", 0, 1)),
        ("its count is not last", "echo 3 passed, 0 failed; echo on",
         ("3 passed, 0 failed\non\nno count at the end, status 0", 0, 1)),
        ("it says nothing", "exit 9", ("\nno count at the end, status 9", 0, 1)),
        ("its errors are shown", "echo why >&2; echo 3 passed, 1 failed", ("why", 3, 1)),
        ("where it notes what it ran", f"echo ${lines.LINES} ${IN_NODE}; echo 3 passed, 0 failed", ("/room /room", 3, 0)),
    ):
        yield what, want, parts_of_page.counted(part(script), "/room")


def told(results: list[tuple[str, str, int, int]], known: int | None) -> tuple[int, str, list[int]]:
    """What is told of results: the status, what is printed, and which counts of long trials are noted."""
    noted: list[int] = []
    printed = io.StringIO()
    with mock.patch("passed.note", noted.append), contextlib.redirect_stdout(printed):
        status = parts_of_page.told(list(results), known)
    return status, printed.getvalue(), noted


def tellings() -> Iterator[Trial]:
    """What is told of all parts, and when it is noted that the page passed the long trials."""
    long = [(f"{parts_of_page.LONG}, {number}", "", 100 + number, 0) for number in (1, 2)]
    first = ("one", "", 3, 0)
    said = "".join(f"web: {name}: {right} passed, 0 failed\n" for name, _, right, _ in (first, *long))
    yield "all pass", (0, f"{said}206 passed, 0 failed\n", [203]), told([first, *long], None)
    yield "one fails", (1, "web: one: 3 passed, 0 failed\nweb: two: 1 passed, 2 failed\nwhy\n4 passed, 2 failed\n", []), \
        told([first, ("two", "why", 1, 2)], None)
    status, _, noted = told([first, long[0], (long[1][0], "", 102, 1)], None)
    yield "a long one fails", (1, []), (status, noted)
    yield "one that is no long one fails", (1, [203]), told([("one", "", 3, 1), *long], None)[::2]
    known = f"web: {parts_of_page.LONG}: 40 passed, 0 failed\nthis page passed them before\n"
    yield "the long ones are known", (0, f"web: one: 3 passed, 0 failed\n{known}43 passed, 0 failed\n", []), told([first], 40)


IN_NODE_ALONE = [
    "random jobs in node", "the parts of the page in node", "the small functions in node", "the ways of arrows in node",
    "the provenance in node", "the layout in node", "the camera in node", "the cases in node",
]
IN_CHROMIUM = [f"the page in Chromium, {number} of 3" for number in (1, 2, 3)]
LONG_ONES = [f"the long trials in Chromium, {number} of 2" for number in (1, 2)]
WITHOUT_TOOLS = ["what is known of a page", "what the tests of the page are made of"]
OTHERS = ["the types of the scripts", "the page in Firefox", *WITHOUT_TOOLS]
AGAIN, ANEW, RUN = "the page bundled again", "the page made again", "the lines of web/src that are run"


def done(words: tuple[str, ...], gone: tuple[str, ...], known: int | None) -> tuple[list[str], list[str]]:
    """What is made, by its words and where tools are missing, and what is said to be skipped, in order."""
    printed = io.StringIO()
    with mock.patch("all.missing", lambda: iter(gone)), mock.patch("all.counted", lambda part, _: ("", part.least, 0)), \
            mock.patch("all.made_again", lambda _, is_quick: ("anew" if not is_quick else "", 1, 0)), \
            mock.patch("all.lines_run", lambda _, is_quick: ("of all" if not is_quick else "", 1, 0)), \
            mock.patch("passed.known", lambda: known), mock.patch("passed.note", lambda _: None), \
            mock.patch("sys.argv", ["all.py", "l6", *words]), contextlib.redirect_stdout(printed):
        parts_of_page.main()
    said = printed.getvalue().splitlines()
    made = [line.removeprefix("web: ").partition(":")[0] if line.startswith("web: ") else line for line in said]
    return [line for line in made[:-1] if not line.startswith("skipped")], [line for line in said if line.startswith("skipped")]


def choices() -> Iterator[Trial]:
    """Which parts are made: all, all but the long ones, and without those for which a tool is missing, which is said."""
    every = [*IN_CHROMIUM, *IN_NODE_ALONE, *OTHERS]
    whole = [*LONG_ONES, *every, RUN, "of all"]
    known = [parts_of_page.LONG, "this page passed them before"]
    bundled = "skipped: the page made again: rt, wasm-opt is missing"
    yield "all", ([ANEW, "anew", *whole], []), done((), (), None)
    yield "all but the long ones", ([ANEW, *every, RUN], []), done(("--quick",), (), None)
    yield "the page passed the long ones", ([ANEW, "anew", *known, *every, RUN], []), done(("--unless-passed",), (), 363)
    yield "it is not known whether it did", ([ANEW, "anew", *whole], []), done(("--unless-passed",), (), None)
    yield "without what makes a module", ([AGAIN, *whole], [bundled]), done((), ("wasm-opt", "rt"), None)
    for tool, left in (("node", IN_NODE_ALONE), ("chromium", IN_CHROMIUM), ("tsc", OTHERS[:1]), ("firefox", OTHERS[1:2])):
        run = [] if tool in ("node", "chromium") else [RUN]
        said = [f"skipped: {it}: {tool} is missing" for it in left]
        said += [] if run else [f"skipped: {RUN}: Chromium or Node is missing"]
        yield f"without {tool}", ([ANEW, *(it for it in every if it not in left), *run], said), done(("--quick",), (tool,), None)


def pages_made() -> Iterator[Trial]:
    """The page that is made again must be the one that is handed out, byte for byte, and each program must end well."""
    page = parts_of_page.PAGE.read_bytes()
    for what, is_quick, made, statuses, want in (
        ("the same page", True, page, [0], ("", 1, 0)), ("with its module", False, page, [0, 0], ("", 1, 0)),
        ("another page", True, page + b"\n", [0], ("dist/l6.html is not the page that bundle makes", 0, 1)),
        ("of another module", False, page[:-1], [0, 0], ("dist/l6.html is not the page that bundle makes", 0, 1)),
        ("no page", True, page, [1], ("why", 0, 1)), ("no module", False, page, [2, 0], ("why", 0, 1)),
        ("a module, and no page", False, page, [0, 1], ("why", 0, 1)),
    ):
        left = list(statuses)

        def run(words: list[str], made: bytes = made, left: list[int] = left, **_: object) -> mock.Mock:
            if words[0].endswith("bundle"):
                Path(words[-1]).write_bytes(made)
            return mock.Mock(returncode=left.pop(0), stdout="why")

        with mock.patch("all.subprocess.run", run):
            yield what, want, parts_of_page.made_again(Path("l6"), is_quick)


def tools() -> Iterator[Trial]:
    """Which tools are missing, each alone."""
    for gone in ("node", "tsc", "wasm-opt", "rt", "chromium", "firefox", "none"):
        def path_of(name: str, gone: str = gone) -> str | None:
            return None if name == gone else f"/usr/bin/{name}"

        with mock.patch("all.shutil.which", path_of), \
                mock.patch("all.find_browser", lambda gone=gone: None if gone == "chromium" else "there"), \
                mock.patch("all.find_firefox", lambda gone=gone: None if gone == "firefox" else "there"):
            yield f"without {gone}", [it for it in [gone] if it != "none"], list(parts_of_page.missing())


def shares() -> Iterator[Trial]:
    """How many lines may be left out."""
    left = [("dom.js", 3), ("dom.js", 5)]
    text = lines.SOURCES.joinpath("dom.js").read_text("utf-8").splitlines()
    shown = [f"  web/src/dom.js:{number}: {text[number - 1].strip()[:90]}" for number in (3, 5)]
    too_many = "2 of 99 lines of web/src are run by no trial, 2.02 per cent, and 2.0 is the most:"
    for every, most, want in (
        (100, 2.0, ("2 of 100 lines of web/src are run by no trial, 2.00 per cent", 1, 0)),
        (99, 2.0, ("\n".join([too_many, *shown]), 0, 1)),
    ):
        with mock.patch("all.lines_not_run", lambda _, every=every: (left, every)), \
                mock.patch.dict(parts_of_page.MOST_NOT_RUN, {"all": most, "quick": 9.0}):
            yield f"2 of {every}", want, parts_of_page.lines_run("", False)
            yield f"2 of {every}, where the long trials are left out", (1, 0), parts_of_page.lines_run("", True)[1:]


def written(folder: Path, name: str, value: object) -> None:
    """Writes a value to a file of a folder."""
    folder.joinpath(name).write_text(json.dumps(value), "utf-8")


def lines_left() -> Iterator[Trial]:
    """Which lines no trial runs: all that have code where nothing was noted, else all but those that were."""
    with tempfile.TemporaryDirectory() as room:
        found, every = lines.lines_not_run(Path(room))
    yield "nothing was run", (every, True), (len(found), every >= LEAST_LINES)
    yield "of each file", {it.name for it in lines.SOURCES.glob("*.js")}, {name for name, _ in found}
    with tempfile.TemporaryDirectory() as room, tempfile.TemporaryDirectory() as sources:
        folder, own = Path(room), Path(sources)
        own.joinpath("one.js").write_text("// A note.\nconst a = 1;\nconst b = 2;\n\nexport {a, b};\n", "utf-8")
        own.joinpath("two.js").write_text("const c = 1;\nconst d = 2;\n", "utf-8")
        with mock.patch("lines.SOURCES", own):
            every_line = [("one.js", 2), ("one.js", 3), ("one.js", 5), ("two.js", 1), ("two.js", 2)]
            yield "of two files", (every_line, 5), lines.lines_not_run(folder)
            written(folder, "chromium-1.lines", [["one.js", 2]])
            written(folder, "chromium-2.lines", [["one.js", 3], ["two.js", 2]])
            yield "what two browsers ran", ([("one.js", 5), ("two.js", 1)], 5), lines.lines_not_run(folder)
            functions = [{"ranges": [{"startOffset": 0, "endOffset": 12, "count": 1}]}]
            addresses = (own.joinpath("two.js").resolve().as_uri(), "file:///one.js")
            scripts = [{"url": address, "functions": functions} for address in addresses]
            written(folder, "coverage-1.json", {"result": scripts})
            yield "and what Node ran", ([("one.js", 5)], 5), lines.lines_not_run(folder)
            yield "how it is shown", ["  web/src/two.js:2: const d = 2;"], list(lines.shown([("two.js", 2)]))


def origins() -> Iterator[Trial]:
    """Each line of the page's scripts is known to be the line of the file of which web/bundle made it."""
    texts = {it.name: it.read_text("utf-8").splitlines() for it in lines.SOURCES.glob("*.js")}
    scripts = lines.scripts_of_page()
    files: set[str] = set()
    for name, script in zip(lines.SCRIPTS, scripts, strict=True):
        rows = script.text.splitlines()
        inner = [(row, *origin) for row, origin in zip(rows, script.origins) if origin and 0 < origin[1] <= len(texts[origin[0]])]
        other = [(row, file, number) for row, file, number in inner if not is_made_of(texts[file][number - 1].strip(), row)]
        yield f"{name}: lines, and those that stand elsewhere in their files", (len(rows), []), (len(script.origins), other)
        # (of each file web/bundle makes a function, with a line before it and two behind it, and of all one, with two and one)
        own = {file for _, file, _ in inner}
        yield f"{name}: lines of no file", 3 * len(own) + 3, len(rows) - len(inner)
        yield f"{name}: none was run", set(), script.lines_of_files()
        script.add([{"ranges": [{"startOffset": 0, "endOffset": len(script.text), "count": 1}]}])
        yield f"{name}: all of it was", {it for it in script.origins if it}, script.lines_of_files()
        files |= own
    yield "files that are in none of them", set(), texts.keys() - files


def is_made_of(line: str, row: str) -> bool:
    """Whether web/bundle makes a row of a line: as it is, without `export`, or with a name of a file where it is imported."""
    return row == line.removeprefix("export ") or (" from " in line and "= file_" in row)


class Answers:
    """A browser of which each script has the answer that a trial wants, but for one."""

    def __init__(self, wrong: str, value: object) -> None:
        self._wrong, self._value, self._at = wrong, value, ""

    def open(self, _page: Path, fragment: str = "") -> None:
        self._at = fragment

    def value(self, script: str) -> object:
        answers = {(link, text): want for _, link, text, want in firefox.TRIALS}
        name = next((what for what, link, text, _ in firefox.TRIALS if (link, text) == (self._at, script)), "a canary")
        return self._value if name == self._wrong else answers.get((self._at, script), 2)

    def end(self) -> None:
        self._at = "ended"


def in_firefox() -> Iterator[Trial]:
    """Each trial in Firefox fails by a wrong answer, and none counts where what is wrong is not found."""
    def made(wrong: str, value: object) -> tuple[int, str, str]:
        browser = Answers(wrong, value)
        printed = io.StringIO()
        with mock.patch("firefox.Firefox", lambda: browser), mock.patch("sys.argv", ["firefox.py"]), \
                contextlib.redirect_stdout(printed):
            status = firefox.main()
        return status, printed.getvalue().splitlines()[-1], browser._at

    yield "all is right", (0, "11 passed, 0 failed", "ended"), made("", None)
    for what, *_, want in firefox.TRIALS:
        for value in (None, f"{want} ", str(want)[:-1]):
            yield f"{what}: {value!r}", (1, "10 passed, 1 failed", "ended"), made(what, value)
    yield "the canary passes", (1, "0 passed, 1 failed", "ended"), made("a canary", 3)


class Jobs:
    """A module that answers as the program does, but to one job."""

    def __init__(self, wrong: set[int], same: bool) -> None:
        self._wrong, self._same, self._at = wrong, same, -2

    def answer(self, _words: list[str], stdin: bytes) -> random_jobs.Answer:
        self._at += 1
        return (1, b"another", b"") if self._at in self._wrong else (0, b"" if self._same else stdin, b"")

    def end(self) -> None:
        self._at = -2


def jobs() -> Iterator[Trial]:
    """Each job that is answered otherwise counts, and so do jobs that are all the same, and a comparison that says yes."""
    def made(*wrong: int, count: int = 200, same: bool = False, only: int | None = None) -> tuple[int, str]:
        printed = io.StringIO()
        def native(_program: str, _words: list[str], stdin: bytes) -> random_jobs.Answer:
            return 0, b"" if same else stdin, b""

        own = random_jobs.job_of
        with mock.patch("random_jobs.Module", lambda: Jobs(set(wrong), same)), mock.patch("random_jobs.native", native), \
                mock.patch("random_jobs.job_of", lambda number: own(number if only is None else only)), \
                mock.patch("sys.argv", ["random_jobs.py", "l6", str(count)]), contextlib.redirect_stdout(printed):
            status = random_jobs.main()
        return status, printed.getvalue().splitlines()[-1]

    yield "all are answered alike", (0, "200 passed, 0 failed"), made()
    yield "the first is not", (1, "199 passed, 1 failed"), made(0)
    yield "the last is not", (1, "199 passed, 1 failed"), made(199)
    yield "three are not", (1, "197 passed, 3 failed"), made(5, 6, 100)
    yield "one job again and again", (1, "199 passed, 1 failed"), made(only=7)
    yield "the canary passes", (1, "an answer that differs is not found"), made(same=True)
    yield "the canary fails", (1, "an answer that differs is not found"), made(-1)


STRICT: list[tuple[str, dict[str, object], list[str]]] = [  # options of types, and what is said of them
    ("strict", {"strict": True}, []), ("not strict", {"strict": False}, ["strict is False in tsconfig.json"]),
    ("perhaps strict", {"strict": "yes"}, ["strict is yes in tsconfig.json"]),
    ("without a check", {"strict": True, "strictNullChecks": False}, ["strictNullChecks is False in tsconfig.json"]),
]


def types() -> Iterator[Trial]:
    """What is said of the page's scripts where types are not checked strictly, and where one is too long."""
    with tempfile.TemporaryDirectory() as room:
        web = Path(room)
        web.joinpath("src").mkdir()
        web.joinpath("src/long.js").write_text("//\n" * 401, "utf-8")
        web.joinpath("src/short.js").write_text("//\n" * 400, "utf-8")
        for what, options, want in STRICT:
            web.joinpath("tsconfig.json").write_text(json.dumps({"compilerOptions": options}), "utf-8")
            with mock.patch("check_types.WEB", web), mock.patch("check_types.found", lambda *_: ["a fault"]):
                yield f"{what}, where faults are found", want, check_types.switched_off()
            with mock.patch("check_types.WEB", web), mock.patch("check_types.found", lambda *_: []):
                unseen = [f"{it} is not found" for it in check_types.WRONG]
                yield f"{what}, where none are", want + unseen, check_types.switched_off()
        with mock.patch("check_types.WEB", web):
            yield "a long script", ["long.js has 401 lines"], check_types.long_files()


class Browser:
    """A browser that answers a script by a table."""

    def value(self, script: str) -> Any:
        return {
            "five": 5, "five again": 5, "text": "a text", "list": [1, 2], "table": {"a": 1}, "none": None, "yes": True,
            "more": 2500,
        }[script]

    def wait(self, _script: str) -> None:
        return None


def waited(page: Page, first: str, *others: str) -> None:
    """Waits for an answer, asks for others, and looks at nothing."""
    page.browser.wait(first)
    for script in others:
        page.value(script)
    page.right("it", True)


# What looks at an answer, and what looks at none.
AWAKE: dict[str, Callable[[Page], None]] = {
    "a number": lambda it: it.same("it", it.value("five"), 5),
    "no more": lambda it: it.right("it", it.value("five") < 6),
    "no less": lambda it: it.right("it", it.value("five") > 4),
    "another": lambda it: it.right("it", it.value("five") != 0),
    "a part of a text": lambda it: it.has("it", it.value("text"), "text"),
    "the begin of one": lambda it: it.same("it", it.value("text")[:3], "a t"),
    "how long it is": lambda it: it.same("it", len(it.value("list")), 2),
    "a part of a list": lambda it: it.same("it", it.value("list")[1], 2),
    "the order of a list": lambda it: it.right("it", it.value("list") == sorted(it.value("list"))),
    "two that are alike": lambda it: it.same("it", it.value("five"), it.value("five again")),
    "two that are not": lambda it: it.right("it", it.value("five") < it.value("more")),
    "one of two": lambda it: it.right("it", (it.value("five") == 5) | (it.value("yes") is False)),
    "both of two": lambda it: it.right("it", (it.value("five") < 6, it.value("text").startswith("a"))),
    "each of a list": lambda it: it.same("it", it.value("list"), [1, 2]),
    "a part of a table": lambda it: it.same("it", it.value("table"), {"a": 1}),
    "nothing there": lambda it: it.same("it", it.value("none"), None),
    "whether it is so": lambda it: it.right("it", it.value("yes")),
    "what was waited for": lambda it: waited(it, "five"),
}
ASLEEP: dict[str, Callable[[Page], None]] = {
    "nothing": lambda it: it.right("it", True),
    "an answer with nothing": lambda it: it.right("it", it.value("five") is not it),
    "how long it is at least": lambda it: it.right("it", len(it.value("list")) >= NONE),
    "an empty text in it": lambda it: it.has("it", it.value("text"), ""),
    "itself": lambda it: it.same("it", *[it.value("table")] * 2),
    "none of nothing": lambda it: it.right("it", all(one for one in it.value("list")[:NONE])),
    "what was waited for before": lambda it: waited(it, "five", "list"),
}


HALF_ASLEEP: dict[str, Callable[[Page], None]] = {
    "one of two": lambda it: it.right("it", (it.value("five") < 6, it.value("more") is not it)),
    "one of two numbers": lambda it: it.same("it", [it.value("five"), len(it.value("list")[:NONE])], [5, 0]),
}


def looks() -> Iterator[Trial]:
    """A trial that looks at nothing is named, and so is a part of one, and no other."""
    for names, trials in (([], AWAKE), (["it"], ASLEEP), (["it, part 2"], HALF_ASLEEP)):
        for what, one in trials.items():
            kept = Kept(Browser())
            page = Watched(kept, Path("l6.html"))
            one(page)
            yield f"looks at {what}", (1, 0, names), (page.passed, page.failed, asleep(one, page, kept.calls))


# What the page shows of a state and the model knows.
SHOWN = {
    "where", "next", "bugs", "strip", "cards", "amounts", "fields", "bits", "number", "of", "slider", "disabled", "store",
    "frames", "calls", "spot", "card", "whole card", "before what comes next", "label", "looks", "printed", "in a line",
    "changes", "all changes", "pieces", "kinds of", "blocks", "arrows", "pills", "drawing",
}


def differences() -> Iterator[Trial]:
    """Each part of what the page shows of a state is compared with what the model knows of it."""
    run = trial_model.Run(trial_model.ALL_OF_IT, "OK THEN\nAND MORE\n")
    before, moment = run.moments[38:40]
    kinds = [[name, ""] for name, _ in trial_model.expected.windows_of(moment)]
    shown: dict[str, Any] = {"unit": 0, "arrows": [], "pills": [], "blocks": [], "kinds": kinds}
    shown |= trial_model.told(run, moment, before, "step") | trial_model.drawn(set(), moment, before, shown)
    part = trial_model.expected.next_part(run, moment)
    shown["spoken"] = " ".join(trial_model.expected.spoken(moment, part, shown["all changes"], False))

    def made(name: str, begin: int = 0) -> tuple[bool, int]:
        page, got = Page(mock.Mock(), Path("l6.html")), copy.deepcopy(shown)
        if name:
            got[name] = got[name][begin:len(got[name]) - 1 + begin] if got[name] else [["none", False, False, False, False]]
        with contextlib.redirect_stdout(io.StringIO()):
            return trial_model.differ(page, "a deck", run, moment, before, got), page.failed

    yield "what is compared", SHOWN, shown.keys() - {"unit", "kinds", "spoken"}
    yield "nothing differs", (False, 0), made("")
    for name in sorted(SHOWN - {"kinds of"} | {"kinds"}):
        yield f"{name} differs", (True, 1), made(name)
    yield "the end of what is spoken differs", (False, 1), made("spoken")
    yield "the begin of what is spoken differs", (False, 1), made("spoken", 1)


def trials() -> Iterator[Trial]:
    """All trials."""
    for group in (counts, tellings, choices, pages_made, tools, shares, lines_left, origins, in_firefox, jobs, types, looks,
                  differences):
        yield from named(group.__name__.replace("_", " "), group())


if __name__ == "__main__":
    sys.exit(report(trials()))
