"""What docs/page.md, web/README.md and ports/README.md say of the page: its sources are run in Node, and the words follow.

page_observed.mjs runs them, with as much of a browser as they look at, and says what it has seen.
"""
from __future__ import annotations

import functools
import json
import re
import shutil
import subprocess
from collections.abc import Iterator
from pathlib import Path
from typing import Any

from page_tables import text_of
from told import either, in_words, the_one, told
from trials import Trial

PAGE, WEB, PORTS = "docs/page.md", "web/README.md", "ports/README.md"
SCRIPT = Path(__file__).with_name("page_observed.mjs")
HAND_OUT = "dist/l6.html"
CANARIES = (
    (PAGE, "so a damaged link is reported", "so a damaged link is opened"),
    (PAGE, "does not run such a deck until", "does run such a deck until"),
    (PAGE, "Whatever you do by hand pauses Play", "Whatever you do by hand begins Play"),
    (PAGE, "the field's name does not use the field", "the field's name does use the field"),
    (WEB, "The module imports nothing", "The module imports all"),
    (PORTS, "so both have the same", "so both have another"),
)


@functools.cache
def observed() -> dict[str, Any]:
    """What was seen of the sources."""
    ended = subprocess.run(["node", SCRIPT], capture_output=True, text=True, timeout=120)
    try:
        seen: dict[str, Any] = json.loads(ended.stdout)
    except ValueError:
        seen = {}
    return seen


def part(name: str, *path: str | int) -> Any:
    """A part of what was seen, or nothing."""
    value: Any = observed()
    for step in (name, *path):
        try:
            value = value[step]
        except (KeyError, IndexError, TypeError):
            return None
    return value


def links() -> Iterator[Trial]:
    """What a link has, and what is done with it."""
    yield told(PAGE, r"It has a (\w+), so a damaged link is (\w+)\.", "checksum", either(part("damaged") is True, "reported", "opened"))
    again = part("again") == [" (A,E,5)\n", "X", "1", 3, "0.18.35n"]
    yield told(PAGE, r"Link copies an address with (\w+), (\w+), options, (\w+) and (\w+), for", *(
        ("deck", "input", "breakpoints", "state") if again else (str(part("again")), "", "", "")))
    yield told(PAGE, r"a link that ends in ;(\w+), as l6\.html#tree@137;(\w+)\.", *[either(part("lecture") is True, "lecture", "embed")] * 2)
    yield told(PAGE, r"a frame for another page \(a link that ends in ;(\w+)\)", either(part("embed") is True, "embed", "lecture"))
    yield told(PAGE, r"the page does (\w+) run such a deck (\w+) the reader asks for it", either(part("asked", "own") == ["offer 3"], "not", "then"), either(
        part("asked", "example") == ["state 137"], "until", "since"))
    turned = part("turned", 1) is True and again
    yield told(PAGE, r"a click chooses (\w+), and a link to the page (\w+) that", either(part("turned", 0) != part("kinds", 0), "another", "the same"), either(
        turned, "keeps", "loses"))


def keys() -> Iterator[Trial]:
    """What keys do, and which can be turned off."""
    pressed, drawn = part("keys") or {}, part("drawn") or {}
    ends = [key.upper() if len(key) == 1 else "Esc" for key in ("l", "Escape") if part("keys", key, 0) == "lecture false"]
    yield told(PAGE, r"in letters of 18 pixels and more; (\w+) or (\w+) (\w+) it\.", *ends, "ends")
    single = [key for key in pressed if len(key) == 1 and key != " "]
    off = all(pressed[key] == [pressed[key][0], ""] for key in single) and all(pressed[key][1] for key in pressed if key not in single)
    yield told(PAGE, r"and Options turns those (\w+) that are (\w+) letters", either(bool(single) and off, "off", "on"), "single")
    by = {what: key for key, what in drawn.items()}
    yield told(PAGE, r"Fit or (\S+) shows all, and", str(by.get("fit")))
    yield told(PAGE, r"A double click, or (\w), (\w+) what is (\w+) a block", str(by.get("fold")), "folds", "below")
    yield told(PAGE, r"The wheel, a pinch, (\S) and (\S) come nearer and go away", str(by.get("nearer")), {"-": "−"}.get(str(by.get("away")), ""))
    yield told(PAGE, r"Whatever you do by hand (\w+) Play", either(part("playsOn") == [], "pauses", "keeps"))


def work() -> Iterator[Trial]:
    """What is kept of the reader's work."""
    kept = part("kept") or []
    yield told(PAGE, r"The (\w+) (\w+) decks are in the menu, or (\w+) where the browser has no room", the_one({
        "last": kept[:1] == ["* 11"], "first": kept[:1] == ["* 0"]}), in_words(len(kept)), either(
            isinstance(part("little"), int) and 0 < part("little") < len(kept), "fewer", "none"))
    yield told(PAGE, r"what you typed (\w+) is then among the (\w+) decks", either(part("before") == "* TYPED\n", "before", "after"), "last")
    yield told(PAGE, r"What you type is (\w+) in the browser, with input, options, place and task, and is there (\w+)", either(
        part("restored") == "* TYPED\n", "kept", "lost"), "again")
    told_of = (part("right"), part("refused")) == (0, 2)
    yield told(PAGE, r"If your work is (\w+) kept, since the deck is very (\w+) or the browser (\w+) it, the page says so", *(
        ("not", "long", "refuses") if told_of else (str(part("refused")), "", "")))


def runs() -> Iterator[Trial]:
    """Where steps lead, and what waits."""
    yield told(PAGE, r"The begin of a statement (\w+) a condition and the end of one (\w+) an exit are passed (\w+), unless", *(
        ("without", "without", "over") if part("silent") == [True, True, False] else (str(part("silent")), "", "")))
    yield told(PAGE, r"Statement goes on to the (\w+) statement, Over takes a call as (\w+) step, and Out goes to the (\w+) of a subroutine", *(
        ("next", "one", "return") if (part("statement"), part("over"), part("out")) == ("2.0", "0.3", "0.3") else (
            str(part("statement")), str(part("over")), str(part("out")))))
    yield told(PAGE, r"“‹ Change” and “Change ›” then go to the steps that (\w+) it", either(part("change") == [0, 2, True], "changed", "kept"))
    yield told(PAGE, r"above the drawing are the calls that wait, each with what it (\w+), (\w+) first", "saved", the_one({
        "newest": part("frames") == ["T,DO", "S,DO"], "oldest": part("frames") == ["S,DO", "T,DO"]}))
    yield told(WEB, r"A state's number is its count of steps, and (\w+) more after a (\w+)\.", in_words(part("trap") if isinstance(part("trap"), int) else -1), "trap")


def fields() -> Iterator[Trial]:
    """What fields hold, and where pointers lead."""
    kinds = part("kinds") or ["", ""]
    yield told(PAGE, r"(\w+) if it got pointers to blocks (\w+), and 0\. So a 1024 that was counted is a (\w+), though a block is there, and a bug that counts "
               r"leads (\w+)\.", f"{kinds[1]}s", "alone", kinds[0], either(part("counts") is True, "nowhere", "there"))
    ghosts = part("ghosts") or [[], []]
    yield told(PAGE, r"A pointer to a block that was (\w+) is drawn (\w+), to its (\w+), or to the block that got its place", *(
        ("freed", "broken", "ghost") if ghosts == [["B", 1, False], ["B", 0, True]] else (str(ghosts), "", "")))
    yield told(PAGE, r"press Run: the block is a (\w+), and B is (\w+); a step that follows B says", *(
        ("ghost", "broken") if ghosts[0] == ["B", 1, False] else (str(ghosts), "")))


def tasks() -> Iterator[Trial]:
    """What solves a task, and what makes one."""
    uses, verdicts = part("uses"), part("verdicts") or {}
    yield told(PAGE, r"a label or a text with the field's name does (\w+) use the field", either(uses == [False, False, False, True], "not", str(uses)))
    hidden = verdicts.get("printed") == verdicts.get("right") == "" != verdicts.get("hidden")
    yield told(PAGE, r"So to print the answer alone does (\w+) solve it, (\w+) does an answer for an input of the pupil's own", either(hidden, "not", "then"), either(
        bool(verdicts.get("other")), "nor", "so"))
    yield told(PAGE, r"conditions on the (\w+) of the run: (\w+) block is lost", "end", either(
        "lost" in str(verdicts.get("lost")) and verdicts.get("freed") == "", "no", "a"))
    yield told(PAGE, r"A condition that the page can't read makes (\w+) task, and it (\w+) why", *(
        ("no", "says") if part("tasks") == [[False, True], [True, False]] else (str(part("tasks")), "")))
    answers = part("answers") or ["", ""]
    yield told(PAGE, r"with the input and the options of (\w+), whatever those of the page are", either(answers[0] == "" != answers[1], "that", "the page"))


def hand_out() -> Iterator[Trial]:
    """The module, and what the browser allows the page."""
    page = text_of(HAND_OUT)
    yield told(WEB, r"The module imports (\w+)\.", either(part("imports") == 0, "nothing", "functions"))
    policy = "".join(re.findall(r'http-equiv="Content-Security-Policy"\s+content="([^"]*)"', page))
    rules = dict(it.strip().partition(" ")[::2] for it in policy.split(";") if it.strip())
    hashes = [it for it in rules.get("script-src", "").split() if it.startswith("'sha256-")]
    network = rules.get("connect-src", rules.get("default-src")) == "'none'"
    yield told(WEB, r"allows the browser these scripts (\w+), by their (\w+), and (\w+) network", either(
        "'unsafe-inline'" not in rules.get("script-src", "") and "http" not in rules.get("script-src", ""), "alone", "also"), either(
            bool(hashes), "hashes", "names"), either(network, "no", "any"))
    yield told(PORTS, r"bundle takes the module out of dist/l6\.html, so both have the (\w+)\.", either(part("same") is True, "same", "other"))
    debugger, server = ({*(part("imported", at) or [])} for at in range(2))
    yield told(PORTS, r"The debugger's imports (\w+) functions, to read, write, open and close a file and to ask for a terminal", in_words(len(debugger)))
    yield told(PORTS, r"and that of l6ed imports (\w+), all but the (\w+);", in_words(len(server)), either(debugger - server == {"isatty"}, "last", "first"))
    yield told(PAGE, r"It needs (\w+) installation and (\w+) network", "no", either(network, "no", "a"))
    yield told(PAGE, r"(\w+) leaves the computer\.", either(network, "Nothing", "Something"))


def jobs() -> Iterator[Trial]:
    """Jobs for the module, the states that are asked for, and what makes a pointer."""
    instances, status, says = part("jobs") or (0, 0, False)
    yield told(WEB, r"Each job has (\w+) instance of its (\w+)\.", *(("an", "own") if instances == 1 else (str(instances), "")))
    yield told(WEB, r"If the program asks for (\w+) it is (\w+), and (\w+) so\.", "more", either(status == 5, "refused", "given"), either(bool(says), "says", "hides"))
    count, first, second, numbers = part("asks") or (0, False, False, [])
    yield told(WEB, r"A view needs (\w+) jobs: the (\w+) says where blocks are, and the (\w+) asks for their words", in_words(count), *(
        ("first", "second") if first and second else ("second", "first")))
    yield told(WEB, r"the page asks for the (\w+) of a state at the (\w+) time, and (\w+) them", either(
        {19, 21} <= {*numbers}, "neighbours", "words"), "same", either(part("neighbours") is True, "keeps", "loses"))
    made = part("made") or {}
    yield told(WEB, r"Get and duplicate make a (\w+); copies, exchanges and saved contents (\w+) it along; arithmetic, literals and input make a (\w+)\.", *(
        f"{' '.join(sorted({*(made.get(name) or [])}))}" if name != "carried" else either({*(made.get(name) or [])} == {"pointer"}, "carry", "lose")
        for name in ("got", "carried", "numbers")))
    yield told(PAGE, r"“Asked and answered”, in “[^”]*”, shows the (\w+) of them", either(part("exchanges") is True, "last", "first"))
    yield told(PAGE, r"A solved exercise gets a ✓ in the menu, and its answer is (\w+) in the browser's store\. Where a browser (\w+) that, the page says so", *(
        ("kept", "refuses") if part("solved") == [True, False] else (str(part("solved")), "")))
    yield told(PAGE, r"Fit or 0 shows (\w+), and pressed (\w+) the (\w+) that are there now", *(
        ("all", "again", "blocks") if part("fitted") == ["all", "blocks"] else (str(part("fitted")), "", "")))


def page_sentences(_: str) -> Iterator[Trial]:
    """All of them."""
    if not shutil.which("node"):
        print("skipped: the words of the pages on the page: node is missing")
        return
    for group in (links, keys, work, runs, fields, tasks, hand_out, jobs):
        yield from group()
