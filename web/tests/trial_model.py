"""Trials that go through whole runs: all that the page says of each state is what the model of the language says of it."""
from __future__ import annotations

import json
from pathlib import Path

import expected
from drawn import arrows, blocks, compared, drawing_label, leading
from modelled import Moment, Run
from page import TOP, Page, trial

FURTHER = json.loads((Path(__file__).resolve().parent / "decks.json").read_text("utf-8"))
# Each operation, condition and exit; small blocks and large ones, what is saved, input, printing, and a trap.
ALL_OF_IT = """* EACH OPERATION
 (0,DN,18,35)(0,DV,0,17)(1,DC,30,35)(0,DM,18,35)
 (A,E,5)(B,EO,17)(C,EH,AB)(A,A,B)(A,S,1)(A,M,10)(A,V,3)(A,Y,50)(D,E,A)
+(D,N,12)(D,O,3)(D,X,5)(D,C,D)(D,L,6)(D,R,30)(D,I,A)(Z,E,68719476735)
SAVE (S,FC,A)(A,E,0)(R,FC,A)(S,FD,N)(0,DN,0,8)(R,FD,N)
 (L,GT,3)(P,E,L)(LV,E,L)(LC,EH,Q)(L,GT,2,LN)(K,DP,P)(KV,E,K)(KN,I,LN)
 (IN,DO)(W,GT,600)(W,FR)(W,GT,600)(W,E,0)
* ALL CONDITIONS
 IF (A,E,B) THEN FAIL
 NOT (A,G,9) THEN (A,E,33)
 IFALL (A,N,0)(B,L,99) THEN (B,E,14)
 IFANY (A,O,1)
+(B,Z,1) THEN (A,PO)( ,PH)
 IFNONE (A,E,1)(A,E,2) THEN (F,DO,BACK)
BACK IFNALL (A,E,1)(A,E,2) THEN (PL)
 (P,FR,PN)(G,E,K)(K,FR)(GV,E,1)
IN (C,IN,2)(D,IN,3)(C,PR,2)(D,PD)(PL)(S,FC,C)(S,FC,LC) DONE
F (S,FD,M)(S,FD,Q) FAIL
"""
DECKS: dict[str, tuple[str, str, dict[str, int]]] = {
    "all of it": (ALL_OF_IT, "OK THEN\nAND MORE\n", {}),
    "powers": (FURTHER["powers"]["deck"], "", {}),
    "copied": (FURTHER["copied"]["deck"], "", {"store": 1}),
    "dangling": (FURTHER["dangling"]["deck"], "", {"store": 2}),
    "nothing": (" DONE\n", "", {}),
    "a limit": ("L (A,A,7) L\n", "", {"steps": 9}),
}
EXAMPLES = {"squares": 40, "list": 60, "lost": 60, "reverse": 70, "tree": 150, "counts": 90, "queue": 50, "strings": 40,
            "buddy": 40, "symbols": 40}  # and how many of their states are looked at
NUMBERS = {"powers": {"K"}, "dangling": {"K"}}  # bugs that hold the number of a place by chance
# What the fields of some decks hold, as their comments say: links, numbers or letters.
HOLDS = {
    "lost": {"N": "link", "V": "number"}, "list": {"C": "text", "N": "link"}, "reverse": {"C": "text", "N": "link"}, "powers": {"N": "link", "V": "number"},
    "tree": {"L": "link", "R": "link", "C": "text"}, "counts": {"L": "link", "R": "link", "K": "number", "C": "text"},
}
AT_ONCE = 12  # states
SEEN = (Path(__file__).resolve().parent / "seen.js").read_text("utf-8")
# Goes on by a step, or back, so many times, and answers what the page shows each time.
WALK = """(async (way, times) => {
    const found = [];
    for (let time = 0; time < times; time++) {
        await l6[way]();
        await l6.session.frames.of(l6.view);
        while (l6.engine.isBusy) await new Promise(it => setTimeout(it, 2));
        await new Promise(it => setTimeout(it, 0)); // (what waits and what is saved is shown then)
        found.push(seen());
    }
    return found;
})('%s', %d)"""


def jobs() -> dict[str, tuple[str, str, dict[str, int], int]]:
    """The decks, with their inputs and options, and how many states are looked at."""
    found = {name: (*job, 400) for name, job in DECKS.items()}
    for name, most in EXAMPLES.items():
        file = TOP / "examples" / f"{name}.session"
        file = file if file.is_file() else TOP / "examples" / f"{name}.deck"
        head, _, text = file.read_text("latin-1").partition("$INPUT\n")
        found[name] = (head.partition("$COMMANDS\n")[0], text, {}, most)
    return found


def told(run: Run, moment: Moment, before: Moment | None, way: str) -> dict[str, object]:
    """What the page must show of a state, to which a way led from another one."""
    is_back = way == "back"
    part = expected.next_part(run, moment)
    found: dict[str, object] = {
        "where": moment.line,
        "next": part.text if part else "",
        "bugs": expected.bug_rows(moment, before),
        "strip": [[f"{name} {value}", changed] for name, value, _, _, changed in expected.bug_rows(moment, before)],
        "cards": expected.bug_cards(moment, before),
        "amounts": expected.amounts(moment),
        "fields": expected.field_rows(moment),
        "bits": expected.field_bits(moment, before),
        "number": [str(moment.number), str(moment.number)],
        "of": f"of {expected.last_number(run)}" if run.is_whole else None,
        "disabled": expected.disabled(moment),
        "store": expected.store_text(moment, run.options.store),
        "frames": expected.frames(run, moment),
        "calls": expected.calls(run, moment),
        "spot": [part.card, part.begin, part.end] if part and part.card >= 0 else None,
        "card": run.deck.split("\n")[part.card][part.begin:part.end] if part and part.card >= 0 else "",
        "whole card": f"{part.card + 1} {run.deck.split(chr(10))[part.card]}" if part and part.card >= 0 else "",
        "before what comes next": "" if part is None else "At: " if moment.ending else "Next: ",
        "label": "Printed" if moment.ending else "Printed so far",
        "looks": [moment.ending == "TRAP", not moment.blocks],
    }
    if run.is_whole:
        last = run.moments[-1].number
        found["slider"] = [str(last), f"state {expected.commas(moment.number)} of {expected.commas(last)}"]
    printed = moment.output
    fresh = printed[len(before.output):] if before and len(before.output) < len(printed) else ""
    head = printed[:len(printed) - len(fresh)]
    line = f"{chr(10) if printed and not printed.endswith(chr(10)) else ''}{moment.line}" if moment.ending else ""
    found["printed"] = [head, fresh, line]
    found["in a line"] = [head[-300:].replace("\n", " ⏎ "), fresh[-300:].replace("\n", " ⏎ ")]
    if before:
        one, other = (moment, before) if is_back else (before, moment)
        changes = expected.changes(run, one, other, True, is_back)
        what = " · ".join(expected.shortened(changes))
        found["changes"] = f"{'Undone: ' if is_back else 'Changed '}{what}" if what else ""
        found["all changes"] = changes[:60]
    return found


def differ(page: Page, name: str, run: Run, moment: Moment, before: Moment | None, got: dict, way: str = "step") -> bool:
    """Whether what is shown of a state is something else than it must be, which is said then."""
    got["arrows"].sort()
    got["kinds of"] = [it[0] for it in got["kinds"]]
    want = told(run, moment, before, way) | drawn(NUMBERS.get(name, set()), moment, before, got)
    changes = want.get("all changes", [])
    assert isinstance(changes, list)
    begin, end = expected.spoken(moment, expected.next_part(run, moment), changes, way == "back")
    page.has(f"{name}, {way}: what is spoken in state {moment.number}", got["spoken"], begin)
    page.right(f"{name}, {way}: how that ends in state {moment.number}", not got["spoken"] or end in got["spoken"], got["spoken"])
    wrong = {key: (got.get(key), it) for key, it in want.items() if it != got.get(key) and not (key == "of" and it is None)}
    page.right(f"{name}, {way} to state {moment.number}", not wrong, "; ".join(f"{key}: {it[0]!r}, want {it[1]!r}" for key, it in wrong.items()))
    return bool(wrong)


def drawn(numbers: set[str], moment: Moment, before: Moment | None, got: dict) -> dict[str, object]:
    """What must be drawn of a state, where no pointer dangles, by what the fields hold as the page says."""
    kinds, old = dict(got["kinds"]), compared(moment, before)
    bugs = leading(moment, numbers)
    found: dict[str, object] = {
        "pieces": expected.strip_text(moment, got["unit"]),
        "kinds of": [name for name, _ in expected.windows_of(moment)],
    }
    if not any(is_broken for *_, is_broken, _ in got["arrows"]) and not any(it[2] for it in got["pills"]):
        found["blocks"] = blocks(moment, old, bugs, kinds, got["blocks"])
        found["arrows"] = [[*ends, False, changed] for *ends, changed in arrows(moment, old, kinds)]
        found["pills"] = [[it, old is not None and old.bugs.get(it, 0) != moment.bugs[it], False] for it in sorted(bugs)]
        found["drawing"] = drawing_label(moment, bugs, kinds)
    return found


def walk(page: Page, name: str, run: Run, way: str, moment: Moment) -> Moment:
    """Steps on to the last state that the model was asked for, or back to the first one."""
    wrong = 0
    while wrong < 3:
        states: list[tuple[Moment, Moment]] = []
        for _ in range(AT_ONCE):
            at = states[-1][1] if states else moment
            number = run.number_after(at) if way == "step" else number_before(run, at)
            if number == at.number or number >= len(run.moments) or at.ending and way == "step":
                break
            states.append((at, run.moments[number]))
        if not states:
            return moment
        shown = page.value(WALK % (way, len(states)))
        for (before, now), got in zip(states, shown):
            wrong += differ(page, name, run, now, before, got, way)
        moment = states[-1][1]
    return moment


def number_before(run: Run, moment: Moment) -> int:
    """The number of the state to which Back leads: that from which the latest step went that shows something."""
    for number in range(moment.number - 1, 0, -1):
        was = run.moments[number - 1]
        if not run.is_silent(was.statement, was.action):
            return number
    return 0


@trial
def all_that_is_said_of_each_state(page: Page) -> None:
    """Tables, texts, calls, printout, store and controls, on and back, are what the model says of each state."""
    page.open()
    page.value(SEEN)
    for name, (deck, text, options, most) in jobs().items():
        run = Run(deck, text, most, **options)
        page.put(deck, text, **options)
        page.do("l6.state(0)")
        page.value("document.getElementById('follow').checked || document.getElementById('follow').click()")
        differ(page, name, run, run.moments[0], None, page.value("seen()"))
        end = walk(page, name, run, "step", run.moments[0])
        page.right(f"{name}: it was gone through", end.number > len(run.moments) - 8 or end.ending != "", str(end.number))
        if name in HOLDS:
            page.same(f"{name}: what fields hold", dict(page.value("seen().kinds")), HOLDS[name])
        walk(page, name, run, "back", end)
