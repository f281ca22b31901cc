"""Trials of letters: those that a card has and those that none has, capitals and small ones, in decks, names and files."""
from __future__ import annotations

import json

from page import Page, trial
from trial_outside import KEPT

NAME = "Łukasz Zoë 山田 🙂"
NO_LETTERS = "ŁŊ☃山🙂é\u0141\u2028"
SAID = "document.getElementById('fault').textContent.includes('error')"
# A deck with conditions, exits, calls and what is saved, and what is said in each of its states.
WORDS = """ (N,E,3)(FACT,DO,BAD)(A,EH,AZ)(A,PR,2)(F,PD)(PL) DONE
FACT IF (N,E,0) THEN (F,E,1) DONE
 (S,FC,N)(N,S,1)(FACT,DO)(R,FC,N)(F,M,N) NEXT
NEXT IFANY (F,G,100)(F,EO,7) THEN BAD
 NOT (N,Z,7) THEN DONE
 IFNONE (N,E,0) THENFAIL
BAD FAIL
"""
TOLD = """(async () => {
    const found = [];
    await l6.session.run();
    for (let number = 0; number <= l6.session.last; number++) {
        await l6.state(number);
        while (l6.engine.isBusy) await new Promise(it => setTimeout(it, 5));
        const [step, over] = [await l6.session.steps.on(number), await l6.session.steps.over(number)];
        found.push([step, over, document.getElementById('frames').textContent, document.getElementById('next').textContent]);
    }
    return found;
})()"""
FILES = {  # what a file has, and what of it is in the boxes
    "marks with carriage returns": ("(A,IN,1)\r\n$COMMANDS\r\nstep 1\r\n$INPUT\r\nX\r\n", ["(A,IN,1)\r\n", "step 1\r\n", "X\r\n"]),
    "marks with blanks behind them": ("(A,IN,1)\n$Commands \t\nstep 1\n$input  \nX\n", ["(A,IN,1)\n", "step 1\n", "X\n"]),
    "no marks": ("* $INPUT\n $INPUT\n", ["* $INPUT\n $INPUT\n", "", ""]),
}


@trial
def names_in_all_letters(page: Page) -> None:
    """The name of a pupil is in the answer's file, and in the table, as it was typed; a task has its letters, too."""
    page.open("#exercise-1")
    page.value(KEPT)
    page.fill("answer-name", NAME)
    page.value("document.getElementById('hand-in').click()")
    text = page.value("kept[0].text()")
    page.same("in the file", json.loads(text)["name"], NAME)
    page.do("l6.answers.read([new File([kept[0]], 'one.answer')])")
    page.same("in the table", page.value("document.querySelector('#answers th').textContent"), NAME)
    page.open()
    page.value(KEPT)
    page.do("l6.run()")
    page.value("l6.tasks.open()")
    page.fill("task-text", NAME)
    page.fill("task-deck", f"* {NAME}\n")
    page.do("l6.tasks.saveFile()")
    page.same("in a task", [page.value("kept[0].text().then(JSON.parse)")[it] for it in ("task", "deck")], [NAME, f"* {NAME}\n"])
    page.value("document.getElementById('task-dialog').close()")


@trial
def letters_that_no_card_has(page: Page) -> None:
    """They are taken for no other letter, and end no card: not in a deck, and not in the input."""
    page.open()
    for letter in NO_LETTERS:
        page.put(f" ({letter},E,5)({letter},PD)(PL)\n")
        page.do("l6.run()")
        page.has(f"{letter!r} in a group", page.text("empty"), "l6: card 1: no reading")
        page.put(f" (A,E,5) {letter}(A,PD)\n")
        page.do("l6.run()")
        page.has(f"{letter!r} in a word", page.text("empty"), "l6: card 1: no reading")
    read = []
    for text in [f"{it}B\n" for it in ("ÿ", *NO_LETTERS) if ord(it) < 0x10000 and it != "é"]:
        page.put(" (A,IN,2)(A,PR,2)(PL)\n", text)
        page.do("l6.run()")
        read.append(page.text("printed") or page.text("empty"))
    page.same("in an input all are the same, and none is an A", [len(set(read)), read[0][:3]], [1, "?B\n"])


@trial
def each_letter_beside_its_number(page: Page) -> None:
    """From A to Z a number that is the code of a letter has it beside it, and the numbers next to these have none."""
    letters = "ABCDEFGHIJKLMNOPQRSTUVWXYZ"
    page.open()
    page.put("".join(f" ({it},EH,{it})\n" for it in letters))
    page.do("l6.run()")
    rows = page.value("[...document.querySelectorAll('#bugs tr')].map(it => it.textContent)")
    page.same("in the table of bugs", [text[:6] for text in rows], [f"{it}{33 + at}“{it}”" for at, it in enumerate(letters)])
    cards = page.value("[...document.querySelectorAll('.bug-cards small')].map(it => it.textContent)")
    page.same("on cards", cards, [f"“{it}”" for it in letters])
    page.put(" (0,DN,0,35)(A,GT,1)(AN,E,32)\n" + " (AN,A,1)\n" * 27)
    cell = "document.querySelector('.cell .value').textContent"
    shown = []
    for number in range(28):
        page.do(f"l6.state({4 + number * 3})")
        shown.append(page.value(cell))
    page.same("in the drawing", shown, ["32", *(f"{33 + at} {it}" for at, it in enumerate(letters)), "59"])


@trial
def words_in_small_letters(page: Page) -> None:
    """A deck in small letters is read as one in capitals: conditions, exits, calls and what is said of each."""
    page.open()
    found = []
    for deck in (WORDS, WORDS.lower()):
        page.put(deck)
        page.do("l6.state(0)")
        found.append([[step, over, frames.upper(), said.upper()] for step, over, frames, said in page.value(TOLD)])
    page.right("there are many states", len(found[0]) > 30, str(len(found[0])))
    differ = [number for number, (one, other) in enumerate(zip(*found)) if one != other]
    page.same("states in which something else is said", [len(found[1]), differ[:3]], [len(found[0]), []])
    page.right("calls are said", any("FACT" in it[2] for it in found[0]))


@trial
def files_of_other_systems(page: Page) -> None:
    """A whole job is parted at its marks, whatever is behind them; a mark elsewhere is none."""
    page.open()
    for what, (text, want) in FILES.items():
        page.do(f"l6.library.openFile(new File([{json.dumps(text)}], 'a.deck'))")
        boxes = [page.box(it) for it in ("deck", "commands", "input")]
        page.same(what, boxes, [it.replace("\r", "") for it in want])
        page.value(f"document.getElementById('deck').value = {json.dumps(text)}, l6.changed(), l6.library.isChanged = false")
        page.same(f"{what}, pasted", page.box("deck"), want[0].replace("\r", ""))
