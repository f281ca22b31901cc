"""Trials of tasks and answers: what a condition asks, by what an answer is judged, and what of a task is kept."""
from __future__ import annotations

import json

from page import Page, trial

# Decks, and whether they use field N.
USES_N = {
    " (A,IN,1,END)\nEND (PL)\n": False,  # labels
    " (SEND,DO,END)\nSEND DONE\nEND DONE\n": False,
    " (A,GT,1,,END)\nEND (PL)\n": False,
    " (A,GT,1)(B,DP,A,,END)\nEND (PL)\n": False,
    " (A,EH,ANN)\n": False,  # texts
    " IF (A,EH,ANN) THEN (PL)\n": False,
    " DONE\n (AN,PH)\n": False,
    " (0,DN,18,35)(S,FD,N)\n": False,  # a definition alone
    " (N,E,5)\n": False,  # a bug
    " (0,DN,18,35)(A,GT,1)(AN,E,5)\n": True,
    " (0,DN,18,35)(A,GT,1)(AN,EH,X)\n": True,
    " (0,DN,18,35)(A,GT,1)(B,E,AN)\n": True,
    " (0,DN,18,35)(A,GT,1)(A,GT,1,AN)\n": True,
    " (0,DN,18,35)(A,GT,1)(S,FC,AN)\n": True,
    " (0,DN,18,35)(A,GT,1)(AN,DF,0,5)\n": True,
    " (0,DN,18,35)(A,GT,1)\n IF (A,N,AN) THEN\n": True,
    " (0,DN,18,35)(A,GT,1)(A,FR,AN)\n": True,
    " (0,DN,18,35)(0,DM,0,17)(A,GT,1)(AN,E,A)(ANM,E,5)\n": True,
}
TASK = {"task": "Turn it round.", "printout": "BA", "input": "AB\n", "deck": "* X\n", "options": {"steps": 40},
        "tests": [{"input": "XY\n", "printout": "YX"}], "conditions": {"noLost": True}}
RIGHT = " (A,IN,1)(B,IN,1)(B,PR,1)(A,PR,1)(PL)\n"
SLOW = f"L (N,A,1)\n IF (N,L,30) THEN L\n{RIGHT}"
VERDICT = "document.getElementById('verdict').textContent"
BELONGS = """(({task, input, tests, options, conditions}) => ({task, input, tests, options, conditions}))
    (l6.library.exercise ?? {})"""
# Files are chosen in a box, as a reader does.
CHOSEN = """((id, files) => {
    const box = document.getElementById(id), all = new DataTransfer();
    for (const [name, text] of Object.entries(files)) all.items.add(new File([text], name));
    box.files = all.files;
    box.dispatchEvent(new Event('change'));
    return box.files.length;
})(%s, %s)"""


def belongs(page: Page) -> dict:
    """The task to which the deck belongs."""
    return page.value(BELONGS)


@trial
def a_field_that_is_used(page: Page) -> None:
    """A field is used by chains alone: labels, texts and definitions use none."""
    page.open()
    task = {"printout": "", "conditions": {"uses": "N"}}
    for deck, is_used in USES_N.items():
        verdict = page.value(f"l6.answers.verdict({json.dumps({**task, 'deck': deck})}, {json.dumps(deck)})")
        page.same(f"whether N is used in {deck!r}", verdict, "" if is_used else "field N is not used")
    page.open("#exercise-5")
    page.fill("deck", " (A,IN,1,END)\nEND (STRESSED,PH)(PL)\n")
    page.click("run")
    page.becomes("the printout alone, with a label END", VERDICT, "Not yet: just this is printed, but field N is not used.")
    page.value("l6.library.isChanged = false")


@trial
def an_answer_is_judged_by_its_task(page: Page) -> None:
    """Its input and its options are those of the task, whatever those of the page are."""
    page.open()
    page.value(f"l6.library.openTask({json.dumps(TASK)})")
    answers = {"ada.answer": RIGHT, "bob.answer": SLOW}
    files = {name: json.dumps({"what": "l6 answer", "name": name[:3], "task": TASK["task"], "deck": deck, "when": ""})
             for name, deck in answers.items()}
    rows = "[...document.querySelectorAll('#answers tr')].map(it => it.cells[2].textContent)"
    want = ["✓ solved", "the run does not end by DONE"]
    for steps in (5, 40, 1_000_000):
        page.fill("steps", steps, "change")
        page.value(CHOSEN % ("'answer-files'", json.dumps(files)))
        page.becomes(f"of 40 steps at most, where the page has {steps}", rows, want)
    page.value("document.getElementById('answers').replaceChildren()")
    left = page.value(CHOSEN % ("'answer-files'", json.dumps(files)))
    page.same("the box is empty, so that the same can be chosen again", left, 0)
    page.becomes("which are read", rows, want)
    page.same("and so is that of folders", page.value(CHOSEN % ("'answer-folder'", json.dumps(files))), 0)
    page.becomes("which are read, too", rows, want)
    page.value("l6.tasks.open(), document.getElementById('answers-dialog').showModal()")
    page.value("document.querySelector('#answers tr button').click()")
    page.same("Open closes both dialogs", page.value(
        "['task-dialog', 'answers-dialog'].map(it => document.getElementById(it).open)"), [False, False])
    page.becomes("and opens the deck that was handed in", "document.getElementById('deck').value", RIGHT)
    page.fill("deck", SLOW)
    page.fill("steps", 1_000_000, "change")
    page.click("run")
    page.becomes("a pupil reads the same", VERDICT,
                 "Not yet: just this is printed, but with the options of the exercise the run does not end by DONE.")
    page.value("l6.library.isChanged = false")


@trial
def hidden_inputs_as_they_are_written(page: Page) -> None:
    """Blank lines are part of a hidden input, at its begin, too; what can't be read makes no task, which is said."""
    page.open()
    page.put("L (A,IN,1,E)(A,PR,1) L\nE (PL)\n", "AB\n")
    page.do("l6.run()")
    page.value("l6.tasks.open(), document.getElementById('task-more').open = true")
    page.fill("task-text", "Print it.")
    page.fill("task-tests", "\nA\n---  \n\n\nB\n----\n C\n---\n")
    task = page.value("l6.tasks.task()")
    page.same("the inputs", [it["input"] for it in task["tests"]], ["\nA\n", "\n\nB\n", " C\n"])
    page.same("with what is printed for them", [len(it["printout"].rstrip()) for it in task["tests"]], [81, 161, 2])
    for box, text in (("task-list", "L N"), ("task-uses", "?")):
        page.fill(box, text)
        page.same(f"{text} makes no task", page.value("l6.tasks.task()"), None)
        page.has("which is said", page.text("task-note"), f"and not “{text}”.")
        page.fill(box, "")
    page.fill("task-tests", "")
    page.value("document.getElementById('task-dialog').close()")


@trial
def a_task_stays_with_its_deck(page: Page) -> None:
    """A task of a file or a link is there again when the page is opened again, or from a link, as it was given."""
    page.open()
    page.value("localStorage.clear()")
    page.do(f"l6.library.openFile(new File([JSON.stringify({json.dumps(TASK)})], 'a.task'))")
    given = {key: TASK[key] for key in ("task", "input", "tests", "options", "conditions")}
    page.same("it is opened", belongs(page), given)
    page.fill("deck", RIGHT)
    page.fill("input", "OTHER\n")
    page.fill("steps", 99, "change")
    page.browser.wait("JSON.parse(localStorage.getItem('l6.work'))?.options.steps === 99")
    page.open("", keeps=True)
    boxes = [page.box(it) for it in ("deck", "input", "steps")]
    page.same("what was typed is there again", boxes, [RIGHT, "OTHER\n", "99"])
    page.same("with its task", belongs(page), given)
    page.has("which is shown", page.text("exercise"), "Turn it round.")
    page.do("l6.library.makeLink()")
    link = page.value("location.hash")
    page.value("l6.library.chooseExample('list')")
    page.value("l6.library.chooseExample('last:0')")
    page.same("and among the last decks", belongs(page), given)
    page.open(link)
    page.same("a link has both", [page.box("input"), belongs(page)], ["OTHER\n", given])
    page.fill("deck", RIGHT)
    page.click("run")
    page.has("other input prints something else", page.text("verdict"), "Not yet: line 1 is “TO”, and not “BA”.")
    page.fill("input", "AB\n")
    page.click("run")
    page.becomes("its own input solves it", VERDICT, "✓ Solved: just this is printed.")
    page.value("localStorage.clear(), l6.library.isChanged = false")
