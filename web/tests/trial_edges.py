"""Trials of what goes when it is over, of lists of no block and of one, of kinds of blocks that the reader chose, and of what is refused."""
from __future__ import annotations

import json

from page import NOTE, Page, trial
from trial_class import change
from trial_outside import KEPT
from trial_stays import READ, put

# Decks, a condition on the list at L by N, and why it does not hold at the end, or "".
LISTS = [
    (" DONE\n", 0, ""), (" (L,E,5)\n", 0, ""), (" (L,GT,1)\n", 1, ""), (" (1,DN,18,35)(L,GT,1)\n", 1, ""),
    (" (0,DN,18,35)(L,GT,1)\n", 0, "at the end the list at L has 1 and not 0 blocks"), (" (0,DN,18,35)(L,GT,1)(LN,E,7)\n", 1, ""),
    (" (0,DN,18,35)(L,GT,1)(LN,GT,1)(LNN,GT,1)\n", 3, ""), (" (0,DN,18,35)(L,GT,1)(LN,GT,1)(LNN,GT,1)\n", 2, "at the end the list at L has 3 and not 2 blocks"),
    (" (0,DN,18,35)(M,GT,1)(MN,GT,1)\n", 2, "at the end the list at L has 0 and not 2 blocks"),
    (" (0,DN,18,35)(0,DM,0,17)(L,GT,1)(LM,GT,1)\n", 2, "at the end the list at L has 1 and not 2 blocks"),
]
# What the help has of cards and tests, as docs/language.md has it.
HELP = [
    ["* NOTE", "column 1 is *: a comment"], ["+(PL)", "column 1 is +: continues the statement before"],
    [" IFANY (A,E,1)(A,E,9) THEN DONE", "IFALL, IFANY, IFNONE and IFNALL have several tests; IF and NOT one"],
    [" DONE", "the exit that returns from a call, or ends the run; FAIL goes to the call's fail label"],
    ["ANV", "a chain: bug A, field N of the block at A, and field V of the block to which that leads"],
    ["(A,N,B)", "A is not B"], ["(A,G,5)", "A is greater than 5"], ["(A,L,5)", "A is less than 5"], ["(A,O,5)", "each bit that is one in 5 is one in A"],
    ["(A,Z,5)", "each bit that is one in 5 is zero in A"], ["(A,E,5)", "A becomes 5"], ["(A,N,B)", "A keeps the bits that are one in B, too"],
]
ECHO = "L (A,IN,1,E)(A,PR,1) L\nE (PL)\n"


@trial
def what_goes_when_it_is_over(page: Page) -> None:
    """The colour of a trap goes with its run, the haste of quick steps with Play, the colour of a wrong chain with that."""
    page.open("#lost@21")
    trapped = "document.getElementById('now').classList.contains('trapped')"
    page.same("a trap", page.value(trapped), True)
    page.fill("steps", 999_999, "change")
    page.same("another option", page.value(trapped), False)
    page.put("L (A,A,1)\n IF (A,L,500) THEN L\n")
    quick = "document.body.classList.contains('quick')"
    page.value("document.getElementById('speed').value = '40'")
    page.click("play")
    page.becomes("quick steps", quick, True)
    page.value("l6.player.pause()")
    page.same("and a pause", page.value(quick), False)
    page.value("document.getElementById('speed').value = '600'")
    page.example("lost", 14)
    wrong = "[document.getElementById('answer').textContent, document.getElementById('answer').classList.contains('wrong')]"
    for chain, want in (("ANNV", ["trap 2", True]), ("A", ["= 1024 →", False]), ("1A", ["a chain is 1 to 6 names, the first a letter", True]), ("AV", ["= 5 ", False]), ("", ["", False])):
        page.fill("chain", chain)
        page.becomes(f"the chain {chain!r}", wrong, want)


@trial
def lists_of_no_block_and_of_one(page: Page) -> None:
    """A list is as long as the blocks that the field leads through: a bug that leads to none has a list of none."""
    page.open()
    for deck, length, want in LISTS:
        task: dict[str, object] = {"printout": "", "conditions": {"list": {"bug": "L", "field": "N", "length": length}}}
        page.same(f"{length} of {deck.strip()}", page.value(f"l6.answers.verdict({json.dumps(task)}, {json.dumps(deck)})"), want)
    tests = [{"input": text, "printout": text} for text in ("X", "YZ", "Q")]
    task = {"printout": "", "tests": tests}
    for deck, want in ((ECHO, ""), (" (A,IN,1,E)(A,PR,1)\nE (PL)\n", "with hidden input 2 of 3, something else is printed than is wanted")):
        page.same(f"hidden inputs of {deck.strip()}", page.value(f"l6.answers.verdict({json.dumps(task)}, {json.dumps(deck)})"), want)


@trial
def blocks_as_the_reader_wants_them(page: Page) -> None:
    """With words, small, and as it is best: what is chosen is drawn, however many blocks there are."""
    page.open()
    put(page, "tree31")
    page.do("l6.end()")
    kinds = "['.size', '.chip'].map(it => document.querySelectorAll(`#drawing .block ${it}`).length + document.querySelectorAll(`#drawing .block${it}`).length)"
    for detail, want in (("cards", [31, 0]), ("boxes", [0, 0]), ("cards", [31, 0])):
        page.fill("detail", detail, "change")
        page.same(f"blocks drawn as {detail}", page.value(kinds), want)
    page.fill("detail", "auto", "change")
    page.put("L (A,A,1)(R,DO)\n IF (A,L,503) THEN L\n DONE\nR DONE\n")
    page.do("l6.end()")
    page.value("document.getElementById('show-calls').click()")
    page.becomes("of very many calls the first 500 are shown", "[document.querySelectorAll('#call-tree li').length, document.querySelector('#call-tree li:last-child').textContent]",
                 [501, "and 3 more calls"])
    page.value("document.getElementById('show-calls').click()")


@trial
def uses_after_free_are_spoken(page: Page) -> None:
    """A step that follows an old pointer is announced to screen readers, too, and is in the title of what has changed."""
    page.open()
    put(page, "dangling")
    page.do("l6.state(17)")
    told = "C leads to 1025, freed at state 14, and follows it to the block of get 3"
    heard = []
    for _ in range(8):
        page.do("l6.step()")
        heard.append([told in page.text(it) for it in ("changes", "spoken")] + [told in page.value("document.getElementById('changes').title")])
    page.same("one step of eight, in each way", [sum(it) for it in zip(*heard)], [1, 1, 1])
    page.same("the same step", [it for it in heard if any(it)], [[True, True, True]])


@trial
def what_the_browser_refuses(page: Page) -> None:
    """Where nothing can be copied a link is in the address, and that is said; an answer without a name has one."""
    page.open()
    page.value("navigator.clipboard.writeText = () => Promise.reject(new Error('no'))")
    page.put(" (A,IN,1)(A,PR,1)(PL)\n", "Q\n")
    page.do("l6.run()")
    page.do("l6.library.makeLink()")
    page.right("a link", page.note().startswith("The link is in the address."), page.note())
    page.value("l6.tasks.open()")
    page.fill("task-text", "Print it.")
    page.value("history.replaceState(null, '', '#x')")
    page.do("l6.tasks.copyLink()")
    page.same("of a task", [page.text("task-note"), page.value("location.hash.startsWith('#job=')")], ["The link is in the address.", True])
    page.value("document.getElementById('task-dialog').close()")
    page.fill("task-text", "")
    page.value(KEPT)
    page.value("l6.library.openTask({task: 'T', printout: 'Q', deck: '* X\\n', input: '', options: {}})")
    page.value("document.getElementById('hand-in').click()")
    page.same("an answer without a name", [page.value("kept.at(-1)"), page.value(NOTE)], ["my.answer", "Saved as my.answer: hand that file in."])
    for name, file in (("Žofie Nová", "Žofie-Nová.answer"), (" 李 4/b ", "李-4-b.answer"), ("  ", "my.answer")):
        page.fill("answer-name", name)
        page.value("document.getElementById('hand-in').click()")
        page.same(f"the answer of {name}", page.value("kept.at(-1)"), file)
    change(page, "* X\n")
    page.value("l6.library.isChanged = false")


@trial
def findings_on_the_card_that_is_typed(page: Page) -> None:
    """While a card is typed what is wrong with others is shown, and what is wrong with that one where the reader rests."""
    page.open()
    page.put(" (A,E,1)\n (A,Q,1)\n (B,Q,1)\n")
    places = "[...document.querySelectorAll('#fault .place')].map(it => it.textContent)"
    marks = "l6.editor.findings.map(it => it.card)"
    page.focus("deck", 12)
    for what, typed, want in (("at first", "-1e9", [1, 2]), ("while card 2 is typed", "performance.now() + 1e9", [2]), ("after a rest", "-1e9", [1, 2])):
        page.do(f"(l6.checker.typed = {typed}, l6.checker.check())")
        page.same(what, [page.value(places), page.value(marks)], [[f"{it + 1}:5" for it in want], want])


@trial
def signs_keep_the_focus(page: Page) -> None:
    """Where a field is clicked, and the drawing is made again, what was clicked still has the focus."""
    page.open("#list@60")
    page.browser.wait(READ)
    kept = """[...document.querySelectorAll('#legend button')].map(it => it.id).map(id => {
        document.getElementById(id).focus();
        document.getElementById(id).click();
        return [id, document.activeElement.id];
    })"""
    found = page.value(kept)
    page.same("three signs", [it[0] for it in found], ["kind-0.0.5", "way-0.18.35", "kind-0.18.35"])
    page.same("what has the focus", [it[1] for it in found], [it[0] for it in found])


@trial
def a_task_that_is_opened_again(page: Page) -> None:
    """What its maker has written stays, the deck is the one of the page, and what was missing is not said any more."""
    page.open()
    page.put(" (A,IN,1)(A,PR,1)(PL)\n", "Q\n")
    page.do("l6.run()")
    boxes = "['task-printout', 'task-deck', 'task-text'].map(it => document.getElementById(it).value).concat(document.getElementById('task-note').textContent)"
    page.click("task")
    page.same("at first", page.value(boxes), ["Q\n", " (A,IN,1)(A,PR,1)(PL)\n", "", ""])
    page.fill("task-printout", "MINE\n")
    page.do("l6.tasks.task()")
    page.same("what is missing", page.text("task-note"), "Missing: what is to be done.")
    page.fill("task-text", "Print it.")
    page.value("document.getElementById('task-dialog').close()")
    change(page, " (PL)\n")
    page.click("task")
    page.same("again", page.value(boxes), ["MINE\n", " (PL)\n", "Print it.", ""])
    page.fill("task-printout", "")
    page.value("document.getElementById('task-dialog').close()")
    page.do("l6.end()")
    page.value("l6.tasks.open()")
    page.same("where no printout is written it is that of the run", page.box("task-printout"), "\n")
    page.value("document.getElementById('task-dialog').close(), l6.library.isChanged = false")


@trial
def the_language_in_the_help(page: Page) -> None:
    """The help says of cards and tests what the language says, and has words for each operation."""
    page.open()
    rows = page.value("[...document.querySelectorAll('#reference tr')].map(it => [it.cells[0].textContent, it.cells[1].textContent])")
    page.same("rows that are missing", [it for it in HELP if it not in rows], [])
    page.same("rows without words", [text for text, says in rows if len(says) < 8], [])
    named = {text.strip("()").split(",")[-1 if text.count(",") < 1 else 1][:2] for text, _ in rows if text.startswith("(")}
    page.same("operations that are left out", sorted({"DN", "FC", "FD", "GT", "DP", "FR", "DO", "IN", "PR", "PD", "PO", "PH", "PL"} - named), [])
