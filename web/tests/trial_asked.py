"""Trials of what the page asks before it drops something, of what it opens again, and of keys and bars beside a run."""
from __future__ import annotations

import json

from page import NOTE, Page, trial
from trial_class import change
from trial_outside import KEPT

# Twelve statements, so that numbers of one and of two digits are in order otherwise than as texts.
TWELVE = " (A,A,1)\n" * 12
READS = " (A,IN,1)\n IF (A,EH,X) THEN FAIL\n (A,PR,1)(PL)\n"
CONFIRM = "window.questions = []; window.confirm = (it) => { questions.push(it); return false; }"
QUESTION = "The deck was changed and not saved. Open another one?"
COPY = "navigator.clipboard.writeText = (it) => { window.copied = it; return Promise.resolve(); }"
# Moves a bar by the pointer, which is taken away before it is let go, and then on; answers its shares before, and after both.
TAKEN = """((name) => {
    const bar = document.getElementById(name), share = () => bar.getAttribute('aria-valuenow'), {x, y} = bar.getBoundingClientRect();
    const event = (kind, by) => bar.dispatchEvent(new PointerEvent(kind, {pointerId: 1, clientX: x + by, clientY: y - by, buttons: 1, bubbles: true}));
    bar.setPointerCapture = () => {};
    event('pointerdown', 0);
    event('pointermove', 60);
    event('pointercancel', 60);
    const before = share();
    event('pointermove', 160);
    return [before, share()];
})"""
KEPT_BY_BROWSER = "((name, key) => document.getElementById(name).dispatchEvent(new KeyboardEvent('keydown', {key, bubbles: true, cancelable: true})))(%r, %r)"


@trial
def what_is_asked_before_a_deck_goes(page: Page) -> None:
    """The question says what it is about; where it is answered by no, the menu, the deck and the address stay."""
    page.open("#lost@14")
    page.value(CONFIRM)
    change(page, " (PL)\n")
    page.fill("example", "tree", "change")
    page.same("the question", page.value("questions"), [QUESTION])
    page.same("the deck, the menu and the address are as they were", [page.box("deck"), page.box("example"), page.value("location.hash")],
              [" (PL)\n", "lost", "#lost@14"])
    page.value("l6.library.isChanged = false")
    page.open("#exercise-1")
    page.value("l6.library.solved.add('exercise-1', '* SOLVED\\n'), l6.library.openExample('exercise-1')")
    page.value(CONFIRM)
    change(page, "* NOT THIS\n")
    page.value("l6.library.put({...l6.library.exercise, deck: '* BEGUN\\n'}, null, l6.library.exercise)")
    change(page, "* AND NOT THIS\n")
    page.value("l6.library.showExercise(), [...document.querySelectorAll('#verdict button')].find(it => it.textContent === 'Show how').click()")
    page.same("how it was solved is asked for, too", [page.value("questions"), page.box("deck")], [[QUESTION], "* AND NOT THIS\n"])
    page.value("l6.library.isChanged = false, localStorage.clear()")
    page.open("#tree@137")
    page.value("location.hash = '#job=damaged'")
    page.becomes("a damaged link", NOTE, "The link is damaged: its checksum is another one; a character was changed, or it was cut off.")
    page.same("takes nothing away", [page.value("l6.library.example.key"), page.state()], ["tree", 137])


@trial
def what_is_opened_again(page: Page) -> None:
    """A deck of the reader's is kept from when it is opened again; in a frame nothing is put among the last decks; a lecture is one again."""
    page.open()
    page.value("localStorage.clear()")
    work = {"deck": "L (A,A,1)\n IF (A,L,900) THEN L\n", "input": "", "options": {}, "number": 1234}
    page.value(f"localStorage.setItem('l6.decks', JSON.stringify([{json.dumps(work)}])), l6.library.chooseExample('last:0')")
    page.same("it is kept at once", page.value("l6.keeper.work()?.deck ?? ''"), work["deck"])
    page.same("its state is offered", page.value("document.querySelector('#empty button').textContent"), "Go to state 1,234")
    page.value("l6.library.isChanged = false, localStorage.removeItem('l6.decks')")
    page.open("#tree@137;embed", keeps=True)
    page.same("beside a frame", [page.value("l6.keeper.work()?.deck ?? ''"), page.value("l6.keeper.decks().length")], [work["deck"], 0])
    page.open("#tree@137", keeps=True)
    page.same("and beside a link", page.value("l6.keeper.decks().map(it => it.deck)"), [work["deck"]])
    page.value("l6.library.isChanged = false, localStorage.clear()")
    page.open("#tree@137;lecture")
    change(page, "* MINE\n (A,E,5)\n")
    page.value("l6.keeper.save()")
    page.browser.reload()
    page.same("a lecture that is loaded again", [page.value("l6.panes.isLecture"), page.box("deck")], [True, "* MINE\n (A,E,5)\n"])
    page.value("l6.panes.lecture(false), l6.library.isChanged = false, localStorage.clear()")


@trial
def numbers_in_links_and_boxes(page: Page) -> None:
    """Breakpoints of a link are in the order of their numbers; a state past all that a run may have is the last one that there can be."""
    page.open()
    page.put(TWELVE)
    page.value("l6.toggle(10), l6.toggle(9), l6.toggle(2)")
    page.do("l6.library.makeLink()")
    page.has("breakpoints of a link", page.value("location.hash"), "!2,9,10")
    page.put(" (A,E,5)\n")
    page.fill("number", 5_000_000_000, "change")
    page.settle()
    page.same("a state past all", page.note(), "There is no state 1,000,000,001: the last one is 5.")


@trial
def keys_beside_the_run(page: Page) -> None:
    """Keys on the bars and in the manual do not go on in the run; End on the slider goes to the end of a run whose length is not known."""
    page.open("#tree@137")
    page.value("l6.panes.open('tables')")
    for name, key in (("splitter", "ArrowLeft"), ("splitter", "ArrowRight"), ("row-splitter", "ArrowUp"), ("row-splitter", "ArrowDown")):
        page.focus(name)
        page.key(key)
        page.same(f"the state after {key} on {name}", page.state(), 137)
        page.same("which does not scroll", page.value(KEPT_BY_BROWSER % (name, key)), False)
    for name in ("splitter", "row-splitter"):
        before, after = page.value(f"{TAKEN}('{name}')")
        page.same(f"{name} stays where the pointer was taken away", after, before)
        page.value(f"document.getElementById('{name}').dispatchEvent(new MouseEvent('dblclick'))")
    page.click("manual")
    for key in ("n", "ArrowRight", "End", " "):
        page.focus("manual-text")
        page.key(key)
        page.same(f"the state after {key!r} in the manual", [page.state(), page.value("l6.player.isPlaying")], [137, False])
    page.click("manual-close")
    page.put("L (A,A,1) L\n", steps=2_000_001)
    page.do("l6.state(5)")
    page.focus("slider")
    page.key("End")
    page.has("the end", page.text("where"), "== LIMIT")


@trial
def tasks_go_out_whole(page: Page) -> None:
    """What is missing is listed, a link has the whole address, a printout ends without blank lines; a hidden input must end by DONE."""
    page.open()
    page.put(READS, "A\n")
    page.do("l6.run()")
    page.value(f"{COPY}; {KEPT}")
    page.click("task")
    page.fill("task-printout", "")
    page.browser.click("#task-link")
    page.same("what is missing", page.text("task-note"), "Missing: what is to be done, and what it is to print.")
    page.fill("task-text", "Print it.")
    page.fill("task-printout", "A\n\n")
    page.browser.click("#task-link")
    page.becomes("a link", "document.getElementById('task-note').textContent", "The link is copied.")
    page.right("of the whole address", page.value("copied.startsWith(`${location.href.split('#')[0]}#job=`)"), page.value("copied")[:80])
    page.browser.click("#task-file")
    page.becomes("a file", "document.getElementById('task-note').textContent", "Saved. Pupils open the file with Open.")
    page.same("its printout", page.value("kept.find(it => it.text).text().then(it => JSON.parse(it).printout)"), "A")
    page.fill("task-tests", "X\n")
    page.browser.click("#task-file")
    page.becomes("a hidden input of another end", "document.getElementById('task-note').textContent.slice(0, 59)",
                 "With a hidden input your own deck does not end by DONE: == ")
    page.value("document.getElementById('task-dialog').close(), document.getElementById('task-tests').value = ''")


@trial
def answers_that_are_read(page: Page) -> None:
    """Of a folder the files whose names end in .answer are read, and none of more than 2,000,000 bytes; each has a row with its heading."""
    page.open("#exercise-1")
    page.value(KEPT)
    page.fill("answer-name", "Ada")
    page.value("document.getElementById('hand-in').click()")
    answer = page.value("kept[0].text()")
    page.right("when it was handed in", abs(page.value("Date.now()") - page.value(f"Date.parse({json.dumps(json.loads(answer)['when'])})")) < 60_000)
    files = """[new File([%s], 'a.answer'), new File([%s], 'a.answer.txt'), new File([%s + ' '.repeat(2_000_000)], 'b.answer'),
        new File([%s.padEnd(2_000_000)], 'c.answer')]""" % ((json.dumps(answer),) * 4)
    page.value("l6.tasks.open(), document.getElementById('answers-dialog').showModal()")
    page.do(f"l6.answers.read({files})")
    page.same("how many", page.text("answers-note"), "2 of 2 read, 0 solved")
    page.same("which", page.value("[...document.querySelectorAll('#answers tr')].map(it => it.cells[1].textContent)"), ["a.answer", "c.answer"])
    page.same("the heading of a row", page.value("[...document.querySelectorAll('#answers th')].map(it => it.scope)"), ["row", "row"])
    page.value("document.querySelector('#answers button').click()")
    page.same("an answer that is opened closes what was open", page.count("dialog[open]"), 0)
    page.same("what it is to print is reached by the tab key", page.value("document.querySelector('#exercise pre').tabIndex"), 0)
    page.value("l6.library.isChanged = false")
