"""Trials of what leaves the page, and of what is kept: frames, pictures, print, work, tasks and answers."""
from __future__ import annotations

import json
import xml.etree.ElementTree as ElementTree

from page import Page, trial
from trial_stays import DECKS, READ, put

KEPT = """window.kept = [];
    URL.createObjectURL = (it => blob => (window.kept.push(blob), it(blob)))(URL.createObjectURL.bind(URL));
    HTMLAnchorElement.prototype.click = function() { if (this.download) window.kept.push(this.download); };"""
CHEAT = " (STRESSED,PH)(PL)\n"
FORWARDS = """ (0,DC,0,5)(0,DN,18,35)
READ (A,IN,1)
 IF (A,EH,.) THEN WALK
 IF (L,E,0) THEN (L,GT,1)(E,E,L)(LC,E,A) READ
 (EN,GT,1)(E,E,EN)(EC,E,A) READ
WALK (P,E,L)
STEP IF (P,N,0) THEN (PC,PR,1)(P,E,PN) STEP
 (PL)
"""


def typed(page: Page, deck: str) -> None:
    """Types a deck, in place of what is there."""
    page.fill("deck", deck)


def verdict(page: Page) -> str:
    """What is said of the answer, once the hidden inputs were tried."""
    page.browser.wait("!document.getElementById('verdict').textContent.includes('are tried')")
    return page.text("verdict")


@trial
def a_frame_of_another_page(page: Page) -> None:
    """Drawing, deck and five buttons."""
    page.browser.resize(900, 480)
    page.open("#reverse@121;embed")
    shown = "[...document.querySelectorAll('.controls button')].filter(it => it.offsetHeight).map(it => it.id)"
    page.same("its buttons", page.value(shown), ["back", "play", "step", "start", "end"])
    gone = """['header', '.papers', '#store-pane', '#details', '.editor', '.tools']
        .filter(it => document.querySelector(it).offsetHeight > 1)"""
    page.same("nothing else is there", page.value(gone), [])
    page.right("the drawing is", page.value("document.getElementById('drawing').offsetHeight > 200"))
    page.has("the deck, and where the run is", page.value("document.querySelector('.cards .at').textContent"), "(L,I,R)")
    page.click("step")
    page.right("a step", page.state() > 121)
    page.right("all is seen", page.value("l6.viewer.drawing.camera.isWhole"))
    page.browser.resize(1400, 900)
    page.open("#reverse@121")
    page.value("navigator.clipboard.writeText = (it) => { window.copied = it; return Promise.resolve(); }")
    page.value("document.getElementById('share').open = true")
    page.click("frame-code")
    page.browser.wait("window.copied")
    page.has("its code", page.value("copied"), "#reverse@121;embed\"")
    page.has("which has the whole address", page.value("copied"), f'src="{page.value("location.href").split("#")[0]}#')


@trial
def pictures_of_it(page: Page) -> None:
    """SVG and PNG of all that is drawn, without the page's style."""
    page.open()
    put(page, "reverse")
    page.do("l6.state(121)")
    page.value(KEPT)
    page.value("l6.pictures.saveSvg()")
    text = page.value("kept[0].text()")
    root = ElementTree.fromstring(text.split("?>", 1)[1])
    space = "{http://www.w3.org/2000/svg}"
    places = [it.text for it in root.iter(f"{space}text") if (it.text or "").isdigit() and len(it.text or "") == 4]
    page.right("the SVG has the blocks", {"1024", "1031"} <= set(places), str(places))
    styled = [it for it in root.iter() if "style" in it.attrib]
    classes = [it for it in root.iter() if "class" in it.attrib]
    page.same("no class is left in it", [classes, len(styled) > len(places)], [[], True])
    page.right("but colours", ("fill:" in text, "stroke:" in text))
    page.do("l6.pictures.savePng()")
    png = page.value("(async () => [...new Uint8Array(await kept.find(it => it.type === 'image/png').arrayBuffer())]"
                     ".slice(0, 24))()")
    page.same("the PNG is one", bytes(png[:8]), b"\x89PNG\r\n\x1a\n")
    size = page.value("[l6.viewer.drawing.plan.width * 2, l6.viewer.drawing.plan.height * 2].map(Math.ceil)")
    page.same("of twice the size", [int.from_bytes(bytes(png[at:at + 4]), "big") for at in (16, 20)], size)
    dark = """(async () => {
        const bitmap = await createImageBitmap(kept.find(it => it.type === 'image/png'));
        const canvas = new OffscreenCanvas(bitmap.width, bitmap.height);
        const pen = canvas.getContext('2d');
        pen.drawImage(bitmap, 0, 0);
        const {data} = pen.getImageData(0, 0, bitmap.width, bitmap.height);
        let blue = 0;
        for (let at = 0; at < data.length; at += 4) blue += data[at] < 80 && data[at + 2] > 150 ? 1 : 0;
        return blue;
    })()"""
    page.right("the blocks are in it", page.value(dark) > 2000, str(page.value(dark)))


@trial
def a_handout(page: Page) -> None:
    """In print are the deck, whole, the states that were chosen, and the printout; and no bars."""
    page.open()
    put(page, "tree")
    drawn = "Boolean(document.querySelector('#drawing svg').getBoundingClientRect().height)"
    seen = []
    for state in (60, 137):
        page.browser.printing(True)
        seen.append(page.value(drawn))
        page.browser.printing(False)
        page.do(f"l6.state({state})")
        page.value("l6.pictures.keep(), l6.pictures.keep()")  # (a state that is kept twice is there once)
    page.same("the state that is shown, where none was chosen", seen, [True, False])
    page.value("l6.editor.drawCards()")
    page.browser.printing(True)
    shown = "(it => Boolean(document.querySelector(it).offsetHeight))"
    page.same("no bars", page.value(f"['header', '.controls', '.tools', '.editor', '.dock'].filter({shown})"), [])
    page.same("two states", page.count("#handout figure svg"), 2)
    page.has("with what is said of them", page.text("handout"), "State 137: AT 13.0 AFTER 137 STEPS")
    cards = page.value("[...document.querySelectorAll('.cards li')].filter(it => it.offsetHeight).length")
    page.same("all cards", cards, page.value("l6.editor.deck.cards.length"))
    page.right("of a height that none scrolls", page.value(
        "(it => it.scrollHeight <= it.clientHeight + 1)(document.querySelector('.cards'))"))
    page.right("the states are seen", page.value("document.querySelector('#handout svg').getBoundingClientRect().height > 50"))
    page.browser.printing(False)
    page.example("list")
    page.same("another deck has a handout of its own", page.count("#handout figure"), 0)


@trial
def work_is_kept(page: Page) -> None:
    """What is typed is there again, the last decks can be had, undo goes on, and a refusal is said."""
    page.open()
    page.value("localStorage.clear()")
    typed(page, "* MINE\n (A,E,7)(A,PD)\n")
    page.fill("input", "ABC")
    page.do("l6.state(2)")
    page.value("new Promise(it => setTimeout(it, 450))")
    page.open("", keeps=True)
    page.same("after the page was closed", [page.box("deck"), page.box("input")], ["* MINE\n (A,E,7)(A,PD)\n", "ABC"])
    page.has("with its place", page.text("empty"), "Go to state 2")
    page.value("l6.library.isChanged = false, l6.library.chooseExample('tree')")
    titles = "[...document.querySelectorAll('#example optgroup')].find(it => it.label === 'Your last decks')?.textContent ?? ''"
    page.same("it is among the last decks", page.value(titles), "MINE")
    page.value("document.getElementById('deck').focus(), document.execCommand('undo')")
    page.same("undo brings it back", page.box("deck"), "* MINE\n (A,E,7)(A,PD)\n")
    page.value("l6.library.isChanged = false, l6.library.chooseExample('list')")
    for number in range(12):
        typed(page, f"* DECK {number}\n")
        page.value("l6.library.isChanged = false, l6.library.chooseExample('list')")
    page.same("the last ten", page.value("l6.keeper.decks().length"), 10)
    page.same("the latest first", page.value("l6.keeper.decks()[0].deck"), "* DECK 11\n")
    page.value("l6.library.chooseExample('last:1')")
    page.same("one is opened again", page.box("deck"), "* DECK 10\n")
    page.value("Object.getPrototypeOf(localStorage).setItem = () => { throw new Error(); }")
    typed(page, "* NOT KEPT\n")
    page.browser.wait("document.getElementById('run-note').textContent.includes('keeps nothing')")
    page.right("a refusal is said", True)
    page.open()
    page.value("localStorage.clear()")


@trial
def work_is_kept_with_all(page: Page) -> None:
    """With what is typed are kept its options, its breakpoints, what fields hold, and its exercise."""
    page.open()
    page.value("localStorage.clear()")
    typed(page, DECKS["powers"]["deck"])
    page.fill("store", 3, "change")
    page.do("l6.end()")
    page.browser.wait(READ)
    page.value("l6.toggle(1)")
    for _ in range(2):
        page.browser.click(".legend [id='kind-1.0.35']")
    page.do("l6.state(9)")
    page.browser.wait("JSON.parse(localStorage.getItem('l6.work'))?.number === 9")
    page.open("", keeps=True)
    page.same("options and breakpoints", [page.box("store"), page.value("[...l6.editor.breakpoints]")], ["3", [1]])
    page.browser.click("#empty button")
    page.browser.wait("l6.view?.state.number === 9 && !l6.isBusy")
    page.browser.wait(READ)
    page.do("l6.end()")
    signs = "[...document.querySelectorAll('.legend .kind')].map(it => it.textContent)"
    page.same("what fields hold", page.value(signs), ["⚭", "⚭"])
    page.value("l6.library.isChanged = false, l6.library.chooseExample('exercise-5')")
    typed(page, "* MINE\n")
    page.browser.wait("JSON.parse(localStorage.getItem('l6.work'))?.deck === '* MINE\\n'")
    page.open("", keeps=True)
    page.has("the exercise", page.text("exercise"), "Exercise")
    page.value("localStorage.clear()")


@trial
def hidden_inputs(page: Page) -> None:
    """To print the answer does not solve an exercise."""
    page.open("#exercise-5")
    page.value("localStorage.clear()")
    typed(page, CHEAT)
    page.do("l6.run()")
    page.has("the printout alone", verdict(page), "field N is not used")
    typed(page, " (0,DN,18,35)(L,GT,1)(LN,E,0)" + CHEAT.strip() + "\n")
    page.do("l6.run()")
    page.has("nor with the field", verdict(page), "with hidden input 1 of 2, something else is printed")
    typed(page, FORWARDS)
    page.do("l6.run()")
    page.has("the list does", verdict(page), "Solved")
    page.value("localStorage.clear()")


@trial
def tasks_that_test(page: Page) -> None:
    """A task of one's own with hidden inputs and conditions; its link and its file have them."""
    page.open()
    page.put(FORWARDS, "AB.\n")
    page.do("l6.run()")
    page.value("l6.tasks.open(), document.getElementById('task-more').open = true")
    page.fill("task-text", "Build the list.")
    page.fill("task-tests", "XYZ.\n---\nQ.\n")
    page.fill("task-list", "L N 2")
    page.value("document.getElementById('task-lost').checked = true")
    page.same("a condition that one's own deck does not meet makes no task", page.value("l6.tasks.task()"), None)
    page.has("what it lacks is said", page.text("task-note"),
             "Your own deck does not solve it: with hidden input 1 of 2, at the end the list at L has 3 and not 2 blocks.")
    page.fill("task-tests", "XY.\n---\nQR.\n")
    task = page.value("l6.tasks.task()")
    page.same("what the solution prints", [it["printout"] for it in task["tests"]], ["XY\n", "QR\n"])
    page.same("conditions", task["conditions"], {"noLost": True, "list": {"bug": "L", "field": "N", "length": 2}})
    page.fill("task-tests", "")
    page.fill("task-list", "L N 9")
    page.same("nor does one without hidden inputs", page.value("l6.tasks.task()"), None)
    page.has("which is said, too", page.text("task-note"), "at the end the list at L has 2 and not 9 blocks")
    page.fill("task-list", "")
    page.fill("task-tests", "NO STOP\n")
    page.same("a hidden input with which it traps makes no task", page.value("l6.tasks.task()"), None)
    page.has("that is said", page.text("task-note"), "your own deck does not end by DONE: == TRAP")
    page.fill("task-tests", "XYZ.\n---\nQ.\n")
    page.value("document.getElementById('task-dialog').close()")
    page.value("navigator.clipboard.writeText = (it) => { window.copied = it; return Promise.resolve(); }")
    page.do("l6.tasks.copyLink()")
    link = page.value("copied").split("l6.html")[-1].split(".html")[-1]
    page.open(link[link.index("#"):])
    page.same("a link has them", page.value("l6.library.exercise.tests.length"), 2)
    typed(page, " (AB,PH)(PL)\n")
    page.do("l6.run()")
    page.has("the printout alone does not solve it", verdict(page), "with hidden input 1 of 2")
    typed(page, FORWARDS + " (L,E,0)(E,E,0)\n")
    page.do("l6.run()")
    page.has("nor where blocks are lost", verdict(page), "a block is lost at the end")
    typed(page, FORWARDS)
    page.do("l6.run()")
    page.has("the list does", verdict(page), "Solved")


@trial
def conditions_alone(page: Page) -> None:
    """A task may have conditions, and no hidden inputs."""
    page.open()
    page.value("l6.library.openTask({task: 'Use N.', printout: 'AB', deck: '', conditions: {uses: 'N', noLost: true}})")
    typed(page, " (AB,PH)(PL)\n")
    page.do("l6.run()")
    page.has("the printout alone", verdict(page), "field N is not used")
    typed(page, " (0,DN,18,35)(L,GT,1)(LN,E,0)(L,E,0)(AB,PH)(PL)\n")
    page.do("l6.run()")
    page.has("a block is lost", verdict(page), "a block is lost at the end")
    typed(page, " (0,DN,18,35)(L,GT,1)(LN,E,0)(AB,PH)(PL)\n")
    page.do("l6.run()")
    page.has("all of it", verdict(page), "Solved")


@trial
def a_ring_is_no_list(page: Page) -> None:
    """A condition on a list is not met by a ring of as many blocks."""
    page.open()
    task = {"printout": "", "conditions": {"list": {"bug": "L", "field": "N", "length": 2}}}
    for deck, want in ((" (0,DN,18,35)(L,GT,1)(LN,GT,1)\n", ""),
                       (" (0,DN,18,35)(L,GT,1)(LN,GT,1)(LNN,E,L)\n", "at the end the list at L has no end and not 2 blocks")):
        page.same(f"the verdict on {deck.strip()}", page.value(f"l6.answers.verdict({json.dumps(task)}, {json.dumps(deck)})"), want)


@trial
def answers_of_a_class(page: Page) -> None:
    """Files that pupils hand in, and a table of them, each run again."""
    page.open("#exercise-5")
    page.value("localStorage.clear()")
    page.value(KEPT)
    typed(page, FORWARDS)
    page.fill("answer-name", "Ada L.")
    page.value("document.getElementById('hand-in').click()")
    page.same("the file", page.value("kept[1]"), "Ada-L-.answer")
    answer = json.loads(page.value("kept[0].text()"))
    page.same("what it has", [answer["name"], answer["exercise"], answer["deck"]], ["Ada L.", "exercise-5", FORWARDS])
    files = {"ada.answer": answer, "bob.answer": {**answer, "name": "Bob", "deck": CHEAT},
             "cy.answer": {**answer, "name": "Cy", "deck": " (A,E\n"}, "di.answer": {"what": "else"}, "notes.txt": {}}
    page.do(f"""(async () => l6.answers.read(Object.entries({json.dumps(files)})
        .map(([name, it]) => new File([JSON.stringify(it)], name))))()""")
    rows = page.value("[...document.querySelectorAll('#answers tr')].map(it => [...it.cells].map(one => one.textContent))")
    page.same("the table", [it[:3] for it in rows], [
        ["Ada L.", "ada.answer", "✓ solved"],
        ["Bob", "bob.answer", "field N is not used"],
        ["Cy", "cy.answer", "l6: card 1: no reading"],
        ["?", "di.answer", "this is no answer"],
    ])
    page.same("how many", page.text("answers-note"), "4 of 4 read, 1 solved")
    page.value("document.getElementById('answers-dialog').showModal(), document.querySelector('#answers button').click()")
    page.same("one is opened", page.box("deck"), FORWARDS)


@trial
def all_calls(page: Page) -> None:
    """What is saved belongs to its call, at any depth; the recursion is a tree, which is folded."""
    page.open()
    put(page, "tree")
    page.do("l6.state(150)")
    page.browser.wait("document.querySelectorAll('#frames li').length > 0")
    cards = "[...document.querySelectorAll('#frames li')].map(it => it.textContent.replace(/ at \\d+.*?(?=[A-Z]|$)/, ' '))"
    page.same("calls with what they saved", len(page.value(cards)), page.value("l6.view.amounts.returns"))
    page.has("its content", page.value(cards)[1], "X = ")
    page.click("show-calls")
    page.browser.wait(READ)
    page.same("all calls of the run", page.value("document.querySelector('#call-tree h3 small').textContent"),
              str(page.value("l6.session.chronicle.calls.length")))
    waits = page.value("document.querySelectorAll('#call-tree .waits').length")
    page.same("those that wait are marked", waits, page.value("l6.view.amounts.returns"))
    page.right("the others are folded", page.value("document.querySelectorAll('#call-tree details:not([open])').length") > 0)
    page.browser.click("#call-tree .waits button.to")
    page.browser.wait("!l6.isBusy")
    page.right("a click goes to the call", page.state() < 150)
    page.put("L (A,A,1)(R,DO)\n IF (A,L,60) THEN L\n DONE\nR DONE\n")
    page.do("l6.end()")
    page.value("document.getElementById('show-calls').click()")
    page.becomes("of many calls all", "document.querySelector('#call-tree h3').textContent", "All calls of the run 60")


@trial
def nothing_is_cut(page: Page) -> None:
    """The Manual opens beside; an array's words are whole; a deck without blocks shows its bugs."""
    page.open("#squares@40")
    cards = page.value("document.querySelector('.bug-cards').innerText.split(/\\s+/).filter(it => it)")
    page.same("bugs", cards, ["N", "4", "S", "16"])
    page.put(" (A,GT,8)(B,GT,1)\n")
    page.do("l6.run()")
    page.same("eight words", page.count(".block[data-place='1024'] .cell"), 8)
    page.put(" (2,DV,0,35)(A,GT,12)(AV,E,5)\n")
    page.do("l6.run()")
    page.same("how many words are not shown", page.value("document.querySelector('.block .rest').textContent"), "15 more words")
    page.click("manual")
    over = """(() => {
        const manual = document.getElementById('manual-pane').getBoundingClientRect();
        return ['deck', 'drawing'].filter(it => document.getElementById(it).getBoundingClientRect().right > manual.left + 1);
    })()"""
    page.same("the manual covers nothing", page.value(over), [])
    page.click("manual-close")


@trial
def known_defects(page: Page) -> None:
    """Keys on the slider and the bars, a task with umlauts, new arrows, the unit of the store, Run on a phone."""
    page.open("#lost@14")
    page.focus("slider")
    page.key("Home")
    page.same("Home on the slider", page.state(), 0)
    page.key("End")
    page.same("End on it", page.state(), 21)
    page.do("l6.state(14)")
    page.focus("splitter")
    page.key("ArrowLeft")
    page.same("an arrow on the bar is the bar's", page.state(), 14)
    page.value("l6.panes.open('tables')")
    page.focus("row-splitter")
    page.key("ArrowUp")
    page.same("on the other one, too", page.state(), 14)
    task = {"task": "Zähle die Wörter", "printout": "3", "deck": "* ÄÖÜ\n", "input": "", "options": {}}
    page.do(f"l6.library.openFile(new File([JSON.stringify({json.dumps(task)})], 'a.task'))")
    page.has("a task with umlauts", page.text("exercise"), "Zähle die Wörter")
    page.put(" (0,DN,18,35)(A,GT,1)(B,GT,1,BN)(BN,E,A)(AN,E,B)\n")
    page.do("l6.state(5)")
    page.do("l6.step()")
    page.same("the arrow of a field that got a pointer is new", page.count(".arrow.changed"), 1)
    page.open("#full@30000")
    page.fill("unit", 3)
    page.do("l6.step()")
    page.same("the unit that was chosen stays", page.box("unit"), "3")
    page.do("l6.viewer.show(l6.view, null, l6.session, false)")
    page.same("also where nothing is compared", page.box("unit"), "3")
    page.fill("input", "X")
    page.do("l6.state(30000)")
    page.same("and where the deck is run again", page.box("unit"), "3")
    page.value("l6.library.isChanged = false")
    page.browser.resize(375, 667, phone=True)
    page.open("#tree@137")
    for y in (0, 300, 900, 2000):
        page.value(f"scrollTo(0, {y})")
        seen = page.value("['run', 'step'].map(it => document.getElementById(it).getBoundingClientRect())"
                          ".every(it => it.top >= 0 && it.bottom <= innerHeight)")
        page.right(f"Run and Step are in sight at {y}", seen)
    page.value("scrollTo(0, 0)")
    page.click("run")
    page.right("after Run the drawing is in view", page.value(
        "(it => it.top < innerHeight - 120 && it.bottom > 120)(document.getElementById('drawing').getBoundingClientRect())"))
    page.browser.resize(1400, 900)
